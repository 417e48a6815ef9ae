"""What all tools share: project texts read as the program reads them, their names, and the program that is asked."""

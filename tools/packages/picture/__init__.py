"""Pictures and reports of a line, made of a project text and of what `hotline` prints for it."""

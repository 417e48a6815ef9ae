"""Looks a project text through for what the program takes and a machine wouldn't like."""

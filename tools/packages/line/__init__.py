"""A line at a prompt, or on a page of this machine: the program's commands with names, and what else a person asks."""

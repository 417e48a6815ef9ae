"""The command line of `tools/names`."""

import argparse
from pathlib import Path

from projects.constants import LANGUAGES, printed
from projects.faults import FINE
from projects.files import content_of, document_of, parted
from projects.records import read_project


def run(words: list[str]) -> int:
    """Prints the constants of a project."""
    parser = argparse.ArgumentParser(
        prog="tools/names",
        description="Prints the names of a project's variables, slaves, groups and tasks as constants.",
        epilog="Status: 0 printed, 2 a name is wrong, or the input can't be read. docs/use/TOOLS.md has the names.",
    )
    parser.add_argument("project", help="a project text, or an input of hotline that begins with one; - for stdin")
    languages = parser.add_mutually_exclusive_group(required=True)
    for language in (*LANGUAGES, "json"):
        languages.add_argument(f"--{language}", action="store_const", const=language, dest="language")
    arguments = parser.parse_args(words)
    text, _ = parted(content_of(arguments.project))
    project = read_project(document_of(arguments.project, text), [])
    print(printed(project, arguments.language, Path(arguments.project).stem), end="")
    return FINE

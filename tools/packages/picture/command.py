"""The command line of `tools/picture`: what is asked for."""

import argparse
import sys
from pathlib import Path

from picture.drawing import picture
from picture.report import report
from picture.views import Run, run_of, view_against, view_since
from projects.asking import Program, add_options, program_of
from projects.faults import FINE
from projects.files import content_of, parted


def parsed(words: list[str]) -> argparse.Namespace:
    """The arguments; a word that is none ends the run with status 2."""
    parser = argparse.ArgumentParser(
        prog="tools/picture",
        description="Draws the line of a project, and what the last accepted edit of the commands made of it.",
        epilog="Status: 0 drawn, 2 the input can't be read or the program refuses it. docs/use/TOOLS.md tells the rest.",
    )
    parser.add_argument("project", help="a project text, or an input of hotline: a text, a line %%%% and commands")
    parser.add_argument("commands", nargs="?", help="a file with a command in each line, or - for standard input")
    beside = parser.add_mutually_exclusive_group()
    beside.add_argument("--since", type=int, metavar="EPOCH", help="beside the line as it was in an epoch, 0 at first")
    beside.add_argument("--against", metavar="OTHER", help="beside the line of another text or input")
    parser.add_argument("--report", action="store_true", help="an HTML page with tables in place of an SVG picture")
    add_options(parser)
    return parser.parse_args(words)


def input_run(program: Program, name: str, more: bytes = b"") -> Run:
    """An input with further commands, as the program runs it."""
    text, commands = parted(content_of(name))
    return run_of(program, Path(name).stem, text, commands + more)


def run(words: list[str]) -> int:
    """Writes what is asked for to standard output."""
    arguments = parsed(words)
    program = program_of(arguments)
    asked = input_run(program, arguments.project, content_of(arguments.commands) if arguments.commands else b"")
    if arguments.against is None:
        view = view_since(asked, arguments.since)
    else:
        view = view_against(asked, input_run(program, arguments.against))
    sys.stdout.buffer.write((report(view) if arguments.report else picture(view)).encode())
    return FINE

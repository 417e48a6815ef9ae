"""The command line of `tools/line`."""

import argparse
from pathlib import Path

from line.line import Line
from line.live import live_of
from line.prompt import prompt
from line.replay import Replay
from line.serving import serve
from projects.asking import BUILT, add_options, program_of
from projects.faults import FINE
from projects.files import content_of, parted


def run(words: list[str]) -> int:
    """Holds a session with a line."""
    parser = argparse.ArgumentParser(
        prog="tools/line",
        description="A line at a prompt, or on a page of this machine: the program's commands, with names.",
        epilog="Status: 0 at the end of the session, 2 the project can't be opened. docs/use/TOOLS.md has the commands.",
    )
    parser.add_argument("project", help="a project text, or an input of hotline, whose commands are left out")
    add_options(parser)
    parser.add_argument("--history", type=Path, metavar="FILE", help="keep the changes in this file, and begin with those in it")
    parser.add_argument("--serve", action="store_true", help="a page on this machine in place of the prompt")
    parser.add_argument("--port", type=int, default=0, help="the page's port; any free one if it is left out")
    arguments = parser.parse_args(words)
    text, _ = parted(content_of(arguments.project))
    # a program that is named is asked, also beside the library
    replay = live_of(text) if arguments.program == BUILT else None
    line = Line(replay or Replay(program_of(arguments), text), Path(arguments.project).stem, arguments.history)
    if arguments.serve:
        serve(line, arguments.port)
    else:
        prompt(line)
    return FINE

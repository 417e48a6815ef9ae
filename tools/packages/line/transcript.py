"""A run of the program with each command before its answers, and the command line of `tools/transcript`.

The program prints answers alone. So each command is followed by a mark, a command that prints one known line and changes
nothing: what is printed before it belongs to the command.
"""

import argparse

from line.replay import answer, commands_in, marked
from projects.asking import Program, add_options, input_of, program_of
from projects.faults import FINE, Refusal
from projects.files import content_of, parted


def transcript(program: Program, text: bytes, commands: bytes) -> list[str]:
    """Each line of the commands after `> `, and below each command what it was answered; a run that ends early is refused."""
    given = commands_in(commands)
    run = program.ran(input_of(text, [marked(command) for command in given]))
    if run.status != 0:
        program.printed(input_of(text, [commands]))  # refused in the program's words, with the line as it is counted there
        raise Refusal("the input leaves no room for a mark after each command")
    lines, printed = iter(run.lines), []
    for command in given:
        printed += [f"> {line}" for line in command.lines.decode(errors="replace").splitlines()]
        printed += answer(command, lines)
    return printed


def run(words: list[str]) -> int:
    """Prints the transcript of a run."""
    parser = argparse.ArgumentParser(
        prog="tools/transcript",
        description="Prints a run of hotline with each command, after `> `, before its answers.",
        epilog="Status: 0 printed, 2 the input can't be read or the program refuses it. docs/use/TOOLS.md has an example.",
    )
    parser.add_argument("input", help="an input of hotline: a text, a line %%%% and commands; - for stdin")
    add_options(parser)
    arguments = parser.parse_args(words)
    lines = transcript(program_of(arguments), *parted(content_of(arguments.input)))
    print("".join(f"{line}\n" for line in lines), end="")
    return FINE

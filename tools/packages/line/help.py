"""What the commands of a session do, in a line each."""

from pathlib import Path

from projects.faults import Refusal

HELP = Path(__file__).with_name("help.txt").read_text()


def one_command(name: str) -> list[str]:
    """The lines of the list that speak of a command."""
    lines = [line for line in HELP.splitlines() if name in line.replace(",", " ").split()]
    if not lines:
        raise Refusal(f"UnknownCommand: {name}; `help` lists the commands")
    return lines

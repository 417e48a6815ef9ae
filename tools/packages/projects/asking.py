"""Asks the built program: gives it a project text with commands, and takes what it prints."""

import argparse
import subprocess
from collections.abc import Iterator
from dataclasses import dataclass
from itertools import takewhile
from pathlib import Path

from projects.faults import Refusal
from projects.files import parted
from projects.toml import TomlFault, read_toml

BUILT = Path(__file__).resolve().parents[3] / "crates/hotline/out/hotline"
SECONDS = 60
# No variable has the number 0, so the answer `none` shows where the lines of the question before it end.
END = b"place 0\n"
KEPT_RUNS = 64
NOT_TOML = "project fault 1 NotToml"
# What a status means if the program prints nothing of it.
STATUSES = {4: "nothing: the input is too long, or reading it or writing the answers failed"}


@dataclass(frozen=True)
class Ran:
    """What a run ended with: its exit status, and the lines that it printed."""

    status: int
    lines: list[str]


class Program:
    """The program at a path, which is given so many seconds for a run. Its last runs are kept: the same input is not run twice."""

    def __init__(self, path: str | Path, seconds: int = SECONDS) -> None:
        self.path, self.seconds = Path(path).resolve(), seconds
        self.runs = 0
        self.kept: dict[bytes, Ran] = {}

    def ran(self, content: bytes) -> Ran:
        """A run over an input."""
        if content not in self.kept:
            while len(self.kept) >= KEPT_RUNS:
                del self.kept[next(iter(self.kept))]
            self.kept[content] = self.run(content)
        return self.kept[content]

    def run(self, content: bytes) -> Ran:
        """The same, without a look at what is kept. What prints no line and ends well is not the program."""
        try:
            run = subprocess.run([self.path], input=content, capture_output=True, timeout=self.seconds)
            self.runs += 1
            return Ran(run.returncode, run.stdout.decode().splitlines())
        except OSError as error:
            raise Refusal(f"{self.path}: {error.strerror}; docs/use/TOOLS.md says how it is built") from error
        except subprocess.TimeoutExpired as error:
            raise Refusal(f"{self.path} didn't end within {self.seconds} seconds; --seconds gives it more") from error
        except UnicodeDecodeError as error:
            raise Refusal(f"{self.path} isn't hotline: it prints bytes that are no text") from error

    def printed(self, content: bytes) -> list[str]:
        """The lines that the program prints for an input; what ends its run early is a refusal in its own words."""
        run = self.ran(content)
        if run.status != 0:
            raise Refusal(f"hotline ended with status {run.status} and said: {said_of(content, run)}")
        return run.lines

    def checked(self) -> "Program":
        """Refuses what is not the program: it answers a question about an empty project."""
        if self.ran(input_of(b"slave = []", [END])) != Ran(0, ["none"]):
            raise Refusal(f"{self.path} isn't hotline: it doesn't answer as the program does")
        return self


def said_of(content: bytes, run: Ran) -> str:
    """The program's last line; if it can't read the text, also where, and what may be missing."""
    said = run.lines[-1] if run.lines else STATUSES.get(run.status, "nothing")
    if said != NOT_TOML:
        return said
    text, commands = parted(content)
    try:
        read_toml(text)
    except TomlFault as fault:
        hint = "" if commands else "; is a line %% missing before commands?"
        return f"{said}: {fault}{hint}"
    return said


def add_options(parser: argparse.ArgumentParser) -> None:
    """The options of a tool that asks the program: which one, and how long a run may take."""
    parser.add_argument("--program", default=BUILT, help="the program that is asked, if not the built hotline")
    parser.add_argument(
        "--seconds", type=int, default=SECONDS, metavar="N", help=f"how long a run of it may take, {SECONDS} if it is left out"
    )


def program_of(arguments: argparse.Namespace) -> Program:
    """The program that these options name."""
    return Program(arguments.program, arguments.seconds).checked()


def input_of(text: bytes, commands: list[bytes]) -> bytes:
    """An input of the program: a text, the line `%%`, and commands with their line feeds."""
    ended = text if text.endswith(b"\n") or not text else text + b"\n"
    return ended + b"%%\n" + b"".join(commands)


def section(lines: Iterator[str]) -> list[str]:
    """The lines before the next end mark, which is taken too."""
    return list(takewhile(lambda line: line != "none", lines))

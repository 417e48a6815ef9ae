"""A session over a program that reads its whole input first: each question replays the recorded commands."""

import re
from collections.abc import Iterator
from dataclasses import dataclass, replace
from itertools import islice

from capture.frames import Frame, frame_bytes, read_frame
from projects.asking import END, Program, Ran, input_of, said_of, section
from projects.faults import Refusal
from projects.files import LONGEST_INPUT

ACCEPTED = re.compile(r"epoch (\d+) recut (\d+) moved (\d+)")
UNPROGRAMMED = re.compile(r"refused 17 Unprogrammed (\d+)")
SENT = re.compile(r"(?:sent|frame) (\d+): ([0-9a-f]+)")
EDITS = {"connect", "disconnect", "remap", "move", "declare"}
# What changes the master or the simulated line. The other commands look, and needn't be replayed.
CHANGES = EDITS | {"write", "send", "arrive", "post", "take", "name", "program", "cycle", "poke"}
# These print one line, which may be the mark's own: they get no mark.
ONE_LINE = {"place", "show"}


@dataclass(frozen=True)
class Command:
    """A command as the program reads it: one line, or a `declare` with its document and the line that ends it."""

    lines: bytes

    @property
    def words(self) -> list[str]:
        """The words of its first line."""
        return self.lines.split(b"\n", 1)[0].decode(errors="replace").split()

    @property
    def name(self) -> str:
        """Its first word."""
        return self.words[0]

    def document(self) -> bytes:
        """The document of a `declare`, without the line before it and the one that ends it."""
        return b"\n".join(self.lines.split(b"\n")[1:-2]) + b"\n"

    def __str__(self) -> str:
        return " ".join(self.words)


@dataclass(frozen=True)
class Recorded:
    """A command that changed something, and the lines that the program printed for it."""

    command: Command
    lines: list[str]

    def is_edit(self) -> bool:
        """Whether it is an edit of the line that was accepted."""
        return self.command.name in EDITS and not is_refused(self.lines)


def command_of(words: list[str]) -> Command:
    """A command of one line."""
    return Command(" ".join(words).encode() + b"\n")


def is_refused(lines: list[str]) -> bool:
    """Whether the program refused a command, by the last line that it printed."""
    return bool(lines) and lines[-1].startswith(("refused ", "declare fault ", "chain fault "))


def commands_in(content: bytes) -> list[Command]:
    """The commands of an input, blank lines left out."""
    commands: list[Command] = []
    lines: list[bytes] = []
    for line in content.split(b"\n"):
        lines.append(line.removesuffix(b"\r"))
        inside = lines[0].split() == [b"declare"]
        if inside and (len(lines) == 1 or lines[-1] != b"%%"):
            continue
        if lines[0].strip():
            commands.append(Command(b"\n".join(lines) + b"\n"))
        lines = []
    if lines:
        raise Refusal("a declare in the input has no line %% after its document")
    return commands


def marked(command: Command) -> bytes:
    """A command with the mark after it, if it has one."""
    return command.lines if command.name in ONE_LINE else command.lines + END


def answer(command: Command, lines: Iterator[str]) -> list[str]:
    """The lines that the program printed for a command, taken from those that are left."""
    return list(islice(lines, 1)) if command.name in ONE_LINE else section(lines)


def portions(commands: list[Command], room: int) -> Iterator[list[Command]]:
    """Some commands in their order, parted so that each part with its marks fits so many bytes of an input; one part at least."""
    portion, left = [], room
    for command in commands:
        if portion and len(marked(command)) > left:
            yield portion
            portion, left = [], room
        portion.append(command)
        left -= len(marked(command))
    yield portion


class Replay:
    """A project text and the commands recorded so far."""

    # What a prompt says of it.
    speed = "hotline plays all earlier commands again for each"

    def __init__(self, program: Program, text: bytes) -> None:
        self.program, self.text = program, text
        self.recorded: list[Recorded] = []
        self.answers([])

    def answers(self, commands: list[Command], recorded: list[Recorded] | None = None) -> list[list[str]]:
        """What is printed for each of some commands after the recorded ones, or after others; none of them is recorded."""
        before = self.recorded if recorded is None else recorded
        front = input_of(self.text, [one.command.lines for one in before])
        passed = sum(len(one.lines) for one in before)
        return [
            lines
            for portion in portions(commands, LONGEST_INPUT - len(front))
            for lines in self.answered(front + b"".join(map(marked, portion)), passed, portion)
        ]

    def answered(self, content: bytes, passed: int, commands: list[Command]) -> list[list[str]]:
        """The lines of the commands at the end of an input, before which so many lines are printed."""
        ran = self.program.ran(content)
        lines = iter(ran.lines[passed:])
        if ran.status == 0:
            return [answer(command, lines) for command in commands]
        if ran.status == 2:
            found = commands[-1] if commands else ""
            raise Refusal(f"BadCommand: hotline can't read `{found}`: a word of it is malformed or out of range")
        raise Refusal(said_of(content, Ran(ran.status, list(lines))))

    def play(self, commands: list[Command]) -> list[list[str]]:
        """What each command prints, one after another; those that change something are recorded, all of them or none."""
        recorded, answers = list(self.recorded), []
        for command in commands:
            [lines] = self.answers([command], recorded)
            answers.append(lines)
            if is_refused(lines):
                return answers
            if command.name in CHANGES:
                recorded.append(Recorded(command, lines))
        self.recorded = recorded
        return answers

    def edits(self) -> list[Recorded]:
        """The recorded edits, on which layout, places and register blocks hang alone."""
        return [one for one in self.recorded if one.is_edit()]

    def owed(self, recorded: list[Recorded] | None = None) -> int:
        """How many register blocks have to be written before a task is sent, perhaps after other commands."""
        found = UNPROGRAMMED.fullmatch(self.answers([command_of(["send", "0"])], recorded)[0][0])
        return int(found[1]) if found else 0

    def owed_after(self, edit: Recorded) -> int:
        """How many would be owed after an edit."""
        return self.owed([*self.recorded, edit])

    def owed_blocks(self, most: int) -> list[tuple[int, int]]:
        """The station address and the register of each owed block in the order of writing, at most so many: each is written well in
        turn, in a history of its own."""
        blocks, played = [], list(self.recorded)
        while len(blocks) < most:
            write = command_of(["write"])
            [lines] = self.answers([write], played)
            found = SENT.fullmatch(lines[0])
            if found is None:
                break
            frame = read_frame(bytes.fromhex(found[2]))
            [block] = frame.datagrams
            back = frame_bytes(Frame(frame.serial, [replace(block, counter=1)]))
            played += [Recorded(write, lines), Recorded(command_of(["arrive", back.hex()]), ["write done"])]
            blocks.append((block.slave_address(), block.register()))
        return blocks

    def undo(self) -> Command | None:
        """Forgets the last recorded command, and gives it; None where there is none."""
        return self.recorded.pop().command if self.recorded else None

    def script(self) -> bytes:
        """An input of the program that plays what was recorded."""
        return input_of(self.text, [one.command.lines for one in self.recorded])

"""Plays an input with frames in place of the simulated line's commands, and sees that the program answers the same.

`cycle` becomes `send` and an `arrive` for each frame that comes back from the simulated line; `program` becomes `write` and
`arrive` in turn; `scan` and `name` send the master's setup frames. So every frame of a run is known, both ways.
"""

from collections.abc import Iterator
from dataclasses import dataclass
from types import ModuleType

from capture.frames import Datagram, read_frame
from capture.line import Slaves
from line.replay import ACCEPTED, CHANGES, EDITS, SENT, Command, Recorded, Replay, command_of, commands_in
from picture.views import project_after
from projects.asking import Program, input_of
from projects.faults import Refusal
from projects.names import number_in
from projects.records import Project

DONE = "write done"


@dataclass(frozen=True)
class Passed:
    """A frame that went over the line, out from the master or back to it."""

    content: bytes
    is_back: bool


class Play:
    """A run of an input, and the frames that went over the line."""

    def __init__(self, program: Program, simulation: ModuleType, name: str, text: bytes) -> None:
        self.name, self.replay = name, Replay(program, text)
        self.slaves = Slaves(simulation, self.project().groups)
        self.frames: list[Passed] = []

    def project(self) -> Project:
        """The project with the groups that were declared."""
        return project_after(self.name, self.replay.text, self.replay.edits())

    def play(self, commands: list[Command]) -> list[str]:
        """The lines that the program should print for the commands; the frames are gathered meanwhile."""
        return [line for command in commands for line in self.one(command)]

    def one(self, command: Command) -> list[str]:
        """The lines of one command."""
        simulated = {"scan": self.scan, "name": self.give_names, "program": self.write_all}
        if command.name in simulated:
            return simulated[command.name]()
        if command.name == "cycle":
            return self.cycle(command.words[1:])
        if command.name in ("poke", "peek"):
            return self.memory(command)
        return self.passed_on(command)

    def passed_on(self, command: Command) -> list[str]:
        """What the program answers to a command that the simulated line has no part in."""
        [lines] = self.replay.answers([command])
        if command.name in CHANGES:
            self.replay.recorded.append(Recorded(command, lines))
        if command.name == "arrive":
            self.frames.append(Passed(bytes.fromhex(command.words[1]), True))
        self.frames += [Passed(bytes.fromhex(found[2]), False) for line in lines if (found := SENT.fullmatch(line))]
        if command.name in EDITS and ACCEPTED.fullmatch(lines[-1]):
            self.follow(command)
        return lines

    def follow(self, command: Command) -> None:
        """Takes an accepted edit to the simulated line."""
        if command.name != "declare":
            self.slaves.edit(command.words)
            return
        self.slaves.declare(self.project().groups[-1])

    def round_trip(self, frame: bytes) -> bytes:
        """Sends a frame over the simulated line; what comes back is a frame of the capture too."""
        back = self.slaves.back(frame)
        self.frames.append(Passed(back, True))
        return back

    def cycle(self, tasks: list[str]) -> list[str]:
        """Process data of tasks, sent and taken in."""
        lines = self.passed_on(command_of(["send", *tasks]))
        found = [SENT.fullmatch(line) for line in lines]
        if not all(found):
            return lines
        # all frames are on the line before the first one is taken in
        sent = self.frames[len(self.frames) - len(found) :]
        backs = [self.round_trip(passed.content) for passed in sent]
        return [line for back in backs for line in self.taken(back)]

    def taken(self, back: bytes) -> list[str]:
        """What the program answers to a frame that came back."""
        command = command_of(["arrive", back.hex()])
        [lines] = self.replay.answers([command])
        self.replay.recorded.append(Recorded(command, lines))
        return lines

    def write_all(self) -> list[str]:
        """Owed register blocks, written one after another until one isn't done or none is owed."""
        done = 0
        while found := SENT.fullmatch(self.passed_on(command_of(["write"]))[0]):
            if self.taken(self.round_trip(bytes.fromhex(found[2]))) != [DONE]:
                break
            done += 1
        return [f"written {done} owed {self.replay.owed()}"]

    def setup(self, frames: list[bytes]) -> Iterator[Datagram]:
        """Sends frames that the master's core knows nothing of; their datagrams as they come back."""
        for frame in frames:
            self.frames.append(Passed(frame, False))
            yield read_frame(self.round_trip(frame)).datagrams[0]

    def scan(self) -> list[str]:
        """The aliases by position."""
        backs = enumerate(self.setup(self.slaves.scan()))
        return [f"slot {place} alias {int.from_bytes(back.data, 'little')}" for place, back in backs]

    def give_names(self) -> list[str]:
        """The station addresses by position."""
        return [f"named {sum(back.counter == 1 for back in self.setup(self.slaves.name()))}"]

    def memory(self, command: Command) -> list[str]:
        """A look into a machine's memory, or a change of it by the slave's own side."""
        [lines] = self.replay.answers([command])
        if lines[0].startswith("refused"):
            return lines
        station, at = (number_in(word) for word in command.words[1:3])
        memory = self.slaves.machine(station).memory
        if command.name == "poke":
            content = bytes.fromhex(command.words[3])
            memory[at : at + len(content)] = content
            return lines
        count = number_in(command.words[3])
        return [f"mem 0x{at:04x}: {memory[at : at + count].hex(' ')}"]


def played(program: Program, simulation: ModuleType, name: str, text: bytes, commands: bytes) -> Play:
    """The run of an input with all its frames; a difference from the program's answers is a refusal."""
    given = commands_in(commands)
    printed = program.printed(input_of(text, [command.lines for command in given]))
    play = Play(program, simulation, name, text)
    worked_out = play.play(given)
    if worked_out != printed:
        place = next((at for at, pair in enumerate(zip(worked_out, printed)) if pair[0] != pair[1]), 0)
        raise Refusal(f"line {place + 1} of the output differs: {printed[place]!r} is printed, {worked_out[place]!r} is worked out")
    return play

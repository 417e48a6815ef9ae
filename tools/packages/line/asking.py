"""What a session asks about a line: its layout, where variables are, and the values that they have."""

import re
from dataclasses import dataclass

from capture.frames import read_frame
from line.replay import SENT, Command, Recorded, Replay
from line.values import Value, bits_at
from picture.states import Datagram, State, VariablePlace, datagrams_of, state_of, variables_of
from projects.faults import Refusal
from projects.records import Project

SLOT = re.compile(r"slot (\d+) (none|[0-9a-f]+)")


@dataclass(frozen=True)
class Layout:
    """The layout of a line: its lines as they are printed, and the datagrams by task and number."""

    lines: list[str]
    parts: dict[int, tuple[int, int]]
    datagrams: dict[tuple[int, int], Datagram]

    def of_tasks(self, tasks: list[int]) -> list[Datagram]:
        """The datagrams of some tasks in the order of their sending."""
        found = [datagram for task in tasks for datagram in self.datagrams.values() if datagram.task == task]
        return sorted(found, key=lambda datagram: (tasks.index(datagram.task), datagram.number))


class Questions:
    """Questions about the line as the recorded commands left it, or as other ones would. Each asks the program once."""

    def __init__(self, replay: Replay, recorded: list[Recorded] | None = None) -> None:
        self.replay, self.recorded = replay, recorded

    def ask(self, *commands: Command) -> list[list[str]]:
        """The lines that are printed for each of some commands; none is recorded."""
        return self.replay.answers(list(commands), self.recorded)

    def answers(self, longer: list[bytes], single: list[bytes]) -> tuple[list[list[str]], list[str]]:
        """The lines of each of some questions, and the line of each of others, which have just one."""
        found = self.ask(*map(Command, [*longer, *single]))
        return found[: len(longer)], [lines[0] for lines in found[len(longer) :]]

    def state(self, project: Project) -> State:
        """All that a picture shows of the line."""
        return state_of(self, project)

    def layout(self) -> Layout:
        """The line's datagrams."""
        return self.layout_and_places([])[0]

    def places(self, variables: list[int]) -> dict[int, VariablePlace]:
        """Where variables are, of those that are in the line."""
        return self.layout_and_places(variables)[1] if variables else {}

    def layout_and_places(self, variables: list[int]) -> tuple[Layout, dict[int, VariablePlace]]:
        """Both at once."""
        [lines], places = self.answers([b"layout\n"], [b"place %d\n" % variable for variable in variables])
        return Layout(lines, *datagrams_of(lines[1:])), variables_of(places)

    def values(self, places: dict[int, VariablePlace]) -> dict[int, Value]:
        """The values of variables: what is sent next of outputs, what was read of inputs that have been."""
        shown = sorted({(place.task, place.datagram) for place in places.values() if place.direction == "out"})
        tasks = sorted({place.task for place in places.values() if place.direction == "in"})
        if not places:
            return {}
        reads, frames = self.answers([b"read %d\n" % task for task in tasks], [b"show %d %d\n" % name for name in shown])
        outputs = {name: output_data(name, line) for name, line in zip(shown, frames)}
        inputs = {(task, number): data for task, lines in zip(tasks, reads) for number, data in input_data(lines).items()}
        return {
            number: bits_at(data[place.task, place.datagram], place.bit, place.bits)
            for number, place in places.items()
            if (place.task, place.datagram) in (data := outputs if place.direction == "out" else inputs)
        }


def input_data(lines: list[str]) -> dict[int, bytes]:
    """What a task reads, by datagram; none of a datagram that had no good answer in this epoch."""
    found = [SLOT.fullmatch(line) for line in lines[1:]]
    return {int(row[1]): bytes.fromhex(row[2]) for row in found if row[2] != "none"}


def output_data(datagram: tuple[int, int], line: str) -> bytes:
    """The data of a datagram as they would be sent next."""
    found = SENT.fullmatch(line)
    if found is None:
        raise Refusal(f"the program shows no frame of task {datagram[0]} datagram {datagram[1]}: {line}")
    return read_frame(bytes.fromhex(found[2])).datagrams[0].data

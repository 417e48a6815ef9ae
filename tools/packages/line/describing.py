"""Words for what the program answers: to which slave, task and datagram each line belongs."""

import re

from capture.frames import FPWR, LRW, Frame, read_frame
from capture.frames import Datagram as Sent
from line.asking import Questions
from line.replay import SENT, Command, is_refused
from picture.states import Datagram
from projects.names import Names, number_in
from projects.records import Project

SYNC_MANAGERS, FMMUS = 0x0800, 0x0600
INPUTS = re.compile(r"inputs (\d+) (\d+)")
COUNT = re.compile(r"wrong count (\d+) (\d+)")


class Describer:
    """Describes lines of the program by the names of a project."""

    def __init__(self, project: Project, names: Names) -> None:
        self.slaves = {slave.station: slave.name for slave, _ in project.slaves()}
        self.tasks = {task.number: task.name for task in names.tasks}

    def slave(self, station: int) -> str:
        """A slave by its station address, with its name."""
        name = self.slaves.get(station, "")
        return f"slave {station} {name}".rstrip()

    def datagram(self, task: int, number: int) -> str:
        """A datagram of a task, with the task's name."""
        name = self.tasks.get(task, "")
        return f"task {task}{f' {name}' if name else ''} datagram {number}"

    def block(self, station: int, register: int) -> str:
        """A register block, with its slave."""
        if register >= SYNC_MANAGERS:
            title = f"sync manager {(register - SYNC_MANAGERS) // 8}"
        else:
            title = f"FMMU {(register - FMMUS) // 16}"
        return f"{self.slave(station)}, {title}"

    def sent(self, datagram: Sent) -> str:
        """What a datagram carries."""
        if datagram.command == LRW:
            return self.datagram(*datagram.name())
        if datagram.command != FPWR:
            return "no datagram of the master's"
        return self.block(datagram.slave_address(), datagram.register())

    def described(self, command: Command, lines: list[str], questions: Questions) -> list[str]:
        """The lines of an answer, each with what it belongs to where it doesn't say so itself."""
        if is_refused(lines):
            return lines
        if command.name == "cycle":
            order = questions.layout().of_tasks([number_in(word) for word in command.words[1:]])
            if len(lines) == len(order):
                return [self.arrived(line, self.of(datagram)) for line, datagram in zip(lines, order)]
        if command.name == "arrive":
            return self.answered(read_frame(bytes.fromhex(command.words[1])), lines)
        if command.name == "regs" and not lines:
            return [f"{self.slave(int(command.words[1], 0))} has no process data, and so no register blocks"]
        return [self.with_frame(line) for line in lines]

    def of(self, datagram: Datagram) -> str:
        """A datagram of the layout."""
        return self.datagram(datagram.task, datagram.number)

    def answered(self, frame: Frame, lines: list[str]) -> list[str]:
        """The lines of an arrival; one alone may stand for the whole frame."""
        names = [self.sent(datagram) for datagram in frame.datagrams]
        if len(lines) != len(names):
            names = [", ".join(names)]
        return [self.arrived(line, name) for line, name in zip(lines, names)]

    def arrived(self, line: str, name: str) -> str:
        """A line that an arrival is answered, with the datagram that it speaks of."""
        if INPUTS.fullmatch(line):
            return f"{name}: inputs"
        if found := COUNT.fullmatch(line):
            return f"{name}: wrong count, expected {found[1]}, got {found[2]}"
        return f"{name}: {line}"

    def with_frame(self, line: str) -> str:
        """A line, and below it what its frame carries if it prints one."""
        found = SENT.fullmatch(line)
        if found is None:
            return line
        carried = read_frame(bytes.fromhex(found[2])).datagrams
        return "\n".join([line, *(f"  {self.sent(datagram)}" for datagram in carried)])

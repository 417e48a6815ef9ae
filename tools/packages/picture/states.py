"""The state of a line in the program's words: datagrams, register blocks, and the places of areas and variables."""

import re
from bisect import bisect_right
from dataclasses import dataclass
from typing import TYPE_CHECKING

from projects.records import Area, Project, Slave

if TYPE_CHECKING:
    from line.asking import Questions

PARTS = re.compile(r"task (\d+) parts (\d+) (\d+)")
DATAGRAM = re.compile(r"datagram (\d+) address 0x([0-9a-f]{8}) length (\d+) expected (\d+)")
BLOCK = re.compile(r"(sm|fmmu) (\d+) at 0x([0-9a-f]{4}): ([0-9a-f ]+)")
PLACE = re.compile(r"var (\d+) task (\d+) datagram (\d+) bit (\d+) bits (\d+) dir (out|in)")
ABSENT = "refused 6 Absent"


@dataclass(frozen=True)
class Datagram:
    """A datagram: its logical address, bytes of data and expected working counter."""

    task: int
    number: int
    address: int
    length: int
    expected: int


@dataclass(frozen=True)
class Block:
    """A register block, with the sync manager's or the FMMU's number."""

    kind: str
    number: int
    register: int
    data: bytes

    def title(self) -> str:
        """The block's name in the field."""
        return f"sync manager {self.number}" if self.kind == "sm" else f"FMMU {self.number}"

    def short(self) -> str:
        """The block's name where there is little room."""
        return f"SM {self.number}" if self.kind == "sm" else f"FMMU {self.number}"

    def is_active(self) -> bool:
        """Whether the slave uses it: byte 6 of a sync manager, byte 12 of an FMMU."""
        return self.data[6 if self.kind == "sm" else 12] == 1

    def word(self, at: int, size: int = 2) -> int:
        """The number in some bytes of the block, the least significant first."""
        return int.from_bytes(self.data[at : at + size], "little")


@dataclass(frozen=True)
class AreaPlace:
    """The place of an area of some bits: its datagram, and its first bit in the datagram's data."""

    station: int
    area: int
    sync_manager: int
    direction: str
    task: int
    datagram: int
    bit: int
    bits: int

    def end(self) -> int:
        """The first bit after it."""
        return self.bit + self.bits


@dataclass(frozen=True)
class VariablePlace:
    """The place of a variable: its datagram, its first bit there, and its bits."""

    number: int
    task: int
    datagram: int
    bit: int
    bits: int
    direction: str


Datagrams = dict[tuple[int, int], Datagram]
Areas = dict[tuple[int, int], list[AreaPlace]]


@dataclass(frozen=True)
class State:
    """A line after some edits. `blocks` has the present slaves alone, by station address in declared order."""

    epoch: int
    parts: dict[int, tuple[int, int]]
    datagrams: Datagrams
    blocks: dict[int, list[Block]]
    areas: Areas
    variables: dict[int, VariablePlace]

    def areas_in(self, datagram: Datagram) -> list[AreaPlace]:
        """The areas that a datagram carries, in the order of their bits."""
        return self.areas.get((datagram.task, datagram.number), [])


def datagrams_of(lines: list[str]) -> tuple[dict[int, tuple[int, int]], Datagrams]:
    """Of the lines of `layout` the parts of each task, and the datagrams by task and number."""
    parts, datagrams, task = {}, {}, None
    for line in lines:
        if found := PARTS.fullmatch(line):
            task, outputs, inputs = map(int, found.groups())
            parts[task] = (outputs, inputs)
        elif found := DATAGRAM.fullmatch(line):
            number, length, expected = (int(found[row]) for row in (1, 3, 4))
            datagrams[task, number] = Datagram(task, number, int(found[2], 16), length, expected)
    return parts, datagrams


def read_blocks(lines: list[str]) -> list[Block] | None:
    """The register blocks in the lines of `regs`; none where the slave is absent."""
    if lines == [ABSENT]:
        return None
    found = [BLOCK.fullmatch(line) for line in lines]
    return [Block(row[1], int(row[2]), int(row[3], 16), bytes.fromhex(row[4])) for row in found]


def area_place(slave: Slave, area: Area, fmmu: Block, datagrams: list[Datagram], addresses: list[int]) -> AreaPlace:
    """Where an active FMMU maps an area: logical start address, length, start and stop bit give its bits."""
    logical, length = fmmu.word(0, 4), fmmu.word(4)
    datagram = datagrams[bisect_right(addresses, logical) - 1]
    bit = (logical - datagram.address) * 8 + fmmu.data[6]
    bits = (length - 1) * 8 + fmmu.data[7] - fmmu.data[6] + 1
    where = (datagram.task, datagram.number, bit, bits)
    return AreaPlace(slave.station, area.number, area.sync_manager, area.direction, *where)


def areas_of(project: Project, blocks: dict[int, list[Block]], datagrams: Datagrams) -> Areas:
    """The areas with bits by their task and datagram, in the order of their bits."""
    ordered = sorted(datagrams.values(), key=lambda datagram: datagram.address)
    addresses = [datagram.address for datagram in ordered]
    places = [
        area_place(slave, area, fmmu, ordered, addresses)
        for slave, _ in project.slaves()
        for area, fmmu in zip(slave.areas, blocks.get(slave.station, [])[1::2])
        if fmmu.is_active()
    ]
    areas = {}
    for place in sorted(places, key=lambda place: place.bit):
        areas.setdefault((place.task, place.datagram), []).append(place)
    return areas


def variables_of(lines: list[str]) -> dict[int, VariablePlace]:
    """The places in answers to `place`, by the variables' numbers."""
    found = [PLACE.fullmatch(line) for line in lines if line != "none"]
    return {int(row[1]): VariablePlace(*map(int, row.groups()[:5]), row[6]) for row in found}


def state_of(questions: "Questions", project: Project) -> State:
    """The state that is printed when everything is asked."""
    slaves = [slave for slave, _ in project.slaves()]
    longer = [b"layout\n", *(b"regs %d\n" % slave.station for slave in slaves)]
    single = [b"place %d\n" % variable for variable in sorted(project.homes)]
    (layout, *printed), places = questions.answers(longer, single)
    parts, datagrams = datagrams_of(layout[1:])
    asked = [(slave.station, read_blocks(lines)) for slave, lines in zip(slaves, printed)]
    blocks = {station: rows for station, rows in asked if rows is not None}
    epoch = int(layout[0].split()[1])
    return State(epoch, parts, datagrams, blocks, areas_of(project, blocks, datagrams), variables_of(places))

"""Which PDOs the sync managers of a slave are to be assigned: the lists of the CoE objects 0x1C10 and on, in order (ETG.1000.6)."""

from collections.abc import Iterable
from dataclasses import dataclass

from projects.names import number_in
from projects.records import Group, Project, Slave

FIRST_OBJECT = 0x1C10


@dataclass(frozen=True)
class Assignment:
    """The list of a sync manager: its slave and group, its object in the slave's object dictionary, and the indexes of the PDOs."""

    slave: Slave
    group: Group
    object: int
    pdos: tuple[int, ...]

    def name(self) -> tuple[int, int]:
        """What it is found by: the slave's station address, and the object."""
        return self.slave.station, self.object

    def words(self) -> str:
        """The object and the PDOs."""
        return f"0x{self.object:04x}: {pdo_words(self.pdos)}"


Assignments = dict[tuple[int, int], Assignment]


def pdo_words(pdos: Iterable[int]) -> str:
    """A list of PDOs in words."""
    return " ".join(f"0x{index:04x}" for index in pdos) or "none"


def declared_assignments(project: Project) -> Assignments:
    """The lists of all declared slaves as the text has them."""
    return assignments_after(project, [["connect", str(group.alias)] for group in project.groups[1:]])


def assignments_after(project: Project, edits: Iterable[list[str]]) -> Assignments:
    """The lists of the slaves in the line after accepted edits, as words. A group that is absent keeps its lists."""
    present = {0}
    remapped: dict[tuple[int, int], tuple[int, ...]] = {}
    for name, *words in edits:
        numbers = [number_in(word) for word in words]
        if name == "connect":
            present.add(numbers[0])
        elif name == "disconnect":
            present.discard(numbers[0])
        elif name == "remap":
            remapped[numbers[0], numbers[1]] = tuple(numbers[2:])
    found = [
        Assignment(slave, group, FIRST_OBJECT + area.sync_manager, remapped.get((slave.station, area.number), tuple(area.assigned)))
        for slave, group in project.slaves()
        for area in slave.areas
        if group.alias in present
    ]
    return {one.name(): one for one in found}


def changed(before: Assignments, after: Assignments) -> list[Assignment]:
    """The lists that a slave has to be given: those that were not there before, or were others."""
    return [one for name, one in after.items() if name not in before or before[name].pdos != one.pdos]

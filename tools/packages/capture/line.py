"""The simulated line: a machine for each slave that is there, in the order of the line."""

from types import ModuleType

from capture.machine import Slave
from projects.names import number_in
from projects.records import Group


class Slaves:
    """The machines of the groups that are present. `simulation` is the library's Python package, or wire/machine.py."""

    def __init__(self, simulation: ModuleType, groups: list[Group]) -> None:
        self.simulation, self.groups = simulation, list(groups)
        self.machines = [self.started(group) if group.alias == 0 else [] for group in groups]

    def started(self, group: Group) -> list[Slave]:
        """Machines for a group's slaves; the first one has the group's alias."""
        return [self.simulation.Slave(group.alias if place == 0 else 0) for place in range(len(group.slaves))]

    def declare(self, group: Group) -> None:
        """A group after the others, absent."""
        self.groups.append(group)
        self.machines.append([])

    def edit(self, words: list[str]) -> None:
        """Follows an accepted edit: a group that comes has fresh machines, one that goes loses its own."""
        if words[0] not in ("connect", "disconnect"):
            return
        alias = number_in(words[1])
        place = next(place for place, group in enumerate(self.groups) if group.alias == alias)
        self.machines[place] = self.started(self.groups[place]) if words[0] == "connect" else []

    def line(self) -> list[tuple[int, Slave]]:
        """The slaves of the line in order: the station address that each is to have, and its machine."""
        return [
            (slave.station, machine)
            for group, machines in zip(self.groups, self.machines)
            for slave, machine in zip(group.slaves, machines)
        ]

    def machine(self, station: int) -> Slave:
        """The machine of a slave of the line."""
        return next(machine for found, machine in self.line() if found == station)

    def back(self, frame: bytes) -> bytes:
        """A frame as it comes back from the line."""
        passing = bytearray(frame)
        for _, machine in self.line():
            machine.process(passing)
        return bytes(passing)

    def scan(self) -> list[bytes]:
        """The frames that read the aliases, one for each position."""
        return [self.simulation.alias_read(position) for position in range(len(self.line()))]

    def name(self) -> list[bytes]:
        """The frames that give the station addresses, one for each position."""
        return [self.simulation.station_write(position, station) for position, (station, _) in enumerate(self.line())]

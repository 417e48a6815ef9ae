"""A project text's groups, slaves, areas, PDOs and entries, each with its line and the names that people gave it.

The program judges what a project is; here only that is refused which leaves nothing to work with, with its line.
"""

from dataclasses import dataclass
from typing import TypeVar

from projects.faults import Refusal
from projects.toml import Node

Kind = TypeVar("Kind", int, str, list)
KINDS = {int: "an integer", str: "a string", list: "an array"}
TASKS = 8
DIRECTIONS = ("out", "in")


@dataclass(frozen=True)
class NameFault:
    """What is wrong with a name, by a kind that stays the same, and on which line."""

    line: int
    kind: str
    words: str

    def __str__(self) -> str:
        return f"line {self.line}: {self.kind}: {self.words}"


@dataclass(frozen=True)
class Entry:
    """Bits of a PDO: a variable's, or a gap's where the variable is 0; without a name it has an empty one."""

    variable: int
    bits: int
    name: str
    line: int


@dataclass(frozen=True)
class Pdo:
    """A list of entries that an area offers."""

    index: int
    entries: list[Entry]
    line: int

    def bits(self) -> int:
        """The bits of all entries."""
        return sum(entry.bits for entry in self.entries)


@dataclass(frozen=True)
class Area:
    """One direction of a slave's process data at one sync manager; `number` counts the slave's areas from 0."""

    number: int
    sync_manager: int
    direction: str
    phys: int
    task: int
    assigned: list[int]
    pdos: list[Pdo]
    line: int


@dataclass(frozen=True)
class Slave:
    """A declared slave, present or not. `name` is what people call it: its own name, its group's, or an empty one."""

    station: int
    name: str
    areas: list[Area]
    line: int
    own_name: str
    name_line: int


@dataclass(frozen=True)
class Group:
    """A declared group; the mandatory one has alias 0."""

    alias: int
    name: str
    slaves: list[Slave]
    line: int
    name_line: int

    def title(self) -> str:
        """What people call the group."""
        if self.alias == 0:
            return "mandatory group"
        return f"{self.name} (alias {self.alias})" if self.name else f"alias {self.alias}"


@dataclass(frozen=True)
class Home:
    """Where a text offers a variable."""

    entry: Entry
    pdo: Pdo
    area: Area
    slave: Slave
    group: Group


@dataclass(frozen=True)
class Project:
    """The declared groups in declared order, the names of tasks, and the variables by number."""

    groups: list[Group]
    tasks: dict[int, str]
    task_lines: dict[int, int]
    homes: dict[int, Home]
    name_faults: list[NameFault]

    def slaves(self) -> list[tuple[Slave, Group]]:
        """All declared slaves in declared order, each with its group."""
        return [(slave, group) for group in self.groups for slave in group.slaves]


def needed(table: Node, key: str, kind: type[Kind]) -> Kind:
    """What a table holds at a key that it needs."""
    found = table.get(key)
    if found is None:
        raise Refusal(f"line {table.line}: MissingField: {key} is absent")
    return of_kind(found, key, kind)


def of_kind(node: Node, key: str, kind: type[Kind]) -> Kind:
    """A value that must be of a kind."""
    if not isinstance(node.value, kind) or isinstance(node.value, bool):
        raise Refusal(f"line {node.line}: MissingField: {key} isn't {KINDS[kind]}")
    return node.value


def optional(table: Node, key: str) -> list[Node]:
    """The items of an array that a table may have at a key."""
    found = table.get(key)
    return [] if found is None else of_kind(found, key, list)


def name_and_line(table: Node) -> tuple[str, int]:
    """The name that people gave, and its line; the format ignores the key, so it may be of any kind."""
    found = table.get("name")
    return (found.value, found.line) if found and isinstance(found.value, str) else ("", table.line)


class Records:
    """Reads documents, and gathers what is wrong with names."""

    def __init__(self) -> None:
        self.faults: list[NameFault] = []

    def fault(self, line: int, kind: str, words: str) -> None:
        """Notes what is wrong with a name."""
        self.faults.append(NameFault(line, kind, words))

    def group(self, table: Node) -> Group:
        """A group that comes and goes."""
        alias, (name, line) = needed(table, "alias", int), name_and_line(table)
        return Group(alias, name, self.slaves(table, name), table.line, line)

    def slaves(self, table: Node, name: str) -> list[Slave]:
        """The slaves of a group, or of the document, which has no name."""
        return [self.slave(slave, name) for slave in optional(table, "slave")]

    def slave(self, table: Node, name: str) -> Slave:
        """A slave."""
        areas = [self.area(number, area) for number, area in enumerate(optional(table, "area"))]
        own, line = name_and_line(table)
        return Slave(needed(table, "station", int), own or name, areas, table.line, own, line)

    def area(self, number: int, table: Node) -> Area:
        """An area of a slave."""
        phys, task = needed(table, "phys", int), needed(table, "task", int)
        assigned = [of_kind(index, "assigned", int) for index in needed(table, "assigned", list)]
        pdos = [self.pdo(pdo) for pdo in optional(table, "pdo")]
        direction = needed(table, "dir", str)
        if direction not in DIRECTIONS:
            raise Refusal(f"line {table.get('dir').line}: OutOfRange: dir is neither out nor in")
        return Area(number, needed(table, "sm", int), direction, phys, task, assigned, pdos, table.line)

    def pdo(self, table: Node) -> Pdo:
        """A PDO with the names of its entries."""
        entries = needed(table, "entries", list)
        names = self.names(table, len(entries))
        read = [self.entry(entry, *name) for entry, name in zip(entries, names)]
        return Pdo(needed(table, "index", int), read, table.line)

    def entry(self, node: Node, name: str, line: int | None) -> Entry:
        """An entry; its line is its name's line, if it has one."""
        pair = of_kind(node, "an entry", list)
        if len(pair) != 2:
            raise Refusal(f"line {node.line}: MissingField: an entry isn't two integers")
        variable, bits = (of_kind(item, "an entry's item", int) for item in pair)
        if name and variable == 0:
            self.fault(line, "NamedGap", f"{name} is the name of a gap")
            name = ""
        return Entry(variable, bits, name, line or node.line)

    def names(self, table: Node, count: int) -> list[tuple[str, int | None]]:
        """A name, perhaps an empty one, for each of so many entries, with its line."""
        found, nothing = table.get("names"), [("", None)] * count
        if found is None:
            return nothing
        if not isinstance(found.value, list) or not all(isinstance(item.value, str) for item in found.value):
            self.fault(found.line, "NamesKind", "names isn't an array of strings")
            return nothing
        if len(found.value) != count:
            self.fault(found.line, "NamesLength", f"{len(found.value)} names beside {count} entries")
            return nothing
        return [(item.value, item.line) for item in found.value]

    def tasks(self, document: Node) -> dict[int, tuple[str, int]]:
        """The names of tasks by number, each with its line."""
        named: dict[int, tuple[str, int]] = {}
        tasks = document.get("task")
        if tasks and not isinstance(tasks.value, list):
            self.fault(tasks.line, "NoSuchTask", "task isn't an array of tables")
        for table in document.listed("task"):
            number, (name, line) = table.get("number"), name_and_line(table)
            if number is None or type(number.value) is not int or not 0 <= number.value < TASKS:
                self.fault(table.line, "NoSuchTask", f"a named task has no number from 0 to {TASKS - 1}")
            elif number.value in named:
                self.fault(table.line, "RepeatedTask", f"task {number.value} is named twice")
            elif name:
                named[number.value] = (name, line)
        return named


def read_project(document: Node, declared: list[Node]) -> Project:
    """The project of a document, with the groups of the documents that were declared later."""
    records = Records()
    groups = [Group(0, "", records.slaves(document, ""), 1, 1)]
    groups += [records.group(table) for later in [document, *declared] for table in optional(later, "group")]
    tasks = records.tasks(document)
    homes = {
        entry.variable: Home(entry, pdo, area, slave, group)
        for group in groups
        for slave in group.slaves
        for area in slave.areas
        for pdo in area.pdos
        for entry in pdo.entries
        if entry.variable > 0
    }
    names, lines = ({number: pair[part] for number, pair in tasks.items()} for part in (0, 1))
    return Project(groups, names, lines, homes, records.faults)

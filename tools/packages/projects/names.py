"""Names in a project text: of variables by `names` beside `entries`, and `name` of slaves, groups and tasks.

A variable's name is an identifier and is used once in a project, whatever its case: so it can be a constant anywhere.
Slaves, groups and tasks have names for people, which may have blanks and may repeat.
"""

import re
from collections.abc import Iterable
from dataclasses import dataclass

from projects.faults import Refusal
from projects.records import TASKS, Home, NameFault, Project

IDENTIFIER = re.compile(r"[A-Za-z_][A-Za-z0-9_]*")
NUMBER = re.compile(r"([0-9]{1,20})|0x([0-9A-Fa-f]{1,16})")


@dataclass(frozen=True)
class Variable:
    """A variable that a project offers: its number, its name or an empty one, and where the text offers it.

    `task` is the task of its area at the opening; `move` gives the area another one.
    """

    number: int
    name: str
    home: Home

    @property
    def bits(self) -> int:
        """Its width."""
        return self.home.entry.bits

    @property
    def direction(self) -> str:
        """`out` from the master to the slave, `in` from the slave to the master."""
        return self.home.area.direction

    @property
    def task(self) -> int:
        """The task that carries its area when the line opens."""
        return self.home.area.task

    @property
    def station(self) -> int:
        """The station address of its slave."""
        return self.home.slave.station

    @property
    def alias(self) -> int:
        """The alias of its group, 0 of the mandatory one."""
        return self.home.group.alias


@dataclass(frozen=True)
class Numbered:
    """Something that a project names and numbers: the number, the name, and the name's line."""

    number: int
    name: str
    line: int


class Names:
    """The names of a project. A name or a number, as people write it, finds what it names."""

    def __init__(self, project: Project) -> None:
        homes = project.homes.items()
        self.variables = {number: Variable(number, home.entry.name, home) for number, home in homes}
        self.slaves = [Numbered(slave.station, slave.own_name, slave.name_line) for slave, _ in project.slaves()]
        self.groups = [Numbered(group.alias, group.name, group.name_line) for group in project.groups[1:]]
        self.tasks = [
            Numbered(task, project.tasks.get(task, ""), project.task_lines.get(task, 1)) for task in range(TASKS)
        ]
        self.by_name = {variable.name.lower(): variable for variable in self.variables.values() if variable.name}
        self.faults = sorted([*project.name_faults, *variable_faults(self.variables.values())], key=order)

    def variable(self, word: str) -> Variable:
        """The variable of a name, in any case, or of a number."""
        number = number_in(word)
        found = self.by_name.get(word.lower()) if number is None else self.variables.get(number)
        if found is None:
            raise Refusal(f"UnknownName: no variable is called {word}")
        return found

    def station(self, word: str) -> int:
        """The station address of a slave by its name or its address."""
        return numbered("slave", word, self.slaves)

    def alias(self, word: str) -> int:
        """The alias of a group by its name or its alias."""
        return numbered("group", word, self.groups)

    def task(self, word: str) -> int:
        """The number of a task by its name or its number."""
        return numbered("task", word, self.tasks)


def names_of(project: Project) -> Names:
    """The names of a project; all must be right."""
    names = Names(project)
    if names.faults:
        raise Refusal("\n".join(map(str, names.faults)))
    return names


def order(fault: NameFault) -> int:
    """By which faults are sorted: their lines."""
    return fault.line


def variable_faults(variables: Iterable[Variable]) -> list[NameFault]:
    """What is wrong with the names of variables one by one and beside each other."""
    faults: list[NameFault] = []
    lines: dict[str, int] = {}
    for variable in variables:
        name, line = variable.name, variable.home.entry.line
        if not name:
            continue
        if not IDENTIFIER.fullmatch(name):
            faults.append(NameFault(line, "NoIdentifier", f"{name!r} isn't letters, digits and _, no digit first"))
        if name.lower() in lines:
            faults.append(NameFault(line, "RepeatedName", f"{name} is first used on line {lines[name.lower()]}"))
        lines.setdefault(name.lower(), line)
    return faults


def number_in(word: str) -> int | None:
    """The number that a word is, decimal or hexadecimal, if it is one."""
    found = NUMBER.fullmatch(word)
    if found is None:
        return None
    return int(found[1]) if found[1] else int(found[2], 16)


def numbered(kind: str, word: str, given: list[Numbered]) -> int:
    """The number of what people call by a word: by its number, or by a name that only one thing of the kind has."""
    number = number_in(word)
    found = [one.number for one in given if (one.name == word if number is None else one.number == number)]
    if len(found) != 1:
        raise Refusal(f"{'RepeatedName' if found else 'UnknownName'}: {len(found)} {kind}s are called {word}")
    return found[0]

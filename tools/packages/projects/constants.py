"""The names of a project as constants in C, Rust or Python, or as JSON; in C and JSON with the PDOs that slaves are assigned."""

import json
import re
from collections.abc import Callable
from dataclasses import dataclass

from projects.assignments import declared_assignments
from projects.faults import Refusal
from projects.names import Names, Numbered, Variable, names_of
from projects.records import Project
from projects.words import plural

NOT_IN_IDENTIFIER = re.compile(r"[^A-Za-z0-9]+")
DIRECTIONS = {"out": "output", "in": "input"}


@dataclass(frozen=True)
class Constant:
    """A number with its identifier, and what it is; `type` is its type in Rust."""

    identifier: str
    number: int
    type: str
    meaning: str


@dataclass(frozen=True)
class Language:
    """How constants are written: the lines before them, each of them, and the lines after them."""

    head: str
    line: Callable[[Constant], str]
    foot: str


HEAD = "Made by tools/names of {}: the numbers of variables, slaves, groups and tasks by name."
LANGUAGES = {
    "c": Language(
        f"/* {HEAD} */\n#ifndef {{guard}}\n#define {{guard}}\n",
        lambda one: f"#define {one.identifier} {one.number}u /* {one.meaning} */",
        "\n#endif",
    ),
    "rust": Language(
        f"//! {HEAD}\n#![allow(dead_code)]\n",
        lambda one: f"pub const {one.identifier}: {one.type} = {one.number}; // {one.meaning}",
        "",
    ),
    "python": Language(f'"""{HEAD}"""\n', lambda one: f"{one.identifier} = {one.number}  # {one.meaning}", ""),
}


def spelt(prefix: str, name: str) -> str:
    """A name as a constant's identifier; what identifiers can't have becomes an underscore."""
    return f"{prefix}_{NOT_IN_IDENTIFIER.sub('_', name).strip('_').upper()}"


def variable_constant(variable: Variable) -> Constant:
    """The constant of a variable."""
    kind = f"{DIRECTIONS[variable.direction]}, {plural(variable.bits, 'bit')}"
    place = f"slave {variable.station}, PDO 0x{variable.home.pdo.index:04x}, task {variable.task}"
    return Constant(f"VAR_{variable.name.upper()}", variable.number, "u32", f"{kind}, {place}")


def named_constants(prefix: str, type_name: str, meaning: str, given: list[Numbered]) -> list[Constant]:
    """The constants of slaves, groups or tasks, of those that have a name; no two may be spelt alike."""
    lines: dict[str, int] = {}
    constants = []
    for one in given:
        identifier = spelt(prefix, one.name)
        if not one.name:
            continue
        if identifier == f"{prefix}_":
            raise Refusal(f"line {one.line}: NoIdentifier: {one.name!r} has no letter or digit")
        if identifier in lines:
            said = f"{one.name!r} is spelt as the name on line {lines[identifier]}"
            raise Refusal(f"line {one.line}: RepeatedName: {said}")
        lines[identifier] = one.line
        constants.append(Constant(identifier, one.number, type_name, meaning))
    return constants


def constants_of(names: Names) -> list[Constant]:
    """All constants of a project: variables, slaves, groups and tasks, each kind in the order of the text."""
    variables = [variable_constant(variable) for variable in names.variables.values() if variable.name]
    return [
        *variables,
        *named_constants("SLAVE", "u16", "station address", names.slaves),
        *named_constants("GROUP", "u16", "alias", names.groups),
        *named_constants("TASK", "u8", "task", names.tasks),
    ]


def assignment_lines(project: Project) -> list[str]:
    """In C the PDOs that each sync manager is assigned at the opening, as an initializer and a count."""
    lines = []
    for one in declared_assignments(project).values():
        name = f"ASSIGNED_{one.slave.station}_{one.object:04X}"
        pdos = ", ".join(f"0x{index:04x}u" for index in one.pdos) or "0"
        lines.append(f"#define {name} {{{pdos}}} /* {f'{one.slave.name}, '.removeprefix(', ')}object 0x{one.object:04x} */")
        lines.append(f"#define {name}_COUNT {len(one.pdos)}u")
    return lines


def as_json(names: Names, project: Project) -> str:
    """The same as JSON, with the PDOs that each sync manager of a declared slave is assigned at the opening."""
    keys = ("number", "name", "bits", "direction", "station", "task")
    variables = [{**{key: getattr(one, key) for key in keys}, "pdo": one.home.pdo.index} for one in names.variables.values()]
    kinds = {"slaves": names.slaves, "groups": names.groups, "tasks": [task for task in names.tasks if task.name]}
    named = {kind: [{"number": one.number, "name": one.name} for one in given] for kind, given in kinds.items()}
    lists = [
        {"station": one.slave.station, "group": one.group.alias, "object": one.object, "pdos": one.pdos}
        for one in declared_assignments(project).values()
    ]
    return json.dumps({"variables": variables, **named, "assignments": lists}, indent=2) + "\n"


def printed(project: Project, language: str, title: str) -> str:
    """The constants in a language; `title` is the project's name."""
    names = names_of(project)
    if language == "json":
        return as_json(names, project)
    style = LANGUAGES[language]
    plain = NOT_IN_IDENTIFIER.sub("_", title)
    head = style.head.replace("{guard}", f"{plain.upper()}_NAMES_H").format(plain)
    lines = [head, *map(style.line, constants_of(names)), *(assignment_lines(project) if language == "c" else [])]
    return "\n".join([*lines, *([style.foot] if style.foot else [])]) + "\n"

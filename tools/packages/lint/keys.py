"""Keys that nothing reads, and areas that TOML gave to another slave than their place in the text suggests."""

import math
from bisect import bisect_right
from collections.abc import Iterator
from difflib import get_close_matches

from lint.findings import Finding
from projects.toml import Node

# The tables of each table, and its other keys. `name` and `allow` may be in any.
TABLES = {
    "": {"slave": "slave", "group": "group", "task": "task"},
    "group": {"slave": "slave"},
    "slave": {"area": "area"},
    "area": {"pdo": "pdo"},
}
KEYS = {
    "group": ["alias"],
    "slave": ["station"],
    "area": ["sm", "dir", "phys", "task", "assigned"],
    "pdo": ["index", "entries", "names"],
    "task": ["number"],
}
ANYWHERE = ["name", "allow"]


def unknown_keys(table: Node, kind: str = "", path: str = "") -> Iterator[Finding]:
    """The keys that nothing reads, in a table and below it."""
    tables = TABLES.get(kind, {})
    known = [*tables, *KEYS.get(kind, []), *ANYWHERE]
    for key, member in table.value.items() if isinstance(table.value, dict) else []:
        if key not in known:
            close = get_close_matches(key, known, 1)
            hint = f"; {close[0]} is" if close else ""
            owner = f"an {kind}" if kind == "area" else f"a {kind or 'project'}"
            yield Finding(member.line, "UnknownKey", f"{key} is no key of {owner}{hint}", path)
        elif key in tables:
            for index, item in enumerate(member.items()):
                yield from unknown_keys(item, tables[key], joined(path, f"{key}[{index}]"))


def joined(path: str, step: str) -> str:
    """A path with one more step."""
    return f"{path}.{step}" if path else step


def stray_areas(document: Node) -> Iterator[Finding]:
    """Areas, and PDOs of areas, between which and their slave there is the header of another slave or of a group."""
    headers = sorted(node.line for node in [*document.listed("group"), *document.listed("slave")])
    for path, slave in every_slave(document):
        after = bisect_right(headers, slave.line)
        between = headers[after] if after < len(headers) else math.inf
        for inner, kind, table in begun_after(slave, path, between):
            station = slave.get("station")
            owner = f"slave {station.value}" if station else "a slave without a station address"
            words = f"this {kind} is of {owner} on line {slave.line}, not of what line {between} begins"
            yield Finding(table.line, "StrayArea", words, inner)


def begun_after(slave: Node, path: str, line: float) -> Iterator[tuple[str, str, Node]]:
    """The areas of a slave that begin after a line, and the PDOs that do of those that don't, with path and kind."""
    for at, area in enumerate(slave.listed("area")):
        if area.line > line:
            yield f"{path}.area[{at}]", "area", area
            continue
        for place, pdo in enumerate(area.listed("pdo")):
            if pdo.line > line:
                yield f"{path}.area[{at}].pdo[{place}]", "PDO", pdo


def every_slave(document: Node) -> Iterator[tuple[str, Node]]:
    """The slaves of a document, also in groups, with their paths."""
    tables = [("", document), *((f"group[{index}]", group) for index, group in enumerate(document.listed("group")))]
    for path, table in tables:
        for index, slave in enumerate(table.listed("slave")):
            yield joined(path, f"slave[{index}]"), slave

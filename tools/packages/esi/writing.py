"""Writes a device as a slave of a project text, with names for its variables."""

import re
import unicodedata
from collections import Counter
from collections.abc import Iterator
from dataclasses import dataclass

from esi.choosing import ChosenArea
from esi.losses import Loss, is_sayable
from esi.records import DeviceEntry, DevicePdo

WIDTH = 118
NOT_IN_NAME = re.compile(r"[^a-z0-9]+")
SPELT = str.maketrans({"ä": "ae", "ö": "oe", "ü": "ue", "ß": "ss", "æ": "ae", "ø": "oe", "å": "aa"})
UNPRINTED = re.compile(r'[\x00-\x1f\x7f"\\]')


@dataclass(frozen=True)
class Slave:
    """A slave to be written: `array` is `slave`, or `group.slave` of a slave of a group."""

    array: str
    name: str
    prefix: str
    station: int
    task: int
    first_variable: int
    areas: list[ChosenArea]
    losses: list[Loss]


def quoted(words: str) -> str:
    """A string of the text."""
    return '"' + UNPRINTED.sub(lambda found: f"\\u{ord(found[0]):04X}", words) + '"'


def remark(words: str) -> str:
    """A comment on a line."""
    return f"# {' '.join(''.join(sign if sign.isprintable() else ' ' for sign in words).split())}"


def identifier(*words: str) -> str:
    """Words as a part of a name; umlauts are spelt in two letters, and other letters lose their accents."""
    plain = unicodedata.normalize("NFKD", " ".join(words).lower().translate(SPELT))
    return NOT_IN_NAME.sub("_", "".join(sign for sign in plain if not unicodedata.combining(sign))).strip("_")


def names_of(prefix: str, places: list[tuple[DevicePdo, DeviceEntry]]) -> list[str]:
    """A name for each variable, no two alike: by its entry, or by PDO and entry, or by its object too."""
    forms = [
        [
            identifier(prefix, entry.name),
            identifier(prefix, pdo.name, entry.name),
            identifier(prefix, pdo.name, entry.name, f"{pdo.index:04x}", f"{entry.index:04x}", f"{entry.subindex:02x}"),
            identifier(prefix, f"{pdo.index:04x}", str(place)),
        ]
        for place, (pdo, entry) in enumerate(places)
    ]
    counts = Counter(form for own in forms for form in set(own))
    return [next((form for form in own if counts[form] == 1), own[-1]) for own in forms]


class SlaveWriter:
    """Writes a slave, and counts its variables."""

    def __init__(self, slave: Slave) -> None:
        self.slave, self.variable = slave, slave.first_variable
        self.areas = [area for area in slave.areas if is_sayable(area)]
        places = [
            (pdo, entry) for area in self.areas for pdo in area.offered for entry in pdo.entries if entry.index
        ]
        self.names = iter(names_of(slave.prefix, places))

    def lines(self) -> Iterator[str]:
        """The slave with its areas, and after them what the text doesn't say."""
        yield from [f"[[{self.slave.array}]]", f"name = {quoted(self.slave.name)}", f"station = {self.slave.station}"]
        for area in self.areas:
            yield ""
            yield from self.area(area)
        yield ""
        yield from (remark(str(loss)) for loss in self.slave.losses)

    def area(self, area: ChosenArea) -> Iterator[str]:
        """An area; its PDOs are in lines of their own if these aren't too long, else in tables."""
        array, manager = f"{self.slave.array}.area", area.manager
        yield from [f"[[{array}]]", f"sm = {manager.number}", f'dir = "{manager.direction}"']
        yield from [f"phys = 0x{manager.start:04x}", f"task = {self.slave.task}"]
        yield from filled("assigned", [f"0x{index:04x}" for index in area.assigned])
        pdos = [(pdo, *self.entries(pdo)) for pdo in area.offered]
        rows = [row_of(*pdo) for pdo in pdos]
        if max(map(len, rows)) <= WIDTH:
            yield from ["pdo = [", *rows, "]"]
            return
        for pdo, entries, names in pdos:
            yield from ["", f"[[{array}.pdo]]{named(pdo)}", f"index = 0x{pdo.index:04x}"]
            yield from [*filled("entries", entries), *filled("names", names)]

    def entries(self, pdo: DevicePdo) -> tuple[list[str], list[str]]:
        """The entries of a PDO and their names, as items of arrays."""
        entries, names = [], []
        for entry in pdo.entries:
            name, parts = next(self.names) if entry.index else "", entry.parts()
            for number, bits in enumerate(parts):
                entries.append(f"[{self.variable if entry.index else 0}, {bits}]")
                names.append(quoted(f"{name}_part{number}" if name and len(parts) > 1 else name))
                self.variable += 1 if entry.index else 0
        return entries, names


def named(pdo: DevicePdo) -> str:
    """A comment with a PDO's name, where it has one."""
    return f" {remark(pdo.name)}" if pdo.name else ""


def row_of(pdo: DevicePdo, entries: list[str], names: list[str]) -> str:
    """A PDO as an item of an array, on a line of its own."""
    items = f"index = 0x{pdo.index:04x}, entries = [{', '.join(entries)}], names = [{', '.join(names)}]"
    return f"  {{ {items} }},{named(pdo)}"


def filled(key: str, items: list[str]) -> list[str]:
    """A key with its array, on a line or on as many as it takes."""
    line = f"{key} = [{', '.join(items)}]"
    if len(line) <= WIDTH:
        return [line]
    rows = [" "]
    for item in items:
        if len(rows[-1]) + len(item) + 2 > WIDTH:
            rows.append(" ")
        rows[-1] += f" {item},"
    return [f"{key} = [", *rows, "]"]

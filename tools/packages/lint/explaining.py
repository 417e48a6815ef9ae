"""What a fault of a project is in words: the value with its range, the memory that areas share, and the slave by its name."""

import re

from projects.limits import MEMORY_END, MEMORY_START, MOST_BITS, MOST_ENTRIES, MOST_ENTRY_BITS, MOST_PDOS, Span
from projects.toml import Node

STEP = re.compile(r"(\w+)|\[(\d+)\]")
WORD = (0, 65_535)
RANGES = {
    **{"alias": (1, WORD[1]), "station": (1, WORD[1]), "sm": (0, 15), "phys": (MEMORY_START, MEMORY_END - 1), "task": (0, 7)},
    **{"assigned": WORD, "index": WORD, "variable": (0, 2**32 - 1), "bits": (1, MOST_ENTRY_BITS)},
}
MOST = {"area": 8, "assigned": MOST_PDOS, "pdo": MOST_PDOS, "entries": MOST_ENTRIES, "slave": 2048}
HEXADECIMAL = ("phys", "index", "assigned")
TABLES = "an array of tables"
KINDS = {"dir": "a string", "assigned": "an array", "entries": "an array", **dict.fromkeys(("slave", "group", "area", "pdo"), TABLES)}


class Place:
    """What a path of projectcheck leads to: the last key, its value if there is one, and the slave and the area around it."""

    def __init__(self, document: Node, path: str) -> None:
        self.key, self.is_item, self.number = "", False, 0
        self.around: dict[str, object] = {}
        node: Node | None = document
        for key, digits in STEP.findall(path):
            if key:
                self.key, self.is_item, node = key, False, node.get(key) if node else None
                continue
            if self.key == "entries" and self.is_item:
                self.key = "bits" if digits == "1" else "variable"
            self.is_item, self.number = True, int(digits)
            node = dict(enumerate(node.items())).get(self.number) if node else None
            self.around[self.key] = node.plain() if node else None
        self.value = node.plain() if node else None

    def shown(self) -> str:
        """The key and the value as a text may write them."""
        if self.value is None:
            return f"{self.key} is absent"
        return f"{self.key} = {self.spelt(self.value)}"

    def spelt(self, value: object) -> str:
        """A value of the key."""
        if self.key in HEXADECIMAL and type(value) is int and value >= 0:
            return f"0x{value:04x}"
        return f'"{value}"' if isinstance(value, str) else str(value).lower()

    def slave(self) -> str:
        """The slave around the place, by its station address and its name."""
        slave = self.around.get("slave")
        words = [str(slave[key]) for key in ("station", "name") if key in slave] if isinstance(slave, dict) else []
        return f"slave {' '.join(words)}: " if words else ""

    def reach(self) -> Span:
        """The memory that the area around the place may ever take."""
        area = self.around["area"]
        bits = sum(bits for pdo in area.get("pdo", []) for _, bits in pdo["entries"])
        return Span(f"the reach of sync manager {area['sm']}", area["phys"], (min(bits, MOST_BITS) + 7) // 8)

    def outside(self) -> str:
        """Outside which range the value is, or over which limit the array."""
        if self.key == "dir":
            return "is neither out nor in"
        if self.key in MOST and type(self.value) is not int:
            return f"is over {MOST[self.key]:,} items" if self.value != [] else "has no slave"
        least, most = RANGES[self.key]
        if self.value is None:
            raise ValueError(self.key)
        if self.key == "phys" and least <= self.value <= most:
            return f"is too high: {self.reach()} ends after 0x{most:04x}"
        if self.key == "assigned" and self.number >= MOST_PDOS:
            return f"is item {self.number + 1}, over {MOST_PDOS}"
        return f"is outside {self.spelt(least)} to {self.spelt(most)}"


def explained(document: Node, kind: str, path: str, first: str | None) -> str:
    """A fault in words, before the place that projectcheck gives; none if the place is not one of such a fault."""
    place, other = Place(document, path), Place(document, first) if first else None
    try:
        return f"{place.slave()}{fault_words(kind, place, other)}; "
    except (KeyError, TypeError, AttributeError, ValueError):
        return ""


def fault_words(kind: str, place: Place, other: Place | None) -> str:
    """What is wrong at a place, or at two."""
    shown = place.shown()
    if kind == "MissingField":
        kinds = {"entries": "a pair of integers", "assigned": "an integer"} if place.is_item else KINDS
        wanted = kinds.get(place.key, "an integer")
        return shown if place.value is None else f"{shown} is not {wanted}"
    if kind == "OutOfRange":
        return f"{shown if place.key in RANGES or place.key == 'dir' else place.key} {place.outside()}"
    if kind == "OverlappingAreas":
        return f"{place.reach()} shares bytes with {other.reach()}"
    if kind == "AreaTooBig":
        return f"with {shown} more than {MOST_BITS:,} bits are assigned"
    twice = "is offered twice" if place.key == "index" else "is assigned twice" if other else "is not offered"
    return f"{shown} {twice if kind == 'UnknownPdo' else 'is used twice'}"

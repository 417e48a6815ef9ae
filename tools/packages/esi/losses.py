"""What a project text can't say of a device, as two kinds: what then differs on the wire, and what the master does."""

from collections.abc import Callable, Iterator
from dataclasses import dataclass
from itertools import combinations

from esi.choosing import ChosenArea
from esi.records import Device, SyncManager
from projects.limits import (
    CONTROL,
    LAST_SYNC_MANAGER,
    MEMORY_END,
    MEMORY_START,
    MOST_BITS,
    MOST_ENTRIES,
    MOST_PDOS,
    Span,
    overlapping,
)

# A bit of a sync manager's Enable in the file.
ONLY_OPERATIONAL = 0x08
CONTROL_BITS = [
    (0x03, "buffer mode"),
    (0x0C, "direction"),
    (0x10, "interrupt of the master"),
    (0x20, "interrupt in the slave"),
    (0x40, "watchdog"),
    (0x80, "bit 7"),
]


@dataclass(frozen=True)
class Loss:
    """What the text doesn't say, by a kind that stays the same, and whether the slave then works otherwise."""

    kind: str
    words: str
    differs: bool

    def __str__(self) -> str:
        return f"{'differs' if self.differs else 'not said'}: {self.kind}: {self.words}"


def losses_of(device: Device, areas: list[ChosenArea]) -> list[Loss]:
    """All that the text of a slave with these areas leaves out."""
    differing = [loss for area in areas for loss in [*area_losses(area), *exclusions_broken(area)]]
    between = [*reach_losses(areas), *buffer_losses(device, areas), *mandatory_losses(device, areas)]
    return [*differing, *between, *notes(device, areas)]


def is_sayable(area: ChosenArea) -> bool:
    """Whether a project text may have the area."""
    return not any(loss.kind in UNSAYABLE for loss in area_losses(area))


UNSAYABLE = ("StartAddress", "EndAddress", "TooManyPdos", "TooManyEntries", "EntryTooWide", "AreaTooBig", "SyncManager")


def area_losses(area: ChosenArea) -> Iterator[Loss]:
    """What differs of an area by itself."""
    manager = area.manager
    at = f"sync manager {manager.number}"
    if manager.start is None:
        yield left_out("StartAddress", f"{at} has no start address in the file")
    elif manager.start < MEMORY_START:
        yield left_out("StartAddress", f"{at} begins at 0x{manager.start:04x}, below 0x{MEMORY_START:04x}")
    elif manager.start + area.offered_bytes() > MEMORY_END:
        yield left_out("EndAddress", f"{at} ends after 0x{MEMORY_END - 1:04x}")
    if manager.number > LAST_SYNC_MANAGER:
        yield left_out("SyncManager", f"{at} is over {LAST_SYNC_MANAGER}")
    if len(area.offered) > MOST_PDOS:
        yield left_out("TooManyPdos", f"{at} offers {len(area.offered)} PDOs, over {MOST_PDOS}")
    for pdo in area.offered:
        named = f"{at}, PDO 0x{pdo.index:04x}"
        if (count := sum(len(entry.parts()) for entry in pdo.entries)) > MOST_ENTRIES:
            yield left_out("TooManyEntries", f"{named} has {count} entries, over {MOST_ENTRIES}")
        if any(entry.bits < 1 for entry in pdo.entries):
            yield left_out("EntryTooWide", f"{named} has an entry of no bits")
    if area.assigned_bytes() * 8 > MOST_BITS:
        yield left_out("AreaTooBig", f"{at} has {area.assigned_bytes()} bytes assigned, over {MOST_BITS // 8}")
    written = CONTROL[manager.direction]
    if manager.control != written:
        words = f"{at} has 0x{manager.control:02x}, 0x{written:02x} is written{control_words(manager)}"
        yield Loss("ControlByte", words, True)


def left_out(kind: str, words: str) -> Loss:
    """A loss for which the area isn't in the text."""
    return Loss(kind, f"{words}: the area is left out", True)


def control_words(manager: SyncManager) -> str:
    """In which fields a control byte differs from the one that is written."""
    differing = manager.control ^ CONTROL[manager.direction]
    return "".join(f", {words}" for mask, words in CONTROL_BITS if differing & mask)


def exclusions_broken(area: ChosenArea) -> Iterator[Loss]:
    """Assigned PDOs that may not be assigned together."""
    assigned = [pdo for pdo in area.offered if pdo.index in area.assigned]
    for one, other in combinations(assigned, 2):
        if other.index in one.excludes or one.index in other.excludes:
            words = f"PDO 0x{one.index:04x} and PDO 0x{other.index:04x} exclude each other, both are assigned"
            yield Loss("Exclusion", words, True)


def spans_of(areas: list[ChosenArea], times: int, size_of: Callable[[ChosenArea], int]) -> list[Span]:
    """The memory of the areas that have a start address, so many times the bytes that a function gives."""
    placed = [area for area in areas if area.manager.start is not None]
    return [Span(f"sync manager {area.manager.number}", area.manager.start, times * size_of(area)) for area in placed]


def reach_losses(areas: list[ChosenArea]) -> Iterator[Loss]:
    """Areas whose offered PDOs all together overlap, which the program refuses."""
    spans = spans_of(areas, 1, ChosenArea.offered_bytes)
    for one, other in overlapping(spans):
        yield Loss("Reach", f"{one} overlaps {other}: hotline refuses the text until fewer PDOs are offered", True)


def buffer_losses(device: Device, areas: list[ChosenArea]) -> Iterator[Loss]:
    """Three buffers of an area that overlap another area's buffers, or a mailbox."""
    spans = spans_of(areas, 3, ChosenArea.assigned_bytes)
    mailboxes = [one for one in device.sync_managers if one.kind.startswith("MBox") and one.start is not None]
    spans += [Span(f"mailbox {manager.number}", manager.start, manager.size) for manager in mailboxes]
    for one, other in overlapping(spans):
        yield Loss("ThreeBuffers", f"{one} overlaps {other}", True)


def mandatory_losses(device: Device, areas: list[ChosenArea]) -> Iterator[Loss]:
    """PDOs that the device must have assigned, and that aren't."""
    assigned = {index for area in areas for index in area.assigned}
    for pdo in device.pdos:
        if pdo.is_mandatory and pdo.index not in assigned:
            yield Loss("Mandatory", f"PDO 0x{pdo.index:04x} must be assigned and isn't", True)


def notes(device: Device, areas: list[ChosenArea]) -> Iterator[Loss]:
    """What a master does beside the configuration of a text."""
    identity = f"vendor 0x{device.vendor:08x}, product 0x{device.product:08x}, revision 0x{device.revision:08x}"
    yield Loss("Identity", identity, False)
    for manager in device.sync_managers:
        if manager.kind.startswith("MBox"):
            words = f"sync manager {manager.number} {manager.kind} at {manager.place()}, {manager.size} bytes"
            yield Loss("Mailbox", f"{words}, control 0x{manager.control:02x}", False)
        elif manager.enable & ONLY_OPERATIONAL:
            yield Loss("Enable", f"sync manager {manager.number} is to be activated in Op alone", False)
    if device.mailbox:
        yield Loss("Protocols", ", ".join(device.mailbox), False)
    if device.clock_modes:
        yield Loss("Clocks", f"distributed clocks with the modes {', '.join(device.clock_modes)}", False)
    if device.has_modules:
        yield Loss("Modules", "slots take modules, whose PDOs aren't here", False)
    yield from pdo_notes(device, areas)


def pdo_notes(device: Device, areas: list[ChosenArea]) -> Iterator[Loss]:
    """Exclusions among offered PDOs, and PDOs that aren't offered."""
    offered = {pdo.index for area in areas for pdo in area.offered}
    for pdo in device.pdos:
        excluded = [f"0x{index:04x}" for index in pdo.excludes if index in offered]
        if pdo.index in offered and excluded:
            yield Loss("Excludes", f"PDO 0x{pdo.index:04x} excludes {', '.join(excluded)}", False)
        for entry in pdo.entries:
            if pdo.index in offered and len(entry.parts()) > 1:
                words = f"PDO 0x{pdo.index:04x}, entry 0x{entry.index:04x}:{entry.subindex:02x} of {entry.bits} bits"
                yield Loss("EntryParted", f"{words} is written as {len(entry.parts())} variables, the lowest bits first", False)
    missing = [f"0x{pdo.index:04x}" for pdo in device.pdos if pdo.index not in offered]
    if missing:
        yield Loss("NotOffered", f"PDOs {', '.join(missing)}", False)

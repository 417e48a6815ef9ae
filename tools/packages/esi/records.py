"""What an ESI file says of a device: identity, sync managers, PDOs, and that it has mailboxes, clocks or modules."""

import re
from dataclasses import dataclass

from esi.elements import Element
from projects.faults import Refusal
from projects.limits import MOST_ENTRY_BITS

NUMBER = re.compile(r"#[xX]([0-9A-Fa-f]{1,16})|([0-9]{1,20})")
ENGLISH = "1033"
DIRECTIONS = {"Outputs": "out", "Inputs": "in"}
PDO_TAGS = {"RxPdo": "out", "TxPdo": "in"}
TRUE = ("1", "true")


@dataclass(frozen=True)
class SyncManager:
    """A sync manager: its place in the list, its kind as `Outputs` or `MBoxIn`, and its register fields. The file may leave out its
    start address."""

    number: int
    kind: str
    start: int | None
    size: int
    control: int
    enable: int

    @property
    def direction(self) -> str | None:
        """`out` or `in` where it carries process data."""
        return DIRECTIONS.get(self.kind)

    def place(self) -> str:
        """The start address in words."""
        return "no address" if self.start is None else f"0x{self.start:04x}"


@dataclass(frozen=True)
class DeviceEntry:
    """An entry of a PDO; the object 0 is a gap."""

    index: int
    subindex: int
    bits: int
    name: str
    type: str

    def parts(self) -> list[int]:
        """The bits of each variable that the entry becomes: more than one if it is wider than a variable may be."""
        full, rest = divmod(self.bits, MOST_ENTRY_BITS)
        return [MOST_ENTRY_BITS] * full + ([rest] if rest or not full else [])


@dataclass(frozen=True)
class DevicePdo:
    """A PDO: the sync manager that has it assigned at first, or None, and the PDOs that may not be assigned with it."""

    index: int
    name: str
    direction: str
    sync_manager: int | None
    is_mandatory: bool
    excludes: list[int]
    entries: list[DeviceEntry]

    def bits(self) -> int:
        """The bits of all entries."""
        return sum(entry.bits for entry in self.entries)


@dataclass(frozen=True)
class Device:
    """A device; of mailboxes, clocks and modules only what there is."""

    type: str
    name: str
    vendor: int
    product: int
    revision: int
    sync_managers: list[SyncManager]
    pdos: list[DevicePdo]
    mailbox: list[str]
    clock_modes: list[str]
    has_modules: bool

    def title(self) -> str:
        """How the device is asked for, its revision too."""
        return f"{self.type}@0x{self.revision:08x}"

    def pdo(self, index: int) -> DevicePdo | None:
        """The PDO of an index."""
        return next((pdo for pdo in self.pdos if pdo.index == index), None)


def number(words: str | None, line: int) -> int:
    """A number in the form of these files, `#x1600` or `5632`; an absent one is 0."""
    if words is None or not words.strip():
        return 0
    found = NUMBER.fullmatch(words.strip())
    if found is None:
        raise Refusal(f"line {line}: BadNumber: {words.strip()!r} is no number")
    return int(found[1], 16) if found[1] else int(found[2])


def number_at(element: Element, tag: str) -> int:
    """The number in the first element with a tag."""
    found = element.first(tag)
    return number(found.text, found.line) if found else 0


def needed(element: Element, tag: str) -> int:
    """The same, where it may not be absent."""
    if not element.words(tag):
        raise Refusal(f"line {element.line}: MissingElement: {element.tag} has no {tag}")
    return number_at(element, tag)


def name_in(element: Element) -> str:
    """The English name, or the first one."""
    names = list(element.all("Name"))
    english = [name for name in names if name.attributes.get("LcId") == ENGLISH]
    return (english or names)[0].text.strip() if names else ""


def sync_manager(place: int, element: Element) -> SyncManager:
    """A sync manager by its place."""
    given = element.attributes
    start, *fields = (number(given.get(key), element.line) for key in ("StartAddress", "DefaultSize", "ControlByte", "Enable"))
    return SyncManager(place, element.text.strip(), start if given.get("StartAddress", "").strip() else None, *fields)


def entry(element: Element) -> DeviceEntry:
    """An entry of a PDO."""
    where = needed(element, "Index"), number_at(element, "SubIndex"), needed(element, "BitLen")
    return DeviceEntry(*where, name_in(element), element.words("DataType"))


def pdo(element: Element) -> DevicePdo:
    """A PDO, whose tag says its direction."""
    given = element.attributes
    manager = number(given["Sm"], element.line) if given.get("Sm", "").strip() else None
    return DevicePdo(
        needed(element, "Index"),
        name_in(element),
        PDO_TAGS[element.tag],
        manager,
        given.get("Mandatory") in TRUE,
        [number(found.text, found.line) for found in element.all("Exclude")],
        [entry(found) for found in element.all("Entry")],
    )


def device(element: Element, vendor: int) -> Device:
    """A device."""
    kind = element.first("Type")
    if kind is None:
        raise Refusal(f"line {element.line}: MissingElement: Device has no Type")
    mailbox, clock = element.first("Mailbox"), element.first("Dc")
    return Device(
        kind.text.strip(),
        name_in(element),
        vendor,
        number(kind.attributes.get("ProductCode"), kind.line),
        number(kind.attributes.get("RevisionNo"), kind.line),
        [sync_manager(place, found) for place, found in enumerate(element.all("Sm"))],
        [pdo(found) for found in element.elements if found.tag in PDO_TAGS],
        [found.tag for found in mailbox.elements] if mailbox else [],
        [found.words("Name") for found in clock.all("OpMode")] if clock else [],
        element.first("Slots") is not None,
    )


def devices_of(root: Element) -> list[Device]:
    """All devices of a file."""
    if root.tag != "EtherCATInfo":
        raise Refusal(f"line {root.line}: NoEsi: the file begins with {root.tag} in place of EtherCATInfo")
    devices, vendor = root.first("Descriptions", "Devices"), root.first("Vendor")
    identity = number_at(vendor, "Id") if vendor else 0
    return [device(found, identity) for found in devices.all("Device")] if devices else []

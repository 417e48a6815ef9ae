"""Which PDOs of a device a slave offers and has assigned: by the ESI file, or as they are asked for."""

from collections.abc import Iterable
from dataclasses import dataclass, field

from esi.records import Device, DevicePdo, SyncManager
from projects.faults import Refusal


@dataclass
class Choice:
    """A device as it is chosen: `TYPE` or `TYPE@REVISION`, and PDOs by sync manager; None offers all."""

    type: str | None = None
    name: str | None = None
    prefix: str | None = None
    assigned: dict[int, list[int]] = field(default_factory=dict)
    offered: dict[int, list[int] | None] = field(default_factory=dict)


@dataclass(frozen=True)
class ChosenArea:
    """An area of the slave: its sync manager, what it offers, and the indexes that are assigned at first."""

    manager: SyncManager
    offered: list[DevicePdo]
    assigned: list[int]

    def assigned_bytes(self) -> int:
        """The bytes of what is assigned."""
        bits = {pdo.index: pdo.bits() for pdo in self.offered}
        return (sum(bits[index] for index in self.assigned) + 7) // 8

    def offered_bytes(self) -> int:
        """The bytes of all that is offered."""
        return (sum(pdo.bits() for pdo in self.offered) + 7) // 8


def found_device(devices: Iterable[Device], choice: Choice) -> Device:
    """The device that is asked for: the one there is, or the one of a type, of its last revision if none is named."""
    if choice.type is None:
        matching = list(devices)
        if len({device.type for device in matching}) > 1:
            raise Refusal("NoDevice: the files have several devices; --list shows them, --device TYPE chooses one")
    else:
        matching = [device for device in devices if choice.type in (device.type, device.title())]
    if not matching:
        raise Refusal(f"NoDevice: no file has a device {choice.type or ''}".rstrip())
    return max(matching, key=lambda device: device.revision)


def areas_of(device: Device, choice: Choice) -> list[ChosenArea]:
    """The areas of the sync managers that carry process data and have a PDO, in their order."""
    managers = {manager.number for manager in device.sync_managers if manager.direction}
    for number in [*choice.assigned, *choice.offered]:
        if number not in managers:
            raise Refusal(f"NoSuchSyncManager: sync manager {number} of {device.type} carries no process data")
    areas = [area_of(device, manager, choice) for manager in device.sync_managers if manager.direction]
    return [area for area in areas if area.offered]


def area_of(device: Device, manager: SyncManager, choice: Choice) -> ChosenArea:
    """The area of a sync manager."""
    default = [pdo.index for pdo in device.pdos if fits(pdo, manager) and pdo.sync_manager == manager.number]
    assigned = choice.assigned.get(manager.number, default)
    if len(set(assigned)) < len(assigned):
        raise Refusal(f"RepeatedPdo: sync manager {manager.number} is to have a PDO twice")
    more = choice.offered.get(manager.number, [])
    if more is None:
        more = [pdo.index for pdo in device.pdos if fits(pdo, manager)]
    offered = [pdo_at(device, manager, index) for index in dict.fromkeys([*assigned, *more])]
    return ChosenArea(manager, sorted(offered, key=lambda pdo: pdo.index), assigned)


def fits(pdo: DevicePdo, manager: SyncManager) -> bool:
    """Whether a sync manager may carry a PDO: it has its direction, and the file names no other sync manager for it."""
    return pdo.direction == manager.direction and pdo.sync_manager in (None, manager.number)


def pdo_at(device: Device, manager: SyncManager, index: int) -> DevicePdo:
    """A PDO that is asked for by its index."""
    found = device.pdo(index)
    if found is None or found.direction != manager.direction:
        raise Refusal(f"NoSuchPdo: sync manager {manager.number} of {device.type} can't carry a PDO 0x{index:04x}")
    return found

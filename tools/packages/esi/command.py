"""The command line of `tools/esi`."""

import argparse
import sys
from collections.abc import Callable

from esi.choosing import Choice, areas_of, found_device
from esi.elements import LONGEST, tree_of
from esi.losses import losses_of
from esi.records import Device, DevicePdo, devices_of
from esi.writing import Slave, SlaveWriter, identifier, quoted
from projects.faults import FINDINGS, FINE, Refusal
from projects.files import content_of

# Variables are numbered by station where no first number is asked for.
VARIABLES_OF_A_STATION = 1000
LAST_STATION = 65_535


class DeviceAction(argparse.Action):
    """Begins another device; the options after it are its own."""

    def __call__(self, parser: argparse.ArgumentParser, namespace: argparse.Namespace, values: str, _option: object = None) -> None:
        if namespace.devices and namespace.devices[0].type is None:
            parser.error("--name, --prefix, --assign and --offer come after the --device that they are of")
        namespace.devices.append(Choice(values))


class OfDevice(argparse.Action):
    """An option of the device that was named last, or of the only one there is."""

    def __call__(self, _parser: object, namespace: argparse.Namespace, values: object, _option: object = None) -> None:
        if not namespace.devices:
            namespace.devices.append(Choice())
        choice = namespace.devices[-1]
        if isinstance(values, tuple):
            manager, pdos = values
            getattr(choice, self.dest)[manager] = pdos
        else:
            setattr(choice, self.dest, values)


def integer(least: int, most: int) -> Callable[[str], int]:
    """A number of the command line in a range, decimal or hexadecimal."""

    def read(words: str) -> int:
        value = int(words, 0)
        if not least <= value <= most:
            raise ValueError(words)
        return value

    read.__name__ = f"number from {least} to {most}"
    return read


def pdos_of(words: str) -> tuple[int, list[int]]:
    """`SM=PDO,..`: PDOs by their indexes at a sync manager; nothing after the sign means none."""
    manager, _, indexes = words.partition("=")
    return int(manager, 0), [int(index, 0) for index in indexes.split(",") if index]


def offered_of(words: str) -> tuple[int, list[int] | None]:
    """The same, or `SM=all`."""
    manager, _, indexes = words.partition("=")
    return (int(manager, 0), None) if indexes == "all" else pdos_of(words)


pdos_of.__name__ = offered_of.__name__ = "list of PDOs"


def parsed(words: list[str]) -> argparse.Namespace:
    """The arguments; a word that is none ends the run with status 2."""
    parser = argparse.ArgumentParser(
        prog="tools/esi",
        description="Writes devices of ESI files as slaves of a project text, and lists what such a text can't say.",
        epilog="Status: 0 written, 1 written and the slave would work otherwise than its file says (lines `differs`), "
        "2 there is no such device or a file can't be read. docs/use/TOOLS.md has the rest.",
    )
    parser.add_argument("files", nargs="+", metavar="DEVICE.xml", help="ESI files (ETG.2000)")
    parser.add_argument("--list", action="store_true", help="list the devices with their PDOs and write nothing")
    parser.add_argument("--station", type=integer(1, LAST_STATION), default=1001, help="the first address (1001)")
    parser.add_argument("--task", type=integer(0, 7), default=0, help="the task of all areas (0)")
    parser.add_argument("--variable", type=integer(1, 2**32 - 1), help="first variable (1000 a station)")
    parser.add_argument("--alias", type=integer(1, 65535), help="write a group with this alias, a tool or a module")
    parser.add_argument("--group", default="", metavar="NAME", help="that group's name")
    parser.add_argument("--device", action=DeviceAction, metavar="TYPE[@REVISION]", help="a slave; may be repeated")
    own = parser.add_argument_group("of the --device before")
    own.add_argument("--name", action=OfDevice, help="the slave's name (its type)")
    own.add_argument("--prefix", action=OfDevice, help="what its variables' names begin with (type and station)")
    assigned = {"dest": "assigned", "type": pdos_of, "metavar": "SM=PDO,.."}
    offered = {"dest": "offered", "type": offered_of, "metavar": "SM=PDO,..|SM=all"}
    own.add_argument("--assign", action=OfDevice, help="PDOs that are assigned in place of the file's", **assigned)
    own.add_argument("--offer", action=OfDevice, help="PDOs that are offered beside those", **offered)
    parser.set_defaults(devices=[])
    return parser.parse_args(words)


def listed(device: Device) -> str:
    """A device with its sync managers and PDOs, for who chooses among them."""
    lines = [f"{device.title()} {device.name}"]
    for manager in device.sync_managers:
        lines.append(f"  sync manager {manager.number} {manager.kind} at {manager.place()}")
        lines += [f"    assigned {words_of(pdo)}" for pdo in device.pdos if pdo.sync_manager == manager.number]
    lines += [f"  {pdo.direction} {words_of(pdo)}" for pdo in device.pdos if pdo.sync_manager is None]
    return "\n".join(lines)


def words_of(pdo: DevicePdo) -> str:
    """A PDO in a line."""
    excluded = ", excludes " + " ".join(f"0x{index:04x}" for index in pdo.excludes) if pdo.excludes else ""
    return f"PDO 0x{pdo.index:04x} {pdo.name}, {pdo.bits()} bits{excluded}"


def written(devices: list[Device], arguments: argparse.Namespace) -> tuple[list[str], list[str]]:
    """The lines of the text, and in which ways slaves would work otherwise than their files say."""
    lines, differs, variable = [], [], arguments.variable
    if arguments.alias is not None:
        name = [f"name = {quoted(arguments.group)}"] if arguments.group else []
        lines += ["[[group]]", *name, f"alias = {arguments.alias}", ""]
    for place, choice in enumerate(arguments.devices or [Choice()]):
        station = arguments.station + place
        if station > LAST_STATION:
            raise Refusal(f"NoStation: the slave {place} would have the station address {station}")
        first = station * VARIABLES_OF_A_STATION + 1 if variable is None else variable
        writer = SlaveWriter(slave_of(found_device(devices, choice), choice, arguments, station, first))
        lines += [*writer.lines(), ""]
        differs += [f"{writer.slave.name}, station {station}: {loss}" for loss in writer.slave.losses if loss.differs]
        if variable is not None:
            variable = writer.variable
        elif writer.variable - first >= VARIABLES_OF_A_STATION:
            raise Refusal(f"TooManyVariables: {choice.type} has {writer.variable - first}; --variable numbers them on")
    return lines[:-1], differs


def slave_of(device: Device, choice: Choice, arguments: argparse.Namespace, station: int, first: int) -> Slave:
    """A device as a slave."""
    areas = areas_of(device, choice)
    prefix = identifier(choice.prefix or f"{device.type} {station}")
    return Slave(
        "slave" if arguments.alias is None else "group.slave",
        choice.name or device.type,
        prefix if prefix[:1].isalpha() else f"s_{prefix}",
        station,
        arguments.task,
        first,
        areas,
        losses_of(device, areas),
    )


def run(words: list[str]) -> int:
    """Writes what is asked for."""
    arguments = parsed(words)
    devices = []
    for name in arguments.files:
        try:
            devices += devices_of(tree_of(content_of(name, LONGEST)))
        except Refusal as refusal:
            raise Refusal(f"{name}: {refusal}") from refusal
    if arguments.list:
        print("\n".join(map(listed, devices)))
        return FINE
    lines, differs = written(devices, arguments)
    print("\n".join(lines))
    for words in differs:
        print(f"esi: {words}", file=sys.stderr)
    return FINDINGS if differs else FINE

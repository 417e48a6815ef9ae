"""Bits of bytes, the location of a project's faults, and a master's frames beside a line's."""

from __future__ import annotations

from ctypes import byref, c_size_t, c_uint64
from typing import Union

from . import library as c
from .answers import Location, Spot
from .faults import FAULTS, ProjectFault

Bytes = Union[bytes, bytearray, memoryview]

#: the first byte of the source address of a master's own EtherCAT frames
OTHER_SOURCE = 0x06

#: the bytes of the longest frame that is built here: zeros to 16 FMMUs
_LONGEST = 284

_NOWHERE = c_size_t(-1).value
_KEYS = (
    "table", "group", "alias", "slave", "station", "area", "sm", "dir", "phys", "task", "assigned", "assigned item", "pdo", "index",
    "entries", "entry", "variable", "bits",
)


def _done(number: int) -> None:
    if number:
        raise FAULTS[number]()


def get_bits(data: Bytes, bit: int, bits: int) -> int:
    """The number in 1 to 64 bits from a bit on, counted from the least significant bit of the first byte. `Misused` where they
    don't lie within the bytes."""
    it = c_uint64()
    _done(c.call("get_bits", *c.slice_of(data), bit, bits, byref(it)))
    return it.value


def put_bits(data: bytearray | memoryview, bit: int, bits: int, value: int) -> None:
    """Replaces 1 to 64 bits from a bit on by the bits of a number. `Misused`, `TooWide`."""
    if memoryview(data).readonly:
        raise TypeError("bits are replaced where they are: hand in a bytearray")
    _done(c.call("put_bits", *c.slice_of(data), bit, bits, value))


def _spot(it: c.Spot) -> Spot:
    slave, area, pdo, item = (None if at == _NOWHERE else at for at in (it.slave, it.area, it.pdo, it.item))
    return Spot(it.group, slave, area, pdo, item, it.alias, it.station, _KEYS[it.key])


def locate(text: Bytes) -> tuple[type[ProjectFault], Location] | None:
    """Why a text is no project, and where; None where it is one."""
    it = c.Location()
    number = c.call("locate", *c.slice_of(text), byref(it))
    if not number:
        return None
    fault = FAULTS[number]
    if not issubclass(fault, ProjectFault):
        raise fault()
    if it.line:
        return fault, Location(it.line, it.column, None, None)
    return fault, Location(None, None, _spot(it.place), _spot(it.first))


def is_mine(frame: Bytes) -> bool:
    """Whether a frame may be one that the library wrote, as sent or as it came back."""
    return bool(c.library.zangjulf_is_mine(*c.slice_of(frame)))


def _frame(name: str, *numbers: int) -> bytes:
    out, size = bytearray(_LONGEST), c_size_t()
    _done(c.call(name, *numbers, *c.slice_of(out), byref(size)))
    return bytes(out[: size.value])


def alias_read(position: int) -> bytes:
    """The frame that reads the station alias of the slave at a position, from 0: it is in bytes 26 and 27 of what returns."""
    return _frame("alias_read", position)


def station_write(position: int, station: int) -> bytes:
    """The frame that gives the slave at a position, from 0, its station address."""
    return _frame("station_write", position, station)


def fmmu_off(station: int, count: int) -> bytes:
    """The frame that switches off the first `count` FMMUs, 1 to 16, of the slave with a station address, as many as it has areas: its
    working counter is 1 in what returns if the slave took it. Send it before `Line.connect`, and before `Line.disconnect`
    while the slave still answers, and call `Line.cleared` after the edit. `Misused` for another count."""
    return _frame("fmmu_off", station, count)

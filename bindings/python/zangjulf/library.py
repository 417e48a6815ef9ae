"""Finds the shared object, and declares to ctypes the calls of include/zangjulf.h."""

from __future__ import annotations

import ctypes
import ctypes.util
import os
from ctypes import POINTER, c_bool, c_size_t, c_uint8, c_uint16, c_uint32, c_uint64, c_void_p
from pathlib import Path
from typing import Any

SHARED_OBJECT = "libzangjulf.so"

#: the number of the binary interface that is declared here
ABI = 1

#: the most datagrams of a task
DATAGRAMS = 16

#: bytes that hold any task's image
IMAGE = DATAGRAMS * 1486


class Handle(ctypes.Structure):
    _fields_ = [("mark", c_uint64), ("at", c_void_p)]


class Seat(ctypes.Structure):
    _fields_ = [("mark", c_uint64), ("at", c_void_p)]


class Options(ctypes.Structure):
    _fields_ = [("size", c_uint32), ("lookers", c_uint32)]


class View(ctypes.Structure):
    _fields_ = [
        ("showing", c_uint64), ("first_serial", c_uint64), ("taken", c_uint64),
        ("epoch", c_uint32), ("task_epoch", c_uint32), ("size", c_uint32), ("outputs", c_uint32),
        ("datagrams", c_uint16), ("has", c_uint16), ("state", c_uint8), ("line", c_uint8), ("is_refused", c_uint8), ("reserved", c_uint8),
    ]


class Taken(ctypes.Structure):
    _fields_ = [("accepted", c_uint8), ("refused", c_uint8), ("reserved", c_uint8 * 6)]


class Place(ctypes.Structure):
    _fields_ = [
        ("task", c_uint8), ("datagram", c_uint8), ("bits", c_uint8), ("is_input", c_bool), ("bit", c_uint16), ("image_bit", c_uint32),
    ]


class Datagram(ctypes.Structure):
    _fields_ = [("address", c_uint32), ("length", c_uint16), ("expected", c_uint16), ("offset", c_uint16)]


class ImageSizes(ctypes.Structure):
    _fields_ = [("outputs", c_uint16), ("inputs", c_uint16)]


class Block(ctypes.Structure):
    _fields_ = [("start", c_uint16), ("size", c_size_t)]


class OwedBlock(ctypes.Structure):
    _fields_ = [("station", c_uint16), ("start", c_uint16), ("size", c_uint8), ("reserved", c_uint8 * 3)]


class Write(ctypes.Structure):
    _fields_ = [("size", c_uint32), ("block", OwedBlock)]


class Writes(ctypes.Structure):
    _fields_ = [("size", c_uint32), ("blocks", c_uint32)]


class Cost(ctypes.Structure):
    _fields_ = [
        ("epoch", c_uint32), ("recut", c_uint32), ("moved", c_uint32), ("places", c_uint32),
        ("crowded", c_uint8), ("waits", c_uint8), ("reserved", c_uint8 * 2),
    ]


class Frame(ctypes.Structure):
    _fields_ = [("offset", c_uint32), ("size", c_uint32)]


class Waits(ctypes.Structure):
    _fields_ = [("blocks", c_uint32), ("outside", c_uint32), ("task", c_uint8), ("reserved", c_uint8 * 3)]


class Sent(ctypes.Structure):
    _fields_ = [("first_serial", c_uint64), ("size", c_uint32), ("frames", c_uint32), ("waits", Waits), ("reserved", c_uint32)]


class Outcome(ctypes.Structure):
    _fields_ = [
        ("kind", c_uint8), ("task", c_uint8), ("datagram", c_uint8), ("reserved", c_uint8),
        ("expected", c_uint16), ("got", c_uint16), ("at", c_uint16), ("length", c_uint16),
        ("station", c_uint16), ("start", c_uint16),
    ]


class Arrival(ctypes.Structure):
    _fields_ = [("serial", c_uint64), ("datagrams", c_uint16), ("kind", c_uint8), ("reserved", c_uint8 * 5)]


class Image(ctypes.Structure):
    _fields_ = [
        ("first_serial", c_uint64), ("epoch", c_uint32), ("task_epoch", c_uint32), ("size", c_uint32),
        ("datagrams", c_uint16), ("has", c_uint16), ("state", c_uint8), ("reserved", c_uint8 * 7),
    ]


class Counters(ctypes.Structure):
    _fields_ = [("sent", c_uint64), ("good", c_uint64), ("wrong", c_uint64), ("again", c_uint64)]


class Spot(ctypes.Structure):
    _fields_ = [
        ("group", c_size_t), ("slave", c_size_t), ("area", c_size_t), ("pdo", c_size_t), ("item", c_size_t),
        ("alias", c_uint16), ("station", c_uint16), ("key", c_uint8),
    ]


class Location(ctypes.Structure):
    _fields_ = [("line", c_size_t), ("column", c_size_t), ("place", Spot), ("first", Spot)]


_MOST = {c_uint8: 0xFF, c_uint16: 0xFFFF, c_uint32: 0xFFFFFFFF, c_uint64: 0xFFFFFFFFFFFFFFFF, c_size_t: 0xFFFFFFFFFFFFFFFF}
_BYTES = POINTER(c_uint8)
_SLICE = (_BYTES, c_size_t)

#: what each call of a line takes after the handle
LINE_CALLS: dict[str, tuple[Any, ...]] = {
    "open": (POINTER(Options), *_SLICE, POINTER(c_uint8)),
    "epoch": (POINTER(c_uint32),),
    "next_serial": (POINTER(c_uint64),),
    "owed": (POINTER(c_uint32),),
    "owed_block": (c_uint32, POINTER(OwedBlock)),
    "place": (c_uint32, POINTER(Place)),
    "places": (POINTER(c_uint32), c_size_t, POINTER(Place), c_size_t),
    "datagram": (c_uint8, c_uint8, POINTER(Datagram)),
    "image_sizes": (c_uint8, POINTER(ImageSizes)),
    "station": (c_uint32, POINTER(c_uint16)),
    "position": (c_uint16, POINTER(c_uint32)),
    "expected_of": (c_uint8, c_uint8, c_uint16, POINTER(c_uint16)),
    "block": (c_uint16, c_uint8, *_SLICE, POINTER(Block)),
    "connect": (c_uint16, c_bool, POINTER(Cost)),
    "disconnect": (c_uint16, c_bool, POINTER(Cost)),
    "remap": (c_uint16, c_uint8, POINTER(c_uint16), c_size_t, c_bool, POINTER(Cost)),
    "move_area": (c_uint16, c_uint8, c_uint8, c_bool, POINTER(Cost)),
    "declare": (*_SLICE, c_bool, POINTER(Cost)),
    "next_write": (*_SLICE, POINTER(Write)),
    "next_writes": (*_SLICE, POINTER(Writes)),
    "further_writes": (*_SLICE, POINTER(Writes)),
    "slave_lost": (c_uint16,),
    "post": (c_uint8, c_uint32, *_SLICE),
    "send": (*_SLICE, *_SLICE, POINTER(Frame), c_size_t, POINTER(Sent)),
    "ready": (POINTER(c_uint8),),
    "held_by": (c_uint8, c_uint32, POINTER(c_uint16)),
    "cleared": (c_uint16,),
    "unplugged": (c_uint16,),
    "preview": (c_uint8, c_uint8, *_SLICE, POINTER(c_size_t)),
    "arrive": (*_SLICE, POINTER(Outcome), c_size_t, POINTER(Arrival)),
    "read": (c_uint8, *_SLICE, POINTER(c_uint64), c_size_t, POINTER(Image)),
    "counters": (c_uint8, c_uint8, POINTER(Counters)),
    "put_value": (c_uint32, c_uint32, c_uint64, *_SLICE),
    "get_value": (c_uint32, c_uint32, *_SLICE, POINTER(c_uint64)),
    "seat_open": (c_uint8, POINTER(Seat)),
    "look_open": (c_uint32, c_uint8, POINTER(Seat)),
    "show": (),
    "take_posts": (POINTER(Taken),),
    "close": (),
}

#: what each call of a seat takes after the seat
SEAT_CALLS: dict[str, tuple[Any, ...]] = {
    "seat_view": (*_SLICE, POINTER(c_uint64), c_size_t, POINTER(View)),
    "seat_outputs": _SLICE,
    "seat_post": (c_uint32, *_SLICE, POINTER(c_uint64)),
    "seat_close": (),
}

#: what each call without a line takes
CALLS: dict[str, tuple[Any, ...]] = {
    "locate": (*_SLICE, POINTER(Location)),
    "get_bits": (*_SLICE, c_size_t, c_uint8, POINTER(c_uint64)),
    "put_bits": (*_SLICE, c_size_t, c_uint8, c_uint64),
    "alias_read": (c_uint16, *_SLICE, POINTER(c_size_t)),
    "station_write": (c_uint16, c_uint16, *_SLICE, POINTER(c_size_t)),
    "fmmu_off": (c_uint16, c_uint8, *_SLICE, POINTER(c_size_t)),
    "slave_start": (*_SLICE, c_uint16),
    "slave_process": (*_SLICE, *_SLICE),
}


def library_path() -> str:
    """Where the shared object is: the file that ZANGJULF_LIBRARY names, the one that the package carries, the one that
    packaging/library.sh left in the repository's build folder, or what the system's linker finds."""
    named = os.environ.get("ZANGJULF_LIBRARY")
    if named:
        return named
    here = Path(__file__).resolve()
    for folder in (here.parent, here.parents[3] / "build"):
        if (folder / SHARED_OBJECT).exists():
            return str(folder / SHARED_OBJECT)
    found = ctypes.util.find_library("zangjulf")
    if found is None:
        raise OSError("libzangjulf isn't found: install it, or name the shared object in ZANGJULF_LIBRARY")
    return found


def _load() -> ctypes.PyDLL:
    # PyDLL holds Python's lock in each call, so that calls of two threads with one line come one after the other
    found = ctypes.PyDLL(library_path())
    found.zangjulf_abi.argtypes, found.zangjulf_abi.restype = (), c_uint32
    if found.zangjulf_abi() != ABI:
        raise OSError(f"{library_path()} has another binary interface, {found.zangjulf_abi()}: {ABI} is wanted")
    for name, arguments in LINE_CALLS.items():
        call = getattr(found, f"zangjulf_{name}")
        call.argtypes, call.restype = (POINTER(Handle), *arguments), c_uint8
    for name, arguments in SEAT_CALLS.items():
        call = getattr(found, f"zangjulf_{name}")
        call.argtypes, call.restype = (POINTER(Seat), *arguments), c_uint8
    for name, arguments in CALLS.items():
        call = getattr(found, f"zangjulf_{name}")
        call.argtypes, call.restype = arguments, c_uint8
    found.zangjulf_is_mine.argtypes, found.zangjulf_is_mine.restype = _SLICE, c_bool
    found.zangjulf_version.argtypes, found.zangjulf_version.restype = (POINTER(c_uint32),) * 3, None
    return found


library = _load()


def library_version() -> str:
    """The version of the library that is loaded."""
    numbers = [c_uint32(), c_uint32(), c_uint32()]
    library.zangjulf_version(*map(ctypes.byref, numbers))
    return ".".join(str(number.value) for number in numbers)


def slice_of(data: Any) -> tuple[Any, int]:
    """A pointer and a length of bytes: where they are if they can be written, else of a copy."""
    view = memoryview(data).cast("B")
    if view.readonly or not len(view):
        held = (c_uint8 * max(len(view), 1)).from_buffer_copy(bytes(view) or b"\0")
    else:
        held = (c_uint8 * len(view)).from_buffer(view)
    return ctypes.cast(held, _BYTES), len(view)


def held(value: Any, kind: Any) -> Any:
    """What is handed to C as of a type; a number is one that the type holds, where ctypes would wrap it."""
    if kind in _MOST and not 0 <= value <= _MOST[kind]:
        raise ValueError(f"{value} isn't 0 to {_MOST[kind]}")
    return value


def call(name: str, *arguments: Any) -> int:
    """Calls the library without a line."""
    return getattr(library, f"zangjulf_{name}")(*map(held, arguments, CALLS[name]))

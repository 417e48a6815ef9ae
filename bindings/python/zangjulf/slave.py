"""A slave to simulate a line by."""

from __future__ import annotations

from ctypes import c_uint16

from . import library as c
from .faults import FAULTS

SLAVE_MEMORY = 12288


class Slave:
    """A simulated slave; `memory` is its 12,288 bytes from register 0 on, fresh but for its alias and station address."""

    def __init__(self, alias: int = 0, station: int = 0) -> None:
        self.memory = bytearray(SLAVE_MEMORY)
        c.call("slave_start", *c.slice_of(self.memory), alias)
        self.memory[0x10:0x12] = c.held(station, c_uint16).to_bytes(2, "little")

    def process(self, frame: bytearray | memoryview) -> None:
        """It does with a frame what a slave does, in the frame's place: a `bytearray`, or what else can be written. `Misused`
        where `memory` has another size."""
        if memoryview(frame).readonly:
            raise TypeError("a frame is served where it is: hand in a bytearray")
        number = c.call("slave_process", *c.slice_of(self.memory), *c.slice_of(frame))
        if number:
            raise FAULTS[number]()

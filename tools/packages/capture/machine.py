"""A simulated slave in plain Python, and the frames that set it up (docs/meaning/DEFINITIONS.md).

`Slave`, `alias_read` and `station_write` can be called as those of the library's Python package, which replace them if it is there.
"""

from collections.abc import Iterator
from dataclasses import dataclass, replace

from capture.frames import ADDRESSES, APRD, APWR, FPWR, LRW, Datagram, Frame, frame_bytes, read_frame

MEMORY = 0x3000
STATION_REGISTER, ALIAS_REGISTER = 0x0010, 0x0012
FMMUS, FMMU_COUNT, FMMU_SIZE = 0x0600, 16, 16
COUNTERS = 0x10000
SETUP_SERIAL = 2**40 - 1


@dataclass(frozen=True)
class Mapping:
    """An active FMMU: logical bits from one on, memory bits from one on, how many, and which ways they go."""

    logical: int
    memory: int
    bits: int
    reads: bool
    writes: bool

    def pairs(self, first: int, count: int) -> Iterator[tuple[int, int]]:
        """The logical bits within a datagram's data, counted from its first, each with its bit of memory."""
        low, high = max(self.logical, first), min(self.logical + self.bits, first + count)
        for bit in range(low, high):
            memory = self.memory + bit - self.logical
            if memory < 8 * MEMORY:
                yield bit - first, memory


class Slave:
    """A slave with an alias of its own or none; its memory is all zeros but for the alias."""

    def __init__(self, alias: int = 0) -> None:
        self.memory = bytearray(MEMORY)
        self.memory[ALIAS_REGISTER : ALIAS_REGISTER + 2] = alias.to_bytes(2, "little")

    def number(self, at: int, size: int) -> int:
        """The number in some bytes of memory."""
        return int.from_bytes(self.memory[at : at + size], "little")

    def mapping(self, at: int) -> Mapping | None:
        """The FMMU whose block begins at an address, or None where it isn't active."""
        block = self.memory[at : at + FMMU_SIZE]
        if not block[12] & 1:
            return None
        logical = 8 * self.number(at, 4) + block[6] % 8
        last = 8 * (self.number(at, 4) + self.number(at + 4, 2) - 1) + block[7] % 8
        memory = 8 * self.number(at + 8, 2) + block[10] % 8
        return Mapping(logical, memory, max(0, last - logical + 1), bool(block[11] & 1), bool(block[11] & 2))

    def write(self, at: int, data: bytes) -> None:
        """Writes memory; the alias stays."""
        alias = self.memory[ALIAS_REGISTER : ALIAS_REGISTER + 2]
        self.memory[at : at + len(data)] = data
        self.memory[ALIAS_REGISTER : ALIAS_REGISTER + 2] = alias

    def process(self, frame: bytearray) -> None:
        """Serves the datagrams of a frame in order, in the frame's place."""
        sent = read_frame(bytes(frame))
        frame[:] = frame_bytes(Frame(sent.serial, [self.served(datagram) for datagram in sent.datagrams]))

    def served(self, datagram: Datagram) -> Datagram:
        """A datagram as it leaves the slave."""
        if datagram.command in (APRD, APWR):
            return self.by_position(datagram)
        if datagram.command == FPWR:
            return self.by_station(datagram)
        return self.process_data(datagram) if datagram.command == LRW else datagram

    def by_position(self, datagram: Datagram) -> Datagram:
        """A read or a write of the slave that the position has counted down to."""
        at, size = datagram.register(), len(datagram.data)
        passed = replace(datagram, address=(datagram.slave_address() + 1) % ADDRESSES + at * ADDRESSES)
        if datagram.slave_address() or at + size > MEMORY:
            return passed
        if datagram.command == APWR:
            self.write(at, datagram.data)
            return counted(passed, 1)
        return counted(replace(passed, data=bytes(self.memory[at : at + size])), 1)

    def by_station(self, datagram: Datagram) -> Datagram:
        """A write of the slave with a station address."""
        at = datagram.register()
        addressed = self.number(STATION_REGISTER, 2) == datagram.slave_address()
        if not addressed or at + len(datagram.data) > MEMORY:
            return datagram
        self.write(at, datagram.data)
        return counted(datagram, 1)

    def process_data(self, datagram: Datagram) -> Datagram:
        """Bits between memory and datagram, by the FMMUs as they are before it; the lowest FMMU decides."""
        found = [self.mapping(FMMUS + FMMU_SIZE * number) for number in range(FMMU_COUNT)]
        mappings = [mapping for mapping in found if mapping is not None]
        first, count, was = 8 * datagram.address, 8 * len(datagram.data), bytes(self.memory)
        read: dict[int, int] = {}
        written: dict[int, int] = {}
        for mapping in mappings:
            for logical, memory in mapping.pairs(first, count):
                if mapping.reads:
                    read.setdefault(logical, memory)
                if mapping.writes:
                    written.setdefault(memory, logical)
        data = bytearray(datagram.data)
        for logical, memory in read.items():
            put_bit(data, logical, bit_of(was, memory))
        after = bytearray(was)
        for memory, logical in written.items():
            put_bit(after, memory, bit_of(datagram.data, logical))
        self.write(0, bytes(after))
        return counted(replace(datagram, data=bytes(data)), bool(read) + 2 * bool(written))


def counted(datagram: Datagram, more: int) -> Datagram:
    """A datagram with a higher working counter."""
    return replace(datagram, counter=(datagram.counter + more) % COUNTERS)


def bit_of(data: bytes | bytearray, bit: int) -> int:
    """A bit, counted from the least significant one of the first byte."""
    return data[bit // 8] >> bit % 8 & 1


def put_bit(data: bytearray, bit: int, value: int) -> None:
    """Gives a bit a value."""
    data[bit // 8] = data[bit // 8] & ~(1 << bit % 8) | value << bit % 8


def setup_frame(command: int, position: int, register: int, data: bytes) -> bytes:
    """A frame for the slave at a position. Its address begins with the negative position, and reaches 0 at this slave."""
    address = -position % ADDRESSES + register * ADDRESSES
    return frame_bytes(Frame(SETUP_SERIAL, [Datagram(command, address, data)]))


def alias_read(position: int) -> bytes:
    """The frame that reads the configured station alias of the slave at a position."""
    return setup_frame(APRD, position, ALIAS_REGISTER, b"\0\0")


def station_write(position: int, station: int) -> bytes:
    """The frame that gives the slave at a position its station address."""
    return setup_frame(APWR, position, STATION_REGISTER, station.to_bytes(2, "little"))

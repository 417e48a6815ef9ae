"""Frames of EtherCAT datagrams as bytes (ETG.1000.4): read, and built as the program builds them.

A frame has the destination `ff` six times, a source of the byte 02 and the serial, the EtherType, a header with the length
of all datagrams, the datagrams, and zeros up to 60 bytes. Each datagram has 10 bytes before its data and a working counter
of 2 bytes after them. Numbers in a datagram have their least significant byte first.
"""

from dataclasses import dataclass

APRD, APWR, FPWR, LRW = 1, 2, 5, 12
ETHERTYPE = b"\x88\xa4"
SHORTEST = 60
TASK_STEP, DATAGRAM_STEP = 0x01000000, 2048
ADDRESSES = 0x10000


@dataclass(frozen=True)
class Datagram:
    """A datagram: its command, its address as four bytes make it, its data and its working counter."""

    command: int
    address: int
    data: bytes
    counter: int = 0

    def slave_address(self) -> int:
        """The first half of the address: a position or a station address."""
        return self.address % ADDRESSES

    def register(self) -> int:
        """The second half of the address."""
        return self.address // ADDRESSES

    def name(self) -> tuple[int, int]:
        """The task and the number of a datagram of process data, by its logical address."""
        return self.address // TASK_STEP - 1, self.address % TASK_STEP // DATAGRAM_STEP


@dataclass(frozen=True)
class Frame:
    """A frame: its serial and its datagrams in order."""

    serial: int
    datagrams: list[Datagram]


def read_frame(content: bytes) -> Frame:
    """The frame that some bytes are; it must be one of those that the program prints, or one that came back."""
    serial = int.from_bytes(content[7:12], "big")
    end = 16 + int.from_bytes(content[14:16], "little") % 2048
    at, datagrams = 16, []
    while at < end:
        size = int.from_bytes(content[at + 6 : at + 8], "little") % 2048
        address = int.from_bytes(content[at + 2 : at + 6], "little")
        data = content[at + 10 : at + 10 + size]
        counter = int.from_bytes(content[at + 10 + size : at + 12 + size], "little")
        datagrams.append(Datagram(content[at], address, data, counter))
        at += 12 + size
    return Frame(serial, datagrams)


def frame_bytes(frame: Frame) -> bytes:
    """A frame as it goes over the line, without a check sequence."""
    size = sum(12 + len(datagram.data) for datagram in frame.datagrams)
    head = b"\xff" * 6 + b"\x02" + frame.serial.to_bytes(5, "big") + ETHERTYPE + (0x1000 + size).to_bytes(2, "little")
    last = len(frame.datagrams) - 1
    body = b"".join(
        datagram_bytes(datagram, frame.serial % 256, place < last) for place, datagram in enumerate(frame.datagrams)
    )
    return (head + body).ljust(SHORTEST, b"\0")


def datagram_bytes(datagram: Datagram, index: int, more: bool) -> bytes:
    """A datagram with its head and its working counter; `more` says that another one follows."""
    size = len(datagram.data) + (0x8000 if more else 0)
    head = bytes([datagram.command, index]) + datagram.address.to_bytes(4, "little") + size.to_bytes(2, "little")
    return head + b"\0\0" + datagram.data + datagram.counter.to_bytes(2, "little")

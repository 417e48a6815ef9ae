"""Capture files as Wireshark opens them: frames of Ethernet, a microsecond apart."""

import struct

MAGIC, VERSION, LONGEST, ETHERNET = 0xA1B2C3D4, (2, 4), 65_535, 1


def capture(frames: list[bytes]) -> bytes:
    """A capture file of frames."""
    head = struct.pack("<IHHiIII", MAGIC, *VERSION, 0, 0, LONGEST, ETHERNET)
    return head + b"".join(record(place, frame) for place, frame in enumerate(frames))


def record(place: int, frame: bytes) -> bytes:
    """A frame with the time at which it is said to have passed, and its size as captured and as sent."""
    return struct.pack("<IIII", place // 1_000_000, place % 1_000_000, len(frame), len(frame)) + frame

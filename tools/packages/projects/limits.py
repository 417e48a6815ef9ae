"""Limits of a project text, what the program writes into sync managers, and the memory that these use.

ETG.1000.4 has sync managers, their control byte and their three buffers; the other numbers are this project's profile.
"""

from collections.abc import Iterator
from dataclasses import dataclass
from itertools import combinations

MEMORY_START, MEMORY_END = 0x1000, 0x3000
LAST_SYNC_MANAGER = 15
MOST_PDOS, MOST_ENTRIES, MOST_ENTRY_BITS = 32, 64, 64
# What one datagram carries.
MOST_BITS = 11_888
# Buffered, with an interrupt in the slave: outputs are written by the master and watched, inputs are read.
CONTROL = {"out": 0x64, "in": 0x20}


@dataclass(frozen=True)
class Span:
    """Bytes of a slave's memory, with what they belong to and the line of the text where that is, if it has one."""

    owner: str
    start: int
    size: int
    line: int = 0

    @property
    def end(self) -> int:
        """The first byte after them."""
        return self.start + self.size

    def __str__(self) -> str:
        return f"{self.owner} (0x{self.start:04x} to 0x{self.end - 1:04x})"


def overlapping(spans: list[Span]) -> Iterator[tuple[Span, Span]]:
    """The pairs of spans that have a byte in common."""
    for one, other in combinations((span for span in spans if span.size), 2):
        if one.start < other.end and other.start < one.end:
            yield one, other

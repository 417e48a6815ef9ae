"""Buffered sync managers: a slave has three buffers for each, one after the other, and the program counts one."""

from collections.abc import Callable, Iterator

from lint.findings import Finding
from projects.limits import MEMORY_END, MOST_BITS, Span, overlapping
from projects.records import Area, Project, Slave

BUFFERS = 3


def buffer_findings(project: Project, paths: dict[int, str]) -> Iterator[Finding]:
    """Buffers that overlap or end after the memory: as a slave's PDOs are assigned, or once all offered ones are."""
    for slave, _ in project.slaves():
        now = list(faults_of(slave, assigned_bytes))
        later = [] if now else list(faults_of(slave, offered_bytes))
        for kind, faults in (("ThreeBuffers", now), ("ThreeBuffersLater", later)):
            for line, words in faults:
                yield Finding(line, kind, f"slave {slave.station}: {words}", paths[slave.station])


def faults_of(slave: Slave, size_of: Callable[[Area], int]) -> Iterator[tuple[int, str]]:
    """What is wrong with the buffers of a slave, by lines, where a function gives an area's bytes."""
    spans = [
        Span(f"three buffers of sync manager {area.sync_manager}", area.phys, BUFFERS * size_of(area), area.line)
        for area in slave.areas
    ]
    for one, other in overlapping(spans):
        yield other.line, f"{one} overlap {other}"
    for span in spans:
        if span.size and span.end > MEMORY_END:
            yield span.line, f"{span} end after 0x{MEMORY_END - 1:04x}"


def assigned_bytes(area: Area) -> int:
    """The bytes of an area's assigned PDOs."""
    bits = {pdo.index: pdo.bits() for pdo in area.pdos}
    return (sum(bits.get(index, 0) for index in area.assigned) + 7) // 8


def offered_bytes(area: Area) -> int:
    """The most bytes that an area may come to have."""
    return (min(sum(pdo.bits() for pdo in area.pdos), MOST_BITS) + 7) // 8

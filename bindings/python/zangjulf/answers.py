"""What calls answer."""

from __future__ import annotations

from enum import Enum
from typing import NamedTuple


class Datagram(NamedTuple):
    """A datagram of a task: its logical address, the bytes of its data, its expected working counter, and the bytes of the
    task's earlier datagrams."""

    address: int
    length: int
    expected: int
    offset: int


class ImageSizes(NamedTuple):
    """The bytes of a task's outputs, which come first, and of its inputs."""

    outputs: int
    inputs: int


class Place(NamedTuple):
    """Where a variable is placed: its task, its datagram, its first bit in the datagram's data, its bits, whether it is an input,
    and its first bit in the task's image."""

    task: int
    datagram: int
    bit: int
    bits: int
    is_input: bool
    image_bit: int


class Block(NamedTuple):
    """A register block: its first register, and its bytes."""

    start: int
    bytes: bytes


class OwedBlock(NamedTuple):
    """A register block that is owed: the slave's station address, its first register, and how many bytes it has."""

    station: int
    start: int
    size: int


class Cost(NamedTuple):
    """What an edit does: the epoch that begins with it; how many datagrams are cut anew; how many register blocks
    moved; how many variables have another place, appear or go; and the tasks that wait after it, once each slave that comes is
    cleared."""

    epoch: int
    recut: int
    moved: int
    places: int
    waits: tuple[int, ...]


class Waiting(NamedTuple):
    """Why a task waits: how many owed register blocks concern it, and how many FMMUs of slaves outside the line may map it."""

    task: int
    blocks: int
    outside: int


class Sent(NamedTuple):
    """What was sent of tasks: the serial of the first frame, which the others follow, and the frames."""

    first_serial: int
    frames: list[bytes]


class Arrived(Enum):
    """What a frame that came back answers: a sending of tasks; a frame of register writes, of one block or of several; nothing that is
    awaited."""

    TASKS = 1
    BLOCKS = 2
    STALE = 3


class State(Enum):
    """How a task's data compare with its last sending: none of its datagrams has data of it, some have, or all."""

    NO_DATA = 0
    INCOMPLETE = 1
    COMPLETE = 2


class LineState(Enum):
    """What a seat's image says of the line: it is open; it was closed after the image; the task, or the number of a seat that only looks,
    got another seat. After the last two no newer image comes."""

    OPEN = 1
    CLOSED = 2
    REPLACED = 3


class OutcomeKind(Enum):
    """What an arrival is for a datagram: its data are what its task reads now; it came back with another working counter; it was
    sent again since. With the last two what its task reads is as it was."""

    INPUTS = 1
    WRONG_COUNT = 2
    SENT_AGAIN = 3


class Outcome(NamedTuple):
    """A datagram that arrived: what the arrival is for it, its task and number, the expected working counter and the one that it
    came back with, and its data, also of a wrong counter."""

    kind: OutcomeKind
    task: int
    datagram: int
    expected: int
    got: int
    data: bytes


class BlockOutcomeKind(Enum):
    """What an arrival is for a register block: it is written; no slave took it, and it stays owed; it was sent again since, or its slave
    was lost or cleared, and nothing changed by it."""

    WRITTEN = 4
    MISSED = 5
    SENT_AGAIN = 3


class BlockOutcome(NamedTuple):
    """A register block whose write arrived: what the arrival is for it, the slave's station address, its first
    register, and the working counter that it came back with, 1 if a slave took it."""

    kind: BlockOutcomeKind
    station: int
    start: int
    got: int


class Arrival(NamedTuple):
    """What a frame that came back answers, the serial that it bears, and what it is for each datagram of tasks, or for each register
    block."""

    answers: Arrived
    serial: int
    outcomes: list[Outcome]
    blocks: list[BlockOutcome]


class Image(NamedTuple):
    """What a task reads: the present epoch, the epoch of the last edit that changed the task, the data of all datagrams since then at
    their offsets, zeros where there are none, and of each datagram the serial of the sending that its data answer, or None where it has
    none; the first serial of the task's last sending, 0 before one, and how the data compare with it."""

    epoch: int
    task_epoch: int
    data: bytes
    serials: list[int | None]
    first_serial: int
    state: State


class View(NamedTuple):
    """An image that a seat views: how many images the seat was shown, with this one; the line's epoch when it was shown, the task's
    epoch then, the data of all datagrams since then at their offsets, zeros where there are none, how many of the bytes are outputs,
    which come first, and of each datagram the serial of the sending that its data answer, or None where it has none; the first serial
    of the task's last sending, 0 before one, and how the data compare with it; the number of the seat's post that was taken last, 0
    before one, and whether it was refused; and whether line and seat are still there."""

    showing: int
    epoch: int
    task_epoch: int
    data: bytes
    outputs: int
    serials: list[int | None]
    first_serial: int
    state: State
    taken: int
    is_refused: bool
    line: LineState


class Taken(NamedTuple):
    """What became of the posts that were taken: the tasks with an accepted post, and the tasks with a refused one."""

    accepted: list[int]
    refused: list[int]


class Counters(NamedTuple):
    """How often a datagram was sent, and what arrivals were for it, since the line was opened."""

    sent: int
    good: int
    wrong: int
    again: int


class Spot(NamedTuple):
    """A place of a project's text; indexes count from 0, the group from 1, and None is no index."""

    group: int
    slave: int | None
    area: int | None
    pdo: int | None
    item: int | None
    alias: int
    station: int
    key: str


class Location(NamedTuple):
    """Where a text is no project: line and column from 1 of a text that is no TOML; else the first place where the fault's
    condition holds, and the earlier one of two things that exclude one another."""

    line: int | None
    column: int | None
    place: Spot | None
    first: Spot | None

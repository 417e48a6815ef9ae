"""An open line, and its calls."""

from __future__ import annotations

from collections.abc import Callable, Iterable
from ctypes import byref, c_size_t, c_uint8, c_uint16, c_uint32, c_uint64, sizeof
from itertools import count, takewhile
from threading import Lock
from typing import Any, TypeVar, Union

from . import library as c
from .answers import (
    Arrival, Arrived, Block, BlockOutcome, BlockOutcomeKind, Cost, Counters, Datagram, Image, ImageSizes, Outcome, OutcomeKind, OwedBlock,
    Place, Sent, State, Taken, Waiting,
)
from .faults import FAULTS
from .seat import Look, Seat, serials_of

FRAMES = 128 * 1514

#: the most datagrams of a frame
_OUTCOMES = 115
#: the faults that come with a number
_DETAILED = (12, 29, 36)

Bytes = Union[bytes, bytearray, memoryview]
Answer = TypeVar("Answer")


class Line:
    """An open line. `close` frees it, as does the end of a `with`: its seats are shown a last image. It can have so many seats that only
    look as `lookers`, 64 at most. Several threads may share a line: each call runs alone, and returns its own frames and data. The faults
    of a project, `TooManyDatagrams` with the task, `Memory`."""

    def __init__(self, text: Bytes, lookers: int = 0) -> None:
        self._handle = c.Handle(0, None)
        # held from a call of the library until its bytes are taken out of the two buffers
        self._lock = Lock()
        self._out = bytearray(FRAMES)
        self._outcomes = (c.Outcome * _OUTCOMES)()
        task, options = c_uint8(), c.Options(sizeof(c.Options), c.held(lookers, c_uint32))
        self._done(self._call("open", byref(options), *c.slice_of(text), byref(task)), task.value)

    def __enter__(self) -> Line:
        return self

    def __exit__(self, *_: object) -> None:
        self.close()

    def __del__(self) -> None:
        if hasattr(self, "_handle"):
            self.close()

    def __reduce_ex__(self, protocol: Any) -> Any:
        raise TypeError("a line is neither copied nor pickled: two would close the same memory")

    def close(self) -> None:
        """Frees the line; every later call raises `Closed`."""
        self._call("close")

    def _call(self, name: str, *arguments: Any) -> int:
        return getattr(c.library, f"zangjulf_{name}")(byref(self._handle), *map(c.held, arguments, c.LINE_CALLS[name]))

    def _done(self, number: int, detail: int | Waiting | None = None) -> None:
        if number:
            raise FAULTS[number](detail if number in _DETAILED else None)

    def _number(self, name: str, kind: Any) -> int:
        value = kind()
        self._done(self._call(name, byref(value)))
        return value.value

    def _found(self, made: Callable[[], Answer], *arguments: Any) -> Answer | None:
        """What a look-up answers, or None."""
        with self._lock:
            number = self._call(*arguments)
            if number == 100:
                return None
            self._done(number)
            return made()

    @property
    def epoch(self) -> int:
        """The number of accepted edits."""
        return self._number("epoch", c_uint32)

    @property
    def next_serial(self) -> int:
        """The serial of the next frame."""
        return self._number("next_serial", c_uint64)

    @property
    def owed(self) -> int:
        """How many register blocks are owed."""
        return self._number("owed", c_uint32)

    def owed_block(self, index: int) -> OwedBlock | None:
        """The owed block with an index, from 0, in the order of writing, or None."""
        it = c.OwedBlock()
        return self._found(lambda: OwedBlock(it.station, it.start, it.size), "owed_block", index, byref(it))

    def place(self, variable: int) -> Place | None:
        """Where a variable is placed in the present line, or None."""
        it = c.Place()
        return self._found(lambda: _place(it), "place", variable, byref(it))

    def places(self, variables: Iterable[int]) -> dict[int, Place]:
        """The places of those of the variables that the present line has, as a table after an edit."""
        asked = [c.held(variable, c_uint32) for variable in variables]
        them, places = (c_uint32 * max(len(asked), 1))(*asked), (c.Place * max(len(asked), 1))()
        self._done(self._call("places", them, len(asked), places, len(asked)))
        return {variable: _place(it) for variable, it in zip(asked, places) if it.bits}

    def datagram(self, task: int, datagram: int) -> Datagram | None:
        """The datagram of a task with a number, or None."""
        it = c.Datagram()
        made = lambda: Datagram(it.address, it.length, it.expected, it.offset)
        return self._found(made, "datagram", task, datagram, byref(it))

    def image_sizes(self, task: int) -> ImageSizes:
        """The bytes of a task's outputs and inputs, 0 and 0 if there is no such task."""
        it = c.ImageSizes()
        self._done(self._call("image_sizes", task, byref(it)))
        return ImageSizes(it.outputs, it.inputs)

    def station(self, position: int) -> int | None:
        """The station address of the slave at a position, or None."""
        it = c_uint16()
        return self._found(lambda: it.value, "station", position, byref(it))

    def position(self, station: int) -> int:
        """The position of the slave with a station address. `UnknownStation`, `Absent`."""
        it = c_uint32()
        self._done(self._call("position", station, byref(it)))
        return it.value

    def expected_of(self, task: int, datagram: int, station: int) -> int | None:
        """What the slave with a station address adds to the expected working counter of a datagram of a task: 2 if the datagram carries
        outputs of it, plus 1 if it carries inputs. None if there is no such datagram, or no such slave in the line."""
        it = c_uint16()
        return self._found(lambda: it.value, "expected_of", task, datagram, station, byref(it))

    def block(self, station: int, number: int) -> Block | None:
        """The register block with a number of the slave with a station address, or None."""
        out, it = bytearray(16), c.Block()
        return self._found(lambda: Block(it.start, bytes(out[: it.size])), "block", station, number, *c.slice_of(out), byref(it))

    def counters(self, task: int, datagram: int) -> Counters | None:
        """How often a datagram was sent, and what arrivals were for it; None if the task is over 7 or the datagram over 15."""
        it = c.Counters()
        return self._found(lambda: Counters(it.sent, it.good, it.wrong, it.again), "counters", task, datagram, byref(it))

    def _edit(self, name: str, *arguments: Any, asks: bool) -> Cost:
        it = c.Cost()
        self._done(self._call(name, *arguments, asks, byref(it)), it.crowded)
        return Cost(it.epoch, it.recut, it.moved, it.places, tuple(task for task in range(8) if it.waits >> task & 1))

    def connect(self, alias: int, asks: bool = False) -> Cost:
        """The group with an alias joins the line; with `asks` nothing changes, and the answer is what it would do. See `fmmu_off` come
        back with counter 1 from each of its slaves before, and call `cleared` for each after it. `UnknownAlias`, `AlreadyPresent`;
        `TooManyDatagrams`, `EpochsSpent`, `Memory`, as of every edit."""
        return self._edit("connect", alias, asks=asks)

    def disconnect(self, alias: int, asks: bool = False) -> Cost:
        """The group with an alias leaves the line. Send `fmmu_off` to its slaves before, or unplug them, and call `cleared` or `unplugged`
        for each after it: until then the tasks that they may take part in wait. `UnknownAlias`, `NotPresent`, `Mandatory`."""
        return self._edit("disconnect", alias, asks=asks)

    def remap(self, station: int, area: int, pdos: Iterable[int], asks: bool = False) -> Cost:
        """An area of a present slave gets these PDOs assigned, in this order. `UnknownStation`, `Absent`, `NoSuchArea`,
        `UnknownPdo`, `RepeatedPdo`, `AreaTooBig`."""
        held = [c.held(pdo, c_uint16) for pdo in pdos]
        return self._edit("remap", station, area, (c_uint16 * max(len(held), 1))(*held), len(held), asks=asks)

    def move_area(self, station: int, area: int, task: int, asks: bool = False) -> Cost:
        """An area of a present slave moves to a task. `UnknownStation`, `Absent`, `NoSuchArea`, `NoSuchTask`."""
        return self._edit("move_area", station, area, task, asks=asks)

    def declare(self, text: Bytes, asks: bool = False) -> Cost:
        """The group of a text is declared after the others, absent. The faults of a project, `ProjectNotOneGroup`; `AliasTaken`,
        `StationTaken`, `VariableTaken`, `TooManyGroups`, `TooManySlaves`."""
        return self._edit("declare", *c.slice_of(text), asks=asks)

    def next_write(self) -> bytes:
        """Sends the first owed register block: its frame. The next call sends a block that is still owed again. `NothingOwed`,
        `SerialsSpent`."""
        it = c.Write()
        with self._lock:
            self._done(self._call("next_write", *c.slice_of(self._out), byref(it)), it.size)
            return bytes(self._out[: it.size])

    def next_writes(self) -> bytes:
        """Sends the first owed register blocks in one frame, as many as it holds: its frame. The next call sends blocks that are still
        owed again, and then an answer to this frame confirms none of them. `NothingOwed`, `SerialsSpent`."""
        it = c.Writes()
        with self._lock:
            self._done(self._call("next_writes", *c.slice_of(self._out), byref(it)), it.size)
            return bytes(self._out[: it.size])

    def further_writes(self) -> bytes:
        """Sends the first owed register blocks that are not under way in one frame, as many as it holds: its frame. Earlier frames stay
        under way, and each answer counts for its own blocks. A frame that does not come back is sent again by `next_writes`.
        `NothingOwed`, `UnderWay`, `SerialsSpent`, `Memory`."""
        it = c.Writes()
        with self._lock:
            self._done(self._call("further_writes", *c.slice_of(self._out), byref(it)), it.size)
            return bytes(self._out[: it.size])

    def slave_lost(self, station: int) -> None:
        """A slave of the line may have lost its registers, as one that was switched off and on: each of its register blocks is owed again,
        and nothing else changes. A write that was sent to it before confirms nothing any more. `UnknownStation`, `Absent`."""
        self._done(self._call("slave_lost", station))

    def post(self, task: int, epoch: int, data: Bytes) -> None:
        """A task posts its outputs, as many bytes as it has, made for an epoch. `NoSuchTask`; `StalePost` for an epoch to come, or before
        the last edit that changed the task; `PostLength`."""
        self._done(self._call("post", task, epoch, *c.slice_of(data)))

    def send(self, *tasks: int) -> Sent:
        """Sends ready tasks, 1 to 8 and none twice: their frames, and the first one's serial. A task is ready if no owed register block
        concerns it and no slave outside the line may take part in it. `NoSuchTask`, `Waits` with the first task that does and why,
        `SerialsSpent`; `Misused` of other tasks."""
        sent = c.Sent()
        with self._lock:
            number = self._call("send", *c.slice_of(bytes(tasks)), *c.slice_of(self._out), None, 0, byref(sent))
            waits = sent.waits
            self._done(number, Waiting(waits.task, waits.blocks, waits.outside) if number == 36 else sent.size)
            return Sent(sent.first_serial, _frames(bytes(self._out[: sent.size])))

    @property
    def ready(self) -> list[int]:
        """The ready tasks."""
        mask = self._number("ready", c_uint8)
        return [task for task in range(8) if mask >> task & 1]

    def held_by(self, task: int) -> list[int]:
        """The station addresses of the slaves that hold a task up: first those of the line, in line order, then those outside it, in
        declared order. None of a task over 7."""
        it = c_uint16()
        found = (self._found(lambda: it.value, "held_by", task, number, byref(it)) for number in count())
        return list(takewhile(lambda station: station is not None, found))

    def cleared(self, station: int) -> None:
        """The FMMUs of the slave with a station address are zeros now, and no write that was sent to it earlier will still pass it. Say
        it once `fmmu_off` came back with counter 1, or after the slave powered up; of a tool that comes after `connect`. The blocks
        of a slave in the line are owed again, as after `slave_lost`. `UnknownStation`."""
        self._done(self._call("cleared", station))

    def unplugged(self, station: int) -> None:
        """The slave with a station address, outside the line, is off the wire: it holds no task up until its group is connected
        again. `UnknownStation`, `AlreadyPresent`."""
        self._done(self._call("unplugged", station))

    def preview(self, task: int, datagram: int) -> bytes | None:
        """The frame of one datagram as it would be sent next, or None."""
        size = c_size_t()
        made = lambda: bytes(self._out[: size.value])
        return self._found(made, "preview", task, datagram, *c.slice_of(self._out), byref(size))

    def arrive(self, data: Bytes) -> Arrival:
        """Takes a frame that came back: what it answers. A `FrameFault` of one that can't be read, which is somebody else's."""
        it = c.Arrival()
        with self._lock:
            self._done(self._call("arrive", *c.slice_of(data), self._outcomes, _OUTCOMES, byref(it)))
            answers, each = Arrived(it.kind), self._outcomes[: it.datagrams]
            outcomes = [_outcome(one, data) for one in each] if answers is Arrived.TASKS else []
            blocks = [_block(one) for one in each] if answers is Arrived.BLOCKS else []
        return Arrival(answers, it.serial, outcomes, blocks)

    def write_all(self, pass_frame: Callable[[bytes], Bytes | None], misses: int = 3) -> bool:
        """Writes all owed blocks, as many in each frame as it holds; `pass_frame` sends a frame and returns the one that comes back,
        or None. False if so many frames in a row as `misses` confirm no block: the slave of the first owed block does not answer."""
        missed = 0
        while (before := self.owed) and missed < misses:
            came = pass_frame(self.next_writes())
            if came is not None:
                self.arrive(came)
            missed = 0 if self.owed < before else missed + 1
        return missed < misses

    def exchange(self, tasks: Iterable[int], pass_frame: Callable[[bytes], Bytes | None]) -> list[Arrival]:
        """Sends tasks, each frame by `pass_frame`: what each frame that came back answers."""
        came = [pass_frame(frame) for frame in self.send(*tasks).frames]
        return [self.arrive(frame) for frame in came if frame is not None]

    def read(self, task: int) -> Image:
        """What a task reads: an edit that doesn't change the task leaves it. `NoSuchTask`."""
        serials, it = (c_uint64 * c.DATAGRAMS)(), c.Image()
        with self._lock:
            self._done(self._call("read", task, *c.slice_of(self._out), serials, c.DATAGRAMS, byref(it)))
            data = bytes(self._out[: it.size])
        return Image(it.epoch, it.task_epoch, data, serials_of(it, serials), it.first_serial, State(it.state))

    def seat(self, task: int) -> Seat:
        """Opens the seat of a task, and shows it a first image; a seat that the task had before is shown a last one. `NoSuchTask`,
        `Memory`."""
        return Seat(self, task)

    def look(self, number: int, task: int) -> Look:
        """Opens a seat that only looks at a task, with a number below the line's `lookers`, and shows it a first image; a seat that had
        the number before is shown a last one. `Misused` of another number, `NoSuchTask`, `Memory`."""
        return Look(self, number, task)

    def show(self) -> None:
        """Shows each seat what its task reads now, and the outputs that would be sent now."""
        self._done(self._call("show"))

    def take_posts(self) -> Taken:
        """Takes the post of each task's seat that waits, the newest one, task 0's first, and does each as `post` does. One that was made
        before the last edit that changed its task is refused, and leaves nothing."""
        it = c.Taken()
        self._done(self._call("take_posts", byref(it)))
        accepted, refused = ([task for task in range(8) if mask >> task & 1] for mask in (it.accepted, it.refused))
        return Taken(accepted, refused)

    def put_value(self, variable: int, epoch: int, value: int, outputs: bytearray | memoryview) -> None:
        """Puts a value into a task's outputs, which will be posted for an epoch, at the place of an output variable. `Nothing` if the line
        has no place for it; `StalePost` if the epoch is below the task's epoch or above the present one; `IsInput`, `TooWide`, `Room`."""
        if memoryview(outputs).readonly:
            raise TypeError("outputs are written where they are: hand in a bytearray")
        self._done(self._call("put_value", variable, epoch, value, *c.slice_of(outputs)))

    def value(self, variable: int, epoch: int, data: Bytes) -> int:
        """The value of a variable in the data of its task's image of an epoch. `Nothing` if the line has no place for it; `StalePost` if
        the epoch is below the task's epoch or above the present one; `Room`."""
        it = c_uint64()
        self._done(self._call("get_value", variable, epoch, *c.slice_of(data), byref(it)))
        return it.value


def _place(it: c.Place) -> Place:
    return Place(it.task, it.datagram, it.bit, it.bits, it.is_input, it.image_bit)


def _frames(sent: bytes) -> list[bytes]:
    """The frames that follow one another; each has its size in its EtherCAT header, and at least 60 bytes."""
    frames, at = [], 0
    while at < len(sent):
        size = max(60, 16 + (int.from_bytes(sent[at + 14 : at + 16], "little") & 0x7FF))
        frames.append(sent[at : at + size])
        at += size
    return frames


def _outcome(it: c.Outcome, frame: Bytes) -> Outcome:
    data = bytes(frame[it.at : it.at + it.length])
    return Outcome(OutcomeKind(it.kind), it.task, it.datagram, it.expected, it.got, data)


def _block(it: c.Outcome) -> BlockOutcome:
    return BlockOutcome(BlockOutcomeKind(it.kind), it.station, it.start, it.got)

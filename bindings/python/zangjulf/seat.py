"""Seats at a line: a task's, and those that only look."""

from __future__ import annotations

from ctypes import Array, byref, c_uint64
from threading import Lock
from typing import TYPE_CHECKING, Any

from . import library as c
from .answers import LineState, State, View
from .faults import FAULTS
from .values import Bytes

if TYPE_CHECKING:
    from .line import Line


def serials_of(it: c.Image | c.View, serials: Array[c_uint64]) -> list[int | None]:
    """The serial of each datagram's data, None where it has none."""
    return [serials[d] if it.has >> d & 1 else None for d in range(it.datagrams)]


class _Seat:
    """What both kinds of seats do. Its calls do not wait for the line. `close` frees it, before the line or after it, as does the end of
    a `with`. Several threads may share a seat: each call runs alone, and returns its own data."""

    def __init__(self) -> None:
        self._handle = c.Seat(0, None)
        # held from a call of the library until its bytes are taken out of the buffer
        self._lock = Lock()
        self._out = bytearray(c.IMAGE)
        self._count = 0

    def __enter__(self) -> Any:
        return self

    def __exit__(self, *_: object) -> None:
        self.close()

    def __del__(self) -> None:
        if hasattr(self, "_handle"):
            self.close()

    def __reduce_ex__(self, protocol: Any) -> Any:
        raise TypeError("a seat is neither copied nor pickled: two would close the same memory")

    def close(self) -> None:
        """Frees the seat; every later call raises `Closed`."""
        self._answer("seat_close")

    def _answer(self, name: str, *arguments: Any) -> int:
        return getattr(c.library, f"zangjulf_{name}")(byref(self._handle), *map(c.held, arguments, c.SEAT_CALLS[name]))

    def _call(self, name: str, *arguments: Any) -> None:
        number = self._answer(name, *arguments)
        if number:
            raise FAULTS[number]()

    def view(self) -> View:
        """The newest image that was shown, or the same one again if none is newer: `showing` tells."""
        serials, it = (c_uint64 * c.DATAGRAMS)(), c.View()
        with self._lock:
            self._call("seat_view", *c.slice_of(self._out), serials, c.DATAGRAMS, byref(it))
            self._count = it.outputs
            data = bytes(self._out[: it.size])
        return View(
            it.showing, it.epoch, it.task_epoch, data, it.outputs, serials_of(it, serials), it.first_serial, State(it.state), it.taken,
            bool(it.is_refused), LineState(it.line),
        )

    def outputs(self) -> bytearray:
        """The outputs to begin a post with: those of the seat's own last post if they fit the viewed image, else those of the image, as
        they were to be sent when it was shown. Change some, and post all."""
        with self._lock:
            out = bytearray(self._count)
            self._call("seat_outputs", *c.slice_of(out))
        return out


class Seat(_Seat):
    """A task's seat, for a thread of its own: `Line.seat` opens it. Its calls do not wait for the line. `close` frees it, before the
    line or after it, as does the end of a `with`. Several threads may share a seat: each call runs alone, and returns its own data."""

    def __init__(self, line: Line, task: int) -> None:
        super().__init__()
        line._done(line._call("seat_open", task, byref(self._handle)))

    def __enter__(self) -> Seat:
        return self

    def post(self, epoch: int, data: Bytes) -> int:
        """Posts all outputs of the task, made for an epoch of the viewed image, from `task_epoch` to `epoch`. It takes the place of a post
        of the seat that still waits. Its number, from 1: `taken` of later views says whether it was taken. `StalePost` for another
        epoch, `PostLength`, `Closed` also if the viewed image says that the line is closed or the seat replaced."""
        number = c_uint64()
        self._call("seat_post", epoch, *c.slice_of(data), byref(number))
        return number.value


class Look(_Seat):
    """A seat that only looks at a task, for a thread such as a monitor's: `Line.look` opens it. It never makes the line's thread wait.
    `close` frees it, before the line or after it, as does the end of a `with`. Several threads may share it."""

    def __init__(self, line: Line, number: int, task: int) -> None:
        super().__init__()
        line._done(line._call("look_open", number, task, byref(self._handle)))

    def __enter__(self) -> Look:
        return self

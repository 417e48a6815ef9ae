"""What a row of the picture holds: a datagram's areas, variables, gaps and unused bits, and what of it is folded."""

from collections.abc import Callable
from dataclasses import dataclass
from typing import Any

from picture.states import AreaPlace, Datagram, State, VariablePlace
from picture.views import Mark, Marks, View

# A row is as wide as this where its bytes are then broad enough, else as a datagram of 1,486 bytes asks for.
ROOM, LONG_ROOM = 832, 1486
SCALES = (96, 80, 64, 56, 48, 40, 32, 28, 24, 20, 16, 14, 12, 10, 8, 7, 6, 5, 4, 3, 2, 1)
LEAST_SCALE = 4
# Below this width, in pixels, not even an upright name has room.
NARROW = 10
# A folded box as broad as this has room for its first and its last name, and is closed.
BROAD = 168


VariablesByArea = dict[tuple[int, int], list[VariablePlace]]
Marking = Callable[[VariablePlace], Mark]
# What is folded: fields, cells of a field, or runs of them; all have a mark.
Item = Any
Bounds = Callable[[Item], tuple[int, int]]
Joins = Callable[[Item, Item], bool]


@dataclass(frozen=True)
class Cell:
    """Bits of an area: a variable's, or a gap's where the number is None. The bits count in the datagram."""

    number: int | None
    bit: int
    bits: int
    mark: Mark


@dataclass(frozen=True)
class Field:
    """An area with what it is made of; `way` says where it is in the other state, if it moved."""

    place: AreaPlace
    mark: Mark
    way: str
    cells: list[Cell]


@dataclass(frozen=True)
class Run:
    """Fields, or cells of one field, in a row; one that is alone is drawn as itself, more are folded."""

    items: list[Item]
    bit: int
    bits: int
    mark: Mark


@dataclass(frozen=True)
class Row:
    """A datagram of one of the states `before`, `after` or, where nothing in it changed, `both`."""

    state: str
    datagram: Datagram
    mark: Mark
    fields: list[Field]


def scale_of(length: int) -> int:
    """Pixels for a byte of a row with so many bytes."""
    room = ROOM if length * LEAST_SCALE <= ROOM else LONG_ROOM
    return next(scale for scale in SCALES if scale * length <= room)


def cells_of(place: AreaPlace, variables: list[VariablePlace], marked: Marking, gap_mark: Mark) -> list[Cell]:
    """The bits of an area from its first to its last: the variables in it, and gaps between them."""
    cells, bit = [], place.bit
    for variable in variables:
        if variable.bit > bit:
            cells.append(Cell(None, bit, variable.bit - bit, gap_mark))
        cells.append(Cell(variable.number, variable.bit, variable.bits, marked(variable)))
        bit = variable.bit + variable.bits
    if place.end() > bit:
        cells.append(Cell(None, bit, place.end() - bit, gap_mark))
    return cells


def way_words(other: AreaPlace, is_after: bool) -> str:
    """Where a moved area was, or where it will be."""
    return f"{'from' if is_after else 'to'} task {other.task} datagram {other.datagram} bit {other.bit}"


class Rows:
    """Makes the rows of a view's states."""

    def __init__(self, view: View) -> None:
        self.view, self.marks = view, Marks(view)

    def variables_by_area(self, state: State, is_after: bool) -> VariablesByArea:
        """The variables of each area, in the order of their bits."""
        found, homes = {}, self.view.declares(is_after).homes
        for place in sorted(state.variables.values(), key=lambda place: place.bit):
            home = homes[place.number]
            found.setdefault((home.slave.station, home.area.number), []).append(place)
        return found

    def of_state(self, state: State, is_after: bool) -> dict[tuple[int, int], Row]:
        """The rows of a state by task and datagram."""
        variables = self.variables_by_area(state, is_after)
        return {name: self.row(state, datagram, variables, is_after) for name, datagram in state.datagrams.items()}

    def row(self, state: State, datagram: Datagram, variables: VariablesByArea, is_after: bool) -> Row:
        """The row of a datagram."""
        fields = []
        for place in state.areas_in(datagram):
            mark = self.marks.of_area(place, is_after)
            own = variables.get((place.station, place.area), [])
            cells = cells_of(place, own, lambda found: self.marks.of_variable(found, is_after), mark)
            way = way_words(self.marks.other_place(place, is_after), is_after) if mark is Mark.MOVED else ""
            fields.append(Field(place, mark, way, cells))
        other = self.marks.before if is_after else self.marks.after
        mark = self.row_mark(datagram, fields, other, is_after)
        return Row("after" if is_after else "before", datagram, mark, fields)

    @staticmethod
    def row_mark(datagram: Datagram, fields: list[Field], other: State | None, is_after: bool) -> Mark:
        """Of a datagram: new, gone, moved where anything in it is another, or kept."""
        if other is None:
            return Mark.UNCHANGED
        found = other.datagrams.get((datagram.task, datagram.number))
        if found is None:
            return Mark.NEW if is_after else Mark.GONE
        marks = {field.mark for field in fields} | {cell.mark for field in fields for cell in field.cells}
        return Mark.UNCHANGED if found == datagram and marks <= {Mark.UNCHANGED} else Mark.MOVED


def runs_of(items: list[Item], bounds: Bounds, joins: Joins, narrow: float, broad: float) -> list[Run]:
    """The items in runs: items of fewer bits than `narrow` that `joins` lets be together are in one, until the run has
    as many bits as `broad`. `bounds` gives an item's first bit and the one after its last."""

    def is_narrow(item: Item) -> bool:
        return bounds(item)[1] - bounds(item)[0] < narrow

    runs = []
    for item in items:
        last = runs[-1] if runs else None
        is_open = last and is_narrow(last[-1]) and bounds(last[-1])[1] - bounds(last[0])[0] < broad
        if is_open and is_narrow(item) and joins(last[-1], item):
            last.append(item)
        else:
            runs.append([item])
    return [Run(run, bounds(run[0])[0], bounds(run[-1])[1] - bounds(run[0])[0], run[0].mark) for run in runs]


def field_runs(fields: list[Field], scale: int) -> list[Run]:
    """The areas of a row in runs of one direction and one mark."""
    return runs_of(
        fields,
        lambda field: (field.place.bit, field.place.end()),
        lambda one, other: one.place.direction == other.place.direction and one.mark == other.mark,
        NARROW * 8 / scale,
        BROAD * 8 / scale,
    )


def cell_runs(cells: list[Cell], scale: int) -> list[Run]:
    """The bits of an area in runs of one mark: of variables, of gaps, or of both where neither run would be broad."""
    narrow, broad = NARROW * 8 / scale, BROAD * 8 / scale
    alike = runs_of(
        cells,
        lambda cell: (cell.bit, cell.bit + cell.bits),
        lambda one, other: (one.number is None) == (other.number is None) and one.mark == other.mark,
        narrow,
        broad,
    )
    mixed = runs_of(
        alike,
        lambda run: (run.bit, run.bit + run.bits),
        lambda one, other: one.mark == other.mark,
        narrow,
        broad,
    )
    return [Run([cell for part in run.items for cell in part.items], run.bit, run.bits, run.mark) for run in mixed]


def unused_of(row: Row, runs: list[Run]) -> list[tuple[int, int]]:
    """The bits of a row between its runs and after the last one, as (bit, bits): no area has them."""
    unused, bit = [], 0
    for run in [*runs, None]:
        begin = row.datagram.length * 8 if run is None else run.bit
        if begin > bit:
            unused.append((bit, begin - bit))
        bit = 0 if run is None else run.bit + run.bits
    return unused

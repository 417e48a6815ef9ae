"""The picture: heading, legend, groups, and task by task the rows of the line, before and after an edit in pairs."""

from math import ceil

from picture.bars import BARS, Bar
from picture.elements import Attribute, element, label, opened, spelt, text, void
from picture.heading import footing, heading
from picture.row_drawing import RowDrawer, badge_at
from picture.rows import Row, Rows, Run, scale_of
from picture.style import PAPER, PICTURE
from picture.views import Mark, View
from projects.words import plural

MARGIN = 16
CAPTIONS = BARS - 8
PAIR_GAP, ROW_GAP, TASK_GAP = 24, 16, 14
LEAST_WIDTH = BARS + 832 + MARGIN
STATE_WORDS = {"before": "before", "after": "after", "both": "as before"}


class Picture:
    """Draws the rows of a view from some height on, and keeps how far it has come."""

    def __init__(self, view: View, top: float) -> None:
        self.view, self.y, self.content = view, top, []
        self.drawers = {is_after: RowDrawer(view.declares(is_after)) for is_after in (False, True)}
        rows = Rows(view)
        self.after = rows.of_state(view.after, True)
        self.before = rows.of_state(view.before, False) if view.before else {}

    def add_tasks(self) -> None:
        """Each task that has a datagram in one of the states."""
        names = sorted(self.before.keys() | self.after.keys())
        for task in sorted({task for task, _ in names}):
            self.add_task_heading(task)
            for name in names:
                if name[0] == task:
                    self.add_datagram(name)
            self.y += TASK_GAP

    def add_task_heading(self, task: int) -> None:
        """The task with the bytes of its outputs and inputs."""
        carried = self.parts_of(task)
        self.y += 16
        content = [label(MARGIN, self.y, f"Task {task} {self.view.task_name(task)}".rstrip(), "task")]
        for row, (name, (outputs, inputs)) in enumerate(carried):
            said = f"{plural(outputs, 'byte')} of outputs, {plural(inputs, 'byte')} of inputs"
            said = said if self.view.before is None else f"{STATE_WORDS[name]}: {said}"
            words = label(BARS, self.y + 14 * row, said, "words")
            content.append(element("g", words, kind="parts", data_state=name, data_outputs=outputs, data_inputs=inputs))
        self.content.append(element("g", *content, kind="task-heading", data_task=task))
        self.y += 14 * (len(carried) - 1) + 8

    def parts_of(self, task: int) -> list[tuple[str, tuple[int, int]]]:
        """The bytes of a task's outputs and inputs by state, those that an edit left as they were once."""
        after = self.view.after.parts.get(task)
        before = self.view.before.parts.get(task) if self.view.before else None
        if before == after:
            return [("both", after)]
        return [(name, parts) for name, parts in (("before", before), ("after", after)) if parts]

    def add_datagram(self, name: tuple[int, int]) -> None:
        """The rows of a datagram: one where nothing changed, else what there is of before and after."""
        before, after = self.before.get(name), self.after.get(name)
        if before and after and before.mark is after.mark is Mark.UNCHANGED:
            self.add_row(Row("both", after.datagram, Mark.UNCHANGED, after.fields), after.datagram.length)
        else:
            rows = [row for row in (before, after) if row]
            length = max(row.datagram.length for row in rows)
            drawn = []
            for row in rows:
                drawn.append(self.add_row(row, length))
                self.y += PAIR_GAP - ROW_GAP
            if len(drawn) == 2:
                self.add_ways(*drawn)
            self.y += ROW_GAP - PAIR_GAP

    def add_row(self, row: Row, length: int) -> tuple[Bar, list[Run]]:
        """A row with its numbers at the left, and the places of its areas."""
        content, bar, runs = self.drawers[row.state != "before"].drawn(row, self.y, length)
        datagram = row.datagram
        carried = {
            "data_state": row.state,
            "data_task": datagram.task,
            "data_datagram": datagram.number,
            "data_address": f"0x{datagram.address:08x}",
            "data_length": datagram.length,
            "data_expected": datagram.expected,
            "data_mark": row.mark.value,
            "data_left": BARS,
            "data_scale": bar.scale,
        }
        numbers = self.row_numbers(row) + self.captions(bar)
        self.content.append(element("g", numbers, content, kind="datagram", **carried))
        self.y = bar.bottom() + ROW_GAP
        return bar, runs

    def row_numbers(self, row: Row) -> str:
        """What `layout` says of the datagram, and in which state."""
        datagram, y = row.datagram, self.y + 12
        content = [label(MARGIN, y, f"datagram {datagram.number}", "name")]
        if row.mark in (Mark.NEW, Mark.GONE):
            content.append(badge_at(MARGIN + 90, y - 10, row.mark))
        lines = [f"0x{datagram.address:08x}", plural(datagram.length, "byte"), f"working counter {datagram.expected}"]
        if self.view.before is not None:
            lines.insert(0, STATE_WORDS[row.state])
        content += [label(MARGIN, y + 14 * (line + 1), words) for line, words in enumerate(lines)]
        return "".join(content)

    def captions(self, bar: Bar) -> str:
        """What the bands of a row are, at their left."""
        heights = {
            "byte": self.y + 11,
            "areas": bar.band_top() + bar.band / 2 + 4,
            "variables": bar.cell_top() + bar.cell / 2 + 4,
            "bits": bar.foot() - 3,
        }
        return "".join(label(CAPTIONS, y, words, "quiet", text_anchor="end") for words, y in heights.items())

    def add_ways(self, before: tuple[Bar, list[Run]], after: tuple[Bar, list[Run]]) -> None:
        """From each moved area of a row to the place that it has in the row below: the way that it went."""
        (old_bar, old_runs), (new_bar, new_runs) = before, after
        old = {station_and_area(run): run for run in old_runs if is_moved(run)}
        for run in new_runs:
            if is_moved(run) and station_and_area(run) in old:
                self.content.append(way(old_bar, old[station_and_area(run)], new_bar, run))


def is_moved(run: Run) -> bool:
    """Whether a run is one area that moved."""
    return len(run.items) == 1 and run.mark is Mark.MOVED


def station_and_area(run: Run) -> tuple[int, int]:
    """The first area of a run, by slave and place in its record."""
    return run.items[0].place.station, run.items[0].place.area


def way(old_bar: Bar, old: Run, new_bar: Bar, new: Run) -> str:
    """The band between two places of an area; it ends above the ruler's numbers."""
    foot, top = old_bar.foot(), new_bar.top + 1
    station, area = station_and_area(new)
    points = [
        (old_bar.x(old.bit), foot),
        (old_bar.x(old.bit) + old_bar.width(old.bits), foot),
        (new_bar.x(new.bit) + new_bar.width(new.bits), top),
        (new_bar.x(new.bit), top),
    ]
    carried = {"data_station": station, "data_area": area, "data_left": BARS, "data_scale": new_bar.scale}
    return void("polygon", kind="way", points=" ".join(f"{spelt(x)},{spelt(y)}" for x, y in points), **carried)


def width_of(view: View) -> int:
    """The width of a picture, by its longest row."""
    states = [state for state in (view.before, view.after) if state]
    lengths = [datagram.length for state in states for datagram in state.datagrams.values()]
    return max([LEAST_WIDTH, *(BARS + length * scale_of(length) + MARGIN + 24 for length in lengths)])


def numbers_of(view: View) -> dict[str, Attribute]:
    """What the picture as a whole stands for: the epochs, and what lies between them."""
    carried = {"data_epoch": view.after.epoch}
    if view.change:
        carried |= {"data_epoch_before": view.before.epoch, "data_change": view.change.words}
        carried |= {"data_recut": view.change.recut, "data_moved": view.change.moved}
    return carried


def hatch() -> str:
    """The pattern of gaps."""
    lines = void("path", kind="hatch", d="M-1 7L7 -1M-1 1L1 -1M5 7L7 5")
    return element("pattern", lines, id="gap-hatch", width=6, height=6, patternUnits="userSpaceOnUse")


def picture(view: View, style: str = PICTURE) -> str:
    """The SVG document of a view. A page that has the style by itself asks for the picture without it."""
    width = width_of(view)
    head, top = heading(view, MARGIN, width)
    drawn = Picture(view, top)
    drawn.add_tasks()
    foot, bottom = footing(view, MARGIN, width, drawn.y)
    height = ceil(bottom)
    frame = {"xmlns": "http://www.w3.org/2000/svg", "kind": "picture", "role": "img"}
    frame |= {"viewBox": f"0 0 {width} {height}", "width": width, "height": height}
    parts = [
        opened("svg", **frame, **numbers_of(view)),
        element("title", f"The line of {text(view.name)}, epoch {view.after.epoch}"),
        element("style", style) if style else "",
        element("defs", hatch()),
        void("rect", kind="paper", width="100%", height="100%", fill=PAPER),
        head,
        *drawn.content,
        foot,
        "</svg>",
    ]
    return "\n".join(parts) + "\n"

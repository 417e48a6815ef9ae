"""Draws a row: a ruler of bytes, the areas, and below them their variables and gaps, all to the row's scale."""

from picture.bars import AREA_NAMES, BADGES, BAND, BITS_NAMES, CELL, LOWER, RULER, SMALL, VARIABLE_NAMES, Bar
from picture.elements import Attribute, element, label, spelt, text, void
from picture.rows import Row, Run, cell_runs, field_runs, scale_of, unused_of
from picture.style import DIRECTION_LETTERS, DIRECTION_WORDS, MARK_LETTERS, MARK_WORDS
from picture.views import Mark
from projects.records import Home, Project, Slave
from projects.words import plural

RULER_STEPS = (1, 2, 4, 8, 16, 32, 64, 128, 256)
BADGE, BADGE_HEIGHT = 10, 12


def area_words(run: Run, slaves: dict[int, Slave]) -> list[str]:
    """What an area, or a run of them, may be called: the longest name first, and the shortest one last."""
    place = run.items[0].place
    letter = DIRECTION_LETTERS[place.direction]
    if len(run.items) > 1:
        stations = f"{letter} {place.station}…{run.items[-1].place.station}"
        return [f"{stations}, {len(run.items)} areas", stations, f"{letter} ×{len(run.items)}"]
    short = f"{letter} {place.station}"
    manager = f"{short} SM {place.sync_manager}"
    name = slaves[place.station].name
    return [f"{manager} {name}", manager, short] if name else [manager, short]


def cell_words(run: Run, homes: dict[int, Home]) -> list[str]:
    """What a variable, a gap or a run of cells may be called: a name or the longest words first, the shortest last."""
    numbers = [cell.number for cell in run.items if cell.number is not None]
    if not numbers:
        return ["gap", "–"]
    if len(run.items) == 1:
        name = homes[numbers[0]].entry.name
        return [name, str(numbers[0])] if name else [str(numbers[0])]
    if len(numbers) == 1:
        return ["1 variable", "×1"]
    ends = f"{numbers[0]}…{numbers[-1]}"
    return [f"{ends}, {len(numbers)} variables", ends, f"×{len(numbers)}"]


def bits_words(run: Run, area_mark: Mark) -> list[str]:
    """The bits of a cell, after the letter of its mark where that isn't its area's."""
    if run.mark in (area_mark, Mark.UNCHANGED):
        return [str(run.bits)]
    return [f"{MARK_LETTERS[run.mark]} {run.bits}", MARK_LETTERS[run.mark]]


def cells_below(run: Run, scale: int) -> list[Run]:
    """The runs of cells below a run of areas; below a folded one all cells are one run."""
    if len(run.items) == 1:
        return cell_runs(run.items[0].cells, scale)
    return [Run([cell for field in run.items for cell in field.cells], run.bit, run.bits, run.mark)]


def place_words(bit: int, bits: int) -> str:
    """Where bits of a datagram are, for a reader who counts bytes."""
    return f"bit {bit} (byte {bit // 8}, bit {bit % 8}), {plural(bits, 'bit')}"


def ruler(bar: Bar, length: int) -> str:
    """Ticks at the bytes of a datagram, and their numbers where there is room."""
    step = next(step for step in RULER_STEPS if step * bar.scale >= 32)
    fine = next(step for step in RULER_STEPS if step * bar.scale >= 4)
    foot = bar.top + RULER - 1
    ticks = [f"M{spelt(bar.x(byte * 8))} {spelt(foot)}v-4" for byte in [*range(0, length, fine), length]]
    ticks += [f"M{spelt(bar.x(byte * 8))} {spelt(foot)}v-11" for byte in range(0, length, step)]
    numbers = [
        label(bar.x(byte * 8) + 3, foot - 5, byte, "small")
        for byte in range(0, length, step)
        if 3 + len(str(byte)) * SMALL <= max(bar.width((length - byte) * 8), 12)
    ]
    return element("g", void("path", kind="ticks", d="".join(ticks)), *numbers, kind="ruler")


def unused(bar: Bar, bit: int, bits: int) -> str:
    """Bits of a datagram that no area has."""
    box = void("rect", x=bar.x(bit), y=bar.band_top(), width=bar.width(bits), height=float(bar.band))
    title = element("title", text(f"unused: {place_words(bit, bits)}"))
    return element("g", title, box, kind="unused", data_bit=bit, data_bits=bits)


def badges(bar: Bar, runs: list[Run]) -> list[str]:
    """Above each run the letter of its mark, none over another one, and where a moved area was or will be, if there is
    room for these words."""
    drawn, free = [], 0
    for run in runs:
        left, width, y = bar.x(run.bit), bar.width(run.bits), bar.band_top() - BADGE_HEIGHT - 2
        way = way_of(run) if BITS_NAMES.fitting([way_of(run)], width - BADGE - 4) else ""
        x = max(left if way else left + (width - BADGE) / 2, free)
        words = label(x + BADGE + 4, y + 10, way, "small whence") if way else ""
        drawn.append(badge_at(x, y, run.mark) + words if run.mark is not Mark.UNCHANGED else "")
        free = x + BADGE if run.mark is not Mark.UNCHANGED else free
    return drawn


def way_of(run: Run) -> str:
    """Where a moved area was or will be; nothing of a folded run."""
    return run.items[0].way if len(run.items) == 1 else ""


def badge_at(x: float, y: float, mark: Mark) -> str:
    """The letter of a mark in a small square of its colour."""
    square = void("rect", x=float(x), y=float(y), width=float(BADGE), height=float(BADGE_HEIGHT))
    letter = label(x + BADGE / 2, y + 10, MARK_LETTERS[mark], text_anchor="middle")
    return element("g", square, letter, kind=f"badge {mark.value}")


class RowDrawer:
    """Draws the rows of a project's line."""

    def __init__(self, project: Project) -> None:
        self.slaves = {slave.station: slave for slave, _ in project.slaves()}
        self.homes = project.homes

    def drawn(self, row: Row, top: float, length: int) -> tuple[str, Bar, list[Run]]:
        """A row, to the scale of a row with some length in bytes: its markup, its bar, and its runs of areas."""
        scale = scale_of(length)
        runs = field_runs(row.fields, scale)
        cells = [(run, cells_below(run, scale)) for run in runs]
        bar = self.bar(row, top, scale, cells)
        content = [ruler(bar, row.datagram.length), *(unused(bar, *span) for span in unused_of(row, runs))]
        for (run, below), badge in zip(cells, badges(bar, runs)):
            content.append(self.areas(run, bar, badge))
            content += [self.cells(cell, run, bar) for cell in below]
        return "".join(content), bar, runs

    def bar(self, row: Row, top: float, scale: int, cells: list[tuple[Run, list[Run]]]) -> Bar:
        """The bar of a row, with bands that are high enough for upright names."""
        names = [
            AREA_NAMES.upright_height(area_words(run, self.slaves), run.bits * scale / 8) + LOWER["in"]
            for run, _ in cells
        ]
        numbers = [
            VARIABLE_NAMES.upright_height(cell_words(cell, self.homes), cell.bits * scale / 8)
            for _, below in cells
            for cell in below
        ]
        badges = 0 if row.mark is Mark.UNCHANGED else BADGES
        return Bar(scale, top, badges, max([BAND, *names]), max([CELL, *numbers]))

    def areas(self, run: Run, bar: Bar, badge: str) -> str:
        """An area, or a run of areas that are too narrow for names of their own."""
        place = run.items[0].place
        y, height = float(bar.box_top(place.direction)), float(bar.box_height(place.direction))
        box = void("rect", kind="band", x=bar.x(run.bit), y=y, width=bar.width(run.bits), height=height)
        name = bar.name(AREA_NAMES, area_words(run, self.slaves), run, y, height)
        content = [element("title", text(self.area_title(run))), box, name, badge]
        kind = f"{place.direction} {run.mark.value}"
        carried = {"data_direction": place.direction, "data_mark": run.mark.value}
        carried |= {"data_bit": run.bit, "data_bits": run.bits}
        if len(run.items) == 1:
            carried |= {"data_station": place.station, "data_area": place.area, "data_sync_manager": place.sync_manager}
            return element("g", *content, kind=f"area {kind}", **carried)
        places = [field.place for field in run.items]
        folded = " ".join(f"{own.station}/{own.area}:{own.sync_manager}:{own.bit}:{own.bits}" for own in places)
        return element("g", *content, kind=f"areas {kind}", data_areas=folded, **carried)

    def area_title(self, run: Run) -> str:
        """What is said where a pointer rests on an area."""
        place = run.items[0].place
        words = DIRECTION_WORDS[place.direction]
        where = place_words(run.bit, run.bits)
        said = "" if run.mark is Mark.UNCHANGED else f"; {MARK_WORDS[run.mark]} {way_of(run)}".rstrip()
        if len(run.items) > 1:
            last = run.items[-1].place.station
            return f"{len(run.items)} {words} areas of slaves {place.station} to {last}: {where}{said}"
        name = self.slaves[place.station].name
        called = f" {name}" if name else ""
        manager = f"area {place.area}, sync manager {place.sync_manager}"
        return f"slave {place.station}{called}, {manager}, {words}: {where}{said}"

    def cells(self, run: Run, areas: Run, bar: Bar) -> str:
        """A variable or a gap below its area, or a run of those that are too narrow for numbers of their own."""
        y, direction = bar.cell_top(), areas.items[0].place.direction
        x, width, height = bar.x(run.bit), bar.width(run.bits), float(bar.cell_height())
        box = void("rect", kind="cell", x=x, y=y, width=width, height=height)
        bits = BITS_NAMES.fitting(bits_words(run, areas.mark), width)
        size = label(x + width / 2, y + height - 4, bits, "small", text_anchor="middle") if bits else ""
        name = bar.name(VARIABLE_NAMES, cell_words(run, self.homes), run, y, bar.cell)
        content = [element("title", text(self.cell_title(run))), box, name, size]
        kind, carried = self.carried(run)
        kind = f"{kind} {direction} {run.mark.value}{'' if run.mark is areas.mark else ' own'}"
        return element("g", *content, kind=kind, data_bit=run.bit, data_bits=run.bits, data_mark=run.mark.value, **carried)

    @staticmethod
    def carried(run: Run) -> tuple[str, dict[str, Attribute]]:
        """What kind of cells a run has, and what it says of them beside its own bits."""
        variables = [cell for cell in run.items if cell.number is not None]
        if not variables:
            return "gap", {}
        if len(run.items) == 1:
            return "variable", {"data_variable": variables[0].number}
        folded = " ".join(f"{cell.number}:{cell.bit}:{cell.bits}:{cell.mark.value}" for cell in variables)
        return "variables", {"data_variables": folded}

    def cell_title(self, run: Run) -> str:
        """What is said where a pointer rests on a variable or a gap."""
        numbers = [cell.number for cell in run.items if cell.number is not None]
        where = place_words(run.bit, run.bits)
        said = "" if run.mark is Mark.UNCHANGED else f"; {run.mark.value}"
        if not numbers:
            return f"gap: {where}{said}"
        if len(run.items) > 1:
            return f"{plural(len(numbers), 'variable')}, {numbers[0]} to {numbers[-1]}: {where}{said}"
        home = self.homes[numbers[0]]
        called = f"{numbers[0]} {home.entry.name}".rstrip()
        return f"variable {called} of slave {home.slave.station}, PDO 0x{home.pdo.index:04x}: {where}{said}"

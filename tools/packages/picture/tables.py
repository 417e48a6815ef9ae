"""The report's tables: datagrams, variables and register blocks, each with what an edit made of it."""

from collections.abc import Iterator

from picture.elements import element, text
from picture.rows import Rows
from picture.states import Block, Datagram, VariablePlace
from picture.style import DIRECTION_LETTERS, DIRECTION_WORDS, MARK_LETTERS
from picture.views import Mark, View, mark_between
from projects.assignments import pdo_words

# The columns of each table. What comes after a bar says how a column is set.
CHANGE, NAME = "change|", "name|"
DATAGRAMS = ["task|number", "datagram|number", "logical address|code", "bytes|number", "working counter|number"]
DATAGRAMS_BEFORE = ["bytes before|number", "working counter before|number"]
VARIABLES = ["variable|number", NAME, "direction|", "bits|number", "task|number", "datagram|number"]
VARIABLES += ["first bit|number", "byte.bit|number", "logical address|code", "station address|number", "slave|"]
VARIABLES += ["alias|number", "PDO|code"]
VARIABLES_BEFORE = ["place before|"]
BLOCKS = ["station address|number", "slave|", "alias|number", "area|number", "direction|", "block|", "register|code"]
BLOCKS += ["bytes|code", "what they say|"]
BLOCKS_BEFORE = ["bytes before|code"]
ASSIGNMENTS, ASSIGNMENTS_BEFORE = ["station address|number", "slave|", "object|code", "PDOs|code"], ["PDOs before|code"]


def selectors(columns_of: dict[str, list[str]], setting: str, *tags: str) -> str:
    """The style's names of the cells of all columns that are set in a way, by their tags."""
    return ", ".join(
        f"#{name} {tag}:nth-child({at})"
        for name, columns in columns_of.items()
        for at, column in enumerate(columns, 1)
        if column.endswith(f"|{setting}")
        for tag in tags
    )


def table(name: str, columns: list[str], rows: list[str], title: str) -> str:
    """A section with a table that can be sorted by each column and searched."""
    if not rows:
        return element("section", element("h2", title), element("p", "The line has none."))
    heads = [element("th", element("button", text(column.split("|")[0]), type="button")) for column in columns]
    search = element("label", "Search ", f'<input type="search" name="{name}">')
    drawn = element("table", element("thead", element("tr", *heads)), "\n", element("tbody", *rows), id=name)
    found = element("span", f"{len(rows)} rows", kind="found")
    return element("section", element("h2", title), element("p", search, found), drawn, kind="searched")


def row_of(kind: str, name: str | int, cells: list[str | int], mark: Mark) -> str:
    """A row of a table, for a thing of a kind by its name, with the mark that an edit left on it."""
    shown = "".join([f"<td>{text(words)}</td>" for words in cells])
    return f'<tr data-{kind}="{name}" class="{mark.value}">{shown}</tr>\n'


def or_nothing(record: object, *names: str) -> list[str | int]:
    """Fields of a record, or as many empty words where there is none."""
    return [getattr(record, name) if record else "" for name in names]


def mark_words(mark: Mark) -> str:
    """The letter and the word of a mark; nothing where nothing changed."""
    return "" if mark is Mark.UNCHANGED else f"{MARK_LETTERS[mark]} {mark.value}"


def direction_words(direction: str) -> str:
    """A direction's letter and word."""
    return f"{DIRECTION_LETTERS[direction]} {DIRECTION_WORDS[direction]}"


class Tables:
    """Makes the tables of a view: with a line before it, a row's change first, and what was before it last."""

    def __init__(self, view: View) -> None:
        self.view, self.has_before = view, view.before is not None
        self.slaves = {
            is_after: {slave.station: (slave, group) for slave, group in view.declares(is_after).slaves()}
            for is_after in (True, False)
        }
        self.has_names = any(home.entry.name for side in (False, True) for home in view.declares(side).homes.values())
        self.row_marks = datagram_marks(view)

    def columns(self) -> dict[str, list[str]]:
        """The columns of each table by its name."""
        variables = VARIABLES if self.has_names else [column for column in VARIABLES if column != NAME]
        shown = {
            "datagrams": (DATAGRAMS, DATAGRAMS_BEFORE),
            "variables": (variables, VARIABLES_BEFORE),
            "blocks": (BLOCKS, BLOCKS_BEFORE),
            "assignments": (ASSIGNMENTS, ASSIGNMENTS_BEFORE),
        }
        if not self.has_before:
            return {name: own for name, (own, _) in shown.items()}
        return {name: [CHANGE, *own, *before] for name, (own, before) in shown.items()}

    def row(self, kind: str, name: str | int, cells: list[str | int], before: list[str | int], mark: Mark) -> str:
        """A row with what was before, as words, and its mark."""
        shown = [mark_words(mark), *cells, *before] if self.has_before else cells
        return row_of(kind, name, shown, mark)

    def mark(self, before: object, after: object) -> Mark:
        """The mark of what is in the line before, after or both; alone all is as it is."""
        return mark_between(before, after) if self.has_before else Mark.UNCHANGED

    def table(self, name: str, rows: list[str], title: str) -> str:
        """A table by its name."""
        return table(name, self.columns()[name], rows, title)

    def datagrams(self) -> str:
        """Every datagram of the line, and of the line before."""
        old, new = self.view.before.datagrams if self.has_before else {}, self.view.after.datagrams
        rows = [self.datagram(name, old.get(name), new.get(name)) for name in sorted(old.keys() | new.keys())]
        return self.table("datagrams", rows, "Datagrams")

    def datagram(self, name: tuple[int, int], before: Datagram | None, after: Datagram | None) -> str:
        """A datagram; where it is gone its numbers of before alone. Its row in the picture has the same mark."""
        shown = after or before
        cells = [shown.task, shown.number, f"0x{shown.address:08x}", *or_nothing(after, "length", "expected")]
        earlier = or_nothing(before, "length", "expected")
        return self.row("datagram", f"{shown.task}/{shown.number}", cells, earlier, self.row_marks[name])

    def variables(self) -> str:
        """Every variable that the line carries, and those that the line before carried."""
        old, new = self.view.before.variables if self.has_before else {}, self.view.after.variables
        rows = [self.variable(name, old.get(name), new.get(name)) for name in sorted(old.keys() | new.keys())]
        return self.table("variables", rows, "Variables")

    def variable(self, variable: int, before: VariablePlace | None, after: VariablePlace | None) -> str:
        """A variable; where it is gone its place of before."""
        home = self.view.declares(after is not None).homes[variable]
        shown, state = (after, self.view.after) if after else (before, self.view.before)
        logical = state.datagrams[shown.task, shown.datagram].address + shown.bit // 8
        name = [home.entry.name] if self.has_names else []
        cells = [variable, *name, direction_words(shown.direction), shown.bits, shown.task, shown.datagram, shown.bit]
        cells += [f"{shown.bit // 8}.{shown.bit % 8}", f"0x{logical:08x}"]
        cells += [home.slave.station, home.slave.name, home.group.alias, f"0x{home.pdo.index:04x}"]
        place = f"task {before.task} datagram {before.datagram} bit {before.bit}" if before else ""
        return self.row("variable", variable, cells, [place], self.mark(before, after))

    def blocks(self) -> str:
        """Every register block of the line, and of the line before."""
        old, new = self.view.before.blocks if self.has_before else {}, self.view.after.blocks
        rows = [
            self.block(station, *pair)
            for station in {**self.slaves[True], **self.slaves[False]}
            for pair in pairs(old.get(station, []), new.get(station, []))
        ]
        return self.table("blocks", rows, "Register blocks")

    def assignments(self) -> str:
        """The PDOs that each sync manager of a slave of the line, or of the line before, is to be assigned."""
        old, new = self.view.assigned_before if self.has_before else {}, self.view.assigned
        rows = []
        for name in {**old, **new}:
            before, after = (lists[name].pdos if name in lists else None for lists in (old, new))
            now, earlier = ("" if pdos is None else pdo_words(pdos) for pdos in (after, before))
            cells = [name[0], (new.get(name) or old[name]).slave.name, f"0x{name[1]:04x}", now]
            rows.append(self.row("assignment", f"{name[0]}/0x{name[1]:04x}", cells, [earlier], self.mark(before, after)))
        return self.table("assignments", rows, "PDOs to assign")

    def block(self, station: int, area: int, before: Block | None, after: Block | None) -> str:
        """A register block of an area; where it is gone, its bytes of before alone."""
        slave, group = self.slaves[after is not None][station]
        shown, direction = after or before, slave.areas[area].direction
        cells = [station, slave.name, group.alias, area, direction_words(direction), shown.title()]
        cells += [f"0x{shown.register:04x}", after.data.hex(" ") if after else "", meaning(shown)]
        earlier = before.data.hex(" ") if before else ""
        return self.row("block", f"{station}/0x{shown.register:04x}", cells, [earlier], self.mark(before, after))


def pairs(before: list[Block], after: list[Block]) -> Iterator[tuple[int, Block | None, Block | None]]:
    """A slave's blocks before and after by their registers, each with the number of its area."""
    # A slave's blocks come in pairs, an area's sync manager and its FMMU.
    old = {block.register: (row // 2, block) for row, block in enumerate(before)}
    new = {block.register: (row // 2, block) for row, block in enumerate(after)}
    for register in {**new, **old}:
        (area, _) = new.get(register) or old[register]
        yield area, old.get(register, (0, None))[1], new.get(register, (0, None))[1]


def datagram_marks(view: View) -> dict[tuple[int, int], Mark]:
    """The mark of each datagram: of what it carries too, so that it is marked where the picture draws it twice."""
    rows = Rows(view)
    marks = {name: row.mark for name, row in rows.of_state(view.before, False).items()} if view.before else {}
    after = {name: row.mark for name, row in rows.of_state(view.after, True).items()}
    return {**marks, **{name: marks.get(name, mark) if mark is Mark.UNCHANGED else mark for name, mark in after.items()}}


def meaning(block: Block) -> str:
    """A block's fields in words, as ETG.1000.4 names them."""
    if not block.is_active():
        return "not active"
    if block.kind == "sm":
        return f"physical start 0x{block.word(0):04x}, {block.word(2)} bytes, control 0x{block.data[4]:02x}"
    length = block.word(4)
    logical = f"logical start 0x{block.word(0, 4):08x} bit {block.data[6]}, length {length}, stop bit {block.data[7]}"
    kind = "write" if block.data[11] == 2 else "read"
    return f"{logical}, physical start 0x{block.word(8):04x}, {kind}"

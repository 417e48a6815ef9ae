"""What is drawn: a line alone, or beside it the line before its last edits or another text's line, with what moved."""

from dataclasses import dataclass, field, replace
from enum import Enum

from line.asking import Questions
from line.replay import ACCEPTED, Recorded, Replay, commands_in
from picture.states import AreaPlace, Block, State, VariablePlace
from projects.asking import Program, input_of
from projects.assignments import Assignments, assignments_after
from projects.faults import Refusal
from projects.files import document_of
from projects.names import names_of
from projects.records import Project, read_project

# Commands that only look, send or take what arrives: no register block and no place hangs on them.
PASSED_OVER = {
    *("layout", "regs", "show", "place", "write", "send", "arrive", "read"),
    *("scan", "name", "program", "cycle", "poke", "peek", "post", "take", "view"),
}


class Mark(Enum):
    """What an edit made of an area, a variable or a register block."""

    UNCHANGED = "kept"
    NEW = "new"
    MOVED = "moved"
    GONE = "gone"


@dataclass(frozen=True)
class Change:
    """What lies between the two lines: edits, of a single one with its answer, or that the first is another text's."""

    words: str
    is_other_text: bool = False
    recut: int | None = None
    moved: int | None = None


@dataclass(frozen=True)
class View:
    """A line, and perhaps one before it, each with the project that declares it.

    `answers` has each edit that was asked for with its answer; `owed` the blocks that are owed now, by station address and register,
    where that is known; `assigned` the lists of PDOs of the present slaves.
    """

    name: str
    project: Project
    after: State
    answers: list[tuple[str, str]]
    earlier: Project | None = None
    before: State | None = None
    change: Change | None = None
    owed: set[tuple[int, int]] | None = None
    assigned: Assignments = field(default_factory=dict)
    assigned_before: Assignments = field(default_factory=dict)

    def owed_blocks(self) -> list[tuple[int, int, Block]]:
        """The blocks that have to be written, as (station, row, block): those that are owed now, or all that the edits changed."""
        if self.owed is None:
            return self.changed_blocks()
        return [
            (station, row, block)
            for station, blocks in self.after.blocks.items()
            for row, block in enumerate(blocks)
            if (station, block.register) in self.owed
        ]

    def changed_blocks(self) -> list[tuple[int, int, Block]]:
        """The blocks of the line that weren't there before with the same bytes."""
        if self.before is None:
            return []
        return [
            (station, row, block)
            for station, blocks in self.after.blocks.items()
            for row, block in enumerate(blocks)
            if block not in self.before.blocks.get(station, [])
        ]

    def declares(self, is_after: bool) -> Project:
        """The project of the line, or of the one before it."""
        return self.project if is_after or self.earlier is None else self.earlier

    def task_name(self, task: int) -> str:
        """What people call a task, or nothing."""
        return self.project.tasks.get(task) or self.declares(False).tasks.get(task, "")

    def said_of_change(self) -> str:
        """What lies between the two lines, after its words."""
        change, before, after = self.change, self.before.epoch, self.after.epoch
        if change.is_other_text:
            return f": its line in epoch {before}"
        answer = "" if change.moved is None else f", recut {change.recut}, moved {change.moved}"
        return f": from epoch {before} to epoch {after}{answer}"


class Marks:
    """The marks of areas and variables: of what is in the old line or in the new one, as seen in the other."""

    def __init__(self, view: View) -> None:
        self.before, self.after = view.before, view.after
        self.old_areas, self.new_areas = areas_by_name(view.before), areas_by_name(view.after)
        # A slave's blocks come in pairs, an area's sync manager and its FMMU.
        self.written = {(station, row // 2) for station, row, _ in view.changed_blocks()}

    def of_area(self, place: AreaPlace, is_after: bool) -> Mark:
        """Of an area: new, gone, moved if one of its blocks has changed, or kept."""
        name = (place.station, place.area)
        if self.before is None:
            return Mark.UNCHANGED
        if name not in (self.old_areas if is_after else self.new_areas):
            return Mark.NEW if is_after else Mark.GONE
        return Mark.MOVED if name in self.written else Mark.UNCHANGED

    def other_place(self, place: AreaPlace, is_after: bool) -> AreaPlace | None:
        """The place of an area of one state in the other, or None."""
        return (self.old_areas if is_after else self.new_areas).get((place.station, place.area))

    def of_variable(self, place: VariablePlace, is_after: bool) -> Mark:
        """Of a variable: new, gone, moved where its place is another, or kept."""
        if self.before is None:
            return Mark.UNCHANGED
        other = (self.before if is_after else self.after).variables.get(place.number)
        return mark_between(other, place) if is_after else mark_between(place, other)


def mark_between(before: object, after: object) -> Mark:
    """The mark of what an edit turned into something else, or of what it brought or took where one is None."""
    if before == after:
        return Mark.UNCHANGED
    if before is None:
        return Mark.NEW
    return Mark.GONE if after is None else Mark.MOVED


def areas_by_name(state: State | None) -> dict[tuple[int, int], AreaPlace]:
    """The areas with bits in a state, each by its station address and its number in the slave's record."""
    if state is None:
        return {}
    return {(place.station, place.area): place for places in state.areas.values() for place in places}


def project_after(name: str, text: bytes, edits: list[Recorded]) -> Project:
    """The project of a text, with the groups that edits declared."""
    documents = [one.command.document() for one in edits if one.command.name == "declare"]
    declared = [document_of("a declared group", document) for document in documents]
    return read_project(document_of(name, text), declared)


def with_assignments(view: View, after: list[Recorded], before: list[Recorded]) -> View:
    """A view with the lists of PDOs that its slaves are to be assigned after some edits, and those before."""
    lists = [[one.command.words for one in edits] for edits in (after, before)]
    assigned = assignments_after(view.project, lists[0])
    return replace(view, assigned=assigned, assigned_before=assignments_after(view.declares(False), lists[1]))


@dataclass(frozen=True)
class Run:
    """A project text with its accepted edits, and what was answered to each that was asked for."""

    replay: Replay
    name: str
    edits: list[Recorded]
    answers: list[tuple[str, str]]

    def line(self, count: int) -> tuple[Project, State]:
        """The line after so many accepted edits, and the project that declares it."""
        project = project_after(self.name, self.replay.text, self.edits[:count])
        names_of(project)
        return project, Questions(self.replay, self.edits[:count]).state(project)


def run_of(program: Program, name: str, text: bytes, commands: bytes) -> Run:
    """The run of an input. If the program refuses it, it is asked again as it is, so that it counts the input's own lines."""
    replay = Replay(program, text)
    edits = [command for command in commands_in(commands) if command.name not in PASSED_OVER]
    try:
        answers = replay.answers(edits)
    except Refusal:
        program.printed(input_of(text, [commands]))
        raise
    accepted = [Recorded(edit, lines) for edit, lines in zip(edits, answers) if ACCEPTED.fullmatch(lines[-1])]
    return Run(replay, name, accepted, [(str(edit), lines[-1]) for edit, lines in zip(edits, answers)])


def view_since(run: Run, epoch: int | None) -> View:
    """The line after all commands, beside the line of an epoch or, without one, the line before the last accepted edit."""
    project, after = run.line(len(run.edits))
    if epoch is not None and not 0 <= epoch < len(run.edits):
        raise Refusal(f"NoSuchEpoch: no edit was accepted behind epoch {epoch}; the line is in epoch {len(run.edits)}")
    edits = run.edits[-1:] if epoch is None else run.edits[epoch:]
    if not edits:
        return with_assignments(View(run.name, project, after, run.answers), run.edits, run.edits)
    earlier, before = run.line(len(run.edits) - len(edits))
    numbers = map(int, ACCEPTED.fullmatch(edits[0].lines[-1]).groups()[1:]) if len(edits) == 1 else (None, None)
    change = Change("; ".join(str(edit.command) for edit in edits), False, *numbers)
    view = View(run.name, project, after, run.answers, earlier, before, change)
    return with_assignments(view, run.edits, run.edits[: -len(edits)])


def view_against(run: Run, other: Run) -> View:
    """The line after all commands, beside another text's line after all of its own."""
    project, after = run.line(len(run.edits))
    earlier, before = other.line(len(other.edits))
    view = View(run.name, project, after, run.answers, earlier, before, Change(f"against {other.name}", True))
    return with_assignments(view, run.edits, other.edits)

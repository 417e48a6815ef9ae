"""A session: commands come in as people write them, and each is answered in lines of text."""

import difflib
import os
import re
from collections.abc import Callable
from dataclasses import replace
from pathlib import Path

from line.asking import Questions
from line.describing import Describer
from line.help import HELP, one_command
from line.live import Live
from line.replay import ACCEPTED, EDITS, Command, Recorded, Replay, command_of, commands_in, is_refused
from line.spelling import Speller, words_of
from line.values import Value, read_value
from picture.states import VariablePlace
from picture.views import Run, View, project_after, view_since
from projects.assignments import Assignment, Assignments, assignments_after, changed, pdo_words
from projects.faults import Refusal
from projects.files import content_of, parted
from projects.names import Names, Variable, names_of
from projects.records import Project

LISTED_WRITES = 200
# Answers that say that register blocks are owed.
UNWRITTEN = re.compile(r"^refused 17 |^written \d+ owed [1-9]")


class Line:
    """A project with the commands given so far, and its names. A history keeps the commands in a file from then on."""

    def __init__(self, replay: Replay, name: str, history: Path | None = None) -> None:
        self.name, self.replay, self.file = name, replay, None
        self.own: dict[str, Callable[[list[str]], list[str]]] = {
            "set": self.set,
            "get": self.get,
            "table": self.table,
            "cost": self.cost,
            "diff": self.diff,
            "owed": self.owed,
            "undo": self.undo,
            "history": self.history,
            "save": self.save,
            "assignments": self.assignments,
            "declare": self.declare,
            "help": self.help,
        }
        self.restore(history)
        self.read_names()

    def restore(self, history: Path | None) -> None:
        """Plays the commands of a history that is there, and keeps later ones in it."""
        if history is not None and history.exists():
            text, commands = parted(content_of(str(history)))
            if text.strip() != self.replay.text.strip():
                raise Refusal(f"OtherProject: {history} has the history of another project text")
            for command in commands_in(commands):
                self.replay.play([command])
        self.file = history

    def began(self) -> str:
        """The epoch, and how many commands the history had."""
        count = len(self.replay.recorded)
        return f"epoch {len(self.replay.edits())}" + (f", {count} commands from {self.file}" if count else "")

    def keep(self) -> None:
        """Writes the history's file anew, whole or not at all."""
        if self.file is None:
            return
        written = self.file.with_name(f"{self.file.name}.new")
        try:
            written.write_bytes(self.replay.script())
            os.replace(written, self.file)
        except OSError as error:
            raise Refusal(f"NotKept: {self.file}: {error.strerror}; what the command did stays") from error

    def read_names(self) -> None:
        """Reads the project anew, with the groups that were declared."""
        self.project: Project = project_after(self.name, self.replay.text, self.replay.edits())
        self.names: Names = names_of(self.project)
        self.speller, self.describer = Speller(self.project, self.names), Describer(self.project, self.names)

    def respond(self, line: str) -> list[str]:
        """The lines that a command is answered; what can't be done is a Refusal, and nothing is lost."""
        words = words_of(line)
        if not words:
            return []
        if words[0] in self.own:
            return self.own[words[0]](words[1:])
        return self.given(self.speller.command(words))

    def given(self, command: Command) -> list[str]:
        """The answer to a command, with what it belongs to; after an edit also which PDOs slaves have to be assigned."""
        before, count = self.assigned(self.replay.edits()), len(self.replay.recorded)
        lines = self.replay.play([command])[0]
        if len(self.replay.recorded) > count:
            self.keep()
        described = self.describer.described(command, lines, Questions(self.replay))
        if UNWRITTEN.search(lines[-1] if lines else ""):
            [first] = self.replay.owed_blocks(1)
            described += [f"  first of them: {self.describer.block(*first)}"]
        return described + self.to_assign(before, self.assigned(self.replay.edits()))

    def assigned(self, edits: list[Recorded]) -> Assignments:
        """The lists of PDOs of the present slaves after some edits."""
        return assignments_after(self.project, [one.command.words for one in edits])

    def assignments(self, words: list[str]) -> list[str]:
        """What the sync managers of each present slave are to be assigned."""
        return list(map(self.list_words, self.assigned(self.replay.edits()).values())) or ["no slave of the line has an area"]

    def list_words(self, one: Assignment) -> str:
        """A list with its slave."""
        return f"{self.describer.slave(one.slave.station)}, {one.words()}"

    def to_assign(self, before: Assignments, after: Assignments) -> list[str]:
        """The lists that differ from before, which a master gives their slaves in Pre-Op."""
        return [
            f"  to assign in Pre-Op: {self.list_words(one)}"
            + (f", was {pdo_words(before[one.name()].pdos)}" if one.name() in before else "")
            for one in changed(before, after)
        ]

    def edit(self, words: list[str]) -> Command:
        """The edit that some words are."""
        if not words or words[0] not in EDITS - {"declare"}:
            raise Refusal("WrongCount: an edit is connect, disconnect, remap or move, with its words")
        return self.speller.command(words)

    def set(self, words: list[str]) -> list[str]:
        """Posts values, and keeps the values of all variables that aren't named; nothing is posted where one is wrong."""
        settings = dict(self.setting(word) for word in words)
        if not settings:
            raise Refusal("WrongCount: set takes NAME=VALUE, once or more")
        questions = Questions(self.replay)
        places = questions.places(self.outputs())
        for number in settings:
            self.check_output(number, places)
        commands = []
        for task in sorted({places[number].task for number in settings}):
            mine = {number: place for number, place in places.items() if place.task == task}
            values = {**questions.values(mine), **{number: settings[number] for number in mine if number in settings}}
            posted = [f"{number}={value.number}" for number, value in values.items() if value.number]
            commands.append(command_of(["post", str(task), *posted]))
        answers = self.replay.play([*commands, command_of(["take"])])
        if is_refused(answers[-1]):
            raise Refusal(f"{commands[len(answers) - 1]}: {answers[-1][-1]}; nothing is posted")
        self.keep()
        return [f"{self.title(number)} = {value}" for number, value in settings.items()]

    def setting(self, word: str) -> tuple[int, Value]:
        """A variable's number and the value that it gets."""
        name, equals, value = word.rpartition("=")
        if not equals:
            raise Refusal(f"Malformed: {word} isn't NAME=VALUE")
        variable = self.names.variable(name)
        return variable.number, read_value(value, variable.bits)

    def outputs(self) -> list[int]:
        """The numbers of all output variables that the project offers."""
        return [number for number, variable in self.names.variables.items() if variable.direction == "out"]

    def check_output(self, number: int, places: dict[int, VariablePlace]) -> None:
        """Refuses a variable that can't be posted now."""
        if self.names.variables[number].direction == "in":
            raise Refusal(f"IsInput: {self.title(number)} comes from a slave")
        if number not in places:
            raise Refusal(f"NotInLine: {self.title(number)} is in no datagram now")

    def title(self, number: int) -> str:
        """A variable by its name, or by its number."""
        return self.names.variables[number].name or f"variable {number}"

    def get(self, words: list[str]) -> list[str]:
        """The values of variables, of all where none is named."""
        chosen = [self.names.variable(word) for word in words] or list(self.names.variables.values())
        return [f"{self.title(number)} = {shown}" for number, shown in self.shown(chosen).items()]

    def shown(self, variables: list[Variable]) -> dict[int, str]:
        """The values of variables in words, or why there is none."""
        places = Questions(self.replay).places([variable.number for variable in variables])
        return self.values_at(variables, places)

    def values_at(self, variables: list[Variable], places: dict[int, VariablePlace]) -> dict[int, str]:
        """The same of variables whose places are known."""
        values = Questions(self.replay).values(places)
        missing = {number: "no good answer in this epoch" for number in places}
        return {
            variable.number: str(values.get(variable.number, missing.get(variable.number, "not in the line")))
            for variable in variables
        }

    def rows(self, words: list[str]) -> list[tuple[str, str, str]]:
        """Variables, all where none is named: what each is called, where it is with its slave, and its value."""
        chosen = [self.names.variable(word) for word in words] or list(self.names.variables.values())
        places = Questions(self.replay).places([variable.number for variable in chosen])
        shown = self.values_at(chosen, places)
        return [(self.title(one.number), self.where(one, places), shown[one.number]) for one in chosen]

    def table(self, words: list[str]) -> list[str]:
        """The same in columns."""
        rows = self.rows(words)
        widths = [max((len(row[column]) for row in rows), default=0) for column in (0, 1)]
        return [f"{name:{widths[0]}}  {where:{widths[1]}}  {value}" for name, where, value in rows]

    def where(self, variable: Variable, places: dict[int, VariablePlace]) -> str:
        """Where a variable is in the image, and its slave."""
        slave = self.describer.slave(variable.station)
        place = places.get(variable.number)
        if place is None:
            return slave
        byte = f"byte {place.bit // 8} bit {place.bit % 8}, {place.bits} bits {place.direction}"
        return f"{self.describer.datagram(place.task, place.datagram)} {byte}, {slave}"

    def cost(self, words: list[str]) -> list[str]:
        """What an edit would change, found out on a copy: the line stays as it is."""
        edit = self.edit(words)
        before = Questions(self.replay)
        [lines] = before.ask(edit)
        if not ACCEPTED.fullmatch(lines[-1]):
            return [f"would be answered: {lines[-1]}"]
        edits, now, owed = self.replay.edits(), self.replay.owed(), self.replay.owed_after(Recorded(edit, lines))
        after = Questions(self.replay, [*edits, Recorded(edit, lines)])
        tasks = sorted({task for task, _ in changed_datagrams(before, after)})
        return [
            f"would be answered: {lines[-1]}",
            f"then {owed} register blocks are owed: {owed} round trips before any task is sent ({now} are owed now)",
            f"tasks that get another layout: {', '.join(f'task {task}' for task in tasks) or 'none'}",
            *self.to_assign(self.assigned(edits), self.assigned([*edits, Recorded(edit, lines)])),
        ]

    def diff(self, words: list[str]) -> list[str]:
        """The layout and the variables' places before and after the last edit."""
        edits = self.replay.edits()
        if not edits:
            return ["no edit was accepted"]
        numbers = list(self.names.variables)
        (old, before), (new, after) = (
            Questions(self.replay, some).layout_and_places(numbers) for some in (edits[:-1], edits)
        )
        changes = list(difflib.unified_diff(old.lines, new.lines, lineterm="", n=0))[2:]
        lines = [line for line in changes if not line.startswith("@@")]
        return [str(edits[-1].command), *lines, *self.moved(before, after)]

    def view(self) -> View:
        """What a picture shows: the line beside the line before its last edit, and the blocks that are owed."""
        edits = self.replay.edits()
        run = Run(self.replay, self.name, edits, [(str(one.command), one.lines[-1]) for one in edits])
        count = self.replay.owed()
        # hotline lists no owed blocks: where some are, those that the last edit changed are shown
        is_known = count == 0 or isinstance(self.replay, Live)
        return replace(view_since(run, None), owed=set(self.replay.owed_blocks(count)) if is_known else None)

    def moved(self, old: dict[int, VariablePlace], new: dict[int, VariablePlace]) -> list[str]:
        """The variables whose places differ, with both."""
        differing = [one for one in self.names.variables.values() if old.get(one.number) != new.get(one.number)]
        return [
            f"{self.title(one.number)}: {place_words(old.get(one.number))} -> {place_words(new.get(one.number))}"
            for one in differing
        ]

    def owed(self, words: list[str]) -> list[str]:
        """How many register blocks are owed, and which, in the order of writing."""
        count = self.replay.owed()
        listed = [self.describer.block(*block) for block in self.replay.owed_blocks(min(count, LISTED_WRITES))]
        more = [f".. and {count - len(listed)} more"] if count > len(listed) else []
        return [f"{count} register blocks are owed", *listed, *more]

    def undo(self, words: list[str]) -> list[str]:
        """Forgets the last command that changed something."""
        command = self.replay.undo()
        if command is None:
            return ["there is nothing to undo"]
        self.keep()
        if command.name == "declare":
            self.read_names()
        return [f"undone: {command}"]

    def history(self, words: list[str]) -> list[str]:
        """The commands that changed something, in order."""
        return [f"{number} {one.command}" for number, one in enumerate(self.replay.recorded, 1)] or ["no command is kept"]

    def save(self, words: list[str]) -> list[str]:
        """Writes an input of hotline that plays the session."""
        if len(words) != 1:
            raise Refusal("WrongCount: save takes a file")
        try:
            Path(words[0]).write_bytes(self.replay.script())
        except OSError as error:
            raise Refusal(f"{words[0]}: {error.strerror}") from error
        return [f"{len(self.replay.recorded)} commands are written to {words[0]}"]

    def declare(self, words: list[str]) -> list[str]:
        """Declares the group of a file while the line runs."""
        if len(words) != 1:
            raise Refusal("WrongCount: declare takes a file with the text of a group")
        text = content_of(words[0])
        ended = text if text.endswith(b"\n") or not text else text + b"\n"
        lines = self.replay.play([Command(b"declare\n" + ended + b"%%\n")])[0]
        if not is_refused(lines):
            try:
                self.read_names()
            except (Refusal, KeyboardInterrupt):
                self.replay.undo()
                self.read_names()
                raise
            self.keep()
        return lines

    def help(self, words: list[str]) -> list[str]:
        """What the commands do, or one of them."""
        return one_command(words[0]) if words else HELP.splitlines()


def changed_datagrams(before: Questions, after: Questions) -> set[tuple[int, int]]:
    """The datagrams that differ between two lines, by task and number."""
    old, new = before.layout().datagrams, after.layout().datagrams
    return {name for name in old.keys() | new.keys() if old.get(name) != new.get(name)}


def place_words(place: VariablePlace | None) -> str:
    """A place in few words."""
    if place is None:
        return "none"
    return f"task {place.task} datagram {place.datagram} bit {place.bit}"

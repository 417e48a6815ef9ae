"""A session over the library: the line stays open, and no command is played again for the next one."""

import sys
from pathlib import Path
from types import ModuleType

from line.replay import CHANGES, EDITS, Command, Recorded, Replay, is_refused
from projects.asking import Ran, input_of, said_of
from projects.faults import Refusal

NO_PROJECT = 3
BINDING = Path(__file__).resolve().parents[3] / "bindings/python"


class Live(Replay):
    """A project text on an open line. Only what asks about other edits, and `undo`, plays commands again, on a line of its own."""

    speed = "the library keeps the line"

    def __init__(self, player: ModuleType, text: bytes) -> None:
        self.module, self.text = player, text
        self.recorded: list[Recorded] = []
        # players of other histories that were asked last
        self.others: dict[tuple[bytes, ...], object] = {}
        # None while a command runs, so that one which is broken off leaves nothing
        self.player = None
        self.open()

    def open(self) -> object:
        """The player of the line after the recorded commands."""
        if self.player is None:
            self.player = self.played(self.recorded)
        return self.player

    def played(self, recorded: list[Recorded]) -> object:
        """The player of a line of its own, after some commands."""
        zangjulf = self.module.zangjulf
        try:
            player = self.module.Player(self.text)
        except zangjulf.TooManyDatagrams as fault:
            raise Refusal(f"open fault 1 TooManyDatagrams {fault.detail}") from fault
        except zangjulf.ProjectFault as fault:
            said = Ran(NO_PROJECT, [self.module.project_fault("project", fault)])
            raise Refusal(said_of(input_of(self.text, []), said)) from fault
        for one in recorded:
            player.answer(one.command.lines)
        return player

    def answers(self, commands: list[Command], recorded: list[Recorded] | None = None) -> list[list[str]]:
        """What is printed for some commands after the recorded ones, or after others; none of them is recorded."""
        asks, player = len(commands) == 1 and commands[0].name in EDITS, self.other(recorded)
        return [answer_of(player, command, asks) for command in commands]

    def other(self, recorded: list[Recorded] | None) -> object:
        """The player of a line with another history, or of this one. Questions about edits are about what hangs on them alone, so
        that the present line answers for its own."""
        if recorded is None or recorded == self.edits():
            return self.open()
        name = tuple(one.command.lines for one in recorded)
        if name not in self.others:
            self.others = {**dict(list(self.others.items())[-1:]), name: self.played(recorded)}
        return self.others[name]

    def owed(self) -> int:
        """How many register blocks are owed."""
        return self.open().line.owed

    def owed_blocks(self, most: int) -> list[tuple[int, int]]:
        """The owed blocks, at most so many."""
        return self.open().owed_blocks()[:most]

    def owed_after(self, edit: Recorded) -> int:
        """How many would be owed after an edit: those that it changes or brings, and those that are owed now and stay."""
        now, after, owed = self.open().blocks(), self.other([*self.edits(), edit]).blocks(), set(self.open().owed_blocks())
        return sum(content != now.get(name) or name in owed for name, content in after.items())

    def play(self, commands: list[Command]) -> list[list[str]]:
        """What each command prints; those that change something are recorded, all of them or none."""
        player, self.player = self.open(), None
        recorded, answers = list(self.recorded), []
        for command in commands:
            answers.append(answer_of(player, command))
            if is_refused(answers[-1]):
                # it changed nothing; what others did before it is undone with the line
                self.player = player if len(answers) == 1 else None
                return answers
            if command.name in CHANGES:
                recorded.append(Recorded(command, answers[-1]))
        self.recorded, self.player = recorded, player
        return answers

    def undo(self) -> Command | None:
        """Forgets the last recorded command, and gives it; the line is made anew from the others."""
        self.player = None
        return super().undo()


def answer_of(player: object, command: Command, asks: bool = False) -> list[str]:
    """What a player answers."""
    try:
        return player.answer(command.lines, asks)
    except ValueError as error:
        raise Refusal(f"BadCommand: `{command}` can't be read: a word of it is malformed or out of range") from error


def library_player() -> ModuleType | None:
    """The binding's module that answers commands over the library, or None if there is no library."""
    sys.path.append(str(BINDING))
    try:
        import player
    except (OSError, AttributeError):
        return None
    finally:
        sys.path.remove(str(BINDING))
    return player


def live_of(text: bytes) -> Live | None:
    """A session over the library, or None if there is none."""
    player = library_player()
    return Live(player, text) if player else None

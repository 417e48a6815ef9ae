"""Commands as people write them: names in place of numbers, comments, and blanks within quotes."""

import shlex
from collections.abc import Callable

from line.replay import Command, command_of
from projects.faults import Refusal
from projects.limits import MEMORY_END
from projects.names import Names, number_in
from projects.records import Project

LONGEST_LINE = 65_536
# The kinds of the words of each command; the last kind may be repeated where a star follows it.
PROGRAM = {
    "layout": "",
    "regs": "slave",
    "show": "task number",
    "place": "variable",
    "connect": "group",
    "disconnect": "group",
    "remap": "slave number number*",
    "move": "slave number task",
    "write": "",
    "send": "task task*",
    "arrive": "bytes",
    "read": "task",
    "post": "task setting*",
    "take": "",
    "view": "task variable",
    "scan": "",
    "name": "",
    "program": "",
    "cycle": "task task*",
    "poke": "slave address bytes",
    "peek": "slave address count",
}


def words_of(line: str) -> list[str]:
    """The words of a line before a comment; quotes keep blanks within a name."""
    if len(line) > LONGEST_LINE:
        raise Refusal(f"TooLong: a command has at most {LONGEST_LINE:,} characters, and this one {len(line):,}")
    lexer = shlex.shlex(line, posix=True, punctuation_chars=False)
    lexer.whitespace_split = True
    lexer.commenters = "#"
    try:
        return list(lexer)
    except ValueError as error:
        raise Refusal(f"Malformed: {error}") from error


class Speller:
    """Writes commands as the program reads them, by the names of a project."""

    def __init__(self, project: Project, names: Names) -> None:
        self.project, self.names = project, names
        self.kinds: dict[str, Callable[[str], str]] = {
            "slave": lambda word: plain(word, self.station),
            "group": lambda word: plain(word, names.alias),
            "task": lambda word: plain(word, names.task),
            "variable": lambda word: plain(word, lambda name: names.variable(name).number),
            "setting": self.setting,
            **{kind: str for kind in ("number", "bytes", "address", "count")},
        }

    def station(self, word: str) -> int:
        """The station address of a slave, by its name or by the name of a group that has no other slave."""
        alone = [group.slaves[0].station for group in self.project.groups if group.name == word and len(group.slaves) == 1]
        named = any(slave.name == word for slave in self.names.slaves)
        return alone[0] if len(alone) == 1 and not named else self.names.station(word)

    def setting(self, word: str) -> str:
        """A variable with its value."""
        name, _, value = word.rpartition("=")
        return f"{self.kinds['variable'](name)}={value}"

    def command(self, words: list[str]) -> Command:
        """The command that some words are."""
        name, *rest = words
        if name not in PROGRAM:
            raise Refusal(f"UnknownCommand: {name}; `help` lists the commands")
        kinds = PROGRAM[name].split()
        repeated = kinds.pop()[:-1] if kinds and kinds[-1].endswith("*") else None
        if len(rest) < len(kinds) or (len(rest) > len(kinds) and repeated is None):
            raise Refusal(f"WrongCount: {name} takes {PROGRAM[name] or 'no words'}, and {len(rest)} words are given")
        kinds += [repeated] * (len(rest) - len(kinds))
        if name in ("poke", "peek"):
            check_memory(*rest[1:], is_poke=name == "poke")
        return command_of([name, *(self.kinds[kind](word) for kind, word in zip(kinds, rest))])


def check_memory(address: str, extent: str, *, is_poke: bool) -> None:
    """Refuses a range that the memory of a simulated slave doesn't have."""
    first, count = number_in(address), len(extent) // 2 if is_poke else number_in(extent)
    if first is None or count is None:
        raise Refusal(f"Malformed: {address if first is None else extent} is no number")
    if first + count > MEMORY_END:
        raise Refusal(f"OutOfRange: a slave's memory ends at 0x{MEMORY_END - 1:04x}; {address} with {count} bytes goes on behind it")


def plain(word: str, found: Callable[[str], int]) -> str:
    """A number as it is written, or the number of a name."""
    return word if number_in(word) is not None else str(found(word))

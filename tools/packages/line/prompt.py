"""The prompt: reads commands with history and completion, and prints what they are answered."""

import readline
import sys
from collections.abc import Callable

from line.line import Line
from line.replay import EDITS
from line.spelling import PROGRAM
from projects.faults import Refusal

PROMPT = "> "
# a group's name may stand for its only slave
NAMED = {"slave": ("slaves", "groups"), "group": ("groups",), "task": ("tasks",)}


def names_at(line: Line, words: list[str]) -> list[str]:
    """What may follow some words: commands first, then names of the kind that the command takes there."""
    if not words:
        return sorted({*PROGRAM, *line.own, "quit"})
    if words[0] == "cost":
        return names_at(line, words[1:]) if len(words) > 1 else sorted(EDITS - {"declare"})
    kinds = PROGRAM.get(words[0], "setting").split()
    kind = kinds[min(len(words), len(kinds)) - 1].rstrip("*") if kinds else ""
    if kind in NAMED:
        named = [one for names in NAMED[kind] for one in getattr(line.names, names)]
    else:
        named = line.names.variables.values() if kind in ("variable", "setting") else []
    return sorted({one.name for one in named if one.name})


def completions(line: Line, before: str, text: str) -> list[str]:
    """The ends of a line that may stand in place of a text after what is before it; a name with blanks gets its quotes."""
    opened = before.count('"') % 2 == 1
    quote = before.rfind('"') if opened else len(before)
    typed = before[quote + 1 :] + text if opened else text.removeprefix('"')
    names = [one for one in names_at(line, before[:quote].split()) if one.lower().startswith(typed.lower())]
    if opened:
        return [one[len(before) - quote - 1 :] + '"' for one in names]
    return [f'"{one}"' if " " in one or text.startswith('"') else one for one in names]


def completer(line: Line) -> Callable[[str, int], str | None]:
    """What `readline` asks for the words that begin with a text."""

    def complete(text: str, state: int) -> str | None:
        found = completions(line, readline.get_line_buffer()[: readline.get_begidx()], text)
        return found[state] if state < len(found) else None

    return complete


def prompt(line: Line) -> None:
    """Answers commands until the input ends or says quit. A command that fails, or is interrupted, changes nothing."""
    readline.set_completer(completer(line))
    readline.set_completer_delims(" =")
    readline.parse_and_bind("tab: complete")
    print(f"{line.name}: {line.began()}. `help` lists the commands; {line.replay.speed}.")
    while True:
        try:
            given = input(PROMPT)
        except EOFError:
            print()
            return
        except KeyboardInterrupt:
            print()
            continue
        if not sys.stdin.isatty():
            print(given)
        if given.split() == ["quit"]:
            return
        answer(line, given)


def answer(line: Line, given: str) -> None:
    """Prints what a command is answered, or why it isn't carried out."""
    try:
        lines = line.respond(given)
    except Refusal as refusal:
        lines = [f"? {refusal}"]
    except KeyboardInterrupt:
        lines = ["? Interrupted: the command changed nothing"]
    if lines:
        print("\n".join(lines), flush=True)

"""Quoted code and stored runs beside their sources."""

import textwrap
from collections.abc import Iterator

from findings import Finding
from pages import Block, Pages, blocks

CODE = {"rust", "c", "python", "toml", "text", "antt"}  # "text" is what a program printed
GAPS = {"..", "/* .. */", "// .."}  # a line of its own: what comes next is elsewhere in the source


def check_quotes(pages: Pages) -> Iterator[Finding]:
    """Each block of code is quoted: its pieces are in its source, line for line."""
    for page, text in pages.texts.items():
        for block in blocks(page, text):
            if block.language in CODE:
                yield from _check_block(pages, block)
            elif block.language is not None and block.language != "sh":
                yield Finding("quote", page, block.line, f"a block of `{block.language}`: no such language is known")


def _check_block(pages: Pages, block: Block) -> Iterator[Finding]:
    """What is wrong with a block of code."""
    if block.mark == "printed":
        return  # by a command, which is run
    if block.mark != "quoted":
        yield Finding("quote", block.page, block.line, "code without a source")
        return
    source = pages.sources.get(block.words)
    if source is None:
        yield Finding("quote", block.page, block.line, f"{block.words} isn't there")
        return
    for piece in pieces(block.lines):
        if not is_part_of(piece, source):
            yield Finding("quote", block.page, block.line, f"not in {block.words}: {piece[0].strip()} ..")


def pieces(lines: tuple[str, ...]) -> list[list[str]]:
    """The lines between gaps."""
    found: list[list[str]] = [[]]
    for line in lines:
        if line.strip() in GAPS:
            found.append([])
        else:
            found[-1].append(line)
    return [piece for piece in found if any(line.strip() for line in piece)]


def is_part_of(piece: list[str], source: str) -> bool:
    """Whether the lines are in the source one after another, however far they are indented."""
    wanted = _flush(piece)
    lines = source.split("\n")
    first = wanted[0].strip()
    return any(
        line.strip() == first and _flush(lines[at : at + len(wanted)]) == wanted for at, line in enumerate(lines)
    )


def _flush(lines: list[str]) -> list[str]:
    """The lines without the indent that they share, and without blanks at their ends."""
    return [line.rstrip() for line in textwrap.dedent("\n".join(lines)).split("\n")]


class StoredRun:
    """A stored run of the program, read from its front: its commands and its answers."""

    def __init__(self, pages: Pages, name: str) -> None:
        self.name = name or "a stored run"
        self._commands = iter(pages.sources.get(f"{name}.in", "").split("\n"))
        self._answers = iter(pages.sources.get(f"{name}.out", "").split("\n"))

    def has_next(self, line: str) -> bool:
        """Whether a line of a session, `$ ` and a command or an answer, comes after those that were asked for before."""
        if line.startswith("$ "):
            return any(line[2:] == command for command in self._commands)
        return any(line == answer for answer in self._answers)


def check_sessions(pages: Pages) -> Iterator[Finding]:
    """Blocks whose commands begin with `$ ` are parts of a stored run, in its order."""
    for page, text in pages.texts.items():
        run = StoredRun(pages, "")
        for block in blocks(page, text):
            if block.mark == "session":
                run = StoredRun(pages, block.words)
            if block.language is None and any(line.startswith("$ ") for line in block.lines):
                yield from _check_session(block, run)


def _check_session(block: Block, run: StoredRun) -> Iterator[Finding]:
    """The first line of a session that the stored run doesn't have."""
    for at, line in enumerate(block.lines):
        if not run.has_next(line):
            yield Finding("session", block.page, block.line + at, f"not the next of {run.name}: {line}")
            return

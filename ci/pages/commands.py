"""The commands of pages: run here, run by the gate, or left out for a reason."""

import os
import re
import shutil
import subprocess
import tempfile
from collections.abc import Iterator
from dataclasses import dataclass
from pathlib import Path

from findings import Finding
from pages import Block, Pages, blocks
from quotes import is_part_of, pieces

MOST_LEFT_OUT = 12  # blocks of commands that are not run, each with its reason
SECONDS = 120
COMMAND = re.compile(
    r"^(\$ )?((rt|cd|gcc|g\+\+|cargo|pip|python3|apt-get|unshare|tshark|rustc) |(tools|ci|packaging|bench|\.ci|build)/)"
)


@dataclass(frozen=True)
class Step:
    """A block of commands, and what the page says that it prints."""

    block: Block
    printed: Block | None

    @property
    def script(self) -> str:
        """The commands as a shell reads them."""
        return "set -e\n" + "\n".join(self.block.lines) + "\n"


def steps(pages: Pages) -> Iterator[Step]:
    """The blocks of commands of all pages."""
    for page, text in pages.texts.items():
        found = list(blocks(page, text))
        for block, after in zip(found, [*found[1:], None]):
            if block.language == "sh":
                yield Step(block, after if after and after.mark == "printed" else None)


def check_commands(pages: Pages) -> Iterator[Finding]:
    """Commands are in blocks of `sh`. Those that nobody runs are few, and what is said to run others names them."""
    for page, text in pages.texts.items():
        for block in blocks(page, text):
            for at, line in enumerate(block.lines if block.language is None else ()):
                if COMMAND.match(line):
                    yield Finding("command", page, block.line + at, f"not in a block of `sh`: {line}")
    left_out = 0
    for step in steps(pages):
        block = step.block
        if block.mark == "not run":
            left_out += 1
            if len(block.words.split()) < 3:
                yield Finding("command", block.page, block.line, "not run, without a reason")
        elif block.mark == "run by":
            yield from _check_runner(pages, block)
    if left_out > MOST_LEFT_OUT:
        yield Finding("command", "all pages", 0, f"{left_out} blocks aren't run, {MOST_LEFT_OUT} at most")


def _check_runner(pages: Pages, block: Block) -> Iterator[Finding]:
    """The file that runs a block has the first word of each of its commands, and the last one's last word."""
    text = pages.sources.get(block.words, "")
    for line in block.lines:
        command = re.sub(r"^([A-Z_]+=\S+ )+", "", line).split("#")[0].split()
        if command and command[0] != "export" and Path(command[0]).name not in text:
            yield Finding("command", block.page, block.line, f"{block.words} doesn't run {command[0]}")


def run_commands(pages: Pages) -> Iterator[Finding | None]:
    """Runs each block that is neither left out nor run by another file; none for one that went well."""
    with tempfile.TemporaryDirectory() as scratch:
        for entry in pages.root.iterdir():
            if entry.name != "build":
                os.symlink(entry, Path(scratch, entry.name))
        for step in steps(pages):
            if step.block.mark not in ("not run", "run by"):
                yield run_step(step, Path(scratch))


def run_step(step: Step, folder: Path) -> Finding | None:
    """Runs a block in a folder that stands for the repository's top; none where it goes well."""
    block = step.block
    missing = [word for word in ("tshark", "xmllint", "chromium") if word in step.script and not shutil.which(word)]
    if missing:
        print(f"pages: {block.page}:{block.line}: {missing[0]} isn't installed, and the commands aren't run")
        return None
    try:
        done = subprocess.run(["sh"], input=step.script, cwd=folder, capture_output=True, text=True, timeout=SECONDS)
    except subprocess.TimeoutExpired:
        return Finding("run", block.page, block.line, f"no end within {SECONDS} seconds")
    if done.returncode != 0:
        said = (done.stderr or done.stdout).strip()[-300:]
        return Finding("run", block.page, block.line, f"status {done.returncode}: {said}")
    if step.printed:
        for piece in pieces(step.printed.lines):
            if not is_part_of(piece, done.stdout):
                return Finding("run", block.page, step.printed.line, f"not printed: {piece[0]} ..")
    return None

"""The pages of a repository: their texts, blocks, headings and prose."""

import os
import re
from collections.abc import Iterator
from dataclasses import dataclass
from pathlib import Path

SKIPPED_FOLDERS = {".git", "out", "build", "target", "__pycache__"}
MARK = re.compile(r"^<!-- (?P<kind>[a-z ]+?)(?:: (?P<words>.*))? -->$")


@dataclass(frozen=True)
class Block:
    """A fenced block, or an indented one (language None): its lines, and the mark before it."""

    page: str
    line: int  # of its first line of text, counted from 1
    language: str | None
    lines: tuple[str, ...]
    mark: str = ""  # "quoted", "printed" ..
    words: str = ""  # what the mark says


@dataclass(frozen=True)
class Pages:
    """The texts of all pages and of the other files of the repository, by their paths."""

    root: Path
    texts: dict[str, str]
    sources: dict[str, str]

    def with_page(self, page: str, text: str) -> "Pages":
        """The same pages with another text of one of them."""
        return Pages(self.root, {**self.texts, page: text}, self.sources)


def read_pages(root: Path) -> Pages:
    """Each .md file is a page; of the other files those that are text."""
    texts, sources = {}, {}
    for folder, folders, names in os.walk(root):
        folders[:] = sorted(set(folders) - SKIPPED_FOLDERS)
        for name in sorted(names):
            path = Path(folder, name)
            try:
                text = path.read_text(encoding="utf-8")
            except (UnicodeDecodeError, OSError):
                continue
            (texts if name.endswith(".md") else sources)[path.relative_to(root).as_posix()] = text
    return Pages(root, texts, sources)


def blocks(page: str, text: str) -> Iterator[Block]:
    """The blocks of a page, in order."""
    lines = text.split("\n")
    mark = words = ""
    at = 0
    while at < len(lines):
        line = lines[at]
        if found := MARK.match(line):
            mark, words = found["kind"], found["words"] or ""
            at += 1
            continue
        end = _end_of_block(lines, at)
        if end is not None:
            yield _block(page, at, lines[at:end], mark, words)
            at = end
        if line.strip():
            mark = words = ""
        if end is None:
            at += 1


def _end_of_block(lines: list[str], at: int) -> int | None:
    """The line after the block that begins here, or none where no block does."""
    if lines[at].startswith("```"):
        end = at + 1
        while end < len(lines) and not lines[end].startswith("```"):
            end += 1
        return end + 1
    if not lines[at].startswith("    ") or (at > 0 and lines[at - 1].strip()):
        return None
    end = at
    while end < len(lines) and (lines[end].startswith("    ") or not lines[end].strip()):
        end += 1
    return end


def _block(page: str, at: int, lines: list[str], mark: str, words: str) -> Block:
    """The block of these lines."""
    if lines[0].startswith("```"):
        return Block(page, at + 2, lines[0][3:].strip(), tuple(lines[1:-1]), mark, words)
    while not lines[-1].strip():
        lines = lines[:-1]
    return Block(page, at + 1, None, tuple(line[4:] for line in lines), mark, words)


def headings(text: str) -> list[str]:
    """The anchors of a page's headings, as GitHub makes them."""
    anchors: list[str] = []
    for title in re.findall(r"^#+ +(.*?) *$", without_fences(text), re.MULTILINE):
        plain = re.sub(r"\[([^\]]*)\]\([^)]*\)", r"\1", title).lower()
        anchor = re.sub(r"[^\w\- ]", "", plain).replace(" ", "-")
        again = sum(1 for known in anchors if re.fullmatch(re.escape(anchor) + r"(-\d+)?", known))
        anchors.append(f"{anchor}-{again}" if again else anchor)
    return anchors


def without_fences(text: str) -> str:
    """The text with its fenced blocks emptied, line for line."""
    result, inside = [], False
    for line in text.split("\n"):
        is_fence = line.startswith("```")
        result.append("" if inside or is_fence else line)
        inside ^= is_fence
    return "\n".join(result)


def sentences(text: str) -> list[int]:
    """The lengths in words of the sentences of a page's prose: no tables, headings, code or pictures."""
    prose = []
    for line in without_fences(text).split("\n"):
        if re.match(r"^(    |\||#|<!--|!\[)", line):
            prose.append("")
        else:
            prose.append(re.sub(r"^\s*([-*]|\d+\.) +", "\n\n", line))
    lengths = []
    for paragraph in re.split(r"\n\s*\n", "\n".join(prose)):
        for sentence in re.split(r"(?<=[.!?])[)*`\"]*\s+", paragraph.strip()):
            if len(sentence.split()) > 1:
                lengths.append(len(sentence.split()))
    return lengths

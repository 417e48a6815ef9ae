"""Frames that a page takes apart in a table, beside the stored run that has them."""

import re
from collections.abc import Iterator

from findings import Finding
from pages import MARK, Pages

BYTES = re.compile(r"(?:[0-9a-f]{2})+")
COLUMNS = ("as sent", "as it comes back")


def tables(text: str) -> Iterator[tuple[int, str, list[list[str]]]]:
    """The tables marked `frames`: the line of the mark, the stored run, and the cells of the rows below the head."""
    lines = text.split("\n")
    for at, line in enumerate(lines):
        found = MARK.match(line)
        if found and found["kind"] == "frames":
            end = next((row for row in range(at + 1, len(lines)) if not lines[row].startswith("|")), len(lines))
            yield at + 1, found["words"] or "", [cells(row) for row in lines[at + 3 : end]]


def cells(row: str) -> list[str]:
    """The cells of a table's row."""
    return [cell.strip() for cell in row.strip("|").split("|")]


def check_frames(pages: Pages) -> Iterator[Finding]:
    """The first two columns are the bytes of a frame, from its first to its last, as sent and as it comes back."""
    for page, text in pages.texts.items():
        for line, name, rows in tables(text):
            run = pages.sources.get(f"{name}.in", "") + pages.sources.get(f"{name}.out", "")
            if not rows:
                yield Finding("frame", page, line, "no table comes after the mark")
            for column, title in enumerate(COLUMNS) if rows else ():
                frame = "".join(row[column] for row in rows)
                if not BYTES.fullmatch(frame) or not re.search(rf"(?<!\w){frame}(?!\w)", run):
                    yield Finding("frame", page, line, f"{name} has no such frame {title}: {frame}")

"""Names of definitions beside the crates that have them: what DEFINITIONS lists below a heading is of that heading's crates."""

import re
from collections.abc import Iterator

from findings import Finding
from pages import Pages, without_fences

PAGE = "docs/meaning/DEFINITIONS.md"
DECLARED = re.compile(r"^(?:(?:abbrev|opaque|unfoldable|pub|data|record) +)*pub +(?:(?:abbrev|opaque|unfoldable|data|record) +)*([A-Za-z_]\w*)", re.M)
FILE = re.compile(r"^crates/(?P<crate>\w+)/(?P<folder>specs/.*\.antt|src/.*\.rt)$")
CRATE = re.compile(r"`(hc_\w+)`")
NAME = re.compile(r"`([A-Za-z_]\w*)`")
WORD = re.compile(r"[A-Za-z_]\w*")


def words_of_crates(pages: Pages) -> tuple[dict[str, set[str]], dict[str, set[str]]]:
    """The crates whose specs declare each name, and all words of each crate's specs and sources."""
    declared: dict[str, set[str]] = {}
    words: dict[str, set[str]] = {}
    for file, text in pages.sources.items():
        if place := FILE.match(file):
            words.setdefault(place["crate"], set()).update(WORD.findall(text))
            for name in DECLARED.findall(text) if place["folder"].startswith("specs") else ():
                declared.setdefault(name, set()).add(place["crate"])
    return declared, words


def check_definitions(pages: Pages) -> Iterator[Finding]:
    """In a section that names crates, each name in code marks that some specs declare is a word of one of these crates."""
    declared, words = words_of_crates(pages)
    lines = without_fences(pages.texts.get(PAGE, "")).split("\n")
    starts = [number for number, line in enumerate(lines) if line.startswith("## ")] + [len(lines)]
    for start, end in zip(starts, starts[1:]):
        crates = {crate for line in lines[start:end] for crate in CRATE.findall(line)}
        for number in range(start, end if crates else start):
            for name in NAME.findall(lines[number]):
                if name in declared and not any(name in words.get(crate, ()) for crate in crates):
                    yield Finding("definition", PAGE, number + 1, f"{name} is of {', '.join(sorted(declared[name]))}")

"""How long pages and their sentences may be."""

import re
import statistics
from collections.abc import Iterator
from fnmatch import fnmatch

from findings import Finding
from pages import Pages, sentences

# Words of a page, counted as `wc -w` does; the first pattern that fits counts.
LIMITS = (
    ("README.md", 900),
    ("CONTRIBUTING.md", 400),
    ("docs/DECISIONS.md", 5500),
    ("docs/meaning/DEFINITIONS.md", 8000),
    ("docs/house/ARCHITECTURE.md", 900),
    ("docs/house/GATE.md", 900),
    ("docs/house/BENCHMARKS.md", 1500),
    ("docs/*", 3000),
    ("crates/*", 250),
    ("*", 1000),
)
IN_ALL = 50_000
MEDIAN_SENTENCE = 18
FEW_SENTENCES = 8  # of a page with fewer the median says nothing
GLOSSARY = "docs/meaning/GLOSSARY.md"
GLOSSARY_ROWS = 40


def check_limits(pages: Pages) -> Iterator[Finding]:
    """No page is too long, nor are all of them together, nor half of a page's sentences, nor the glossary's table."""
    counts = {page: len(text.split()) for page, text in pages.texts.items()}
    for page, count in counts.items():
        limit = next(limit for pattern, limit in LIMITS if fnmatch(page, pattern))
        if count > limit:
            yield Finding("limit", page, 0, f"{count} words, {limit} at most")
    if sum(counts.values()) > IN_ALL:
        yield Finding("limit", "all pages", 0, f"{sum(counts.values())} words, {IN_ALL} at most")
    rows = len(re.findall(r"^\|", pages.texts.get(GLOSSARY, ""), re.MULTILINE)) - 2
    if rows > GLOSSARY_ROWS:
        yield Finding("limit", GLOSSARY, 0, f"{rows} words are explained, {GLOSSARY_ROWS} at most")


def check_sentences(pages: Pages) -> Iterator[Finding]:
    """Half of a page's sentences are short."""
    for page, text in pages.texts.items():
        lengths = sentences(text)
        if len(lengths) >= FEW_SENTENCES and statistics.median(lengths) > MEDIAN_SENTENCE:
            median = statistics.median(lengths)
            yield Finding("sentence", page, 0, f"{median} words at the median, {MEDIAN_SENTENCE} at most")

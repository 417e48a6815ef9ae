"""Checks the pages of the repository: `main.py [--text]`, which runs no command with that word."""

import sys
import tempfile
from collections.abc import Iterator
from pathlib import Path

from commands import check_commands, run_commands
from definitions import check_definitions
from doors import check_doors
from frames import check_frames
from header import check_header
from links import check_links, check_names, check_words
from limits import check_limits, check_sentences
from pages import Pages, read_pages
from planted import find_planted
from quotes import check_quotes, check_sessions

CHECKS = (
    *(check_links, check_names, check_words, check_quotes, check_sessions, check_frames),
    *(check_limits, check_sentences, check_commands, check_definitions, check_header, check_doors),
)


def found_on(pages: Pages) -> Iterator[str]:
    """What the checks find, in words; an empty text for a check that finds nothing."""
    for check in CHECKS:
        found = [str(finding) for finding in check(pages)]
        yield from found or [""]


def found_running(pages: Pages) -> Iterator[str]:
    """What goes wrong with commands, likewise."""
    for wrong in run_commands(pages):
        yield str(wrong) if wrong else ""


def passed_over() -> Iterator[str]:
    """Planted mistakes that aren't found, likewise."""
    with tempfile.TemporaryDirectory() as scratch:
        for mistake, is_found in find_planted(Path(scratch)):
            yield "" if is_found else f"pages: planted and not found: {mistake}"


def main(words: list[str]) -> int:
    """The status: 0 where all passed."""
    pages = read_pages(Path(__file__).resolve().parents[2])
    outcomes = [*found_on(pages), *passed_over()]
    if words != ["--text"]:
        outcomes += found_running(pages)
    print("".join(f"{outcome}\n" for outcome in outcomes if outcome), end="")
    passed = outcomes.count("")
    print(f"{passed} passed, {len(outcomes) - passed} failed")
    return 0 if passed == len(outcomes) else 1


sys.exit(main(sys.argv[1:]))

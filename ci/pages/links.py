"""Links of pages, names of pages in other files, and names of code on pages."""

import posixpath
import re
from collections.abc import Iterator

from findings import Finding
from pages import Pages, headings, without_fences

LINK = re.compile(r"\]\(([^)\s]*)\)|srcset=\"([^\"]*)\"|src=\"([^\"]*)\"")
WORD = re.compile(r"[A-Za-z_][A-Za-z0-9_]*")

# Words in code marks that no file here has: of the kit, of other tools, and of placeholders.
OUTSIDE = {"ArrayQueue", "also_shares", "chrt", "dac8208d650f15bf", "ea03", "perf", "plant", "FUNCTION", "PATH"}

NAME = re.compile(r"(?<![\w/.])(?:docs/[\w/]*|CONTRIBUTING|CHANGELOG)\.md\b")


def check_links(pages: Pages) -> Iterator[Finding]:
    """Each link within the repository leads to a file, and to a heading of it where it names one."""
    for page, text in pages.texts.items():
        for number, line in enumerate(without_fences(text).split("\n"), 1):
            for found in LINK.finditer(line):
                target = next(group for group in found.groups() if group is not None)
                wrong = _wrong(pages, page, target)
                if wrong:
                    yield Finding("link", page, number, wrong)


def _wrong(pages: Pages, page: str, target: str) -> str:
    """What is wrong with a link, or nothing."""
    if re.match(r"[a-z]+:", target):
        return ""
    path, _, anchor = target.partition("#")
    full = posixpath.normpath(posixpath.join(posixpath.dirname(page), path)) if path else page
    if full not in pages.texts and not (pages.root / full).exists():
        return f"{full} isn't there"
    if anchor and anchor not in headings(pages.texts.get(full, "")):
        return f"{full} has no heading #{anchor}"
    return ""


def check_names(pages: Pages) -> Iterator[Finding]:
    """Each page that a comment, a script or a usage names is there."""
    for file, text in pages.sources.items():
        for number, line in enumerate(text.split("\n"), 1):
            for name in NAME.findall(line):
                if name not in pages.texts:
                    yield Finding("name", file, number, f"{name} isn't there")


def check_words(pages: Pages) -> Iterator[Finding]:
    """Each word in code marks is one of some file of the repository, or of its path: what a page calls by name is there."""
    known = set(OUTSIDE)
    for file, text in pages.sources.items():
        known.update(WORD.findall(file), WORD.findall(text))
    for page, text in pages.texts.items():
        for number, line in enumerate(without_fences(text).split("\n"), 1):
            for code in re.findall(r"`([^`]+)`", line):
                for word in WORD.findall(code):
                    if word not in known:
                        yield Finding("word", page, number, f"{word} is in no file")

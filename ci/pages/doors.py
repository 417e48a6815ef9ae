"""The examples of the crates: each is a test, and its crate's page quotes it."""

import re
from collections.abc import Iterator

from findings import Finding
from pages import Pages, blocks

# The last word of a module is its crate's: `core` alone would be the name of a library.
EXAMPLE = re.compile(r"crates/worked_doors/src/(?:[a-z_]+_)?(?P<crate>[a-z]+)\.rt")


def check_doors(pages: Pages) -> Iterator[Finding]:
    """Each example that is a test is on the page of its crate."""
    for source, text in pages.sources.items():
        example = EXAMPLE.fullmatch(source)
        if example is None or "#[test]" not in text:
            continue
        page = f"crates/hc_{example['crate']}/README.md"
        quoted = {block.words for block in blocks(page, pages.texts.get(page, "")) if block.mark == "quoted"}
        if source not in quoted:
            yield Finding("door", page, 0, f"{source} isn't quoted")

"""The texts of the repository's crates and their comments."""

import re
from dataclasses import dataclass
from pathlib import Path

COMMENT = {".rt": r"//[^\n]*", ".antt": r"--[^\n]*"}
MARK = {".rt": r"//[/!]?", ".antt": r"--"}


@dataclass
class Source:
    """A file of a crate, and its place below crates/."""

    place: Path
    text: str

    @property
    def crate(self):
        return self.place.parts[0]

    @property
    def kind(self):
        return self.place.suffix

    def is_spec(self):
        """Whether it has words of specs; worked examples are no words."""
        return self.place.parts[1] == "specs" and not self.place.stem.startswith("Worked")

    def comments(self):
        """Its comments, each the lines that follow one another, without what is between backquotes."""
        for lines in runs(self.text, self.kind):
            yield re.sub(r"`[^`]*`", "`", " ".join(" ".join(lines).split()))


def sources_of(top):
    """The files of all crates, by their places."""
    for path in sorted((top / "crates").rglob("*")):
        place = path.relative_to(top / "crates")
        if path.suffix in COMMENT and "out" not in place.parts:
            yield Source(place, path.read_text())


def runs(text, kind):
    """The runs of comment lines, each as the list of its texts."""
    run, margin = [], None
    for line in text.split("\n"):
        match = re.match(rf"^(\s*(?:{MARK[kind]}))( .*|)$", line)
        if run and (not match or match.group(1) != margin):
            yield run
            run = []
        if match:
            margin = match.group(1)
            run.append(match.group(2)[1:])
    if run:
        yield run

"""Where the lowest fault of a text is: what the program says, and the line of the place that projectcheck names."""

import re

from lint.explaining import STEP, explained
from lint.findings import Finding
from projects.asking import Program, Ran, said_of
from projects.faults import Refusal
from projects.toml import Node

NO_PROJECT = 3
AT_LINE = re.compile(r"at line (\d+) column (\d+)")
AT_PLACE = re.compile(r"at (\S+)(?: alias \d+)?(?: station \d+)?(?: first (\S+).*)?")


def fault_of(document: Node, text: bytes, hotline: Program, check: Program | None) -> Finding | None:
    """The fault of a text that the program doesn't open, or None."""
    run = hotline.ran(text)
    if run.status == 0:
        return None
    if run.status != NO_PROJECT or not run.lines:
        raise Refusal(f"hotline ended with status {run.status} and said: {said_of(text, run)}")
    said = run.lines[0]
    kind = said.split()[-1] if said.startswith("project") else said.split()[3]
    if check is None or not said.startswith("project"):
        return Finding(1, kind, f"hotline says {said}")
    return located(document, kind, check.ran(text))


def located(document: Node, kind: str, run: Ran) -> Finding:
    """The finding of a fault, with the line of the place that projectcheck names."""
    if len(run.lines) < 2:
        return Finding(1, kind, f"projectcheck says {' '.join(run.lines) or 'nothing'}")
    said = run.lines[1]
    if found := AT_LINE.fullmatch(said):
        return Finding(int(found[1]), kind, said)
    place = AT_PLACE.fullmatch(said)
    if place is None:
        return Finding(1, kind, said)
    first = f", which is on line {line_of(document, place[2])}" if place[2] else ""
    return Finding(line_of(document, place[1]), kind, f"{explained(document, kind, place[1], place[2])}{said}{first}")


def line_of(document: Node, path: str) -> int:
    """The line of what a path leads to, or of the last that there is along it."""
    node = document
    for key, index in STEP.findall(path):
        items = node.items()
        following = node.get(key) if key else items[int(index)] if int(index) < len(items) else None
        if following is None:
            break
        node = following
    return node.line

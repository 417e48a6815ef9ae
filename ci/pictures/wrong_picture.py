#!/usr/bin/env -S python3 -B
"""Makes a wrong picture or report of a right one, on standard output, to see it refused.

    wrong_picture.py WAY PICTURE

Each way is something that a maker could get wrong: a number that is carried, one that is written, the place of a box,
an area left out, before and after exchanged; and in a report a number in a cell, a row left out, and a datagram whose
change isn't shown.
"""

import re
import sys
from pathlib import Path

AREA = r'<g class="area .*?</g>'
BOX = r'(<g class="variable [^>]*><title>[^<]*</title><rect class="cell" x=")(\d+)'
CELL = r'(<tr data-variable="[^>]*>(?:<td>[^<]*</td>){3}<td>)(\d+)'


def once(pattern, new, text):
    """The text with the first match replaced; that it is another text is made sure of."""
    changed = re.sub(pattern, new, text, count=1, flags=re.DOTALL)
    if changed == text:
        raise SystemExit(f"wrong_picture: nothing to change by {pattern}")
    return changed


def raised(match):
    """A match whose second group is a number, with the next one in its place."""
    return f"{match[1]}{int(match[2]) + 1}"


def exchanged(text):
    """Before and after exchanged, in what is carried and in what is written."""
    text = re.sub(r'data-state="(before|after)"', lambda match: f'data-state="{other(match[1])}"', text)
    return re.sub(r">(before|after)(:|<)", lambda match: f">{other(match[1])}{match[2]}", text)


def other(state):
    """The other one of the two states."""
    return "before" if state == "after" else "after"


WAYS = {
    "carried": lambda text: once(r'(data-expected=")(\d+)', raised, text),
    "written": lambda text: once(r"(>working counter )(\d+)", raised, text),
    "shifted": lambda text: once(BOX, raised, text),
    "left-out": lambda text: once(AREA, "", text),
    "exchanged": exchanged,
    "cell": lambda text: once(CELL, raised, text),
    "unmarked": lambda text: once(r'(<tr data-datagram="[^"]*" class=")moved', r"\1kept", text),
    "row": lambda text: once(r'<tr data-block="[^>]*>.*?</tr>', "", text),
}

if __name__ == "__main__":
    print(WAYS[sys.argv[1]](Path(sys.argv[2]).read_text()), end="")

"""Colours of Okabe and Ito, and the letter beside each, so that no colour means anything by itself."""

import re
from pathlib import Path

from picture.views import Mark

DIRECTION_LETTERS = {"out": "O", "in": "I"}
DIRECTION_WORDS = {"out": "output", "in": "input"}
MARK_LETTERS = {Mark.NEW: "N", Mark.MOVED: "M", Mark.GONE: "G"}
MARK_WORDS = {
    Mark.NEW: "new: it wasn't mapped before",
    Mark.MOVED: "moved: one of its register blocks has changed",
    Mark.GONE: "gone: it isn't mapped any more",
}

COLOURS = {"ORANGE": "#e69f00", "SKY_BLUE": "#56b4e9", "GREEN": "#009e73", "VERMILLION": "#d55e00", "PURPLE": "#cc79a7"}

PAPER = "#ffffff"
# Light and dark: paper, ink, quiet words, fine lines.
LIGHT = {"paper": PAPER, "ink": "#14181d", "quiet": "#57606a", "fine": "#c4cad1"}
DARK = {"paper": "#12161b", "ink": "#e9edf1", "quiet": "#a3adb8", "fine": "#3d4751"}
THEMED = re.compile(r"([\w-]+): ([^;{}]*)var\(--(\w+)\);")


def variables(colours: dict[str, str]) -> str:
    """The declarations of colours by name."""
    return "; ".join(f"--{name}: {colour}" for name, colour in colours.items())


def with_plain(style: str) -> str:
    """A style with the light colour before each that is taken by name, for readers that know no such names."""
    return THEMED.sub(lambda found: f"{found[1]}: {found[2]}{LIGHT[found[3]]}; {found[0]}", style)


def style_in(file: Path) -> str:
    """The style of a file, in which the names of colours stand for them, LIGHT and DARK for all that are taken by name."""
    names = {"LIGHT": variables(LIGHT), "DARK": variables(DARK), **COLOURS}
    return with_plain(re.sub(r"\b[A-Z_]{4,}\b", lambda found: names[found[0]], file.read_text()))


PICTURE = style_in(Path(__file__).with_name("picture.css"))

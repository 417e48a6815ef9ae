"""The report's style, and the little script that sorts and searches its tables; without it they are as made."""

from pathlib import Path

from picture.style import style_in
from picture.tables import selectors

STYLE = style_in(Path(__file__).with_name("report.css"))
MONOSPACED = 'font-family: "DejaVu Sans Mono", Menlo, Consolas, monospace; overflow-wrap: anywhere; min-width: 6rem'


def style_of(columns: dict[str, list[str]]) -> str:
    """The report's style; the columns of each table say which cells are numbers, and which are code."""
    numbers, code = selectors(columns, "number", "td", "th"), selectors(columns, "code", "td")
    return f"{STYLE}{numbers} {{ text-align: right; }}\n{code} {{ {MONOSPACED}; }}\n"


SCRIPT = Path(__file__).with_name("report.js").read_text()

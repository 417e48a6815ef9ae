"""The report: the picture, the line's datagrams, the register blocks of each slave, and all variables, in one page."""

from picture.drawing import picture
from picture.elements import element, text
from picture.page import SCRIPT, style_of
from picture.style import MARK_LETTERS, PICTURE
from picture.tables import Tables
from picture.views import View
from projects.words import plural

# More edits than these are shown only where they are asked for.
FEW = 12


def answers(view: View) -> str:
    """The edits that were asked for, each with what the program answered."""
    if not view.answers:
        return ""
    rows = [element("tr", element("td", text(asked)), element("td", text(said))) for asked, said in view.answers]
    head = element("tr", element("th", "edit"), element("th", "answer"))
    table = element("table", element("thead", head), element("tbody", *rows))
    title = element("summary", element("b", plural(len(rows), "edit")))
    return element("details", title, table, open="open" if len(rows) <= FEW else None)


def summary(view: View) -> str:
    """The line in a sentence."""
    state = view.after
    total = sum(datagram.length for datagram in state.datagrams.values())
    counts = [
        plural(len(state.blocks), "slave"),
        plural(len(state.datagrams), "datagram"),
        plural(total, "byte"),
        plural(len(state.variables), "variable"),
    ]
    said = f"Epoch {state.epoch}: {', '.join(counts)}."
    if view.change:
        marks = ", ".join(f"{letter} {mark.value}" for mark, letter in MARK_LETTERS.items())
        shown = f"{'the line ' if view.change.is_other_text else ''}{view.change.words}{view.said_of_change()}"
        said += f" Picture and tables show {shown}, before and after: {marks}."
    return element("p", text(said))


def report(view: View) -> str:
    """The HTML document of a view; nothing in it is taken from elsewhere."""
    title, tables = f"{view.name}: the line in epoch {view.after.epoch}", Tables(view)
    head = [
        '<meta charset="utf-8">',
        '<meta name="viewport" content="width=device-width, initial-scale=1">',
        element("title", text(title)),
        element("style", style_of(tables.columns()) + PICTURE),
    ]
    body = [
        element("h1", text(title)),
        summary(view),
        answers(view),
        element("section", element("h2", "Picture"), element("div", picture(view, ""), kind="scrolled", tabindex=0)),
        tables.datagrams(),
        tables.variables(),
        tables.assignments(),
        tables.blocks(),
        element("script", SCRIPT),
    ]
    page = element("html", element("head", *head), "\n", element("body", "\n".join(body)), lang="en")
    return f"<!DOCTYPE html>\n{page}\n"

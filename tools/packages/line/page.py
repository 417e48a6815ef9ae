"""The page of a session: the picture of the image, the values, what the last edit changed, and a box for commands."""

import re
from html import escape
from pathlib import Path
from typing import Any

from line.line import Line
from picture.drawing import picture
from picture.style import style_in
from projects.assignments import pdo_words
from projects.faults import Refusal

# The most groups for which there is a button, the mandatory one counted.
FEW = 9

STYLE = style_in(Path(__file__).with_name("page.css"))
SCRIPT, PAGE = (Path(__file__).with_name(f"page.{kind}").read_text() for kind in ("js", "html"))


def page(line: Line, token: str, nonce: str) -> str:
    """The page of a session, which asks for its state by itself. Each button gives the command that it shows."""
    title, tasks = escape(line.name), " ".join(str(task) for task in sorted(used_tasks(line)))
    given = ["name", "program", *([f"cycle {tasks}"] if tasks else []), "owed", "assignments", "undo"]
    given += [f"connect {group.alias}" for group in line.project.groups[1:FEW]]
    buttons = "".join(f'<button type="button" data-command="{escape(one)}">{escape(one)}</button>' for one in given)
    parts = {"TITLE": title, "STYLE": STYLE, "TOKEN": token, "BUTTONS": buttons, "NONCE": nonce, "SCRIPT": SCRIPT}
    return re.sub(r"\b[A-Z]{5,}\b", lambda found: parts.get(found[0], found[0]), PAGE)


def used_tasks(line: Line) -> set[int]:
    """The tasks of all areas that the text declares."""
    return {area.task for slave, _ in line.project.slaves() for area in slave.areas}


def state(line: Line) -> dict[str, Any]:
    """What the page shows of a line."""
    try:
        view = line.view()
    except Refusal as refusal:
        return {"picture": escape(str(refusal)), "values": [], "assignments": [], "change": [], "words": ""}
    owed = "some" if view.owed is None else len(view.owed)
    words = f"Epoch {view.after.epoch}. Register blocks to write: {owed}. {line.replay.speed.capitalize()}."
    assignments = [(line.describer.slave(one.slave.station), f"0x{one.object:04x}", pdo_words(one.pdos)) for one in view.assigned.values()]
    return {
        "picture": picture(view),
        "values": line.rows([]),
        "assignments": assignments,
        "change": line.diff([]),
        "words": words,
    }

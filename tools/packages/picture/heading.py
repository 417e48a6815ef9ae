"""What is above and below the rows: the line and its edit, groups, legend, and what no datagram carries."""

from picture.bars import LOWER
from picture.elements import element, label, void
from picture.row_drawing import badge_at
from picture.states import Block, State
from picture.style import MARK_WORDS
from picture.views import View
from projects.records import Group
from projects.words import plural

LINE = 17
# A character of the running words is about so wide.
CHARACTER = 6.1
CHIP = 36
MORE = "; and {} more"


def listed(phrases: list[str], width: float, most: int) -> list[str]:
    """Phrases in lines that a width has room for, at most so many; the last one counts what was left out."""
    room, lines = int(width / CHARACTER), [""]
    for row, phrase in enumerate(cut(phrase, room) for phrase in phrases):
        joined = f"{lines[-1]}; {phrase}" if lines[-1] else phrase
        is_last = len(lines) == most and row + 1 < len(phrases)
        if len(joined) + (len(MORE.format(len(phrases))) if is_last else 0) <= room or not lines[-1]:
            lines[-1] = joined
        elif len(lines) < most:
            lines.append(phrase)
        else:
            lines[-1] += MORE.format(len(phrases) - row)
            break
    return lines


def cut(phrase: str, room: int) -> str:
    """A phrase, or as much of its front as there is room for."""
    return phrase if len(phrase) <= room else f"{phrase[: room - 1]}…"


class Words:
    """Lines of running words, one below the other."""

    def __init__(self, left: float, top: float, width: float) -> None:
        self.left, self.y, self.width, self.content = left, top, width - 2 * left, []

    def add(self, words: str, kind: str = "words") -> None:
        """A line."""
        self.y += LINE
        self.content.append(label(self.left, self.y, words, kind))

    def add_list(self, name: str, phrases: list[str], most: int = 2) -> None:
        """A name and the phrases after it, where there are any."""
        if not phrases:
            return
        indent = 118
        lines = listed(phrases, self.width - indent, most)
        self.y += LINE
        self.content.append(label(self.left, self.y, name, "words name"))
        for row, line in enumerate(lines):
            self.y += LINE if row else 0
            self.content.append(label(self.left + indent, self.y, line, "words"))


def group_words(group: Group) -> str:
    """A group with its slaves."""
    return f"{group.title()}, {plural(len(group.slaves), 'slave')}"


def is_present(group: Group, state: State) -> bool:
    """Whether a group is in the line; the mandatory one always is."""
    return group.alias == 0 or group.slaves[0].station in state.blocks


def heading(view: View, left: float, width: float) -> tuple[str, float]:
    """The markup above the rows, and where it ends."""
    words = Words(left, 10, width)
    words.add(f"{view.name}: the line in epoch {view.after.epoch}", "heading")
    if view.change:
        said = view.said_of_change()
        words.add(cut(view.change.words, int((width - 2 * left) / CHARACTER) - len(said)) + said)
    refused = [f"{asked}: {said}" for asked, said in view.answers if said.startswith("refused")]
    words.add_list("Refused", refused)
    groups = view.project.groups
    present = [group for group in groups if is_present(group, view.after)]
    words.add_list("Present", [group_words(group) for group in present])
    words.add_list("Absent", [group_words(group) for group in groups if group not in present])
    written = view.owed_blocks()
    differ = view.change and view.change.is_other_text
    words.add_list("Other blocks" if differ else "Blocks to write", block_phrases(written), 3)
    carried = {
        "data_present": " ".join(str(group.alias) for group in present),
        "data_written": " ".join(f"{station}/0x{block.register:04x}" for station, _, block in written),
    }
    chips, bottom = legend(view, left, words.y + 10, width)
    return "\n".join([element("g", *words.content, kind="head", **carried), chips]), bottom


def block_phrases(written: list[tuple[int, int, Block]]) -> list[str]:
    """The blocks that have to be written, slave by slave."""
    slaves = {}
    for station, _, block in written:
        slaves.setdefault(station, []).append(block.short())
    return [f"{station}: {', '.join(rows)}" for station, rows in slaves.items()]


def chip(kind: str, box: str | None, letter: str) -> str:
    """A sample of a box with its letter."""
    lower = LOWER[kind] if box == "band" else 0
    sample = void("rect", kind=box, x=0.0, y=float(lower), width=float(CHIP), height=float(15 - lower))
    return element("g", sample, label(CHIP / 2, 12 + lower / 4, letter, text_anchor="middle"), kind=f"legend {kind}")


def legend(view: View, left: float, top: float, width: float) -> tuple[str, float]:
    """What colours, letters and lines mean, and where it ends."""
    samples = [
        ("out", "band", "O", "output area, master to slave"),
        ("in", "band", "I", "input area, slave to master, lower"),
        ("out", "cell", "7", "variable, name or number over its bits"),
        ("gap", "cell", "–", "gap in an area"),
        ("unused", None, "", "bits of no area"),
        ("out", "band", "O ×9", "areas folded for want of room, their count"),
    ]
    content, x, y = [], left, top
    entries = [(chip(*sample[:3]), sample[3]) for sample in samples]
    if view.change:
        entries += [(badge_at(CHIP - 12, 1, mark), words) for mark, words in MARK_WORDS.items()]
    for drawn, words in entries:
        broad = CHIP + 8 + len(words) * CHARACTER + 18
        if x + broad > width - left and x > left:
            x, y = left, y + 20
        entry = [drawn, label(CHIP + 6, 11, words, "words")]
        content.append(element("g", *entry, transform=f"translate({x:.0f} {y:.0f})"))
        x += broad
    note = "Each datagram has a scale of its own, its bytes counted above it; bit 0 of a byte is at its left."
    content.append(label(left, y + 34, note, "quiet"))
    return element("g", *content, kind="legends"), y + 44


def footing(view: View, left: float, width: float, top: float) -> tuple[str, float]:
    """What is present and in no datagram, so that no slave is left out; and where the picture ends."""
    present = [slave for slave, _ in view.project.slaves() if slave.station in view.after.blocks]
    bare = [slave for slave in present if not slave.areas]
    empty = [
        (slave.station, area)
        for slave in present
        for area, fmmu in zip(slave.areas, view.after.blocks[slave.station][1::2])
        if not fmmu.is_active()
    ]
    words = Words(left, top - 8, width)
    words.add_list("No process data", [f"{slave.station} {slave.name}".strip() for slave in bare])
    unmapped = [f"{station} SM {area.sync_manager} ({area.direction})" for station, area in empty]
    words.add_list("Areas of 0 bits", unmapped)
    carried = {
        "data_bare": " ".join(str(slave.station) for slave in bare),
        "data_empty": " ".join(f"{station}/{area.number}" for station, area in empty),
    }
    return element("g", *words.content, kind="foot", **carried), words.y + 18

"""Reads a picture: the numbers that its elements carry or that are written, and where boxes are."""

import re

LETTERS = {"out": "O", "in": "I"}
# From these widths on, in pixels, an area and a variable must be named.
NAMED_AREA, NAMED_VARIABLE = 60, 70
NEAR = 0.02


class PictureReader:
    """Compares a picture with what its input requires."""

    def __init__(self, required, root):
        self.required, self.root, self.said = required, root, []
        self.found = {name: {"datagrams": {}, "areas": {}, "variables": {}, "parts": {}} for name in required.states()}
        self.tops = {}
        self.covered = {name: covered(state) for name, state in required.states().items()}

    def expect(self, what, wanted, found):
        """Says where something else is found than is wanted."""
        if wanted != found:
            self.said.append(f"{what}: {wanted!r} is wanted, {found!r} is found")

    def differences(self):
        """Everything that differs in the picture."""
        self.read_whole()
        for node in self.root.all(lambda node: "task-heading" in node.kinds()):
            self.read_parts(node)
        for node in self.root.all(lambda node: "datagram" in node.kinds()):
            self.read_datagram(node)
        for node in self.root.tagged("polygon"):
            self.read_way(node)
        for name, state in self.required.states().items():
            self.compare(name, state)
        for datagram, tops in self.tops.items():
            if len(tops) == 2 and tops["after"] < tops["before"]:
                self.said.append(f"datagram {datagram}: after stands above before")
        return self.said

    def read_whole(self):
        """Epochs, the edit and its answer, blocks to write, and slaves and areas that no datagram carries."""
        required, after = self.required, self.required.after
        self.expect("epoch", str(after.epoch), self.root.data("epoch"))
        before = str(required.before.epoch) if required.before else None
        self.expect("epoch before", before, self.root.data("epoch-before"))
        change = required.change
        for name in ("recut", "moved"):
            self.expect(name, change and getattr(change, name), self.root.data(name))
        self.expect("change", change and change.words, self.root.data("change"))
        head, foot = (self.root.all(lambda node: kind in node.kinds())[0] for kind in ("head", "foot"))
        written = {tuple(row.split("/")) for row in (head.data("written") or "").split()}
        self.expect("blocks to write", {(str(station), at) for station, at in required.written}, written)
        if change:
            self.expect("their count", change.moved or str(len(written)), str(len(written)))
            said = change.said
            lines = [line.removesuffix(said).rstrip("…") for line in head.words() if line.endswith(said)]
            self.expect("lines of the change", [True], [bool(line) and change.words.startswith(line) for line in lines])
        present = {str(required.records.aliases[station]) for station in after.present}
        self.expect("present groups", present | {"0"}, set(head.data("present").split()))
        bare = {str(station) for station in after.present if not required.records.areas[station]}
        self.expect("slaves without process data", bare, set(foot.data("bare").split()))
        empty = {f"{station}/{area}" for station, area in after.pairs if (station, area) not in after.areas}
        self.expect("areas of 0 bits", empty, set(foot.data("empty").split()))

    def states_of(self, node):
        """The states that an element stands for."""
        name = node.data("state")
        return list(self.required.states()) if name == "both" else [name]

    def read_parts(self, heading):
        """A task's name, and the bytes of its outputs and inputs, as they are carried and as they are written."""
        task = heading.number("task")
        name = self.required.records.tasks.get(task) or self.required.earlier.tasks.get(task, "")
        self.expect("name of a task", [f"Task {task} {name}".rstrip()], heading.words())
        for node in heading.all(lambda node: "parts" in node.kinds()):
            parts = node.number("outputs"), node.number("inputs")
            self.expect("parts", list(map(str, parts)), re.findall(r"\d+", node.words()[0]))
            for state in self.states_of(node):
                self.found[state]["parts"][heading.number("task")] = parts

    def read_datagram(self, node):
        """A row: its numbers, and all that is in it."""
        name = node.number("task"), node.number("datagram")
        address, length, expected = node.data("address"), node.number("length"), node.number("expected")
        written = [f"datagram {name[1]}", address, f"{length} byte{'' if length == 1 else 's'}"]
        written.append(f"working counter {expected}")
        if self.required.before:
            written.append({"both": "as before"}.get(node.data("state"), node.data("state")))
        for words in written:
            self.expect(f"written of datagram {name}", words, words if words in node.words() else node.words())
        for state in self.states_of(node):
            self.found[state]["datagrams"][name] = (int(address, 16), length, expected)
            self.tops.setdefault(name, {})[state] = min(float(rect.attributes["y"]) for rect in node.tagged("rect"))
        self.read_ruler(node)
        self.read_boxes(node, name, length)

    def read_ruler(self, row):
        """The numbers of the bytes: each is beside its byte's beginning."""
        ruler = next(node for node in row.nodes if "ruler" in node.kinds())
        for text in ruler.tagged("text"):
            wanted = row.number("left") + int(text.text()) * row.number("scale") + 3
            if abs(float(text.attributes["x"]) - wanted) > NEAR:
                self.said.append(f"byte {text.text()} of a ruler: {wanted} is wanted, {text.attributes['x']} is found")

    def read_boxes(self, row, name, length):
        """The boxes of a row: each to scale, areas and unused bits side by side, and so variables and gaps in areas."""
        upper, lower, areas = [], [], []
        for node in row.nodes:
            kind = node.kinds()[:1]
            if kind == ["area"] or kind == ["areas"] or kind == ["unused"]:
                upper.append(self.box(row, node))
            elif kind == ["variable"] or kind == ["variables"] or kind == ["gap"]:
                lower.append(self.box(row, node))
            if kind == ["area"] or kind == ["areas"]:
                areas.append(self.box(row, node))
                self.read_area(row, name, node)
            elif kind == ["variable"] or kind == ["variables"]:
                self.read_variable(row, name, node)
            elif kind == ["gap"]:
                self.read_gap(row, name, node)
        self.expect(f"bits of datagram {name}", [(0, length * 8)], joined(upper))
        self.expect(f"bits below the areas of datagram {name}", joined(areas), joined(lower))

    def box(self, row, node):
        """The bits of an element, whose box must be where they are."""
        bit, bits = node.number("bit"), node.number("bits")
        rect = next(child for child in node.nodes if child.tag == "rect")
        scale = row.number("scale") / 8
        x, width = float(rect.attributes["x"]), float(rect.attributes["width"])
        wanted = row.number("left") + bit * scale, bits * scale
        if abs(x - wanted[0]) > NEAR or abs(width - wanted[1]) > NEAR:
            self.said.append(f"box of bits {bit} to {bit + bits}: {wanted} is wanted, {(x, width)} is found")
        place = f": bit {bit} (byte {bit // 8}, bit {bit % 8}), {bits} bit{'' if bits == 1 else 's'}"
        self.expect(f"title with {place}", True, place in node.first("title").text())
        return bit, bit + bits

    def read_area(self, row, name, node):
        """An area, or a folded run of areas."""
        direction, mark = node.data("direction"), node.data("mark")
        self.expect("class of an area", [direction, mark], node.kinds()[1:])
        letters = [badge.text() for badge in node.nodes if "badge" in badge.kinds()]
        self.expect("letter of an area's mark", [] if mark == "kept" else [mark[0].upper()], letters)
        if folded := node.data("areas"):
            rows = [list(map(int, re.split("[/:]", words))) for words in folded.split()]
            ends = min(row[3] for row in rows), max(row[3] + row[4] for row in rows)
            self.expect("ends of areas", ends, (node.number("bit"), node.number("bit") + node.number("bits")))
        else:
            rows = [[node.number(word) for word in ("station", "area", "sync-manager", "bit", "bits")]]
        self.read_area_words(row, node, rows)
        for station, area, manager, bit, bits in rows:
            for state in self.states_of(row):
                self.read_whence(node, (station, area), state)
                self.found[state]["areas"][station, area] = (manager, direction, *name, bit, bits, mark)

    def read_whence(self, node, area, state):
        """Where a moved area was or will be, if that is written."""
        for text in (child for child in node.nodes if "whence" in child.kinds()):
            other = (self.required.before if state == "after" else self.required.after).areas[area]
            word = "from" if state == "after" else "to"
            wanted = f"{word} task {other[2]} datagram {other[3]} bit {other[4]}"
            self.expect(f"whence or whither of area {area}", wanted, text.text())

    def read_area_words(self, row, node, rows):
        """What is written in an area: its letter and station, or how many areas are folded."""
        letter, (station, _, manager, *_) = LETTERS[node.data("direction")], rows[0]
        words = [child.text() for child in node.nodes if child.tag == "text" and "whence" not in child.kinds()]
        if len(rows) > 1:
            stations = f"{letter} {station}…{rows[-1][0]}"
            allowed = [f"{stations}, {len(rows)} areas", stations, f"{letter} ×{len(rows)}"]
        else:
            short = f"{letter} {station} SM {manager}"
            records = self.required.records_in(row.data("state"))
            allowed = [f"{letter} {station}", short, f"{short} {records.shown_name(station)}"]
        if words or node.number("bits") * row.number("scale") >= NAMED_AREA * 8:
            self.expect(f"name of area {rows[0]}", True, len(words) == 1 and words[0] in allowed)

    def read_variable(self, row, name, node):
        """A variable, or a folded run of them."""
        if folded := node.data("variables"):
            rows = [words.split(":") for words in folded.split()]
            rows = [[*map(int, words[:3]), words[3]] for words in rows]
        else:
            rows = [[node.number(word) for word in ("variable", "bit", "bits")] + [node.data("mark")]]
        self.read_variable_words(row, node, [variable for variable, *_ in rows])
        for variable, bit, bits, mark in rows:
            inside = node.number("bit") <= bit and bit + bits <= node.number("bit") + node.number("bits")
            self.expect(f"variable {variable} inside its box", True, inside)
            for state in self.states_of(row):
                self.found[state]["variables"][variable] = (*name, bit, bits, node.kinds()[1], mark)

    def read_variable_words(self, row, node, numbers):
        """What is written in a variable's box: its number, or how many are folded, and its bits."""
        bits, mark = node.number("bits"), node.data("mark")
        self.expect(f"class of variable {numbers[0]}", mark, node.kinds()[2])
        records, letter = self.required.records_in(row.data("state")), mark[0].upper()
        names = [records.variable_names.get(numbers[0]) or str(numbers[0]), str(numbers[0])]
        if node.data("variables"):
            ends = f"{numbers[0]}…{numbers[-1]}"
            names = [f"{ends}, {len(numbers)} variables", ends] if numbers[1:] else ["1 variable"]
            names.append(f"×{len(numbers)}")
        widths = [str(bits), f"{letter} {bits}", letter]
        allowed = [[name, width] for name in names for width in widths]
        if bits * row.number("scale") < NAMED_VARIABLE * 8:
            allowed += [[], *([words] for words in names + widths)]
        self.expect(f"what is written of variable {numbers[0]}, one of {allowed}", True, node.words() in allowed)

    def read_gap(self, row, name, node):
        """A gap: no variable has a bit of it."""
        bit, bits = node.number("bit"), node.number("bits")
        for words in node.words():
            self.expect("written of a gap", True, words in ("gap", "–", str(bits)))
        for state in self.states_of(row):
            if not self.covered[state].isdisjoint((*name, own) for own in range(bit, bit + bits)):
                self.said.append(f"a variable stands in the gap at bit {bit} of datagram {name}")

    def read_way(self, node):
        """The band between two places of a moved area."""
        area = node.number("station"), node.number("area")
        xs = [float(point.split(",")[0]) for point in node.attributes["points"].split()]
        scale, left = node.number("scale") / 8, node.number("left")
        ends = []
        for state in (self.required.before, self.required.after):
            *_, bit, bits = state.areas[area]
            ends.append([left + bit * scale, left + (bit + bits) * scale])
        wanted = [*ends[0], *reversed(ends[1])]
        if any(abs(one - other) > NEAR for one, other in zip(wanted, xs)):
            self.said.append(f"way of area {area}: {wanted} is wanted, {xs} is found")

    def compare(self, name, state):
        """All of a state: nothing may lack, and nothing may be there besides."""
        required = self.required
        wanted = {
            "datagrams": state.datagrams,
            "parts": state.parts,
            "areas": {area: (*place, required.area_mark(area, name)) for area, place in state.areas.items()},
            "variables": {own: (*place, required.variable_mark(own, name)) for own, place in state.variables.items()},
        }
        for kind, rows in wanted.items():
            found = self.found[name][kind]
            for key in sorted(rows.keys() | found.keys()):
                self.expect(f"{name}, {kind}, {key}", rows.get(key), found.get(key))


def covered(state):
    """The bits that variables have, each with its task and datagram."""
    places = state.variables.values()
    return {(task, number, own) for task, number, bit, bits, _ in places for own in range(bit, bit + bits)}


def joined(intervals):
    """Intervals side by side are joined; where two overlap both stay."""
    ends = []
    for begin, end in sorted(intervals):
        if ends and ends[-1][1] == begin:
            ends[-1] = (ends[-1][0], end)
        else:
            ends.append((begin, end))
    return ends

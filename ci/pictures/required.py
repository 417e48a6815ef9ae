"""What a picture of an input must show, worked out of what `hotline` prints; nothing is shared with who draws it."""

import re
import subprocess
import tomllib
from dataclasses import dataclass
from pathlib import Path

# A question whose answer, which no other question has here, parts the answers about slaves.
MARK, MARKED = "show 8 0", "refused 8 NoSuchTask"
QUESTIONS = ("layout", "regs", "show", "place", "write", "send", "arrive", "read")
QUESTIONS += ("scan", "name", "program", "cycle", "poke", "peek", "post", "take", "view")


def run(program, text, commands):
    """The lines that the program prints."""
    given = text + "\n%%\n" + "\n".join(commands) + "\n"
    ran = subprocess.run([program], input=given.encode(), capture_output=True, timeout=60, check=True)
    return ran.stdout.decode().splitlines()


def opened(path):
    """The text and the edits of an input; a declaration has the lines of its document."""
    text, _, commands = path.read_text().partition("\n%%\n")
    edits = []
    for line in commands.splitlines():
        if edits and re.match("declare(?!.*\n%%$)", edits[-1], re.DOTALL):
            edits[-1] += "\n" + line
        elif line.strip() and line.split()[0] not in QUESTIONS:
            edits.append(line.strip())
    return text, edits


class Records:
    """Of the project text, and of the groups that edits declare, what a state is asked by: stations with their areas'
    variables, in declared order."""

    def __init__(self, text, edits):
        document = tomllib.loads(text)
        self.areas, self.homes, self.names, self.aliases, self.variable_names = {}, {}, {}, {}, {}
        self.tasks = {task["number"]: task["name"] for task in document.get("task", [])}
        groups = [document, *document.get("group", [])]
        groups += [tomllib.loads(words[7:-2])["group"][0] for words in edits if words.startswith("declare")]
        for group, slave in ((group, slave) for group in groups for slave in group.get("slave", [])):
            self.areas[slave["station"]] = slave.get("area", [])
            self.names[slave["station"]] = slave.get("name", "") or (group.get("name", "") if "alias" in group else "")
            self.aliases[slave["station"]] = group.get("alias", 0)
        for station, areas in self.areas.items():
            for row, area in enumerate(areas):
                for pdo in area.get("pdo", []):
                    variables = [variable for variable, _ in pdo["entries"]]
                    self.homes |= {variable: (station, row) for variable in variables}
                    self.variable_names |= dict(zip(variables, pdo.get("names", [])))
        self.homes.pop(0, None)

    def shown_name(self, station):
        """A slave's name, as a document may have it."""
        return "".join(sign if sign.isprintable() else "\ufffd" for sign in self.names[station])


class State:
    """A state in the program's words: each thing's name with what the program says of it."""

    def __init__(self, program, text, records, edits):
        questions = ["layout", *(f"regs {station}\n{MARK}" for station in records.areas)]
        questions += [f"place {variable}" for variable in records.homes]
        lines = run(program, text, [*edits, *questions])[len(edits) :]
        first_place = len(lines) - len(records.homes)
        self.read_layout([line for line in lines[:first_place] if re.match("epoch|task|datagram", line)])
        self.read_blocks(records, "\n".join(lines[:first_place]).split(MARKED))
        self.read_places([line.split() for line in lines[first_place:] if line != "none"])

    def read_layout(self, lines):
        """Epoch, parts of the tasks, and datagrams."""
        self.epoch, self.parts, self.datagrams, task = int(lines[0].split()[1]), {}, {}, None
        for words in map(str.split, lines[1:]):
            if words[0] == "task":
                task = int(words[1])
                self.parts[task] = (int(words[3]), int(words[4]))
            else:
                self.datagrams[task, int(words[1])] = (int(words[3], 16), int(words[5]), int(words[7]))

    def read_blocks(self, records, printed):
        """Each present slave's blocks by register, and where the FMMUs map its areas."""
        self.blocks, self.areas, self.pairs, self.present = {}, {}, {}, set()
        for station, lines in zip(records.areas, printed):
            rows = [line for line in lines.splitlines() if re.match("sm|fmmu|refused", line)]
            if rows[:1] == ["refused 6 Absent"]:
                continue
            self.present.add(station)
            for at, line in enumerate(rows):
                name, register, data = re.fullmatch("(.*) at (.*): (.*)", line).groups()
                self.blocks[station, register] = (name, data)
                self.pairs.setdefault((station, at // 2), []).append((station, register))
                if name.startswith("fmmu"):
                    self.read_fmmu((station, at // 2), rows[at - 1].split()[1], bytes.fromhex(data))

    def read_places(self, lines):
        """Of each variable task, datagram, first bit, bits and direction."""
        self.variables = {int(words[1]): (*(int(words[at]) for at in (3, 5, 7, 9)), words[11]) for words in lines}

    def read_fmmu(self, area, manager, data):
        """Where an FMMU maps an area, if it does: sync manager, direction, task, datagram, first bit and bits."""
        if data[12] == 0:
            return
        logical = int.from_bytes(data[0:4], "little")
        for (task, number), (address, length, _) in self.datagrams.items():
            if address <= logical < address + length:
                first = (logical - address) * 8 + data[6]
                end = (logical - address + int.from_bytes(data[4:6], "little") - 1) * 8 + data[7] + 1
                direction = "out" if data[11] == 2 else "in"
                self.areas[area] = (int(manager), direction, task, number, first, end - first)


@dataclass
class Change:
    """What must be said to lie between the two states: in words, after them, and the numbers of a single answer."""

    words: str
    said: str
    recut: str | None = None
    moved: str | None = None


class Line:
    """An input: its text, its edits, what the program answered, and which edits it accepted."""

    def __init__(self, program, path):
        self.program = program
        self.text, self.edits = opened(path)
        self.said = run(program, self.text, self.edits)
        self.accepted = [row for row, line in enumerate(self.said) if line.startswith("epoch")]

    def state(self, count):
        """The records and the state after so many accepted edits."""
        edits = self.edits[: self.accepted[count]] if count < len(self.accepted) else self.edits
        accepted = [self.edits[row] for row in self.accepted[:count]]
        records = Records(self.text, accepted)
        state = State(self.program, self.text, records, edits)
        state.lists = self.lists(records, state, accepted)
        return records, state

    @staticmethod
    def lists(records, state, accepted):
        """The PDOs that the sync managers of the present slaves are to be assigned, by station address and CoE object."""
        remaps = {tuple(words[1:3]): words[3:] for words in map(str.split, accepted) if words[0] == "remap"}
        remaps = {tuple(int(word, 0) for word in name): [int(word, 0) for word in pdos] for name, pdos in remaps.items()}
        return {
            (station, f"0x{0x1C10 + area['sm']:04x}"): remaps.get((station, row), area["assigned"])
            for station in state.present
            for row, area in enumerate(records.areas[station])
        }


class Required:
    """The state after the last accepted edit; beside it the one before, or the state of an epoch or of another input."""

    def __init__(self, program, path, since=None, against=None):
        line = Line(program, path)
        count = len(line.accepted)
        self.answers = [(words.split("\n")[0], said) for words, said in zip(line.edits, line.said)]
        self.records, self.after = line.state(count)
        self.earlier, self.before, self.change, self.written = self.records, None, None, set()
        if against:
            other = Line(program, against)
            self.earlier, self.before = other.state(len(other.accepted))
            self.change = Change(f"against {Path(against).stem}", f": its line in epoch {self.before.epoch}")
        elif count:
            first = count - 1 if since is None else since
            self.earlier, self.before = line.state(first)
            self.change = self.edits_between([self.answers[row] for row in line.accepted[first:]])
        if self.before:
            old = self.before.blocks
            self.written = {name for name, block in self.after.blocks.items() if old.get(name) != block}

    def edits_between(self, answers):
        """What must be said of edits with their answers."""
        words = "; ".join(asked for asked, _ in answers)
        said = f": from epoch {self.before.epoch} to epoch {self.after.epoch}"
        if len(answers) > 1:
            return Change(words, said)
        recut, moved = answers[0][1].split()[3::2]
        return Change(words, f"{said}, recut {recut}, moved {moved}", recut, moved)

    def records_in(self, state):
        """The records of a state by its name."""
        return self.earlier if state == "before" else self.records

    def states(self):
        """The states by name."""
        return {"after": self.after} if self.before is None else {"before": self.before, "after": self.after}

    def area_mark(self, area, state):
        """The mark of an area in a state: new, gone, moved where a block of it is written, or kept."""
        if self.before is None:
            return "kept"
        other = self.before if state == "after" else self.after
        if area not in other.areas:
            return "new" if state == "after" else "gone"
        return "moved" if self.written.intersection(self.after.pairs[area]) else "kept"

    def variable_mark(self, variable, state):
        """The mark of a variable in a state: new, gone, moved where its place is another, or kept."""
        if self.before is None:
            return "kept"
        places = [found.variables.get(variable) for found in (self.before, self.after)]
        if None in places:
            return "new" if state == "after" else "gone"
        return "kept" if places[0] == places[1] else "moved"

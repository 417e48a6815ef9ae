"""Reads the tables of a report: what their rows carry, and what is written in their cells."""


class ReportReader:
    """Compares the tables of a report with what its input requires."""

    def __init__(self, required, root):
        self.required, self.root, self.said = required, root, []

    def expect(self, what, wanted, found):
        """Says where something else is found than is wanted."""
        if wanted != found:
            self.said.append(f"{what}: {wanted!r} is wanted, {found!r} is found")

    def differences(self):
        """Everything that differs in the tables."""
        self.compare("datagrams", self.datagrams())
        self.compare("variables", self.variables())
        self.compare("blocks", self.blocks())
        self.compare("assignments", self.assignments())
        outer = [node for node in self.root.tagged("script") + self.root.tagged("img") if "src" in node.attributes]
        self.expect("elements from elsewhere", 0, len(outer + self.root.tagged("link")))
        return self.said

    def rows(self, name):
        """The rows of a table, each as its element and its cells' words by the heads of their columns."""
        found = []
        for table in (node for node in self.root.tagged("table") if node.attributes.get("id") == name):
            columns = [node.text() for node in table.first("thead").tagged("th")]
            self.expect(f"change first in {name}", bool(self.required.before), columns[0] == "change")
            for row in table.first("tbody").nodes:
                found.append((row, dict(zip(columns, (cell.text() for cell in row.nodes)))))
        return found

    def compare(self, name, wanted):
        """A table by what is wanted of it: for each row's key the row's mark, and what is written in it by columns."""
        found = {row.data(name.removesuffix("s")): (row, cells) for row, cells in self.rows(name)}
        self.expect(f"rows of {name}", sorted(wanted), sorted(found))
        for key in wanted.keys() & found.keys():
            row, cells = found[key]
            mark, written = wanted[key]
            self.expect(f"mark in {name}, {key}", [mark], row.kinds())
            self.expect(f"written in {name}, {key}", written, {own: cells.get(own) for own in written})

    def pair(self, kind, key):
        """What is required of something before and after; without an edit both are the same."""
        after = getattr(self.required.after, kind).get(key)
        return (getattr(self.required.before, kind).get(key) if self.required.before else after), after

    def keys(self, kind):
        """All that there is of a kind in one of the states."""
        return {key for state in self.required.states().values() for key in getattr(state, kind)}

    def changes(self, before, after, written):
        """The mark of a row, and its words where there is an edit."""
        mark = "kept" if before == after else "new" if before is None else "gone" if after is None else "moved"
        if self.required.before:
            written["change"] = "" if mark == "kept" else f"{mark[0].upper()} {mark}"
        return mark

    def changed_datagrams(self):
        """The datagrams in which an area or a variable is marked."""
        required, changed = self.required, set()
        for name, state in required.states().items():
            changed |= {place[2:4] for area, place in state.areas.items() if required.area_mark(area, name) != "kept"}
            changed |= {place[:2] for own, place in state.variables.items() if required.variable_mark(own, name) != "kept"}
        return changed

    def datagrams(self):
        """Of each datagram address, length and expected working counter; and that it is marked by its contents too."""
        wanted, changed = {}, self.changed_datagrams()
        for key in self.keys("datagrams"):
            before, after = self.pair("datagrams", key)
            numbers = [str(number) for number in after[1:]] if after else ["", ""]
            written = {"task": str(key[0]), "datagram": str(key[1]), "bytes": numbers[0], "working counter": numbers[1]}
            written["logical address"] = f"0x{(after or before)[0]:08x}"
            if self.required.before:
                old = [str(number) for number in before[1:]] if before else ["", ""]
                written |= {"bytes before": old[0], "working counter before": old[1]}
            mark = self.changes(before, after, written)
            if mark == "kept" and key in changed:
                mark, written["change"] = "moved", "M moved"
            wanted[f"{key[0]}/{key[1]}"] = (mark, written)
        return wanted

    def variables(self):
        """Of each variable its place, by bits, bytes and logical address."""
        wanted = {}
        for key in self.keys("variables"):
            before, after = self.pair("variables", key)
            task, datagram, bit, bits, direction = after or before
            address = (self.required.after if after else self.required.before).datagrams[task, datagram][0]
            written = {"variable": str(key), "bits": str(bits), "task": str(task), "datagram": str(datagram)}
            written |= {"first bit": str(bit), "byte.bit": f"{bit // 8}.{bit % 8}"}
            written |= {"direction": "O output" if direction == "out" else "I input"}
            written |= {"logical address": f"0x{address + bit // 8:08x}"}
            records = self.required.records_in("after" if after else "before")
            station = records.homes[key][0]
            written |= {"station address": str(station), "alias": str(records.aliases[station])}
            written["slave"] = records.shown_name(station)
            if self.required.records.variable_names or self.required.earlier.variable_names:
                written["name"] = records.variable_names.get(key, "")
            if self.required.before:
                written["place before"] = "task {} datagram {} bit {}".format(*before[:3]) if before else ""
            wanted[str(key)] = (self.changes(before, after, written), written)
        return wanted

    def assignments(self):
        """Of each sync manager of a slave the PDOs that it is to be assigned."""
        wanted, shown = {}, lambda pdos: "" if pdos is None else " ".join(f"0x{pdo:04x}" for pdo in pdos) or "none"
        for key in self.keys("lists"):
            before, after = self.pair("lists", key)
            written = {"station address": str(key[0]), "object": key[1], "PDOs": shown(after)}
            if self.required.before:
                written["PDOs before"] = shown(before)
            wanted[f"{key[0]}/{key[1]}"] = (self.changes(before, after, written), written)
        return wanted

    def blocks(self):
        """Of each register block its bytes."""
        wanted = {}
        for key in self.keys("blocks"):
            before, after = self.pair("blocks", key)
            kind, number = (after or before)[0].split()
            name = f"sync manager {number}" if kind == "sm" else f"FMMU {number}"
            written = {"station address": str(key[0]), "register": key[1], "block": name}
            written["bytes"] = after[1] if after else ""
            if self.required.before:
                written["bytes before"] = before[1] if before else ""
            wanted[f"{key[0]}/{key[1]}"] = (self.changes(before, after, written), written)
        return wanted

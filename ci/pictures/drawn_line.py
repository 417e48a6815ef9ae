#!/usr/bin/env -S python3 -B
"""Draws an input of `hotline` with 2,048 slaves from a seed: a mandatory group, and modules that dock in turn.

    drawn_line.py SEED    the project and the commands; the module that is first on the line docks last
"""

import random
import sys

MODULES, SLAVES_IN_MODULE, SLAVES = 40, 12, 2048
# What a slave may be: its name, and of each area the direction, the task and the entries of its PDOs in bits; a
# negative number is a gap.
KINDS = [
    ("coupler", []),
    ("two valves", [("out", 1, [[1], [1]])]),
    ("four outputs", [("out", 1, [[1], [1], [1], [1]])]),
    ("eight outputs", [("out", 2, [[1, 1, 1, 1, 1, 1, 1, 1]])]),
    ("two switches", [("in", 1, [[1], [1]])]),
    ("eight inputs", [("in", 2, [[1, 1, 1, 1, 1, 1, 1, 1]])]),
    ("sixteen inputs and outputs", [("out", 1, [[1] * 12 + [-4]]), ("in", 1, [[1] * 16])]),
    ("four analog inputs", [("in", 3, [[1, 1, -6, 1, -7, 16]] * 4)]),
    ("two analog outputs", [("out", 3, [[16], [16]])]),
    ("encoder", [("in", 0, [[16, 32, 32]])]),
    ("drive", [("out", 0, [[16, 32], [16, 16, -16]]), ("in", 0, [[16, 32], [16, 16, 8, -8]])]),
    ("inverter", [("out", 4, [[16, 16]]), ("in", 4, [[16, 16, 16]])]),
    ("gateway", [("out", 5, [[64] * 8]), ("in", 5, [[64] * 12, [-64] * 4])]),
    ("scale <1 kg & its dose\\u0007", [("in", 6, [[32, 3, -5]]), ("out", 6, [[4]])]),
]
WEIGHTS = [6, 6, 10, 9, 7, 9, 8, 7, 6, 6, 12, 5, 1, 3]


class Drawn:
    """What was drawn so far: lines of text, and the next station address and variable."""

    def __init__(self, seed):
        self.random = random.Random(seed)
        self.lines, self.station, self.variable = [], 1000, 0

    def entry(self, bits):
        """An entry: a new variable, or a gap."""
        if bits < 0:
            return [0, -bits]
        self.variable += 1 + self.random.randrange(3)
        return [self.variable, bits]

    def area(self, array, row, direction, task, pdos):
        """An area, at the sync manager 2 or a later one, with all of its PDOs assigned."""
        base = 0x1600 if direction == "out" else 0x1A00
        offered = [
            f"{{ index = {base + pdo}, entries = {[self.entry(bits) for bits in entries]} }}"
            for pdo, entries in enumerate(pdos)
        ]
        self.lines += [f"[[{array}.area]]", f"sm = {2 + row}", f'dir = "{direction}"', f"phys = {0x1100 + 0x400 * row}"]
        self.lines += [f"task = {task}", f"assigned = {[base + pdo for pdo in range(len(pdos))]}"]
        self.lines += [f"pdo = [{', '.join(offered)}]"]

    def slave(self, array):
        """A slave of a drawn kind."""
        name, areas = self.random.choices(KINDS, WEIGHTS)[0]
        self.station += 1 + self.random.randrange(4)
        self.lines += [f"[[{array}]]", f'name = "{name}"', f"station = {self.station}"]
        for row, area in enumerate(areas):
            self.area(array, row, *area)

    def module(self, alias):
        """A group that docks."""
        self.lines += ["[[group]]", f'name = "module {alias}"', f"alias = {alias}"]
        for _ in range(SLAVES_IN_MODULE):
            self.slave("group.slave")


def main(seed):
    """Writes the drawn input."""
    drawn = Drawn(int(seed))
    for _ in range(SLAVES - MODULES * SLAVES_IN_MODULE):
        drawn.slave("slave")
    for alias in range(1, MODULES + 1):
        drawn.module(alias)
    commands = [f"connect {alias}" for alias in [*range(2, MODULES + 1), 1]]
    print("\n".join([*drawn.lines, "%%", *commands]))


main(sys.argv[1])

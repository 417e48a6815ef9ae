"""The tool changer of the examples with names, and its day at a prompt as a person would give it."""

import re
from pathlib import Path

EXAMPLES = Path(__file__).resolve().parents[2] / "examples"
ENTRIES = re.compile(r"entries = (\[(?:\[\d+, \d+\](?:, )?)+\])")
ENTRY = re.compile(r"\[(\d+), \d+\]")
NAMES = {
    **{1: "control_x", 2: "target_x", 11: "status_x", 12: "position_x", 21: "control_y", 22: "target_y", 23: "mode_y"},
    **{41: "lamp", 51: "door", 52: "guard", 101: "grip", 102: "release", 111: "closed", 112: "opened", 113: "pressure"},
}
TASKS = '[[task]]\nnumber = 0\nname = "motion"\n\n[[task]]\nnumber = 1\nname = "slow"\n\n'
# A command at the prompt, and what must be among the words of its answer. The values are those that the stored run of the
# day views: `epoch 0 var 12 value 997`, `epoch 1 var 113 value 600` and so on.
DAY = [
    ("cycle motion slow", "refused 17 Unprogrammed 12"),
    ("name", "named 4"),
    ("program", "written 12 owed 0"),
    ('poke "axis X" 0x1180 3706e5030000   # X is at 997', "poked"),
    ('poke "axis Y" 0x1180 3706ce070000', "poked"),
    ('poke "inputs and outputs of the machine" 0x1080 03', "poked"),
    ("get position_x", "position_x = no good answer in this epoch"),
    ("set control_x=0x000f target_x=1200 target_y=2500 mode_y=8 lamp=1", "target_x = 1200, 0x000004b0"),
    ("cycle motion slow", "task 1 slow datagram 0: inputs"),
    ("get position_x", "position_x = 997, 0x000003e5"),
    ("get guard", "guard = 1, 0x1"),
    ('peek "axis X" 0x1100 6', "mem 0x1100: 0f 00 b0 04 00 00"),
    ("set target_x=-1300", "target_x = 4294965996, signed -1300, 0xfffffaec"),
    ("get control_x", "control_x = 15, 0x000f"),
    ("cost connect gripper", "5 round trips before any task is sent (0 are owed now)"),
    ("cost disconnect gripper", "would be answered: refused 3 NotPresent"),
    ("connect gripper", "epoch 1 recut 1 moved 5"),
    ("diff", "pressure: none -> task 1 datagram 0 bit 32"),
    ("get position_x", "position_x = no good answer in this epoch"),
    ("cycle motion", "refused 17 Unprogrammed 5"),
    ("program", "first of them: slave 2001 gripper, sync manager 2"),
    ("owed", "4 register blocks are owed"),
    ("name", "named 5"),
    ("program", "written 4 owed 0"),
    ("poke gripper 0x1180 015802", "poked"),
    ("set grip=1", "grip = 1, 0x1"),
    ("set grip=2", "? TooWide: 2 is over 1"),
    ("set closed=1", "? IsInput: closed comes from a slave"),
    ("set gripp=1", "? UnknownName: no variable is called gripp"),
    ("set pressure", "? Malformed: pressure isn't NAME=VALUE"),
    ("conect gripper", "? UnknownCommand: conect"),
    ("cycle motion slow", "task 0 motion datagram 0: inputs"),
    ("get position_x", "position_x = 997,"),
    ("get pressure", "pressure = 600, 0x0258"),
    ("view motion pressure", "refused 3 OtherTask"),
    ("peek gripper 0x1100 1", "mem 0x1100: 01"),
    ("regs coupler", "slave 1001 coupler has no process data"),
    ("undo", "undone: cycle 0 1"),
    ("get pressure", "pressure = no good answer in this epoch"),
    ("cycle motion slow", "inputs"),
    ("get pressure", "pressure = 600,"),
    ("poke gripper 0x060c 00", "poked"),
    ("poke gripper 0x061c 00", "poked"),
    ("cycle motion slow", "task 1 slow datagram 0: wrong count, expected 6, got 3"),
    ("disconnect gripper", "epoch 2 recut 1 moved 1"),
    ("get pressure", "pressure = not in the line"),
]


def named(text: str) -> str:
    """The project with a list of names beside each list of entries that has one."""

    def with_names(found: re.Match[str]) -> str:
        names = [NAMES.get(int(number), "") for number in ENTRY.findall(found[1])]
        return found[0] + (f", names = {str(names).replace(chr(39), chr(34))}" if any(names) else "")

    # An inline table takes a list of names after a comma; below a header it has a line of its own.
    lines = [ENTRIES.sub(with_names, line) for line in text.splitlines()]
    return TASKS + "\n".join(line.replace(", names", "\nnames") if line.startswith("entries") else line for line in lines) + "\n"


def named_changer() -> str:
    """The tool changer's project with names."""
    return named((EXAMPLES / "tool_changer.toml").read_text())

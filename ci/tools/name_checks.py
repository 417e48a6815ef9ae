"""Names: what is printed of them, what is found by them, and each fault with its line."""

import shutil
import subprocess
from collections.abc import Callable

from checks import Checks

from projects.faults import Refusal
from projects.names import Names, names_of
from projects.records import read_project
from projects.toml import read_toml

TEXT = """\
slave = [
  { name = "axis X", station = 1002, area = [
    { sm = 2, dir = "out", phys = 0x1100, task = 0, assigned = [0x1600], pdo = [
      { index = 0x1600, entries = [[1, 16], [0, 8], [2, 32]], names = ["x_control", "", "x_Target"] },
      { index = 0x1601, entries = [[3, 1], [4, 1]], names = [
        "",
        "_brake2",
      ] },
    ] },
  ] },
]

[[task]]
number = 1
name = "slow tasks"

[[group]]
name = "gripper 2"
alias = 100

[[group.slave]]
station = 2001

[[group.slave.area]]
sm = 3
dir = "in"
phys = 0x1180
task = 1
assigned = []
pdo = [{ index = 0x1a00, entries = [[5, 12]], names = ["closed"] }]
"""
C = """\
/* Made by tools/names of a_cell: the numbers of variables, slaves, groups and tasks by name. */
#ifndef A_CELL_NAMES_H
#define A_CELL_NAMES_H

#define VAR_X_CONTROL 1u /* output, 16 bits, slave 1002, PDO 0x1600, task 0 */
#define VAR_X_TARGET 2u /* output, 32 bits, slave 1002, PDO 0x1600, task 0 */
#define VAR__BRAKE2 4u /* output, 1 bit, slave 1002, PDO 0x1601, task 0 */
#define VAR_CLOSED 5u /* input, 12 bits, slave 2001, PDO 0x1a00, task 1 */
#define SLAVE_AXIS_X 1002u /* station address */
#define GROUP_GRIPPER_2 100u /* alias */
#define TASK_SLOW_TASKS 1u /* task */
#define ASSIGNED_1002_1C12 {0x1600u} /* axis X, object 0x1c12 */
#define ASSIGNED_1002_1C12_COUNT 1u
#define ASSIGNED_2001_1C13 {0} /* gripper 2, object 0x1c13 */
#define ASSIGNED_2001_1C13_COUNT 0u

#endif
"""
RUST = """\
//! Made by tools/names of a_cell: the numbers of variables, slaves, groups and tasks by name.
#![allow(dead_code)]

pub const VAR_X_CONTROL: u32 = 1; // output, 16 bits, slave 1002, PDO 0x1600, task 0
pub const VAR_X_TARGET: u32 = 2; // output, 32 bits, slave 1002, PDO 0x1600, task 0
pub const VAR__BRAKE2: u32 = 4; // output, 1 bit, slave 1002, PDO 0x1601, task 0
pub const VAR_CLOSED: u32 = 5; // input, 12 bits, slave 2001, PDO 0x1a00, task 1
pub const SLAVE_AXIS_X: u16 = 1002; // station address
pub const GROUP_GRIPPER_2: u16 = 100; // alias
pub const TASK_SLOW_TASKS: u8 = 1; // task
"""
PYTHON = {"VAR_X_CONTROL": 1, "VAR_X_TARGET": 2, "VAR__BRAKE2": 4, "VAR_CLOSED": 5}
PYTHON |= {"SLAVE_AXIS_X": 1002, "GROUP_GRIPPER_2": 100, "TASK_SLOW_TASKS": 1}

# What is changed in the text, into what, the fault that it then has, and on which line of the text.
FAULTS = [
    ('"x_control", "", "x_Target"', '"x_control", ""', "NamesLength", 4),
    ('"x_control", "", "x_Target"', '"x_control", "", "x_Target", ""', "NamesLength", 4),
    ('["closed"]', '"closed"', "NamesKind", 30),
    ('["closed"]', "[1]", "NamesKind", 30),
    ('"_brake2"', '"X_CONTROL"', "RepeatedName", 7),
    ('["closed"]', '["x_control"]', "RepeatedName", 30),
    ('"_brake2"', '"2brake"', "NoIdentifier", 7),
    ('"closed"', '"is closed"', "NoIdentifier", 30),
    ('"closed"', '"geöffnet"', "NoIdentifier", 30),
    ('"x_control", "", "x_Target"', '"x_control", "gap", "x_Target"', "NamedGap", 4),
    ("number = 1", "number = 8", "NoSuchTask", 13),
    ("number = 1", "number = true", "NoSuchTask", 13),
    ("[[task]]", "[task]", "NoSuchTask", 13),
    ("[[group]]", '[[task]]\nnumber = 1\nname = "other"\n[[group]]', "RepeatedTask", 17),
]
# The same of names for people, which are wrong only as constants.
CONSTANT_FAULTS = [
    ("[[group.slave]]", '[[group.slave]]\nname = "AXIS-x"', "RepeatedName", 22),
    ('"gripper 2"', '"%"', "NoIdentifier", 18),
    ('"slow tasks"', '"…"', "NoIdentifier", 15),
]
BROKEN = [
    ("station = 2001", "", "MissingField", 21),
    ("station = 2001", 'station = "x"', "MissingField", 22),
    ('dir = "in"', 'dir = "IN"', "OutOfRange", 26),
    ("[[5, 12]]", "[[5]]", "MissingField", 30),
    ("[[5, 12]]", "[5]", "MissingField", 30),
    ("assigned = []", "assigned = ]", "NotToml", None),
]


def check(checks: Checks) -> None:
    """All checks of names."""
    path = checks.file("a cell.toml", TEXT)
    for language, wanted in (("c", C), ("rust", RUST)):
        ended = checks.tool("names", path, f"--{language}")
        checks.equal(f"constants in {language}", (0, wanted), (ended.status, ended.said))
    constants: dict[str, object] = {}
    exec(checks.tool("names", path, "--python").said, constants)
    checks.equal("constants in Python", PYTHON, {name: value for name, value in constants.items() if name[0] != "_"})
    ended = checks.tool("names", "-", "--c", given=TEXT.encode() + b"%%\nlayout\n")
    checks.equal("names of an input on standard input", 0, ended.status)
    compiled(checks, "cc", C, "names.h", ["-fsyntax-only", "-Werror", "-x", "c"])
    options = ["--crate-type", "lib", "--emit", "metadata", "--out-dir", checks.scratch]
    compiled(checks, "rustc", RUST, "names.rs", options)
    check_program(checks)
    check_lookups(checks)
    for old, new, kind, line in FAULTS + CONSTANT_FAULTS + BROKEN:
        path = checks.file("wrong.toml", TEXT.replace(old, new, 1))
        checks.refused(f"names, {old} as {new}", checks.tool("names", path, "--c"), kind, line)
    longest = checks.file("long.toml", f"{TEXT}#".ljust(4_194_304))
    checks.equal("names of the longest input", 0, checks.tool("names", longest, "--c").status)
    checks.refused(
        "names of a longer one",
        checks.tool("names", checks.file("longer.toml", " " * 4_194_305), "--c"),
        "TooLong",
    )
    checks.equal("names without a language", 2, checks.tool("names", path).status)
    checks.equal("names of no file", 2, checks.tool("names", checks.scratch / "absent", "--c").status)
    checks.equal("help of names", 0, checks.tool("names", "--help").status)


def compiled(checks: Checks, compiler: str, text: str, name: str, options: list[object]) -> None:
    """Constants as a compiler takes them, where it is installed."""
    if shutil.which(compiler):
        run = subprocess.run([compiler, *options, checks.file(name, text)], capture_output=True, timeout=60)
        checks.equal(f"{compiler} over {name}", (0, b""), (run.returncode, run.stderr))


def check_program(checks: Checks) -> None:
    """The program ignores names: it configures the same line without them."""
    plain = TEXT.replace("name", "label")
    commands = b"\n%%\nlayout\nregs 1002\nconnect 100\nregs 2001\nplace 1\n"
    wanted = checks.hotline(plain.encode() + commands)
    checks.equal("a line without names", 0, wanted[0])
    checks.equal("a line with names", wanted, checks.hotline(TEXT.encode() + commands))


def check_lookups(checks: Checks) -> None:
    """What a name or a number finds, and what finds nothing."""
    names = names_of(read_project(read_toml(TEXT.encode()), []))
    target = names.variable("X_TARGET")
    found = (target.number, target.bits, target.direction, target.task, target.station, target.alias)
    checks.equal("a variable by its name", (2, 32, "out", 0, 1002, 0), found)
    closed = names.variable("0x5")
    found = (closed.name, closed.bits, closed.direction, closed.task, closed.station, closed.alias)
    checks.equal("a variable by its number", ("closed", 12, "in", 1, 2001, 100), found)
    checks.equal("a variable without a name", (3, ""), (names.variable("3").number, names.variable("3").name))
    stations = names.station("axis X"), names.station("2001")
    checks.equal("stations and aliases by names", (1002, 2001, 100), (*stations, names.alias("gripper 2")))
    checks.equal("tasks by names", (1, 7), (names.task("slow tasks"), names.task("7")))
    for label, find, word in (
        ("variable", names.variable, "x"),
        ("variable", names.variable, "6"),
        ("station", names.station, "axis"),
        ("alias", names.alias, "0"),
        ("task", names.task, "8"),
        ("task", names.task, ""),
    ):
        checks.equal(f"no {label} {word}", "UnknownName" if word else "RepeatedName", kind_of(find, word))
    checks.equal("faults of right names", [], Names(read_project(read_toml(TEXT.encode()), [])).faults)


def kind_of(find: Callable[[str], object], word: str) -> str:
    """The kind of the refusal with which something isn't found."""
    try:
        return f"found {find(word)}"
    except Refusal as refusal:
        return str(refusal).split(":")[0]

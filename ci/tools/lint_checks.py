"""What lint finds: nothing in the examples, and each planted mistake with its kind and its line."""

from checks import TOOLS, Checks

EXAMPLES = TOOLS.parent / "examples"
CHECK = TOOLS.parent / "crates/projectcheck/out/projectcheck"
TEXT = """\
[[task]]
number = 1
name = "tools"

[[slave]]
name = "axis"
station = 1002

[[slave.area]]
sm = 2
dir = "out"
phys = 0x1100
task = 0
assigned = [0x1600]
pdo = [
  { index = 0x1600, entries = [[1, 16], [2, 32]], names = ["control", "target"] },
  { index = 0x1601, entries = [[3, 64]] },
]

[[slave.area]]
sm = 3
dir = "in"
phys = 0x1180
task = 0
assigned = [0x1a00]
pdo = [{ index = 0x1a00, entries = [[11, 16], [12, 32]] }]

[[group]]
name = "gripper"
alias = 100

[[group.slave]]
station = 2001

[[group.slave.area]]
sm = 2
dir = "out"
phys = 0x1100
task = 1
assigned = [0x1600]
pdo = [{ index = 0x1600, entries = [[101, 8]] }]
"""
# What is planted: a piece of the text, what replaces it, and the findings, each with its line.
PLANTED = [
    ("[[slave]]", "[[slaves]]", [(5, "UnknownKey"), (9, "MissingField")]),
    ("[[task]]", "[[tasks]]", [(1, "UnknownKey")]),
    ("[[group]]", "[[groups]]", [(28, "UnknownKey"), (32, "MissingField")]),
    ("station = 1002", "station = 1002\nvendor = 2", [(8, "UnknownKey")]),
    ("[[slave.area]]", "[[slave.areas]]", [(9, "UnknownKey")]),
    ("alias = 100", "alias = 100\nalais = 1", [(31, "UnknownKey")]),
    ("sm = 3", "sm = 3\nsync_manager = 3", [(22, "UnknownKey")]),
    ("pdo = [{ index = 0x1a00", "pdo = [{ indx = 1, index = 0x1a00", [(26, "UnknownKey")]),
    ("number = 1", "number = 1\nperiod = 2", [(3, "UnknownKey")]),
    ("[[task]]", 'title = "x"\n[[task]]', [(1, "UnknownKey")]),
    ("[[group.slave.area]]\nsm = 2", "[[slave.area]]\nsm = 4", [(35, "OverlappingAreas"), (35, "StrayArea")]),
    (
        "[[group.slave.area]]\nsm = 2\ndir = \"out\"\nphys = 0x1100",
        "[[slave.area]]\nsm = 4\ndir = \"out\"\nphys = 0x1400",
        [(35, "StrayArea")],
    ),
    ("pdo = [{ index = 0x1600, entries = [[101, 8]] }]", "[[slave.area.pdo]]\nindex = 1", [(41, "NotToml")]),
    ("[[group.slave]]\nstation = 2001", "[[group.slave]]\nstation = 2001\n[[slave]]\nstation = 5", [(37, "StrayArea")]),
    ("phys = 0x1180", "phys = 0x1111", [(20, "ThreeBuffers")]),
    ("phys = 0x1180", "phys = 0x1112", [(20, "ThreeBuffersLater")]),
    ("phys = 0x1180", "phys = 0x112a", []),
    ("phys = 0x1180", "phys = 0x2fef", [(20, "ThreeBuffers")]),
    ("phys = 0x1180", "phys = 0x2fee", []),
    ("task = 1", "task = 0", [(28, "SharedTask")]),
    ('"target"]', '"CONTROL"]', [(16, "RepeatedName")]),
    ('"target"]', '"1"]', [(16, "NoIdentifier")]),
    (', "target"]', "]", [(16, "NamesLength")]),
    ("number = 1", "number = 9", [(1, "NoSuchTask")]),
    ("station = 2001", "station = 1002", [(33, "RepeatedStation")]),
    ("phys = 0x1180", "phys = 0x3000", [(23, "OutOfRange")]),
    ("assigned = [0x1a00]", "assigned = [\n0x1a01]", [(26, "UnknownPdo")]),
    ("entries = [[101, 8]]", "entries = [[2, 8]]", [(41, "RepeatedVariable")]),
    ("dir = \"in\"", "dir = in", [(22, "NotToml")]),
    ("entries = [[101, 8]]", "entries = [[101, 8, 1]]", [(41, "MissingField")]),
]
SHARED = ("task = 1", "task = 0")
# A second tool with an input in the axis's task.
PROBE = """\
[[group]]
alias = 101

[[group.slave]]
station = 2101

[[group.slave.area]]
sm = 3
dir = "in"
phys = 0x1180
task = 0
assigned = [1]
pdo = [{ index = 1, entries = [[201, 8]] }]
"""
# What a text may say is meant, and what it may not.
ALLOWED = [
    (SHARED, ("[[task]]", 'allow = ["SharedTask"]\n[[task]]'), []),
    (SHARED, ("alias = 100", 'alias = 100\nallow = ["SharedTask"]'), []),
    (SHARED, ("alias = 100", 'alias = 100\nallow = "SharedTask"'), []),
    (("station = 2001", "station = 0"), ("alias = 100", 'alias = 100\nallow = "SharedTask"'), [(34, "OutOfRange")]),
    (SHARED, ("alias = 100", "alias = 100\nallow = [1]"), [(28, "SharedTask"), (31, "UnknownKind")]),
    (SHARED, ("station = 2001", 'station = 2001\nallow = ["SharedTask"]'), [(28, "SharedTask"), (34, "UnusedAllow")]),
    (SHARED, ("alias = 100", 'alias = 100\nallow = ["UnknownKey"]'), [(28, "SharedTask"), (31, "UnusedAllow")]),
    (("", ""), ("alias = 100", 'alias = 100\nallow = ["SharedTask"]'), [(31, "UnusedAllow")]),
    (("", ""), ("alias = 100", 'alias = 100\nallow = ["Sharing"]'), [(31, "UnknownKind")]),
    (("phys = 0x1180", "phys = 0x1111"), ("station = 1002", 'station = 1002\nallow = ["ThreeBuffers"]'), []),
    (("station = 1002", "station = 1002\nvendor = 2"), ("[[slave]]", '[[slave]]\nallow = ["UnknownKey"]'), []),
    (
        ('"target"]', '"control"]'),
        ("[[task]]", 'allow = ["RepeatedName"]\n[[task]]'),
        [(1, "UnknownKind"), (17, "RepeatedName")],
    ),
]


def check(checks: Checks) -> None:
    """All checks of lint."""
    for path in sorted([*EXAMPLES.glob("*.toml"), *EXAMPLES.glob("*.in")]):
        ended = checks.tool("lint", path, "--program", checks.program)
        checks.equal(f"lint of {path.name}", (0, ""), (ended.status, ended.said + ended.complaint))
    checks.equal("nothing planted", [], found(checks, TEXT))
    for old, new, wanted in PLANTED:
        checks.equal(f"lint, {old} as {new}", True, TEXT.count(old) > 0)
        checks.equal(f"lint, {old} as {new}", expected(wanted), found(checks, TEXT.replace(old, new, 1)))
    for change, allowance, wanted in ALLOWED:
        text = TEXT.replace(*change, 1).replace(*allowance, 1)
        checks.equal(f"lint, {change} allowed by {allowance}", expected(wanted), found(checks, text))
    check_stray_pdo(checks)
    check_costs(checks)
    check_places(checks)
    check_inputs(checks)


def check_stray_pdo(checks: Checks) -> None:
    """A PDO that was meant for the area of a tool, and is the last mandatory slave's."""
    text = TEXT[: TEXT.index("pdo = [{ index = 0x1a00")] + TEXT[TEXT.index("\n[[group]]") :]
    text = text.replace("[0x1a00]", "[]").replace("pdo = [{ index = 0x1600, entries = [[101, 8]] }]", "")
    text = text.replace("assigned = [0x1600]\n\n", "assigned = []\n\n")
    text += "[[slave.area.pdo]]\nindex = 1\nentries = [[101, 8]]\n"
    checks.equal(
        "a PDO in another slave",
        [],
        found(checks, text.replace("[[slave.area.pdo]]", "[[group.slave.area.pdo]]")),
    )
    checks.equal("a stray PDO", [(text.count("\n") - 2, "StrayArea")], found(checks, text))


def has_place(kind: str) -> bool:
    """Whether a fault's line is projectcheck's, which needn't be built."""
    return kind in (
        "MissingField",
        "OutOfRange",
        "RepeatedStation",
        "RepeatedVariable",
        "UnknownPdo",
        "OverlappingAreas",
    )


def expected(findings: list[tuple[int, str]]) -> list[tuple[int, str]]:
    """The findings by line; where projectcheck isn't built, what the program says is on line 1."""
    return sorted((1 if has_place(kind) and not CHECK.exists() else line, kind) for line, kind in findings)


def found(checks: Checks, text: str) -> list[tuple[int, str]]:
    """The findings of a text, each with its line."""
    path = checks.file("text.toml", text)
    ended = checks.tool("lint", path, "--program", checks.program)
    checks.equal(f"status of lint of {text!r}", (1 if ended.said else 0, ""), (ended.status, ended.complaint))
    return sorted(map(finding, ended.said.splitlines()))


def finding(words: str) -> tuple[int, str]:
    """The line and the kind in a line of lint, which begins with a path."""
    path, kind, *_ = words.split(": ")
    return int(path.rsplit(":", 1)[1]), kind


def linted(checks: Checks, text: str) -> list[str]:
    """What lint says of shared tasks in a text."""
    said = checks.tool("lint", checks.file("text.toml", text), "--program", checks.program).said
    return [line.split("SharedTask: ")[1] for line in said.splitlines()]


def check_costs(checks: Checks) -> None:
    """How many blocks a connection moves, by hand: a new output moves the FMMU of each input, which comes after it."""
    # The gripper's sync manager and FMMU are new, and the axis's input FMMU moves by a byte.
    words = "connecting it moves 3 blocks, with all groups present moves 3 blocks; 2 blocks are its own"
    shared = TEXT.replace(*SHARED, 1)
    checks.equal(
        "cost of a shared task",
        [f"gripper (alias 100) shares task 0 with mandatory group: {words}"],
        linted(checks, shared),
    )
    # The input of a second tool comes after all others: its connection moves its own two blocks alone. With it
    # present, the gripper's moves its input's FMMU too.
    checks.equal(
        "costs of two tools",
        [
            "gripper (alias 100) shares task 0 with mandatory group, alias 101: "
            "connecting it moves 3 blocks, with all groups present moves 4 blocks; 2 blocks are its own",
            "alias 101 shares task 0 with mandatory group, gripper (alias 100): "
            "connecting it moves 2 blocks, with all groups present moves 2 blocks; 2 blocks are its own",
        ],
        linted(checks, shared + PROBE),
    )
    named = linted(checks, TEXT.replace("task = 0", "task = 1"))
    checks.equal("a task by its name", [True], ["shares task 1 tools with" in line for line in named])


def check_places(checks: Checks) -> None:
    """The lines of places as projectcheck writes them, whatever it is: of a value, of two, of a key that is absent."""
    path = checks.file("text.toml", TEXT.replace("station = 2001", "station = 1002"))
    for place, wanted in (
        ("at group[0].slave[0].station alias 100 station 1002 first slave[0].station station 1002", (33, 7)),
        ("at slave[0].area[0].pdo[1].entries[0][1] station 1002", (17, None)),
        ("at group[0].slave[0].area[0].sm alias 100", (36, None)),
        ("at slave[0].area[1].absent station 1002", (20, None)),
        ("at slave[7].station", (5, None)),
        ("at group[0].slave[0].area[0].assigned[0] first slave[0].area[1]", (40, 20)),
        ("at line 12 column 3", (12, None)),
        ("", (1, None)),
    ):
        said = f"project fault 5 RepeatedStation\n{place}".strip()
        fake = checks.file("projectcheck", f"#!/bin/sh\ncat >/dev/null\nprintf '%s\\n' '{said}'\nexit 3\n")
        fake.chmod(0o755)
        ended = checks.tool("lint", path, "--program", checks.program, "--check", fake)
        line, first = wanted
        lines = [found for found, kind in map(finding, ended.said.splitlines()) if kind == "RepeatedStation"]
        checks.equal(f"line of {place}", [line], lines)
        checks.equal(f"first line of {place}", first is not None, f", which is on line {first}" in ended.said)


def check_inputs(checks: Checks) -> None:
    """Inputs that lint can't read, and the line feed and byte order mark of other systems."""
    path = checks.file("text.toml", TEXT)
    checks.equal("lint of no file", 2, checks.tool("lint", checks.scratch / "absent").status)
    ended = checks.tool("lint", path, "--program", checks.scratch / "absent")
    said = "docs/use/TOOLS.md says how it is built" in ended.complaint
    checks.equal("lint without a program", (2, True), (ended.status, said))
    checks.equal("lint without words", 2, checks.tool("lint").status)
    checks.equal("help of lint", 0, checks.tool("lint", "--help").status)
    foreign = b"\xef\xbb\xbf" + TEXT.replace("\n", "\r\n").encode() + b"%%\r\nlayout\r\n"
    ended = checks.tool("lint", "-", "--program", checks.program, given=foreign)
    checks.equal("lint of an input of another system", (0, ""), (ended.status, ended.said))
    wrong = foreign.replace(b"alias = 100", b"alias = 100\r\nx = 1")
    checks.equal(
        "its finding",
        "-:31: UnknownKey: x is no key of a group",
        checks.tool("lint", "-", "--program", checks.program, given=wrong).said.strip(),
    )

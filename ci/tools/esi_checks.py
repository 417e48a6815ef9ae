"""Slaves made of ESI files: what the program configures of them beside bytes by hand, and what the text can't say."""

from pathlib import Path

from checks import Checks

from projects.names import names_of
from projects.records import read_project
from projects.toml import read_toml

SAMPLES = Path(__file__).parent / "esi"
COUPLER, OUTPUTS, DRIVE, TOOL = (SAMPLES / f"{name}.xml" for name in ("coupler", "outputs", "drive", "tool"))

# Register blocks by ETG.1000.4. A sync manager: start address, length, control (0x64: buffered, written by the master,
# interrupt in the slave, watchdog; 0x20: buffered, read, interrupt in the slave), status, activate, and one byte more.
# An FMMU: logical start address, length, first and last bit, physical start address and bit, type (1 read, 2 write),
# activate, three bytes. Numbers have their least significant byte first. Outputs come before inputs, each area of
# whole bytes after the one before it, from 0x01000000 on in task 0 and from 0x04000000 on in task 3. A slave adds 2 to
# the working counter for what it writes to its memory and 1 for what it reads from it.
LINE = [
    "epoch 0",
    "task 0 parts 8 6",
    "datagram 0 address 0x01000000 length 14 expected 5",
    # SL2016: 16 outputs of a bit, 2 bytes at 0x1000
    "sm 0 at 0x0800: 00 10 02 00 64 00 01 00",
    "fmmu 0 at 0x0600: 00 00 00 01 02 00 00 07 00 10 00 02 01 00 00 00",
    # SD402: control word and target position, 6 bytes at 0x1200; status word and position, 6 bytes at 0x1400
    "sm 2 at 0x0810: 00 12 06 00 64 00 01 00",
    "fmmu 0 at 0x0600: 02 00 00 01 06 00 00 07 00 12 00 02 01 00 00 00",
    "sm 3 at 0x0818: 00 14 06 00 20 00 01 00",
    "fmmu 1 at 0x0610: 08 00 00 01 06 00 00 07 00 14 00 01 01 00 00 00",
]
# SD402 with its velocity set, 16 + 32 + 8 bits and a gap of 8, and the torque answer, 16 + 16 bits.
VELOCITY = [
    "sm 2 at 0x0810: 00 12 08 00 64 00 01 00",
    "fmmu 0 at 0x0600: 00 00 00 01 08 00 00 07 00 12 00 02 01 00 00 00",
    "sm 3 at 0x0818: 00 14 04 00 20 00 01 00",
    "fmmu 1 at 0x0610: 08 00 00 01 04 00 00 07 00 14 00 01 01 00 00 00",
]
GROUP = [
    "task 3 parts 0 8",
    "datagram 0 address 0x04000000 length 8 expected 2",
    # SK1101: its ID, 2 bytes at 0x1000
    "sm 0 at 0x0800: 00 10 02 00 20 00 01 00",
    "fmmu 0 at 0x0600: 00 00 00 04 02 00 00 07 00 10 00 01 01 00 00 00",
    # SL3102: twice 1 + 1 bits, a gap of 6, and 16 bits, 6 bytes at 0x1180
    "sm 3 at 0x0818: 80 11 06 00 20 00 01 00",
    "fmmu 0 at 0x0600: 02 00 00 04 06 00 00 07 80 11 00 01 01 00 00 00",
]
# Four outputs of a bit in a byte at 0x1000.
VALVES = [
    "sm 0 at 0x0800: 00 10 01 00 64 00 01 00",
    "fmmu 0 at 0x0600: 00 00 00 01 01 00 00 03 00 10 00 02 01 00 00 00",
]
TOOL_WORDS = ["--alias", 7, "--group", "tool A", "--station", 2001, "--task", 3]
TOOL_WORDS += ["--device", "SK1101", "--device", "SL2004", "--device", "SL3102"]
DRIVE_LOSSES = ["Identity", "Mailbox", "Mailbox", "Protocols", "Clocks"]
FIFTEEN = "0=" + ",".join(f"0x{0x1600 + row:x}" for row in range(15))
# A device, what is changed in its file, further words, and the losses that differ and those that aren't said.
LOSSES = [
    ("coupler", COUPLER, (), [], [], ["Identity"]),
    ("outputs", OUTPUTS, (), [], ["ControlByte"], ["Identity", "Enable"]),
    ("outputs as written", OUTPUTS, ('#x44" Enable="9', '#x64" Enable="1'), [], [], ["Identity"]),
    ("drive", DRIVE, (), [], [], [*DRIVE_LOSSES, "NotOffered"]),
    ("all sets", DRIVE, (), ["--offer", "2=all", "--offer", "3=all"], [], [*DRIVE_LOSSES, *["Excludes"] * 6]),
    (
        "two sets at once",
        DRIVE,
        (),
        ["--assign", "2=0x1600,0x1602"],
        ["Exclusion"],
        [*DRIVE_LOSSES, *["Excludes"] * 2, "NotOffered"],
    ),
    ("low address", OUTPUTS, ("#x1000", "#x0fff"), [], ["StartAddress", "ControlByte"], ["Identity", "Enable"]),
    ("high address", OUTPUTS, ("#x1000", "#x2fff"), [], ["EndAddress", "ControlByte"], ["Identity", "Enable"]),
    ("last bytes", OUTPUTS, ("#x1000", "#x2ffe"), [], ["ControlByte"], ["Identity", "Enable"]),
    ("wide entry", DRIVE, ("<BitLen>32", "<BitLen>65"), [], [], [*DRIVE_LOSSES, "EntryParted", "NotOffered"]),
    ("no start address", OUTPUTS, ('StartAddress="#x1000"', 'StartAddress=""'), [], ["StartAddress", "ControlByte"], ["Identity", "Enable"]),
    ("close buffers", DRIVE, ("#x1400", "#x1211"), [], ["ThreeBuffers"], [*DRIVE_LOSSES, "NotOffered"]),
    ("touching buffers", DRIVE, ("#x1400", "#x1212"), [], [], [*DRIVE_LOSSES, "NotOffered"]),
    ("buffers in a mailbox", DRIVE, ("#x1200", "#x11ff"), [], ["ThreeBuffers"], [*DRIVE_LOSSES, "NotOffered"]),
    (
        "reaches",
        DRIVE,
        ("#x1400", "#x1210"),
        ["--assign", "2=0x1602", "--offer", "2=all"],
        ["Reach"],
        [*DRIVE_LOSSES, *["Excludes"] * 3, "NotOffered"],
    ),
    (
        "mandatory",
        OUTPUTS,
        (),
        ["--assign", FIFTEEN],
        ["ControlByte", "Mandatory"],
        ["Identity", "Enable", "NotOffered"],
    ),
    ("modules", DRIVE, ("<Dc>", "<Slots/><Dc>"), [], [], [*DRIVE_LOSSES, "Modules", "NotOffered"]),
]


def check(checks: Checks) -> None:
    """All checks of devices."""
    check_line(checks)
    check_alternatives(checks)
    check_group(checks)
    check_names(checks)
    check_losses(checks)
    check_files(checks)
    check_words(checks)
    checks.equal("help of esi", 0, checks.tool("esi", "--help").status)
    listed = checks.tool("esi", "--list", COUPLER, DRIVE)
    checks.equal("devices in a list", (0, True), (listed.status, "PDO 0x1601 Velocity set, 64 bits" in listed.said))


def configured(checks: Checks, text: str, commands: str, passed: int = 0) -> list[str]:
    """What the program prints of a text after some of the commands; its status where it does not open the text."""
    status, lines = checks.hotline(f"{text}%%\n{commands}".encode())
    return lines[passed:] if status == 0 else [f"status {status}", *lines]


def check_line(checks: Checks) -> None:
    """A coupler, a terminal and a drive."""
    devices = ["--device", "SK1100", "--device", "SL2016", "--device", "SD402", "--offer", "2=all", "--offer", "3=all"]
    made = checks.tool("esi", COUPLER, OUTPUTS, DRIVE, *devices)
    checks.equal("a line of three devices", 1, made.status)
    found = configured(checks, made.said, "layout\nregs 1001\nregs 1002\nregs 1003\n")
    checks.equal("blocks of three devices", LINE, found)
    ended = checks.tool("lint", checks.file("line.toml", made.said), "--program", checks.program)
    checks.equal("lint of three devices", (0, ""), (ended.status, ended.said))
    # The drive has another set assigned while the line runs: 2 bytes more, so the inputs of the drive move too.
    found = configured(checks, made.said, "remap 1003 0 0x1601\n")
    checks.equal("another set of the drive", ["epoch 1 recut 1 moved 3"], found)
    outputs = checks.tool("esi", OUTPUTS).said
    places = [f"var {1001001 + bit} task 0 datagram 0 bit {bit} bits 1 dir out" for bit in range(16)]
    found = configured(checks, outputs, "".join(f"place {1001001 + bit}\n" for bit in range(16)))
    checks.equal("places of 16 outputs", places, found)


def check_alternatives(checks: Checks) -> None:
    """The drive with other sets than its file assigns."""
    made = checks.tool("esi", DRIVE, "--assign", "2=0x1601", "--assign", "3=0x1a02", "--variable", 5)
    checks.equal("a drive with other sets", 0, made.status)
    checks.equal("blocks of other sets", VELOCITY, configured(checks, made.said, "regs 1001\n"))
    # Control word, target velocity, mode; status word, torque.
    found = configured(checks, made.said, "place 6\nplace 7\nplace 9\n")
    wanted = ["var 6 task 0 datagram 0 bit 16 bits 32 dir out", "var 7 task 0 datagram 0 bit 48 bits 8 dir out"]
    checks.equal("places of other sets", [*wanted, "var 9 task 0 datagram 0 bit 80 bits 16 dir in"], found)
    empty = checks.tool("esi", DRIVE, "--assign", "2=")
    text = empty.said
    checks.equal("no outputs at all", (0, 1), (empty.status, text.count("[[slave.area]]")))


def check_group(checks: Checks) -> None:
    """A tool of three devices; one has its outputs where a text can't have them."""
    made = checks.tool("esi", TOOL, *TOOL_WORDS)
    checks.equal("a tool", 1, made.status)
    found = configured(checks, made.said, "connect 7\nlayout\nregs 2001\nregs 2002\nregs 2003\n", 2)
    checks.equal("blocks of a tool", GROUP, found)
    ended = checks.file("raised.xml", TOOL.read_text().replace("#x0f00", "#x1000"))
    made = checks.tool("esi", ended, "--device", "SL2004")
    checks.equal("blocks of four valves", VALVES, configured(checks, made.said, "regs 1001\n"))


def check_names(checks: Checks) -> None:
    """Names are right and unlike each other, be they plain, of several channels, or what TOML and C couldn't take."""
    words = [OUTPUTS, DRIVE, "--device", "SL2016", "--prefix", "lamp", "--device", "SD402", "--offer", "2=all"]
    text = checks.tool("esi", *words).said
    names = names_of(read_project(read_toml(text.encode()), []))
    for name, wanted in (
        ("lamp_channel_16_output", (1001016, 1, "out", 1001)),
        ("sd402_1002_target_torque", (1002007, 16, "out", 1002)),
        ("sd402_1002_velocity_set_control_word", (1002003, 16, "out", 1002)),
        ("sd402_1002_status_word", (1002008, 16, "in", 1002)),
    ):
        variable = names.variable(name)
        checks.equal(f"name {name}", wanted, (variable.number, variable.bits, variable.direction, variable.station))
    strange = DRIVE.read_text().replace("SD402<", '4 &lt;"\\é&#10;]]<').replace("set<", "#\n<")
    strange = strange.replace("Control word", "\"&#x85;'\n#")
    made = checks.tool("esi", checks.file("strange.xml", strange), "--offer", "2=all", "--name", 'a"\\\n\x7f')
    project = read_project(read_toml(made.said.encode()), [])
    checks.equal("a strange name", (0, 'a"\\\n\x7f'), (made.status, project.groups[0].slaves[0].name))
    checks.equal("strange names", 9, sum(1 for variable in names_of(project).variables.values() if variable.name))
    checks.equal("blocks under strange names", "status 0", f"status {checks.hotline(made.said.encode())[0]}")


def kinds(said: str) -> tuple[list[str], list[str]]:
    """The kinds of the losses in a text: those that differ, and those that aren't said."""
    lines = [line.split(": ") for line in said.splitlines()]
    return tuple([line[1] for line in lines if line[0] == mark] for mark in ("# differs", "# not said"))


def check_losses(checks: Checks) -> None:
    """What can't be said, device by device and change by change."""
    for label, path, change, words, differing, unsaid in LOSSES:
        text = path.read_text()
        changed = checks.file("changed.xml", text.replace(*change, 1) if change else text)
        made = checks.tool("esi", changed, *words)
        checks.equal(f"losses of {label}", (differing, unsaid), kinds(made.said))
        checks.equal(f"status of {label}", 1 if differing else 0, made.status)


def check_files(checks: Checks) -> None:
    """Files that are broken, huge or strange."""
    text = DRIVE.read_text()
    bomb = '<!DOCTYPE x [<!ENTITY a "aaaaaaaaaa"><!ENTITY b "&a;&a;&a;&a;&a;&a;&a;&a;">]>'
    outside = '<!DOCTYPE x [<!ENTITY a SYSTEM "file:///etc/hostname">]>'
    for label, content, kind in (
        ("cut", text[:2000], "BrokenXml"),
        ("empty", "", "BrokenXml"),
        ("no XML", "slave = []", "BrokenXml"),
        ("unknown encoding", text.replace("UTF-8", "X-NONE"), "BrokenXml"),
        ("crossed tags", text.replace("</Mailbox>", "</Device>"), "BrokenXml"),
        ("unknown entity", text.replace("Sample", "&a;"), "BrokenXml"),
        ("entities", text.replace("<EtherCATInfo", f"{bomb}<EtherCATInfo").replace("Sample", "&b;"), "DocumentType"),
        ("entity of a file", text.replace("<EtherCATInfo", f"{outside}<EtherCATInfo"), "DocumentType"),
        ("deep", "<a>" * 100_000 + "</a>" * 100_000, "TooDeep"),
        ("other root", "<Device/>", "NoEsi"),
        ("number", text.replace("#x1600", "0x1600"), "BadNumber"),
        ("no index", text.replace("<Index>#x1600</Index>", ""), "MissingElement"),
        ("no type", text.replace("Type ", "Kind ").replace("</Type>", "</Kind>"), "MissingElement"),
        ("no device", text.replace("Devices>", "Modules>"), "NoDevice"),
    ):
        checks.refused(f"esi, {label}", checks.tool("esi", checks.file("wrong.xml", content)), kind)
    huge = checks.file("huge.xml", text)
    with huge.open("r+b") as file:
        file.truncate(64 * 1024 * 1024 + 1)
    checks.refused("esi, huge", checks.tool("esi", huge), "TooLong")
    huge.unlink()


def check_words(checks: Checks) -> None:
    """Devices and PDOs that aren't there, and words that are none."""
    for words, kind in (
        ([TOOL], "NoDevice"),
        ([TOOL, "--device", "SL2016"], "NoDevice"),
        ([DRIVE, "--device", "SD402@0x00000003"], "NoDevice"),
        ([DRIVE, "--assign", "2=0x1603"], "NoSuchPdo"),
        ([DRIVE, "--assign", "2=0x1a00"], "NoSuchPdo"),
        ([DRIVE, "--assign", "0=0x1600"], "NoSuchSyncManager"),
        ([DRIVE, "--offer", "7=all"], "NoSuchSyncManager"),
        ([DRIVE, "--assign", "2=0x1600,0x1600"], "RepeatedPdo"),
        ([COUPLER, "--station", 65535, "--device", "SK1100", "--device", "SK1100"], "NoStation"),
    ):
        checks.refused(f"esi {words}", checks.tool("esi", *words), kind)
    for words in (["--station", 0], ["--task", 8], ["--variable", "x"], ["--assign", "x=1"], ["--alias", 65536]):
        checks.equal(f"usage {words}", 2, checks.tool("esi", DRIVE, *words).status)
    checks.equal("revision", 0, checks.tool("esi", DRIVE, "--device", "SD402@0x00000002").status)

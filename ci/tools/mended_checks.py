"""What once went wrong at a tool: each has a check that fails if it comes back."""

import ast
import json
import os
import shutil
import socket
import struct
import subprocess
import sys
import time
from pathlib import Path

from checks import TOOLS, Checks
from line_checks import PROMPT, Browser, Terminal, served, token_of
from lint_checks import TEXT
from named_changer import named_changer

TOP = TOOLS.parent
EXAMPLE = TOP / "examples/tool_changer.toml"
COMMANDS = ("capture", "esi", "line", "lint", "names", "picture", "transcript")
DRIVE, OUTPUTS = (TOP / "ci/tools/esi" / name for name in ("drive.xml", "outputs.xml"))
# A piece of lint's text, what replaces it, what projectcheck then says, and the words of the finding.
WORDS = [
    ("phys = 0x1180", "phys = 0x3000", "3 OutOfRange", "slave[0].area[1].phys", "slave 1002 axis: phys = 0x3000 is outside 0x1000 to 0x2fff;"),
    ("phys = 0x1180", "phys = 0x2fff", "3 OutOfRange", "slave[0].area[1].phys", "(0x2fff to 0x3004) ends after 0x2fff;"),
    ("station = 1002", 'station = "1013"', "2 MissingField", "slave[0].station", 'station = "1013" is not an integer;'),
    ("station = 1002", "", "2 MissingField", "slave[0].station", "slave axis: station is absent;"),
    ("[[101, 8]]", "[[101, 65]]", "3 OutOfRange", "group[0].slave[0].area[0].pdo[0].entries[0][1]", "bits = 65 is outside 1 to 64;"),
    ("0x1601", "0x1600", "9 UnknownPdo", "slave[0].area[0].pdo[1].index first slave[0].area[0].pdo[0].index", "index = 0x1600 is offered twice;"),
    ("phys = 0x1180", "phys = 0x1108", "7 OverlappingAreas", "slave[0].area[1] first slave[0].area[0]", "(0x1108 to 0x110d) shares bytes with the reach of sync manager 2 (0x1100 to 0x110d)"),
    ("[[101, 8]]", "[[2, 8]]", "8 RepeatedVariable", "group[0].slave[0].area[0].pdo[0].entries[0][0] first slave[0].area[0].pdo[0].entries[1][0]", "slave 2001: variable = 2 is used twice;"),
]


def check(checks: Checks) -> None:
    """All of them."""
    project = checks.file("named_changer.toml", named_changer())
    check_interrupt(checks, project)
    check_older_python(checks)
    check_installations(checks)
    check_outputs(checks, project)
    check_words_of_lint(checks)
    check_words_of_program(checks)
    check_prompt(checks, project)
    check_served_page(checks, project)
    check_devices(checks)
    check_search(checks)
    check_assignments(checks)


def check_interrupt(checks: Checks, project: Path) -> None:
    """An interrupt ends the command that runs, and neither the session nor its history."""
    slow = checks.scratch / "is_slow"
    program = checks.file("sleeper", f"#!/bin/sh\n[ ! -e {slow} ] || sleep 30\nexec {checks.program}\n")
    program.chmod(0o755)
    kept = checks.scratch / "kept.in"
    terminal = Terminal(checks, project, "--program", program, "--history", kept)
    terminal.give("name")
    slow.touch()
    os.write(terminal.file, b"program\n")
    time.sleep(1)
    os.write(terminal.file, b"\x03")
    try:
        said = terminal.until(PROMPT)
        slow.unlink()
        answers = [terminal.give("history"), terminal.give("program"), terminal.give("undo")]
        checks.equal("a session that was interrupted", 0, terminal.end())
    except (OSError, TimeoutError) as error:
        said, answers = str(error), []
        slow.unlink(missing_ok=True)
    checks.equal("a command that was interrupted", True, "? Interrupted" in said and "Traceback" not in said)
    checks.equal("the history after an interrupt", ["1 name", "written 12 owed 0", "undone: program"], answers)
    again = checks.tool("line", project, "--program", checks.program, "--history", kept, given=b"history\nquit\n")
    checks.equal("the history after a restart", True, "\n1 name\n> quit" in again.said and "1 commands from" in again.said)
    other = checks.tool("line", EXAMPLE, "--program", checks.program, "--history", kept)
    checks.refused("the history of another project", other, "OtherProject")


def check_older_python(checks: Checks) -> None:
    """An older Python is named in one line, by files that it can read."""
    for name in COMMANDS:
        tool = TOOLS / name
        older = f"import sys, runpy; sys.version_info = (3, 10, 4, 'final', 0); sys.argv = [{str(tool)!r}]; "
        older += f"sys.path[0] = {str(TOOLS)!r}; runpy.run_path({str(tool)!r}, run_name='__main__')"
        run = subprocess.run([sys.executable, "-B", "-c", older], capture_output=True, timeout=60)
        said = run.stderr.decode()
        checks.equal(f"{name} on Python 3.10", (2, f"{name}: needs Python 3.11 or later; this is 3.10\n"), (run.returncode, said))
    for file in (TOOLS / "needed_python.py", *(TOOLS / name for name in COMMANDS)):
        try:
            readable = bool(ast.parse(file.read_text(), feature_version=(3, 4))) and "f\"" not in file.read_text()
        except (OSError, SyntaxError):
            readable = False
        checks.equal(f"{file.name} as an old Python reads it", True, readable)


def check_installations(checks: Checks) -> None:
    """Without a library nothing is installed, and nothing is built for it."""
    empty = checks.scratch / "no_library"
    empty.mkdir()
    plain = {key: value for key, value in os.environ.items() if key != "ZANGJULF_LIBRARY"} | {"PATH": "/usr/bin:/bin"}
    words = [TOP / "packaging/install.sh", checks.scratch / "prefix", empty]
    run = subprocess.run(words, capture_output=True, timeout=60, env=plain)
    found = (run.returncode, "there is no library" in run.stderr.decode(), (checks.scratch / "prefix").exists())
    checks.equal("an installation without a library", (1, True, False), found)
    copy = checks.scratch / "copy/bindings/python"
    shutil.copytree(TOP / "bindings/python", copy)
    shutil.copytree(TOP / "include", checks.scratch / "copy/include")
    build = f"import sys; sys.path.insert(0, {str(copy)!r}); import backend; backend.get_requires_for_build_wheel()"
    run = subprocess.run([sys.executable, "-B", "-c", build], capture_output=True, timeout=60, env=plain)
    checks.equal("pip without a library", (1, True), (run.returncode, "libzangjulf.so is missing" in run.stderr.decode()))


def check_outputs(checks: Checks, project: Path) -> None:
    """An output that is closed, full or gone is said in one line."""
    names, picture = f"{TOOLS}/names {project} --c", f"{TOOLS}/picture {EXAMPLE} --program {checks.program}"
    for command, said in (
        (f"{names} >&-", "names: standard output is closed"),
        (f"{names} >/dev/full", "names: standard output: No space left on device"),
        (f"{picture} >/dev/full", "picture: standard output: No space left on device"),
    ):
        run = subprocess.run(["sh", "-c", command], capture_output=True, timeout=60)
        checks.equal(command, (2, f"{said}\n"), (run.returncode, run.stderr.decode()))


def check_words_of_lint(checks: Checks) -> None:
    """A fault has its value, its range and its slave, whatever program finds its place."""
    for old, new, fault, place, wanted in WORDS:
        fake = checks.file("projectcheck", f"#!/bin/sh\ncat >/dev/null\nprintf '%s\\n' 'project fault {fault}' 'at {place}'\nexit 3\n")
        fake.chmod(0o755)
        path = checks.file("text.toml", TEXT.replace(old, new, 1))
        said = checks.tool("lint", path, "--program", checks.program, "--check", fake).said
        checks.equal(f"lint of {new}: {wanted} in {said!r}", True, wanted in said)
    path = checks.file("text.toml", TEXT.replace("sm = 3", "sm = 3\nfoo = 1", 1))
    said = checks.tool("lint", path, "--program", checks.program).said
    checks.equal("a key of an area", True, "foo is no key of an area" in said)


def check_words_of_program(checks: Checks) -> None:
    """What ends a run early has its place and its meaning; what is not the program is found out at once."""
    text = EXAMPLE.read_bytes()
    for words in (["transcript", "-"], ["picture", "-"], ["capture", "-", checks.scratch / "x.pcap"]):
        ended = checks.tool(*words, "--program", checks.program, given=text + b"layout\n")
        said = f"line {text.count(10) + 1}, column" in ended.complaint and "is a line %% missing" in ended.complaint
        checks.equal(f"{words[0]} without %%", (2, True), (ended.status, said))
    silent = checks.file("silent", "#!/bin/sh\ngrep -q 1001 && exit 4\necho none\n")
    silent.chmod(0o755)
    ended = checks.tool("transcript", EXAMPLE, "--program", silent)
    checks.equal("status 4", (2, True), (ended.status, "the input is too long, or reading it" in ended.complaint))
    for program, said in (("/bin/true", "isn't hotline"), ("README.md", "README.md: Permission denied"), ("/no/where", "No such file")):
        command = [sys.executable, "-B", TOOLS / "transcript", EXAMPLE, "--program", program]
        run = subprocess.run(command, capture_output=True, timeout=60, cwd=TOP)
        checks.equal(f"{program} as the program", (2, True), (run.returncode, said in run.stderr.decode()))


def check_prompt(checks: Checks, project: Path) -> None:
    """Completion by kind and with quotes, and words that a command refuses."""
    terminal = Terminal(checks, project)
    for typed, said in (("regs inp", "sm 0 at 0x0800"), ('regs "axis X', "sm 2 at"), ("regs touch", "refused 6 Absent")):
        answer = tabbed(terminal, typed)
        checks.equal(f"{typed} and the tab key: {said} in {answer!r}", True, said in answer)
    for command, said in (
        ("peek gripper 0x2fff 4", "? OutOfRange: a slave's memory ends at 0x2fff"),
        ("set target_x=1e3", "? Malformed: 1e3 may be an integer or a real number"),
        ("cost connect gripper", "tasks that get another layout: task 1\n"),
        ("cost move 1004 0 0", "tasks that get another layout: task 0, task 1"),
    ):
        answer = terminal.give(command) + "\n"
        checks.equal(f"> {command}: {said} in {answer!r}", True, said in answer)
    terminal.end()
    ended = checks.tool("line", project, "--program", checks.program, given=b"get " + b"x" * 3_000_000 + b"\n")
    checks.equal("a command of 3 MB", True, "? TooLong" in ended.said)


def tabbed(terminal: Terminal, typed: str) -> str:
    """What a command is answered whose last word the terminal completes."""
    os.write(terminal.file, typed.encode() + b"\t")
    time.sleep(0.3)
    os.write(terminal.file, b"\n")
    return terminal.until(PROMPT)


def check_served_page(checks: Checks, project: Path) -> None:
    """The page has its colours, says that it works, follows what is written, and asks the program few times."""
    runs = checks.scratch / "runs"
    program = checks.file("counted", f"#!/bin/sh\necho >>{runs}\nexec {checks.program}\n")
    program.chmod(0o755)
    with served(checks, project, "--program", program) as port:
        browser = Browser(port)
        page = browser.request("GET", "/", {})[1]
        style = page[page.index("<style>") : page.index("</style>")]
        colours = "--paper: #ffffff; --ink: #14181d" in style and "--paper: #12161b" in style and "{'" not in style
        checks.equal("the colours of the page", True, colours)
        checks.equal("what moves while the page works", True, "working" in page and '<button type="button"' in page)
        counts, states = [], []
        for command in ("connect gripper", "name", "program", "cycle motion slow", "set target_x=1"):
            runs.write_text("")
            states.append(json.loads(browser.give(command, token_of(page))[1]))
            counts.append(len(runs.read_text()))
        checks.equal(f"runs of a command on the page, {counts}", True, max(counts) <= 9)
        leave(browser, token_of(page))
        pictures = ["Blocks to write" in state["picture"] for state in states]
        checks.equal("blocks to write before and after they are written", [True, True, False, False, False], pictures)
        lists = [row[1:] for row in states[0]["assignments"] if "gripper" in row[0]]
        checks.equal("PDOs to assign on the page", [["0x1c12", "0x1600"], ["0x1c13", "0x1a00"]], lists)


def leave(browser: Browser, token: str) -> None:
    """A browser that leaves before it is answered."""
    head = f"POST /command HTTP/1.1\r\nHost: {browser.host}\r\nOrigin: http://{browser.host}\r\nX-Session: {token}\r\n"
    host, port = browser.host.split(":")
    with socket.create_connection((host, int(port))) as connection:
        connection.setsockopt(socket.SOL_SOCKET, socket.SO_LINGER, struct.pack("ii", 1, 0))
        connection.sendall(f"{head}Content-Length: 5\r\n\r\ntable".encode())
        time.sleep(0.2)
    browser.give("", token)


def check_devices(checks: Checks) -> None:
    """Devices with wide entries, umlauts and no start address; what differs is on standard error too."""
    wide = DRIVE.read_text().replace("<BitLen>32", "<BitLen>130", 1).replace("Target position", "Zielgröße", 1)
    ended = checks.tool("esi", checks.file("wide.xml", wide))
    checks.equal("a wide entry in parts", True, "_part0" in ended.said and "_part2" in ended.said and ", 64], [" in ended.said)
    checks.equal("an umlaut in a name", ("Zielgröße" in wide, True), (True, "zielgroesse" in ended.said))
    ended = checks.tool("esi", OUTPUTS)
    checks.equal("what differs", (1, True), (ended.status, "differs: ControlByte" in ended.complaint))
    ended = checks.tool("esi", DRIVE, "--name", "x", "--device", "SD402")
    checks.equal("--name before --device", (2, True), (ended.status, "come after the --device" in ended.complaint))
    ended = checks.tool("esi", checks.file("none.xml", OUTPUTS.read_text().replace("#x1000", "", 1)))
    checks.equal("no start address", True, "has no start address in the file" in ended.said)


def check_search(checks: Checks) -> None:
    """In Chromium, where it is installed: what is searched in a report is found as it is written, within a cell."""
    chromium = shutil.which("chromium")
    if chromium is None:
        return
    text = EXAMPLE.read_text().replace('"axis X"', '"servo A"').replace('"axis Y"', '"servo B"')
    made = checks.tool("picture", checks.file("servos.toml", text), "--report", "--program", checks.program).said
    script = 'const box = document.querySelector("input[name=blocks]"); box.value = "servo B"; box.dispatchEvent(new Event("input"));'
    page = checks.file("search.html", made.replace("</body>", f"<script>{script}</script></body>"))
    words = [chromium, "--headless", "--no-sandbox", "--disable-gpu", "--dump-dom", f"file://{page}"]
    shown = subprocess.run(words, capture_output=True, timeout=60).stdout.decode()
    checks.equal("servo B in the blocks", True, ">4 found<" in shown)


def check_assignments(checks: Checks) -> None:
    """A remap of equal width moves no register block, and still asks for the slave's own assignment."""
    path = checks.file("equal.toml", TEXT.replace("[3, 64]", "[3, 48]"))
    given = b"assignments\ncost remap axis 0 0x1601\nremap axis 0 0x1601\nassignments\nmove axis 0 3\nconnect gripper\n"
    said = checks.tool("line", path, "--program", checks.program, given=given).said
    change = "  to assign in Pre-Op: slave 1002 axis, 0x1c12: 0x1601, was 0x1600\n"
    checks.equal("a remap of equal width", True, f"epoch 1 recut 0 moved 0\n{change}" in said)
    checks.equal("its cost", True, f"tasks that get another layout: none\n{change}" in said)
    checks.equal("assignments", True, "slave 1002 axis, 0x1c12: 0x1601\nslave 1002 axis, 0x1c13: 0x1a00\n" in said)
    checks.equal("a move", True, "\n> connect gripper" in said.split("> move axis 0 3\n")[1].split("to assign")[0])
    checks.equal("a group that comes", True, "to assign in Pre-Op: slave 2001 gripper, 0x1c12: 0x1600\n" in said)
    report = checks.tool("picture", path, "-", "--report", "--program", checks.program, given=b"remap 1002 0 0x1601\n").said
    row = '<tr data-assignment="1002/0x1c12" class="moved">'
    checks.equal("assignments in a report", True, row in report and "<td>0x1601</td><td>0x1600</td>" in report)
    found = json.loads(checks.tool("names", path, "--json").said)
    lists = [(one["station"], one["object"], one["pdos"]) for one in found["assignments"]]
    checks.equal("assignments as JSON", [(1002, 0x1C12, [0x1600]), (1002, 0x1C13, [0x1A00]), (2001, 0x1C12, [0x1600])], lists)

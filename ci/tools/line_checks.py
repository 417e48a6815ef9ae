"""The session with a line: at a prompt in a pseudo-terminal, and on its page."""

import http.client
import json
import os
import pty
import re
import select
import shutil
import signal
import subprocess
import sys
import time
from collections.abc import Iterator
from contextlib import contextmanager
from pathlib import Path

from checks import TOOLS, Checks
from named_changer import DAY, named_changer

from line.values import read_value
from projects.faults import Refusal

PROMPT = b"\r\n> "
PICTURES = TOOLS.parent / "build"
ON_PAGE = [
    *("connect gripper", "name", "program", "poke 1002 0x1180 3706e5030000", "poke gripper 0x1180 015802"),
    *("set target_x=1200", "cycle motion slow"),
]
VIEWED = ("position_x", "pressure", "target_x")
SECONDS = 60
# Words, bits, and the views that the value has; worked out by hand from two's complement and IEEE 754.
VALUES = [
    ("12", 16, "12, 0x000c, bits 0000000000001100"),
    ("-1", 8, "255, signed -1, 0xff, bits 11111111"),
    ("-128", 8, "128, signed -128, 0x80, bits 10000000"),
    ("0xFF", 12, "255, 0x0ff, bits 000011111111"),
    ("0b101", 3, "5, signed -3, 0x5, bits 101"),
    ("1", 1, "1, 0x1"),
    ("1.5", 32, "1069547520, 0x3fc00000, real 1.5"),
    ("-2.0", 64, "13835058055282163712, signed -4611686018427387904, 0xc000000000000000, real -2"),
    ("18446744073709551615", 64, "18446744073709551615, signed -1, 0xffffffffffffffff"),
]
WRONG_VALUES = [
    ("256", 8, "TooWide"),
    ("-129", 8, "OutOfRange"),
    ("1.5", 16, "NotReal"),
    ("1.0e39", 32, "OutOfRange"),
    ("1e3", 32, "Malformed"),
    ("0x", 8, "Malformed"),
    ("", 8, "Malformed"),
    ("--1", 8, "Malformed"),
    ("1_0", 8, "Malformed"),
]


def check(checks: Checks) -> None:
    """All checks of the session."""
    project = checks.file("named_changer.toml", named_changer())
    check_values(checks)
    check_day(checks, project)
    check_typing(checks, project)
    check_page(checks, project)
    missing = checks.scratch / "missing.toml"
    checks.refused("a missing project", checks.tool("line", missing), f"{missing}")
    unread = checks.tool("line", checks.file("none.toml", "slave = 3\n"), "--program", checks.program)
    checks.equal("no project", (2, "line: project fault 2 MissingField\n"), (unread.status, unread.complaint))


def check_values(checks: Checks) -> None:
    """Values as words, both ways."""
    for word, bits, views in VALUES:
        checks.equal(f"{word} in {bits} bits", views, str(read_value(word, bits)))
    for word, bits, kind in WRONG_VALUES:
        try:
            found = str(read_value(word, bits))
        except Refusal as refusal:
            found = str(refusal).split(":")[0]
        checks.equal(f"{word!r} in {bits} bits", kind, found)


class Terminal:
    """A session at a pseudo-terminal."""

    def __init__(self, checks: Checks, project: Path, *words: object) -> None:
        self.process, self.file = pty.fork()
        if self.process == 0:
            os.environ["TERM"] = "dumb"
            # a check that runs in the background has interrupts ignored
            signal.signal(signal.SIGINT, signal.SIG_DFL)
            given = ["-B", TOOLS / "line", project, *(words or ("--program", checks.program))]
            os.execv(sys.executable, [sys.executable, *map(str, given)])
        self.until(PROMPT)

    def until(self, ending: bytes) -> str:
        """What is written up to some bytes."""
        written, end = b"", time.monotonic() + SECONDS
        while not written.endswith(ending):
            if not select.select([self.file], [], [], end - time.monotonic())[0]:
                raise TimeoutError(f"the session wrote {written!r} and no prompt")
            written += os.read(self.file, 65_536)
        return written.removesuffix(ending).decode().replace("\r\n", "\n")

    def give(self, command: str) -> str:
        """What a command is answered, after the line that shows the command itself."""
        os.write(self.file, command.encode() + b"\n")
        return self.until(PROMPT).partition("\n")[2]

    def end(self) -> int:
        """The session's exit status when its input ends."""
        os.write(self.file, b"\x04")
        status = os.waitstatus_to_exitcode(os.waitpid(self.process, 0)[1])
        os.close(self.file)
        return status


def check_day(checks: Checks, project: Path) -> None:
    """The day of the tool changer, by names; what was saved of it is a run of the program itself."""
    terminal = Terminal(checks, project)
    for command, wanted in DAY:
        answer = terminal.give(command)
        checks.equal(f"> {command}: {wanted} in {answer!r}", True, wanted in answer)
    saved = checks.scratch / "saved.in"
    checks.equal("save", True, "commands are written to" in terminal.give(f"save {saved}"))
    checks.equal("completion", "get position_x", completed(terminal, "get posi"))
    status, lines = checks.hotline(saved.read_bytes())
    checks.equal("a saved session", (0, "epoch 2 recut 1 moved 1"), (status, lines[-1]))
    checks.equal("the status of a session", 0, terminal.end())


def completed(terminal: Terminal, beginning: str) -> str:
    """A line whose last word the terminal completes."""
    os.write(terminal.file, beginning.encode() + b"\t")
    time.sleep(0.3)
    os.write(terminal.file, b"\n")
    return terminal.until(PROMPT).split("\n")[0].strip()


def check_typing(checks: Checks, project: Path) -> None:
    """Lines from a file in place of a terminal are shown with their answers; a copy of the line bears what is asked."""
    given = b"show 1 0\ncost connect gripper\ncost move 1004 0 0\nshow 1 0\nhistory\nlayout\n"
    ended = checks.tool("line", project, "--program", checks.program, given=given)
    shown = [line for line in ended.said.splitlines() if line.startswith("frame 0: ")]
    checks.equal("serials and epochs that a cost leaves", (0, 2, 1), (ended.status, len(shown), len(set(shown))))
    checks.equal("an epoch that a cost leaves", True, "\nepoch 0\n" in ended.said and "no command is kept" in ended.said)


@contextmanager
def served(checks: Checks, project: Path, *words: object) -> Iterator[int]:
    """The port of a page that is shown meanwhile."""
    command = [sys.executable, "-B", TOOLS / "line", project, "--serve", *(words or ("--program", checks.program))]
    complaints = checks.scratch / "complaints"
    with complaints.open("wb") as complained, subprocess.Popen(command, stdout=subprocess.PIPE, stderr=complained) as process:
        try:
            yield int(re.search(rb":(\d+)/", process.stdout.readline())[1])
        finally:
            process.terminate()
    checks.equal("what the page's server complains of", b"", complaints.read_bytes())


class Browser:
    """Requests as a browser makes them."""

    def __init__(self, port: int) -> None:
        self.host = f"127.0.0.1:{port}"

    def request(self, method: str, path: str, headers: dict[str, str], body: str = "") -> tuple[int, str]:
        """A request's status and answer."""
        connection = http.client.HTTPConnection(self.host, timeout=SECONDS)
        connection.request(method, path, body.encode(), headers)
        response = connection.getresponse()
        answer = response.status, response.read().decode()
        connection.close()
        return answer

    def give(self, command: str, token: str, origin: str | None = None, path: str = "/command") -> tuple[int, str]:
        """A command as the page sends it."""
        headers = {"X-Session": token, "Origin": origin or f"http://{self.host}"}
        return self.request("POST", path, headers, command)


def token_of(page: str) -> str:
    """The token of a page."""
    return re.search(r'data-token="([^"]+)"', page)[1]


def check_page(checks: Checks, project: Path) -> None:
    """The page: what it shows, and who is sent away."""
    with served(checks, project) as port:
        browser = Browser(port)
        status, page = browser.request("GET", "/", {})
        token = token_of(page)
        checks.equal("the page", 200, status)
        check_strangers(checks, browser, token)
        for command in ON_PAGE:
            status, answer = browser.give(command, token)
            checks.equal(f"the page's {command}", (200, False), (status, json.loads(answer)["lines"][0].startswith("?")))
        state = json.loads(answer)
        numbers = {name: value.split(",")[0] for name, _, value in state["values"] if "," in value}
        checks.equal("the values on the page", viewed(checks, project), {name: numbers.get(name) for name in VIEWED})
        checks.equal("the last edit on the page", "connect 100", state["change"][0])
        checks.equal("the picture on the page", True, state["picture"].lstrip().startswith("<svg"))
        for command in ("save /tmp/stolen", "declare /etc/passwd"):
            lines = json.loads(browser.give(command, token)[1])["lines"]
            checks.equal(f"the page's {command}", "? NotHere", lines[0].split(":")[0])
        check_in_browser(checks, browser, viewed(checks, project))


def viewed(checks: Checks, project: Path) -> dict[str, str]:
    """The same values as the program itself views them, and as its simulated slave has them."""
    commands = "connect 100\nname\nprogram\npoke 1002 0x1180 3706e5030000\npoke 2001 0x1180 015802\npost 0 2=1200\ntake\ncycle 0 1\n"
    looks = "view 0 12\nview 1 113\npeek 1002 0x1102 4\n"
    _, lines = checks.hotline(project.read_bytes() + b"%%\n" + (commands + looks).encode())
    target = int.from_bytes(bytes.fromhex(lines[-1].split(": ")[1]), "little")
    return {"position_x": lines[-3].split()[-1], "pressure": lines[-2].split()[-1], "target_x": str(target)}


def check_strangers(checks: Checks, browser: Browser, token: str) -> None:
    """Requests that are sent away."""
    checks.equal("another host", 403, browser.request("GET", "/", {"Host": "example.org"})[0])
    for path in ("/../examples/tool_changer.toml", "/etc/passwd", "/command"):
        checks.equal(f"the path {path}", 404, browser.request("GET", path, {})[0])
    checks.equal("a command to another path", 404, browser.give("layout", token, path="/other")[0])
    checks.equal("another origin", 403, browser.give("layout", token, origin="http://example.org")[0])
    checks.equal("no origin", 403, browser.request("POST", "/command", {"X-Session": token}, "layout")[0])
    checks.equal("another token", 403, browser.give("layout", token[:-1])[0])
    checks.equal("a command that is too long", 400, browser.give("x" * 70_000, token)[0])


def check_in_browser(checks: Checks, browser: Browser, values: dict[str, str]) -> None:
    """The page as headless Chromium has it after its script ran, where it is installed; two pictures of it stay in build/."""
    chromium = shutil.which("chromium")
    if chromium is None:
        return
    words = [chromium, "--headless", "--no-sandbox", "--disable-gpu", "--virtual-time-budget=8000", "--window-size=1100,1500"]
    address = f"http://{browser.host}/"
    run = subprocess.run([*words, "--dump-dom", address], capture_output=True, timeout=SECONDS)
    rows = dict(re.findall(r"<tr><td>(.*?)</td><td>.*?</td><td>(\d+),.*?</td></tr>", run.stdout.decode()))
    checks.equal("the values in Chromium", values, {name: rows.get(name) for name in values})
    PICTURES.mkdir(exist_ok=True)
    pictures = {}
    for scheme, number in (("dark", 0), ("light", 1)):
        path = PICTURES / f"line-{scheme}.png"
        chosen = [f"--blink-settings=preferredColorScheme={number}", f"--screenshot={path}"]
        subprocess.run([*words, *chosen, address], capture_output=True, timeout=SECONDS)
        pictures[scheme] = path.read_bytes() if path.exists() else b""
    checks.equal("pictures of the page, of two kinds", True, len({b"", *pictures.values()}) == 3)

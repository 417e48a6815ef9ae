"""Transcripts of runs: each command before its answers, and how long a program may take."""

from checks import TOOLS, Checks

EXAMPLES = TOOLS.parent / "examples"
TEXT = """\
[[slave]]
station = 1

[[slave.area]]
sm = 0
dir = "out"
phys = 0x1000
task = 0
assigned = [1]
pdo = [{ index = 1, entries = [[7, 8]] }]

[[slave]]
station = 2
%%
"""
# Commands with their answers as the page of the program has them: several lines, one, none, and the line `none` itself.
WRITTEN = """\
> layout
epoch 0
task 0 parts 1 0
datagram 0 address 0x01000000 length 1 expected 2
> place 7
var 7 task 0 datagram 0 bit 0 bits 8 dir out
> place 8
none
> show 1 0
none
> regs 2
> regs 1
sm 0 at 0x0800: 00 10 01 00 64 00 01 00
fmmu 0 at 0x0600: 00 00 00 01 01 00 00 07 00 10 00 02 01 00 00 00
> regs 3
refused 5 UnknownStation
> scan
slot 0 alias 0
slot 1 alias 0
> declare
> [[group]]
> alias = 9
> [[group.slave]]
> station = 9
> %%
epoch 1 recut 0 moved 0
> name
named 2
> program
written 2 owed 0
> cycle 0
inputs 0 0
"""
GIVEN = "".join(line.removeprefix("> ") for line in WRITTEN.splitlines(keepends=True) if line.startswith("> "))


def check(checks: Checks) -> None:
    """All checks of transcripts."""
    given = f"\n{GIVEN}".replace("regs 1\n", "\nregs 1\r\n")
    ended = checks.tool("transcript", "-", "--program", checks.program, given=(TEXT + given).encode())
    checks.equal("a transcript", (0, WRITTEN, ""), (ended.status, ended.said, ended.complaint))
    for path in sorted(EXAMPLES.glob("*.in")):
        said = checks.tool("transcript", path, "--program", checks.program).said
        printed = "".join(line for line in said.splitlines(keepends=True) if not line.startswith("> "))
        checks.equal(f"the answers of {path.name}", path.with_suffix(".out").read_text(), printed)
    checks.equal("no commands", "", checks.tool("transcript", "-", "--program", checks.program, given=b"slave = []").said)
    check_refusals(checks)
    check_seconds(checks)


def check_refusals(checks: Checks) -> None:
    """A run that ends early is refused in the program's words, with the line as it is counted in the input."""
    for given, said in (("layout\n\nlayuot\n", f"line {TEXT.count(chr(10)) + 3}: bad command"), ("place 7\narrive 0\n", "bad command")):
        ended = checks.tool("transcript", "-", "--program", checks.program, given=(TEXT + given).encode())
        checks.equal(f"a transcript of {given!r}", (2, "", True), (ended.status, ended.said, said in ended.complaint))
    ended = checks.tool("transcript", "-", "--program", checks.program, given=b"slave = 3\n%%\nlayout\n")
    checks.equal("no project", (2, True), (ended.status, "project fault 2 MissingField" in ended.complaint))


def check_seconds(checks: Checks) -> None:
    """A program has as long as is said, and no longer."""
    given = f"{TEXT}place 7\n".encode()
    slow = checks.file("slow", f"#!/bin/sh\nsleep 2\nexec {checks.program}\n")
    slow.chmod(0o755)
    ended = checks.tool("transcript", "-", "--program", slow, "--seconds", 1, given=given)
    checks.equal("a slow program", (2, True), (ended.status, "didn't end within 1 seconds; --seconds" in ended.complaint))
    ended = checks.tool("transcript", "-", "--program", slow, "--seconds", 30, given=given)
    checks.equal("a slow program with time", (0, 2), (ended.status, len(ended.said.splitlines())))

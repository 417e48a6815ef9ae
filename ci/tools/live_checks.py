"""The library, if there is one: a session over it answers as hotline does and keeps its line, and captures have its slaves."""

import random
import tomllib
from collections.abc import Iterator

from capture_checks import check_library
from checks import TOOLS, Checks
from line_checks import Terminal
from named_changer import DAY, named_changer

from line.line import Line
from line.live import Live, library_player, live_of
from line.replay import commands_in
from projects.files import parted

SLAVES, COMMANDS = 64, 50
SLAVE = """
[[slave]]
station = {station}
[[slave.area]]
sm = 2
dir = "out"
phys = 0x1100
task = 0
assigned = [0x1600]
pdo = [{{ index = 0x1600, entries = [[{first}, 16], [{second}, 32]] }}, {{ index = 0x1601, entries = [[{third}, 48]] }}]
[[slave.area]]
sm = 3
dir = "in"
phys = 0x1180
task = 0
assigned = [0x1a00]
pdo = [{{ index = 0x1a00, entries = [[{fourth}, 16], [{fifth}, 32]] }}]
"""


CHANGER = TOOLS.parent / "examples/tool_changer.toml"
SCRIPTS, LENGTH = 12, 120
# The kinds of the words of drawn commands; a group that is declared later is drawn as the others from the beginning.
DRAWN = {
    **{"layout": "", "regs": "station", "show": "task few", "place": "variable", "connect": "alias", "disconnect": "alias"},
    **{"remap": "station few pdo", "move": "station few task", "write": "", "send": "task", "read": "task", "scan": "", "name": ""},
    **{"post": "task setting", "take": "", "view": "task variable", "program": "", "cycle": "task", "declare": ""},
    **{"poke": "station register bytes", "peek": "station register size"},
}
OFTEN = ("connect", "remap", "post", "take", "program", "cycle", "cycle")
DECLARED = """declare
[[group]]
alias = 300
[[group.slave]]
station = 3300
[[group.slave.area]]
sm = 2
dir = "out"
phys = 0x1000
task = 1
assigned = [1]
pdo = [{ index = 1, entries = [[3001, 8]] }]
%%"""


def check(checks: Checks) -> None:
    """All checks of the session and the captures over the library; without one this is said."""
    player = library_player()
    if player is None:
        print("tools: there is no library, and no session and no capture over it is tried (ci/embed.sh does)")
        return
    check_library(checks, player.zangjulf)
    check_answers(checks)
    for seed in range(SCRIPTS):
        check_drawn(checks, seed)
    check_day(checks)
    check_many(checks)
    check_interrupts(checks)


def check_answers(checks: Checks) -> None:
    """What hotline prints of the stored inputs, which the gate compares with it."""
    for path in sorted([*(TOOLS.parent / "examples").glob("*.in"), TOOLS.parent / "ci/scripts/declared.in", TOOLS.parent / "ci/scripts/frames.in"]):
        text, commands = parted(path.read_bytes())
        answers = played(text, commands)
        checks.equal(f"answers to {path.name} over the library", path.with_suffix(".out").read_text().splitlines(), answers)


def check_drawn(checks: Checks, seed: int) -> None:
    """What hotline prints of drawn commands, refused ones among them."""
    draw, text = random.Random(seed), CHANGER.read_bytes()
    document = tomllib.loads(text.decode())
    slaves = [*document["slave"], *(slave for group in document["group"] for slave in group["slave"])]
    offered = [pdo for slave in slaves for area in slave.get("area", []) for pdo in area["pdo"]]
    variables = [3001, 999, *(variable for pdo in offered for variable, _ in pdo["entries"])]
    kinds = {
        "station": [9, 3300, *(slave["station"] for slave in slaves)],
        "alias": [0, 7, 300, *(group["alias"] for group in document["group"])],
        "task": [0, 0, 1, 1, 2, 8],
        "few": [0, 0, 1, 2],
        "pdo": [pdo["index"] for pdo in offered],
        "variable": variables,
        "setting": [f"{variable}={value}" for variable in variables for value in (0, 1, 5, 255, 70000)],
        "register": ["0x1100", "0x1180", "0x0600", "0x0010"],
        "bytes": ["00", "0102", "ff00ff"],
        "size": [1, 4, 16],
    }
    given = []
    for name in draw.choices([*DRAWN, *OFTEN], k=LENGTH):
        words = [str(draw.choice(kinds[kind])) for kind in DRAWN[name].split()]
        given.append(DECLARED if name == "declare" else " ".join([name, *words]))
    commands = "\n".join(given).encode() + b"\n"
    status, lines = checks.hotline(text + b"%%\n" + commands)
    checks.equal(f"drawn commands over the library, {seed}", (0, lines), (status, played(text, commands)))


def played(text: bytes, commands: bytes) -> list[str]:
    """The lines of a session's answers, command by command."""
    live = live_of(text)
    return [line for command in commands_in(commands) for line in live.play([command])[0]]


def check_day(checks: Checks) -> None:
    """The day of the tool changer; a history brings it back."""
    project, kept = checks.file("named_changer.toml", named_changer()), checks.scratch / "day.in"
    terminal = Terminal(checks, project, "--history", kept)
    for command, wanted in DAY:
        answer = terminal.give(command)
        checks.equal(f"> {command} over the library: {wanted} in {answer!r}", True, wanted in answer)
    history = terminal.give("history")
    terminal.end()
    again = Terminal(checks, project, "--history", kept)
    checks.equal("the history over the library after a restart", history, again.give("history"))
    again.end()
    broken = checks.tool("line", checks.file("broken.toml", CHANGER.read_bytes() + b"layout\n"))
    checks.equal("no project over the library", (2, True), (broken.status, "is a line %% missing" in broken.complaint))
    status, lines = checks.hotline(kept.read_bytes())
    checks.equal("a kept history is an input of hotline", (0, "epoch 2 recut 1 moved 1"), (status, lines[-1]))


def slaves() -> Iterator[str]:
    """The text of the slaves."""
    for place in range(SLAVES):
        names = {name: 10 * place + at for at, name in enumerate(("first", "second", "third", "fourth", "fifth"), 1)}
        yield SLAVE.format(station=1001 + place, **names)


def check_many(checks: Checks) -> None:
    """A session of 50 commands on 64 slaves, with cycles, values and edits: each is carried out."""
    line = Line(live_of("".join(slaves()).encode()), "slaves")
    given = ["name", "program", "cycle 0", "table", "remap 1005 0 0x1601", "diff", "cost remap 1006 0 0x1601", "owed", "program", "set 1=7"]
    for command in given * (COMMANDS // len(given)):
        checks.equal(f"{command} on {SLAVES} slaves is answered", True, bool(line.respond(command)))


def check_interrupts(checks: Checks) -> None:
    """A command that is broken off at any point leaves the line as it was."""
    line = Line(live_of("".join(slaves()).encode()), "slaves")
    line.respond("name")
    replay: Live = line.replay
    arrived, left = replay.player.arrived, iter(range(100))

    def broken(frame: bytes) -> list[str]:
        if next(left) == 60:
            raise KeyboardInterrupt
        return arrived(frame)

    replay.player.arrived = broken
    try:
        line.respond("program")
    except KeyboardInterrupt:
        pass
    blocks = 4 * SLAVES
    checks.equal("owed after an interrupt", f"{blocks} register blocks are owed", line.respond("owed")[0])
    checks.equal("program after an interrupt", f"written {blocks} owed 0", line.respond("program")[0])


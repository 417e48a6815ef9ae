"""The reader of all tools beside the program: which texts both take, what is in them, and on which lines."""

import re
from itertools import count

from checks import Checks
from drawn_texts import Drawer
from notations import PROJECT, Notation

from projects.records import read_project
from projects.toml import TomlFault, read_toml, walked

SEED, DRAWN, NOTATIONS, ALONE = 20, 3000, 100, 100
# So many texts are declared in a run of the program.
PORTION = 400
MARKED = range(7_000_001, 7_001_000)
ALONE_NUMBER = re.compile(r"(?<![\w.:+\"'-])[12](?![\w.:+\"'-])")


def check(checks: Checks) -> None:
    """All checks of the reader."""
    texts = [text if text.endswith(b"\n") else text + b"\n" for text in Drawer(SEED).texts(DRAWN)]
    taken = [is_taken(text) for text in texts]
    checks.equal("drawn texts of both kinds", (True, True), (taken.count(True) > 500, taken.count(False) > 500))
    check_declared(checks, texts, taken)
    check_alone(checks)
    check_lines(checks, [text for text, is_right in zip(texts, taken) if is_right])
    check_notations(checks)


def is_taken(text: bytes) -> bool:
    """Whether the reader takes a text."""
    try:
        read_toml(text)
    except TomlFault:
        return False
    return True


def check_declared(checks: Checks, texts: list[bytes], taken: list[bool]) -> None:
    """Each text as the document of a `declare`: the program says of each whether it is TOML."""
    for first in range(0, len(texts), PORTION):
        portion = texts[first : first + PORTION]
        _, lines = checks.hotline(b"%%\n" + b"".join(b"declare\n" + text + b"%%\n" for text in portion))
        for text, wanted, said in zip(portion, taken[first:], lines, strict=False):
            checks.equal(f"declared {text!r}", said != "declare fault 1 NotToml", wanted)
        checks.equal("answers", len(portion), len(lines))


def check_alone(checks: Checks) -> None:
    """Texts as a whole input, where the last line may lack its end."""
    drawer = Drawer(SEED + 1)
    for row in range(ALONE):
        text = drawer.document()
        content = drawer.spoilt(text) if row % 2 else text.rstrip("\r\n").encode()
        _, lines = checks.hotline(content)
        checks.equal(f"read {content!r}", lines != ["project fault 1 NotToml"], is_taken(content))


def check_lines(checks: Checks, texts: list[bytes]) -> None:
    """The line of each value: small integers, each written anew as one that occurs once, are found where they are."""
    marked = [text for text in (numbered(text.decode()) for text in texts) if is_taken(text.encode())]
    for text in marked:
        values = [node for _, node in walked(read_toml(text.encode()))]
        nodes = [node for node in values if isinstance(node.value, int) and node.value in MARKED]
        wanted = {node.value: text[: text.index(str(node.value))].count("\n") + 1 for node in nodes}
        checks.equal(f"lines of {text!r}", wanted, {node.value: node.line for node in nodes})
    checks.equal("texts with lines", True, len(marked) > 500)


def numbered(text: str) -> str:
    """A text with a number of its own for each 1 and 2 that is by itself, be it a value or a key."""
    numbers = count(MARKED[0])
    return ALONE_NUMBER.sub(lambda _: str(next(numbers)), text)


def check_notations(checks: Checks) -> None:
    """One project in many notations: the program configures the same line, and the reader finds the same project."""
    plain = Notation(0).document(PROJECT).encode()
    stations = [slave.station for slave, _ in read_project(read_toml(plain), []).slaves()]
    questions = ["layout", "connect 1", *(f"regs {station}" for station in stations)]
    questions += ["place 1", "place 4294967295", "place 3"]
    commands = ("\n%%\n" + "\n".join(questions) + "\n").encode()
    wanted = checks.hotline(plain + commands)
    checks.equal("status of a project", 0, wanted[0])
    for seed in range(NOTATIONS):
        text = Notation(seed).document(PROJECT).encode()
        checks.equal(f"notation {seed}, read", PROJECT, read_toml(text).plain())
        checks.equal(f"notation {seed}, configured", wanted, checks.hotline(text + commands))

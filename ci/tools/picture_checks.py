"""Pictures: of a text in another notation, for readers that know no names of colours, and what can't be drawn."""

import re

from checks import TOOLS, Checks

EXAMPLE = TOOLS.parent / "examples/tool_changer.toml"
DAY = TOOLS.parent / "examples/tool_changer_day.in"
RULE = re.compile(r"\{([^{}]*)\}")
BY_NAME = re.compile(r"([\w-]+): [^;{}]*var\(--\w+\)")


def check(checks: Checks) -> None:
    """All checks of pictures that ci/pictures.sh doesn't make."""
    plain = drawn(checks, EXAMPLE)
    text = EXAMPLE.read_text()
    marked = "\ufeff" + text.replace("\n", "\r\n").replace("] }]", "],\r\n }, ]")
    checks.equal("a picture of another notation", plain, drawn(checks, checks.file("tool_changer.toml", marked)))
    for words in ([], ["--report"]):
        check_colours(checks, drawn(checks, EXAMPLE, *words))
    check_usage(checks)


def drawn(checks: Checks, *words: object) -> str:
    """What the tool draws."""
    ended = checks.tool("picture", *words, "--program", checks.program)
    checks.equal(f"picture {words}", (0, ""), (ended.status, ended.complaint))
    return ended.said


def check_colours(checks: Checks, document: str) -> None:
    """Before each colour that is taken by a name the same property has a plain one."""
    style = document[document.index("<style>") : document.index("</style>")]
    named = [(rule, found) for rule in RULE.findall(style) for found in BY_NAME.finditer(rule)]
    without = [
        found[0]
        for rule, found in named
        if not re.search(rf"{found[1]}: [^;]*#[0-9a-f]{{6}}; $", rule[: found.start()])
    ]
    checks.equal("colours without a plain one before", ([], True), (without, len(named) > 5))
    paper = '<rect class="paper" width="100%" height="100%" fill="#ffffff"/>'
    checks.equal("a paper by itself", True, paper in document)


def check_usage(checks: Checks) -> None:
    """What can't be drawn is refused with status 2."""
    program = ["--program", checks.program]
    short = EXAMPLE.read_text().replace("entries = [[1, 16]", 'names = ["x"], entries = [[1, 16]')
    for words, kind in (
        ([DAY, "--since", 99], "NoSuchEpoch"),
        ([EXAMPLE, "--since", 0], "NoSuchEpoch"),
        ([DAY, "--since", -1], "NoSuchEpoch"),
        ([checks.file("wrong.toml", "a = "), *program], "project fault 1 NotToml"),
        ([checks.file("named.toml", short)], "NamesLength"),
    ):
        checks.refused(f"picture {words}", checks.tool("picture", *words, *program), kind)
    checks.equal(
        "two lines beside one",
        2,
        checks.tool("picture", DAY, "--since", 0, "--against", EXAMPLE, *program).status,
    )
    checks.equal("help of picture", 0, checks.tool("picture", "--help").status)

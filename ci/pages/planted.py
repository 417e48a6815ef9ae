"""Planted mistakes: each kind of check must find its own, so that none of them is idle."""

from collections.abc import Callable, Iterator
from pathlib import Path

from commands import Step, check_commands, run_step
from definitions import PAGE, check_definitions
from doors import check_doors
from findings import Finding
from frames import check_frames
from header import HEADER, check_header
from links import check_links, check_names, check_words
from limits import IN_ALL, check_limits, check_sentences
from pages import Block, Pages
from quotes import check_quotes, check_sessions

Check = Callable[[Pages], Iterator[Finding]]

SOURCE = "int add(int a, int b) {\n    return a + b;\n}\n"
RUN_IN = "layout\nregs 1001\narrive ff0203\n"
RUN_OUT = "epoch 0\nsm 2\nsent 0: ff0200\n"
GOOD = """# One page

See [below](#the-end), and `add`.

<!-- quoted: add.c -->
```c
    return a + b;
```

<!-- session: run -->

    $ layout
    epoch 0
    $ regs 1001
    sm 2

<!-- frames: run -->
| Sent | Comes back | |
|---|---|---|
| ff02 | ff02 | head |
| 00 | 03 | data |

```sh
true
```

<!-- not run: it takes an hour -->
```sh
rt ci
```

## The end
"""
LONG = " ".join(["word"] * 30) + ". "

# (kind, check, what is changed in the good page, and into what)
MISTAKES: tuple[tuple[str, Check, str, str], ...] = (
    ("link", check_links, "#the-end", "#the-beginning"),
    ("link", check_links, "#the-end", "gone.md"),
    ("word", check_words, "`add`", "`subtract`"),
    ("quote", check_quotes, "return a + b;", "return a - b;"),
    ("quote", check_quotes, "<!-- quoted: add.c -->\n", ""),
    ("quote", check_quotes, "quoted: add.c", "quoted: gone.c"),
    ("quote", check_quotes, "```c\n", "```cobol\n"),
    ("session", check_sessions, "    sm 2", "    sm 3"),
    ("session", check_sessions, "    $ regs 1001", "    $ regs 1002"),
    ("frame", check_frames, "| 00 | 03 |", "| 00 | 04 |"),
    ("frame", check_frames, "| 00 | 03 |", "| | 03 |"),
    ("frame", check_frames, "frames: run", "frames: gone"),
    ("frame", check_frames, "frames: run -->", "frames: run -->\n"),
    ("limit", check_limits, "# One page", "# One page\n\n" + "word " * 1000),
    ("limit", check_limits, "# One page", "# One page\n\n" + "word " * IN_ALL),
    ("sentence", check_sentences, "# One page", "# One page\n\n" + LONG * 9),
    ("command", check_commands, "    $ layout", "    $ rt ci"),
    ("command", check_commands, "not run: it takes an hour", "not run: slow"),
    ("command", check_commands, "not run: it takes an hour", "run by: add.c"),
)


def find_planted(folder: Path) -> Iterator[tuple[str, bool]]:
    """Of each planted mistake what it is, and whether it was found, and it alone."""
    good = Pages(folder, {"PAGE.md": GOOD}, {"add.c": SOURCE, "run.in": RUN_IN, "run.out": RUN_OUT})
    checks = {check for _, check, _, _ in MISTAKES}
    yield "a good page is taken", not any(list(check(good)) for check in checks)
    for kind, check, old, new in MISTAKES:
        found = list(check(good.with_page("PAGE.md", GOOD.replace(old, new, 1))))
        yield f"{kind}: {old.strip()} -> {new.strip()[:40]}", {finding.kind for finding in found} == {kind}
    yield from ((f"definition: {mistake}", is_found) for mistake, is_found in _planted_definitions(folder))
    yield from ((f"header: {mistake}", is_found) for mistake, is_found in _planted_in_header(folder))
    yield from ((f"door: {mistake}", is_found) for mistake, is_found in _planted_doors(folder))
    named = Pages(folder, {}, {"tool.py": "# " + "docs/GONE" + ".md has more\n"})
    yield "name: a page that is gone", [finding.kind for finding in check_names(named)] == ["name"]
    for script, printed in (("false", None), ("echo 1", "2")):
        output = Block("PAGE.md", 1, "text", (printed,), "printed") if printed else None
        wrong = run_step(Step(Block("PAGE.md", 1, "sh", (script,)), output), folder)
        yield f"run: {script}", wrong is not None and wrong.kind == "run"
    right = Step(Block("PAGE.md", 1, "sh", ("echo 1",)), Block("PAGE.md", 1, "text", ("1",), "printed"))
    yield "a good command is taken", run_step(right, folder) is None


DOOR = "crates/worked_doors/src/a.rt"
DOOR_PAGE = f"# A\n\n<!-- quoted: {DOOR} -->\n```rust\nlet a = 1;\n```\n"


def _planted_doors(folder: Path) -> Iterator[tuple[str, bool]]:
    """A page with its crate's example, one that quotes another file, and an example without a page."""
    for mistake, page, count in (
        ("none", DOOR_PAGE, 0),
        ("another file is quoted", DOOR_PAGE.replace(DOOR, "a.rt"), 1),
        ("no example", "# A\n", 1),
    ):
        pages = Pages(folder, {"crates/hc_a/README.md": page}, {DOOR: "#[test]\nfn a() {\n    let a = 1;\n}\n"})
        yield mistake, [finding.kind for finding in check_doors(pages)] == ["door"] * count


SPECS = {"crates/hc_a/specs/A.antt": "abbrev pub width : A\n", "crates/hc_b/specs/B.antt": "pub record IsCut : B where\n  pub few : A\n"}


def _planted_definitions(folder: Path) -> Iterator[tuple[str, bool]]:
    """Names below a heading of their crate, of another crate, and of none."""
    for text, count in (("`width`, `few`", 0), ("`IsCut`", 1), ("`IsCut` of `hc_b`", 0), ("`unknown`", 0)):
        pages = Pages(folder, {PAGE: f"# All\n\n## Areas (`hc_a`)\n\n{text}\n"}, SPECS)
        yield text, [finding.kind for finding in check_definitions(pages)] == ["definition"] * count


GOOD_HEADER = """/* Refusals.
 *
 *   zangjulf_a, _b                          ROOM: `*size`
 *   zangjulf_c                              ROOM: `sent->size`; WAITS: `sent->waits`
 */
/* Answers: DONE; ROOM, with the bytes needed in `*size`. */
ZANGJULF_CHECKED uint8_t zangjulf_a(uint8_t *out, size_t length, size_t *size);

/* Answers: DONE; ROOM. With both `*size` is 60. */
ZANGJULF_CHECKED uint8_t zangjulf_b(const uint8_t *out, size_t length, size_t *size);

struct zangjulf_sent {
    uint32_t size;
    uint32_t waits; /* of WAITS how many are owed */
};

/* Sends.
 *
 *   WAITS  a task waits; `sent->waits` says why
 *   ROOM   `out` is too short; the bytes needed are in `sent->size` */
ZANGJULF_CHECKED uint8_t zangjulf_c(struct zangjulf *handle, struct zangjulf_sent *sent);
"""


def _planted_in_header(folder: Path) -> Iterator[tuple[str, bool]]:
    """A header whose list is right, one that lacks an entry, one with an entry too many, and one with a value that isn't written."""
    changes = (
        *(("", "", 0), (" *   zangjulf_a, _b ", " *   zangjulf_a     ", 1), ("; WAITS: `sent->waits`", "", 1)),
        *(("ROOM, with the bytes needed in `*size`. ", "Nothing. ", 1), ("how many are owed */", "how many are owed; else 0 */", 1)),
    )
    for old, new, count in changes:
        pages = Pages(folder, {}, {HEADER: GOOD_HEADER.replace(old, new)})
        yield f"{old.strip()} -> {new.strip()}", [finding.kind for finding in check_header(pages)] == ["header"] * count

"""The C header's list of what refusals write, beside what is said of each call."""

import re
from collections.abc import Iterator

from findings import Finding
from pages import Pages

HEADER = "include/zangjulf.h"
Written = tuple[str, str, str]  # a call, its answer as the list has it, and the parameter that is written

NAME = r"[A-Z][A-Z_]*(?:\.\.)?"
CALL = re.compile(
    r"/\*(?P<said>(?:(?!\*/).)*)\*/\s*(?:ZANGJULF_CHECKED )?(?:uint8_t|void|bool|uint32_t) (?P<name>zangjulf_\w+)\((?P<taken>[^)]*)\);", re.S
)
STRUCT = re.compile(r"struct (?P<name>zangjulf_\w+) \{(?P<fields>.*?)\n\};", re.S)
OUT = re.compile(r"(?<!const )(?:struct )?(?P<kind>\w+) \*(?P<name>\w+)(?P<slice>, size_t)?")


def taken_by(call: re.Match[str]) -> dict[str, str]:
    """The parameters that a call writes, with their types; neither slices nor handles."""
    taken = re.sub(r"const (?:struct )?\w+ \*\w+", "", re.sub(r"\s+", " ", call["taken"]))
    found = (out for out in OUT.finditer(taken) if not out["slice"] and out["kind"] not in ("zangjulf", "zangjulf_seat"))
    return {out["name"]: out["kind"] for out in found}


def said_of_structs(text: str) -> dict[str, set[str]]:
    """For each struct the answers of refusals that its fields' comments name, as `of WAITS`."""
    return {struct["name"]: set(re.findall(rf"/\* of ({NAME}) ", struct["fields"])) for struct in STRUCT.finditer(text)}


def said_of_calls(text: str) -> Iterator[Written]:
    """What the comments above the calls say that a refusal writes."""
    structs = said_of_structs(text)
    for call in CALL.finditer(text):
        said, outs = re.sub(r"\s*\n \*", " ", call["said"]), taken_by(call)
        named = [("ROOM", out) for out in re.findall(r"bytes\s+needed (?:are )?in `\*?(\w+)|ROOM\. With both `\*(\w+)`", said) for out in out]
        rows = re.findall(rf"^ \*   ({NAME})  +(.*(?:\n \* {{4,}}.*)*)", call["said"], re.M)
        named += [(name, out) for name, row in rows for out in re.findall(r"; `\*?(\w+)(?:->\w+)?` ", row)]
        named += [(name, out) for out, kind in outs.items() for name in structs.get(kind, ()) if re.search(rf"\b{name}\b", said)]
        yield from ((call["name"], name, out) for name, out in named if out in outs)


def listed(text: str) -> Iterator[Written]:
    """The list at the header's head; a name that begins with `_` goes on where the one before it ends its first word."""
    head = text.partition("*/")[0]
    row = rf"^ \*   ((?:zangjulf)?_[\w, ]*?(?:,\n \*   _[\w, ]*?)*) +((?:{NAME}: `[^`]+`(?:; )?)+)$"
    for names, written in re.findall(row, head, re.M):
        for name in re.findall(r"\w+", names):
            full = name if name.startswith("zangjulf") else "zangjulf" + name
            for answer, out in re.findall(rf"({NAME}): `\*?(\w+)(?:->\w+)?`", written):
                yield full, answer, out


def check_header(pages: Pages) -> Iterator[Finding]:
    """The list has just what is said of the calls, and no field's comment has a value for a refusal that leaves it."""
    text = pages.sources.get(HEADER, "")
    said, named = set(said_of_calls(text)), set(listed(text))
    for call, number, out in sorted(said - named):
        yield Finding("header", HEADER, 0, f"{call} writes {out} with {number}, which the list lacks")
    for call, number, out in sorted(named - said):
        yield Finding("header", HEADER, 0, f"{call} is listed to write {out} with {number}, which isn't said of it")
    for field in re.findall(rf"/\* (of (?!PROJECT_){NAME} [^*]*; else 0) \*/", text):
        yield Finding("header", HEADER, 0, f"another refusal leaves it: {field}")

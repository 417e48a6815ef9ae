"""Findings: what they are, and how a text says that one is meant."""

from collections.abc import Iterator
from dataclasses import dataclass

from projects.toml import Node, walked

# What a text may say is meant, by a key `allow` in the table to which a finding belongs or in one around it.
ALLOWED = {
    "UnknownKey": "a key that nothing reads",
    "StrayArea": "an area or PDO that went to a slave before another header",
    "ThreeBuffers": "buffers of a slave's sync managers that overlap",
    "ThreeBuffersLater": "buffers that overlap once all offered PDOs are assigned",
    "SharedTask": "a group whose task carries areas of others",
}


@dataclass(frozen=True)
class Finding:
    """What was found, by a kind that stays the same, with its line and the path of its table."""

    line: int
    kind: str
    words: str
    path: str = ""

    def __str__(self) -> str:
        return f"{self.line}: {self.kind}: {self.words}"


@dataclass(frozen=True)
class Allowance:
    """A kind that a table says is meant."""

    path: str
    kind: str
    line: int

    def covers(self, finding: Finding) -> bool:
        """Whether a finding is of the kind and lies in the table."""
        inside = not self.path or finding.path == self.path or finding.path.startswith(f"{self.path}.")
        return inside and finding.kind == self.kind and self.kind in ALLOWED


def allowances(document: Node) -> Iterator[Allowance]:
    """What the tables of a document say is meant."""
    for path, node in walked(document):
        allow = node.get("allow")
        if allow is None:
            continue
        for item in allow.value if isinstance(allow.value, list) else [allow]:
            yield Allowance(path, item.value if isinstance(item.value, str) else "no string", item.line)


def remaining(findings: list[Finding], document: Node, is_open: bool) -> list[Finding]:
    """The findings that aren't meant, by line; where the text opens, allowances for which there is nothing too."""
    given = list(allowances(document))
    left = [finding for finding in findings if not any(one.covers(finding) for one in given)]
    for one in given:
        if one.kind not in ALLOWED:
            left.append(Finding(one.line, "UnknownKind", f"{one.kind} is none of {', '.join(ALLOWED)}"))
        elif is_open and not any(one.covers(finding) for finding in findings):
            left.append(Finding(one.line, "UnusedAllow", f"there is no {one.kind} here: {ALLOWED[one.kind]}"))
    return sorted(left, key=lambda finding: finding.line)

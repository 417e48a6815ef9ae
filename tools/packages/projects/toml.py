"""Documents in TOML 1.1 as the program reads them, with the line on which each value begins.

The standard library's reader knows no byte order mark, no line feed and no last comma in an inline table, and no lines.
As the program does, this one refuses integers over 64 bits, floats that are too large, keys of more than 80 parts, and
arrays and inline tables more than 80 deep.
"""

import re
from bisect import bisect_left
from collections.abc import Iterator
from dataclasses import dataclass
from enum import Enum

from projects.scalars import Malformed, Scalar, line_string_at, scalar_at

DEEPEST = 80
BLANK = re.compile(r"(?:[ \t\n]++|\r\n|#[^\x00-\x08\x0a-\x1f\x7f]*+(?=\r?\n|\Z))*+")
SPACES = re.compile(r"[ \t]*")
BARE = re.compile(r"[A-Za-z0-9_-]+")
LINE_FEED = re.compile(r"\n")


class TomlFault(Exception):
    """Why some bytes are no document, and the line and the column, both counted from 1, at which reading ended."""

    def __init__(self, line: int, column: int, words: str) -> None:
        super().__init__(f"line {line}, column {column}: {words}")
        self.line, self.column = line, column


class Origin(Enum):
    """What made a table or an array, which decides what may be added to it later in the text."""

    VALUE = "a value, to which nothing can be added"
    PASSED = "a header that passed through the table"
    DOTTED = "a dotted key"
    HEADER = "the table's own header"
    HEADERS = "headers in double brackets, of which the last made the last table"


@dataclass(slots=True)
class Node:
    """A value: a table's members by key, an array's items, or a scalar; and the line on which it begins."""

    value: "dict[str, Node] | list[Node] | Scalar"
    line: int
    origin: Origin = Origin.VALUE

    def get(self, key: str) -> "Node | None":
        """What a table holds at a key; None where it has no such key, or where this is no table."""
        return self.value.get(key) if isinstance(self.value, dict) else None

    def items(self) -> "list[Node]":
        """The items of an array; none where this is no array."""
        return self.value if isinstance(self.value, list) else []

    def listed(self, key: str) -> "list[Node]":
        """The items of the array that a table holds at a key; none where there is no such array."""
        found = self.get(key)
        return found.items() if found else []

    def plain(self) -> object:
        """The value without lines, in dicts and lists."""
        if isinstance(self.value, dict):
            return {key: node.plain() for key, node in self.value.items()}
        return [node.plain() for node in self.value] if isinstance(self.value, list) else self.value


def read_toml(content: bytes) -> Node:
    """The table that a document is, or a TomlFault."""
    try:
        text = content.decode()
    except UnicodeDecodeError as error:
        raise fault_after(content[: error.start].decode(), "the bytes aren't UTF-8") from error
    reader = Reader(text)
    try:
        return reader.document()
    except Malformed as fault:
        raise fault_after(text[: fault.position], str(fault)) from fault


def fault_after(before: str, words: str) -> TomlFault:
    """The fault of a text at which reading ended after some characters."""
    return TomlFault(before.count("\n") + 1, len(before) - before.rfind("\n"), words)


class Reader:
    """Reads a text from its beginning to its end."""

    def __init__(self, text: str) -> None:
        self.text = text
        self.ends = [found.start() for found in LINE_FEED.finditer(text)]

    def line(self, position: int) -> int:
        """The line of a position, counted from 1."""
        return bisect_left(self.ends, position) + 1

    def blank(self, at: int) -> int:
        """Where the text goes on after white space, line feeds and comments."""
        return BLANK.match(self.text, at).end()

    def spaces(self, at: int) -> int:
        """The same on one line, without comments."""
        return SPACES.match(self.text, at).end()

    def expect(self, at: int, token: str, words: str) -> int:
        """The position after some characters that must be there."""
        if not self.text.startswith(token, at):
            raise Malformed(at, words)
        return at + len(token)

    def document(self) -> Node:
        """The whole text."""
        root = Node({}, 1, Origin.HEADER)
        section = root
        at = self.blank(1 if self.text.startswith("\ufeff") else 0)
        while at < len(self.text):
            if self.text.startswith("[", at):
                section, at = self.header(root, at)
            else:
                at = self.pair(section, at, DEEPEST)
            at = self.line_end(at)
        return root

    def line_end(self, at: int) -> int:
        """Where the next line with anything on it begins; nothing but a comment may follow on this one."""
        at = self.spaces(at)
        if at < len(self.text) and self.text[at] not in "#\r\n":
            raise Malformed(at, "the line goes on after its value or header")
        return self.blank(at)

    def header(self, root: Node, start: int) -> tuple[Node, int]:
        """The table that a header names, to which the pairs below it belong."""
        is_array = self.text.startswith("[[", start)
        brackets = 2 if is_array else 1
        keys, at = self.keys(self.spaces(start + brackets))
        at = self.expect(at, "]" * brackets, "the header isn't ended")
        line = self.line(start)
        table = root
        for key in keys[:-1]:
            table = headed(table, key, line, start)
        return (added if is_array else opened)(table, keys[-1], line, start), at

    def keys(self, start: int) -> tuple[list[str], int]:
        """The parts of a key, and where the text goes on after it."""
        keys, at = [], start
        while len(keys) < DEEPEST:
            key, at = self.key(at)
            keys.append(key)
            at = self.spaces(at)
            if not self.text.startswith(".", at):
                return keys, at
            at = self.spaces(at + 1)
        raise Malformed(start, f"the key has more than {DEEPEST} parts")

    def key(self, at: int) -> tuple[str, int]:
        """A part of a key, bare or between quotes."""
        if self.text.startswith(('"', "'"), at):
            return line_string_at(self.text, at)
        found = BARE.match(self.text, at)
        if found is None:
            raise Malformed(at, "no key begins here")
        return found[0], found.end()

    def pair(self, table: Node, start: int, depth: int) -> int:
        """A key and its value, put into a table; where they end."""
        keys, at = self.keys(start)
        at = self.spaces(self.expect(at, "=", "a key is followed by ="))
        value, end = self.value(at, depth)
        for key in keys[:-1]:
            table = dotted(table, key, value.line, start)
        insert(table, keys[-1], value, start)
        return end

    def value(self, at: int, depth: int) -> tuple[Node, int]:
        """A value with arrays and inline tables at most so deep, and where it ends."""
        if not self.text.startswith(("[", "{"), at):
            scalar, end = scalar_at(self.text, at)
            return Node(scalar, self.line(at)), end
        if depth == 0:
            raise Malformed(at, f"arrays and inline tables are more than {DEEPEST} deep")
        return self.array(at, depth - 1) if self.text.startswith("[", at) else self.inline_table(at, depth - 1)

    def array(self, start: int, depth: int) -> tuple[Node, int]:
        """An array, from its bracket on."""
        items, at = [], self.blank(start + 1)
        while not self.text.startswith("]", at):
            item, at = self.value(at, depth)
            items.append(item)
            at = self.after_item(at, "]")
        return Node(items, self.line(start)), at + 1

    def inline_table(self, start: int, depth: int) -> tuple[Node, int]:
        """An inline table, from its brace on."""
        table, at = Node({}, self.line(start)), self.blank(start + 1)
        while not self.text.startswith("}", at):
            at = self.after_item(self.pair(table, at, depth), "}")
        return Node(table.value, table.line), at + 1

    def after_item(self, at: int, closing: str) -> int:
        """The next item of an array or an inline table, or its closing bracket."""
        at = self.blank(at)
        if self.text.startswith(",", at):
            return self.blank(at + 1)
        if not self.text.startswith(closing, at):
            raise Malformed(at, f"a comma or {closing} is missing")
        return at


def insert(table: Node, key: str, value: Node, at: int) -> Node:
    """A new member of a table."""
    if key in table.value:
        raise Malformed(at, f"the key {key} is there twice")
    table.value[key] = value
    return value


def headed(table: Node, key: str, line: int, at: int) -> Node:
    """The table to which a part of a header leads: of an array of tables, the last one."""
    found = table.value.get(key)
    if found is None:
        return insert(table, key, Node({}, line, Origin.PASSED), at)
    if found.origin is Origin.VALUE:
        raise Malformed(at, f"{key} is a value, to which a header can't add")
    return found.value[-1] if found.origin is Origin.HEADERS else found


def dotted(table: Node, key: str, line: int, at: int) -> Node:
    """The table to which a part of a dotted key leads: none that has a header of its own."""
    found = table.value.get(key)
    if found is None:
        return insert(table, key, Node({}, line, Origin.DOTTED), at)
    if found.origin not in (Origin.PASSED, Origin.DOTTED):
        raise Malformed(at, f"{key} is no table to which a dotted key can add")
    found.origin = Origin.DOTTED
    return found


def opened(table: Node, key: str, line: int, at: int) -> Node:
    """The table of a header, which other headers may have passed through before."""
    found = table.value.get(key)
    if found is None:
        return insert(table, key, Node({}, line, Origin.HEADER), at)
    if found.origin is not Origin.PASSED:
        raise Malformed(at, f"the table {key} is there twice")
    found.origin, found.line = Origin.HEADER, line
    return found


def added(table: Node, key: str, line: int, at: int) -> Node:
    """A new last table of the array of a header in double brackets."""
    array = table.value.get(key)
    if array is None:
        array = insert(table, key, Node([], line, Origin.HEADERS), at)
    if array.origin is not Origin.HEADERS:
        raise Malformed(at, f"{key} is no array of tables")
    array.value.append(Node({}, line, Origin.HEADER))
    return array.value[-1]


def walked(node: Node, path: str = "") -> Iterator[tuple[str, Node]]:
    """Every value of a document with its path, as projectcheck writes paths."""
    yield path, node
    if isinstance(node.value, dict):
        for key, member in node.value.items():
            yield from walked(member, f"{path}.{key}" if path else key)
    for index, item in enumerate(node.items()):
        yield from walked(item, f"{path}[{index}]")

"""Texts drawn from a seed: documents by the grammar of TOML 1.1 and beside it, and spoilt ones."""

import random
from collections.abc import Callable

SPACES = ["", "", "", " ", "\t", "  "]
SCALARS = [
    *("0", "-0", "+0", "7", "-7", "+7", "00", "01", "-01", "1_000", "1__0", "_1", "1_", "9223372036854775807"),
    *("9223372036854775808", "-9223372036854775808", "-9223372036854775809", "99999999999999999999999999"),
    *("0x0", "0xFf", "0Xff", "0x", "0x_f", "0xf_f", "-0x1", "0x7fffffffffffffff", "0x8000000000000000", "0o17", "0o8"),
    *("0b101", "0b2", "0b1_0", "0o_1", "0x00000000000000000001", "0b" + "0" * 70 + "1"),
    *("1.0", "-1.5", "+1.5", "1.", ".5", "1e5", "1E5", "1e+5", "1e-05", "1e", "1.e5", "1.0e1_0", "1_0.0_1", "1._0"),
    *("01.0", "-01.0", "1e_5", "1e5_", "1_e5", "1e5.0", "0.0", "-0.0", "0e0", "1e+", "+-1", "--1"),
    *(
        "1e308",
        "1e309",
        "-1e400",
        "1e-400",
        "0e999999999999",
        "inf",
        "-inf",
        "+inf",
        "nan",
        "-nan",
        "+nan",
        "Inf",
        "NaN",
    ),
    *("true", "false", "True", "TRUE", "tru", "truee", "null", "none", "1 2", "true 1"),
    *("1979-05-27", "1979-02-29", "2000-02-29", "1900-02-29", "0000-02-29", "1979-13-01", "1979-00-01"),
    *("1979-04-31", "1979-12-31", "1979-01-00", "1979-01-32", "2024-02-29", "2024-02-30", "9999-12-31"),
    *("07:32", "07:32:00", "07:32:60", "07:32:61", "24:00:00", "07:60", "7:32", "07:32:00.", "07:32:00.5", "07:32Z"),
    *("1979-05-27T07:32:00Z", "1979-05-27t07:32z", "1979-05-27 07:32", "1979-05-27  07:32", "1979-05-27_07:32:00"),
    *("1979-05-27T07:32:00+23:59", "1979-05-27T07:32:00-24:00", "1979-05-27T07:32:00+00:60", "1979-05-27T07:32+1:00"),
    *(
        "1979-05-27T",
        "1979-5-27",
        "19790-05-27",
        "1979-05-27T07:32:00.123456789012345678Z",
        "1979-05-27Z",
        "1-2",
        "1:2",
    ),
    *('""', "''", '"a"', "'a'", '"\\""', "'\\'", '"\\q"', '"\\u0041"', '"\\u004"'),
    *('"\\ud800"', '"\\uDFFF"', '"\\ue000"', '"\\u00g1"', '"\\u+041"', '"\\U000000e9"', '"\\x+1"'),
    *(
        '"\\U0010ffff"',
        '"\\U00110000"',
        '"\\U0000d800"',
        '"\\x41"',
        '"\\x4"',
        '"\\e\\b\\f\\n\\r\\t\\\\"',
        '"\t"',
        '"\x01"',
    ),
    *('"\x7f"', "'\x7f'", '"a\nb"', "'a\nb'", '"é€😀"', '"', "'", '"a', '"""a"""', "'''a'''", '"""a""""', '"""a"""""'),
    *('"""a""""""', "'''a'''''", "'''a''''''", '"""\na\n"""', '"""\r\na\r\n"""', '"""a\rb"""', '"""a\\\n  \n b"""'),
    *('"""a\\  \n b"""', '"""a\\  b"""', "'''a\\\nb'''", '""""""', "''''''", '"""""', "'''''", '"""a""', '"""\\"""'),
    *('""" "" """', "''' '' '''", '"""\x00"""', '"\\xe9"', '"\\', "1979-05-27 ", "é", "@", "=", "#"),
]
KEYS = [
    "a",
    "b",
    "c",
    "a1",
    "-",
    "_",
    "1",
    "1-2",
    '"a"',
    "'a'",
    '"b c"',
    '""',
    "''",
    '"\\u0061"',
    "é",
    '"""a"""',
    "a b",
    "=",
]
# Headers and dotted keys that meet after two others.
MEETING = [
    "[a.b.c]\n[a]\nb.x = 1\n[a.b]\n",
    "[a.b.c]\n[a]\nb.x = 1\n[a.b.d]\n",
    "[a.b.c]\n[a]\nb.c.x = 1\n",
    "[a.b.c]\n[a]\nb.c = 1\n",
    "[a.b.c]\n[a.b]\n[a]\nb.x = 1\n",
    "[[a.b]]\n[a]\nb.x = 1\n",
    "[[a]]\n[a.b.c]\n[[a]]\n[a.b]\nc.x = 1\n",
    "[[a]]\n[a.b.c]\n[a.b]\nc.x = 1\n",
]
SPOILT = list("\"'\\[]{}=,.#\n\r\t \x00\x01\x7f_-+:0aexuU19") + [
    "\r\n",
    '"""',
    "'''",
    "[[",
    "]]",
    "\ufeff",
    "é",
    "\u2028",
]


class Drawer:
    """Draws texts."""

    def __init__(self, seed: int) -> None:
        self.random = random.Random(seed)

    def pick(self, items: list) -> object:
        """One of some items."""
        return self.random.choice(items)

    def space(self) -> str:
        """White space on a line, mostly none."""
        return self.pick(SPACES)

    def gap(self) -> str:
        """White space in an array or an inline table, with line feeds and comments."""
        pieces = [*SPACES, "\n", "\r\n", " # remark\n", "# é\r\n", "\n\n  ", "#\x01\n", "# cut\r", "\r"]
        return self.random.choices(pieces, [4] * len(SPACES) + [3, 1, 1, 1, 1, 0.1, 0.1, 0.1])[0]

    def key(self) -> str:
        """A key, mostly one that TOML takes, with up to three parts."""
        parts = self.random.choices(KEYS, [8] * 3 + [2] * 11 + [0.2] * 4, k=self.pick([1, 1, 1, 2, 3]))
        return f"{self.space()}.{self.space()}".join(parts)

    def value(self, depth: int) -> str:
        """A value with brackets at most so deep."""
        kind = self.random.random()
        if depth and kind < 0.2:
            return self.items("[", "]", lambda: self.value(depth - 1))
        if depth and kind < 0.4:
            return self.items("{", "}", lambda: self.pair(depth - 1))
        return self.pick(["1", "2", "0x3", '"s"', "true"]) if kind < 0.8 else self.pick(SCALARS)

    def items(self, opening: str, closing: str, item: Callable[[], str]) -> str:
        """Items between brackets."""
        texts = [f"{self.gap()}{item()}{self.gap()}" for _ in range(self.pick([0, 1, 2, 3]))]
        last = self.pick(["", "", ",", f",{self.gap()}"]) if texts else self.gap()
        return f"{opening}{','.join(texts)}{last}{closing}"

    def pair(self, depth: int) -> str:
        """A key with its value."""
        return f"{self.key()}{self.space()}={self.space()}{self.value(depth)}"

    def line(self) -> str:
        """A line or an item of several lines."""
        kind = self.random.random()
        if kind < 0.25:
            return f"[{self.space()}{self.key()}{self.space()}]"
        if kind < 0.4:
            return f"[[{self.space()}{self.key()}{self.space()}]]"
        return self.pick(["", "# remark", "#"]) if kind < 0.5 else self.pair(3)

    def document(self) -> str:
        """A document of a few lines."""
        count = self.pick([1, 2, 3, 5, 8])
        lines = [f"{self.space()}{self.line()}{self.pick(['', ' ', ' # remark', '#'])}" for _ in range(count)]
        ends = [self.pick(["\n", "\n", "\n", "\r\n"]) for _ in lines]
        return self.pick(["", "", "", "\ufeff"]) + "".join(line + end for line, end in zip(lines, ends))

    def tables(self) -> str:
        """A document of headers and keys that often meet, since they have few parts of few letters."""
        lines = []
        for _ in range(self.pick([2, 3, 4, 5, 6])):
            path = ".".join(self.random.choices("ab", k=self.pick([1, 1, 2, 2, 3])))
            value = self.pick(["1", "{}", "[]", "{ a.b = 1 }", "[{ a = 1 }]", "{ a = 1, b.a = 1, b.b = 1 }"])
            lines.append(self.pick([f"[{path}]", f"[[{path}]]", f"{path} = {value}"]))
        return "\n".join(lines) + "\n"

    def spoilt(self, text: str) -> bytes:
        """A text with a few places changed, sometimes so that it isn't UTF-8."""
        for _ in range(self.pick([1, 1, 2, 3])):
            at = self.random.randrange(len(text) + 1)
            text = text[:at] + self.pick(["", *SPOILT]) + text[at + self.pick([0, 1]) :]
        content = text.encode()
        if self.random.random() < 0.03:
            at = self.random.randrange(len(content) + 1)
            content = content[:at] + self.pick([b"\xff", b"\xc3", b"\xed\xa0\x80", b"\xc0\x80"]) + content[at:]
        return content

    def texts(self, count: int) -> list[bytes]:
        """Documents, half of them spoilt; then headers and keys that meet, each scalar, and nesting at its limit."""
        drawn = [self.document() for _ in range(count)]
        texts = [self.spoilt(text) if row % 2 else text.encode() for row, text in enumerate(drawn)]
        texts += [self.tables().encode() for _ in range(count)]
        texts += [f"x = {scalar}\n".encode() for scalar in SCALARS] + [f"[{key}]\n{key} = 1\n".encode() for key in KEYS]
        texts += [f"x = [{scalar}]\ny = {{ z = {scalar} }}\n".encode() for scalar in SCALARS]
        return texts + [text.encode() for text in MEETING] + nested()


def nested() -> list[bytes]:
    """Arrays, inline tables, keys and headers at their deepest, and one deeper."""
    texts = []
    for depth in (79, 80, 81):
        parts = ".".join(["a"] * depth)
        texts += [f"x = {'[' * depth}{']' * depth}", f"x = {'{a=' * depth}1{'}' * depth}", f"{parts} = 1", f"[{parts}]"]
        texts += [f"[{parts}]\n{parts} = {'[' * depth}{']' * depth}", f"x = {{ {parts} = 1 }}"]
    return [text.encode() + b"\n" for text in texts]

"""The words of TOML 1.1 for one value: strings, numbers, booleans and date-times, as the program reads them."""

import math
import re
import tomllib
from dataclasses import dataclass

GREATEST = 2**63 - 1
WORD = re.compile(r"[A-Za-z0-9_+.:-]+(?: [0-9][A-Za-z0-9_+.:-]*)?")
MOMENT = re.compile(r"[0-9]+[-:]")
SHORT_TIME = re.compile(r"((?:^|[Tt ])[0-9]{2}:[0-9]{2})(?=$|[Zz+-])")
LEAP = re.compile(r"((?:^|[Tt ])[0-9]{2}:[0-9]{2}):60")
YEAR_0 = re.compile(r"^0000(?=-)")

# The kinds of string by their quotes: how far each reaches. What it may have within is for the standard library to say.
STRINGS = {
    '"': re.compile(r'"(?:[^"\\\n]|\\.)*+"'),
    "'": re.compile(r"'[^'\n]*+'"),
    '"""': re.compile(r'"""(?:"{0,2}(?:[^"\\]|\\[\s\S]))*+"{3,5}'),
    "'''": re.compile(r"'''(?:'{0,2}[^'])*+'{3,5}"),
}
ESCAPE = re.compile(r"\\(?:(e)|x([0-9A-Fa-f]{2})|[\s\S])")


class Malformed(Exception):
    """What is wrong at a position of a text."""

    def __init__(self, position: int, words: str) -> None:
        super().__init__(words)
        self.position = position


@dataclass(frozen=True)
class Moment:
    """A date, a time or both, in the words of the text."""

    words: str


Scalar = str | int | float | bool | Moment


def scalar_at(text: str, start: int) -> tuple[Scalar, int]:
    """The value without brackets that begins at a position, and where it ends."""
    if text.startswith(('"', "'"), start):
        return string_at(text, start)
    found = WORD.match(text, start)
    if found is None:
        raise Malformed(start, "no value begins here")
    return unquoted(found[0], start), found.end()


def unquoted(word: str, start: int) -> Scalar:
    """The boolean, date-time or number that a word means: an integer of at most 64 bits, a float that is not too large."""
    is_moment = MOMENT.match(word) is not None
    try:
        # TOML 1.1 lets seconds be left out, and has leap seconds; the year 0 is a leap year as any other
        plain = YEAR_0.sub("0004", LEAP.sub(r"\1:59", SHORT_TIME.sub(r"\1:00", word))) if is_moment else word
        value = tomllib.loads(f"v = {plain}")["v"]
    except ValueError as error:
        kind = "date or time" if is_moment else "value"
        raise Malformed(start, f"{word} is no {kind}") from error
    if type(value) is int and not -GREATEST - 1 <= value <= GREATEST:
        raise Malformed(start, "the integer has more than 64 bits")
    if type(value) is float and math.isinf(value) and not word.endswith("inf"):
        raise Malformed(start, f"{word} is too large for a float")
    return value if isinstance(value, bool | int | float) else Moment(word)


def string_at(text: str, start: int) -> tuple[str, int]:
    """Any of the four kinds of string."""
    quotes = text[start] * 3 if text.startswith(text[start] * 3, start) else text[start]
    found = STRINGS[quotes].match(text, start)
    if found is None:
        raise Malformed(start, "the string isn't ended, or has a character that it can't have")
    # the escapes \\e and \\x are of TOML 1.1
    plain = ESCAPE.sub(older_escape, found[0]) if quotes[0] == '"' else found[0]
    try:
        return tomllib.loads(f"v = {plain}")["v"], found.end()
    except ValueError as error:
        raise Malformed(start, "the string has a character or an escape that it can't have") from error


def line_string_at(text: str, start: int) -> tuple[str, int]:
    """A string on one line, at its opening quote; two quotes are an empty one, whatever follows."""
    return ("", start + 2) if text.startswith(text[start] * 2, start) else string_at(text, start)


def older_escape(found: re.Match[str]) -> str:
    """An escape as TOML 1.0 has it."""
    return f"\\u{'001b' if found[1] else '00' + found[2]}" if found[1] or found[2] else found[0]

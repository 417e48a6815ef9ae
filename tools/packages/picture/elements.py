"""Markup: elements with escaped attributes and texts, for SVG and HTML alike."""

import re
from html import escape

# Names come from the project text, and TOML lets them have characters that no XML document may.
FORBIDDEN = re.compile("[^\t\n\r\u0020-\ud7ff\ue000-\ufffd\U00010000-\U0010ffff]")
Attribute = str | int | float | None
PLAIN = re.compile(r"[\w .:,;/…×–-]*")


def text(words: str | int) -> str:
    """A text as it is written between tags or in an attribute."""
    if isinstance(words, int) or PLAIN.fullmatch(words):
        return str(words)
    return escape(FORBIDDEN.sub("\ufffd", words))


def spelt(number: float) -> str:
    """A length in pixels, without digits that say nothing."""
    return f"{number:.2f}".rstrip("0").rstrip(".")


def opened(tag: str, **attributes: Attribute) -> str:
    """An opening tag; an underscore in a name stands for a hyphen, `kind` for `class`, and None for no attribute."""
    words = [tag]
    for name, value in attributes.items():
        if value is not None:
            shown = spelt(value) if isinstance(value, float) else text(value)
            words.append(f'{"class" if name == "kind" else name.replace("_", "-")}="{shown}"')
    return f"<{' '.join(words)}>"


def element(tag: str, *content: str, **attributes: Attribute) -> str:
    """An element with its content, which is markup."""
    return f"{opened(tag, **attributes)}{''.join(content)}</{tag}>"


def void(tag: str, **attributes: Attribute) -> str:
    """An SVG element without content."""
    return opened(tag, **attributes)[:-1] + "/>"


def label(x: float, y: float, words: str | int, kind: str | None = None, **attributes: Attribute) -> str:
    """A text of a picture, whose baseline begins, or ends or has its middle, at a point."""
    return element("text", text(words), kind=kind, x=float(x), y=float(y), **attributes)

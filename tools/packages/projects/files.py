"""Inputs as bytes: a project text, alone or before a line `%%` and commands."""

import re
import sys
from pathlib import Path

from projects.faults import Refusal
from projects.toml import Node, TomlFault, read_toml

LONGEST_INPUT = 4_194_304
SEPARATOR = re.compile(rb"^%%\r?$", re.MULTILINE)


def content_of(name: str, longest: int = LONGEST_INPUT) -> bytes:
    """The bytes of a file, or of standard input where the name is `-`; what is longer than a limit is refused."""
    try:
        if name == "-":
            content = sys.stdin.buffer.read(longest + 1)
        else:
            with Path(name).open("rb") as file:
                content = file.read(longest + 1)
    except OSError as error:
        raise Refusal(f"{name}: {error.strerror}") from error
    if len(content) > longest:
        raise Refusal(f"{name}: TooLong: it has more than {longest:,} bytes")
    return content


def parted(content: bytes) -> tuple[bytes, bytes]:
    """The project text before the first line `%%`, and the commands after it."""
    found = SEPARATOR.search(content)
    if found is None:
        return content, b""
    return content[: found.start()], content[found.end() + 1 :]


def document_of(name: str, text: bytes) -> Node:
    """The document of a project text; what is no TOML is refused with its line."""
    try:
        return read_toml(text)
    except TomlFault as fault:
        raise Refusal(f"{name}: NotToml: {fault}") from fault

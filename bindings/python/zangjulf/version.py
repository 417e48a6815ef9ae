"""The version: the installed package's, which is the header's; in the repository the header's itself."""

from __future__ import annotations

import re
from importlib import metadata
from pathlib import Path


def header_version(header: Path) -> str:
    """The version in a header of the library."""
    found = re.search(r'^#define ZANGJULF_VERSION "(.*)"$', header.read_text(encoding="utf-8"), re.MULTILINE)
    if found is None:
        raise ValueError(f"{header} has no version")
    return found.group(1)


def _version() -> str:
    header = Path(__file__).resolve().parents[3] / "include/zangjulf.h"
    if header.exists():
        return header_version(header)
    return metadata.version("zangjulf")


VERSION = _version()

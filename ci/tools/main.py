"""Runs all checks of the tools with a program: `main.py PROGRAM`; with a second word, those of the session over the library alone."""

import sys
import tempfile
from pathlib import Path

sys.path.insert(0, str(Path(__file__).resolve().parents[2] / "tools/packages"))

import capture_checks  # noqa: E402
import esi_checks  # noqa: E402
import line_checks  # noqa: E402
import lint_checks  # noqa: E402
import live_checks  # noqa: E402
import mended_checks  # noqa: E402
import name_checks  # noqa: E402
import picture_checks  # noqa: E402
import toml_checks  # noqa: E402
import transcript_checks  # noqa: E402
from checks import Checks  # noqa: E402


def main(program: str, is_live: bool) -> int:
    """The status: 0 where all passed."""
    every = (
        *(toml_checks, name_checks, esi_checks, lint_checks, picture_checks, line_checks, capture_checks),
        *(transcript_checks, mended_checks, live_checks),
    )
    with tempfile.TemporaryDirectory() as scratch:
        checks = Checks(Path(program).resolve(), Path(scratch))
        for part in [live_checks] if is_live else every:
            part.check(checks)
    print(f"{checks.passed} passed, {checks.failed} failed")
    return 0 if checks.passed and not checks.failed else 1


sys.exit(main(sys.argv[1], len(sys.argv) > 2))

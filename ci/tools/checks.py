"""Counts what passed and what failed, and says of each failure what was wanted and what was found."""

import subprocess
import sys
from dataclasses import dataclass
from pathlib import Path

TOOLS = Path(__file__).resolve().parents[2] / "tools"
SHOWN = 600


@dataclass(frozen=True)
class Ended:
    """How a tool's run ended: its status, and what it said on standard output and standard error."""

    status: int
    said: str
    complaint: str


class Checks:
    """The checks of a run; `program` is the built hotline, and `scratch` a folder for files."""

    def __init__(self, program: Path, scratch: Path) -> None:
        self.program, self.scratch = program, scratch
        self.passed = self.failed = 0

    def equal(self, label: str, wanted: object, found: object) -> None:
        """Passes where both are the same."""
        if wanted == found:
            self.passed += 1
            return
        self.failed += 1
        for word, value in (("wanted", wanted), ("found", found)):
            print(f"tools: {label}: {word} {str(value)[:SHOWN]}")

    def file(self, name: str, content: str | bytes) -> Path:
        """A file in the scratch folder."""
        path = self.scratch / name
        path.write_bytes(content.encode() if isinstance(content, str) else content)
        return path

    def tool(self, name: str, *words: object, given: bytes = b"") -> Ended:
        """A run of one of the tools."""
        command = [sys.executable, "-B", TOOLS / name, *map(str, words)]
        run = subprocess.run(command, input=given, capture_output=True, timeout=60)
        return Ended(run.returncode, run.stdout.decode(), run.stderr.decode())

    def hotline(self, content: bytes) -> tuple[int, list[str]]:
        """A run of the program: its status and its lines."""
        run = subprocess.run([self.program], input=content, capture_output=True, timeout=60)
        return run.returncode, run.stdout.decode().splitlines()

    def refused(self, label: str, ended: Ended, kind: str, line: int | None = None) -> None:
        """Passes where a tool refused its input with status 2 by a named error, perhaps of a line, without a trace."""
        where = f"line {line}: {kind}:" if line else f"{kind}:"
        found = (ended.status, where in ended.complaint, "Traceback" in ended.complaint)
        self.equal(f"{label}: {where} in {ended.complaint.strip()!r}", (2, True, False), found)

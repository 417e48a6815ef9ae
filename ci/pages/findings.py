"""What a check finds on a page."""

from dataclasses import dataclass


@dataclass(frozen=True)
class Finding:
    """A mistake: its kind, the page, the line (0 for the whole page), and what is wrong."""

    kind: str
    page: str
    line: int
    what: str

    def __str__(self) -> str:
        place = f"{self.page}:{self.line}" if self.line else self.page
        return f"pages: {place}: {self.kind}: {self.what}"

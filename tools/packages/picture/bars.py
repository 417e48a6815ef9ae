"""Where the parts of a row are, and which of its names have room along or upright."""

from dataclasses import dataclass

from picture.elements import label, spelt
from picture.rows import Run

BARS = 222
RULER, BADGES, BAND, CELL, BITS = 17, 15, 22, 16, 13
LEAST_HEIGHT = 68
LOWER = {"out": 0, "in": 4}
# Widths of a character of the fixed font at its smallest size.
SMALL = 5.45


@dataclass(frozen=True)
class Lettering:
    """How names are written along and upright: their classes, and the width of a character of each."""

    along: str | None
    along_width: float
    upright: str | None
    upright_width: float

    def fitting(self, words: list[str], width: float) -> str | None:
        """The first of some names that a width has room for, or None."""
        return next((name for name in words if len(name) * self.along_width + 4 <= width), None)

    def upright_height(self, words: list[str], width: float) -> float:
        """How high a box must be for the shortest of some names where none has room along, or 0."""
        if self.fitting(words, width) is not None or not self.has_upright(width):
            return 0
        return len(words[-1]) * self.upright_width + 8

    def has_upright(self, width: float) -> bool:
        """Whether an upright name has room."""
        return width >= self.upright_width + 4


AREA_NAMES = Lettering("name", 6.65, "slim", SMALL)
VARIABLE_NAMES = Lettering("number", 6.05, "small", SMALL)
BITS_NAMES = Lettering("small", SMALL, "small", SMALL)


@dataclass(frozen=True)
class Bar:
    """Where a row is: pixels for a byte, its top, and the heights of its bands."""

    scale: int
    top: float
    badges: float
    band: float
    cell: float

    def x(self, bit: int) -> float:
        """Where a bit of the datagram begins."""
        return BARS + bit * self.scale / 8

    def width(self, bits: int) -> float:
        """How wide some bits are."""
        return bits * self.scale / 8

    def band_top(self) -> float:
        """Where the areas begin."""
        return self.top + RULER + self.badges

    def box_top(self, direction: str) -> float:
        """Where an area's box begins: inputs are a little lower, so that narrow ones are known without colour."""
        return self.band_top() + LOWER[direction]

    def box_height(self, direction: str) -> float:
        """How high an area's box is."""
        return self.band - LOWER[direction]

    def cell_top(self) -> float:
        """Where the variables begin."""
        return self.band_top() + self.band

    def cell_height(self) -> float:
        """How high the boxes of variables are, with their numbers and their bits."""
        return self.cell + BITS

    def foot(self) -> float:
        """Where the variables end."""
        return self.cell_top() + self.cell_height()

    def bottom(self) -> float:
        """Where the row ends."""
        return max(self.foot(), self.top + LEAST_HEIGHT)

    def name(self, lettering: Lettering, words: list[str], run: Run, y: float, height: float) -> str:
        """A name in the middle of a run's box: along it where there is room, else upright, else none."""
        middle, width = self.x(run.bit) + self.width(run.bits) / 2, self.width(run.bits)
        along = lettering.fitting(words, width)
        if along is not None:
            return label(middle, y + height / 2 + 4, along, lettering.along, text_anchor="middle")
        if not lettering.has_upright(width):
            return ""
        x, foot = middle + 3.5, y + height - 4
        return label(x, foot, words[-1], lettering.upright, transform=f"rotate(-90 {spelt(x)} {spelt(foot)})")

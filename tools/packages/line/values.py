"""Values of variables as people write and read them: signed, hexadecimal, bit by bit, or as a floating-point number."""

import math
import re
import struct
from dataclasses import dataclass

from projects.faults import Refusal

INTEGER = re.compile(r"([+-]?)(?:0x([0-9A-Fa-f]+)|0b([01]+)|([0-9]+))")
# A real number has a point, so that an integer variable doesn't get the bits of one unseen.
REAL = re.compile(r"[+-]?[0-9]+\.[0-9]*(?:[eE][+-]?[0-9]+)?")
WITHOUT_POINT = re.compile(r"[+-]?[0-9]+[eE][+-]?[0-9]+")
# The binary formats of IEEE 754 by their bits: how `struct` packs a number and its bits.
REALS = {32: ("<f", "<I"), 64: ("<d", "<Q")}
PLAIN_REALS = (1e-6, 1e12)


@dataclass(frozen=True)
class Value:
    """The bits of a variable, as a number from 0."""

    number: int
    bits: int

    def signed(self) -> int:
        """The number in two's complement."""
        return self.number - (1 << self.bits) if self.bits > 1 and self.number >> (self.bits - 1) else self.number

    def real(self) -> float | None:
        """The floating-point number that the bits are, where they look like one that people work with."""
        if self.bits not in REALS:
            return None
        real, integer = REALS[self.bits]
        number = struct.unpack(real, struct.pack(integer, self.number))[0]
        least, most = PLAIN_REALS
        return number if math.isfinite(number) and least <= abs(number) <= most else None

    def views(self) -> list[str]:
        """The value in each way in which it differs: signed, hexadecimal, bits of few, real."""
        views = [str(self.number)]
        if self.signed() != self.number:
            views.append(f"signed {self.signed()}")
        views.append(f"0x{self.number:0{(self.bits + 3) // 4}x}")
        if 1 < self.bits <= 16:
            views.append(f"bits {self.number:0{self.bits}b}")
        if (real := self.real()) is not None:
            views.append(f"real {real:.9g}")
        return views

    def __str__(self) -> str:
        return ", ".join(self.views())


def read_value(word: str, bits: int) -> Value:
    """A value that fits so many bits, from a word: an integer of either sign, or a real number for 32 or 64 bits."""
    found = INTEGER.fullmatch(word)
    if found is None:
        return read_real(word, bits)
    digits, base = next((given, base) for given, base in zip(found.groups()[1:], (16, 2, 10)) if given is not None)
    number = int(digits, base)
    if found[1] == "-":
        if number > 1 << (bits - 1):
            raise Refusal(f"OutOfRange: {word} is below {-(1 << (bits - 1))}, the least of {bits} bits with a sign")
        return Value(-number % (1 << bits), bits)
    if number >= 1 << bits:
        raise Refusal(f"TooWide: {word} is over {(1 << bits) - 1}, the greatest of {bits} bits")
    return Value(number, bits)


def read_real(word: str, bits: int) -> Value:
    """A real number as the bits of IEEE 754."""
    if WITHOUT_POINT.fullmatch(word):
        mantissa, exponent = re.split("[eE]", word)
        raise Refusal(f"Malformed: {word} may be an integer or a real number; a real one is written {mantissa}.0e{exponent}")
    if not REAL.fullmatch(word):
        raise Refusal(f"Malformed: {word} is no value")
    if bits not in REALS:
        raise Refusal(f"NotReal: a variable of {bits} bits has no real value; 32 and 64 bits do")
    real, integer = REALS[bits]
    try:
        return Value(struct.unpack(integer, struct.pack(real, float(word)))[0], bits)
    except OverflowError as error:
        raise Refusal(f"OutOfRange: {word} is too large for {bits} bits") from error


def bits_at(data: bytes, bit: int, bits: int) -> Value:
    """The value in some bits of data, from a bit on, the least significant first."""
    return Value(int.from_bytes(data, "little") >> bit & ((1 << bits) - 1), bits)

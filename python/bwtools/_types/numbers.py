"""The kinds of decimals, floats and booleans."""
from __future__ import annotations

import array
import math
import operator
import struct
from typing import TYPE_CHECKING, ClassVar, Iterable, Optional, Sequence

from .base import Kind, Listed, Literal, Place, Settings, Valued
from .number_format import PLAIN, scaled

if TYPE_CHECKING:
    from fractions import Fraction


# The order of doubles as whole numbers: a double's bits, as a signed number with the sign folded.

MAGNITUDE = (1 << 63) - 1
# the bits of -0.0
LEAST_BITS = -1 << 63


def bits_of(numbers: Iterable[float]) -> list[int]:
    """Returns the places of doubles in their order, which are 0 for zeros of both signs, and
    opposite for opposite doubles."""
    found = array.array("q", array.array("d", numbers).tobytes())
    return [bits if bits >= 0 else -(bits & MAGNITUDE) for bits in found]


def double_of(bits: int) -> float:
    """Returns the double of a place; raises IndexError if there is none."""
    magnitude = abs(bits)
    found: float = struct.unpack("<d", struct.pack("<Q", magnitude & MAGNITUDE))[0]
    if magnitude > MAGNITUDE or not math.isfinite(found):
        raise IndexError
    return -found if bits < 0 else found


def nearest(literal: Fraction) -> float:
    """Returns the nearest double to a number, infinity if it is too large."""
    try:
        return float(literal)
    except OverflowError:
        return math.inf if literal > 0 else -math.inf


def read(text: str) -> Optional[float]:
    """Returns the nearest double to a number in plain spelling, or None if it is too large."""
    found = float(text)
    return found if math.isfinite(found) else None


# Decimals, multiplied by a power of ten.


class Decimals(Valued):
    """Decimals, multiplied by ten to `digits`. All are printed with so many digits after the point;
    trimmed ones without zeros at the end there, and a whole number without a point."""
    name: ClassVar[str] = "decimals"
    plural: ClassVar[str] = "decimals"
    example: ClassVar[str] = "12.50"
    is_summable: ClassVar[bool] = True
    listed: ClassVar[None] = None

    def __init__(self, digits: int, trimmed: int) -> None:
        self.digits, self.trimmed = digits, trimmed

    def number(self, text: str) -> int | None:
        return scaled(text, self.digits)

    def text(self, number: int) -> str:
        digits = str(abs(number)).rjust(self.digits + 1, "0")
        text = f"{'-' if number < 0 else ''}{digits[:-self.digits]}.{digits[-self.digits:]}"
        return text.rstrip("0").rstrip(".") if self.trimmed else text

    def total(self, number: int) -> str:
        return self.text(number)

    def spell(self, numbers: Sequence[int]) -> list[str]:
        if self.trimmed:
            return list(map(self.text, numbers))
        power, digits = 10 ** self.digits, self.digits
        return [f"{number // power}.{number % power:0{digits}}" if number >= 0
                else self.text(number) for number in numbers]

    def place(self, literal: Literal) -> Place | None:
        if isinstance(literal, str):
            return None
        found = literal * 10 ** self.digits
        return math.floor(found), found.denominator == 1

    def settings(self) -> Settings:
        return {"digits": self.digits, "trimmed": int(self.trimmed)}

    def alike(self, other: Kind) -> bool:
        return isinstance(other, Decimals) and self.digits == other.digits

    def told(self) -> str:
        return f"decimals times 10^{self.digits}"


# Floats: doubles, as whole numbers in the same order.


class Floats(Valued):
    """Doubles as the places of their bits, without those of the `gap` least magnitudes above 0,
    which no column of the table has. They are printed in the shortest spelling that reads as the
    same double."""
    name: ClassVar[str] = "floats"
    plural: ClassVar[str] = "floats"
    example: ClassVar[str] = "0.5"
    is_summable: ClassVar[bool] = False
    listed: ClassVar[None] = None

    def __init__(self, gap: int) -> None:
        self.gap = gap

    def number(self, text: str) -> int | None:
        found = read(text) if PLAIN.fullmatch(text) else None
        if found is None:
            return None
        place, is_exact = self.placed(found)
        return place if is_exact else None

    def numbers(self, doubles: Sequence[float]) -> list[int]:
        """Returns the numbers of doubles of the column."""
        gap, found = self.gap, array.array("q", array.array("d", doubles).tobytes())
        if min(found, default=0) > 0:
            return [bits - gap for bits in found]
        if max(found, default=0) < 0 and LEAST_BITS not in found:
            return [gap + LEAST_BITS - bits for bits in found]
        return [bits - gap if bits > 0 else bits and bits + gap for bits in bits_of(doubles)]

    def text(self, number: int) -> str:
        return repr(double_of(number + self.gap if number > 0 else number and number - self.gap))

    def total(self, number: int) -> str:
        raise ValueError

    def spell(self, numbers: Sequence[int]) -> list[str]:
        return list(map(self.text, numbers))

    def placed(self, double: float) -> Place:
        """Returns the greatest number that is at most a double, and whether it is that double."""
        bits, = bits_of([double])
        if 0 < abs(bits) <= self.gap:
            return (0 if bits > 0 else -1), False
        return (bits - self.gap if bits > 0 else bits and bits + self.gap), True

    def place(self, literal: Literal) -> Place | None:
        from fractions import Fraction
        return self.placed(nearest(literal)) if isinstance(literal, Fraction) else None

    def settings(self) -> Settings:
        return {"gap": self.gap}

    def alike(self, other: Kind) -> bool:
        return isinstance(other, Floats) and self.gap == other.gap

    def told(self) -> str:
        return "floats in their order"


# Floats of magnitudes too far apart for one range: their places among the column's distinct
# doubles.


class Ranked(Valued):
    """Doubles as their places among the column's distinct doubles."""
    name: ClassVar[str] = "ranked"
    plural: ClassVar[str] = "floats"
    example: ClassVar[str] = "0.5"
    is_summable: ClassVar[bool] = False

    def __init__(self, listed: Listed) -> None:
        self.listed = listed

    def number(self, text: str) -> int | None:
        found = read(text) if PLAIN.fullmatch(text) else None
        if found is None:
            return None
        place, is_exact = self.listed.place(found)
        return place if is_exact else None

    def numbers(self, doubles: Sequence[float]) -> list[int]:
        """Returns the numbers of doubles of the column."""
        places: dict[object, int] = {value: place for place, value in enumerate(self.listed)}
        return list(map(places.__getitem__, doubles))

    def text(self, number: int) -> str:
        return self.spell([number])[0]

    def total(self, number: int) -> str:
        raise ValueError

    def spell(self, numbers: Sequence[int]) -> list[str]:
        return list(map(repr, self.listed.values(numbers)))

    def place(self, literal: Literal) -> Place | None:
        from fractions import Fraction
        return self.listed.place(nearest(literal)) if isinstance(literal, Fraction) else None

    def settings(self) -> Settings:
        return {}

    def alike(self, other: Kind) -> bool:
        if not isinstance(other, Ranked) or len(self.listed) != len(other.listed):
            return False
        return self.listed is other.listed or all(map(operator.eq, self.listed, other.listed))

    def told(self) -> str:
        return f"floats as places among {len(self.listed)}"


# Booleans: false as 0 and true as 1, in the column's own words.

TRUTHS = (("false", "true"), ("False", "True"), ("FALSE", "TRUE"))
TRUTH_OF = {word: (value, words) for words in TRUTHS for value, word in enumerate(words)}


class Truths(Valued):
    name: ClassVar[str] = "truths"
    plural: ClassVar[str] = "true and false"
    example: ClassVar[str] = "TRUE"
    is_summable: ClassVar[bool] = True
    listed: ClassVar[None] = None

    def __init__(self, false: str, true: str) -> None:
        self.false, self.true = false, true

    def number(self, text: str) -> int | None:
        return TRUTH_OF[text][0] if text in TRUTH_OF else None

    def text(self, number: int) -> str:
        if number not in (0, 1):
            raise IndexError
        return self.true if number else self.false

    def total(self, number: int) -> str:
        return str(number)

    def spell(self, numbers: Sequence[int]) -> list[str]:
        return list(map(self.text, numbers))

    def place(self, literal: Literal) -> Place | None:
        if isinstance(literal, str):
            return (TRUTHS[0].index(literal.lower()),
                    True) if literal.lower() in TRUTHS[0] else None
        return math.floor(literal), literal.denominator == 1

    def settings(self) -> Settings:
        return {"false": self.false, "true": self.true}

    def alike(self, other: Kind) -> bool:
        return isinstance(other, Truths)

    def told(self) -> str:
        return f"{self.false} as 0 and {self.true} as 1"

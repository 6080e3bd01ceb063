"""What a detector finds: a kind, or an ambiguity that the user must decide."""
from __future__ import annotations

import bisect
import decimal
import re
from dataclasses import dataclass
from typing import Mapping, NamedTuple, NoReturn, Optional, Protocol, Sequence, Union

from .._csv.dialect import BLANKS
from .._csv.file import Source
from .._errors import Refused, shown
from .._identifiers import option
from .._types.base import Kind
from .._types.kinds import Styled, unstyled
from .._types.number_format import DEFAULT, Style
from .._types.numbers import Floats, Ranked
from .fields import Fields


# Numbers that are rounded to some digits after the point, as an option asks.

# a number of more digits fits no 64 bits, and neither does this one
MOST_DIGITS, BEYOND = 20, 1 << 64
# the shortest spelling of a double has any number of so many digits
SHORT, NOTHING = 15, decimal.Decimal(0)
# enough digits for any double, and for what people write
CONTEXT = decimal.Context(prec=1200, rounding=decimal.ROUND_HALF_EVEN)


@dataclass(frozen=True)
class Rounding:
    """Rounds numbers in a style to `digits` after the point, those halfway to an even last
    digit."""
    style: Style
    digits: int

    def number(self, text: str) -> int | None:
        """Returns the number of a field, multiplied by ten to `digits`."""
        plain = self.style.bare(text)
        if plain is None:
            return None
        number = decimal.Decimal(plain)
        if number and number.adjusted() + self.digits > MOST_DIGITS:
            # of thousands of digits no integer is made
            return BEYOND if number > 0 else -BEYOND
        return int(self.rounded(number))

    def rounded(self, number: decimal.Decimal) -> decimal.Decimal:
        return number.scaleb(self.digits,
                             CONTEXT).to_integral_value(decimal.ROUND_HALF_EVEN, CONTEXT)

    def change(self, text: str) -> decimal.Decimal:
        """Returns by how much a field changes."""
        plain = self.style.bare(text)
        if plain is None:
            return decimal.Decimal(0)
        number = decimal.Decimal(plain)
        return abs(CONTEXT.subtract(self.rounded(number).scaleb(-self.digits, CONTEXT), number))


def change_in_double(plain: str) -> decimal.Decimal:
    """Returns by how much a number in plain spelling differs from the shortest spelling of the
    nearest double, if it isn't this double."""
    if len(plain) <= SHORT and "e" not in plain.lower():
        return NOTHING
    number, double = decimal.Decimal(plain), float(plain)
    near = decimal.Decimal(repr(double))
    if number in (near, decimal.Decimal(double)):
        return NOTHING
    return abs(CONTEXT.subtract(number, near))


# What a detector returns: what a column becomes, or what can't be decided about it.


@dataclass(frozen=True)
class Decision:
    """What a column becomes: its kind, or None for texts; why it isn't something narrower; what
    most of its texts look like, though it is one of texts; and how the number of a field is found,
    if not by its kind."""
    kind: Optional[Kind]
    why: str = ""
    looks_like: str = ""
    rounding: Optional[Rounding] = None

    def change(self, text: str) -> Optional[decimal.Decimal]:
        """Returns by how much the number of a field that isn't null changes, if it does."""
        if self.rounding:
            return self.rounding.change(text)
        if self.kind is None or not isinstance(unstyled(self.kind), (Floats, Ranked)):
            return None
        style = self.kind.style if isinstance(self.kind, Styled) else DEFAULT
        return change_in_double(style.bare(text) or "0")


@dataclass(frozen=True)
class Ambiguity:
    """What can't be decided about a column. `texts` are fields that show it; in `what` each {0},
    {1} stands for one of them and its line. `options` are those that decide it, as may the ones
    that make the texts null if `may_be_null`."""
    what: str
    texts: tuple[str, ...] = ()
    options: tuple[str, ...] = ()
    may_be_null: bool = False


Outcome = Union[Decision, Ambiguity]


# What a detector of columns does.


class Detector(Protocol):
    """A detector of columns. `plural` and `singular` name what it looks for, `forms` are those of
    the fields stored as numbers that it accepts."""

    @property
    def plural(self) -> str: ...

    @property
    def singular(self) -> str: ...

    @property
    def forms(self) -> tuple[str, ...]: ...

    @property
    def is_shared(self) -> bool:
        """Whether a column that is mostly of this kind may not silently become one of texts."""

    def like(self, texts: Sequence[str]) -> list[str]:
        """Returns those of some texts that look like its own."""

    def signs(self, column: Fields) -> set[str]:
        """Returns the decimal signs that a column shows, all of whose texts are like its own."""

    def decide(self, column: Fields, signs: set[str]) -> Outcome:
        """Returns what a column becomes, all of whose texts are like its own. `signs` are the
        decimal signs of the file."""


def starting(texts: Sequence[str], starts: Sequence[tuple[str, str]]) -> list[str]:
    """Returns the texts of one line, of sorted ones, that begin in one of some ranges, each of
    which ends before its second text."""
    found = list[str]()
    for first, end in starts:
        found += texts[bisect.bisect_left(texts, first):bisect.bisect_left(texts, end)]
    return found


def matching(pattern: re.Pattern[str], texts: Sequence[str]) -> list[str]:
    """Returns the texts that match a pattern of whole lines, which is faster than to look at
    each."""
    joined = "\n".join(texts)
    if joined.count("\n") >= len(texts):
        joined = "\n".join(text for text in texts if "\n" not in text)
    return pattern.findall(joined)


# Refuses a file of which something can't be decided, with the lines that show it and the options
# that decide it.

PLACE = re.compile(r"\{([0-9])\}")


class Asked(NamedTuple):
    """An ambiguity about a column, which has a place."""
    place: int
    column: Fields
    ambiguity: Ambiguity


def refuse(source: Source, asked: Sequence[Asked]) -> None:
    """Rejects a file if there are ambiguities about its columns."""
    if asked:
        refuse_all(source, asked)


def refuse_all(source: Source, asked: Sequence[Asked]) -> NoReturn:
    lines = lines_of(source, {each.place: each.ambiguity.texts for each in asked})
    said = []
    for place, column, ambiguity in asked:
        found = lines[place]
        ordered = sorted(ambiguity.texts, key=lambda text: found.get(text, -1))
        texts = [f"{shown(text)} in line {found[text]}" if text in found else shown(text)
                 for text in ordered]
        what, heading = PLACE.sub(lambda place: texts[int(place[1])],
                                  ambiguity.what), column.options.heading
        nulls = (" ".join(option("--null", f"{heading}={text}") for text in ordered),
                 ) if ambiguity.may_be_null else ()
        use = ', or '.join((*nulls, *ambiguity.options))
        said.append(f"column {shown(heading)}: {what}: use {use}")
    if len(said) == 1:
        raise Refused(f"{source.path}: {said[0]}")
    raise Refused(f"{source.path}: {len(said)} columns can't be decided:" +
                  "".join(f"\n  {each}" for each in said))


def lines_of(source: Source,
             texts: Mapping[int, Sequence[str]]) -> dict[int, dict[str, int]]:
    """Returns the first line of each of some texts of each of some columns or, if none has it, of
    one with blanks around it. It reads the file again, up to the last of them."""
    left = {place: set(each) for place, each in texts.items() if each}
    found: dict[int, dict[str, int]] = {place: {} for place in texts}
    padded: dict[int, dict[str, int]] = {place: {} for place in texts}
    for line, record in source.numbered_rows() if left else ():
        for place, wanted in list(left.items()):
            field = record[place]
            if field in wanted:
                found[place][field] = line
                wanted.remove(field)
                if not wanted:
                    del left[place]
            elif field[:1] in BLANKS or field[-1:] in BLANKS:
                padded[place].setdefault(field.strip(BLANKS), line)
        if not left:
            break
    return {place: {**padded[place], **each} for place, each in found.items()}

"""What a column and its kind are, and the kinds that need no other module."""
from __future__ import annotations

import math
from typing import TYPE_CHECKING, ClassVar, Dict, Iterator, Protocol, Sequence, Tuple, Union

if TYPE_CHECKING:
    from fractions import Fraction
    from typing_extensions import TypeAlias

    from .number_format import Style
    from .numbers import Decimals, Floats, Ranked


# Objects that are equal if their attributes are. A frozen dataclass is one, too; but the module
# `dataclasses` takes longer to import than all that a small question needs, and each class of its
# as long as a module.


class Valued:
    """Equals an object of the same class whose attributes are equal. They aren't changed."""

    def __eq__(self, other: object) -> bool:
        return type(self) is type(other) and vars(self) == vars(other)

    def __hash__(self) -> int:
        return hash((type(self), *vars(self).values()))

    def __repr__(self) -> str:
        named = ", ".join(f"{name}={value!r}" for name, value in vars(self).items())
        return f"{type(self).__name__}({named})"


# A list of values in order, of which each has its place as its code.

# a place among numbers: the greatest number whose value is at most a literal's, and whether the two
# are equal
Place = Tuple[int, bool]


class Listed(Protocol):
    """Values in strictly ascending order, of which each has its place as its code, from 0 on: texts
    by their code points, or doubles. The store's own list reads a value when it is needed."""

    def __len__(self) -> int: ...

    def __iter__(self) -> Iterator[str] | Iterator[float]:
        """Yields all values in order."""

    def place(self, value: str | float) -> Place:
        """Returns the greatest code whose value is at most this one, or -1, and whether the values
        are equal."""

    def values(self, codes: Sequence[int]) -> list[str] | list[float]:
        """Returns the values of codes. Raises IndexError for a code that there isn't."""


# What a kind of column is: which whole number each of its fields becomes, and what that number
# stands for. `kinds` has the kinds; the store keeps a column's kind by its name, its settings
# and, for texts, the list that its numbers are places in.

# the bounds of a column's numbers
LEAST, GREATEST = -1 << 63, (1 << 63) - 1
# a literal of a statement: a text, or a number, as which TRUE is 1
Literal: TypeAlias = "Union[str, Fraction]"
# what the store keeps of a kind: at most 16 fields of short texts and of integers of 64 bits
Settings = Dict[str, Union[int, str]]


class Kind(Protocol):
    """A kind of column. Numbers ascend as the values do: so comparing numbers compares values."""

    # by which the store knows it, such as `decimals`
    @property
    def name(self) -> str: ...

    # its values, for a message: `times of day`
    @property
    def plural(self) -> str: ...

    # a literal as a statement has it, such as 12.50 or '2024-05-01'
    @property
    def example(self) -> str: ...

    # whether `bw` may add the numbers; `total` is then the text of a sum
    @property
    def is_summable(self) -> bool: ...

    # the list that the numbers are places in, or None
    @property
    def listed(self) -> Listed | None: ...

    def number(self, text: str) -> int | None:
        """Returns the number of a field, or None if it is no value of the kind."""

    def text(self, number: int) -> str:
        """Returns the field of a number. Raises ValueError, IndexError or OverflowError if no value
        has it, as in a table that isn't the columns' own."""

    def spell(self, numbers: Sequence[int]) -> list[str]:
        """Returns the fields of numbers, as `text` does."""

    def total(self, number: int) -> str:
        """Returns the text of a sum of numbers."""

    def place(self, literal: Literal) -> Place | None:
        """Returns the place of a literal among the numbers, or None if it is of another kind."""

    def alike(self, other: Kind) -> bool:
        """Returns whether equal numbers of both kinds are equal values."""

    def settings(self) -> Settings:
        """Returns what `kinds.kind_of` makes the same kind of, together with the list."""

    def told(self) -> str:
        """Returns what the numbers are, for the report of an import."""


# A column of a table, and what is known of its fields.


class Column:
    """A column of a table: its valid name in it, its original heading, and its kind."""

    def __init__(self, name: str, heading: str, kind: Kind, nulls: Sequence[str] = (),
                 ends: Sequence[str] = (), why: str = "", looks_like: str = "") -> None:
        self.name, self.heading, self.kind = name, heading, kind
        # the words that were null, beside the empty field
        self.nulls = nulls
        # the fields of the minimum and of the maximum, or nothing if all are null
        self.ends = ends
        # why it is one of texts, for the report and for messages
        self.why = why
        # what most of its texts look like (`numbers`, `dates`), though it is one of texts; then
        # they have no order that a reader expects. Empty if `--text` named the column
        self.looks_like = looks_like


# Columns that have only nulls.


class Nulls(Valued):
    name: ClassVar[str] = "nulls"
    plural: ClassVar[str] = "nulls alone"
    example: ClassVar[str] = "NULL"
    is_summable: ClassVar[bool] = True
    listed: ClassVar[None] = None

    def number(self, text: str) -> int | None:
        return None

    def text(self, number: int) -> str:
        return str(number)

    def total(self, number: int) -> str:
        return str(number)

    def spell(self, numbers: Sequence[int]) -> list[str]:
        return list(map(str, numbers))

    def place(self, literal: Literal) -> Place | None:
        return 0, True

    def settings(self) -> Settings:
        return {}

    def alike(self, other: Kind) -> bool:
        return True

    def told(self) -> str:
        return "nulls alone"


# Whole numbers, which stay as they are.


class Whole(Valued):
    name: ClassVar[str] = "whole"
    plural: ClassVar[str] = "whole numbers"
    example: ClassVar[str] = "5"
    is_summable: ClassVar[bool] = True
    listed: ClassVar[None] = None

    def number(self, text: str) -> int | None:
        if text.isdecimal() and text.isascii():
            return int(text)
        # few numbers have another spelling
        from .number_format import scaled
        return scaled(text, 0)

    def text(self, number: int) -> str:
        return str(number)

    def total(self, number: int) -> str:
        return str(number)

    def spell(self, numbers: Sequence[int]) -> list[str]:
        return list(map(str, numbers))

    def place(self, literal: Literal) -> Place | None:
        return None if isinstance(literal, str) else (math.floor(literal),
                                                      literal.denominator == 1)

    def settings(self) -> Settings:
        return {}

    def alike(self, other: Kind) -> bool:
        return isinstance(other, Whole)

    def told(self) -> str:
        return "whole numbers as they are"


# Numbers in a style: with a currency or a unit, signs between thousands, a decimal comma, or
# brackets.

Numbers: TypeAlias = "Union[Whole, Decimals, Floats, Ranked]"


class Styled(Valued):
    """The numbers of another kind, which are printed in a style."""

    def __init__(self, inner: Numbers, style: Style) -> None:
        self.inner, self.style = inner, style

    @property
    def name(self) -> str:
        return self.inner.name

    @property
    def plural(self) -> str:
        return self.inner.plural

    @property
    def example(self) -> str:
        return self.inner.example

    @property
    def is_summable(self) -> bool:
        return self.inner.is_summable

    @property
    def listed(self) -> Listed | None:
        return self.inner.listed

    def number(self, text: str) -> int | None:
        plain = self.style.bare(text)
        return None if plain is None else self.inner.number(plain)

    def text(self, number: int) -> str:
        return self.style.format(self.inner.text(number))

    def total(self, number: int) -> str:
        return self.style.format(self.inner.total(number))

    def spell(self, numbers: Sequence[int]) -> list[str]:
        return list(map(self.style.format, self.inner.spell(numbers)))

    def place(self, literal: Literal) -> Place | None:
        number = self.number(literal) if isinstance(literal, str) else None
        return self.inner.place(literal) if number is None else (number, True)

    def settings(self) -> Settings:
        style = self.style
        return {**self.inner.settings(), "mark": style.mark, "grouping": style.grouping,
                "prefix": style.prefix,
                "suffix": style.suffix, "brackets": style.brackets}

    def alike(self, other: Kind) -> bool:
        return self.inner.alike(other.inner if isinstance(other, Styled) else other)

    def told(self) -> str:
        return f"{self.inner.told()}, with {self.style.told()}"

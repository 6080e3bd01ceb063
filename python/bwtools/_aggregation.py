"""Groups and totals, exact: of what bw totalled, of rows that it listed, and in SQLite. Each
function's total stands here once.

Numbers are a column's integers. A sum of whole numbers is one within 64 bits; a sum of decimals is
an integer of any size, of the column's scale. A mean is the double nearest to the exact quotient. A
sum of floats is the double nearest to the exact sum, of listed rows by `math.fsum`."""
from __future__ import annotations

import contextlib
import functools
import itertools
import math
from collections import Counter
from typing import (TYPE_CHECKING, Any, Callable, Iterable, Iterator, Mapping, Optional,
                    Sequence, Tuple)

from ._engine.executor import COUNT, added
from ._errors import Refused
from ._result import (INFINITE_BITS, MOST_EXACT, NULL, Value, blob_of, columns_of, doubles as
                      decoded, foreign, integers_of, is_double, number_in, stored)
from ._types.base import GREATEST, LEAST, Column, Kind, Valued
from ._types.dictionary import Codes
from ._types.kinds import unstyled

if TYPE_CHECKING:
    import sqlite3
    from array import array

    from ._engine.executor import Part

AGGREGATES = ("COUNT", "SUM", "MIN", "MAX", "AVG")
# of a group whose number is null: less than each number, all of which are within 64 bits
NULL_NUMBER = -1 << 64
MOST_GROUPS = 1_000_000
# totals of bw by their names, each of all groups
GroupTotals = Mapping[str, Sequence[Optional[int]]]
# the numbers of a group's columns
Key = Tuple[int, ...]
# numbers up to this one have no sum of over 64 bits in 2^40 rows
SMALL = 1 << 23
# whole numbers below it are doubles
MOST_WHOLE = 1 << 53
# the bits of a double's fraction, and the power of two by which all doubles are whole numbers
FRACTION, LEAST_POWER = 52, 1074
# decimals have so many digits after the point
MOST_DIGITS = 18
# the functions of `Functions`
FUNCTIONS = ("bw_sum", "bw_avg", "bw_total", "bw_halves", "bw_mean",
             *(f"bw_exact_{digits}" for digits in range(MOST_DIGITS + 1)))


class Aggregate(Valued):
    """An aggregate over the rows of a group: of a column, or COUNT(*)."""

    def __init__(self, function: str, column: Column | None = None,
                 is_distinct: bool = False) -> None:
        self.function, self.column, self.is_distinct = function, column, is_distinct

    @property
    def totals(self) -> list[str]:
        """The totals of bw that make it, by their names, such as SUM(cents)."""
        if self.column is None:
            return [COUNT]
        functions = ("SUM", "COUNT") if self.function == "AVG" else (self.function,)
        return [f"{function}({self.column.name})" for function in functions]

    @property
    def is_float_sum(self) -> bool:
        """Whether it adds doubles, which bw doesn't."""
        return self.column is not None and not self.column.kind.is_summable and \
            self.function in ("SUM", "AVG")

    @property
    def is_of_bw(self) -> bool:
        """Whether totals of bw make it."""
        return not self.is_distinct and not self.is_float_sum

    @property
    def kind(self) -> Kind | None:
        """The kind of its values: the column's for MIN and MAX, decimals without a style for a sum
        of them; None for whole numbers and doubles."""
        if self.column is None or self.function in ("COUNT", "AVG"):
            return None
        return kind_of_sum(self.column.kind) if self.function == "SUM" else self.column.kind


def kind_of_sum(kind: Kind) -> Kind | None:
    """Returns the kind of a sum of values of a kind: decimals, or None."""
    return unstyled(kind) if kind.name == "decimals" else None


def digits_of(kind: Kind) -> int:
    """Returns the power of ten by which a column's values are multiplied to get its numbers."""
    plain: Any = unstyled(kind)
    return int(plain.digits) if plain.name == "decimals" else 0


def values_of(aggregate: Aggregate, totals: GroupTotals) -> Sequence[Value]:
    """Returns an aggregate for groups: exact numbers of its kind, or else SQLite's values."""
    column, function = aggregate.column, aggregate.function
    needed = [totals[name] for name in aggregate.totals]
    if column is not None and function == "AVG":
        digits = digits_of(column.kind)
        return [mean_of(number, count or 0, digits) for number, count in zip(*needed)]
    if column is not None and function == "SUM" and not digits_of(column.kind):
        return [within_64_bits(column.name, number) for number in needed[0]]
    return needed[0]


def within_64_bits(name: str, number: int | None) -> int | None:
    """Returns a sum of whole numbers. Raises Refused if 64 bits don't hold it."""
    if number is not None and not LEAST <= number <= GREATEST:
        raise Refused(f"SUM({name}) is outside the range of 64 bits: {number:,}")
    return number


def mean_of(number: int | None, count: int, digits: int) -> float | None:
    """Returns the double nearest to the mean of `count` values whose numbers' sum is given, or None
    if there are none."""
    return number / (count * int(10 ** digits)) if number is not None and count else None


def float_sum(doubles: Sequence[float]) -> float:
    """Returns the double nearest to the sum of finite doubles: infinity if it is too large."""
    try:
        return math.fsum(doubles)
    except OverflowError:
        from fractions import Fraction
        from ._types.numbers import nearest
        return nearest(sum(map(Fraction, doubles), Fraction()))


def float_total(function: str, total: float, count: int) -> float | None:
    """Returns the sum, or the mean, of so many doubles whose sum was rounded once; None if there
    are none."""
    if not count:
        return None
    return total if function == "SUM" else total / count


def binades(gap: int, least: int, greatest: int) -> list[tuple[int, int]]:
    """Returns ranges of a float column's numbers of one sign, each of doubles of one exponent. The
    ends are the least and the greatest of all."""
    if least < 0:
        return [(-last, -first) for first, last in reversed(binades(gap, -greatest, -least))]
    exponents = range((least + gap) >> FRACTION, ((greatest + gap) >> FRACTION) + 1)
    return [(max(least, (each << FRACTION) - gap), min(greatest, (each + 1 << FRACTION) - 1 - gap))
            for each in exponents]


def sum_of_binades(kind: Kind, totals: Sequence[tuple[int, int, int]]) -> float:
    """Returns the double nearest to the sum of a float column's values. Each total is a number of a
    binade, how many numbers of it there are, and their sum."""
    plain: Any = unstyled(kind)
    gap, found = plain.gap, 0
    for number, count, total in totals:
        sign = -1 if number < 0 else 1
        bits, exponent = sign * total + count * gap, (abs(number) + gap) >> FRACTION
        if exponent >= INFINITE_BITS >> FRACTION:
            raise foreign(kind)
        if exponent:
            # the bits of the exponent are none of the fraction, which has a bit more
            bits, exponent = bits - (count * (exponent - 1) << FRACTION), exponent - 1
        found += sign * bits << exponent
    try:
        return found / (1 << LEAST_POWER)
    except OverflowError:
        return math.inf if found > 0 else -math.inf


def values_for_sqlite(kind: Kind, numbers: Sequence[int | None], is_sum: bool = False
                      ) -> tuple[list[Value], bool]:
    """Returns SQLite's values of numbers, of which None and NULL_NUMBER are null, and whether they
    are decimals as their integers, or of sums as `blob_of` has them: then a double doesn't hold
    each of them. Raises Refused if the table isn't the columns' own."""
    distinct = [each for each in dict.fromkeys(numbers) if each is not None
                and each != NULL_NUMBER]
    if kind.name == "decimals" and not all(is_double(each, digits_of(kind)) for each in distinct):
        return [None if number is None or number == NULL_NUMBER else
                blob_of(number) if is_sum else number for number in numbers], True
    try:
        found = dict(zip(distinct, stored(kind, distinct)))
    except (ValueError, IndexError, OverflowError):
        raise foreign(kind) from None
    return [None if number is None else found.get(number) for number in numbers], False


class Found:
    """Groups: the numbers of each column that makes them, and the totals of each group by their
    names, such as SUM(cents). All lists have the groups' order."""

    def __init__(self, columns: Sequence[Sequence[int]],
                 totals: Mapping[str, Sequence[int | None]]) -> None:
        self.columns, self.totals = columns, totals

    @property
    def keys(self) -> list[Key]:
        """The numbers of each group."""
        return list(zip(*self.columns)) if self.columns else [()] * len(self.totals[COUNT])

    def coarser(self, places: Sequence[int], groups: int) -> Found:
        """Returns the totals of so many groups, each of which has some of these: those of its
        place."""
        parts: dict[str, list[list[int | None]]] = {name: [[] for _ in range(groups)]
                                                    for name in self.totals}
        for name, each in self.totals.items():
            for place, number in zip(places, each):
                parts[name][place].append(number)
        return Found([], {name: [added(name.partition("(")[0], part) for part in each]
                          for name, each in parts.items()})

    def ascending(self) -> Found:
        """Returns the groups in ascending order, nulls first."""
        order = sorted(range(len(self.totals[COUNT])), key=self.keys.__getitem__)
        columns = [list(map(column.__getitem__, order)) for column in self.columns]
        return Found(columns, {name: list(map(each.__getitem__, order))
                               for name, each in self.totals.items()})


# --- rows that bw listed, as lines of whole numbers: the groups' columns first

class TooMany(Refused):
    """More groups than may be counted."""


class Sums:
    """The totals of a column in each group, by the groups' places: those of some functions."""

    def __init__(self, name: str, functions: Sequence[str]) -> None:
        self.name = name
        self.found: dict[str, list[int]] = {function: [] for function in functions}
        # how many numbers were added in each group
        self.present: Counter[int] = Counter()

    def add(self, groups: int, places: Sequence[int], fields: Sequence[str]) -> None:
        """Adds the fields of some rows, whose groups have these places, of so many ones."""
        if NULL in fields:
            kept = [field != NULL for field in fields]
            places = list(itertools.compress(places, kept))
            fields = list(itertools.compress(fields, kept))
        self.present.update(places)
        for function, found in self.found.items():
            found += [STARTS[function]] * (groups - len(found))
            ADDERS[function](found, places, map(int, fields))

    def totals(self, groups: int) -> Iterator[tuple[str, list[int | None]]]:
        """Yields the totals of all groups by their names."""
        counts = list(map(self.present.__getitem__, range(groups)))
        for function, found in self.found.items():
            totals = [total if count else None for total, count in zip(found, counts)]
            yield f"{function}({self.name})", list(counts) if function == "COUNT" else totals


def add_nothing(found: list[int], places: Iterable[int], numbers: Iterable[int]) -> None:
    """Adds nothing: `Sums` has the counts."""


def add_sums(found: list[int], places: Iterable[int], numbers: Iterable[int]) -> None:
    for place, number in zip(places, numbers):
        found[place] += number


def add_least(found: list[int], places: Iterable[int], numbers: Iterable[int]) -> None:
    for place, number in zip(places, numbers):
        if number < found[place]:
            found[place] = number


def add_greatest(found: list[int], places: Iterable[int], numbers: Iterable[int]) -> None:
    for place, number in zip(places, numbers):
        if number > found[place]:
            found[place] = number


ADDERS = {"COUNT": add_nothing, "SUM": add_sums, "MIN": add_least, "MAX": add_greatest}
# what a total is before any number; each number is within 64 bits
STARTS = {"COUNT": 0, "SUM": 0, "MIN": 1 << 64, "MAX": -1 << 64}


def lines_of(parts: Sequence[Part]) -> Iterator[bytes]:
    """Yields the lines of a result after its heading, many at a time."""
    for part in parts:
        yield from part.blocks()
        part.close()


def counts(parts: Sequence[Part]) -> Found:
    """Returns how often each line occurs, in the order of their first places."""
    found: Counter[str] = Counter()
    for lines in lines_of(parts):
        found.update(lines.decode("ascii").split("\n")[:-1])
        refuse_groups(len(found))
    return Found(numbers_in(list(found)), {COUNT: list(found.values())})


def distinct(parts: Sequence[Part]) -> dict[Key, int]:
    """Returns how many numbers of the last column there are beside those of the others."""
    found = set[str]()
    for lines in lines_of(parts):
        found.update(lines.decode("ascii").split("\n")[:-1])
    several = Counter(line.rpartition(",")[0] for line in found)
    return dict(zip(keys_of(list(several)), several.values()))


def totals(parts: Sequence[Part], keys: int, functions: Mapping[str, Sequence[str]]) -> Found:
    """Returns the totals of each group, in the order of their first rows. `functions` are those of
    each column after the groups' own, by its name."""
    groups, rows = Codes(), Counter[int]()
    sums = [Sums(name, each) for name, each in functions.items()]
    for fields, columns in blocks_of(parts, keys, len(sums)):
        places = list(map(groups.__getitem__, fields))
        rows.update(places)
        refuse_groups(len(groups))
        for each, column in zip(sums, columns):
            each.add(len(groups), places, column)
    found = {name: total for each in sums for name, total in each.totals(len(groups))}
    return Found(numbers_in(list(groups)), {COUNT: list(map(rows.__getitem__, range(len(groups)))),
                                            **found})


def doubles_in(parts: Sequence[Part], kind: Kind) -> array[float]:
    """Returns the doubles of a column, which is the only one and has no nulls."""
    from array import array
    found, plain = array("d"), unstyled(kind)
    gap: int | None = getattr(plain, "gap", None)
    for lines in lines_of(parts):
        numbers = integers_of(lines)
        found.extend(stored(kind, numbers) if gap is None else decoded(gap, numbers))
    return found


def doubles(parts: Sequence[Part], keys: int, kind: Kind) -> dict[Key, array[float]]:
    """Returns the doubles of a column, which is the last one and has no nulls, in each group."""
    if not keys:
        own = doubles_in(parts, kind)
        return {(): own} if own else {}
    from array import array
    found: dict[str, array[float]] = {}
    for fields, (column,) in blocks_of(parts, keys, 1):
        for key, double in zip(fields, stored(kind, list(map(int, column)))):
            try:
                found[key].append(double)
            except KeyError:
                found[key] = array("d", [double])
                refuse_groups(len(found))
    return dict(zip(keys_of(list(found)), found.values()))


def blocks_of(parts: Sequence[Part], keys: int, others: int
              ) -> Iterator[tuple[Sequence[str], Sequence[Sequence[str]]]]:
    """Yields the fields of the groups' columns of many rows at a time, joined by commas, and the
    other columns."""
    for lines in lines_of(parts):
        columns = columns_of(lines, keys + others)
        own = columns[0] if keys == 1 else list(map(",".join, zip(*columns[:keys]))) if keys else \
            [""] * len(columns[0])
        yield own, columns[keys:]


def numbers_in(lines: Sequence[str]) -> list[list[int]]:
    """Returns the columns of numbers of lines, of which all have as many fields."""
    if not lines or not lines[0]:
        return []
    fields = zip(*(line.split(",") for line in lines)) if "," in lines[0] else [lines]
    return [[NULL_NUMBER if field == NULL else int(field) for field in column]
            for column in fields]


def keys_of(lines: Sequence[str]) -> list[Key]:
    """Returns the numbers of each line."""
    columns = numbers_in(lines)
    return list(zip(*columns)) if columns else [()] * len(lines)


def refuse_groups(count: int) -> None:
    if count > MOST_GROUPS:
        raise TooMany(f"the statement has more than {MOST_GROUPS:,} groups: use a condition, or "
                      "group by fewer columns")


# --- SUM and AVG in SQLite

# the forms of a sum of decimals beside the double that it is: bytes; or the nearest double, and 0.0
# of no values
BLOB, TOTAL = 1, 2


class NeedsExact(Exception):
    """A double isn't the sum of decimals that an expression has."""


class Functions:
    """The functions of a connection to SQLite. It doesn't pass on what they raise, a refusal or the
    exception of a signal: it is kept here."""

    def __init__(self, database: sqlite3.Connection) -> None:
        self.raised: BaseException | None = None
        for name, made in (("bw_sum", Sum), ("bw_avg", Mean), ("bw_total", Total)):
            database.create_aggregate(name, 1, functools.partial(made, self.kept))
        for digits in range(MOST_DIGITS + 1):
            database.create_aggregate(f"bw_exact_{digits}", 1,
                                      functools.partial(ExactSum, self.kept, digits))
        database.create_function("bw_halves", -1, self.joined, deterministic=True)
        database.create_function("bw_mean", 4, mean_of_halves, deterministic=True)

    def keep(self, raised: BaseException) -> None:
        """Keeps what was raised in a callback of SQLite."""
        self.raised = raised

    @contextlib.contextmanager
    def kept(self) -> Iterator[None]:
        """Keeps what is raised."""
        try:
            yield
        except BaseException as error:
            self.keep(error)
            raise

    def joined(self, high: int | None, low: int | bytes | None, digits: int, form: int,
               doubles: int = 1) -> int | float | bytes | None:
        """Returns the sum of which these are the halves, of 32 bits; the lower one may be as
        `blob_of` has it. A sum of decimals is the double, or another form of it. Of so many doubles
        among whole numbers it is a whole number if there are none."""
        if high is None or low is None:
            return 0.0 if form == TOTAL else None
        number = (high << 32) + int(number_in(low))
        if not doubles:
            number, digits = number // int(10 ** digits), 0
        if digits and form == BLOB:
            return blob_of(number)
        with self.kept():
            if form == TOTAL:
                return number / int(10 ** digits)
            if digits and not is_double(number, digits):
                raise NeedsExact
            return number / int(10 ** digits) if digits else in_64_bits(number)


def mean_of_halves(high: int | None, low: int | bytes | None, count: int, digits: int
                   ) -> float | None:
    """Returns the mean of numbers of whose sum these are the halves."""
    return None if high is None or low is None else \
        mean_of((high << 32) + int(number_in(low)), count, digits)


def in_64_bits(number: int) -> int:
    """Returns a sum of integers, which SQLite must hold."""
    if not LEAST <= number <= GREATEST:
        raise Refused(f"a SUM is outside the range of 64 bits: {number:,}")
    return number


class Sum:
    """The sum of a group's numbers. `kept` keeps what is raised, which SQLite doesn't pass on."""

    name = "SUM"

    def __init__(self, kept: Callable[[], contextlib.AbstractContextManager[None]]) -> None:
        self.kept, self.values = kept, list[Any]()
        # no function of Python is called for a row: that takes five times as long
        self.step = self.values.append

    def present(self) -> list[Any]:
        """Returns the values that aren't null, which must be numbers."""
        types = set(map(type, self.values))
        if not types <= {int, float, type(None)}:
            raise Refused(f"{self.name} of texts, which can't be summed")
        return [value for value in self.values if value is not None] if type(None) in types \
            else self.values

    def finalize(self) -> Any:
        """Returns the sum, or None if there was no value."""
        with self.kept():
            values = self.present()
            found = summed(values) if values else None
            return in_64_bits(found) if isinstance(found, int) else found


class Mean(Sum):
    """The mean of a group's numbers."""

    name = "AVG"

    def finalize(self) -> Any:
        """Returns the double nearest to the mean of integers; of others the sum divided."""
        with self.kept():
            values = self.present()
            found, count = summed(values), len(values)
            return None if found is None else mean_of(found, count, 0) if isinstance(found, int) \
                else found / count


class Total(Sum):
    """The sum of a group's numbers as a double, which is 0.0 if there are none."""

    name = "TOTAL"

    def finalize(self) -> Any:
        with self.kept():
            found = summed(self.present())
            return None if found is None else float(found)


class ExactSum(Sum):
    """The sum of a group's whole numbers and decimals, multiplied by ten to `digits`, as `blob_of`
    has it. A decimal is a double that is spelled so."""

    def __init__(self, kept: Callable[[], contextlib.AbstractContextManager[None]],
                 digits: int) -> None:
        super().__init__(kept)
        self.power, self.digits = int(10 ** digits), digits

    def finalize(self) -> Any:
        with self.kept():
            values = self.present()
            return blob_of(sum(map(self.number, values))) if values else None

    def number(self, value: int | float) -> int:
        """Returns the integer of a value."""
        if isinstance(value, int):
            return value * self.power
        if abs(value) * self.power < MOST_EXACT:
            return round(value * self.power)
        from fractions import Fraction
        return int(Fraction(repr(value)) * self.power)


def summed(values: Sequence[Any]) -> int | float | None:
    """Returns the sum of numbers: of integers the exact one; else the double nearest to the exact
    one, which is infinite if that is too large, or None if it is none."""
    if set(map(type, values)) <= {int}:
        found: int = sum(values)
        return found
    if all(map(math.isfinite, values)):
        whole = sum(value for value in values if isinstance(value, int))
        if -MOST_WHOLE < whole < MOST_WHOLE:
            return float_sum([whole, *(value for value in values if isinstance(value, float))])
        from ._types.numbers import nearest
        from fractions import Fraction
        return nearest(sum(map(Fraction, values), Fraction()))
    infinite: float = sum(map(float, values))
    return None if math.isnan(infinite) else infinite

"""Results as data frames of pandas and as arrays of numpy, by columns: without an object of Python
for each row of a listing."""
from __future__ import annotations

import collections
import importlib
from typing import Any, Callable, NamedTuple, Sequence

from ._errors import Refused
from ._result import NumberRows, Numbers, Result, ResultColumn, foreign, objects_of
from ._types.base import GREATEST, LEAST, Kind
from ._types.kinds import Texts, unstyled
from ._types.number_format import power_of_ten
from ._types.numbers import Decimals, Floats, Ranked, Truths
from ._types.temporal import Clocks, Dates, Times

# numbers up to this one are doubles
MOST_EXACT = 1 << 53
# numpy has nanoseconds from 1677 to 2262
FIRST_YEAR, LAST_YEAR = 1678, 2261


class Array(NamedTuple):
    """A column: its values, or their places among the categories, and which of them are null."""

    values: Any
    mask: Any
    categories: list[Any] | None = None


def module(name: str, package: str) -> Any:
    """Returns a module that may be missing."""
    try:
        return importlib.import_module(name)
    except ImportError:
        raise Refused(f"{name} isn't installed: install {package} of Debian, or run "
                      f"pip install {name}") from None


def arrays_of(answer: Result) -> dict[str, Any]:
    """Returns masked arrays by headings: int64, bool, float64 (decimals too), datetime64 in days
    or nanoseconds, timedelta64 for times of day, and objects for texts."""
    numpy = module("numpy", "python3-numpy")
    refuse_twins(answer.headings)
    found = dict[str, Any]()
    for heading, kind, column in zip(answer.headings, answer.kinds, columns_of(answer, numpy)):
        values = converted(numpy, kind, column)
        if column.categories is not None:
            values = numpy.array([*column.categories, None], dtype=object)[column.values]
        found[heading] = numpy.ma.MaskedArray(values, column.mask)
    return found


def refuse_twins(headings: Sequence[str]) -> None:
    """Rejects headings of which two are equal."""
    for heading, count in collections.Counter(headings).items():
        if count > 1:
            raise Refused(f"{count} columns have the heading {heading}: give them aliases")


def frame_of(answer: Result, decimals: bool) -> Any:
    """Returns a data frame of pandas."""
    numpy, pandas = module("numpy", "python3-numpy"), module("pandas", "python3-pandas")
    series = [series_of(numpy, pandas, kind, column, decimals)
              for kind, column in zip(answer.kinds, columns_of(answer, numpy))]
    frame = pandas.DataFrame(dict(enumerate(series)), copy=False)
    frame.columns = list(answer.headings)
    return frame


def series_of(numpy: Any, pandas: Any, kind: Kind | None, column: Array, decimals: bool) -> Any:
    """Returns the array of pandas for a column."""
    plain = None if kind is None else unstyled(kind)
    if column.categories is not None:
        return pandas.Categorical.from_codes(column.values, column.categories)
    if isinstance(plain, Decimals) and decimals:
        found = numpy.array([*objects_of(plain, column.values.tolist()), None], dtype=object)[:-1]
        found[column.mask] = None
        return found
    values = converted(numpy, kind, column)
    if values.dtype.kind == "i":
        return pandas.arrays.IntegerArray(values, column.mask)
    if values.dtype.kind == "b":
        return pandas.arrays.BooleanArray(values, column.mask)
    if values.dtype.kind == "f":
        values[column.mask] = numpy.nan
    elif values.dtype.kind in "mM":
        values[column.mask] = numpy.timedelta64("NaT") if values.dtype.kind == "m" else \
            numpy.datetime64("NaT")
        if isinstance(plain, (Dates, Times)):
            return moments_of(numpy, pandas, plain, values)
    return values


def moments_of(numpy: Any, pandas: Any, kind: Dates | Times, values: Any) -> Any:
    """Returns the array of pandas for dates or times: in nanoseconds, or, if a year is beyond
    theirs, as objects of Python."""
    years = values[~numpy.isnat(values)].astype("datetime64[Y]").astype(int) + 1970
    if len(years) and not (FIRST_YEAR <= years.min() and years.max() <= LAST_YEAR):
        return values.astype("datetime64[us]" if isinstance(kind, Times) else values.dtype) \
            .astype(object)
    found = values.astype("datetime64[ns]")
    if isinstance(kind, Times) and kind.zone:
        return pandas.DatetimeIndex(found).tz_localize("UTC")
    return found


def converted(numpy: Any, kind: Kind | None, column: Array) -> Any:
    """Returns the values of a column's numbers."""
    plain, numbers = None if kind is None else unstyled(kind), column.values
    if isinstance(plain, Truths):
        return numbers.astype(bool)
    if isinstance(plain, Decimals):
        power = power_of_ten(plain.digits)
        if len(numbers) and max(abs(int(min(numbers))), abs(int(max(numbers)))) > MOST_EXACT:
            return numpy.array([number / power for number in numbers.tolist()], dtype=float)
        return numbers / power
    if isinstance(plain, Floats):
        return doubles_of(numpy, plain, numbers) if numbers.dtype.kind == "i" else numbers
    if isinstance(plain, Dates):
        return numbers.astype("datetime64[D]")
    if isinstance(plain, (Times, Clocks)):
        name = "datetime64" if isinstance(plain, Times) else "timedelta64"
        # a unit of numpy for each thousandth
        units, step = ("s", "ms", "us", "ns"), -(-plain.digits // 3)
        return (numbers * power_of_ten(3 * step - plain.digits)).astype(f"{name}[{units[step]}]")
    return numbers


def doubles_of(numpy: Any, kind: Floats, numbers: Any) -> Any:
    """Returns the doubles of the numbers of a column of floats."""
    magnitudes = numpy.abs(numbers)
    magnitudes[numbers != 0] += kind.gap
    found = magnitudes.view(numpy.float64)
    return numpy.where(numbers < 0, -found, found)


def columns_of(answer: Result, numpy: Any) -> list[Array]:
    """Returns the columns of an answer."""
    body = answer.body
    if isinstance(body, NumberRows):
        parts = [parsed(numpy, part.rows(), len(answer.kinds))
                 for part in body.parts] or [parsed(numpy, b"", len(answer.kinds))]
        numbers = numpy.concatenate([values for values, _ in parts])
        masks = numpy.concatenate([mask for _, mask in parts])
        return [with_categories(numpy, kind, numpy.ascontiguousarray(numbers[:, place]),
                                numpy.ascontiguousarray(masks[:, place]))
                for place, kind in enumerate(answer.kinds)]
    return [of_column(numpy, column) for column in body.whole(answer.kinds)]


def parsed(numpy: Any, data: bytes, width: int) -> tuple[Any, Any]:
    """Returns the numbers of lines of bw, and which of them are null."""
    absent = next(number for number in range(GREATEST, LEAST, -1)
                  if b"%d" % number not in data)
    text = data.replace(b"NULL", b"%d" % absent).translate(bytes.maketrans(b"\n", b","))
    numbers = numpy.fromstring(text[:-1], dtype=numpy.int64, sep=",") if text else \
        numpy.zeros(0, dtype=numpy.int64)
    if len(numbers) != data.count(b"\n") * width:
        raise Refused("bw's result has lines that aren't of whole numbers")
    numbers = numbers.reshape(-1, width)
    mask = numbers == absent
    numbers[mask] = 0
    return numbers, mask


def with_categories(numpy: Any, kind: Kind | None, numbers: Any, mask: Any) -> Array:
    """Returns a column of numbers: of texts, and of doubles that are places in a list, the values
    that occur are its categories."""
    plain = None if kind is None else unstyled(kind)
    if kind is None or not isinstance(plain, (Texts, Ranked)):
        return Array(numbers, mask)
    codes, places = distinct(numpy, numbers[~mask])
    try:
        values = plain.listed.values(codes.tolist())
    except IndexError:
        raise foreign(kind) from None
    if isinstance(plain, Ranked):
        found = numpy.zeros(len(numbers))
        found[~mask] = numpy.array(values, dtype=float)[places]
        return Array(found, mask)
    found = numpy.full(len(numbers), -1, dtype=numpy.int64)
    found[~mask] = places
    return Array(found, mask, list(values))


def distinct(numpy: Any, codes: Any) -> tuple[Any, Any]:
    """Returns the codes that occur, and the place of each one among them."""
    if not len(codes) or codes.max() > 8 * len(codes) or codes.min() < 0:
        found, places = numpy.unique(codes, return_inverse=True)
        return found, places
    occurs = numpy.bincount(codes) > 0
    return numpy.flatnonzero(occurs), (numpy.cumsum(occurs) - 1)[codes]


def of_column(numpy: Any, column: ResultColumn) -> Array:
    """Returns a column of what SQLite computed."""
    if isinstance(column, Numbers):
        numbers = column.integers()
        mask = numpy.array([number is None for number in numbers], dtype=bool)
        found = [number or 0 for number in numbers]
        is_wide = any(not LEAST <= number <= GREATEST for number in found)
        if isinstance(unstyled(column.kind), (Texts, Ranked)):
            return with_categories(numpy, column.kind, numpy.array(found, dtype=numpy.int64), mask)
        return Array(numpy.array(found, dtype=object if is_wide else numpy.int64), mask)
    values = column.items
    mask = numpy.array([value is None for value in values], dtype=bool)
    types = {type(value) for value in values if value is not None}
    if column.kind is not None and column.kind.name == "texts" and types <= {str}:
        known = sorted({value for value in values if isinstance(value, str)})
        places: dict[Any, int] = {value: place for place, value in enumerate(known)}
        codes = [places.get(value, -1) for value in values]
        return Array(numpy.array(codes, dtype=numpy.int64), mask, list(known))
    if types <= {int, float}:
        is_float = float in types or column.kind is not None
        dtype: Callable[..., Any] = float if is_float else numpy.int64
        return Array(numpy.array([value or 0 for value in values], dtype=dtype), mask)
    return Array(numpy.array([*values, None], dtype=object)[:-1], mask)

"""Results: columns of exact integers, each with the kind that says what they stand for, from the
bytes of bw to rows of Python, fields of CSV and JSON; the values of SQLite that it computes with
and returns; and rows of plain columns, in order and within limits.

SQLite has whole numbers and booleans as INTEGER, decimals and floats as REAL, and texts, dates and
times as TEXT, the latter in ISO form. Times of UTC have no Z, and a part of a second has as many
digits as the column's. Decimals of more digits than a double are their integers: INTEGER."""
from __future__ import annotations

import itertools
import operator
from typing import TYPE_CHECKING, Any, Callable, Iterator, Sequence, Tuple, Union

from ._engine.executor import COUNT, Engine, Outside, Part, both, names_of, select
from ._errors import Failed, Refused
from ._types.base import Kind, Literal, Place, Valued
from ._types.kinds import unstyled

if TYPE_CHECKING:
    from array import array

    from ._types.base import Column

# a value as SQLite has it; our tables have no bytes, but expressions may
Value = Union[None, int, float, str, bytes]
# an exact integer: as Python has it, or as bw spells it
Integer = Union[None, int, str]
INTEGER, REAL, TEXT = "INTEGER", "REAL", "TEXT"
AFFINITIES = {"whole": INTEGER, "truths": INTEGER, "nulls": INTEGER, "decimals": REAL,
              "floats": REAL, "ranked": REAL, "dates": TEXT, "times": TEXT, "clocks": TEXT,
              "texts": TEXT}
# the kinds of dates and times, and those whose values SQLite has as they are printed
MOMENTS, AS_PRINTED = ("dates", "times", "clocks"), ("texts", "floats", "ranked")
# the ISO forms of times and of times of day
ISO_TIME, ISO_CLOCK = "%Y-%m-%d %H:%M:%S", "%H:%M:%S"
# doubles have each decimal of so many digits
EXACT_DIGITS = 15
MOST_EXACT = 10 ** EXACT_DIGITS
NULL, NULLS, SAMPLE = "NULL", ("NULL", None), 256
# the bits of infinity: those of a finite double of its sign are less
INFINITE_BITS = 0x7FF << 52

ROWS_AT_ONCE = 8192
# of an integer as bw spells it, or as Python has it
to_int: Callable[[Any], int] = int
# where a reader is: the first of the rows to read, or the place of a part and of a line in it
Position = Tuple[int, int]


def affinity(kind: Kind) -> str:
    """Returns the type of SQLite's column for a kind."""
    return AFFINITIES[kind.name]


def is_long(column: Column) -> bool:
    """Returns whether a column has decimals of too many digits for a double."""
    if column.kind.name != "decimals":
        return False
    numbers = [column.kind.number(end) for end in column.ends]
    return any(number is None or abs(number) >= MOST_EXACT for number in numbers)


def plain_of(kind: Kind) -> Kind:
    """Returns the kind that spells dates and times in ISO form, and reads no other; another kind
    without its style."""
    plain: Any = unstyled(kind)
    if kind.name not in MOMENTS:
        found: Kind = plain
        return found
    # few statements need them
    from ._types.temporal import Clocks, Dates, Times
    if kind.name == "dates":
        return Dates()
    if kind.name == "times":
        return Times(ISO_TIME, plain.digits)
    return Clocks(ISO_CLOCK, plain.digits)


def iso_text(kind: Kind, literal: str) -> str:
    """Returns the ISO form of a date or a time: that of the column's value, or else a text that is
    between those of two values, as the literal is."""
    from ._types.temporal import Clocks, Times, read_moment
    found = kind.place(literal)
    if found and found[1]:
        return plain_of(kind).text(found[0])
    plain: Any = kind
    if kind.name == "clocks":
        number, digits = plain.read(literal) or (0, 0)
        return Clocks(ISO_CLOCK, digits).text(number)
    moment = read_moment(plain.form, literal)
    assert moment
    return Times(ISO_TIME, moment.digits).text(moment.number)


def place(kind: Kind, literal: Literal) -> Place | None:
    """Returns the place of a literal in SQLite's form among a column's numbers, or None if it is of
    another kind: of a date only its ISO form is one."""
    return plain_of(kind).place(literal)


def stored(kind: Kind, numbers: Sequence[int]) -> list[Any]:
    """Returns SQLite's values of a column's numbers: of a decimal the double nearest to it. Raises
    ValueError, IndexError or OverflowError for a number that no value of the kind has."""
    plain: Any = plain_of(kind)
    if plain.name == "decimals":
        return list(map(operator.truediv, numbers, itertools.repeat(10 ** plain.digits)))
    if plain.name == "floats":
        return doubles(plain.gap, numbers).tolist()
    if plain.name == "ranked":
        return list(plain.listed.values(numbers))
    if plain.name == "times":
        from ._types.temporal import spelled_times
        return spelled_times(numbers, ISO_TIME, plain.digits, "")
    if plain.name == "truths" and not set(numbers) <= {0, 1}:
        raise IndexError
    return list(numbers) if affinity(plain) == INTEGER else list(plain.spell(numbers))


def doubles(gap: int, numbers: Sequence[int]) -> array[float]:
    """Returns the doubles of the numbers of a column of floats. Raises OverflowError or ValueError
    for a number that none has."""
    from array import array
    if not numbers:
        return array("d")
    least, greatest = min(numbers), max(numbers)
    if max(greatest, -least) + gap >= INFINITE_BITS:
        raise ValueError
    # a double of a sign has the sign's bit, which is the least number of 64 bits
    bits = array("q", [number + gap for number in numbers] if least > 0 else
                 [number + gap if number > 0 else number and -number + gap - (1 << 63)
                  for number in numbers])
    return array("d", bits.tobytes())


def number_of(kind: Kind, value: Value) -> int:
    """Returns the number of a value of the column. Raises ValueError for another value."""
    found = numbers_of(kind, [value])
    if found is None or found[0] is None:
        raise ValueError(f"{value!r} is no value of the column")
    return found[0]


def numbers_of(kind: Kind, values: Sequence[Value]) -> list[int | None] | None:
    """Returns the numbers of SQLite's values of a kind, or None if a value is none of the kind, as
    UNION may put one below a column."""
    plain: Any = plain_of(kind)
    wanted = {INTEGER: int, REAL: float, TEXT: str}[affinity(plain)]
    if not set(map(type, values)) <= {wanted, type(None)}:
        return None
    if plain.name in ("whole", "nulls"):
        # they are their own numbers
        return list(values)  # type: ignore[arg-type]
    distinct: list[Any] = [value for value in dict.fromkeys(values) if value is not None]
    try:
        numbers = read_values(plain, distinct)
        if stored(plain, numbers) != distinct:
            return None
    except (ValueError, IndexError, OverflowError, TypeError):
        return None
    known: dict[Value, int | None] = {None: None, **dict(zip(distinct, numbers))}
    return list(map(known.__getitem__, values))


def read_values(plain: Any, values: Sequence[Any]) -> list[int]:
    """Returns numbers of values, which must be compared with the values of these."""
    if plain.name == "decimals":
        # of a longer one the shortest spelling is the decimal (`is_double`), and no product
        power, most = 10 ** plain.digits, MOST_EXACT / 10 ** plain.digits
        return [round(value * power) if -most < value < most else plain.number(repr(value))
                for value in values]
    if plain.name == "dates":
        import datetime
        from ._types.temporal import FIRST_DAY
        return [datetime.date.fromisoformat(value).toordinal() - FIRST_DAY for value in values]
    if plain.name == "times" and values:
        from ._types.temporal import plain_times
        found = plain_times(("\n".join(values) + "\n").encode(), len(values))
        if found and found.shape == (" ", True, plain.digits, ""):
            return found.numbers
    if affinity(plain) == INTEGER:
        return list(values)
    return [plain.number(value if isinstance(value, str) else repr(value)) for value in values]


def is_double(number: int, digits: int) -> bool:
    """Returns whether a decimal, an integer that is multiplied by ten to `digits`, is spelled as
    the double nearest to it: then no other such decimal has that double."""
    if abs(number) < MOST_EXACT:
        return True
    # few numbers are so long
    from ._types.number_format import scaled
    return scaled(repr(number / 10 ** digits), digits) == number


def blob_of(number: int) -> bytes:
    """Returns an integer of up to 127 bits as bytes, which SQLite puts in the integers' order."""
    return (number + (1 << 127)).to_bytes(16, "big")


def number_in(value: Any) -> Any:
    """Returns the integer of `blob_of`; another value as it is."""
    return int.from_bytes(value, "big") - (1 << 127) if isinstance(value, bytes) else value


def spelled(value: Value) -> str:
    """Returns the text of a value: doubles in the shortest spelling, bytes as the literal of a
    blob, nothing for null."""
    if isinstance(value, str):
        return value
    if isinstance(value, bytes):
        return f"X'{value.hex().upper()}'"
    return "" if value is None else repr(value)


def foreign(kind: Kind | None) -> Refused:
    """Returns the refusal of a table that isn't the columns' own."""
    plural = kind.plural if kind else "whole numbers"
    return Refused(f"the table has a number that is none of its column's {plural}")


class Numbers:
    """A column of exact integers, of some rows: those of a kind's values."""

    __slots__ = ("kind", "items")

    def __init__(self, kind: Kind, items: Sequence[Integer]) -> None:
        self.kind, self.items = kind, items

    def turned(self, null: Any, turn: Callable[[Sequence[int]], Sequence[Any]]) -> list[Any]:
        """Returns what a function returns for the integers, and `null` for nulls. Of many equal
        ones each distinct one is turned once."""
        items, sample = self.items, self.items[:SAMPLE]
        is_few = len(set(sample)) * 4 < len(sample)
        known: Sequence[Any] = list(dict.fromkeys(items)) if is_few else items
        has_null = NULL in known or None in known
        present: Sequence[Any] = known
        if has_null:
            present = [each for each in known if each not in NULLS]
        try:
            found: Sequence[Any] = turn(list(map(to_int, present)))
        except (ValueError, IndexError, OverflowError):
            raise foreign(self.kind) from None
        if is_few:
            turned: dict[Integer, Any] = {NULL: null, None: null, **dict(zip(present, found))}
            return list(map(turned.__getitem__, items))
        if not has_null:
            return list(found)
        rest = iter(found)
        return [null if each in NULLS else next(rest) for each in items]

    def integers(self) -> list[int | None]:
        """Returns the integers; None is null."""
        return [None if each in NULLS else to_int(each) for each in self.items]

    def values(self) -> list[Any]:
        """Returns SQLite's values."""
        return self.turned(None, lambda numbers: stored(self.kind, numbers))

    def objects(self) -> list[Any]:
        """Returns Python's objects: int, float, str, bool, decimal.Decimal, datetime.date,
        datetime.time or datetime.datetime, which is aware if the column is of UTC. Python's times
        have microseconds: a time with more digits is a text."""
        return self.turned(None, lambda numbers: objects_of(self.kind, numbers))

    def fields(self) -> list[str]:
        """Returns the fields in the column's own form, without quotes; a null is an empty one."""
        if self.kind.name in ("whole", "nulls") and unstyled(self.kind) is self.kind:
            return ["" if each in NULLS else str(each) for each in self.items]
        return self.turned("", self.kind.spell)

    def json(self) -> list[str]:
        """Returns the values of JSON: numbers with all their digits, true and false, and texts:
        those of dates and times are in ISO form."""
        plain: Any = unstyled(self.kind)
        if plain.name in ("whole", "nulls"):
            return ["null" if each in NULLS else str(each) for each in self.items]
        if plain.name == "decimals":
            return self.turned("null", type(plain)(plain.digits, 0).spell)
        from json import dumps
        if plain.name == "truths":
            return self.turned("null", lambda numbers: list(map(dumps, objects_of(plain, numbers))))
        return self.turned("null", lambda numbers: [dumps(each, ensure_ascii=False)
                                                    for each in stored(plain, numbers)])


class Values:
    """A column of SQLite's values, of some rows: of expressions, and of texts and floats."""

    __slots__ = ("kind", "items")

    def __init__(self, kind: Kind | None, items: Sequence[Value]) -> None:
        self.kind, self.items = kind, items

    def values(self) -> Sequence[Any]:
        """Returns SQLite's values."""
        return self.items

    def objects(self) -> Sequence[Any]:
        """Returns Python's objects: int, float, str or bytes."""
        return self.items

    def fields(self) -> list[str]:
        """Returns the fields: floats in the column's style, if it has one."""
        if self.kind is None or unstyled(self.kind) is self.kind:
            return list(map(spelled, self.items))
        style: Any = self.kind
        return [style.style.format(repr(value)) if isinstance(value, (int, float))
                else spelled(value) for value in self.items]

    def json(self) -> list[str]:
        """Returns the values of JSON: an infinity is a text, and so are bytes, in hexadecimal."""
        from json import dumps
        return [dumps(spelled(value) if value in (INFINITY, -INFINITY) else
                      value.hex() if isinstance(value, bytes) else value, ensure_ascii=False)
                for value in self.items]


INFINITY = float("inf")
ResultColumn = Union[Numbers, Values]


def objects_of(kind: Kind, numbers: Sequence[int]) -> list[Any]:
    """Returns Python's objects of a column's numbers."""
    plain: Any = unstyled(kind)
    if plain.name == "decimals":
        import decimal
        # of a text, since a context may round what is computed
        return list(map(decimal.Decimal, type(plain)(plain.digits, 0).spell(numbers)))
    if plain.name == "dates":
        import datetime
        from ._types.temporal import FIRST_DAY
        return [datetime.date.fromordinal(number + FIRST_DAY) for number in numbers]
    found = stored(plain, numbers)
    if plain.name == "truths":
        return list(map(bool, found))
    if plain.name in ("times", "clocks") and plain.digits <= 6:
        is_utc = plain.name == "times" and plain.zone != ""
        return [moment(is_utc, value) for value in found]
    return found


def moment(is_utc: bool, value: str) -> Any:
    """Returns a time, or a time of day, of its ISO form."""
    import datetime
    whole, _, part = value.partition(".")
    microsecond = int(part.ljust(6, "0")) if part else 0
    if len(whole) < len("2024-05-01"):
        return datetime.time.fromisoformat(whole).replace(microsecond=microsecond)
    zone = datetime.timezone.utc if is_utc else None
    return datetime.datetime.fromisoformat(whole).replace(microsecond=microsecond, tzinfo=zone)


def columns_of(lines: bytes, width: int) -> list[list[str]]:
    """Returns the columns of lines of bw, as it spells numbers and nulls."""
    fields = lines.decode("ascii").replace("\n", ",").split(",")
    count = lines.count(b"\n")
    if len(fields) != count * width + 1:
        raise Failed(f"bw listed lines of other than {width} fields")
    return [fields[place:-1:width] for place in range(width)]


def integers_of(lines: bytes) -> list[Any]:
    """Returns the integers of lines of bw, one after another; None is null. The module json takes
    half as long as `int` for each field."""
    import json
    text = lines[:-1].replace(b"\n", b",").replace(b"NULL", b"null")
    try:
        found: list[Any] = json.loads(b"[%b]" % text)
    except ValueError:
        found = [""]
    if not set(map(type, found)) <= {int, type(None)}:
        raise Failed("bw listed lines that aren't of whole numbers")
    return found


class NumberRows:
    """Rows of whole numbers as bw listed them, one part for each file of the table."""

    def __init__(self, parts: Sequence[Part]) -> None:
        self.parts = parts

    def typed(self, kinds: Sequence[Kind | None]) -> Sequence[Kind | None]:
        """Returns the kinds of the columns, which are those that were told."""
        return kinds

    def count(self) -> int:
        """Returns the number of rows."""
        return sum(part.count for part in self.parts)

    def block(self, at: Position, kinds: Sequence[Kind | None]
              ) -> tuple[list[ResultColumn], Position] | None:
        """Returns the columns of some rows from a position on, and the next position; None at the
        end."""
        place, offset = at
        while place < len(self.parts):
            part = self.parts[place]
            offset = max(offset, part.start)
            lines = part.lines(offset)
            if lines:
                found: list[ResultColumn] = [
                    Numbers(kind, fields) if kind else Values(None, list(map(int, fields)))
                    for kind, fields in zip(kinds, columns_of(lines, len(kinds)))]
                return found, (place, offset + len(lines))
            place, offset = place + 1, 0
        return None


class ValueRows:
    """Rows of SQLite's values. In the columns of `exact` they are the numbers of their kinds, or
    what `blob_of` makes of them."""

    def __init__(self, rows: Sequence[tuple[Value, ...]], exact: Sequence[int] = ()) -> None:
        self.length, self.exact = len(rows), exact
        # zip takes a row as an argument: of a million that takes ten times as long
        self.columns: list[Sequence[Any]] = [list(map(operator.itemgetter(place), rows))
                                             for place in range(len(rows[0]) if rows else 0)]
        # which columns are of numbers
        self.are_numbers = list[bool]()

    def typed(self, kinds: Sequence[Kind | None]) -> Sequence[Kind | None]:
        """Returns the kinds of the columns: None where a value is none of the kind that was
        told."""
        self.columns = self.columns or [()] * len(kinds)
        found, self.are_numbers = list(kinds), [False] * len(kinds)
        for at, kind in enumerate(kinds):
            if kind is None or kind.name in AS_PRINTED and at not in self.exact:
                continue
            numbers = list(map(number_in, self.columns[at])) if at in self.exact else \
                numbers_of(kind, self.columns[at])
            if numbers is None:
                found[at] = None
            else:
                self.columns[at], self.are_numbers[at] = numbers, True
        return found

    def count(self) -> int:
        """Returns the number of rows."""
        return self.length

    def block(self, at: Position, kinds: Sequence[Kind | None]
              ) -> tuple[list[ResultColumn], Position] | None:
        """Returns the columns of some rows, as those of `NumberRows`."""
        start, end = at[0], at[0] + ROWS_AT_ONCE
        return (self.whole(kinds, start, end), (end, 0)) if start < self.length else None

    def whole(self, kinds: Sequence[Kind | None], start: int = 0, end: int | None = None
              ) -> list[ResultColumn]:
        """Returns the columns of all rows, or of those from one to another."""
        return [Numbers(kind, column[start:end]) if kind and is_number else
                Values(kind, column[start:end])
                for kind, column, is_number in zip(kinds, self.columns, self.are_numbers)]


class Result:
    """The result of a statement: its headings; of each column the kind if it is a plain column, the
    minimum or maximum of one or a sum of decimals, else None; its rows; which way found it, 1
    (statements of bw) or 2 (SQLite over listed columns); and the statements that bw ran for it."""

    def __init__(self, headings: Sequence[str], kinds: Sequence[Kind | None],
                 body: ValueRows | NumberRows, way: int, asked: Sequence[str] = ()) -> None:
        self.headings, self.kinds = headings, body.typed(kinds)
        self.body, self.way, self.asked = body, way, asked

    def drop_styles(self) -> None:
        """Has numbers printed without the signs that they have in the file."""
        self.kinds = [kind and unstyled(kind) for kind in self.kinds]

    def count(self) -> int:
        """Returns the number of rows."""
        return self.body.count()

    def block(self, position: Position) -> tuple[list[ResultColumn], Position] | None:
        """Returns the columns of some rows from a position on, at first (0, 0), and the next
        position; None at the end. No reader disturbs another one."""
        return self.body.block(position, self.kinds)

    def blocks(self) -> Iterator[list[ResultColumn]]:
        """Yields the columns, many rows at a time."""
        position: Position = (0, 0)
        while found := self.block(position):
            block, position = found
            yield block

    def fields(self) -> Iterator[list[list[str]]]:
        """Yields the columns of the fields of a CSV, many rows at a time. They have no quotes yet;
        a null is an empty field."""
        return ([column.fields() for column in block] for block in self.blocks())

    def rows(self) -> Iterator[tuple[Value, ...]]:
        """Yields the rows as SQLite's values."""
        return itertools.chain.from_iterable(zip(*(column.values() for column in block))
                                             for block in self.blocks())

    def objects(self) -> Iterator[tuple[Any, ...]]:
        """Yields the rows as Python's objects."""
        return itertools.chain.from_iterable(zip(*(column.objects() for column in block))
                                             for block in self.blocks())


# --- rows of plain columns: listed by bw, then put in order and limited here, by their numbers

NOTHING, HEADING = b"NULL", b"\n"
# more rows than these aren't sorted here
MOST_ROWS = 1_000_000
# a limit is used to list fewer rows if there are more than these
MANY_ROWS = 100_000
# up to so many rows that a limit and its offset need, no others are read
MOST_FIRST = 1_000_000


class Limits(Valued):
    """How many rows an answer has at most, if that is limited, and how many are left out before
    them."""

    def __init__(self, most: int | None = None, offset: int = 0) -> None:
        self.most, self.offset = most, offset

    @property
    def end(self) -> int | None:
        """How many rows are needed to have these."""
        return None if self.most is None else self.offset + self.most


class SortKey(Valued):
    """A column by which rows are put in order."""

    def __init__(self, column: Column, is_descending: bool, are_nulls_first: bool) -> None:
        self.column, self.is_descending = column, is_descending
        self.are_nulls_first = are_nulls_first


class WantedRows:
    """Which rows are wanted, of which columns."""

    def __init__(self, table: str, columns: Sequence[Column], where: str, keys: Sequence[SortKey],
                 limits: Limits) -> None:
        self.table, self.columns, self.where = table, columns, where
        self.keys, self.limits = keys, limits

    def body(self, engine: Engine) -> NumberRows:
        """Returns the rows."""
        if self.limits.most == 0:
            return NumberRows([])
        where = self.narrowed(engine) if self.keys else self.where
        sorting = [key.column for key in self.keys]
        statement = select(names_of([*self.columns, *sorting]), self.table, where)
        most = self.limits.end
        if not self.keys and most is not None and most <= MOST_FIRST:
            parts = engine.beginning(statement, most, self.limits.offset)
            return NumberRows([Part(limited(parts, self.limits))])
        parts = engine.rows(statement)
        if self.keys:
            return NumberRows([Part(self.sorted(parts))])
        if self.limits.most is None and not self.limits.offset:
            return NumberRows(parts)
        return NumberRows([Part(limited(parts, self.limits))])

    def narrowed(self, engine: Engine) -> str:
        """Returns a condition on which all rows that are wanted are, and few others: if there is a
        limit, counts tell how far the first column of the order goes. Raises Outside if the rows
        are too many to be sorted."""
        key, wanted, where = self.keys[0], self.limits.end, self.where
        name = key.column.name
        items = f"{COUNT}, COUNT({name}), MIN({name}), MAX({name})"
        rows, present, least, greatest = engine.totals([select(items, self.table, where)])[0]
        assert rows is not None and present is not None
        if wanted is not None and rows >= MANY_ROWS and wanted <= rows // 2:
            near, nulls = f"{name} IS NULL", rows - present
            if key.are_nulls_first:
                wanted -= nulls
            if 0 < wanted <= present and least is not None and greatest is not None:
                bound = self.bound(engine, wanted, least, greatest)
                near = f"{bound} OR {near}" if key.are_nulls_first and nulls else bound
            if wanted <= present:
                where = both(where, near)
                rows = self.count(engine, where)
        if rows > MOST_ROWS:
            raise Outside
        return where

    def bound(self, engine: Engine, wanted: int, least: int, greatest: int) -> str:
        """Returns the narrowest bound of the first column within which so many rows are."""
        key = self.keys[0]
        turn, sign = (-1, ">=") if key.is_descending else (1, "<=")
        low, high = sorted((turn * least, turn * greatest))
        while low < high:
            middle = (low + high) // 2
            near = both(self.where, f"{key.column.name} {sign} {turn * middle}")
            is_enough = self.count(engine, near) >= wanted
            low, high = (low, middle) if is_enough else (middle + 1, high)
        return f"{key.column.name} {sign} {turn * high}"

    def count(self, engine: Engine, where: str) -> int:
        """Returns how many rows fulfil a condition."""
        return engine.totals([select(COUNT, self.table, where)])[0][0] or 0

    def sorted(self, parts: Sequence[Part]) -> bytes:
        """Returns the rows of a result in order, within the limits, after an empty heading."""
        fields = [line.rsplit(b",", len(self.keys)) for line in lines_of(parts)]
        order: Sequence[int] = range(len(fields))
        # a sort leaves the order of equal rows: so the first column's is the last
        for place in reversed(range(len(self.keys))):
            order = ordered(self.keys[place], order, [row[place + 1] for row in fields])
        chosen = order[self.limits.offset:self.limits.end]
        return HEADING + b"".join([fields[row][0] + b"\n" for row in chosen])


def ordered(key: SortKey, order: Sequence[int], fields: Sequence[bytes]) -> list[int]:
    """Returns rows in the order of a column, of which these are the fields."""
    present = [row for row in order if fields[row] != NOTHING]
    nulls = [row for row in order if fields[row] == NOTHING]
    numbers = {row: int(fields[row]) for row in present}
    present.sort(key=numbers.__getitem__, reverse=key.is_descending)
    return [*nulls, *present] if key.are_nulls_first else [*present, *nulls]


def limited(parts: Sequence[Part], limits: Limits) -> bytes:
    """Returns the rows of a result within limits, after an empty heading."""
    found, left, most = list[bytes](), limits.offset, limits.most
    for part in parts:
        left -= part.skipped
        for block in part.blocks():
            count = block.count(b"\n")
            if left >= count:
                # rows that are left out are counted alone
                left -= count
                continue
            lines = block.split(b"\n")[left:-1]
            found += lines if most is None else lines[:most - len(found)]
            left = 0
            if most is not None and len(found) == most:
                break
        part.close()
    return HEADING + b"".join([line + b"\n" for line in found])


def lines_of(parts: Sequence[Part]) -> Iterator[bytes]:
    """Yields the lines of a result after its heading, without their ends, a part at a time."""
    for part in parts:
        for block in part.blocks():
            yield from block.split(b"\n")[:-1]
        part.close()

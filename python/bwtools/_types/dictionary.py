"""Texts as their places in a sorted list: in memory, in a columns file, or in blocks."""
from __future__ import annotations

import bisect
import contextlib
import itertools
import operator
import sqlite3
import zlib
from typing import Any, Callable, ClassVar, Iterable, Iterator, Sequence

from .._errors import Refused, shown
from .base import Kind, Listed, Literal, Place, Settings, Valued


# Codes of distinct texts.


class Codes(dict[str, int]):
    """A code for each distinct text, in the order in which they were met."""

    def __missing__(self, text: str) -> int:
        code = self[text] = len(self)
        return code


# A list of values in order, of which each has its place as its code: in memory, while a file is
# imported.


class SortedList:
    """A list of texts, or of doubles, in strictly ascending order: a `listed.Listed`."""

    def __init__(self, values: Sequence[Any]) -> None:
        self.all = values

    def __len__(self) -> int:
        return len(self.all)

    def __iter__(self) -> Iterator[Any]:
        return iter(self.all)

    def place(self, value: str | float) -> Place:
        """Returns the greatest code whose value is at most this one, or -1, and whether the values
        are equal."""
        code = bisect.bisect_right(self.all, value) - 1
        return code, code >= 0 and bool(self.all[code] == value)

    def values(self, codes: Sequence[int]) -> list[Any]:
        """Returns the values of codes. Raises IndexError for a code that there isn't."""
        if codes and min(codes) < 0:
            raise IndexError
        return list(map(self.all.__getitem__, codes))


# A list of values in order, of which each has its place as its code: in a columns file, from
# which a block of values is read when one of them is needed.

# a block has so many values, or fewer long ones: it ends with the one that makes it so long
VALUES_A_BLOCK, LENGTH_A_BLOCK = 1 << 9, 1 << 17
# values of one statement of SQLite, at most the variables of a statement of any, and so many are
# all read once half of them were
AT_ONCE, MOST_KEPT = 400, 1 << 20
# what is between the texts of a block: no text has this byte in UTF-8
BETWEEN = b"\xff"


def blocks_of(values: Iterable[Any]) -> Iterator[list[Any]]:
    """Yields the values of a list in blocks."""
    rest = iter(values)
    while block := list(itertools.islice(rest, VALUES_A_BLOCK)):
        if type(block[0]) is float or sum(map(len, block)) <= LENGTH_A_BLOCK:
            yield block
            continue
        # few questions need it
        import bisect
        ends, first = list(itertools.accumulate(map(len, block))), 0
        while first < len(block):
            begun = ends[first] - len(block[first])
            end = bisect.bisect_right(ends, begun + LENGTH_A_BLOCK) + 1
            yield block[first:end]
            first = end


def packed(block: Sequence[Any]) -> bytes:
    """Returns the bytes of a block of texts, which may be in UTF-8, or of doubles."""
    if type(block[0]) is bytes:
        return BETWEEN.join(block)
    if type(block[0]) is str:
        return BETWEEN.join(map(str.encode, block))
    # few columns are of ranked doubles
    import struct
    return struct.pack(f"<{len(block)}d", *block)


def unpacked(data: bytes, type_: type) -> list[Any]:
    """Returns the values of a block's bytes, texts in UTF-8, whose order is that of code points.
    Raises ValueError if they aren't those of a block."""
    if type_ is str:
        return data.split(BETWEEN)
    if not data or len(data) % 8:
        raise ValueError("a block isn't one of doubles")
    import struct
    return list(struct.unpack(f"<{len(data) // 8}d", data))


def sum_of_block(data: bytes, seed: int, place: int, code: int) -> int:
    """Returns the sum of a block's bytes, its column's place and its first code."""
    return zlib.crc32(data, zlib.crc32(b"%d,%d" % (place, code), seed))


def are_ascending(values: Sequence[Any]) -> bool:
    """Returns whether each value is greater than the one before."""
    return all(map(operator.lt, values, itertools.islice(values, 1, None)))


class StoredList:
    """A list of texts, or of doubles, in a columns file: a `listed.Listed`. It checks what it
    reads: the sum of a block, that codes follow one another, and that values ascend. `what` names
    it in messages."""

    def __init__(self, database: sqlite3.Connection, place: int, count: int, type_: type,
                 seed: int, what: str) -> None:
        self.database, self.column, self.count, self.type = database, place, count, type_
        self.seed, self.what = seed, what
        self.select = f"SELECT code, {'texts' if type_ is str else 'doubles'}, sum " \
                      f"FROM values_{place}"
        # how many values were read, and all of them, once they are kept
        self.read, self.all = 0, list[Any]()

    def __len__(self) -> int:
        return self.count

    def __iter__(self) -> Iterator[Any]:
        """Yields all values. Raises Refused at the first one that isn't as it must be."""
        start, last = 0, list[Any]()
        for code, values in self.blocks("ORDER BY code"):
            if code != start:
                raise self.broken(code, "a code is missing, or there twice")
            if not are_ascending(last + values):
                raise self.broken(code, "values don't ascend")
            yield from self.decoded(values)
            start, last = start + len(values), values[-1:]
        if start != self.count:
            raise self.broken(start, f"there aren't {self.count} values")

    def blocks(self, condition: str, values: Sequence[Any] = ()) -> Iterator[tuple[int, list[Any]]]:
        """Yields the first codes of blocks, and their values, texts in UTF-8, whose sums are
        right."""
        try:
            for code, data, found in self.database.execute(f"{self.select} {condition}", values):
                yield code, self.checked(code, data, found)
        except sqlite3.Error as error:
            # few files are damaged
            from .._errors import MEMORY, failure_of
            if failure_of(error).status == MEMORY:
                raise
            raise self.broken(0, str(error)) from None

    def checked(self, code: Any, data: Any, found: Any) -> list[Any]:
        """Returns the values of a block. Raises Refused if its sum isn't the one that was
        written."""
        if type(code) is not int or type(data) is not bytes or \
                found != sum_of_block(data, self.seed, self.column, code):
            raise self.broken(code, "a block has another sum")
        try:
            return unpacked(data, self.type)
        except ValueError as error:
            raise self.broken(code, str(error)) from None

    def decoded(self, values: Sequence[Any]) -> Sequence[Any]:
        """Returns values of blocks as Python has them."""
        try:
            return list(map(bytes.decode, values)) if self.type is str else values
        except ValueError as error:
            raise self.broken(0, str(error)) from None

    def block(self, code: int) -> tuple[int, list[Any]]:
        """Returns the first code of the block that has a code, which there must be, and the values
        of it."""
        found = list(self.blocks("WHERE code <= ? ORDER BY code DESC LIMIT 1", (code,)))
        if not found or not 0 <= code - found[0][0] < len(found[0][1]):
            raise self.broken(code, "a code is missing")
        return found[0]

    def place(self, value: str | float) -> Place:
        """Returns the greatest code whose value is at most this one, or -1, and whether the values
        are equal."""
        if isinstance(value, str) and not is_unicode(value):
            raise Refused(f"{shown(value)} isn't text of Unicode")
        # a question without a literal of a text needs none
        import bisect
        if self.all:
            code = bisect.bisect_right(self.all, value) - 1
            return code, code >= 0 and bool(self.all[code] == value)
        wanted: Any = value.encode() if isinstance(value, str) else value
        # the value of `low` is at most this one, which is less than that of `high`
        low, high, is_equal = -1, self.count, False
        while high - low > 1:
            first, values = self.block((low + high) // 2)
            at = bisect.bisect_right(values, wanted)
            if first <= low or first + len(values) > high or not are_ascending(values):
                raise self.broken(first, "values don't ascend")
            if at:
                low, is_equal = first + at - 1, values[at - 1] == wanted
            if at < len(values):
                high = first + at
            # a long list of literals asks for most of them
            self.keep(len(values))
        return low, is_equal

    def values(self, codes: Sequence[int]) -> list[Any]:
        """Returns the values of codes. Raises IndexError for a code that there isn't."""
        if codes and not (0 <= min(codes) and max(codes) < self.count):
            raise IndexError
        wanted = [] if self.all else sorted(set(codes))
        self.keep(len(wanted))
        if self.all:
            return list(map(self.all.__getitem__, codes))
        known, first, values = dict[int, Any](), 0, list[Any]()
        for code in wanted:
            if not code - first < len(values):
                first, values = self.block(code)
            known[code] = values[code - first]
        known = dict(zip(known, self.decoded(list(known.values()))))
        return list(map(known.__getitem__, codes))

    def keep(self, count: int) -> None:
        """Notes that so many values are read. Once half of them were, all are read and kept."""
        self.read += count
        if not self.all and self.count <= MOST_KEPT and self.read > self.count // 2:
            self.all = list(self)

    def matching(self, condition: str, wanted: Sequence[Any]) -> Iterator[int]:
        """Yields the codes of values that fulfil a condition of SQLite on `value`. Raises
        sqlite3.Error if it can't be evaluated."""
        first, rest = 0, iter(self.all or self)
        with contextlib.closing(sqlite3.connect(":memory:", isolation_level=None)) as database:
            database.execute("CREATE TABLE listed (code INTEGER PRIMARY KEY, value TEXT)")
            while part := list(itertools.islice(rest, AT_ONCE)):
                # their codes there begin with 1
                database.execute("DELETE FROM listed")
                database.execute("INSERT INTO listed (value) VALUES "
                                 + ",".join(["(?)"] * len(part)), part)
                for code, in database.execute(f"SELECT code FROM listed {condition}", wanted):
                    yield first + code - 1
                first += len(part)

    def broken(self, code: Any, why: str) -> Refused:
        """Returns the refusal of a file that isn't as it was written."""
        return Refused(f"the columns file is damaged: {self.what}, from code {code} on: {why}; "
                       "import the file again")


def is_unicode(text: str) -> bool:
    """Returns whether a text has no half of a surrogate pair, as which an argument's odd bytes are
    read."""
    try:
        text.encode()
        return True
    except UnicodeEncodeError:
        return False


# Distinct texts that are read from elsewhere.


class TextBlocks:
    """Distinct texts in order, as bytes of UTF-8, which are read many at a time and are best read
    in order: any other use reads all of them."""

    def __init__(self, count: int, blocks: Callable[[], Iterable[list[bytes]]]) -> None:
        self.count, self.blocks = count, blocks

    def __len__(self) -> int:
        return self.count

    def __iter__(self) -> Iterator[str]:
        return map(bytes.decode, self.encoded())

    def encoded(self) -> Iterator[bytes]:
        """Yields the texts as bytes."""
        return itertools.chain.from_iterable(self.blocks())

    def place(self, value: str | float) -> Place:
        return SortedList(list(self)).place(value)

    def values(self, codes: Sequence[int]) -> list[str]:
        return SortedList(list(self)).values(codes)


# Texts, as their places in a list that is sorted by code points.


class Texts(Valued):
    name: ClassVar[str] = "texts"
    plural: ClassVar[str] = "texts"
    example: ClassVar[str] = "'this'"
    is_summable: ClassVar[bool] = False

    def __init__(self, listed: Listed) -> None:
        self.listed = listed

    def number(self, text: str) -> int | None:
        place, is_exact = self.listed.place(text)
        return place if is_exact else None

    def text(self, number: int) -> str:
        return self.spell([number])[0]

    def total(self, number: int) -> str:
        raise ValueError

    def spell(self, numbers: Sequence[int]) -> list[str]:
        return list(map(str, self.listed.values(numbers)))

    def place(self, literal: Literal) -> Place | None:
        return self.listed.place(literal) if isinstance(literal, str) else None

    def settings(self) -> Settings:
        return {}

    def alike(self, other: Kind) -> bool:
        if not isinstance(other, Texts) or len(self.listed) != len(other.listed):
            return False
        return self.listed is other.listed or all(map(operator.eq, self.listed, other.listed))

    def told(self) -> str:
        return f"texts as places among {len(self.listed)}"

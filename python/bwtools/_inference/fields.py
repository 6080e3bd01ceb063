"""The distinct fields of a column, and those that are plain numbers or times."""
from __future__ import annotations

import array
import bisect
import functools
import itertools
import math
import operator
import random
import re
from dataclasses import dataclass, field
from typing import Any, Iterable, Iterator, NamedTuple, Optional, Sequence, TypeVar

from .._csv.dialect import BLANKS
from .._types.base import GREATEST, LEAST
from .._types.number_format import is_grouped
from .._types.temporal import plain_times
from ..loader.dictionary import Block, Dictionary, encoded, texts_of
from .options import NULLS, ColumnOptions


# The numbers that a column stores, by their digits.

# a number of more characters doesn't fit 64 bits
LONGEST, MOST_PLACES = 100, 18


@dataclass
class Spans:
    """What numbers are stored: the minimum and the maximum of each number of digits after the
    decimal sign, these numbers of digits, whether one ends in a zero there, whether one is a double
    or doesn't fit a scale, and the least magnitude of a double above 0, the least and the greatest
    double."""
    ends: dict[int, tuple[int, int]] = field(default_factory=dict)
    lengths: set[int] = field(default_factory=set)
    has_zero: bool = False
    is_float: bool = False
    reach: tuple[float, float, float] = (math.inf, math.inf, -math.inf)

    def add(self, plain: str) -> None:
        """Adds a number in plain spelling."""
        whole, _, part = plain.partition(".")
        if "e" in plain or "E" in plain or len(part) > MOST_PLACES or len(plain) > LONGEST:
            self.is_float = True
            return
        self.has_zero = self.has_zero or part[-1:] == "0"
        number = int(f"{whole}{part}")
        self.widen(len(part), number, number)

    def widen(self, digits: int, least: int, greatest: int) -> None:
        ends = self.ends.get(digits, (least, greatest))
        self.ends[digits] = min(ends[0], least), max(ends[1], greatest)
        self.lengths.add(digits)

    def add_doubles(self, doubles: Sequence[float]) -> None:
        self.is_float = True
        (least, low, high), first, last = self.reach, min(doubles), max(doubles)
        if first > 0 or last < 0:
            least = min(least, abs(first), abs(last))
        else:
            least = min(least, min(map(float.__abs__, filter(None, doubles)), default=math.inf))
        self.reach = least, min(low, first), max(high, last)

    def copy(self) -> Spans:
        return Spans(dict(self.ends), set(self.lengths), self.has_zero, self.is_float, self.reach)

    @property
    def digits(self) -> int:
        return max(self.ends, default=0)

    def fits(self) -> bool:
        """Returns whether all numbers, scaled to the most digits, fit 64 bits and are less than
        2^63 apart."""
        least = min((end[0] * 10 ** (self.digits - each) for each, end in self.ends.items()),
                    default=0)
        greatest = max((end[1] * 10 ** (self.digits - each) for each, end in self.ends.items()),
                       default=0)
        return LEAST <= least and greatest <= GREATEST and greatest - least <= GREATEST


# Fields that are examined many at a time: numbers and times in one spelling, from which their
# texts can be made again.

FLOATS = re.compile(rb"(?:-?(?:[0-9]+(?:\.[0-9]+)?)(?:e[+-][0-9]+)?\n)*")
FIRST = re.compile(b"-?[0-9]|[ \t]")
# the types of arrays of numbers, each with the bits of its magnitudes
TYPES = (("b", 7), ("h", 15), ("i", 31), ("q", 63))


class Numbered(NamedTuple):
    """The numbers of fields that are spelled as numbers are printed: the type of the array and its
    bytes. `nulls` has a byte for each field: 0, or 1 more than the place of its word for null; it
    is empty if no field is null. Whole numbers, decimals and times are multiplied by ten to
    `digits`. If decimals have different numbers of digits, `lengths` has that of each; of doubles
    it has 1 for those that are spelled without their `.0`. `shape` is the decimal sign, or the
    shape of times."""
    form: str
    type: str
    data: bytes
    nulls: bytes
    digits: int
    lengths: bytes
    shape: Any


@dataclass
class Plain:
    """What is known of the fields of a column that are kept as numbers: the numbers, one with a
    decimal sign and one in all, the shapes of times, how many of them have blanks around them, and
    how often other fields came. `words` has what stands for each word for null; `signs` are the
    decimal signs that are read, none if no fields may be kept so."""
    words: dict[bytes, int]
    signs: str = ".,"
    spans: Spans = field(default_factory=Spans)
    samples: dict[str, str] = field(default_factory=dict)
    shapes: dict[Any, tuple[int, int]] = field(default_factory=dict)
    padded: int = 0
    failed: int = 0

    @property
    def forms(self) -> set[str]:
        """The forms of the kept fields: number, float and time."""
        found = {"number": bool(self.spans.ends), "float": self.spans.is_float,
                 "time": bool(self.shapes)}
        return {form for form, is_there in found.items() if is_there}

    @property
    def mark(self) -> str:
        """The decimal sign, or nothing if none has occurred."""
        return "," if "," in self.samples.get("mark", "") else self.samples.get("mark", "") and "."

    def may_have(self, first: bytes) -> bool:
        """Returns whether fields, of which one is the first, may be kept as numbers."""
        return bool(self.signs) and self.failed <= 2 and \
            (FIRST.match(first) is not None or first in self.words)

    def add(self, block: Block, is_padded: bool, has_null: bool) -> Numbered | None:
        """Adds fields, and returns them as they are kept, if all but the nulls are numbers or times
        in such a spelling. Only some that are padded have blanks around them, and only some that
        have a null are a word for it."""
        bare, padded = without_blanks(block.fields) if is_padded else (block.fields, 0)
        present, nulls = split_nulls(bare, self.words) if has_null else (bare, b"")
        are_all = present is block.fields and not block.is_marked
        lengths = block.lengths if are_all else map(len, present)
        kept = self.examined(present, max(lengths), nulls) if present else None
        if kept is None:
            self.failed += 1
            return None
        self.padded += padded
        self.samples.setdefault("any", present[0].decode())
        return kept

    def examined(self, fields: Sequence[bytes], longest: int, nulls: bytes) -> Numbered | None:
        """Adds fields, of which the longest has so many bytes, as far as they are kept."""
        joined = b"\n".join(fields) + b"\n"
        # other scripts have digits too
        if longest > LONGEST or joined.count(b"\n") != len(fields) or not joined.isascii():
            return None
        if fields[0][4:5] == b"-":
            return self.times(joined, len(fields), nulls)
        # decimals that fit no scale become floats
        if self.spans.is_float or self.spans.digits > 0 and not self.spans.fits():
            return self.floats(fields, joined, nulls) or self.numbers(fields, joined, nulls)
        kept = self.numbers(fields, joined, nulls)
        # other decimals with a negative zero may still fit a scale
        if kept is None and (b"e" in joined or longest > MOST_PLACES):
            kept = self.floats(fields, joined, nulls)
        return kept

    def numbers(self, fields: Sequence[bytes], joined: bytes, nulls: bytes) -> Numbered | None:
        """Adds fields without line feeds, which are also given joined, if they are whole numbers or
        decimals."""
        digits, lengths, mark = 0, b"", b""
        if b"." not in joined and b"," not in joined:
            if not are_whole(fields, joined):
                return None
            numbers = list(map(int, fields))
        else:
            mark = b"," if b"," in joined else b"."
            counts = self.decimal_lengths(fields, joined, mark)
            if counts is None:
                return None
            digits, lengths = max(counts), counts
            found: Iterable[int] = map(int, joined.replace(mark, b"").split())
            if min(counts) != digits:
                found = map(operator.mul, found,
                            map([10 ** (digits - length)
                                 for length in range(digits + 1)].__getitem__, counts))
            else:
                lengths = b""
            numbers = list(found)
        least, greatest = min(numbers), max(numbers)
        kept = packed(numbers, least, greatest)
        if not kept:
            return None
        if mark and not self.mark:
            self.samples["mark"] = next(text for text in map(bytes.decode, fields)
                                        if mark.decode() in text and
                                        not is_grouped(text.lstrip("-"), mark.decode()))
        self.spans.widen(digits, least, greatest)
        self.spans.lengths.update(lengths)
        self.spans.has_zero = self.spans.has_zero or bool(mark) and has_zero(fields, joined, mark)
        return Numbered("number", *kept, nulls, digits, lengths, mark.decode())

    def decimal_lengths(self, fields: Sequence[bytes], joined: bytes, mark: bytes) -> bytes | None:
        """Returns how many digits each field has after the decimal sign, or None if a field isn't
        such a decimal, or if the sign may separate thousands."""
        sign = mark.decode()
        if sign not in self.signs or self.mark not in ("", sign):
            return None
        if not plain_of(sign).fullmatch(joined):
            return None
        lengths = [len(field.partition(mark)[2]) for field in fields]
        if max(lengths) > MOST_PLACES:
            return None
        if not self.mark and all(length in (0, 3) for length in lengths) and \
                all(is_grouped(field.decode().lstrip("-"), sign) for field,
                    length in zip(fields, lengths) if length):
            return None
        return bytes(lengths)

    def floats(self, fields: Sequence[bytes], joined: bytes, nulls: bytes) -> Numbered | None:
        """Adds fields that are doubles in Python's spelling, also without its `.0`."""
        try:
            numbers = list(map(float, fields))
        except ValueError:
            return None
        lengths = b""
        # as a list they are spelled fastest; inf and nan are none
        spelled = str(numbers)[1:-1].replace(", ", "\n").encode() + b"\n"
        if b"n" in joined or spelled != joined:
            others = spelled.split()
            lengths = bytes(map(operator.ne, others, fields))
            bare = itertools.compress(fields, lengths)
            if not FLOATS.fullmatch(joined) or any(field + b".0" != other for field, other in zip(
                    bare, itertools.compress(others, lengths))):
                return None
        self.spans.add_doubles(numbers)
        return Numbered("float", "d", array.array("d", numbers).tobytes(), nulls, 0, lengths, ".")

    def times(self, joined: bytes, count: int, nulls: bytes) -> Numbered | None:
        """Adds so many fields, joined, if they are times of one shape."""
        found = plain_times(joined, count)
        if not found or self.shapes and found.shape not in self.shapes:
            return None
        least, greatest = min(found.numbers), max(found.numbers)
        kept = packed(found.numbers, least, greatest)
        if not kept:
            return None
        ends = self.shapes.get(found.shape, (least, greatest))
        self.shapes[found.shape] = min(ends[0], least), max(ends[1], greatest)
        return Numbered("time", *kept, nulls, found.shape[2], b"", found.shape)


def has_zero(fields: Sequence[bytes], joined: bytes, mark: bytes) -> bool:
    """Returns whether one of some decimals, which are also given joined, ends in a zero after its
    decimal sign."""
    return b"0\n" in joined and any(field[-1:] == b"0" and mark in field for field in fields)


def without_blanks(fields: Sequence[bytes]) -> tuple[Sequence[bytes], int]:
    """Returns fields without the blanks and tabs at their ends, and how many had some."""
    bare = [field.strip(b" \t") for field in fields]
    return bare, sum(map(operator.ne, bare, fields))


def are_whole(fields: Sequence[bytes], joined: bytes) -> bool:
    """Returns whether fields without line feeds, which are joined with one after each, are all
    whole numbers as they are restored."""
    if not joined.replace(b"\n", b"").replace(b"-", b"").isdigit():
        return False
    if b"-0" in joined or b"--" in joined or b"-\n" in joined:
        return False
    if joined.count(b"-") != joined.count(b"\n-") + joined.startswith(b"-") or b"" in fields:
        return False
    return joined.count(b"\n0") + joined.startswith(b"0") == fields.count(b"0")


@functools.lru_cache(2)
def plain_of(mark: str) -> re.Pattern[bytes]:
    """Returns the pattern of lines of whole numbers and decimals with a decimal sign, without
    negative zeros."""
    return re.compile((rf"(?:(?!-0(?:[{mark}]0+)?\n)-?(?:0|[1-9][0-9]*)(?:[{mark}][0-9]+)?"
                       r"\n)*").encode())


def packed(numbers: Sequence[int], least: int, greatest: int) -> tuple[str, bytes] | None:
    """Returns the type of an array of numbers, of which two are the least and the greatest one, and
    its bytes, or None if one doesn't fit 64 bits."""
    for kind, bits in TYPES:
        if -1 << bits <= least and greatest < 1 << bits:
            return kind, array.array(kind, numbers).tobytes()
    return None


def values_of(kept: Numbered) -> array.array[Any]:
    """Returns the numbers."""
    found = array.array(kept.type)
    found.frombytes(kept.data)
    return found


def split_nulls(fields: Sequence[bytes],
                places: dict[bytes, int]) -> tuple[Sequence[bytes], bytes]:
    """Returns the fields that aren't a word for null, and a byte for each field as Numbered has it.
    `places` has what stands for each word."""
    nulls = bytes([places.get(field, 0) for field in fields])
    return list(itertools.compress(fields, map(operator.not_, nulls))), nulls


# What is known of the fields of a column.

# above so many distinct fields, numbers and times are examined so many at a time
MANY, AT_ONCE = 1 << 11, 1 << 12
# of a run of more texts than these, so many are drawn first: if less than two fifths of the drawn
# ones are like a detector's own, then less than half of all are, but for a chance of one in a
# thousand million
DRAWN_OF, DRAWN = 1 << 14, 1000
# of more than so many, some are tried at equal distances: so many, or one more
TRIED_OF, TRIED = 1 << 12, 64
T = TypeVar("T")


class Part(NamedTuple):
    """Some distinct fields, from one place to another: as numbers if all of them are spelled as
    numbers are printed, and whether one may have blanks at an end."""
    first: int
    end: int
    kept: Optional[Numbered]
    has_blanks: bool


@dataclass
class Run:
    """Some of the distinct fields of a dictionary that aren't kept as numbers, of which bare texts
    have no blanks around them and are no words for null: of many, some bare texts, and some bare
    fields of the rows, both drawn at random. `words` are those for null that may be among them.
    `some` has texts at equal distances, of many without blanks and words."""
    dictionary: Dictionary
    parts: list[Part]
    words: set[str]
    texts_drawn: list[str] = field(default_factory=list)
    rows_drawn: list[str] = field(default_factory=list)
    some: list[str] = field(default_factory=list)

    @property
    def size(self) -> int:
        """How many bare texts there are, or about so many if there are many."""
        return sum(part.end - part.first for part in self.parts) if self.texts_drawn \
            else len(self.bare)

    @functools.cached_property
    def texts(self) -> list[str]:
        """The texts without blanks around them, in the order in which they have these."""
        fields = itertools.chain.from_iterable(
            self.dictionary.between(part.first, part.end) for part in self.parts)
        found = texts_of(list(fields))
        return [text.strip(BLANKS) for text in found] if self.has_blanks else found

    @property
    def has_blanks(self) -> bool:
        return any(part.has_blanks for part in self.parts)

    @functools.cached_property
    def counts(self) -> Sequence[int]:
        """How many rows have each text."""
        counts = self.dictionary.counts
        return list(itertools.chain.from_iterable(counts[part.first:part.end]
                                                  for part in self.parts))

    @property
    def tried(self) -> Sequence[str]:
        """Some of the bare texts, at equal distances, if there are many."""
        return self.some or (every(self.bare) if len(self.bare) > TRIED_OF else [])

    @functools.cached_property
    def bare(self) -> list[str]:
        """The distinct bare texts, sorted."""
        if self.has_blanks:
            return sorted(set(self.texts) - self.words)
        return [text for text in self.texts if text not in self.words] if self.words else self.texts


def every(listed: Sequence[T]) -> Sequence[T]:
    """Returns some of many objects, at equal distances."""
    return listed[::len(listed) // TRIED]


@dataclass
class Fields:
    """What is known of the fields of a column: what is asked for it, its distinct fields, of which
    a column of numbers has none, what is known of those that are kept as numbers, and how many rows
    have each word for null, whatever the column is."""
    options: ColumnOptions
    plain: Plain
    rows: int
    dictionary: Optional[Dictionary] = None
    parts: list[Part] = field(default_factory=list)
    words: dict[str, int] = field(default_factory=dict)
    has_nul: bool = False
    is_many: bool = False
    runs: list[Run] = field(default_factory=list)

    def __post_init__(self) -> None:
        if self.dictionary is None:
            return
        self.is_many = len(self.dictionary) > MANY
        for block in self.dictionary.blocks():
            self.has_nul = self.has_nul or b"\0" in block.data
            before = len(self.parts)
            for part in block.parts(AT_ONCE):
                self.add(part)
            parts = [part for part in self.parts[before:] if part.kept is None]
            if parts:
                self.runs.append(self.run_of(parts, block))

    def add(self, block: Block) -> None:
        """Adds the next distinct fields. Raises UnicodeDecodeError if one isn't UTF-8."""
        block.check()
        is_padded, first = block.is_padded, block.ends[0]
        has_null = self.find_words(block, is_padded)
        is_like = self.is_many and self.plain.may_have(first)
        kept = self.plain.add(block, is_padded, has_null) if is_like else None
        self.parts.append(Part(block.first, block.first + len(block), kept, is_padded))

    def find_words(self, block: Block, is_padded: bool) -> bool:
        """Counts the rows that have words for null. Returns whether there are any of the column's
        own."""
        assert self.dictionary is not None
        has_null, (first, last) = False, block.ends
        for word, wanted in self.sought.items():
            places: Iterable[int] = ()
            if is_padded:
                places = [place for place, field in enumerate(block.fields)
                          if field.strip(b" \t") == wanted]
            elif first <= wanted <= last:
                place = bisect.bisect_left(block.fields, wanted)
                places = [place] if block.fields[place] == wanted else []
            if places:
                found = sum(self.dictionary.counts[block.first + place] for place in places)
                self.words[word] = self.words.get(word, 0) + found
                has_null = has_null or wanted in self.plain.words
        return has_null

    def run_of(self, parts: list[Part], block: Block) -> Run:
        """Returns a run of parts of a block."""
        assert self.dictionary is not None
        found = Run(self.dictionary, parts, {*self.options.words} & {*self.words})
        own = list(itertools.chain.from_iterable(
            range(part.first - block.first, part.end - block.first) for part in parts))
        if len(own) > TRIED_OF and not found.words and not found.has_blanks:
            found.some = [block.field(place).decode() for place in every(own)]
        if len(own) > DRAWN_OF:
            counts = itertools.chain.from_iterable(
                self.dictionary.counts[part.first:part.end] for part in parts)
            draw = random.Random(0)
            found.texts_drawn = self.bare_of(map(block.field, draw.sample(own, DRAWN)))
            rows = draw.choices(own, list(counts), k=DRAWN)
            found.rows_drawn = self.bare_of(map(block.field, rows))
        return found

    def bare_of(self, fields: Iterable[bytes]) -> list[str]:
        """Returns the bare texts of fields."""
        words = set(self.options.words)
        texts = (field.decode().strip(BLANKS) for field in fields)
        return [text for text in texts if text not in words]

    @functools.cached_property
    def sought(self) -> dict[str, bytes]:
        """The words that may be null, and their bytes."""
        return {word: encoded(word) for word in (*self.options.words, *NULLS)}

    def texts(self, part: Part) -> list[str]:
        """Returns the texts of a part as they are."""
        assert self.dictionary is not None
        return texts_of(self.dictionary.between(part.first, part.end))

    @property
    def have_blanks(self) -> bool:
        return any(part.has_blanks for part in self.parts)

    def each(self) -> Iterator[tuple[Part, list[str]]]:
        """Yields the parts with their texts as they are."""
        return ((part, self.texts(part)) for part in self.parts)

    def unkept(self) -> Iterator[list[str]]:
        """Yields the distinct fields that aren't kept as numbers, as they are."""
        return (self.texts(part) for part in self.parts if part.kept is None)

    def bare(self) -> Iterator[list[str]]:
        """Yields the distinct texts that aren't kept as numbers, without blanks around them and
        without words for null: those of one run after another, each in order."""
        return (run.bare for run in self.runs)

    def has_any(self, wanted: bytes) -> bool:
        """Returns whether a distinct field has one of some bytes, or a character beyond ASCII."""
        assert self.dictionary is not None
        return any(not block.data.isascii() or any(byte in block.data for byte in wanted)
                   for block in self.dictionary.blocks())

    def count_rows(self, forms: Sequence[str]) -> int:
        """Returns how many rows have a field that is kept as a number of these forms."""
        assert self.dictionary is not None
        found = 0
        for part in self.parts:
            if part.kept and part.kept.form in forms:
                counts = self.dictionary.counts[part.first:part.end]
                nulls = part.kept.nulls
                found += sum(counts) - (sum(itertools.compress(counts, nulls)) if nulls else 0)
        return found

    @property
    def filled(self) -> int:
        """How many rows have a field that is no word for null."""
        return self.rows - sum(self.words.get(word, 0) for word in self.options.words)

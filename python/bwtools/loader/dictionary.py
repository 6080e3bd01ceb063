"""The distinct fields of a column, in order, as `bw encode` writes them to FIELDS."""
from __future__ import annotations

import bisect
import functools
import io
import itertools
import operator
import os
from array import array
from typing import Collection, Iterator, List, NamedTuple, Optional, Sequence, Tuple

# a block has so many fields, or fewer long ones
FIELDS_A_BLOCK, BYTES_A_BLOCK = 1 << 16, 1 << 24
MAGIC = b"BWFIELDS"


class ByteFile:
    """The bytes of a file, which is closed once nothing needs it. Processes that are forked from
    this one can read it too."""

    def __init__(self, path: str | os.PathLike[str], flags: int = os.O_RDONLY) -> None:
        self.number = os.open(path, flags | os.O_CLOEXEC, 0o600)

    def __del__(self) -> None:
        if "number" in vars(self):
            os.close(self.number)

    def fileno(self) -> int:
        return self.number

    def at(self, place: int, size: int) -> bytes:
        """Returns some bytes from a place on."""
        return os.pread(self.number, size, place)

    def append(self, data: bytes) -> None:
        """Writes bytes after those that were written."""
        rest = memoryview(data)
        while rest:
            rest = rest[os.write(self.number, rest):]


class Block:
    """Some fields of a dictionary: the place of the first one, their bytes, one after the other,
    and their lengths. Each has a sign before it that isn't its own if `is_marked`."""

    def __init__(self, first: int, data: bytes, lengths: array[int],
                 is_marked: bool = False) -> None:
        self.first, self.data, self.lengths, self.is_marked = first, data, lengths, is_marked

    def __len__(self) -> int:
        return len(self.lengths)

    def parts(self, count: int) -> Iterator[Block]:
        """Yields the fields as blocks of at most so many."""
        at = 0
        for first in range(0, len(self), count):
            lengths = self.lengths[first:first + count]
            end = at + sum(lengths)
            yield Block(self.first + first, self.data[at:end], lengths, self.is_marked)
            at = end

    @functools.cached_property
    def fields(self) -> List[bytes]:
        """The fields, which take a multiple of their bytes."""
        found = list(map(io.BytesIO(self.data).read, self.lengths))
        return [field[1:] for field in found] if self.is_marked else found

    @functools.cached_property
    def starts(self) -> List[int]:
        return list(itertools.accumulate(self.lengths, initial=0))

    def field(self, place: int) -> bytes:
        """Returns the field at a place of this block."""
        return self.data[self.starts[place] + self.is_marked:self.starts[place + 1]]

    @property
    def ends(self) -> Tuple[bytes, bytes]:
        """The first and the last field, of one or more."""
        last = len(self.data) - self.lengths[-1]
        return self.data[self.is_marked:self.lengths[0]], self.data[last + self.is_marked:]

    @functools.cached_property
    def joined(self) -> bytes:
        """The fields, joined by NULs."""
        return b"\0".join(self.fields)

    def check(self) -> None:
        """Raises UnicodeDecodeError if a field isn't UTF-8, which all may be without each."""
        if not self.data.isascii():
            self.joined.decode()

    @property
    def is_padded(self) -> bool:
        """Whether a field has a blank or a tab at an end."""
        for blank in (b" ", b"\t"):
            if blank in self.data and (
                    b"\0" + blank in self.joined or blank + b"\0" in self.joined or
                    self.joined.startswith(blank) or self.joined.endswith(blank)):
                return any(field != field.strip(b" \t") for field in self.fields)
        return False


class Span(NamedTuple):
    """Where the fields of a block are: their places, and those of their bytes."""
    first: int
    end: int
    at: int
    size: int


class Dictionary:
    """The distinct fields of a column in the order of their bytes, which is that of code points:
    how many rows have each, their lengths, and a file that has their bytes from `at` on. Each has a
    sign before it that isn't its own if `is_marked`."""

    def __init__(self, file: ByteFile, at: int, counts: array[int], lengths: array[int],
                 is_marked: bool = False) -> None:
        self.file, self.counts, self.lengths = file, counts, lengths
        self.is_marked, self.spans, self.starts = is_marked, list[Span](), dict[int, int]()
        first = 0
        while first < len(lengths):
            end = min(first + FIELDS_A_BLOCK, len(lengths))
            while (size := sum(lengths[first:end])) > BYTES_A_BLOCK and end > first + 1:
                end = (first + end) // 2
            self.spans.append(Span(first, end, at, size))
            first, at = end, at + size

    def __len__(self) -> int:
        return len(self.counts)

    def block(self, span: Span) -> Block:
        """Reads a block."""
        return Block(span.first, self.file.at(span.at, span.size),
                     self.lengths[span.first:span.end], self.is_marked)

    def between(self, first: int, end: int) -> List[bytes]:
        """Returns the fields from one place to another, of one block."""
        at, size = self.starts.get(first), sum(self.lengths[first:end])
        if at is None:
            span = next(span for span in self.spans if first < span.end)
            at = span.at + sum(self.lengths[span.first:first])
        # the next ones are often read next
        self.starts[end] = at + size
        return self.block(Span(first, end, at, size)).fields

    def blocks(self) -> Iterator[Block]:
        """Yields all fields in order."""
        return map(self.block, self.spans)

    def field(self, place: int) -> bytes:
        """Returns the field at a place."""
        return self.between(place, place + 1)[0]

    def find(self, field: bytes) -> Optional[int]:
        """Returns the place of a field, or None if there is none."""
        low, high = 0, len(self)
        while low < high:
            middle = (low + high) // 2
            low, high = (middle + 1, high) if self.field(middle) < field else (low, middle)
        return low if low < len(self) and self.field(low) == field else None

    def count_breaks(self) -> int:
        """Returns how many ends of lines there are in the fields of all rows."""
        found = 0
        for span in self.spans:
            block = self.block(span)
            if b"\n" in block.data or b"\r" in block.data:
                counts = self.counts[span.first:span.end]
                breaks = map(breaks_in, block.fields) if b"\r" in block.data else \
                    map(operator.methodcaller("count", b"\n"), block.fields)
                found += sum(map(operator.mul, breaks, counts))
        return found


def breaks_in(data: bytes) -> int:
    """Returns how many ends of lines there are: line feeds, carriage returns, or both."""
    found = data.count(b"\n")
    return found if b"\r" not in data else found + data.count(b"\r") - data.count(b"\r\n")


def encoded(word: str) -> bytes:
    """Returns the bytes of a word, which may have odd bytes of an argument, as no field has."""
    return word.encode("utf-8", "surrogateescape")


def texts_of(fields: Sequence[bytes]) -> List[str]:
    """Returns fields as texts. Raises UnicodeDecodeError if one isn't UTF-8."""
    # faster than to decode each, unless one has a NUL
    found = b"\0".join(fields).decode().split("\0")
    return found if len(found) == len(fields) else list(map(bytes.decode, fields))


def read_fields(file: ByteFile, marked: Collection[int] = ()) -> List[Optional[Dictionary]]:
    """Returns the dictionaries of an open file FIELDS, and None for each column of numbers. The
    fields of some columns are marked."""
    at, found = len(MAGIC) + 8, list[Optional[Dictionary]]()
    for place in range(numbers_at(file, len(MAGIC), 1)[0]):
        is_coded, at = file.at(at, 1) == b"\1", at + 1
        if not is_coded:
            found.append(None)
            continue
        count, at = numbers_at(file, at, 1)[0], at + 8
        counts, lengths = (numbers_at(file, at + 8 * count * part, count) for part in (0, 1))
        at += 16 * count
        found.append(Dictionary(file, at, counts, lengths, place in marked))
        at += sum(lengths)
    return found


def numbers_at(file: ByteFile, at: int, count: int) -> array[int]:
    found = array("Q")
    found.frombytes(file.at(at, 8 * count))
    return found


class Reader:
    """Reads a dictionary that is merged with others: some fields at a time, and the places that
    they get among those of all."""

    def __init__(self, dictionary: Dictionary) -> None:
        self.blocks, self.fields = dictionary.blocks(), list[bytes]()
        self.places = array("I")

    def fill(self) -> bool:
        """Reads the next fields, if none are left. Returns whether there are any."""
        if not self.fields:
            block = next(self.blocks, None)
            self.fields = block.fields if block else []
        return bool(self.fields)

    def take(self, last: bytes) -> List[bytes]:
        """Removes and returns the fields up to one."""
        end = bisect.bisect_right(self.fields, last)
        taken, self.fields = self.fields[:end], self.fields[end:]
        return taken


def merge(parts: Sequence[Dictionary],
          file: ByteFile) -> Tuple[Dictionary, List[array[int]]]:
    """Merges dictionaries into one, whose bytes are written to a file. Returns it, and for each
    part the places that its fields have there."""
    readers, lengths = [Reader(part) for part in parts], array("Q")
    while live := [reader for reader in readers if reader.fill()]:
        # each reader has all its fields up to this one
        last = min(reader.fields[-1] for reader in live)
        taken = [reader.take(last) for reader in live]
        fields = list(dict.fromkeys(sorted(itertools.chain.from_iterable(taken))))
        places = dict(zip(fields, range(len(lengths), len(lengths) + len(fields))))
        for reader, own in zip(live, taken):
            reader.places.extend(map(places.__getitem__, own))
        file.append(b"".join(fields))
        lengths.extend(map(len, fields))
    counts = array("Q", bytes(8 * len(lengths)))
    for part, reader in zip(parts, readers):
        for place, count in zip(reader.places, part.counts):
            counts[place] += count
    return Dictionary(file, 0, counts, lengths), [reader.places for reader in readers]

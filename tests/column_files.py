"""Files by columns, read by docs/FORMATS.md: the first error of a file, the values of a column, and
what a statement's answer is. Nothing here knows how bw reads them. Errors are those of verify/. And
changed files by columns."""
from __future__ import annotations

import functools
import random
import re
from typing import Iterator, NamedTuple, Optional, Sequence

from tests.second_checker import said

# of verify/
import answer  # noqa: E402
import check  # noqa: E402

ROWS, PLANE, MOST_ROWS, MOST_COLUMNS = 512, 64, 1 << 24, 64
LAYOUTS = ("planes", "slices")
Values = tuple[Optional[int], ...]


class Column(NamedTuple):
    """A column of a header."""

    name: str
    lo: int
    hi: int
    nullable: bool

    @property
    def width(self) -> int:
        return max(1, (self.hi - self.lo).bit_length())

    def block_size(self, layout: str) -> int:
        """Table file: returns how many bytes a block has."""
        codes = PLANE * self.width if layout == "planes" else ROWS * ((self.width + 7) // 8)
        return PLANE * self.nullable + codes


class File:
    """File by columns: its header and its length, both without an error, and no column as yet.
    `fields` has the places where the header's fields begin, and its end."""

    def __init__(self, data: bytes) -> None:
        self.data, self.fields = data, [0]
        self.need(self.take(8) == b"BWBYCOLS", 301, 0)
        self.need(self.number(1) == 2, 302, 8)
        layout = self.number(1)
        self.need(layout < 2, 303, 9)
        self.layout, count = LAYOUTS[layout], self.number(2)
        self.need(1 <= count <= MOST_COLUMNS, 304, 10)
        self.rows = self.number(4)
        self.need(self.rows <= MOST_ROWS, 310, 12)
        self.table, self.columns = self.name(set()), list[Column]()
        for _ in range(count):
            self.columns.append(self.column({each.name.upper() for each in self.columns}))
        self.segments = -(-self.rows // ROWS)
        self.sizes = [column.block_size(self.layout) for column in self.columns]
        self.end = self.place(len(self.columns), 0)
        self.need(len(data) >= self.end, 305, len(data))
        self.need(len(data) == self.end, 309, self.end)

    @staticmethod
    def need(is_right: bool, error: int, byte: int) -> None:
        if not is_right:
            raise check.Fault(error, f"byte {byte}")

    @property
    def at(self) -> int:
        return self.fields[-1]

    def take(self, size: int) -> bytes:
        """Returns the next field of the header."""
        self.need(self.at + size <= len(self.data), 305, len(self.data))
        self.fields.append(self.at + size)
        return self.data[self.at - size:self.at]

    def number(self, size: int, is_signed: bool = False) -> int:
        return int.from_bytes(self.take(size), "little", signed=is_signed)

    def name(self, earlier: set[str]) -> str:
        """Returns a name, which none of the earlier ones is."""
        byte = self.at
        name = self.take(self.number(1)).decode("latin-1")
        self.need(bool(re.fullmatch("[A-Za-z_][A-Za-z0-9_]{0,62}", name)) and
                  name.upper() not in (*check.RESERVED, *earlier), 304, byte)
        return name

    def column(self, earlier: set[str]) -> Column:
        name, byte = self.name(earlier), self.at
        lo, hi = self.number(8, True), self.number(8, True)
        self.need(0 <= hi - lo < 1 << 63, 304, byte)
        byte, nullable = self.at, self.number(1)
        self.need(nullable < 2, 304, byte)
        return Column(name, lo, hi, nullable == 1)

    def place(self, column: int, segment: int) -> int:
        """Returns where a column's block in a segment begins."""
        before = self.segments * sum(self.sizes[:column])
        size = self.sizes[column] if column < len(self.sizes) else 0
        return self.at + before + segment * size

    def borders(self) -> list[int]:
        """Returns where fields of the header and blocks begin, and the end of the file."""
        blocks = [self.place(column, segment) for column in range(len(self.columns))
                  for segment in range(self.segments)]
        return [*self.fields[:-1], *blocks, self.end]

    def schema(self) -> bytes:
        """Returns its schema as text."""
        lines = [f"COLUMN {name} {lo} {hi}{'' if nullable else ' NOT NULL'}"
                 for name, lo, hi, nullable in self.columns]
        return "\n".join([f"TABLE {self.table}", *lines, ""]).encode()

    def values(self, column: int) -> Values:
        """Returns a column's values, or raises the error of its first block that has one."""
        found: Values = ()
        for segment in range(self.segments):
            byte, size = self.place(column, segment), self.sizes[column]
            values, error, at = values_in(self.data[byte:byte + size], self.layout,
                                          self.columns[column],
                                          min(ROWS, self.rows - ROWS * segment))
            self.need(not error, error, byte + at)
            found += values
        return found

    def answer(self, sql: str, needed: Sequence[str] = ()) -> str:
        """Returns the text of a statement's answer, by the columns that it names and those that are
        needed besides."""
        schema = check.Schema(self.schema())
        statement = check.Statement(schema, sql.encode())
        names = {*(each.name for each in named_columns(statement)), *needed}
        found = [self.values(place) if column.name in names else (column.lo,) * self.rows
                 for place, column in enumerate(self.columns)]
        keys = [column.name for column in self.columns]
        rows = [dict(zip(keys, row)) for row in zip(*found)]
        return text_of(statement, rows)

    def dump(self) -> str:
        """Returns all rows as CSV text."""
        return self.answer(f"SELECT * FROM {self.table}")


@functools.lru_cache(4096)
def values_in(block: bytes, layout: str, column: Column, rows: int) -> tuple[Values, int, int]:
    """Table file: returns the values of a block of so many rows, or an error, and its byte in the
    block."""
    head = PLANE * column.nullable
    for at, byte in enumerate(block):
        of_slice = layout == "slices" and at >= head
        row = (at - head) % ROWS if of_slice else at % PLANE * 8
        present = max(0, rows - row) if not of_slice else 8 * (row < rows)
        if byte >> present:
            return (), 308, at
    nulls = int.from_bytes(block[:head], "little")
    codes = codes_of(block[head:], layout, rows)
    is_null = [nulls >> row & 1 for row in range(rows)]
    for null, code in zip(is_null, codes):
        if null and code or code > column.hi - column.lo:
            return (), 307 if null else 306, 0
    return tuple(None if null else column.lo + code for null, code in zip(is_null, codes)), 0, 0


def codes_of(block: bytes, layout: str, rows: int) -> list[int]:
    """Returns the codes of a block's first rows."""
    if layout == "slices":
        slices = [block[at:at + rows] for at in range(0, len(block), ROWS)]
        return [int.from_bytes(bytes(each), "big") for each in zip(*slices)]
    planes = [int.from_bytes(block[at:at + PLANE], "little") for at in range(0, len(block), PLANE)]
    digits = [f"{plane:0{ROWS}b}"[::-1] for plane in planes]
    return [int("".join(each), 2) for each in zip(*(digit[:rows] for digit in digits))]


def named_columns(statement: check.Statement) -> Iterator[check.Column]:
    """Yields the columns that a statement names."""
    yield from (column for _, column in statement.items if column)
    left = [statement.condition]
    while left:
        condition = left.pop()
        left += condition.parts
        yield from (each for each in condition.operands if isinstance(each, check.Column))


def text_of(statement: check.Statement, rows: Sequence[answer.Row]) -> str:
    """Returns the text of a statement's answer over rows."""
    found = [row for row in rows if answer.truth_of(statement.condition, row) == answer.TRUE]
    lines = [",".join(map(answer.heading_of, statement.items)) + "\n"]
    if statement.items[0][0]:
        lines.append(answer.line_of([answer.total_of(word, column, found)
                                     for word, column in statement.items]))
    else:
        lines += [answer.line_of([row[column.name] for _, column in statement.items if column])
                  for row in found]
    return "".join(lines)


def outcome(data: bytes, sql: str) -> str:
    """Returns the text of a statement's answer over a file by columns, or its first error."""
    return said(lambda: File(data).answer(sql))


def dumped(data: bytes) -> str:
    """Returns the text of all rows of a file by columns, or its first error."""
    return said(lambda: File(data).dump())


def mutated(data: bytes, chance: random.Random) -> bytes:
    """Returns a file by columns that was changed: a byte or some, in its header or in its blocks;
    or cut, often between two blocks; or with more bytes at its end; or with two equally long
    blocks in each other's place."""
    file, new, way = File(data), bytearray(data), chance.randrange(10)
    at = chance.randrange(*(0, file.at) if way < 2 or file.at == file.end else (file.at, file.end))
    if way < 5:
        new[at] ^= 1 << chance.randrange(8)
    elif way == 5:
        new[at] = chance.randrange(256)
    elif way == 6:
        end = min(len(new), at + chance.choice((2, 8, 64, 512)))
        new[at:end] = bytes([chance.choice((0, 1, 255, new[at]))]) * (end - at)
    elif way == 7:
        del new[chance.choice((at, *file.borders()[:-1])):]
    elif way == 8:
        new += chance.choice((b"\0", data[-64:], chance.randbytes(chance.choice((1, 64, 600)))))
    else:
        blocks = [(file.sizes[column], file.place(column, segment))
                  for column in range(len(file.columns)) for segment in range(file.segments)]
        size, one = chance.choice(blocks or [(0, 0)])
        other = chance.choice([place for each, place in blocks if each == size] or [0])
        new[one:one + size], new[other:other + size] = \
            data[other:other + size], data[one:one + size]
    return bytes(new)

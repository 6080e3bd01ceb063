"""The records and the fields of a CSV file, and how they are written anew in another dialect."""
from __future__ import annotations

import argparse
import csv
import io
import os
import re
import tempfile
from dataclasses import dataclass, replace
from typing import Any, BinaryIO, Callable, Iterable, Iterator, Optional, Protocol

from .._errors import Refused, shown
from . import dialect
from .dialect import BLANKS, NUL, Record, Signs


# The records of a CSV file.


class Records(Protocol):
    """The records of a CSV file, as csv.reader returns them, and how many lines were read for
    them."""

    @property
    def line_num(self) -> int: ...

    def __iter__(self) -> Iterator[list[str]]: ...

    def __next__(self) -> list[str]: ...


# Reads records of CSV, and skips lines that are comments.


def plain_reader(lines: Iterable[str], signs: Signs, is_strict: bool) -> Any:
    """Returns the records of lines without comments."""
    return csv.reader(lines, delimiter=signs.separator, quotechar=signs.quote,
                      escapechar=signs.escape, strict=is_strict)


def reader_of(lines: Iterable[str], signs: Signs, is_strict: bool = True) -> Records:
    """Returns the records of lines. If it isn't strict, it also reads text after a quote that ends
    a field, and a field whose quote doesn't end."""
    found: Records = CommentReader(lines, signs, is_strict) if signs.comment else \
        plain_reader(lines, signs, is_strict)
    return found


class CommentReader:
    """The records of lines, as csv.reader returns them; a comment is an empty record."""

    def __init__(self, lines: Iterable[str], signs: Signs, is_strict: bool) -> None:
        self.lines, self.comment = iter(lines), signs.comment
        # whether the next line begins a record
        self.is_first = True
        self.reader = plain_reader(self.uncommented(), signs, is_strict)

    @property
    def line_num(self) -> int:
        """How many lines were read."""
        return int(self.reader.line_num)

    def uncommented(self) -> Iterator[str]:
        """Yields the lines, and an empty one for a comment. csv.reader asks for a line when a
        record begins, and for more only within a field in quotes."""
        for line in self.lines:
            is_comment = self.is_first and line.startswith(self.comment)
            self.is_first = False
            yield "\n" if is_comment else line

    def __iter__(self) -> Iterator[list[str]]:
        return self

    def __next__(self) -> list[str]:
        self.is_first = True
        record: list[str] = next(self.reader)
        return record


# Splits a text of complete records into columns, many times as fast as the csv module.

# of a text that is split so many characters are read at a time
CHARACTERS_AT_ONCE = 1 << 18


def columns_of(parts: list[str], separator: str, width: int) -> list[list[str]] | None:
    """Returns the columns of a text of complete records, which was split at its quotes, or None.
    All records must have `width` fields, and quotes must be around whole fields without a quote in
    them. Anything else, and an empty line, is left to the csv module."""
    # outside of quotes each field in quotes is a NUL, and each line feed a field of its own
    outer, quoted = NUL.join(parts[::2]), parts[1::2]
    if "\r" in outer:
        outer = outer.replace("\r\n", "\n")
    outer = outer if outer.endswith("\n") else f"{outer}\n"
    count = outer.count("\n")
    if "\r" in outer or len(parts) % 2 == 0 or width == 1 and (outer[0] == "\n" or "\n\n" in outer):
        return None
    fields = outer.replace("\n", f"{separator}\n{separator}").split(separator)
    if len(fields) != count * (width + 1) + 1 or fields[width::width + 1] != ["\n"] * count:
        return None
    columns = [fields[place:-1:width + 1] for place in range(width)]
    return fill(columns, quoted) if quoted else columns


def fill(columns: list[list[str]], quoted: list[str]) -> list[list[str]] | None:
    """Returns columns with the quoted fields, which come row by row, each in place of a NUL; None
    if a field has more than a NUL."""
    counts = [column.count(NUL) for column in columns]
    if sum(counts) != len(quoted):
        return None
    rows, places = len(columns[0]), [place for place, count in enumerate(counts) if count]
    if all(counts[place] == rows for place in places):
        for number, place in enumerate(places):
            columns[place] = quoted[number::len(places)]
        return columns
    rest = iter(quoted)
    filled = [[next(rest) if field == NUL else field for field in row]
              for row in zip(*(columns[place] for place in places))]
    for place, column in zip(places, zip(*filled)):
        columns[place] = list(column)
    return columns


# Rewrites a file that an option reads in another way than CSV is read, as CSV of UTF-8 in a
# temporary file, before its rows are read. Each row stays in its line.

RUN, BREAK = re.compile("[ \t]+"), re.compile("\r\n|\r|\n")


@dataclass(frozen=True)
class Changes:
    """What options ask for: that text after a quote is read, that any run of blanks separates
    fields, that rows have a name that the heading lacks, or an empty field at their end, that the
    heading gets as many fields as the longest row, which columns are picked, and that short rows
    are filled."""
    is_lenient: bool
    has_runs: bool
    has_row_names: bool
    drops_last: bool
    widens: bool
    picked: Optional[list[str]]
    fills: bool
    has_heading: bool

    @property
    def are_none(self) -> bool:
        return not (self.is_lenient or self.has_runs or self.has_row_names or self.drops_last or
                    self.widens or self.picked is not None)


def changes_of(given: argparse.Namespace, separator: str) -> Changes:
    """Returns what the options ask for."""
    return Changes(given.lenient, separator == " ", given.row_names, given.trailing_separators,
                   given.widen, given.columns, given.fill, given.heading is not False)


def without_runs(lines: Iterable[str], signs: Signs) -> Iterator[str]:
    """Yields lines in which one blank is between fields, and none around them."""
    is_quoted = False
    for line in lines:
        bare = line.rstrip("\r\n")
        parts = bare.split(signs.quote)
        for place in range(is_quoted, len(parts), 2):
            parts[place] = RUN.sub(" ", parts[place])
        if not is_quoted:
            parts[0] = parts[0].lstrip(" ")
        is_quoted ^= len(parts) % 2 == 0
        if not is_quoted:
            parts[-1] = parts[-1].rstrip(" ")
        yield signs.quote.join(parts) + line[len(bare):]


def rewritten(records: Callable[[], Iterator[Record]], skipped: int, changes: Changes,
              path: str) -> BinaryIO:
    """Returns a temporary file with the records that a call yields, changed as options ask. The
    first lines, which are skipped, are empty there."""
    with tempfile.TemporaryFile() as made:
        out = io.TextIOWrapper(made, encoding="utf-8", newline="")
        # both ends of lines are quoted only if both are in this one
        writer = csv.writer(out, lineterminator="\r\n")
        line = 1
        while line <= skipped:
            line += out.write("\n")
        for at, record in picked(records, changes, path):
            while line < at:
                line += out.write("\n")
            writer.writerow(record)
            line += 1 + sum(len(BREAK.findall(field)) for field in record)
        out.flush()
        return open(os.dup(made.fileno()), "rb")


def picked(records: Callable[[], Iterator[Record]], changes: Changes,
           path: str) -> Iterator[Record]:
    """Yields the records, changed, of the columns that options pick."""
    if changes.picked is None:
        yield from changed(records, changes)
        return
    places, width = list[int](), 0
    for line, record in changed(records, changes):
        if not width:
            width = len(record)
            names = record if changes.has_heading else [f"c{place + 1}" for place in range(width)]
            places = places_of(names, changes.picked, path)
        if changes.fills:
            record += [""] * (width - len(record))
        if len(record) != width:
            dialect.refuse(lambda: changed(records, changes), width, changes.has_heading,
                          changes.fills, path)
        yield line, [record[place] for place in places]


def changed(records: Callable[[], Iterator[Record]], changes: Changes) -> Iterator[Record]:
    """Yields the records that aren't empty, changed as options ask."""
    most, width = 0, 0
    if changes.widens:
        plain = replace(changes, widens=False)
        most = max((len(record) for _, record in changed(records, plain)), default=0)
    for line, record in records():
        if not record:
            continue
        if not width:
            if changes.has_heading and changes.has_row_names:
                record = ["", *record]
            width = len(record)
        elif changes.drops_last and len(record) == width + 1 and not record[-1]:
            record = record[:-1]
        yield line, record + [""] * (most - len(record))


def places_of(headings: list[str], wanted: list[str], path: str) -> list[int]:
    """Returns the places of the columns that are picked, in the file's order."""
    known, wanted = ([name.strip(BLANKS) for name in names] for names in (headings, wanted))
    unknown = [each for each in wanted if each not in known]
    if unknown:
        raise Refused(f"{path}: --columns: no column has the heading {shown(unknown[0])}; there "
                      f"are {', '.join(map(shown, known))}")
    return [place for place, heading in enumerate(known) if heading in wanted]

"""Writes a table file and its columns file of coded rows, and what the import reports."""
from __future__ import annotations

import argparse
import decimal
import itertools
import operator
import os
import pathlib
import subprocess
from array import array
from dataclasses import dataclass, field
from typing import BinaryIO, Callable, Iterable, Iterator, List, Optional, Sequence

from .. import _errors
from .._csv.dialect import BLANKS
from .._csv.file import Source
from .._errors import Refused, counted, shown
from .._identifiers import MOST_BYTES, MOST_CHARACTERS, MOST_ROWS, names_of, option
from .._inference.ambiguity import Decision, change_in_double
from .._inference.fields import Fields, Numbered, Part, Plain, values_of
from .._inference.infer import Sorted, decide, numbered_doubles, restores, sorted_texts
from .._inference.options import NULLS, ColumnOptions, column_options
from .._progress import Waiting
from .._storage.catalog import record_of
from .._storage.columns_file import TableFile
from .._types.base import GREATEST, Column, Kind
from .._types.kinds import Whole, unstyled
from .._types.number_format import SIMPLE
from .._types.numbers import LEAST_BITS, Decimals, Floats, Ranked
from .._types.temporal import Times
from . import encode
from .dictionary import ByteFile, Dictionary, encoded, merge, texts_of
from .encode import CodedFile, CodedPart, Coder, check


# The numbers that the distinct fields of a column become, and what is counted of its rows.

NULL = "NULL"


@dataclass
class Counts:
    """What is counted of a column's fields: those whose spelling changes, those that had blanks
    around them, negative zeros, rounded ones and by how much at most, the nulls of each word, and
    the minimum and the maximum."""
    changed: int = 0
    padded: int = 0
    zeros: int = 0
    rounded: int = 0
    change: decimal.Decimal = decimal.Decimal(0)
    nulls: dict[str, int] = field(default_factory=dict)
    span: Optional[tuple[int, int]] = None

    def widen(self, least: int, greatest: int) -> None:
        self.span = (least,
                     greatest) if self.span is None else (min(self.span[0], least),
                                                          max(self.span[1], greatest))


class Numbers:
    """The numbers of the distinct fields of a column, whose kind is decided."""

    def __init__(self, column: Fields, decision: Decision, texts: Optional[Sorted]) -> None:
        self.column, self.decision, self.texts = column, decision, texts
        self.counts = Counts()
        known = column.words
        if texts and column.have_blanks and column.options.rules.keeps_blanks:
            known = exact_words(column)
        words = column.options.nulls if texts else column.options.words
        self.counts.nulls = {word: known[word] for word in words if word in known}
        self.counts.span = column.plain.spans.ends.get(0) if not texts and \
            isinstance(decision.kind, Whole) else None
        if texts and len(texts.kind.listed):
            self.counts.span = 0, len(texts.kind.listed) - 1

    @property
    def is_kept(self) -> bool:
        """Whether the codes, or the numbers, are those that bw gave."""
        return self.column.dictionary is None or \
            self.texts is not None and self.texts.places is None

    def blocks(self) -> Iterator[list[Optional[int]]]:
        """Yields what the distinct fields become, in order, None for null, and counts what there
        is."""
        if self.texts is not None:
            yield from self.places()
            return
        for part in self.column.parts:
            assert self.column.dictionary is not None
            texts = self.column.texts(part) if self.needs_texts(part) else []
            counts = self.column.dictionary.counts[part.first:part.end]
            yield self.kept(part, part.kept, texts, counts) if part.kept \
                else self.read(part, texts, counts)

    def needs_texts(self, part: Part) -> bool:
        """Returns whether the numbers of a part can't be found without its texts."""
        kind = self.decision.kind
        assert kind is not None
        return part.kept is None or part.has_blanks or \
            part.kept.form == "number" and isinstance(unstyled(kind), (Floats, Ranked))

    def places(self) -> Iterator[list[Optional[int]]]:
        """Yields the places of texts."""
        assert self.texts is not None and self.column.dictionary is not None
        count, places = len(self.texts.kind.listed), self.texts.places
        if self.column.have_blanks and not self.column.options.rules.keeps_blanks:
            for part in self.column.parts:
                if part.has_blanks:
                    counts = self.column.dictionary.counts[part.first:part.end]
                    self.count_padded(self.column.texts(part), counts)
        yield list(range(count)) if places is None else \
            [None if place < 0 else place for place in places]

    def count_padded(self, texts: Sequence[str], counts: Sequence[int]) -> None:
        self.counts.padded += sum(count for text, count in zip(texts, counts)
                                  if text != text.strip(BLANKS))

    def kept(self, part: Part, kept: Numbered, texts: Sequence[str],
             counts: Sequence[int]) -> list[Optional[int]]:
        """Returns the numbers of fields that are kept as numbers."""
        assert self.decision.kind is not None
        kind = unstyled(self.decision.kind)
        if part.has_blanks:
            self.count_padded(texts, counts)
        if kept.nulls:
            counts = list(itertools.compress(counts, map(operator.not_, kept.nulls)))
            texts = list(itertools.compress(texts, map(operator.not_, kept.nulls)))
        numbers = self.numbers_of(kept, kind, counts)
        self.counts.widen(min(numbers), max(numbers))
        changed = changed_of(kept, kind, texts)
        if changed is not None:
            self.counts.changed += sum(itertools.compress(counts, changed))
        if isinstance(kind, (Floats, Ranked)) and kept.form == "number":
            self.count_rounded(texts, counts)
        if not kept.nulls:
            return list(numbers)
        rest = iter(numbers)
        return [None if null else next(rest) for null in kept.nulls]

    def numbers_of(self, kept: Numbered, kind: Kind, counts: Sequence[int]) -> Sequence[int]:
        """Returns kept numbers as those of a kind."""
        numbers = values_of(kept)
        if isinstance(kind, (Floats, Ranked)):
            if kept.form == "float" and numbers.count(0.0):
                bits = memoryview(kept.data).cast("q")
                zeros = map(LEAST_BITS.__eq__, bits)
                self.counts.zeros += sum(itertools.compress(counts, zeros))
            return kind.numbers(numbered_doubles(kept))
        digits = kind.digits if isinstance(kind, (Decimals, Times)) else 0
        power = 10 ** (digits - kept.digits)
        return numbers if power == 1 else list(map(power.__mul__, numbers))

    def count_rounded(self, texts: Sequence[str], counts: Sequence[int]) -> None:
        """Counts the kept numbers that no double is, which aren't only spelled in another way."""
        for text, count in zip(texts, counts):
            change = change_in_double(text.strip(BLANKS).replace(",", "."))
            if change:
                self.counts.rounded += count
                self.counts.changed -= count
                self.counts.change = max(self.counts.change, change)

    def read(self, part: Part, texts: Sequence[str],
             counts: Sequence[int]) -> list[Optional[int]]:
        """Returns the numbers of fields that are read one by one."""
        words, decision, kind = set(self.column.options.words), self.decision, self.decision.kind
        assert kind is not None, "a column of texts has other codes"
        if part.has_blanks:
            self.count_padded(texts, counts)
            texts = [text.strip(BLANKS) for text in texts]
        read = decision.rounding.number if decision.rounding else kind.number
        numbers = [None if text in words else read(text) for text in texts]
        for text, number, count in zip(texts, numbers, counts):
            assert number is not None or text in words, "the column's kind fits all its texts"
            if number is not None:
                self.note(text, number, count)
        present = [number for number in numbers if number is not None]
        if present:
            self.counts.widen(min(present), max(present))
        return numbers

    def note(self, text: str, number: int, count: int) -> None:
        """Notes what changes of a field."""
        kind, counts = self.decision.kind, self.counts
        assert kind is not None
        is_same = kind.text(number) == text
        change = None if is_same else self.decision.change(text)
        if change:
            counts.rounded += count
            counts.change = max(counts.change, change)
        elif not is_same:
            counts.changed += count
        if number == 0 and text[:1] == "-" and isinstance(unstyled(kind), (Floats, Ranked)):
            counts.zeros += count


def text_of(numbers: Sequence[Optional[int]]) -> str:
    """Returns a line for each number."""
    try:
        return "%d\n" * len(numbers) % tuple(numbers)
    except TypeError:
        # one of them is null
        return str(numbers)[1:-1].replace(", ", "\n").replace("None", NULL) + "\n"


def exact_words(column: Fields) -> dict[str, int]:
    """Returns how many rows have each word for null without blanks around it."""
    found = dict[str, int]()
    for part, texts in column.each():
        assert column.dictionary is not None
        for text, count in zip(texts, column.dictionary.counts[part.first:part.end]):
            if text in column.words:
                found[text] = count
    return found


def changed_of(kept: Numbered, kind: Kind, texts: Sequence[str]) -> Optional[Iterable[object]]:
    """Returns for each kept field whether it comes back in another spelling, or None if none
    does. Texts are only needed of decimals in a column of floats."""
    count = len(values_of(kept))
    if isinstance(kind, (Floats, Ranked)):
        if kept.form == "float":
            return kept.lengths or None
        spelled: Callable[[float], str] = repr
        bare = map(str.strip, texts, itertools.repeat(BLANKS))
        return map(str.__ne__, map(spelled, numbered_doubles(kept)), bare)
    if isinstance(kind, Decimals):
        if kind.trimmed or not kept.lengths and kept.digits == kind.digits:
            return None
        return map(kind.digits.__ne__, kept.lengths or bytes([kept.digits]) * count)
    if isinstance(kind, Times):
        return None if restores(kind, kept.shape) else itertools.repeat(True, count)
    return None


# What an import reports of each column.

# a change is shown with so many digits after the point at most
SHORT = 40
HEADINGS = ("COLUMN", "HEADING", "WHAT IT IS", "FROM", "TO", "NULLS", "NOTES")


def report_lines(columns: Sequence[Column], counts: Sequence[Counts],
                 noted: Sequence[str]) -> Iterator[str]:
    """Yields a heading, and a line for each column, without the parts that none has."""
    lines: list[tuple[str, ...]] = [HEADINGS]
    for column, count_of, note in zip(columns, counts, noted):
        ends = [shown(end)[1:-1] for end in column.ends] or ["", ""]
        heading = "" if column.heading == column.name else shown(column.heading)
        nulls = ", ".join(f"{counted(count, 'null')} as {shown(word) if word else 'nothing'}"
                          for word, count in count_of.nulls.items())
        lines.append((column.name, heading, column.kind.told(), *ends, nulls, note))
    widths = [max(len(line[place]) for line in lines) for place in range(len(lines[0]))]
    for line in lines:
        yield "  ".join(cell.ljust(width) for cell, width in zip(line, widths) if width).rstrip()


def notes(column: Column, numbers: Numbers) -> Iterator[str]:
    """Yields the notes on a column: why it is one of texts, and what isn't printed as it was."""
    counts, is_float = numbers.counts, unstyled(column.kind).plural == "floats"
    if column.why:
        yield f"texts{', though ' if column.looks_like else ': '}{column.why}"
    if column.looks_like:
        yield f"so not ordered, unless by {option('--text', column.heading)}"
    if numbers.texts is not None:
        for word, count in words_in(numbers):
            null = option('--null', f'{column.heading}={word}')
            yield f"{shown(word)} is a text in {counted(count, 'field')}, and null by {null}"
    if "%y" in getattr(unstyled(column.kind), "form", ""):
        yield "years of 69 to 99 are 1969 to 1999, those of 00 to 68 are 2000 to 2068"
    words = [shown(word) for word in counts.nulls if word]
    if words and numbers.column.options.rules.keeps_spelling:
        yield f"{', '.join(words)} can't be kept: a null comes back as an empty field"
    if counts.padded:
        yield f"blanks dropped in {counted(counts.padded, 'field')}"
    if counts.zeros:
        yield f"-0.0 in {counted(counts.zeros, 'field')} is 0.0"
    if counts.rounded:
        # of an exponent of thousands no zeros are printed
        change = counts.change.normalize()
        told = f"{change:{'f' if change.adjusted() > -SHORT else '.0e'}}"
        near = " to the nearest doubles" if is_float else ""
        yield f"{counted(counts.rounded, 'field')} rounded{near}, by at most {told}"
    if counts.changed:
        where = "in the shortest spelling" if is_float else "values kept"
        yield f"spelling changed in {counted(counts.changed, 'field')}, {where}"


def words_in(numbers: Numbers) -> list[tuple[str, int]]:
    """Returns the words that are texts in a column, though they are null in one of numbers, and how
    many fields have each."""
    column = numbers.column
    return [(word, column.words[word]) for word in NULLS if word in column.words and
            word not in column.options.nulls and not column.options.is_text]


# A CSV file as tables of numbers, and what these mean: bw codes the file, and what its columns
# are is decided from their distinct fields.

AT_ONCE = 1 << 16
# columns that get codes in any case
MARKED: frozenset[int] = frozenset()


class Mixed(Exception):
    """Columns that must get codes, though all their fields are numbers in some part of the file."""

    def __init__(self, places: Iterable[int]) -> None:
        super().__init__(places)
        self.places = frozenset(places)


@dataclass
class Codes:
    """The codes of a column in each part of a file: the places that they have among the distinct
    fields of all parts, None if these are the codes themselves, or numbers. `ends` are the bounds
    of the numbers, if there are any."""
    fields: Fields
    places: List[Optional[array[int]]]
    ends: Optional[tuple[int, int]]


class Table:
    """A file as one or more tables of numbers, by way of files in a folder. If `is_split`, shards
    are asked for."""

    def __init__(self, path: str | os.PathLike[str], given: argparse.Namespace,
                 folder: pathlib.Path, opened: Optional[BinaryIO] = None,
                 is_split: bool = False) -> None:
        self.given, self.folder, self.is_split = given, folder, is_split
        self.source = Source(path, given, MOST_ROWS, opened)
        marks = self.source.text.marks()
        self.headings = [heading.strip(BLANKS) for heading in self.source.headings]
        self.options = column_options(given, self.headings, self.source.separator)
        self.columns, self.numbers = list[Column](), list[Numbers]()
        self.coded = self.code()
        if marks.differ(self.source.text.marks()):
            raise Refused(f"{self.source.path}: the file changed while it was read")

    @property
    def rows(self) -> int:
        return self.coded.rows

    def code(self) -> CodedFile:
        """Has bw code the file, and decides what its columns are."""
        marked = MARKED
        while True:
            try:
                coded = Coder(self.source, self.given, self.folder, self.is_split, marked).code()
                with Waiting().shown("its distinct fields are examined"):
                    self.decide(coded, self.codes_of(coded))
                return coded
            except Mixed as mixed:
                marked = marked | mixed.places

    def codes_of(self, coded: CodedFile) -> list[Codes]:
        """Returns the codes of all columns. Raises Mixed if some must be others."""
        found, mixed = list[Codes](), set[int]()
        for place, options in enumerate(self.options):
            ends = ends_of(coded.parts, place)
            held = [each for part in coded.parts if (each := part.dictionaries[place])]
            if ends and (needs_codes(options, ends) or not are_whole(held, options, ends)):
                mixed.add(place)
            elif not mixed:
                found.append(self.codes(coded, place, options, ends))
        if mixed:
            raise Mixed(mixed)
        return found

    def codes(self, coded: CodedFile, place: int, options: ColumnOptions,
              ends: Optional[tuple[int, int]]) -> Codes:
        """Returns the codes of a column."""
        dictionaries = [part.dictionaries[place] for part in coded.parts]
        held = [each for each in dictionaries if each]
        dictionary: Optional[Dictionary] = held[0] if held else None
        places: list[Optional[array[int]]] = [None] * len(dictionaries)
        if dictionary and len(dictionaries) > 1:
            merged = ByteFile(self.folder / f"merged-{place}",
                              os.O_RDWR | os.O_CREAT | os.O_TRUNC)
            dictionary, each = merge(held, merged)
            rest = iter(each)
            places = [next(rest) if each else None for each in dictionaries]
        if any(each.lengths and max(each.lengths) > MOST_CHARACTERS for each in held):
            self.source.refuse_odd()
        try:
            fields = Fields(options, plain_of(options), coded.rows, dictionary)
        except UnicodeDecodeError:
            self.source.text.undecoded()
        if fields.has_nul and not self.source.text.may_have_nul:
            self.source.refuse_odd()
        empty = sum(part.coded.rows - part.counts[place] for part in coded.parts
                    if place in part.counts)
        if empty:
            fields.words[""] = fields.words.get("", 0) + empty
        if ends:
            fields.plain.spans.widen(0, *ends)
            fields.plain.samples.setdefault("any", str(ends[0]))
        return Codes(fields, places, ends)

    def decide(self, coded: CodedFile, codes: Sequence[Codes]) -> None:
        """Decides what the columns are, and writes what their codes become."""
        fields = [each.fields for each in codes]
        decisions = decide(self.source, fields, self.given.heading is None)
        mixed = [place for place, decision in enumerate(decisions)
                 if codes[place].ends and not isinstance(decision.kind, Whole)]
        if mixed:
            raise Mixed(mixed)
        for name, column, decision in zip(names_of(self.headings), fields, decisions):
            self.add(name, column, decision)
        self.write_numbers(coded.parts, codes)
        for made, numbers in zip(self.columns, self.numbers):
            span, nulls = numbers.counts.span, numbers.counts.nulls
            made.nulls = [word for word in numbers.column.options.words if word and word in nulls]
            if numbers.texts is None:
                made.ends = [] if span is None else list(map(made.kind.text, span))

    def add(self, name: str, column: Fields, decision: Decision) -> None:
        """Adds a column, which becomes what was decided."""
        texts = sorted_texts(column) if decision.kind is None else None
        kind = texts.kind if texts else decision.kind
        assert kind is not None
        self.columns.append(Column(name, column.options.heading, kind, (),
                                   texts.ends if texts else (), decision.why, decision.looks_like))
        self.numbers.append(Numbers(column, decision, texts))

    def write_numbers(self, parts: Sequence[CodedPart], codes: Sequence[Codes]) -> None:
        """Writes what the codes of each part become."""
        files = [open(self.numbers_path(place), "w", encoding="ascii", newline="")
                 for place in range(len(parts))]
        for place, (numbers, each) in enumerate(zip(self.numbers, codes)):
            if len(files) == 1:
                files[0].writelines(lines_of(numbers))
                continue
            written = list(itertools.chain.from_iterable(numbers.blocks()))
            for file, part, places in zip(files, parts, each.places):
                file.writelines(lines_in(part, place, places, written))
        for place, file in enumerate(files):
            file.close()
            if self.numbers_path(place).stat().st_size > MOST_BYTES:
                raise Refused(f"{self.source.path}: the numbers of its distinct fields take more "
                              "than 1 GiB: use bw-shards load with --rows")

    def numbers_path(self, place: int) -> pathlib.Path:
        return self.folder / f"numbers-{place}"

    def schema(self, name: str) -> str:
        """Returns the schema of the numbers, the narrowest one."""
        lines = [f"TABLE {name}"]
        for column, numbers in zip(self.columns, self.numbers):
            least, greatest = numbers.counts.span or (0, 0)
            null = "" if sum(numbers.counts.nulls.values()) else " NOT NULL"
            lines.append(f"COLUMN {column.name} {least} {greatest}{null}")
        return "\n".join(lines) + "\n"

    def write(self, place: int, name: str, out: pathlib.Path, by_rows: bool) -> None:
        """Writes the file of a part, by columns or by rows."""
        schema = self.folder / f"schema-{place}"
        schema.write_text(self.schema(name), encoding="ascii")
        encode.recode(self.coded.parts[place].coded, schema, self.numbers_path(place), out,
                      by_rows)

    def record(self, place: int, name: str, out: pathlib.Path, by_rows: bool) -> TableFile:
        """Writes the file of a part, and returns its record among shards."""
        self.write(place, name, out, by_rows)
        return record_of(out, out.name, self.coded.parts[place].coded.rows)

    def report(self) -> None:
        """Prints what was done with each column, one line each."""
        noted = ["; ".join(notes(*each)) for each in zip(self.columns, self.numbers)]
        for line in report_lines(self.columns, [each.counts for each in self.numbers], noted):
            print(line)
        source, empty = self.source, self.coded.empty
        skipped = f"; {counted(empty, 'empty line')} skipped" if empty else ""
        print(f"{counted(self.rows, 'row')}, separated by {source.separator!r}, "
              f"in {source.text.written[1]}{skipped}")


def ends_of(parts: Sequence[CodedPart], place: int) -> Optional[tuple[int, int]]:
    """Returns the least and the greatest number of a column in the parts where it has numbers."""
    bounds = [part.coded.bounds[place] for part in parts if part.counts.get(place)]
    if not bounds:
        return None
    return min(least for least, _ in bounds), max(greatest for _, greatest in bounds)


def needs_codes(options: ColumnOptions, ends: tuple[int, int]) -> bool:
    """Returns whether numbers are asked to become anything else."""
    if options.is_text or options.form is not None or options.digits is not None:
        return True
    return any(SIMPLE.fullmatch(word) and ends[0] <= int(word) <= ends[1] for word in options.nulls)


def are_whole(dictionaries: Sequence[Dictionary], options: ColumnOptions,
              ends: tuple[int, int]) -> bool:
    """Returns whether fields beside numbers are whole numbers and words for null, and all numbers
    fit one column."""
    least, greatest = ends
    for dictionary in dictionaries:
        for block in dictionary.blocks():
            try:
                texts = {text.strip(BLANKS) for text in texts_of(block.fields)}
            except UnicodeDecodeError:
                return False
            texts.difference_update(options.words)
            if not all(map(SIMPLE.fullmatch, texts)):
                return False
            numbers = list(map(int, texts))
            least, greatest = min([least, *numbers]), max([greatest, *numbers])
    return greatest - least <= GREATEST


def plain_of(options: ColumnOptions) -> Plain:
    """Returns what is known of the fields of a column before they are read."""
    own = (options.form is not None or options.is_text or options.digits is not None or
           options.rules.keeps_blanks)
    comma = "," if options.rules.separator != "," or options.is_number else ""
    words = {encoded(word): place for place, word in enumerate(options.words, 1)}
    return Plain(words, "" if own or options.rules.thousands else f".{comma}")


def lines_of(numbers: Numbers) -> Iterator[str]:
    """Yields the lines that say what the codes of a column become, many at a time."""
    if numbers.is_kept:
        yield "KEEP\n"
        return
    yield "CODES\n"
    yield from map(text_of, numbers.blocks())


def lines_in(part: CodedPart, place: int, places: Optional[array[int]],
             written: Sequence[Optional[int]]) -> Iterator[str]:
    """Yields the lines that say what the codes of a column become in one of several parts."""
    if places is None:
        # a column of nulls alone keeps no number
        is_null = part.coded.rows and not part.counts[place]
        yield f"CODES\n{NULL}\n" if is_null else "KEEP\n"
        return
    yield "CODES\n"
    for first in range(0, len(places), AT_ONCE):
        yield text_of(list(map(written.__getitem__, places[first:first + AT_ONCE])))


def write_numbers(table: Table, folder: pathlib.Path, out: pathlib.Path) -> None:
    """Writes the numbers of all rows, below the names of their columns. Rejects more than one table
    may have."""
    if table.rows > MOST_ROWS:
        table.source.refuse_odd()
    with open(out, "wb") as file:
        file.write(",".join(column.name for column in table.columns).encode("ascii") + b"\n")
        for place in range(len(table.coded.parts)):
            # bw dumps these as it reads them, a file by columns only once it is in memory
            table.write(place, "t", folder / "table.bw", by_rows=True)
            dump(folder / "table.bw", file, b"NULL" if len(table.columns) == 1 else b"")
            if file.tell() > MOST_BYTES:
                raise Refused(f"{table.source.path}: its numbers take more than 1 GiB of CSV, "
                              "the limit of a load")


def dump(path: pathlib.Path, out: BinaryIO, null: bytes) -> None:
    """Writes the rows of a table file, with a word for null."""
    with subprocess.Popen([_errors.program(), "dump", str(path)], stdin=subprocess.DEVNULL,
                          stdout=subprocess.PIPE, restore_signals=False) as process:
        assert process.stdout is not None
        process.stdout.readline()
        while lines := process.stdout.readlines(1 << 20):
            out.write(b"".join(lines).replace(b"NULL", null))
    check("dump", process.returncode, "")

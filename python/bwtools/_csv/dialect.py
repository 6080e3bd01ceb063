"""The dialect of a CSV file: its separator, its quotation mark and its ragged records."""
from __future__ import annotations

import collections
import csv
import itertools
import re
from dataclasses import dataclass
from typing import Callable, Iterable, Iterator, NamedTuple, NoReturn, Optional, Sequence

from .._errors import Refused, counted, shown
from .._identifiers import MOST_COLUMNS, option
from .._types.number_format import is_number


# The signs of a CSV file.

NUL = "\0"
# stands for no quotation mark: Unicode says that it is no character
NO_QUOTE = "\uffff"
# what may stand around a field
BLANKS = " \t"
# separators of fields that have a name
SEPARATORS = {"comma": ",", "semicolon": ";", "tab": "\t", "bar": "|", "space": " ", "\\t": "\t"}


class Signs(NamedTuple):
    """The signs of a file: what separates fields, what is around them, what escapes a character,
    and what begins a line that is a comment."""

    separator: str = ","
    quote: str = '"'
    escape: str | None = None
    comment: str = ""

    @property
    def is_simple(self) -> bool:
        """Whether fields may be split without the csv module."""
        return self.escape is None and len({self.separator, self.quote, NUL, "\n", "\r"}) == 5

    def may_have_comment(self, text: str) -> bool:
        """Returns whether a line of a text, or a field in quotes, begins as a comment does."""
        sign = self.comment
        return bool(sign) and sign in text and (
            text.startswith(sign) or f"\n{sign}" in text or f"\r{sign}" in text)


# Chooses the separator of a file by its first rows.

# the separators that are chosen from, and by how many rows
CANDIDATES, ROWS = ",;\t|", 200
# what else may separate fields, which a reader must say
MORE = " :^~"
COMMON_SIGNS, LINES = "#%", re.compile("[^\r\n]+")
NAMES = {",": "comma", ";": "semicolon", "\t": "tab", "|": "bar", " ": "space"}


class Tie(NamedTuple):
    """Two readings of a file, neither of which is certain: the separator of each, and how many
    fields it makes."""
    first: tuple[str, int]
    second: tuple[str, int]

    def told(self) -> str:
        """Returns a message with the options that choose."""
        what, how = zip(*((f"{sign!r} ({counted(fields, 'field')})", separator_option(sign))
                          for sign, fields in self))
        return f"the separator may be {' or '.join(what)}: use {', or '.join(how)}"


def separator_option(sign: str) -> str:
    """Returns the option for a separator, as it is typed."""
    return option("--separator", NAMES.get(sign, sign))


@dataclass(frozen=True)
class Reading:
    """How a separator reads the first records: how many fields the heading has, how many most rows
    have, and which part of the rows has so many."""
    sign: str
    heading: int
    width: int
    share: float

    @property
    def is_whole(self) -> bool:
        """Whether the separator is in all records, equally often."""
        return self.share == 1 and self.heading == self.width


def reading_of(lines: Sequence[str], sign: str, has_heading: bool) -> Reading:
    """Returns how a separator reads lines, of which there is one or more."""
    widths = [count(line, sign) + 1 for line in lines]
    rows = widths[1:] if has_heading else widths
    (width, number), = collections.Counter(rows or widths).most_common(1)
    share = number / len(rows or widths) if width > 1 else 0
    return Reading(sign, widths[0], width, share)


def lines_of(text: str, signs: Signs, is_cut: bool) -> list[str]:
    """Returns the first lines of a text, which may be cut off after one, without empty ones,
    comments, and what is in quotes."""
    quote = re.escape(signs.quote)
    if signs.escape:
        text = re.sub(f"{re.escape(signs.escape)}.", "x", text, flags=re.DOTALL)
    bare = re.sub(f"(?:^|(?<=[{CANDIDATES}])){quote}[^{quote}]*"
                  f"(?:{quote}{quote}[^{quote}]*)*{quote}", "x", text,
                  flags=re.MULTILINE)
    lines = [line for line in LINES.findall(bare) if not signs.comment or
             not line.startswith(signs.comment)]
    # the last one may be longer
    lines = lines[:-1] if is_cut and len(lines) > 2 else lines
    first = next((place for place, line in enumerate(lines) if line[0] not in COMMON_SIGNS), 0)
    return lines[first:first + ROWS]


def chosen(text: str, signs: Signs, is_cut: bool, has_heading: bool) -> str | Tie:
    """Returns the separator of a file, of which this is the begin, or two that it may have."""
    lines = lines_of(text, signs, is_cut)
    if not lines:
        return CANDIDATES[0]
    readings = [reading_of(lines, sign, has_heading) for sign in CANDIDATES]
    most = max(readings, key=lambda each: each.heading)
    whole = [each for each in readings if each.is_whole]
    if whole:
        return of_whole(whole, most)
    best = max(readings, key=lambda each: (each.share, each.heading))
    other = other_reading(lines, has_heading)
    if other:
        return Tie((other.sign, other.heading), (most.sign, most.heading))
    if best.share <= .5 or best.share == most.share:
        return most.sign
    # a title may have any signs, though hardly more than the rows
    if most.heading >= best.width and best.heading < best.width:
        return Tie((best.sign, best.width), (most.sign, most.heading))
    return best.sign


def other_reading(lines: Sequence[str], has_heading: bool) -> Optional[Reading]:
    """Returns how a separator that isn't chosen reads lines in which it is equally often, if one
    is, and those that are chosen from are in some of them."""
    used = {sign for sign in CANDIDATES for line in lines if sign in line}
    # a tab is a blank too
    signs = MORE.replace(" ", "") if "\t" in used else MORE
    readings = (reading_of(lines, sign, has_heading) for sign in signs) if used else ()
    return next((each for each in readings if each.is_whole and each.width > 2), None)


def of_whole(whole: Sequence[Reading], most: Reading) -> str | Tie:
    """Returns the separator of a file, or two, if one or more are in all of its records."""
    first, *others = sorted(whole, key=lambda each: -each.heading)
    if others:
        return Tie((first.sign, first.heading), (others[0].sign, others[0].heading))
    if most.heading > first.heading:
        return Tie((first.sign, first.heading), (most.sign, most.heading))
    return first.sign


def count(text: str, sign: str) -> int:
    """Returns how often a separator is in a text; of blanks each run is one."""
    return len(text.split()) - 1 if sign == " " else text.count(sign)


# The refusal of rows that have other numbers of fields than the heading, with the options that
# may help: titles above the heading, comments, row names, separators at the end, short and long
# rows.

# how many such rows are named, and how many records are read to see what is the matter
MOST, LOOKED = 3, 1 << 17
# so many records may show a title
FIRST = 10
COMMENTS = ("#", "%", "//", ";", "!")
# a record, and the line at which it begins
Record = tuple[int, list[str]]


def refuse(records: Callable[[], Iterator[Record]], width: int, has_heading: bool, fills: bool,
           path: str) -> NoReturn:
    """Rejects a file for its first records of other numbers of fields than the heading, unless all
    of these are short and filled."""
    found = (row for row in ragged(records(), width) if not fills or len(row[1]) > width)
    rows = list(itertools.islice(found, MOST))
    said = told(rows, width, "the heading" if has_heading else "the first line")
    looked = [record for record in itertools.islice(records(), LOOKED) if record[1]]
    options = advice(looked, rows, width, has_heading)
    raise Refused(f"{path}: {said}{': ' if options else ''}{'; '.join(options)}")


def ragged(records: Iterable[Record], width: int) -> Iterator[Record]:
    """Yields the records that have another number of fields. Empty lines are none."""
    return ((line, record) for line, record in records if record and len(record) != width)


def told(rows: Sequence[Record], width: int, heading: str) -> str:
    """Returns a message on the first such rows, of which there is one or more."""
    if len(rows) == 1:
        line, record = rows[0]
        return f"line {line} has {counted(len(record), 'field')}, and {heading} has {width}"
    lines, counts = ([*map(str, each)] for each in
                     ([line for line, _ in rows], [len(record) for _, record in rows]))
    return (f"lines {joined(lines)} have {joined(counts)} fields, and {heading} has {width}")


def joined(words: Sequence[str]) -> str:
    return f"{', '.join(words[:-1])} and {words[-1]}"


def advice(records: Sequence[Record], rows: Sequence[Record], width: int,
           has_heading: bool) -> list[str]:
    """Returns what may help: options for such rows, and what each would do. The first records show
    it, of which there is one or more."""
    sign = comment_of(records[0][1], rows, width)
    if sign:
        return [f"--comment '{sign}' skips lines that begin so"]
    lengths = [len(record) for _, record in records[1:]]
    found = []
    before = title_lines(records, width) if has_heading else 0
    if before:
        found.append(f"--skip {before} skips {'the line' if before == 1 else 'the lines'} above "
                     "the heading, if that is a title")
    if has_heading and set(lengths) == {width + 1} and not ends_empty(records[1:], width):
        if not is_above(records):
            found.insert(0, "--row-names reads a first column that the heading lacks")
    elif set(lengths) <= {width, width + 1} and ends_empty(records[1:], width):
        found.insert(0, "--trailing-separators drops the empty field at the end of rows")
    elif max(lengths) <= width:
        found.append("--fill adds empty fields to short rows")
    elif max(lengths) <= MOST_COLUMNS and (not before or min(lengths) <= width):
        found.append("--widen adds columns for long rows, and empty fields to the others")
    if width == 1:
        found += [f"{separator_option(sign)} reads each line as one field" for sign in
                  unused(records)]
    return found


def comment_of(first: Sequence[str], rows: Sequence[Record], width: int) -> str | None:
    """Returns the sign of comments, if the first line or a row of another length begins so."""
    sign = next((sign for sign in COMMENTS for _, record in rows if record[0].startswith(sign)),
                None)
    return sign or next((sign for sign in COMMENTS if width == 1 and first[0].startswith(sign)),
                        None)


def title_lines(records: Sequence[Record], width: int) -> int:
    """Returns how many lines are above the first that has as many fields as most have, if that may
    be the heading: it isn't the first of all."""
    lengths = [len(record) for _, record in records[1:]]
    common = max(set(lengths), key=lengths.count)
    is_likely = common > width or common < width and set(lengths) == {common}
    if common < 2 or not is_likely:
        return 0
    first = next(place for place, (_, record) in enumerate(records) if len(record) == common)
    before = records[first - 1][1]
    # the heading may have a separator at its end
    first -= len(before) == common + 1 and not before[-1]
    return records[first][0] - 1 if first else 0


def padded_title(records: Sequence[Record]) -> int:
    """Returns how many lines are above the heading, if the first record is a title that empty
    fields follow, as spreadsheets export them; else 0."""
    if not records or not is_padded(records[0][1]):
        return 0
    rest = list(itertools.dropwhile(lambda each: is_padded(each[1]) or not any(each[1]), records))
    if not rest or not all(rest[0][1]) or any(map(is_number, rest[0][1])):
        return 0
    # two columns may be one with a heading, and one without
    has_number = any(is_number(field) for _, record in rest[1:] for field in record)
    return rest[0][0] - 1 if len(records[0][1]) > 2 or has_number else 0


def is_padded(record: Sequence[str]) -> bool:
    """Returns whether a record has a field first, and empty ones last that are half of all or
    more."""
    present = len("".join("x" if field.strip() else " " for field in record).rstrip())
    return bool(record[0].strip()) and 2 * present <= len(record)


def is_above(records: Sequence[Record]) -> bool:
    """Returns whether the second record looks like a heading: it has words alone, and the next one
    has a number."""
    if len(records) < 3:
        return False
    return not any(map(is_number, records[1][1])) and any(map(is_number, records[2][1]))


def ends_empty(records: Sequence[Record], width: int) -> bool:
    """Returns whether all records of one field more end in an empty one."""
    return all(not record[-1] for _, record in records if len(record) == width + 1)


def unused(records: Sequence[Record]) -> list[str]:
    """Returns a separator that isn't in the records, if there is one."""
    used = {sign for sign in CANDIDATES for _, record in records for field in record
            if sign in field}
    return [sign for sign in CANDIDATES[::-1] if sign not in used][:1]


# The refusal of records whose quotation marks can't be read, with the options that read them, and
# what a field becomes with each.

# reads a file with signs, strictly or not
Reader = Callable[[Signs, bool], Iterator[Record]]


class Unreadable(csv.Error):
    """A record that isn't CSV, which begins at a line."""

    def __init__(self, line: int, error: csv.Error) -> None:
        super().__init__(str(error))
        self.line = line

    @property
    def is_open(self) -> bool:
        """Whether a field in quotes doesn't end."""
        return "end of data" in str(self)


@dataclass(frozen=True)
class Trial:
    """An option, what it reads at the line in question, and whether the first record is as long as
    all others, or lacks one field, as the heading of R does."""
    option: str
    record: list[str]
    is_even: bool


def quote_advice(read: Reader, signs: Signs, error: Unreadable) -> str:
    """Returns the options by which a record is read that isn't strict CSV."""
    candidates = [("--escape '\\'", signs._replace(escape="\\"), True),
                  ("--lenient", signs, False),
                  ("--quote none", signs._replace(quote=NO_QUOTE), False)]
    if error.is_open:
        # the rest of the file would be in a field
        candidates[1:] = candidates[:0:-1]
    trials = [trial for option, changed, is_strict in candidates
              if (trial := tried(option, read(changed, is_strict), error.line))]
    if trials and len(trials[-1].record) == 1:
        # no separator is there, but blanks may be
        blanks = tried("--separator space", read(signs._replace(separator=" "), True), error.line)
        if blanks and blanks.is_even and len(blanks.record) > 1:
            return f": use {blanks.option}"
    found = [each for each in trials if each.is_even] or trials
    place = differing([each.record for each in found])
    use = [each.option + (f", which reads {shown(each.record[place])}"
                          if place < len(each.record) else "") for each in found]
    return f": use {', or '.join(use)}" if use else ""


def tried(option: str, records: Iterator[Record], line: int) -> Optional[Trial]:
    """Returns what an option reads, or None if that isn't CSV either."""
    widths, at, heading = set[int](), list[str](), 0
    try:
        for number, record in itertools.islice(records, LOOKED):
            if record and not heading:
                heading = len(record)
            elif record:
                widths.add(len(record))
            if number <= line:
                at = record
    except csv.Error:
        return None
    return Trial(option, at, widths <= {heading} or widths == {heading + 1})


def differing(records: list[list[str]]) -> int:
    """Returns the first place at which records differ; one after all if they don't."""
    count = min(map(len, records), default=0)
    return next((place for place in range(count)
                 if len({record[place] for record in records}) > 1), count)

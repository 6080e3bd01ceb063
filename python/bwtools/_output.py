"""Prints results: as CSV, as an aligned table, as JSON, as a table of Markdown, as lines of fields
that are separated by tabs, or vertically, a line for each field; and translates what `bw query`
printed back to the values that its numbers stand for."""
from __future__ import annotations

import io
import itertools
import re
from typing import Any, Callable, Iterator, Sequence, TextIO

from ._errors import Refused, counted, shown
from ._result import Numbers, Result, Values
from ._types.base import Column

FORMATS = ("csv", "table", "json", "markdown", "tsv", "vertical")
QUOTE, QUOTED = '"', re.compile('[",\r\n]')
NUMBERS = ("whole", "decimals", "floats", "ranked")
# what a line of tabs has for characters that would end a field or a line
TSV = str.maketrans({"\t": "\\t", "\n": "\\n", "\r": "\\r", "\\": "\\\\"})
MARKDOWN = str.maketrans({**{chr(each): f"\\\\x{each:02x}" for each in (*range(32), 127)},
                          "\n": "<br>", "\r": "", "\t": "\t", "<": "&lt;", "&": "&amp;",
                          **{each: f"\\{each}" for each in "\\|*_`"}})
# the widths of a table are those of so many rows, and a column is made narrower down to so many
# characters
FIRST, LEAST, BETWEEN, CUT = 1000, 8, "  ", "…"
Writer = Callable[[Result, TextIO, "int | None"], int]


def writer_of(form: str) -> Writer:
    """Returns what writes a result in a format, at most so many characters wide, and returns the
    number of rows."""
    return {"csv": write_csv, "table": write_table, "json": write_json,
            "markdown": write_markdown, "tsv": write_tsv, "vertical": write_vertical}[form]


def quoted(field: str) -> str:
    """Returns a field of CSV, in quotes if it needs them."""
    return f'"{field.replace(QUOTE, QUOTE * 2)}"' if QUOTED.search(field) else field


def csv_lines(columns: Sequence[Sequence[str]]) -> str:
    """Returns the lines of columns of fields. A line of one empty field has quotes, since an empty
    line is no record."""
    if len(columns) == 1:
        columns = [[field or QUOTE * 2 for field in columns[0]]]
    return "\n".join(map(",".join, zip(*columns))) + "\n"


def write_csv(result: Result, out: TextIO, width: int | None) -> int:
    """Writes CSV. A null is an empty field; in a record of one field it has quotes. Returns the
    number of rows."""
    out.write(csv_lines([[quoted(heading)] for heading in result.headings]))
    count = 0
    for block in result.fields():
        out.write(csv_lines([list(map(quoted, column)) for column in block]))
        count += len(block[0])
    return count


def write_tsv(result: Result, out: TextIO, width: int | None) -> int:
    """Writes fields that are separated by tabs, with a backslash before what would end a field."""
    return write_lines(result, out, "\t", TSV)


def write_lines(result: Result, out: TextIO, between: str, changes: dict[int, str],
                around: str = "") -> int:
    """Writes a line of each row, after one of the headings unless `around` is given."""
    count = 0
    if not around:
        out.write(between.join(each.translate(changes) for each in result.headings) + "\n")
    for block in result.fields():
        columns = [[field.translate(changes) for field in column] for column in block]
        for row in zip(*columns):
            out.write(f"{around}{between.join(row)}{around[::-1]}\n")
        count += len(columns[0])
    return count


def write_markdown(result: Result, out: TextIO, width: int | None) -> int:
    """Writes a table of Markdown, with numbers to the right."""
    headings = " | ".join(heading.translate(MARKDOWN) for heading in result.headings)
    signs = " | ".join("---:" if is_right else "---" for is_right in right_columns(result))
    out.write(f"| {headings} |\n| {signs} |\n")
    return write_lines(result, out, " | ", MARKDOWN, "| ")


def write_json(result: Result, out: TextIO, width: int | None) -> int:
    """Writes an array with an object of each row, in a line of its own. Decimals have the digits of
    their column, dates and times are texts in ISO form, and an infinity is a text."""
    import json
    twice = [each for each in result.headings if result.headings.count(each) > 1]
    if twice:
        raise Refused(f"two columns have the heading {shown(twice[0])}, which an object of JSON "
                      "has once: use AS")
    count = 0
    names = [json.dumps(heading, ensure_ascii=False) for heading in result.headings]
    out.write("[")
    for block in result.blocks():
        for row in zip(*(column.json() for column in block)):
            fields = ", ".join(map("{}: {}".format, names, row))
            out.write(f"{',' if count else ''}\n{{{fields}}}")
            count += 1
    out.write("\n]\n" if count else "]\n")
    return count


def write_vertical(result: Result, out: TextIO, width: int | None) -> int:
    """Writes a line for each field, after its heading, and an empty line between rows."""
    count, headings = 0, list(map(printable, result.headings))
    most = max(map(width_of, headings))
    starts = [f"{' ' * (most - width_of(each))}{each} = " for each in headings]
    for row in printable_rows(result):
        out.write("\n" * bool(count))
        out.write("".join(f"{start}{field}\n" for start, field in zip(starts, row)))
        count += 1
    return count


def write_table(result: Result, out: TextIO, width: int | None) -> int:
    """Writes an aligned table, at most `width` characters wide, with numbers to the right. The
    widths are those of the first rows."""
    rights, rows = right_columns(result), printable_rows(result)
    first = list(itertools.islice(rows, FIRST))
    layout = Layout.of(result.headings, first, rights, width)
    out.write(layout.line(list(map(printable, result.headings))))
    out.write(layout.rule())
    count = 0
    for row in itertools.chain(first, rows):
        out.write(layout.line(row))
        count += 1
    return count


def printable_rows(result: Result) -> Iterator[Sequence[str]]:
    """Yields the rows as printable fields."""
    for block in result.fields():
        yield from zip(*(list(map(printable, column)) for column in block))


def right_columns(result: Result) -> list[bool]:
    """Returns which columns have numbers: those of such a kind, or of whose first rows each value
    is a number."""
    first: Sequence[Any] = [None] * len(result.kinds)
    if None in result.kinds:
        first = next(result.blocks(), first)
    return [is_number(column) if kind is None else kind.name in NUMBERS
            for kind, column in zip(result.kinds, first)]


def is_number(column: Any) -> bool:
    present = [value for value in column.items if value is not None] \
        if isinstance(column, Values) else []
    return bool(present) and all(isinstance(value, (int, float)) for value in present)


class Layout:
    """The widths of columns, and which are aligned to the right."""

    def __init__(self, widths: Sequence[int], rights: Sequence[bool]) -> None:
        self.widths, self.rights = widths, rights

    @classmethod
    def of(cls, headings: Sequence[str], rows: Sequence[Sequence[str]], rights: Sequence[bool],
           most: int | None) -> Layout:
        """Returns the layout of a table, at most so many characters wide if that can be had."""
        widths = [max(width_of(field) for field in column)
                  for column in zip(map(printable, headings), *rows)]
        if most is not None:
            narrow(widths, most - len(BETWEEN) * (len(widths) - 1))
        return cls(widths, rights)

    def line(self, fields: Sequence[str]) -> str:
        """Returns a line of printable fields, which are cut if they are too wide."""
        placed = (padded(field, width, right)
                  for field, width, right in zip(fields, self.widths, self.rights))
        return BETWEEN.join(placed).rstrip() + "\n"

    def rule(self) -> str:
        return BETWEEN.join("-" * width for width in self.widths) + "\n"


def narrow(widths: list[int], most: int) -> None:
    """Makes the widest columns narrower until all fit, or none may be made narrower."""
    surplus = sum(widths) - most
    while surplus > 0 and max(widths) > LEAST:
        widest = max(widths)
        next_width = max([LEAST, *(width for width in widths if width < widest)])
        places = [place for place, width in enumerate(widths) if width == widest]
        step = max(1, min(widest - next_width, surplus // len(places)))
        for place in places:
            if surplus > 0:
                widths[place] -= step
                surplus -= step


def padded(field: str, width: int, is_right: bool) -> str:
    """Returns a field of a width."""
    own = width_of(field)
    if own > width:
        field = cut(field, width)
        own = width_of(field)
    blanks = " " * (width - own)
    return blanks + field if is_right else field + blanks


def cut(field: str, width: int) -> str:
    """Returns the beginning of a field that is too wide, with a sign at its end."""
    kept, left = "", width - 1
    for character in field:
        left -= width_of(character)
        if left < 0:
            break
        kept += character
    return kept + CUT


def width_of(text: str) -> int:
    """Returns how many characters wide a terminal prints a text."""
    if text.isascii():
        return len(text)
    import unicodedata
    return sum(0 if unicodedata.combining(each) else 2 if
               unicodedata.east_asian_width(each) in "WF" else 1 for each in text)


def printable(text: str) -> str:
    """Returns a text in which characters that a terminal doesn't print are escaped."""
    if text.isprintable():
        return text
    return "".join(each if each.isprintable() else each.encode("unicode_escape").decode()
                   for each in text)


# --- what `bw query` printed, translated back to the values that its numbers stand for

WHOLE = re.compile("(?:(?:-?(?:0|[1-9][0-9]*)|NULL)\\n)*")
RECORDS_AT_ONCE = 8192
Turn = Callable[[Sequence[int]], Sequence[str]]


class Back:
    """Translates the fields under one heading of a result back."""

    def __init__(self, heading: str, columns: list[Column]) -> None:
        found = re.fullmatch(r"(?:(COUNT|SUM|MIN|MAX)\()?([^()]+)\)?", heading)
        named = [column for column in columns if found
                 and column.name.lower() == found.group(2).lower()]
        from ._types.kinds import Whole
        whole = Whole()
        self.heading, self.kind, self.is_whole = heading, whole, True
        self.turn: Turn = whole.spell
        if heading == "COUNT(*)":
            return
        if not found or not named:
            raise Refused(f"the result has a column {heading}, which isn't in the columns file")
        column, function = named[0], found.group(1)
        kind = column.kind
        self.heading = f"{function}({column.heading})" if function else column.heading
        self.is_whole = isinstance(kind, Whole)
        if function == "SUM" and not kind.is_summable:
            raise Refused(no_sum(column))
        if function == "SUM":
            self.turn = lambda numbers: list(map(kind.total, numbers))
        elif function != "COUNT":
            self.turn = kind.spell

    def texts(self, fields: Sequence[str], line: Callable[[int], int]) -> list[str]:
        """Returns the texts of the fields of some rows, in quotes if needed. `line` returns the
        line of a row."""
        joined = "\n".join(fields) + "\n" if self.is_whole else ""
        if joined.count("\n") == len(fields) and WHOLE.fullmatch(joined):
            return ["" if field == "NULL" else field for field in fields]
        try:
            texts = Numbers(self.kind, fields).turned("", self.turn)
        except Refused:
            for place, field in enumerate(fields):
                try:
                    self.turn([int(field)] if field != "NULL" else [])
                except (ValueError, IndexError, OverflowError):
                    raise Refused(f"line {line(place)} of the result: {field} isn't a number of "
                                  f"column {self.heading}") from None
            raise
        return list(map(quoted, texts)) if QUOTED.search("".join(texts)) else texts


def no_sum(column: Column) -> str:
    """Returns why a column has no sum."""
    told = f"SUM({column.name}): {column.name} has {column.kind.plural}, which can't be summed"
    if column.kind.plural == "floats":
        from ._identifiers import option
        return (f"{told} exactly: list them and add them, or import the file again with "
                f"{option('--digits', f'{column.heading}=N')}, which rounds them to N digits")
    return f"{told}: use COUNT, MIN or MAX"


def blocks_of(result: TextIO, width: int) -> Iterator[tuple[int, Sequence[Sequence[str]]]]:
    """Yields the columns of a result after its heading, many rows at a time, each with the number
    of the line before it."""
    from csv import reader
    from ._csv.reader import CHARACTERS_AT_ONCE, columns_of
    from ._csv.dialect import NUL
    before, text = 1, ""
    while True:
        text = result.read(CHARACTERS_AT_ONCE)
        text += result.readline()
        columns = None if QUOTE in text or NUL in text else columns_of([text], ",", width)
        if not text or columns is None:
            break
        yield before, columns
        before += len(columns[0])
    # anything that bw doesn't write is left to the csv module
    records = reader(itertools.chain(io.StringIO(text, newline=""), result))
    first = before
    while True:
        rows = list(itertools.islice(records, RECORDS_AT_ONCE))
        if not rows:
            return
        odd = next((place for place, row in enumerate(rows) if len(row) != width), None)
        if odd is not None:
            raise Refused(f"line {before + odd + 1} of the result has "
                          f"{counted(len(rows[odd]), 'field')}, expected {width}")
        yield before, list(zip(*rows))
        before = first + records.line_num


def turn_back(columns: list[Column], result: TextIO, out: TextIO) -> None:
    """Translates a result, lines of CSV, back, and writes it as CSV. If its heading is rejected,
    nothing is written."""
    from csv import reader
    heading = next(reader(result), None)
    if heading is None:
        raise Refused("the result is empty")
    backs = [Back(each, columns) for each in heading]
    out.write(csv_lines([[quoted(back.heading)] for back in backs]))
    for before, block in blocks_of(result, len(backs)):
        out.write(csv_lines([back.texts(fields, lambda place: before + 1 + place) for back,
                             fields in zip(backs, block)]))

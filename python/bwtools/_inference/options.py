"""The options of the programs, and what they say of a column."""
from __future__ import annotations

import argparse
from dataclasses import dataclass, replace
from typing import Any, Optional, Sequence

from .._csv.dialect import NO_QUOTE, SEPARATORS
from .._errors import Refused, shown


# The options of the programs, and what the arguments of the command line give.

# options that stand alone, or with =COLUMN, and what the latter are for the parser: it would take a
# name after the former for the column
OF_COLUMN = {"--drop-blanks": "--blanks-dropped", "--keep-blanks": "--blanks-kept"}

RAW = "the file to read, or - for standard input; gzip, bzip2, xz and zip are unpacked"


def one_character(text: str) -> str:
    """Returns one character, or the name of a separator."""
    if len(SEPARATORS.get(text, text)) != 1 or text in "\r\n":
        raise argparse.ArgumentTypeError("must be one character")
    return text


def quotation_mark(text: str) -> str:
    """Returns a quotation mark, or none."""
    return NO_QUOTE if text == "none" else one_character(text)


def names_in(text: str) -> list[str]:
    """Returns headings that are separated by commas, as a record of CSV."""
    import csv
    return next(csv.reader([text], strict=True), [])


def number_of(text: str) -> int:
    """Returns a number of lines, rows or processes."""
    if not text.isdecimal() or not text.isascii() or len(text) > 18:
        raise argparse.ArgumentTypeError("must be a number")
    return int(text)


class Format(argparse.Action):
    """Collects the values COLUMN=FORMAT of an option that can be repeated."""

    def __call__(self, parser: argparse.ArgumentParser, namespace: argparse.Namespace, values: Any,
                 option_string: str | None = None) -> None:
        column, sign, form = values.rpartition("=")
        if not sign or not form:
            parser.error(f"{option_string}: expected COLUMN=FORMAT, such as day=%d/%m/%Y")
        setattr(namespace, self.dest, {**getattr(namespace, self.dest), column: form})


class Digits(argparse.Action):
    """Collects the values COLUMN=N of an option that can be repeated."""

    def __call__(self, parser: argparse.ArgumentParser, namespace: argparse.Namespace, values: Any,
                 option_string: str | None = None) -> None:
        column, sign, digits = values.rpartition("=")
        if not sign or not digits.isdecimal() or not digits.isascii() or int(digits) > 18:
            parser.error(f"{option_string}: expected COLUMN=N, such as price=2, with N up to 18")
        setattr(namespace, self.dest, {**getattr(namespace, self.dest), column: int(digits)})


def add_options(parser: argparse.ArgumentParser) -> None:
    """Adds the options for reading a file."""
    add_form(parser)
    add_meaning(parser)


def add_form(parser: argparse.ArgumentParser) -> None:
    """Adds the options that say how a file is written."""
    parser.add_argument("--separator", type=one_character,
                        help="the separator of fields: comma, semicolon, tab, bar, space (any run "
                             "of blanks) or a character (default: chosen by the first rows)")
    parser.add_argument("--encoding", help="the encoding, such as cp1252 or latin-1 (default: by "
                                           "the byte order mark, or UTF-8)")
    parser.add_argument("--quote", type=quotation_mark, default='"',
                        help='the quotation mark around a field, or none (default: ")')
    parser.add_argument("--escape", type=one_character,
                        help="the character that escapes the next one (default: none)")
    parser.add_argument("--skip", metavar="N", type=number_of, default=0,
                        help="skip N lines at the beginning, such as a title")
    parser.add_argument("--comment", metavar="SIGN", default="",
                        help="skip lines that begin with this sign, such as #")
    parser.add_argument("--lenient", action="store_true",
                        help="read text after the quotation mark that ends a field as a part of "
                             "it, and a field whose quotation mark doesn't end")
    parser.add_argument("--columns", metavar="A,B", type=names_in, action="extend",
                        help="read only the columns of these headings; can be repeated")
    parser.add_argument("--fill", action="store_true",
                        help="add empty fields to rows that have fewer than the heading")
    parser.add_argument("--widen", action="store_true",
                        help="add empty fields to the heading, and to all rows, for rows that have "
                             "more")
    parser.add_argument("--row-names", action="store_true",
                        help="rows begin with a name that the heading lacks, as R writes them")
    parser.add_argument("--trailing-separators", action="store_true",
                        help="drop an empty field at the end of rows that the heading lacks")
    heading = parser.add_mutually_exclusive_group()
    heading.add_argument("--heading", action="store_true", default=None,
                         help="the first line is a heading, whatever it looks like")
    heading.add_argument("--no-heading", action="store_false", dest="heading",
                         help="the first line is a row; the columns are c1, c2 and so on")


def add_meaning(parser: argparse.ArgumentParser) -> None:
    """Adds the options that say what fields mean."""
    parser.add_argument("--null", metavar="[COLUMN=]WORD", action="append", default=[],
                        help="a word for null in a column, or in every one, texts too; this and "
                             "the next options can be repeated")
    parser.add_argument("--text", metavar="COLUMN", action="append", default=[],
                        help="a column to load as texts, by its heading")
    parser.add_argument("--number", metavar="COLUMN", action="append", default=[],
                        help="a column to load as numbers, also with leading zeros, or with a "
                             "comma as the decimal sign")
    parser.add_argument("--date", metavar="COLUMN=FORMAT", action=Format, default={},
                        help="the format of a column's dates or times, of %%d, %%m, %%b, %%B, %%Y "
                             "and %%y, and %%H, %%I, %%p, %%M and %%S, with .%%f for parts of "
                             "seconds and %%z for a zone at the end, which becomes UTC")
    parser.add_argument("--digits", metavar="COLUMN=N", action=Digits, default={},
                        help="round a column's numbers to N digits after the point, at most 18")
    parser.add_argument("--thousands", metavar="SIGN", type=one_character,
                        help="the sign between thousands, such as . in 1.234,50 (default: decided "
                             "by the columns)")
    blanks = parser.add_mutually_exclusive_group()
    blanks.add_argument("--drop-blanks", action="store_true",
                        help="drop blanks around texts, even if two texts become one; those of one "
                             "column with --drop-blanks=COLUMN")
    blanks.add_argument("--keep-blanks", action="store_true",
                        help="keep blanks around texts; those of one column with "
                             "--keep-blanks=COLUMN")
    for name in OF_COLUMN.values():
        parser.add_argument(name, action="append", default=[], help=argparse.SUPPRESS)
    parser.add_argument("--keep-spelling", action="store_true",
                        help="load a column as texts if a field of it wouldn't be restored "
                             "exactly, such as 2.0 beside 1.25")


def parsed(parser: argparse.ArgumentParser, words: Sequence[str]) -> argparse.Namespace:
    """Returns what arguments of the command line give. Those after `--` are names, even if they
    begin as options do."""
    at = words.index("--") if "--" in words else len(words)
    before = list(map(of_column, words[:at]))
    if at == len(words):
        return parser.parse_intermixed_args(before)
    # argparse takes a name that begins so for an option, even after `--`
    names = {f"\0{place}": name for place, name in enumerate(words[at + 1:])}
    given = parser.parse_intermixed_args([*before, *names])
    for each, value in vars(given).items():
        if isinstance(value, str):
            setattr(given, each, names.get(value, value))
        elif isinstance(value, list):
            setattr(given, each, [names.get(part, part) for part in value])
    return given


def of_column(word: str) -> str:
    """Returns an argument as the parser takes it."""
    name, sign, column = word.partition("=")
    return f"{OF_COLUMN[name]}={column}" if sign and name in OF_COLUMN else word


# What the options ask for: for all columns of a file, and for each.

# words that are null in a column of numbers, dates, times or booleans
NULLS = ("NULL", "null", "NA", "N/A", "-")


@dataclass(frozen=True)
class Rules:
    """What mostly holds for all columns of a file: its separator, the sign between thousands if it
    is named, whether a column must come back exactly, and whether blanks around texts are kept, or
    dropped, or neither is said."""
    separator: str = ","
    thousands: Optional[str] = None
    keeps_spelling: bool = False
    keeps_blanks: bool = False
    drops_blanks: bool = False


@dataclass(frozen=True)
class ColumnOptions:
    """What holds for one column: its heading; whether it is one of texts, or of numbers; the format
    of its dates; to how many digits its numbers are rounded; and the words that are null in it,
    whatever it is."""
    heading: str
    rules: Rules = Rules()
    is_text: bool = False
    is_number: bool = False
    form: Optional[str] = None
    digits: Optional[int] = None
    nulls: tuple[str, ...] = ("",)

    @property
    def words(self) -> tuple[str, ...]:
        """The words that are null in a column of anything but texts."""
        return tuple(dict.fromkeys((*self.nulls, *(() if self.is_text else NULLS))))


def rules_of(given: argparse.Namespace, separator: str) -> Rules:
    return Rules(separator, given.thousands, given.keep_spelling, given.keep_blanks,
                 given.drop_blanks)


# options that name columns, and the arguments that have these
NAMING = {"--text": "text", "--number": "number", "--date": "date", "--digits": "digits",
          "--keep-blanks": "blanks_kept", "--drop-blanks": "blanks_dropped"}


def column_options(given: argparse.Namespace, headings: list[str],
              separator: str) -> list[ColumnOptions]:
    """Returns what is asked for each column. Rejects options that name none, or contradict each
    other."""
    known = set(headings)
    for option, name in NAMING.items():
        unknown = [each for each in getattr(given, name) if each not in known]
        if unknown:
            raise Refused(f"{option}: no column has the heading {shown(unknown[0])}; "
                          f"there are {', '.join(map(shown, headings))}")
    general, nulls = nulls_of(given, known)
    found = []
    for heading in headings:
        is_text, is_number = heading in given.text, heading in given.number
        if is_text and (is_number or heading in given.date or
                        heading in given.digits) or is_number and heading in given.date:
            raise Refused(f"column {shown(heading)} can't be of two kinds: give one of --text, "
                          "--number, --date and --digits for it")
        words = tuple(dict.fromkeys(("", *general, *nulls.get(heading, []))))
        rules = rules_for(given, separator, heading)
        found.append(ColumnOptions(heading, rules, is_text, is_number, given.date.get(heading),
                                   given.digits.get(heading), words))
    return found


def rules_for(given: argparse.Namespace, separator: str, heading: str) -> Rules:
    """Returns the rules for a column: what names it comes before what holds for all."""
    rules = rules_of(given, separator)
    keeps, drops = heading in given.blanks_kept, heading in given.blanks_dropped
    if keeps and drops:
        raise Refused(f"column {shown(heading)} can't have its blanks both kept and dropped: give "
                      "one of --keep-blanks and --drop-blanks for it")
    return replace(rules, keeps_blanks=keeps, drops_blanks=drops) if keeps or drops else rules


def nulls_of(given: argparse.Namespace, known: set[str]) -> tuple[list[str], dict[str, list[str]]]:
    """Returns the words that are null in all columns, and those of each."""
    nulls: dict[str, list[str]] = {}
    for word in given.null:
        column, sign, own = heading_of(word, known)
        if sign and column not in known:
            raise Refused(f"--null {word}: no column has the heading {shown(column)}")
        nulls.setdefault(column if sign else "", []).append(own if sign else word)
    return nulls.pop("", []) if "" not in known else [], nulls


def heading_of(word: str, known: set[str]) -> tuple[str, str, str]:
    """Returns the column, a sign and the word of COLUMN=WORD. Returns no sign for only a word."""
    places = [place for place, character in enumerate(word) if character == "="]
    for place in places:
        if word[:place] in known:
            return word[:place], "=", word[place + 1:]
    return word.partition("=") if places and word[0] != "=" else (word, "", "")

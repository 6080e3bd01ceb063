"""Loads a CSV file of texts, decimals, dates and times as a table for bw-ask.

    bw-import trips.csv trips.bw
    bw-ask trips.bw "SELECT city FROM trips WHERE day >= '2024-05-01'"

Each column gets the narrowest kind that fits all its fields; a report shows
them. Whole numbers stay as they are, decimals are multiplied by a power of
ten, and floats are kept in the order of doubles. Dates are days since
1970-01-01, times are counted since then, and times of day since midnight.
False and true are 0 and 1. All else is texts: places in a list sorted by code
points. docs/CSV.md has a table of what is dropped, guessed and refused.

What can't be decided is refused, with the options to type: a date of two
readings, a sign that may separate thousands, numbers among which some fields
are words. An empty field is null; in a column of numbers, dates, times or
booleans so are NULL, null, NA, N/A and -. Nulls come back as empty fields.

RAW.csv may be compressed by gzip, bzip2, xz or zip. A file past the limits of
a table (16,777,216 rows, or 1 GiB) becomes a folder of shards, as with
--shards; bw-ask takes a folder as it takes a file.

TABLE.bw.columns says what the numbers mean, and to which table file it
belongs. Both are replaced together: whenever an import is stopped, the old
pair is there or the new one."""
from __future__ import annotations

import argparse
import sys

from .. import _errors
from .._inference import options
from ..loader import importing
from .options import add_import, new_parser

NAME = "bw-import"


def work(given: argparse.Namespace) -> None:
    if given.verify:
        importing.verify(given.csv)
    elif given.dry_run:
        importing.dry_run(given)
    else:
        importing.import_file(given, given.table, given.shards is not None)


def parser_of() -> argparse.ArgumentParser:
    """Returns the parser of the command line."""
    parser = new_parser(NAME, str(__doc__))
    add_import(parser)
    return parser


def main() -> int:
    parser = parser_of()
    given = options.parsed(parser, sys.argv[1:])
    if not given.table and not given.dry_run and not given.verify or given.table and given.verify:
        parser.error("expected RAW.csv and TABLE.bw, or RAW.csv and --dry-run, or TABLE.bw and "
                     "--verify")
    return _errors.status_of(NAME, lambda: work(given))

"""Translates a result of bw back to the values that its numbers stand for.

    bw query trips.bw 'SELECT * FROM trips' | bw-from-numbers trips.bw.columns

COLUMNS is the file that bw-import wrote beside a table, which is then
compared, or that bw-to-numbers wrote beside OUT.csv: then make sure yourself
that the result is of a table of that OUT.csv. The result is read from standard
input, and written to standard output as CSV in UTF-8 with the original
headings. A heading names the column of the numbers below it, also in MIN, MAX
and SUM. A sum of decimals becomes a decimal, and one of true and false a
number; a sum of floats, dates, times or texts is rejected. A null becomes an
empty field."""
from __future__ import annotations

import argparse
import contextlib
import io
import os
import sys

from .. import _errors
from .._inference import options
from .._output import turn_back
from .._storage import catalog
from .._storage.columns_file import Store, open_regular
from .options import new_parser

NAME = "bw-from-numbers"


def work(given: argparse.Namespace) -> None:
    _errors.write_utf8()
    answer = io.TextIOWrapper(sys.stdin.buffer if sys.stdin else io.BytesIO(), encoding="utf-8",
                              newline="")
    with contextlib.closing(Store(given.columns)) as found:
        table = given.columns.removesuffix(".columns")
        if found.files and os.path.exists(table) and table != given.columns:
            with open_regular(table) as file:
                if not catalog.is_of(found.files[0], file):
                    raise catalog.foreign(given.columns, table)
        turn_back(found.columns, answer, sys.stdout)
        catalog.refuse_changed(found.watched)


def parser_of() -> argparse.ArgumentParser:
    """Returns the parser of the command line."""
    parser = new_parser(NAME, str(__doc__))
    parser.add_argument("columns", metavar="COLUMNS",
                        help="the columns file, which says what the numbers mean")
    return parser


def main() -> int:
    parser = parser_of()
    given = options.parsed(parser, sys.argv[1:])
    return _errors.status_of(NAME, lambda: work(given))

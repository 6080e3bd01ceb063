"""Translates a CSV file of texts, decimals, dates and times to whole numbers.

    bw-to-numbers trips.csv trips.numbers.csv
    bw infer --table trips trips.numbers.csv > trips.schema
    bw load trips.schema trips.numbers.csv trips.bw
    bw query trips.bw 'SELECT * FROM trips' |
        bw-from-numbers trips.numbers.columns

bw-import does that and loads it. This program also writes OUT.columns beside
OUT.csv, which says what the numbers mean; bw-from-numbers reads it. It prints
the kind of each column; bw-import --help has the rules."""
from __future__ import annotations

import argparse
import pathlib
import sys

from .. import _errors
from .._csv.file import path_of
from .._inference import options
from .._storage import atomic, columns_file
from ..loader.table import Table, write_numbers
from .options import new_parser

NAME = "bw-to-numbers"


def work(given: argparse.Namespace) -> None:
    out = pathlib.Path(given.out)
    stem = out.name.removesuffix(".csv") or out.name
    columns = out.with_name(f"{stem}.columns")
    for path in (out, columns):
        atomic.refuse_target(path, [path_of(given.csv)])
    with atomic.new_folder(out) as folder:
        table = Table(given.csv, given, folder)
        write_numbers(table, folder, folder / "numbers.csv")
        columns_file.write(folder / "columns", table.columns)
        atomic.put(folder, [(folder / "columns", columns), (folder / "numbers.csv", out)])
    # last, since its reader may stop early, as head does
    table.report()
    print(f"{out} and {columns} are written")


def parser_of() -> argparse.ArgumentParser:
    """Returns the parser of the command line."""
    parser = new_parser(NAME, str(__doc__))
    parser.add_argument("csv", metavar="IN.csv", help=options.RAW)
    parser.add_argument("out", metavar="OUT.csv", help="the file of whole numbers to write")
    options.add_options(parser)
    return parser


def main() -> int:
    parser = parser_of()
    given = options.parsed(parser, sys.argv[1:])
    return _errors.status_of(NAME, lambda: work(given))

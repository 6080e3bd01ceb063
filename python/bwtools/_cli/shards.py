"""Loads a CSV file of any length as several tables, and queries them as one.

    bw-shards load trips.csv trips
    bw-shards ask trips "SELECT city FROM trips WHERE day >= '2024-05-01'"
    bw-shards ask trips < statements.sql

`load` has the options of bw-import. The kind of a column depends on the whole
file, so a text has the same number in each shard. FOLDER gets the shards and
one columns file, which names them by size, time and SHA-256. The folder is
written at the end, or not at all. If FOLDER exists, it must be one of shards;
it is then replaced.

`ask` has the options of bw-ask, which takes FOLDER too: rows are in the file's
order, and counts, sums and groups are those of all rows. If a shard is
missing, has changed, or is rejected by bw, the whole query fails. With
--scheduler, the workers of Dask's distributed scheduler query the shards; they
must have FOLDER at the same path. If a worker dies, its shard is run again."""
from __future__ import annotations

import argparse
import sys

from .._errors import status_of
from .._inference import options
from .._storage.catalog import name_of
from ..loader import importing
from .asking import ask
from .options import add_asking, add_loading, new_parser, options_of

NAME = "bw-shards"


def load(given: argparse.Namespace) -> None:
    importing.refuse_rows(given.rows)
    if given.dry_run:
        importing.dry_run(given)
    else:
        importing.import_file(given, given.folder, True)


def parser_of(command_name: str) -> argparse.ArgumentParser:
    """Returns the parser of `load` or `ask`."""
    add, what = (add_loading, "Splits a CSV file, and loads it as several tables.") \
        if command_name == "load" else (add_asking, "Queries all shards as one table.")
    parser = new_parser(f"{NAME} {command_name}", f"{what}\n\n{__doc__}")
    add(parser)
    return parser


def main() -> int:
    words = new_parser(NAME, str(__doc__))
    words.add_argument("command", choices=["load", "ask"],
                       help=f"what to do; see {NAME} load --help and {NAME} ask --help")
    name = words.parse_args(sys.argv[1:2]).command
    parser = parser_of(name)
    given = options.parsed(parser, sys.argv[2:])
    if name == "load" and not given.folder and not given.dry_run:
        parser.error("expected FOLDER or --dry-run")
    return status_of(NAME, lambda: load(given) if name == "load" else ask(options_of(given), [
        (name_of(given.folder), given.folder)], given.statement, given.scheduler))

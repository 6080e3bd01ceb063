"""What the programs' command lines share, and their names and options."""
from __future__ import annotations

from typing import TYPE_CHECKING

from .. import __version__
from .._output import FORMATS

if TYPE_CHECKING:
    import argparse

COLUMNAR = ("write files by columns, of which bw reads only the columns that a statement needs "
            "(default)")
BY_ROWS = "write table files instead, which older versions read, too"


def new_parser(name: str, text: str, usage: str | None = None) -> argparse.ArgumentParser:
    """Returns the parser of a program's command line, or of one of its commands."""
    import argparse
    parser = argparse.ArgumentParser(prog=name, description=text, usage=usage,
                                     formatter_class=argparse.RawDescriptionHelpFormatter)
    parser.add_argument("--version", action="version", version=f"{name} {__version__}",
                        help="print the version")
    return parser


class AnswerOptions:
    """What the options say: the format, if one was named; whether numbers lose their signs; whether
    it is told which way served an answer; whether bw's statistics are printed; and whether SQLite
    may get any number of rows."""

    def __init__(self, form: str | None = None, is_plain: bool = False, is_told: bool = False,
                 has_stats: bool = False, is_all: bool = False) -> None:
        self.form, self.is_plain, self.is_told = form, is_plain, is_told
        self.has_stats, self.is_all = has_stats, is_all


def options_of(given: argparse.Namespace) -> AnswerOptions:
    """Returns what the options of a command line say."""
    return AnswerOptions(given.form, given.plain, given.show, given.stats, given.all)


def add_options(parser: argparse.ArgumentParser) -> None:
    """Adds the options."""
    parser.add_argument("--format", choices=FORMATS, dest="form",
                        help="how answers are printed (default: table at a terminal, else csv)")
    parser.add_argument("--plain", action="store_true",
                        help="print numbers without the signs that they have in the file, such as "
                             "$ or the sign between thousands")
    parser.add_argument("--show", action="store_true",
                        help="print which way serves an answer, and the statements that bw runs, "
                             "to standard error")
    parser.add_argument("--stats", action="store_true",
                        help="print bw's scan statistics to standard error")
    parser.add_argument("--all", action="store_true",
                        help="let SQLite compute over more than 4 million listed rows")


def add_asking(parser: argparse.ArgumentParser) -> None:
    """Adds what a command has that queries a folder of shards."""
    parser.add_argument("folder", metavar="FOLDER", help="the folder that load wrote")
    parser.add_argument("statement", metavar="SQL", nargs="?",
                        help="the statement (default: statements from standard input)")
    parser.add_argument("--scheduler", metavar="ADDRESS",
                        help="a Dask scheduler whose workers query the shards, such as "
                             "tcp://127.0.0.1:8786 (default: a session of bw for each shard, side "
                             "by side)")
    add_options(parser)


def add_order(parser: argparse.ArgumentParser) -> None:
    """Adds the two orders in which a program may write its files."""
    orders = parser.add_mutually_exclusive_group()
    orders.add_argument("--columnar", action="store_true", help=COLUMNAR)
    orders.add_argument("--by-rows", action="store_true", help=BY_ROWS)


def add_loading(parser: argparse.ArgumentParser) -> None:
    """Adds what a command has that loads a folder of shards."""
    from ..loader import importing
    from .._inference import options
    parser.add_argument("csv", metavar="RAW.csv", help=options.RAW)
    parser.add_argument("folder", metavar="FOLDER", nargs="?",
                        help="the folder to write (optional with --dry-run)")
    parser.add_argument("--rows", metavar="N", type=options.number_of,
                        help="the most rows of a shard")
    parser.add_argument("--shards", metavar="N", type=importing.number_of_shards, default="auto",
                        help="how many shards; auto, the default: one for each processor, if there "
                             "are a million rows")
    parser.add_argument("--table", metavar="NAME", dest="name",
                        help="the tables' name (default: that of FOLDER)")
    add_order(parser)
    parser.add_argument("--dry-run", action="store_true",
                        help="print the kind of each column, and write nothing")
    options.add_options(parser)


def add_import(parser: argparse.ArgumentParser) -> None:
    """Adds what the program has that imports a table."""
    from ..loader import importing
    from .._inference import options
    parser.add_argument("csv", metavar="RAW.csv", help=options.RAW)
    parser.add_argument("table", metavar="TABLE.bw", nargs="?",
                        help="the table file to write (optional with --dry-run)")
    parser.add_argument("--table", metavar="NAME", dest="name",
                        help="the table's name (default: that of TABLE.bw)")
    parser.add_argument("--shards", metavar="N", type=importing.number_of_shards,
                        help="write a folder of N shards; auto: one for each processor, if there "
                             "are a million rows")
    add_order(parser)
    parser.add_argument("--dry-run", action="store_true",
                        help="print the kind of each column, and write nothing")
    parser.add_argument("--verify", action="store_true",
                        help="read all of TABLE.bw, which is the only name then, and of its "
                             "columns file, and say if it is whole")
    options.add_options(parser)

"""Answers questions in SQL about tables that bw-import wrote.

    bw-ask trips.bw "SELECT city, COUNT(*) FROM trips GROUP BY city"
    bw-ask trips.bw stations.bw "SELECT ... FROM trips JOIN stations ..."
    bw-ask trips.bw < statements.sql
    bw-ask trips.bw

The last word is the statement, unless it names a file or a folder, or is
NAME=FILE. A table has the name of its file or folder, or NAME; a statement
that calls its only table by one name throughout may call it anything.

Any SELECT of SQLite is answered: by proved scans of bw, or else by SQLite over
the columns that bw lists for it. docs/SQL.md draws the border, and has where
answers differ from SQLite's. A column is named by its name, or by its heading
in quotes, as "unit price". A literal is a text in single quotes, such as
'Boston' or '2024-05-01 12:30:00', a number, such as 12.50, or TRUE or FALSE.

Without a statement, those on standard input are run one after another; each
ends with a semicolon or the end of the input. Each answer is followed by an
empty line and flushed; a rejected statement has the empty line alone, and
doesn't end the run. The status is that of the first rejected one. At a
terminal there is a prompt; type .help there.

TABLE.columns beside the table says what its numbers mean. If it belongs to
another table, nothing is asked. bw is the program of the environment variable
BW, else `bw` on the PATH, else the one that this program came with."""
from __future__ import annotations

import sys
from typing import TYPE_CHECKING

from .. import _errors
from .asking import ask, split
from .options import AnswerOptions, add_options, new_parser, options_of

if TYPE_CHECKING:
    import argparse

NAME = "bw-ask"


def parser_of() -> argparse.ArgumentParser:
    """Returns the parser of the command line."""
    parser = new_parser(NAME, str(__doc__), f"{NAME} [OPTIONS] TABLE.bw... [SQL]")
    add_options(parser)
    parser.add_argument("words", metavar="TABLE.bw... [SQL]", nargs="+",
                        help="table files, or folders of shards, that bw-import wrote, each also "
                             "as NAME=FILE; then the statement (default: statements from standard "
                             "input)")
    return parser


def main() -> int:
    words, answering = sys.argv[1:], AnswerOptions()
    if not words or any(word.startswith("-") for word in words):
        # argparse takes as long as a small question: so it isn't imported if there is no option
        from .._inference.options import parsed
        given = parsed(parser_of(), words)
        words, answering = given.words, options_of(given)
    return _errors.status_of(NAME, lambda: ask(answering, *split(words)))

#!/usr/bin/env python3
"""Times bw beside other programs, on one machine in one run. Run it by hand on an idle machine.

bench/bench.py WHAT [--runs N] [--rows N] [--folder FOLDER] times one thing; WHAT --help says which,
and beside what. The CSV files, table files and databases are made once in FOLDER, a new one by
default. BW is the program bw (default: the one that ./bw runs). It stops if answers differ, and
skips programs that aren't installed. Each table begins with its date, commit, processor and load.
"""
from __future__ import annotations

import argparse
import pathlib
import sys
import tempfile

sys.dont_write_bytecode = True
import ask  # noqa: E402
import cliffs  # noqa: E402
import compare  # noqa: E402
import imports  # noqa: E402
import instructions  # noqa: E402
import lengths  # noqa: E402
import load  # noqa: E402
import memory  # noqa: E402
import ranges  # noqa: E402
import selectivity  # noqa: E402
import session  # noqa: E402
import shards  # noqa: E402
import skips  # noqa: E402
import start  # noqa: E402

COMMANDS = {"compare": compare, "session": session, "selectivity": selectivity, "cliffs": cliffs,
            "skips": skips, "ranges": ranges, "load": load, "import": imports, "shards": shards,
            "ask": ask, "memory": memory, "lengths": lengths, "start": start,
            "instructions": instructions}


def parser() -> argparse.ArgumentParser:
    """Returns the parser of the command line."""
    made = argparse.ArgumentParser(description=__doc__,
                                   formatter_class=argparse.RawDescriptionHelpFormatter)
    parts = made.add_subparsers(dest="what", required=True, metavar="WHAT")
    for name, module in COMMANDS.items():
        told = module.__doc__ or ""
        part = parts.add_parser(name, help=" ".join(told.split("\n\n")[0].split()),
                                description=told,
                                formatter_class=argparse.RawDescriptionHelpFormatter)
        part.add_argument("--runs", type=int, default=module.RUNS, metavar="N",
                          help="runs of each call (default: %(default)s)")
        part.add_argument("--rows", type=int, default=module.ROWS, metavar="N",
                          help="rows of the table (default: %(default)s)")
        part.add_argument("--folder", type=pathlib.Path, help="a folder for files that are kept")
        module.add_options(part)
        part.set_defaults(measure=module.measure)
    return made


def main() -> None:
    words = parser()
    given = words.parse_args()
    if given.runs < 1 or given.rows < 512:
        words.error("expected at least one run, and 512 rows")
    given.folder = (given.folder or pathlib.Path(tempfile.mkdtemp(prefix="bench-"))).resolve()
    given.folder.mkdir(parents=True, exist_ok=True)
    given.measure(given)


if __name__ == "__main__":
    main()

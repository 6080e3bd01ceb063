"""Counts the instructions that a session takes for each segment of a table, in both layouts. They
don't depend on what else the machine does, so small differences between two programs show.

It needs valgrind, and takes a minute for each program. Sessions over tables of 500 and 1,000
segments answer each query once and eleven times. The difference shows the instructions of a query,
and that of both tables the instructions of a segment: planning, checking and writing the result are
left out."""
from __future__ import annotations

import argparse
import pathlib
import re
import subprocess
import sys
from typing import Dict, Iterator, List, Sequence

from data import LAYOUTS, QUESTIONS, bw_program, tables_of_rows
from timing import Words, show

RUNS, ROWS = 10, 512_000


def add_options(parser: argparse.ArgumentParser) -> None:
    """Adds the programs that are compared."""
    parser.add_argument("programs", nargs="*", metavar="BW", help="programs bw, a column each")


def count(bw: str, table: pathlib.Path, statement: str, times: int) -> int:
    """Returns how many instructions a session executes that answers a statement some times."""
    words: Words = ["valgrind", "--tool=callgrind", "--callgrind-out-file=/dev/null", bw,
                    "session", table]
    done = subprocess.run(list(words), input=f"{statement};\n" * times, capture_output=True,
                          text=True, check=True)
    told = re.search(r"Collected : (\d+)", done.stderr)
    if not told:
        sys.exit(f"valgrind printed no count: {done.stderr}")
    return int(told.group(1))


def count_by_segment(bw: str, tables: Sequence[pathlib.Path], statement: str, runs: int,
                     segments: int) -> float:
    """Returns how many instructions a query executes for each segment, by tables of both sizes."""
    few, many = ((count(bw, table, statement, 1 + runs) - count(bw, table, statement, 1)) / runs
                 for table in tables)
    return (many - few) / segments


def measure(given: argparse.Namespace) -> None:
    """Prints the table."""
    programs: List[str] = given.programs or [bw_program()]
    half = given.rows // 1024
    made: List[Dict[str, pathlib.Path]] = [
        tables_of_rows(programs[0], given.folder, 512 * segments) for segments in (half, 2 * half)]

    def lines() -> Iterator[Sequence[str]]:
        for question in QUESTIONS:
            yield [question.shown, *(
                f"{count_by_segment(bw, tables, f'SELECT {question.asked}', given.runs, half):,.0f}"
                for layout in LAYOUTS for bw in programs
                for tables in [[each[layout] for each in made]])]
    show("Instructions a segment", ["Query", *(f"{layout}, {bw}" for layout in LAYOUTS
                                               for bw in programs)], lines())

"""Times calls of bw on a table of one segment, beside `true`, which does nothing: starting the
program, planning and checking the statement, and reading a file of some kilobytes."""
from __future__ import annotations

import argparse
import statistics
from typing import Dict, List

from data import QUESTIONS, bw_program, tables_of_rows
from timing import Words, run, show

RUNS, ROWS = 200, 512


def add_options(_parser: argparse.ArgumentParser) -> None:
    """Adds no options."""


def measure(given: argparse.Namespace) -> None:
    """Prints the table."""
    bw = bw_program()
    table = tables_of_rows(bw, given.folder, given.rows)["planes"]
    calls: Dict[str, Words] = {"`true`": ["true"]}
    calls.update({each.shown: [bw, "query", table, f"SELECT {each.asked}"] for each in QUESTIONS})
    times: Dict[str, List[float]] = {name: [] for name in calls}
    for _ in range(given.runs):
        for name, words in calls.items():
            times[name].append(run(words).wall)
    show(f"Calls over {given.rows} rows, ms, {given.runs} runs", ["Call", "minimum", "median"],
         ([name, f"{min(taken):.2f}", f"{statistics.median(taken):.2f}"]
          for name, taken in times.items()))

"""Prints the peak memory of bw's commands over the four columns, and of a session.

The peak is that of the whole process, as the system counts it (`ru_maxrss`). `./check` tests
bounds; this shows the figures."""
from __future__ import annotations

import argparse
import pathlib
from typing import Dict, Iterator, Sequence

from data import bw_program, four_columns, schema_file, tables_of_rows, written
from session import Session
from timing import Words, peak_of, run, show

RUNS, ROWS = 1, 1_000_000


def add_options(_parser: argparse.ArgumentParser) -> None:
    """Adds no options."""


def calls_of(bw: str, folder: pathlib.Path, rows: int) -> Dict[str, Words]:
    """Returns the calls, by name."""
    csv, schema = four_columns(folder, rows), schema_file(folder)
    table = tables_of_rows(bw, folder, rows)["planes"]
    count, every = "SELECT COUNT(*) FROM m", "SELECT * FROM m"
    few = f"{count} WHERE a < 8"
    many = f"{count} WHERE c IN ({', '.join(str(number * 7919 % 10**6) for number in range(300))})"
    program = written(folder / "few.prog", run([bw, "plan", schema, few]).text + "\n")
    return {
        "load, planes": [bw, "load", schema, csv, folder / "loaded.bw"],
        "load, slices": [bw, "load", "--layout", "slices", schema, csv, folder / "loaded.bw"],
        "infer": [bw, "infer", csv],
        "direct, `COUNT(*)`": [bw, "direct", schema, csv, count],
        "direct, `SELECT *`": [bw, "direct", schema, csv, every],
        "query, `COUNT(*)`": [bw, "query", table, count],
        "query, `a < 8`": [bw, "query", table, few],
        "query, list of 300": [bw, "query", table, many],
        "query, `SELECT *`": [bw, "query", table, every],
        "dump": [bw, "dump", table],
        "info": [bw, "info", table],
        "plan, `a < 8`": [bw, "plan", schema, few],
        "check, `a < 8`": [bw, "check", schema, few, program],
    }


def measure(given: argparse.Namespace) -> None:
    """Prints the table."""
    bw, tables = bw_program(), tables_of_rows(bw_program(), given.folder, given.rows)

    def lines() -> Iterator[Sequence[str]]:
        for name, words in calls_of(bw, given.folder, given.rows).items():
            yield [name, peak_of(words)]
        for layout, table in tables.items():
            session = Session(bw, table)
            session.ask("SELECT COUNT(*) FROM m WHERE a < 8")
            yield [f"session, {layout}, `a < 8`", f"{session.peak():.1f}"]
            session.end()
    csv = four_columns(given.folder, given.rows).stat().st_size / 1e6
    sizes = ", ".join(f"{table.stat().st_size / 1e6:.1f} as {layout}"
                      for layout, table in tables.items())
    show(f"Peak memory, {given.rows:,} rows: {csv:.1f} MB of CSV, {sizes}", ["Call", "MB"], lines())

"""Times `bw-shards load` of a CSV of whole numbers, 26 bytes a row, as one shard and as four,
beside `bw load`, and a question with groups over each."""
from __future__ import annotations

import argparse
import pathlib
import random
import shutil
import sys
from typing import Dict, Iterator, Sequence

from data import bw_program, complete, write_csv, written
from timing import TOP, Run, Words, agree, run, show

RUNS, ROWS = 3, 4_000_000
TOOLS = TOP / "python" / "bin"
SQL = "SELECT g, COUNT(*), SUM(c) FROM readings WHERE b < 50000 GROUP BY g ORDER BY g"


def add_options(_parser: argparse.ArgumentParser) -> None:
    """Adds no options."""


def rows_of(rows: int) -> Iterator[Sequence[object]]:
    """Yields the rows: an identity, a group of twenty, a number, and one with nulls."""
    draw = random.Random(5).random
    for number in range(rows):
        yield (number, int(draw() * 20), int(draw() * 100_000),
               "" if draw() < 0.1 else int(draw() * 1_000_000))


def measure(given: argparse.Namespace) -> None:
    """Prints the tables."""
    bw, folder = bw_program(), given.folder
    raw = complete(folder / f"readings-{given.rows}.csv", lambda path: write_csv(
        path, ["id", "g", "b", "c"], rows_of(given.rows)))
    schema = written(folder / "readings.schema", run([bw, "infer", raw]).output.decode())
    table = folder / "readings.bw"
    loads: Dict[str, Words] = {"`bw load`": [bw, "load", schema, raw, folder / "loaded.bw"],
                               "`bw-import`": [TOOLS / "bw-import", raw, table]}
    asks: Dict[str, Words] = {"one table": [TOOLS / "bw-ask", table, SQL]}
    for count in (1, 4):
        shards = folder / f"readings-{count}"
        loads[f"`bw-shards load --shards {count}`"] = [
            sys.executable, TOOLS / "bw-shards", "load", raw, shards, "--shards", str(count)]
        asks[f"{count} shards"] = [TOOLS / "bw-ask", f"readings={shards}", SQL]
    found = timed(loads, given.runs, folder)
    size = raw.stat().st_size / 1e6
    show(f"Loads of {given.rows:,} rows, {size:.0f} MB; minimum of {given.runs}",
         ["Call", "seconds", "processor seconds", "MB a second"],
         ([name, f"{each.wall / 1000:.2f}", f"{each.processor / 1000:.2f}",
           f"{size / each.wall * 1000:.0f}"] for name, each in found.items()))
    found = timed(asks, given.runs, folder)
    agree(SQL, [each.text for each in found.values()])
    show("`bw-ask`, twenty groups with COUNT and SUM, whole processes",
         ["Asked of", "ms", "processor ms"],
         ([name, f"{each.wall:,.0f}", f"{each.processor:,.0f}"] for name, each in found.items()))


def timed(calls: Dict[str, Words], runs: int, folder: pathlib.Path) -> Dict[str, Run]:
    """Runs calls in turn; a folder of shards is made anew in the last run alone."""
    found: Dict[str, Run] = {}
    for _ in range(runs):
        for name, words in calls.items():
            if "bw-shards" in name:
                shutil.rmtree(folder / f"readings-{words[-1]}", ignore_errors=True)
            found[name] = run(words).best(found.get(name))
    return found

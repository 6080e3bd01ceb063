"""Times `bw load`, `bw query`, `bw dump` and `bw direct` over the four columns, and loads of tables
of 1, 4 and 30 columns.

A count without condition is compared with dd, which only reads the same file, and `bw direct` with
mawk. MB per second are of the CSV or the table file that is read, or of the text that a dump or a
listing of half of the rows writes. --reader PROGRAM also times a program that only reads the CSV
of 1, 4 and 30 columns; crates/bench is one that counts records by the csv crate alone."""
from __future__ import annotations

import argparse
import pathlib
import random
import shutil
from typing import Dict, Iterator, List, Sequence, Tuple

from data import (bw_program, complete, four_columns, schema_file, tables_of_rows, write_csv,
                  written)
from timing import Run, Words, peak_of, run, run_in_turn, show

RUNS, ROWS = 5, 10_000_000
FOUR = [(0, 255), (-10, 10), (0, 1_000_000), (0, 4_294_967_295)]
# the bounds of the columns of other tables, and how many rows these have
TABLES = [([(0, 1_000_000)], 2_000_000), (FOUR, 1_000_000),
          ([*FOUR, (0, 1), (0, 99_999)] * 5, 150_000)]


def add_options(parser: argparse.ArgumentParser) -> None:
    """Adds the options of this comparison."""
    parser.add_argument("--reader", metavar="PROGRAM", help="what only reads the CSV")


def measure(given: argparse.Namespace) -> None:
    """Prints the tables."""
    bw = bw_program()
    calls, sizes = calls_of(bw, given.folder, given.rows)
    found = run_in_turn(calls, given.runs, keep=False)
    show(f"Calls over four columns, {given.rows:,} rows; minimum of {given.runs}",
         ["Call", "ms", "MB a second", "peak MB"],
         ([name, f"{each.wall:,.1f}", f"{sizes[name] / each.wall / 1000:,.0f}",
           peak_of(calls[name])] for name, each in found.items()))
    show(f"Loads, ms; minimum of {given.runs}",
         ["Columns, rows, MB of CSV", *(["reader alone"] if given.reader else []), "load, planes",
          "load, slices", "direct, `COUNT(*)`", "direct, `WHERE c1 < 8`"],
         loads(bw, given))


def calls_of(bw: str, folder: pathlib.Path, rows: int
             ) -> Tuple[Dict[str, Words], Dict[str, int]]:
    """Returns the calls over the four columns, by name, and the bytes that each reads or writes."""
    csv, schema, half = four_columns(folder, rows), schema_file(folder), "SELECT * FROM m WHERE c <"
    count = "SELECT COUNT(*) FROM m"
    calls: Dict[str, Words] = {
        "direct, `COUNT(*)`": [bw, "direct", schema, csv, count],
        "direct, `COUNT(*) WHERE a < 8`": [bw, "direct", schema, csv, f"{count} WHERE a < 8"]}
    if shutil.which("mawk"):
        calls["mawk, the same count"] = ["mawk", "-F,", "NR > 1 && $1 < 8 { n++ } END { print n }",
                                         csv]
    sizes = dict.fromkeys(calls, csv.stat().st_size)
    for layout, table in tables_of_rows(bw, folder, rows).items():
        size = table.stat().st_size
        load: Words = [bw, "load", "--layout", layout, schema, csv, folder / "loaded.bw"]
        dd: Words = ["dd", f"if={table}", "of=/dev/null", "bs=64K", "status=none"]
        whole: Words = [bw, "query", table, count]
        part: Words = [bw, "query", table, f"{count} WHERE a < 8"]
        dump: Words = [bw, "dump", table]
        listed: Words = [bw, "query", table, f"{half} 500000"]
        for name, words, read in (("load", load, csv.stat().st_size), ("dd", dd, size),
                                  ("`COUNT(*)`", whole, size),
                                  ("`COUNT(*) WHERE a < 8`", part, size), ("dump", dump, 0),
                                  ("`SELECT *` of half", listed, 0)):
            calls[f"{layout}: {name}"] = words
            sizes[f"{layout}: {name}"] = read or len(run(words).output)
    return calls, sizes


def loads(bw: str, given: argparse.Namespace) -> Iterator[Sequence[str]]:
    """Yields the line of each table of 1, 4 and 30 columns."""
    for bounds, rows in TABLES:
        names = [f"c{number}" for number in range(1, len(bounds) + 1)]
        draw = random.Random(7)

        def drawn(bounds: List[Tuple[int, int]] = bounds, draw: random.Random = draw) -> List[str]:
            return ["" if len(bounds) > 1 and draw.random() < 0.03
                    else f"{low + int(draw.random() * (high - low + 1))}" for low, high in bounds]
        csv = complete(given.folder / f"{len(bounds)}-columns.csv", lambda path: write_csv(
            path, names, (drawn() for _ in range(rows))))
        schema = written(given.folder / f"{len(bounds)}-columns.schema", "TABLE m\n" + "".join(
            f"COLUMN {name} {low} {high}\n" for name, (low, high) in zip(names, bounds)))
        calls: Dict[str, Words] = {"reader": [given.reader, csv]} if given.reader else {}
        for layout in ("planes", "slices"):
            calls[layout] = [bw, "load", "--layout", layout, schema, csv,
                             given.folder / "loaded.bw"]
        for where in ("", " WHERE c1 < 8"):
            calls[f"direct{where}"] = [bw, "direct", schema, csv, f"SELECT COUNT(*) FROM m{where}"]
        found: Dict[str, Run] = run_in_turn(calls, 3 * given.runs, keep=False)
        yield [f"{len(bounds)}, {rows:,}, {csv.stat().st_size / 1e6:.1f}",
               *(f"{each.wall:.0f}" for each in found.values())]

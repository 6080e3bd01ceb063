"""Shows what skips save in a session: loads of planes and bytes, and times, by a program without
skips, by the planner's program with its parts as they are written, and by the one that the session
chooses.

Column `t` is sorted, `k` comes in runs of 4,096 rows, and `a`, `b` and `c` are random. The program
without skips is the planner's without its SKIP lines, and without the lines of its certificate that
state skips and joins; `bw check` accepts it.

With --cliffs it takes the conditions and tables of `cliffs`, of a million rows by default, leaves
out those that the fallback runs, and compares the program as it is written with the one that the
session chooses. It prints the conditions whose loads differ, and the one that became slowest."""
from __future__ import annotations

import argparse
import pathlib
import random
import re
import subprocess
import sys
from typing import Dict, Iterator, List, Sequence, Tuple

import cliffs
from data import LAYOUTS, bw_program, complete, table_files, write_csv, written
from session import Session
from timing import Word, agree, least, show

RUNS, ROWS = 30, 5_000_000
SCHEMA = ("TABLE m\nCOLUMN t 0 99999999 NOT NULL\nCOLUMN k 0 999 NOT NULL\nCOLUMN a 0 255 NOT "
          "NULL\nCOLUMN b 0 99999 NOT NULL\nCOLUMN c 0 999999 NOT NULL\n")
# sorted, clustered, selective parts first and last, and nothing to skip
CONDITIONS = [
    "t BETWEEN 2000000 AND 2100000",
    "t BETWEEN 2000000 AND 2100000 AND a < 8 AND c < 1000",
    "a < 128 AND c < 500000 AND t BETWEEN 2000000 AND 2100000",
    "k = 7 AND b < 50000 AND c < 500000",
    "b < 50000 AND c < 500000 AND k = 7",
    "b = 77 AND a < 128 AND c < 500000",
    "a < 128 AND c < 500000 AND b = 77",
    "a < 128 AND b < 50000 AND c < 500000",
]


def add_options(parser: argparse.ArgumentParser) -> None:
    """Adds the options of this comparison."""
    parser.add_argument("--cliffs", action="store_true", help="the conditions of cliffs")


def rows_of(rows: int) -> Iterator[Sequence[int]]:
    """Yields the rows of the table."""
    draw, k = random.Random(5).random, 0
    for number in range(rows):
        if number % 4096 == 0:
            k = int(draw() * 1000)
        yield number, k, int(draw() * 256), int(draw() * 100_000), int(draw() * 1_000_000)


def without_skips(program: str) -> str:
    """Returns a program file without its skips, and without the lines of its certificate that state
    skips, joins and what is kept."""
    return "".join(line for line in program.splitlines(keepends=True)
                   if not re.match(r"(SKIP|JOIN|KEEP)\b", line))


def loads_of(bw: str, table: pathlib.Path, statement: str, files: Sequence[pathlib.Path]) -> int:
    """Returns the loads that --stats reports of a statement."""
    words: List[Word] = [bw, "session", "--stats", table]
    for file in files:
        words += ["--program", file]
    told = subprocess.run(words, input=statement, capture_output=True, text=True, check=True).stderr
    served = re.search(r"served (\w+).*loads (\d+)", told)
    if not served or served.group(1) != "program":
        sys.exit(f"{statement}: {told}")
    return int(served.group(2))


def time_of(bw: str, table: pathlib.Path, statement: str, files: Sequence[pathlib.Path],
            runs: int) -> Tuple[int, float, str]:
    """Returns the loads, the least time in a session in milliseconds, and the result."""
    session = Session(bw, table, files)
    taken, answer = least(lambda: session.ask(statement), runs)
    session.end()
    return loads_of(bw, table, statement, files), taken, answer


def plan_of(bw: str, schema: pathlib.Path, statement: str) -> str:
    """Returns the planner's program file of a statement, or nothing if it has none."""
    planned = subprocess.run([bw, "plan", schema, statement], capture_output=True, text=True,
                             check=False)
    return "" if planned.returncode else planned.stdout


def measure(given: argparse.Namespace) -> None:
    """Prints the table."""
    bw, folder = bw_program(), given.folder
    if given.cliffs:
        compare_cliffs(bw, folder, min(given.rows, 1_000_000), given.runs)
        return
    csv = complete(folder / f"skips-{given.rows}.csv",
                   lambda path: write_csv(path, "tkabc", rows_of(given.rows)))
    schema = written(folder / "skips.schema", SCHEMA)
    tables = table_files(bw, schema, csv)

    def lines() -> Iterator[Sequence[str]]:
        for condition in CONDITIONS:
            statement = f"SELECT COUNT(*) FROM m WHERE {condition}"
            program = plan_of(bw, schema, statement)
            skipping = written(folder / "skipping.prog", program)
            plain = written(folder / "plain.prog", without_skips(program))
            subprocess.run([bw, "check", schema, statement, plain], stdout=subprocess.DEVNULL,
                           check=True)
            cells, answers = [f"`{condition}`"], []
            for layout in LAYOUTS:
                for files in (plain,), (skipping,), ():
                    loads, taken, answer = time_of(bw, tables[layout], statement, files, given.runs)
                    cells += [f"{loads / 1000:,.0f}", f"{taken:.2f}"]
                    answers.append(answer)
            agree(statement, answers)
            yield cells
    show(f"Skips, {given.rows:,} rows; minimum of {given.runs}",
         ["Condition", *(head for layout in LAYOUTS
                         for what in ("no skips", "as written", "as chosen")
                         for head in (f"{layout}, {what}: 1,000 loads", "ms"))], lines())


def compare_cliffs(bw: str, folder: pathlib.Path, rows: int, runs: int) -> None:
    """Prints the conditions of `cliffs` for which the session chooses another program than the
    planner's as they are written, and of all of them the one that takes longest beside it."""
    ratios: Dict[str, float] = {}

    def lines() -> Iterator[Sequence[str]]:
        for group in cliffs.groups():
            schema, csv, _ = cliffs.files_of(folder, group, rows)
            tables = table_files(bw, schema, csv)
            for what, condition, _ in group.conditions:
                statement = f"SELECT COUNT(*) FROM t WHERE {condition}"
                program = plan_of(bw, schema, statement)
                files: List[pathlib.Path] = [written(folder / "written.prog", program)]
                for layout in LAYOUTS if program else ():
                    loads, taken, answer = time_of(bw, tables[layout], statement, files, runs)
                    others, quicker, other = time_of(bw, tables[layout], statement, [], runs)
                    agree(statement, [answer, other])
                    ratios[f"{what}, {layout}: {taken:.2f} and {quicker:.2f} ms"] = quicker / taken
                    if loads != others:
                        yield [what, layout, f"{loads / 1000:,.0f}", f"{others / 1000:,.0f}",
                               f"{taken:.2f}", f"{quicker:.2f}"]
    show(f"Parts in another order, {rows:,} rows", ["Condition", "layout",
                                                    "1,000 loads, as written", "as chosen",
                                                    "ms, as written", "as chosen"], lines())
    slowest = max(ratios, key=lambda what: ratios[what])
    print(f"{len(ratios)} pairs. The slowest beside its program as written: {slowest}, "
          f"{ratios[slowest]:.2f} times.\n")

"""Times statements in sessions over a file by columns, which keep the least and the greatest value
in each group of 2,048 rows of columns whose groups differ, beside sessions over a table file, which
keep none.

Column s is sorted, d are days in order, and k comes in runs of 4,096 rows that begin anywhere; n is
s with nulls. Columns r and a are random, so no ranges are kept of them. In each run the sessions
are started anew, read all columns, and take turns. Each statement is asked with numbers that the
session never had, and then once more, and so for other numbers; all sessions get the same ones, and
must answer alike. The share of segments is shown that ranges settle, so that a session doesn't scan
them, as --stats reports it. Then follow the time from the start of a session to its first answer,
which needs all columns, and its peak memory. --beside PROGRAM compares with another build of bw
over the same file by columns, instead of by rows."""
from __future__ import annotations

import argparse
import math
import pathlib
import random
import re
import subprocess
from functools import partial
from typing import Callable, Dict, Iterable, Iterator, List, NamedTuple, Optional, Sequence, Tuple

from data import LAYOUTS, bw_program, complete, table_files, write_csv, written
from session import Session, first_answer
from timing import agree, least, show

RUNS, ROWS = 15, 10_000_000
# with how many numbers each statement is asked
NUMBERS = 4
SEGMENT, RUN, SORTED, RANDOM = 512, 4096, 1 << 24, 1 << 20
# multiples of it are far apart, without their whole parts
GOLDEN = (5 ** 0.5 - 1) / 2
# 2000 to 2009, in days from 1970 on
FIRST_DAY, DAYS = 10_957, 3653
SCHEMA = (f"TABLE m\nCOLUMN s 0 {SORTED - 1} NOT NULL\n"
          f"COLUMN d {FIRST_DAY} {FIRST_DAY + DAYS - 1} NOT NULL\nCOLUMN k 0 999 NOT NULL\n"
          f"COLUMN n 0 {SORTED - 1}\nCOLUMN r 0 {RANDOM - 1} NOT NULL\nCOLUMN a 0 255 NOT NULL\n")
ALL = f"SELECT {', '.join(f'MAX({name})' for name in 'sdknra')} FROM m"
# how many sessions are started for a first answer
FEW = 3
# a layout, and the name of a side
Key = Tuple[str, str]
# the least times of each statement, first and again, in milliseconds
Times = Dict[Key, Dict[str, List[float]]]


class Side(NamedTuple):
    """A program, and the table that its sessions are over, by layout."""

    bw: str
    tables: Dict[str, pathlib.Path]


class Question(NamedTuple):
    """What a table shows of a statement, and its condition with other numbers each time."""

    shown: str
    condition: Callable[[int], str]


def share(name: str, size: int, part: float, least_number: int = 0) -> Callable[[int], str]:
    """Returns what makes a BETWEEN that a part of a column's numbers fulfil, elsewhere each
    time."""
    many = round(size * part)

    def condition(number: int) -> str:
        low = least_number + int((number + 1) * GOLDEN % 1 * (size - many))
        return f"{name} BETWEEN {low} AND {low + many - 1}"
    return condition


def below(number: int) -> str:
    """Returns a comparison of `a` that needs all of its bits."""
    return f"a < {2 * number + 9}"


S = share("s", SORTED, 0.01)
QUESTIONS = [
    Question("s BETWEEN .., 1 %", S),
    Question("s BETWEEN .., 0.01 %", share("s", SORTED, 0.0001)),
    Question("n BETWEEN .., 1 %, with nulls", share("n", SORTED, 0.01)),
    Question("d BETWEEN .., 1 %", share("d", DAYS, 0.01, FIRST_DAY)),
    Question("s BETWEEN .., 1 %, AND a < ..", lambda number: f"{S(number)} AND {below(number)}"),
    Question("s BETWEEN .. OR s BETWEEN .., 1 % each",
             lambda number: f"{S(number)} OR {S(number + NUMBERS)}"),
    Question("k = .., 0.1 %", lambda number: f"k = {37 * number + 11}"),
    Question("r BETWEEN .., 1 %", share("r", RANDOM, 0.01)),
    Question("a < ..", below),
    Question("", lambda number: ""),
]


def add_options(parser: argparse.ArgumentParser) -> None:
    """Adds the options of this comparison."""
    parser.add_argument("--beside", metavar="PROGRAM", help="beside another build of bw")


def rows_of(rows: int) -> Iterator[Sequence[Optional[int]]]:
    """Yields the rows of the table."""
    draw, k = random.Random(11).random, 0
    for number in range(rows):
        if (number + RUN // 3) % RUN == 0:
            k = int(draw() * 1000)
        s = number * SORTED // rows
        yield (s, FIRST_DAY + number * DAYS // rows, k, None if draw() < 0.05 else s,
               int(draw() * RANDOM), int(draw() * 256))


def statement_of(question: Question, number: int) -> str:
    """Returns the statement of a question."""
    condition = question.condition(number)
    return f"SELECT COUNT(*) FROM m{condition and f' WHERE {condition}'}"


def settled_by(side: Side, statement: str) -> int:
    """Returns how many segments --stats reports to be settled by ranges."""
    done = subprocess.run([side.bw, "session", "--stats", side.tables[LAYOUTS[0]]],
                          input=statement, capture_output=True, text=True, check=True)
    return sum(map(int, re.findall(r"\bsettled (\d+)", done.stderr)))


def add_times(found: Times, sessions: Dict[Key, Session], keys: Iterable[Key]) -> None:
    """Asks all statements of sessions in this order, and keeps the least times."""
    for question in QUESTIONS:
        for number in range(NUMBERS):
            statement, answers = statement_of(question, number), []
            for key in keys:
                times = found[key].setdefault(statement, [math.inf, math.inf])
                for again in (0, 1):
                    taken, answer = least(partial(sessions[key].ask, statement), 1)
                    times[again] = min(times[again], taken)
                    answers.append(answer)
            agree(statement, answers)


def least_times(sides: Dict[str, Side], runs: int) -> Tuple[Times, Dict[Key, float]]:
    """Returns the least times, and the peak memory of the sessions. Every other time they are asked
    in the opposite order."""
    keys = [(layout, name) for layout in LAYOUTS for name in sides]
    found: Times = {key: {} for key in keys}
    peaks = dict.fromkeys(keys, 0.)
    for run in range(runs):
        sessions = {key: Session(sides[key[1]].bw, sides[key[1]].tables[key[0]]) for key in keys}
        agree(ALL, [session.ask(ALL) for session in sessions.values()])
        add_times(found, sessions, keys[::1 if run % 2 else -1])
        for key, session in sessions.items():
            peaks[key] = max(peaks[key], session.peak())
            session.end()
    return found, peaks


def sides_of(given: argparse.Namespace) -> Dict[str, Side]:
    """Returns what is compared, by its name: ranges first."""
    bw, folder, rows = bw_program(), given.folder, given.rows
    csv = complete(folder / f"ranges-{rows}.csv",
                   lambda path: write_csv(path, "sdknra", rows_of(rows)))
    schema = written(folder / "ranges.schema", SCHEMA)
    by_columns = table_files(bw, schema, csv, "--columnar")
    if given.beside:
        return {"by columns": Side(bw, by_columns), "other build": Side(given.beside, by_columns)}
    return {"by columns": Side(bw, by_columns), "by rows": Side(bw, table_files(bw, schema, csv))}


def measure(given: argparse.Namespace) -> None:
    """Prints the tables."""
    sides = sides_of(given)
    found, peaks = least_times(sides, given.runs)

    def lines() -> Iterator[Sequence[str]]:
        for question in QUESTIONS:
            asked = [statement_of(question, number) for number in range(NUMBERS)]
            settled = sum(settled_by(sides["by columns"], statement) for statement in asked)
            yield [f"`COUNT(*){question.shown and f' WHERE {question.shown}'}`",
                   f"{100 * settled * SEGMENT / given.rows / NUMBERS:.1f}",
                   *(f"{sum(times[sql][again] for sql in asked) / NUMBERS:.2f}"
                     for times in found.values() for again in (0, 1))]
    show(f"Sessions with and without ranges, ms, {given.rows:,} rows; the mean of {NUMBERS} "
         f"statements, each the minimum of {given.runs}",
         ["Statement", "settled, %", *(f"{layout}, {name}, {when}" for layout, name in found
                                       for when in ("first", "again"))], lines())
    show_starts(sides, peaks)


def show_starts(sides: Dict[str, Side], peaks: Dict[Key, float]) -> None:
    """Prints the times to the first answer of all columns, and the peak memory of the sessions."""
    def lines() -> Iterator[Sequence[str]]:
        for layout in LAYOUTS:
            cells: List[str] = [layout]
            for name, side in sides.items():
                taken, _ = least(partial(first_answer, side.bw, side.tables[layout], ALL), FEW)
                cells += [f"{taken:.0f}", f"{peaks[layout, name]:.1f}"]
            yield cells
    show(f"The first answer, of all columns; minimum of {FEW}",
         ["Layout", *(head for name in sides for head in (f"{name}, ms", f"{name}, peak MB"))],
         lines())

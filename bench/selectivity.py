"""Times a count and a sum in a session by the share of rows that the condition selects, in both
layouts, beside sqlite3 and, where it is installed, numpy.

Column c is drawn from 0 to 1,000,000, so `c < n` selects n of a million rows."""
from __future__ import annotations

import argparse
from functools import partial
from typing import Dict, Iterator, List, Sequence

from data import bw_program, in_memory, tables_of_rows
from session import Session, fetch, text_of
from timing import agree, least, show

RUNS, ROWS = 15, 5_000_000
SHARES = [0.00001, 0.0001, 0.001, 0.01, 0.1, 0.5, 1.0]
ITEMS = {"COUNT(*)": "count", "SUM(d)": "sum"}


def add_options(parser: argparse.ArgumentParser) -> None:
    """Adds the options of this comparison."""


def measure(given: argparse.Namespace) -> None:
    """Prints the table."""
    bw, memory = bw_program(), in_memory(given.folder, given.rows)
    tables = tables_of_rows(bw, given.folder, given.rows)
    sessions = {layout: Session(bw, table) for layout, table in tables.items()}
    names = [f"{what}, {where}" for what in ITEMS.values() for where in (*sessions, "sqlite3")]
    curves: Dict[str, List[float]] = {name: [] for name in names}

    def lines() -> Iterator[Sequence[str]]:
        for share in SHARES:
            for item, what in ITEMS.items():
                sql = f"SELECT {item} FROM m WHERE c < {round(share * 1_000_000)}"
                answers = []
                for layout, session in sessions.items():
                    taken, answer = least(partial(session.ask, sql), given.runs)
                    curves[f"{what}, {layout}"].append(taken * 1e6 / given.rows)
                    answers.append(answer.split("\n")[-1])
                taken, rows = least(partial(fetch, memory, sql), 3)
                curves[f"{what}, sqlite3"].append(taken * 1e6 / given.rows)
                agree(sql, [*answers, text_of(rows)])
            yield [f"{share:g}", *(f"{curves[name][-1]:.3f}" for name in names)]
    show(f"Nanoseconds a row by the share selected, {given.rows:,} rows; minimum of {given.runs}",
         ["Share", *names], lines())
    for session in sessions.values():
        session.end()

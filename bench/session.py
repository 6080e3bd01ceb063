"""Times statements in a running session beside C over the same columns in memory, `bw query`,
sqlite3, numpy and ClickHouse.

The time of a statement in a session is from sending it to having read its whole result; that of
bench/memory.c, sqlite3 and numpy is a call within the process that has the rows in memory. That of
ClickHouse is an HTTP call of a server with one thread and the rows in memory. `bw query` is a whole
process. Figures of sqlite3, numpy and ClickHouse are the minimum of three. Then follow the time
from the start of a session to its first result, its peak memory, and a count over tables of 1, 8
and 32 columns."""
from __future__ import annotations

import argparse
import os
import pathlib
import shutil
import sqlite3
import subprocess
import sys
from functools import partial
from typing import Dict, Iterator, List, Optional, Sequence, Tuple

from clickhouse import in_clickhouse
from data import (LAYOUTS, QUESTIONS, WIDE_ROWS, bw_program, compiled, four_columns, in_memory,
                  tables_of_rows, wide_tables)
from timing import TOP, Word, Words, agree, least, run, show, text_of_call

RUNS, ROWS = 15, 10_000_000
FEW, ROUNDS = 3, 6
# the numbers of columns of the wide tables
WIDTHS = [1, 8, 32]
# what a session may take beside C, in times and milliseconds
TARGET = (1.3, 0.15)
# the time of a statement, and the lines of its result below the heading
Timed = Tuple[float, str]


class Session:
    """A run of `bw session` over a table, with program files."""

    def __init__(self, bw: str, table: pathlib.Path, files: Sequence[pathlib.Path] = ()) -> None:
        words: List[Word] = [bw, "session", table]
        for file in files:
            words += ["--program", file]
        self.process = subprocess.Popen(words, stdin=subprocess.PIPE,
                                        stdout=subprocess.PIPE, bufsize=0)
        assert self.process.stdin and self.process.stdout
        self.input, self.output = self.process.stdin, self.process.stdout

    def ask(self, statement: str) -> str:
        """Returns a statement's result, without the empty line after it."""
        try:
            self.input.write(statement.encode() + b";\n")
        except BrokenPipeError:
            sys.exit(f"the session ended before {statement}")
        parts: List[bytes] = []
        end = b""
        # a rejected statement has only the empty line
        while not end.endswith(b"\n\n"):
            part = os.read(self.output.fileno(), 1 << 20)
            if not part or not parts and part == b"\n":
                sys.exit(f"the session returned no result for {statement}")
            parts.append(part)
            end = (end + part)[-2:]
        return b"".join(parts).decode().strip()

    def peak(self) -> float:
        """Returns its peak memory so far, in MB."""
        status = pathlib.Path(f"/proc/{self.process.pid}/status").read_text(encoding="ascii")
        return next(int(line.split()[1]) for line in status.splitlines()
                    if line.startswith("VmHWM")) * 1024 / 1e6

    def end(self) -> None:
        """Ends it."""
        self.input.close()
        if self.process.wait():
            sys.exit(f"a session ended with status {self.process.returncode}")
        self.output.close()


def add_options(parser: argparse.ArgumentParser) -> None:
    """Adds the options of this comparison."""


def measure(given: argparse.Namespace) -> None:
    """Prints the tables."""
    folder, bw = given.folder, bw_program()
    tables = tables_of_rows(bw, folder, given.rows)
    found, peaks = {}, {}
    for layout, table in tables.items():
        found[layout], peaks[layout] = over_layout(bw, folder, table, given.runs)
    show_beside_c(found, given)
    others = other_programs(folder, given.rows)
    for question in QUESTIONS:
        answers = [found[layout][question.name][3].split("\n", 1)[-1] for layout in LAYOUTS]
        agree(question.asked, answers + [times[question.name][1] for times in others.values()])
    heads, figures = beside_others(found, others)
    show(f"Sessions beside other programs, ms, {given.rows:,} rows", ["Statement", *heads],
         ([name, *(f"{taken:,.2f}" for taken in times)] for name, times in figures))
    show_starts(bw, tables, peaks, given.runs)
    show_widths(bw, folder, given.runs)


def in_c(folder: pathlib.Path, table: pathlib.Path, runs: int) -> Dict[str, Timed]:
    """Returns the least time of each question in C over memory, and the results."""
    program, answers = compiled(folder, "memory", "-O3", "-march=x86-64-v2"), folder / "answers"
    answers.mkdir(exist_ok=True)
    told = subprocess.run([program, str(runs), table, answers], check=True, stderr=subprocess.PIPE,
                          text=True).stderr
    times = dict(line.split() for line in told.splitlines())
    return {each.name: (float(times[each.name]), (answers / each.name).read_text().strip())
            for each in QUESTIONS}


def over_layout(bw: str, folder: pathlib.Path, table: pathlib.Path, runs: int
                ) -> Tuple[Dict[str, Tuple[float, float, float, str]], float]:
    """Returns for each question the least times in a session, in C and of `bw query`, and the
    result; and the session's peak memory. All three take turns in rounds, so that other load on the
    machine is less likely to slow only one of them."""
    session, each = Session(bw, table), -(-runs // ROUNDS)
    found: Dict[str, Tuple[float, float, float, str]] = {}
    for _ in range(ROUNDS):
        c = in_c(folder, table, each)
        for question in QUESTIONS:
            sql = f"SELECT {question.asked}"
            ours, answer = least(partial(session.ask, sql), each)
            query, whole = least(partial(text_of_call, [bw, "query", table, sql]), each)
            theirs, other = c[question.name]
            agree(question.asked, [answer, other, whole])
            old = found.get(question.name, (ours, theirs, query, answer))
            found[question.name] = (min(ours, old[0]), min(theirs, old[1]), min(query, old[2]),
                                    answer)
    peak = session.peak()
    session.end()
    return found, peak


def show_beside_c(found: Dict[str, Dict[str, Tuple[float, float, float, str]]],
                  given: argparse.Namespace) -> None:
    """Prints the table of sessions beside C, and which statements miss the target."""
    slow: List[str] = []

    def lines() -> Iterator[Sequence[str]]:
        for question in QUESTIONS:
            cells = [question.shown]
            for layout in LAYOUTS:
                ours, c = found[layout][question.name][:2]
                cells += [f"{ours:.2f}", f"{c:.2f}", f"{ours / c:.2f}"]
                if ours > TARGET[0] * c + TARGET[1]:
                    slow.append(f"{question.shown} in {layout}")
            yield cells
    show(f"Sessions beside C over memory, ms, {given.rows:,} rows; minimum of {given.runs}",
         ["Statement", *(head for layout in LAYOUTS
                         for head in (f"session, {layout}", "C", "session / C"))], lines())
    print(f"Longer than {TARGET[0]} times C and {TARGET[1]} ms: {', '.join(slow) or 'none'}.\n")


def text_of(rows: Sequence[Sequence[object]]) -> str:
    """Returns the lines of a result below its heading, from rows of numbers and None."""
    return "\n".join(",".join("NULL" if value is None else str(value) for value in row)
                     for row in rows)


def fetch(database: sqlite3.Connection, sql: str) -> List[Sequence[object]]:
    """Returns sqlite3's answer."""
    return database.execute(sql).fetchall()


def in_sqlite(folder: pathlib.Path, rows: int) -> Dict[str, Timed]:
    """Returns the least time of each question in sqlite3 over a database in memory, and the
    results."""
    memory, found = in_memory(folder, rows), {}
    for question in QUESTIONS:
        sql = f"SELECT {question.asked}"
        taken, answer = least(partial(fetch, memory, sql), FEW)
        found[question.name] = taken, text_of(answer)
    return found


def in_numpy(folder: pathlib.Path, rows: int) -> Optional[Dict[str, Timed]]:
    """Returns the same in numpy, by a Python that has it."""
    for python in ("python3", "/usr/bin/python3"):
        if shutil.which(python) and not subprocess.run([python, "-c", "import numpy"],
                                                       capture_output=True, check=False).returncode:
            words: Words = [python, "-B", TOP / "bench" / "arrays.py", str(FEW),
                            four_columns(folder, rows), folder / f"arrays-{rows}"]
            parts = [answer.strip("\n").split("\n", 1) for answer in run(words).text.split("\n\n")]
            return {head.split()[0]: (float(head.split()[1]), text) for head, text in parts}
    return None


def other_programs(folder: pathlib.Path, rows: int) -> Dict[str, Dict[str, Timed]]:
    """Returns the times of the other programs that are installed, by name. Prints which ones are
    missing."""
    asked = [(each.name, each.asked) for each in QUESTIONS]
    others = {"sqlite3, :memory:": in_sqlite(folder, rows), "numpy": in_numpy(folder, rows),
              "ClickHouse, one thread": in_clickhouse(four_columns(folder, rows), asked, FEW)}
    for name, found in others.items():
        if not found:
            print(f"{name} isn't installed here.\n")
    return {name: found for name, found in others.items() if found}


def beside_others(found: Dict[str, Dict[str, Tuple[float, float, float, str]]],
                  others: Dict[str, Dict[str, Timed]]
                  ) -> Tuple[List[str], List[Tuple[str, List[Optional[float]]]]]:
    """Returns the names of the programs, and each question with the time of each program."""
    heads = [f"{what}, {layout}" for what in ("session", "bw query") for layout in LAYOUTS]
    figures = []
    for question in QUESTIONS:
        ours = [found[layout][question.name] for layout in LAYOUTS]
        times: List[Optional[float]] = [*(each[0] for each in ours), *(each[2] for each in ours)]
        times += [each[question.name][0] for each in others.values()]
        figures.append((question.shown, times))
    return heads + list(others), figures


def first_answer(bw: str, table: pathlib.Path, statement: str) -> str:
    """Returns the result of a session that is started for one statement."""
    session = Session(bw, table)
    answer = session.ask(statement)
    session.end()
    return answer


def show_starts(bw: str, tables: Dict[str, pathlib.Path], peaks: Dict[str, float],
                runs: int) -> None:
    """Prints the time to the first result beside a whole call, and peak memory beside the file."""
    statement = f"SELECT {QUESTIONS[0].asked}"

    def lines() -> Iterator[Sequence[str]]:
        for layout, table in tables.items():
            ours, answer = least(partial(first_answer, bw, table, statement), runs)
            whole, other = least(partial(text_of_call, [bw, "query", table, statement]), runs)
            agree(statement, [answer, other])
            yield [layout, f"{ours:.1f}", f"{whole:.1f}", f"{table.stat().st_size / 1e6:.1f}",
                   f"{peaks[layout]:.1f}"]
    show("The first result of a session", ["Layout", "session, ms", "bw query, ms", "file, MB",
                                           "session's peak, MB"], lines())


def show_widths(bw: str, folder: pathlib.Path, runs: int) -> None:
    """Prints the table of one count over tables of more and more columns. The sessions take turns,
    and each is asked ten times as often: so short a time takes more calls to find."""
    statement = "SELECT COUNT(*) FROM m WHERE a < 8"
    cells: Dict[int, List[str]] = {columns: [f"{columns}"] for columns in WIDTHS}
    tables = {columns: wide_tables(bw, folder, columns) for columns in WIDTHS}
    for layout in LAYOUTS:
        sessions = {columns: Session(bw, tables[columns][layout]) for columns in WIDTHS}
        found: Dict[int, Timed] = {}
        for _ in range(10 * ROUNDS):
            for columns, session in sessions.items():
                ours, answer = least(partial(session.ask, statement), -(-runs // ROUNDS))
                found[columns] = min(ours, found.get(columns, (ours,))[0]), answer
        for columns, session in sessions.items():
            session.end()
            words: Words = [bw, "query", tables[columns][layout], statement]
            whole, other = least(partial(text_of_call, words), runs)
            agree(statement, [found[columns][1], other])
            cells[columns] += [f"{found[columns][0]:.2f}", f"{whole:.1f}"]
    show(f"`COUNT(*) WHERE a < 8` over {WIDE_ROWS:,} rows, ms",
         ["Columns", *(head for layout in LAYOUTS
                       for head in (f"session, {layout}", "bw query"))], cells.values())

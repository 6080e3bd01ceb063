"""Times questions of whole SQL over tables that bw-import wrote, beside sqlite3 with the same rows
in a file, pandas with its rows in memory and DuckDB with its rows in a file.

pandas and DuckDB are skipped if this Python lacks them: run it by /usr/bin/python3 if Debian's
python3-pandas is installed. Each figure is the wall time in milliseconds and the processor's, of
this process and of bw's sessions, and the lesser of two runs or more. In a connection the table is
open, as in sqlite3 and in DuckDB; a whole process starts Python as well."""
from __future__ import annotations

import argparse
import csv
import datetime
import importlib
import os
import pathlib
import random
import resource
import sqlite3
import subprocess
import sys
import time
from typing import Any, Callable, Dict, Iterator, List, NamedTuple, Sequence, Tuple

from data import bw_program, complete
from timing import TOP, Words, agree, run, show

RUNS, ROWS = 2, 10_000_000
BIN, BLOCK, SHARDS = TOP / "python" / "bin", 500_000, 4
COUNT = "SELECT COUNT(*) FROM texts WHERE word = 'word 77'"
TOP_TEN = "SELECT word, COUNT(*) AS n FROM texts GROUP BY word ORDER BY n DESC, word LIMIT 10"
GROUPS = {size: f"SELECT {name}, COUNT(*), SUM(cents) FROM numbers GROUP BY {name}"
          for size, name in ((22, "g"), (256, "h"))}
# about a tenth of a million rows, by what only SQLite does
WAY_2 = "SELECT id % 7, AVG(length(word)) FROM texts WHERE id <= 100000 GROUP BY id % 7 ORDER BY 1"
# of a million rows, each beside sqlite3: a pivot has twelve sums
PIVOT = ", ".join(f"SUM(CASE WHEN cents / 8400 = {month} THEN cents ELSE 0 END) AS m{month}"
                  for month in range(12))
QUESTIONS = {
    "GROUP BY strftime('%H', at)":
        "SELECT strftime('%H', at), COUNT(*) FROM trips GROUP BY strftime('%H', at)",
    "GROUP BY strftime('%Y', at), SUM":
        "SELECT strftime('%Y', at), SUM(cents) FROM trips GROUP BY strftime('%Y', at)",
    "GROUP BY date(at)": "SELECT date(at), COUNT(*) FROM trips GROUP BY date(at)",
    "GROUP BY strftime('%Y-%m', day)":
        "SELECT strftime('%Y-%m', day), COUNT(*) FROM trips GROUP BY strftime('%Y-%m', day)",
    "GROUP BY ROUND(score, 1)": "SELECT ROUND(score, 1), COUNT(*) FROM trips GROUP BY 1",
    "GROUP BY id % 10": "SELECT id % 10, COUNT(*) FROM trips GROUP BY id % 10",
    "DISTINCT city, product": "SELECT DISTINCT city, product FROM trips",
    "GROUP BY customer, day":
        "SELECT customer, day, COUNT(*) FROM trips GROUP BY customer, day",
    "GROUP BY score": "SELECT score, COUNT(*) FROM trips GROUP BY score",
    "AVG(score)": "SELECT AVG(score) FROM trips",
    "12 SUM(CASE)": f"SELECT city, {PIVOT} FROM trips GROUP BY city",
    "LIMIT 10 OFFSET 900000": "SELECT id, city, cents FROM trips LIMIT 10 OFFSET 900000"}
# DuckDB gets what a CSV has, with its own guess of kinds
DUCK = "CREATE TABLE {name} AS SELECT * FROM read_csv_auto('{raw}', header = true)"
# of the columns that aren't whole numbers
TYPES = {"word": "TEXT", "note": "TEXT", "day": "TEXT", "at": "TEXT", "city": "TEXT",
         "product": "TEXT", "score": "REAL"}


class Figure(NamedTuple):
    """What a program took in seconds, and what it answered, if that is compared."""

    name: str
    wall: float
    processor: float
    answer: Any = None


def installed(name: str) -> Any:
    """Returns a module, or None."""
    try:
        return importlib.import_module(name)
    except ImportError:
        return None


def add_options(parser: argparse.ArgumentParser) -> None:
    """Adds the options of this comparison."""
    parser.add_argument("--texts", type=int, default=1_440_000, metavar="N",
                        help="rows with texts (default: %(default)s)")
    parser.add_argument("--only",
                        choices=["count", "top", "groups", "border", "way2", "questions"])
    parser.add_argument("--trips", type=int, default=1_000_000, metavar="N",
                        help="rows of the questions (default: %(default)s)")


def write_numbers(path: pathlib.Path, rows: int) -> None:
    """Writes drawn rows of whole numbers: a block of them, as often as needed."""
    chance = random.Random(5)
    block = [f"{chance.randrange(22)},{chance.randrange(256)},{chance.randrange(10001)},"
             f"{chance.randrange(240)}\n" for _ in range(min(rows, BLOCK))]
    with open(path, "w", encoding="ascii") as out:
        out.write("g,h,cents,minutes\n")
        for at in range(0, rows, BLOCK):
            out.writelines(block[:rows - at])


def write_texts(path: pathlib.Path, rows: int) -> None:
    """Writes drawn rows of texts: of 30,000 different words, and of notes, which have 10 MB in
    all."""
    chance = random.Random(6)
    notes = [f"note {place:06} of {chance.randrange(10 ** 12):013}, so" for place in range(300_000)]
    with open(path, "w", encoding="ascii") as out:
        out.write("id,word,note\n")
        for place in range(1, rows + 1):
            word = int(chance.random() ** 2 * 30_000)
            out.write(f'{place},word {word},"{chance.choice(notes)}"\n')


def write_trips(path: pathlib.Path, rows: int) -> None:
    """Writes drawn rows of texts, dates, times, floats and whole numbers."""
    chance, start = random.Random(7), datetime.datetime(2020, 1, 1)
    with open(path, "w", encoding="ascii") as out:
        out.write("id,customer,day,at,city,product,score,cents\n")
        for place in range(1, rows + 1):
            at = start + datetime.timedelta(seconds=chance.randrange(4 * 365 * 86400))
            day = start + datetime.timedelta(days=chance.randrange(1400))
            out.write(f"{place},{chance.randrange(50_000)},{day:%Y-%m-%d},{at},"
                      f"city {chance.randrange(300):03},product {chance.randrange(400):03},"
                      f"{chance.gauss(50, 20)!r},{chance.randrange(100_000)}\n")


def write_database(path: pathlib.Path, raw: pathlib.Path, name: str) -> None:
    """Writes a database of sqlite3 with the rows of a CSV."""
    path.unlink(missing_ok=True)
    with sqlite3.connect(path) as database, open(raw, encoding="utf-8", newline="") as file:
        records = csv.reader(file)
        columns = next(records)
        typed = ", ".join(f"{column} {TYPES.get(column, 'INTEGER')}" for column in columns)
        database.execute(f"CREATE TABLE {name} ({typed})")
        database.executemany(f"INSERT INTO {name} VALUES ({', '.join('?' * len(columns))})",
                             records)
    database.close()


def make(folder: pathlib.Path, name: str, write: Callable[[pathlib.Path, int], None],
         rows: int) -> None:
    """Makes the CSV, the table, the shards and the databases of sqlite3 and DuckDB that are
    missing."""
    raw = complete(folder / f"{name}.csv", lambda path: write(path, rows))
    table, shards = folder / f"{name}.bw", folder / name
    if not table.exists():
        run([sys.executable, BIN / "bw-import", raw, table], keep=False)
    if not shards.exists() and name == "numbers":
        run([sys.executable, BIN / "bw-shards", "load", "--shards", str(SHARDS), raw, shards],
            keep=False)
    complete(folder / f"{name}.db", lambda path: write_database(path, raw, name))
    duckdb = installed("duckdb")
    if duckdb and not (folder / f"{name}.duckdb").exists():
        with duckdb.connect(str(folder / f"{name}.duckdb")) as database:
            database.execute(DUCK.format(name=name, raw=raw))


def children() -> List[str]:
    """Returns the numbers of the processes that this one has started, which still run."""
    own = pathlib.Path(f"/proc/{os.getpid()}/task/{os.getpid()}/children")
    return own.read_text(encoding="ascii").split()


def ticks_of(process_number: str) -> int:
    """Returns the processor time of a process in ticks."""
    stat = pathlib.Path(f"/proc/{process_number}/stat")
    fields = stat.read_text(encoding="ascii").rsplit(")", 1)[1].split()
    return int(fields[11]) + int(fields[12])


class Clock:
    """The wall time and the processor's, of this process, of those that it has waited for, and of
    the sessions of connections."""

    def __init__(self, *connections: Any) -> None:
        self.connections = connections

    def now(self) -> Tuple[float, float]:
        """Returns both times."""
        own = [resource.getrusage(which)
               for which in (resource.RUSAGE_SELF, resource.RUSAGE_CHILDREN)]
        processor = sum(each.ru_utime + each.ru_stime for each in own)
        if self.connections:
            processor += sum(map(ticks_of, children())) / os.sysconf("SC_CLK_TCK")
        return time.perf_counter(), processor

    def time(self, name: str, work: Callable[[], Any], runs: int = RUNS) -> Figure:
        """Returns the least wall time and processor time of runs, and what they returned."""
        walls, processors, answers = [], [], []
        for _ in range(runs):
            wall, processor = self.now()
            answers.append(work())
            after = self.now()
            walls.append(after[0] - wall)
            processors.append(after[1] - processor)
        agree(name, answers)
        return Figure(name, min(walls), min(processors), answers[0])


def process(name: str, words: Words, runs: int, compared: bool = False) -> Figure:
    """Returns the figure of a whole process."""
    found = Clock().time(name, lambda: run(words).output, runs)
    return found if compared else found._replace(answer=None)


def answer(connection: Any, sql: str) -> Callable[[], Any]:
    """Returns the function that asks a connection."""
    return lambda: list(connection._database.answer(sql).rows())


def show_figures(title: str, figures: Sequence[Figure]) -> None:
    """Prints a table of figures, each with its ratio to the first one."""
    agree(title, [each.answer for each in figures if each.answer is not None] or [None])
    show(title, ["", "wall, ms", "processor, ms", "wall, times bw"],
         ([each.name, f"{each.wall * 1000:,.1f}", f"{each.processor * 1000:,.0f}",
           f"{each.wall / figures[0].wall:,.1f}"] for each in figures))


def time_count(folder: pathlib.Path, bw: str) -> None:
    """Times one COUNT by whole processes."""
    code = ("import sqlite3, sys\n"
            "print(sqlite3.connect(sys.argv[1]).execute(sys.argv[2]).fetchall())")
    plain = "SELECT COUNT(*) FROM texts WHERE word = 5"
    show_figures("One COUNT over texts, a whole process", [
        process("bw", [sys.executable, BIN / "bw-ask", folder / "texts.bw", COUNT], 5),
        process("Python's start alone", [sys.executable, "-c", ""], 5),
        process("bw query alone", [bw, "query", folder / "texts.bw", plain], 5),
        process("sqlite3", [sys.executable, "-c", code, folder / "texts.db", COUNT], 3)])


def others(folder: pathlib.Path, name: str, sql: str, by_pandas: Callable[[Any], Any]
           ) -> Iterator[Figure]:
    """Yields the figures of sqlite3, pandas and DuckDB."""
    clock, database = Clock(), sqlite3.connect(folder / f"{name}.db")
    yield clock.time("sqlite3", lambda: database.execute(sql).fetchall())
    pandas, duckdb = installed("pandas"), installed("duckdb")
    if pandas:
        frames: List[Any] = []
        read = clock.time("pandas, to get the rows into memory",
                          lambda: frames.append(pandas.read_csv(folder / f"{name}.csv")), 1)
        yield clock.time("pandas", lambda: by_pandas(frames[0]))
        yield read
    if duckdb:
        with duckdb.connect(str(folder / f"{name}.duckdb")) as connection:
            yield clock.time("DuckDB", lambda: [
                tuple(row) for row in connection.execute(sql).fetchall()])


def time_top_ten(folder: pathlib.Path) -> None:
    """Times the most frequent texts."""
    def by_pandas(frame: Any) -> List[Tuple[str, int]]:
        counts = frame["word"].value_counts()
        return sorted(((word, int(count)) for word, count in counts.items()),
                      key=lambda row: (-row[1], row[0]))[:10]
    with connect(folder / "texts.bw") as connection:
        clock = Clock(connection)
        first = clock.time("bw, first question", answer(connection, TOP_TEN), 1)
        figures = [clock.time("bw", answer(connection, TOP_TEN)), first]
    show_figures("Top ten of 30,000 texts",
                 figures + list(others(folder, "texts", TOP_TEN, by_pandas)))


def time_groups(folder: pathlib.Path) -> None:
    """Times few groups, in one file and in shards."""
    for size in GROUPS:
        time_groups_of(folder, size)


def time_groups_of(folder: pathlib.Path, size: int) -> None:
    """Times so many groups."""
    sql, name = GROUPS[size], "g" if size == 22 else "h"

    def by_pandas(frame: Any) -> List[Tuple[int, int, int]]:
        found = frame.groupby(name)["cents"].agg(["count", "sum"])
        return [(int(key), int(row["count"]), int(row["sum"])) for key, row in found.iterrows()]
    figures = []
    for label, path in (("bw", folder / "numbers.bw"), (f"bw, {SHARDS} shards",
                                                        folder / "numbers")):
        with connect(path) as connection:
            clock = Clock(connection)
            first = clock.time(f"{label}, first question", answer(connection, sql), 1)
            figures += [clock.time(label, answer(connection, sql), 3), first]
    show_figures(f"COUNT and SUM of {size} groups",
                 figures + list(others(folder, "numbers", sql, by_pandas)))


def time_border(folder: pathlib.Path) -> None:
    """Times groups by statements and by listed rows, for the border between few and many."""
    groups: Any = importlib.import_module("bwtools._sql.groups")
    border = groups.MOST_STATEMENTS

    def lines() -> Iterator[Sequence[str]]:
        for items in ("COUNT(*)", "COUNT(*), SUM(minutes)"):
            for column, where in (("g", ""), ("h", ""), ("cents", " WHERE cents < 1000")):
                sql = f"SELECT {column}, {items} FROM numbers{where} GROUP BY {column}"
                cells = [f"`{sql}`"]
                for groups.MOST_STATEMENTS in (10_000, 0):
                    found = clock.time(sql, answer(connection, sql), 1)
                    cells += [f"{found.wall * 1000:,.0f}", f"{found.processor * 1000:,.0f}"]
                groups.MOST_STATEMENTS = border
                yield cells
    with connect(folder / "numbers.bw") as connection:
        clock = Clock(connection)
        connection._database.answer("SELECT COUNT(*) FROM numbers")
        show("Groups by statements and by listed rows, ms",
             ["Question", "by statements", "processor", "by listed rows", "processor"], lines())


def time_way_2(folder: pathlib.Path) -> None:
    """Times a question that SQLite answers over listed rows, beside sqlite3's import and query."""
    def whole() -> List[Any]:
        database = sqlite3.connect(":memory:")
        with open(folder / "texts.csv", encoding="utf-8", newline="") as file:
            records = csv.reader(file)
            next(records)
            database.execute("CREATE TABLE texts (id INTEGER, word TEXT)")
            rows = ((record[0], record[1]) for record, _ in zip(records, range(100_000)))
            database.executemany("INSERT INTO texts VALUES (?, ?)", rows)
        return database.execute(WAY_2).fetchall()
    with connect(folder / "texts.bw") as connection:
        clock = Clock(connection)
        connection._database.answer("SELECT COUNT(*) FROM texts")
        first = clock.time("bw and SQLite, first time", answer(connection, WAY_2), 1)
        again = clock.time("bw", answer(connection, WAY_2), 3)
    database = sqlite3.connect(folder / "texts.db")
    show_figures("What only SQLite does, over 100,000 of the rows", [
        again, first, Clock().time("sqlite3, import of these rows and query", whole),
        Clock().time("sqlite3", lambda: database.execute(WAY_2).fetchall())])


def time_questions(folder: pathlib.Path) -> None:
    """Times questions by the processor beside sqlite3: the first time on a connection that has only
    counted, which lists the columns, and again."""
    database, clock = sqlite3.connect(folder / "trips.db"), Clock()

    def lines() -> Iterator[Sequence[str]]:
        for name, sql in QUESTIONS.items():
            theirs = clock.time(name, lambda: len(database.execute(sql).fetchall()))
            with connect(folder / "trips.bw") as connection:
                ours = Clock(connection)
                for bound in (5, 6):
                    connection._database.answer(f"SELECT COUNT(*) FROM trips WHERE id > {bound}")
                count = answer(connection, sql)
                first = ours.time(name, lambda: len(count()), 1)
                again = ours.time(name, lambda: len(count()))
                way = connection._database.answer(sql).way
            agree(name, [theirs.answer, first.answer, again.answer])
            yield [f"`{name}`", f"{theirs.processor * 1000:,.0f}",
                   f"{first.processor * 1000:,.0f}", f"{first.processor / theirs.processor:.1f}",
                   f"{again.processor * 1000:,.0f}", f"{again.processor / theirs.processor:.1f}",
                   str(way)]
    show("Questions over a million rows, processor ms",
         ["Question", "sqlite3", "first time", "times sqlite3", "again", "times sqlite3", "way"],
         lines())


def connect(path: pathlib.Path) -> Any:
    """Returns a connection to a table or a folder of shards."""
    return importlib.import_module("bwtools").connect(path)


def measure(given: argparse.Namespace) -> None:
    """Prints the tables."""
    os.environ["BW"] = bw = bw_program()
    sys.path.insert(0, str(TOP / "python"))
    # as an installed package is
    subprocess.run([sys.executable, "-m", "compileall", "-q", TOP / "python" / "bwtools"],
                   check=True)
    folder: pathlib.Path = given.folder
    make(folder, "texts", write_texts, given.texts)
    make(folder, "numbers", write_numbers, given.rows)
    make(folder, "trips", write_trips, given.trips)
    print(f"{given.rows:,} rows of whole numbers, {given.texts:,} of texts; SQLite "
          f"{sqlite3.sqlite_version}, Python {sys.version.split()[0]}.\n")
    missing = [name for name in ("pandas", "duckdb") if not installed(name)]
    if missing:
        print(f"Not installed here: {', '.join(missing)}.\n")
    parts: Dict[str, Callable[[], object]] = {
        "count": lambda: time_count(folder, bw),
        "top": lambda: time_top_ten(folder),
        "groups": lambda: time_groups(folder),
        "border": lambda: time_border(folder),
        "way2": lambda: time_way_2(folder),
        "questions": lambda: time_questions(folder)}
    for part, work in parts.items():
        if given.only in (None, part):
            work()

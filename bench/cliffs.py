"""Times conditions of many kinds in bw, in both layouts, and in sqlite3, to find statements that
take far longer than similar ones.

With --only it times just the conditions whose names contain one of these texts. Each statement is
SELECT COUNT(*) of the rows on which the condition is TRUE. Each time is the minimum of whole runs
of bw, and of queries of an open sqlite3 database without an index. Prints nanoseconds per row, who
found bw's rows, how many times the time of the fastest condition bw took, if more than ten, and
`slower` if bw took longer than sqlite3. Each row goes to standard error when it is measured."""
from __future__ import annotations

import argparse
import dataclasses
import pathlib
import random
import re
import sqlite3
import subprocess
import sys
from functools import partial
from typing import Callable, List, Sequence, Tuple

from data import bw_program, complete, table_files, write_csv, written
from session import fetch
from timing import Words, agree, least, show

RUNS, ROWS = 3, 1_000_000
LEAST, GREATEST = -(2**62), 2**62 - 1
# a column's name, its bounds, and whether it is nullable
Column = Tuple[str, int, int, bool]
# a condition's name, the condition, and the same as sqlite3 takes it
Condition = Tuple[str, str, str]
KINDS: List[Column] = [
    ("a", 0, 4095, False), ("b", 1, 4096, False),
    ("c", 0, 2**20 - 1, False), ("k", 0, 2**26 - 1, False),
    ("e", 0, 2**32 - 1, False), ("f", 0, 2**32 - 1, False), ("g", 0, 2**32 - 1, True),
    ("x", LEAST, GREATEST, False), ("y", LEAST, GREATEST, False), ("z", LEAST, GREATEST, False),
    ("w", LEAST, GREATEST, True),
    ("m", -500, 500, True), ("n", 0, 1000, True),
]
PARTS: List[Column] = [
    *((f"p{number}", 0, 2**40 - 1, False) for number in range(12)),
    ("a", 0, 255, False), ("c", 0, 2**20 - 1, True), ("u", 0, 2**32 - 1, False),
    ("v", 1, 2**32, False),
    ("x", LEAST, GREATEST, False), ("y", LEAST, GREATEST, True), ("z", LEAST, GREATEST, False),
    ("w", LEAST, GREATEST, True),
    ("h", 0, 1, True), ("i", 0, 1, True), ("j", 0, 1, True),
]
MANY: List[Column] = [(f"c{number}", 0, 1000, number % 3 == 0) for number in range(64)]


@dataclasses.dataclass
class Group:
    """Conditions over the rows of one table."""

    name: str
    columns: List[Column]
    row: Callable[[random.Random], Sequence[object]]
    conditions: List[Condition]
    # how many rows there are for each of the others' rows
    share: int = 1


def add_options(parser: argparse.ArgumentParser) -> None:
    """Adds the options of this comparison."""
    parser.add_argument("--only", metavar="TEXT", action="append", help="conditions so named")


def row_of_kinds(rng: random.Random) -> Sequence[object]:
    """Returns the values of a row: e, f and g are the same, m is null in half of the rows, and n in
    all."""
    same = rng.getrandbits(32)
    wide = [rng.getrandbits(63) + LEAST for _ in range(4)]
    return [rng.randrange(4096), rng.randrange(1, 4097), rng.getrandbits(20), rng.getrandbits(26),
            same, same, same, *wide,
            rng.randrange(-500, 501) if rng.random() < 0.5 else None, None]


def drawn_row(columns: List[Column], rng: random.Random) -> Sequence[object]:
    """Returns the values of a row. A tenth of the nullable ones are null."""
    return [None if null and rng.random() < 0.1 else rng.randrange(low, high + 1)
            for _, low, high, null in columns]


def list_of(count: int, bits: int, seed: int) -> str:
    """Returns `count` numbers of `bits` bits, scattered, for an IN list."""
    return ", ".join(map(str, random.Random(seed).sample(range(2**bits), count)))


def kinds() -> List[Condition]:
    """Returns conditions of many kinds."""
    found = [(text, text) for text in (
        "c < 1000", "c BETWEEN 1000 AND 2000", "m < 0", "m IS NULL", "n = 5", "n IS NULL",
        "NOT (n > 5)", "a = 7 OR c = 9 OR k = 11", "c <> 5", "NOT (c < 1000 OR m > 3)")]
    found += [(f"c IN (..), {count} of 20 bits", f"c IN ({list_of(count, 20, count)})")
              for count in (10, 100, 300, 500, 1000, 5000)]
    found += [(f"k IN (..), {count} of 26 bits", f"k IN ({list_of(count, 26, count)})")
              for count in (100, 500, 1001)]
    found += [("c NOT IN (..), 100 of 20 bits", f"c NOT IN ({list_of(100, 20, 3)})"),
              ("c IN (..), 1,000 in a row", f"c IN ({', '.join(map(str, range(5000, 6000)))})"),
              ("m IN (.., NULL), 20", f"m IN ({', '.join(map(str, range(0, 40, 2)))}, NULL)"),
              ("m IN (..), 1,000, half of them NULL",
               f"m IN ({', '.join(f'{number}, NULL' for number in range(-250, 250))})"),
              ("m IN (..), 5,000 times NULL", f"m IN (7{', NULL' * 5000})"),
              ("m NOT IN (..), 5,000 times NULL", f"m NOT IN (7{', NULL' * 5000})")]
    found += [(text, text) for text in (
        "a = b", "a < b", "a < c", "e = f", "e < f", "e <= f", "e <> f", "e < g", "e <= g", "e > f",
        "e >= f", "NOT (e < g)", "x < y", "x < y AND y < z", "x < y AND y < z AND z < w",
        "x <= y OR z > w", "c BETWEEN e AND f", "x BETWEEN y AND z", "e < f AND f < g AND e < g")]
    found += [("AND of 50", " AND ".join(f"c <> {17 * number}" for number in range(50))),
              ("OR of 50", " OR ".join(f"c = {17 * number}" for number in range(50))),
              ("OR of 50 BETWEEN", " OR ".join(f"k BETWEEN {9973 * number} AND {9973 * number + 50}"
                                               for number in range(50))),
              ("AND of 20 over 13 columns",
               " AND ".join(f"{KINDS[number % 13][0]} <> {number}" for number in range(20)))]
    return [(f"`{name}`", condition, condition) for name, condition in found]


def joined(word: str, parts: Sequence[str]) -> str:
    """Returns parts joined by AND or OR, bracketed by halves for sqlite3, which takes at most a
    thousand in a row."""
    if len(parts) < 3:
        return f" {word} ".join(parts)
    half = len(parts) // 2
    return f"({joined(word, parts[:half])}) {word} ({joined(word, parts[half:])})"


def long_one(name: str, word: str, parts: Sequence[str]) -> Condition:
    """Returns a long condition as people write it, and as sqlite3 takes it."""
    return name, f" {word} ".join(parts), joined(word, parts)


def drawn(rng: random.Random, columns: List[Column]) -> str:
    """Returns a comparison of a column with a number or with another column of the same minimum, or
    a BETWEEN."""
    name, low, high, _ = rng.choice(columns)
    alike = [other for other, first, _, _ in columns if first == low and other != name]
    number = rng.randrange(low, high + 1)
    kind = rng.randrange(4)
    if kind == 0 and alike:
        return f"{name} {rng.choice(('<', '>', '=', '<>'))} {rng.choice(alike)}"
    if kind == 1:
        return f"{name} BETWEEN {number} AND {min(high, number + (high - low) // 50)}"
    return f"{name} {rng.choice(('<', '>', '<=', '>=', '=', '<>'))} {number}"


def repeated() -> List[Condition]:
    """Returns long conditions of one kind of parts."""
    rng, found = random.Random(11), []
    for count, each in ((24, 2), (16, 3)):
        found.append(long_one(
            f"OR of {count} ANDs of {each}, 12 columns of 40 bits", "OR",
            ["(" + " AND ".join(f"p{rng.randrange(12)} < {rng.getrandbits(40)}"
                                for _ in range(each)) + ")" for _ in range(count)]))
    found.append(long_one("`x = 7` AND 900 times `x < y`", "AND", ["x = 7"] + ["x < y"] * 900))
    found.append(long_one("`x < 7` OR 900 times `x < y`", "OR", ["x < 7"] + ["x < y"] * 900))
    found += [long_one(f"OR of {count} `c BETWEEN`", "OR",
                       [f"c BETWEEN {1500 * n} AND {1500 * n + 20}" for n in range(count)])
              for count in (100, 300, 320, 640)]
    found += [long_one(f"AND of {count} `NOT (c < n)`", "AND",
                       [f"NOT (c < {n})" for n in range(count)]) for count in (300, 320)]
    found += [long_one(f"OR of {count} `x BETWEEN`", "OR",
                       [f"x BETWEEN {(n - 40) * 2**55} AND {(n - 40) * 2**55 + 2**40}"
                        for n in range(count)]) for count in (70, 80)]
    found += [long_one(f"OR of {count} times `a = 5`", "OR", ["a = 5"] * count)
              for count in (4000, 4100)]
    for count in (120, 140):
        found.append(long_one(f"OR of {count} `x = n`", "OR",
                              [f"x = {rng.getrandbits(62)}" for _ in range(count)]))
        found.append(long_one(f"AND of {count} `<` of mixed columns", "AND",
                              [f"{name} < {high - n}" for n, (name, _, high, _) in
                               zip(range(count), PARTS * 10)]))
    return found


def of_columns() -> List[Condition]:
    """Returns long conditions that compare columns with one another."""
    rng, found = random.Random(12), []
    for count in (60, 70):
        found.append(long_one(f"AND of {count} times `a < c`", "AND", ["a < c"] * count))
        found.append(long_one(f"AND of {count} times `a < c` and `a <> c` in turn", "AND",
                              ["a < c", "a <> c"] * (count // 2)))
    found += [long_one(f"OR of {count} `<` of columns of 1 bit", "OR",
                       [f"{'hij'[n % 3]} < {'hij'[(n + 1) % 3]}" for n in range(count)])
              for count in (9, 16)]
    found.append(long_one("OR of 12 pairs of columns of 63 bits", "OR",
                          [f"{one} < {other}" for one in "xyzw" for other in "xyzw"
                           if one != other]))
    found.append(long_one("`u < v` of unequal least values, and 40 more", "AND",
                          ["u < v"] + [f"c <> {n}" for n in range(40)]))
    found.append(long_one("64 KiB of `x < y`", "OR", ["x < y"] * 6000))
    for number in range(24):
        count, inner, outer = 2 + number * 30 // 23, *rng.choice((("AND", "OR"), ("OR", "AND")))
        parts = ["(" + f" {inner} ".join(drawn(rng, PARTS) for _ in range(rng.randrange(1, 5)))
                 + ")" for _ in range(count)]
        found.append(long_one(f"{outer} of {count} {inner}s, drawn", outer, parts))
    return found


def over_many() -> List[Condition]:
    """Returns long conditions over 64 columns."""
    rng, found = random.Random(13), []
    found.append(long_one("AND of 63 `(ci < n OR cj < m)`", "AND",
                          [f"(c{n} < {rng.randrange(1000)} OR c{n + 1} < {rng.randrange(1000)})"
                           for n in range(63)]))
    found.append(long_one("AND of 60 `ci <= cj`", "AND",
                          [f"c{n} <= c{n + 1}" for n in range(60)]))
    for count in (60, 90, 120, 180):
        parts = ["(" + " OR ".join(drawn(rng, MANY) for _ in range(3)) + ")" for _ in range(count)]
        found.append(long_one(f"AND of {count} ORs of 3 over 64 columns, drawn", "AND", parts))
    return found


def groups() -> List[Group]:
    """Returns all conditions, by their tables."""
    return [Group("kinds", KINDS, row_of_kinds, kinds()),
            Group("parts", PARTS, lambda rng: drawn_row(PARTS, rng), repeated() + of_columns()),
            Group("many", MANY, lambda rng: drawn_row(MANY, rng), over_many(), share=4)]


def files_of(folder: pathlib.Path, group: Group, rows: int
             ) -> Tuple[pathlib.Path, pathlib.Path, pathlib.Path]:
    """Returns the schema, the CSV and the database of a group's rows."""
    rows //= group.share
    names = [name for name, _, _, _ in group.columns]
    schema = written(folder / f"{group.name}.schema", "TABLE t\n" + "".join(
        f"COLUMN {name} {low} {high}{'' if null else ' NOT NULL'}\n"
        for name, low, high, null in group.columns))
    rng = random.Random(7)
    csv = complete(folder / f"{group.name}-{rows}.csv", lambda path: write_csv(
        path, names, (group.row(rng) for _ in range(rows))))

    def write(path: pathlib.Path) -> None:
        path.unlink(missing_ok=True)
        with sqlite3.connect(path) as into, open(csv, encoding="ascii") as given:
            next(given)
            into.execute(f"CREATE TABLE t ({', '.join(f'{name} INTEGER' for name in names)})")
            into.executemany(f"INSERT INTO t VALUES ({', '.join('?' * len(names))})", (
                [None if field == "NULL" else int(field) for field in line.split(",")]
                for line in map(str.rstrip, given)))
        into.close()
    return schema, csv, complete(folder / f"{group.name}-{rows}.db", write)


def ask(bw: str, table: pathlib.Path, sql: str, runs: int) -> Tuple[float, int, str]:
    """Returns the least time of a query, its result, and what found the rows."""
    words: Words = [bw, "query", "--stats", table, sql]
    taken, done = least(lambda: subprocess.run(list(words), capture_output=True, text=True,
                                               stdin=subprocess.DEVNULL, check=True), runs)
    served = re.search(r"rows|program|planner", done.stderr)
    return taken, int(done.stdout.split("\n")[1]), served.group(0) if served else "?"


def measure(given: argparse.Namespace) -> None:
    """Prints a table for each group."""
    bw = bw_program()
    for group in groups():
        chosen = [each for each in group.conditions
                  if given.only is None or any(text in each[0] for text in given.only)]
        if not chosen:
            continue
        schema, csv, database = files_of(given.folder, group, given.rows)
        tables, rows = table_files(bw, schema, csv), given.rows // group.share
        beside, found = sqlite3.connect(database), []
        for what, condition, halved in chosen:
            sql = "SELECT COUNT(*) FROM t WHERE "
            answers = [ask(bw, table, sql + condition, given.runs) for table in tables.values()]
            other, [[answer]] = least(partial(fetch, beside, sql + halved), given.runs)
            agree(what, [*(count for _, count, _ in answers), answer])
            times = [1e6 * taken / rows for taken in (*(taken for taken, _, _ in answers), other)]
            found.append((what, answers[0][2], times))
            print(what, *times, sep="\t", file=sys.stderr, flush=True)
        quickest = min(times[0] for _, _, times in found)
        show(f"Kinds of conditions, ns a row, {rows:,} rows",
             ["Condition", "Served by", *(f"bw, {layout}" for layout in tables), "sqlite3",
              "Times the quickest", ""],
             ([what, served, *(f"{each:.1f}" for each in times),
               f"{times[0] / quickest:.0f}" if times[0] > 10 * quickest else "",
               "slower" if max(times[:-1]) > times[-1] else ""] for what, served, times in found))

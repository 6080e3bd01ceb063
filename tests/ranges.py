"""Compares answers of sessions over files by columns, which keep the least and the greatest value
of each column in each group of four segments, with those over table files, which keep none, and
with those of sqlite3: python3 -m tests.ranges [--seed N] [--count N]. It draws tables whose values
are sorted, come in runs, are constant or in no order, with nulls and outliers at the borders of
segments and groups, and asks as many statements: those of a table in one session for each of its
four files, some of them again, and naming more and more of its columns. It prints counts. At the
first difference it prints the table's schema, its CSV, the statements up to that one, and both
answers, and exits with 1."""
from __future__ import annotations

import argparse
import pathlib
import random
import re
import sqlite3
import sys
import tempfile
from collections import Counter
from dataclasses import dataclass
from typing import Any, Callable, Iterable, Iterator, Optional, Sequence

from tests import drawn_programs, support
from tests.drawn import COMPARE, Bounds
from tests.second_checker import FILES

SEGMENT, GROUP = 512, 2048
# how many statements are asked of a table
A_TABLE = 25
# what may be added to whole groups, for a short last group and a short last segment
MORE = (0, 0, 1, 2, 300, 511, 512, 513, 1024, 1535, 1536, 1700, 2047)
WIDTHS = (1, 2, 4, 7, 8, 9, 12, 16, 17, 20, 24, 31, 32, 33, 40, 48, 61, 62, 63)
# how long runs of like values are
RUNS = (1, 9, 100, 512, 700, 2048, 3000, 4096)
LEAST, GREATEST = -2 ** 63, 2 ** 63 - 1
FAR = (LEAST, GREATEST, -2 ** 62, 2 ** 62, -10 ** 6, 10 ** 6, 0)
# what --stats writes of a statement: who served it, and the segments that ranges settled
SERVED, SETTLED = re.compile(r"^served (\w+)", re.M), re.compile(r"^settled (\d+)", re.M)
STATS = re.compile(r"(?:(?:served|settled) .*\n)*")
# a result in a session, above the empty line
RESULT = re.compile(r"((?:[^\n]+\n)*)\n")
Values = list[Optional[int]]


@dataclass(frozen=True)
class Shape:
    """How many groups and columns a table may have."""

    groups: Sequence[int]
    columns: Sequence[int]


SMALL, USUAL = Shape((0, 1, 2, 3), range(1, 7)), Shape((0, 1, 2, 3, 4, 6, 9), range(1, 7))
WIDE, LONG = Shape((0, 1, 2, 3), (12, 20, 33)), Shape((17, 33, 65), (1, 2, 3))
# the shapes of tables, in turn
SHAPES = (*[USUAL] * 9, WIDE, *[USUAL] * 9, LONG)


@dataclass(frozen=True)
class Table:
    """A drawn table: the bounds of each column, and its values."""

    columns: dict[str, Bounds]
    values: dict[str, Values]
    rows: int

    def schema(self) -> str:
        lines = [f"COLUMN {name} {low} {high}{'' if is_nullable else ' NOT NULL'}"
                 for name, (low, high, is_nullable) in self.columns.items()]
        return "\n".join(["TABLE t", *lines, ""])

    def csv(self) -> str:
        return lines_of([list(self.columns), *zip(*self.values.values())])

    def group_sizes(self) -> dict[int, int]:
        """Returns how many rows each group has."""
        return {at // GROUP: min(GROUP, self.rows - at) for at in range(0, self.rows, GROUP)}

    def near(self, name: str) -> list[int]:
        """Returns the least and the greatest number of each group, and those at the borders of
        segments."""
        values, found = self.values[name], set[int]()
        for at in range(0, self.rows, GROUP):
            numbers = [value for value in values[at:at + GROUP] if value is not None]
            found.update((min(numbers), max(numbers)) if numbers else ())
        ends = [value for row in borders(self.rows) if (value := values[row]) is not None]
        return sorted(found.union(ends) or self.columns[name][:2])


def lines_of(rows: Sequence[Sequence[object]]) -> str:
    """Returns rows of numbers and names as CSV text; None is NULL."""
    return "".join([",".join(map(str, row)) + "\n" for row in rows]).replace("None", "NULL")


def borders(rows: int) -> list[int]:
    """Returns the first and the last row of each segment."""
    ends = {row for at in range(0, rows, SEGMENT) for row in (at, min(at + SEGMENT, rows) - 1)}
    return sorted(ends)


# --- the values of a column, as distances from its minimum

def code(chance: random.Random, size: int) -> int:
    return chance.getrandbits(64) % (size + 1)


def in_no_order(chance: random.Random, rows: int, size: int) -> list[int]:
    return [code(chance, size) for _ in range(rows)]


def rising(chance: random.Random, rows: int, size: int) -> list[int]:
    return sorted(in_no_order(chance, rows, size))


def falling(chance: random.Random, rows: int, size: int) -> list[int]:
    return rising(chance, rows, size)[::-1]


def even(chance: random.Random, rows: int, size: int) -> list[int]:
    """Returns codes that rise by like steps, each a drawn number of times, and may be less by as
    much as some steps."""
    times, back = chance.choice(RUNS), chance.choice((0, 0, size // 100, size // 10))
    return [max(0, row // times * size // (rows // times + 1) - code(chance, back))
            for row in range(rows)]


def by_groups(chance: random.Random, rows: int, size: int) -> list[int]:
    """Returns codes of which those of a group are within a drawn range."""
    spread = min(size, chance.choice((0, 1, size // 100, size // 10)))
    least = in_no_order(chance, rows // GROUP + 1, size - spread)
    return [least[row // GROUP] + code(chance, spread) for row in range(rows)]


def in_runs(chance: random.Random, rows: int, size: int) -> list[int]:
    """Returns runs of a drawn length that begin anywhere, each of like codes."""
    length, spread = chance.choice(RUNS), chance.choice((0, 0, 1, size // 50))
    begun = chance.randrange(length)
    least = in_no_order(chance, (rows + begun) // length + 1, size)
    return [min(size, least[(row + begun) // length] + code(chance, spread))
            for row in range(rows)]


def constant(chance: random.Random, rows: int, size: int) -> list[int]:
    return [chance.choice((0, size, code(chance, size)))] * rows


def few(chance: random.Random, rows: int, size: int) -> list[int]:
    return chance.choices([code(chance, size) for _ in range(3)], k=rows)


KINDS: tuple[Callable[[random.Random, int, int], list[int]], ...] = (
    rising, rising, falling, even, even, by_groups, by_groups, in_runs, in_runs, constant, few,
    in_no_order)


def with_outliers(chance: random.Random, codes: list[int], size: int) -> list[int]:
    """Returns codes of which some at the borders of segments are the least, the greatest or
    others."""
    places = borders(len(codes))
    for place in chance.sample(places, min(chance.choice((0, 0, 1, 2, 5)), len(places))):
        codes[place] = chance.choice((0, size, code(chance, size),
                                      max(0, codes[place] - 1), min(size, codes[place] + 1)))
    return codes


def null_rows(chance: random.Random, rows: int) -> set[int]:
    """Returns the rows that are null: none, all, those at borders of segments or groups, most of
    which have no other null; whole segments or groups; or all but one row of these."""
    step = chance.choice((SEGMENT, GROUP))
    parts = [range(at, min(at + step, rows)) for at in range(0, rows, step)]
    drawn = [part for part in parts if chance.random() < .5]
    share = chance.choice((.001, .1, .9))
    form = chance.randrange(9)
    if form < 3:
        ends = ((0,), (-1,), (0, -1))[form]
        return {part[at] for part in chance.choice((parts, drawn)) for at in ends}
    if form == 3:
        return {part[chance.randrange(len(part))] for part in drawn}
    if form == 4:
        return {row for part in drawn for row in part if chance.random() < share}
    whole = {row for part in drawn for row in part}
    if form == 5:
        return whole
    if form == 6:
        kept = {part[chance.choice((0, -1, chance.randrange(len(part))))] for part in parts}
        return set(range(rows)) - kept
    return set(range(rows)) if form == 7 else set()


# --- tables

def bounds(chance: random.Random, usual: int) -> Bounds:
    """Returns the bounds of a column of any width, and whether it is nullable. Its minimum is
    often the usual one, so that columns can be compared by a program."""
    width = chance.choice((*WIDTHS, chance.randint(1, 63)))
    size = chance.choice((2 ** width - 1, 2 ** (width - 1), chance.randrange(2 ** width)))
    low = chance.choice((usual, usual, 0, 1, -1, -size, -size // 2, LEAST, GREATEST - size))
    low = max(LEAST, min(low, GREATEST - size))
    return low, low + size, chance.random() < .5


def row_count(chance: random.Random, shape: Shape) -> int:
    near = chance.choice(shape.groups) * GROUP + chance.choice((*MORE, chance.randrange(GROUP)))
    return max(0, near + chance.choice((0, 0, 0, 1, -1)))


def drawn_table(chance: random.Random, shape: Shape) -> Table:
    """Draws a table."""
    rows, columns, values = row_count(chance, shape), dict[str, Bounds](), dict[str, Values]()
    usual = chance.choice((0, 0, -10, -2 ** 40, LEAST))
    for place in range(chance.choice(shape.columns)):
        name = f"c{place}"
        low, high, is_nullable = columns[name] = bounds(chance, usual)
        codes = chance.choice(KINDS)(chance, rows, high - low)
        codes = with_outliers(chance, codes, high - low)
        nulls = null_rows(chance, rows) if is_nullable else set[int]()
        values[name] = [None if row in nulls else low + each for row, each in enumerate(codes)]
    return Table(columns, values, rows)


class Statements(drawn_programs.Statements):
    """Draws the statements of a session over a table, which name more and more of its columns."""

    def __init__(self, chance: random.Random, table: Table) -> None:
        self.chance, self.table, self.columns = chance, table, dict[str, Bounds]()
        self.near = {name: table.near(name) for name in table.columns}
        self.left = chance.sample(list(table.columns), len(table.columns))

    def session(self, count: int) -> list[str]:
        """Returns as many statements. Some are asked again, and some have an earlier one's
        condition."""
        chance, asked, names = self.chance, list[str](), len(self.left)
        for number in range(count):
            while self.left and names - len(self.left) <= 2 * names * number // count:
                name = self.left.pop()
                self.columns[name] = self.table.columns[name]
            earlier, form = chance.choice(asked or [""]), chance.random()
            if not earlier or form > .3:
                asked.append(self.items() + self.where())
            else:
                _, word, condition = earlier.partition(" WHERE ")
                asked.append(earlier if form < .2 else self.items() + word + condition)
        return asked

    def items(self) -> str:
        """Returns a statement without its condition."""
        chance, names = self.chance, list(self.columns)
        totals = [f"{word}({name})" for word in ("COUNT", "SUM", "MIN", "MAX") for name in names]
        items = chance.choice((*[["COUNT(*)"]] * 3,
                               chance.choices([*totals, "COUNT(*)"], k=chance.randint(1, 4)),
                               chance.choices(totals, k=chance.randint(1, 4)),
                               chance.choices(totals, k=9), names if self.left else ["*"],
                               chance.choices(names, k=chance.randint(1, 4))))
        return f"SELECT {', '.join(items)} FROM t"

    def number(self, name: str) -> int:
        """Returns a number at a border of a group or segment, at a column's bound, beside such a
        number, or far from it."""
        chance, form, (low, high, _) = self.chance, self.chance.random(), self.columns[name]
        if form < .8:
            value = chance.choice(self.near[name])
        elif form < .95:
            value = chance.choice((low, high, chance.randint(low, high)))
        else:
            value = chance.choice(FAR)
        return max(LEAST, min(GREATEST, value + chance.choice((0, 0, 0, 0, 0, 0, 1, -1, 2, -300))))

    def literal(self, name: str) -> str:
        return "NULL" if self.chance.random() < .04 else str(self.number(name))

    def where(self) -> str:
        depth = self.chance.choice((-1, *(0, 0, 1) * 6, 2, 2, 3))
        return f" WHERE {self.condition(depth)}" if depth >= 0 else ""

    def predicate(self) -> str:
        chance, name = self.chance, self.chance.choice(list(self.columns))
        if chance.random() < .3:
            return super().predicate()
        low, high = sorted((self.number(name), self.number(name)))
        near = min(GREATEST, low + chance.choice((0, 1, (high - low) // 10)))
        other = chance.choice([each for each in self.columns if each != name] or [name])
        listed = ", ".join(str(self.number(name)) for _ in range(chance.choice((1, 2, 5))))
        negated = chance.choice(("", "", "", "NOT "))
        return chance.choice([f"{name} BETWEEN {low} AND {near}"] * 3 + [
            f"{name} = {low}", f"{name} <= {low}", f"{name} >= {high}", f"{name} < {near}",
            f"{name} > {high}", f"{name} {negated}BETWEEN {low} AND {high}",
            f"{name} {negated}IN ({listed})", f"{name} IN ({listed}, {other})",
            f"{name} IS {negated}NULL", f"{name} IS NULL",
            f"{name} {negated}BETWEEN {other} AND {high}",
            f"{name} {chance.choice(COMPARE)} {other}"])


# --- answers

class Sum:
    """The exact sum of whole numbers, as text, since it may have more than 64 bits."""

    def __init__(self) -> None:
        self.total: Optional[int] = None

    def step(self, value: Any, /) -> None:
        if value is not None:
            self.total = value + (self.total or 0)

    def finalize(self) -> Any:
        return None if self.total is None else str(self.total)


class Base:
    """A table in sqlite3."""

    def __init__(self, table: Table) -> None:
        self.table, self.database = table, sqlite3.connect(":memory:")
        self.database.create_aggregate("sum", 1, Sum)
        names = list(table.columns)
        self.database.execute(f"CREATE TABLE t ({', '.join(f'{name} INTEGER' for name in names)})")
        self.database.executemany(f"INSERT INTO t VALUES ({', '.join('?' * len(names))})",
                                  zip(*table.values.values()))

    def answer(self, sql: str) -> str:
        """Returns the text of a statement's answer."""
        items = sql[len("SELECT "):].partition(" FROM ")[0]
        heading = list(self.table.columns) if items == "*" else items.split(", ")
        return lines_of([heading, *self.database.execute(as_sqlite(sql))])

    def selected(self, sql: str) -> dict[int, int]:
        """Returns how many rows a statement selects in each group, but for those without any."""
        condition = as_sqlite(sql).partition(" FROM ")[2]
        return dict(self.database.execute(
            f"SELECT (rowid - 1) / {GROUP}, COUNT(*) FROM {condition} GROUP BY 1"))


def as_sqlite(sql: str) -> str:
    """Returns a statement as SQLite has it."""
    return sql.replace("UNKNOWN", "NULL")


def only_counts(sql: str) -> bool:
    """Returns whether a statement only counts the rows that it selects."""
    items = sql[len("SELECT "):].partition(" FROM ")[0]
    return set(items.split(", ")) == {"COUNT(*)"}


def segments_of(sizes: Iterable[int]) -> int:
    """Returns how many segments groups of so many rows have."""
    return sum(-(-size // SEGMENT) for size in sizes)


def loaded(table: Table, folder: pathlib.Path) -> list[pathlib.Path]:
    """Loads a table by rows and by columns, in both layouts. Returns the files."""
    (folder / "t.schema").write_text(table.schema(), encoding="ascii")
    (folder / "t.csv").write_text(table.csv(), encoding="ascii")
    for name, options in FILES.items():
        done = support.bw("load", *options, "t.schema", "t.csv", name, cwd=folder)
        if done != (0, "", ""):
            raise ValueError(f"{done}\n{table.schema()}{table.csv()}")
    return [folder / name for name in FILES]


def results(path: pathlib.Path, asked: Sequence[str]) -> tuple[list[str], str]:
    """Returns the results of a session, and what it writes beside them."""
    done = support.bw("session", "--stats", path, given=";\n".join(asked))
    return RESULT.findall(done.out), done.err


@dataclass
class Comparison:
    """Answers over drawn tables, and counts of them."""

    folder: pathlib.Path
    counts: Counter[str]

    def tables(self, seed: int, count: int, shapes: Sequence[Shape] = SHAPES) -> Iterator[str]:
        """Yields how the answers over each table differ, or nothing."""
        for number in range(-(-count // A_TABLE)):
            chance = random.Random(f"ranges {seed} {number}")
            table = drawn_table(chance, shapes[number % len(shapes)])
            asked = Statements(chance, table).session(min(A_TABLE, count - number * A_TABLE))
            self.counts.update(tables=1, rows=table.rows)
            yield self.difference(table, asked)

    def difference(self, table: Table, asked: list[str]) -> str:
        """Returns the first difference in the answers of a table, or nothing."""
        base, idle, paths = Base(table), 0, loaded(table, self.folder)
        wanted = {sql: base.answer(sql) for sql in asked}
        sizes = table.group_sizes()
        for sql in asked:
            selected, counts = base.selected(sql), only_counts(sql)
            idle += segments_of(size for each, size in sizes.items() if each not in selected
                                or counts and selected[each] == size)
            self.counts["segments"] += segments_of(sizes.values())
            self.counts["none" if not selected else
                        "some" if len(selected) < len(sizes) else "every"] += 1
        base.database.close()
        self.counts.update(asked=len(asked), idle=idle)
        for path in paths:
            found, told = results(path, asked)
            for place, sql in enumerate(asked):
                if found[place:place + 1] != [wanted[sql]]:
                    said = found[place] if place < len(found) else told
                    return shown(table, path, asked[:place + 1],
                                 f"answers\n{said}sqlite3 answers\n{wanted[sql]}")
            settled = sum(map(int, SETTLED.findall(told)))
            if not STATS.fullmatch(told) or settled > idle:
                return shown(table, path, asked, f"settled {settled} of {idle} segments whose rows "
                                                 f"needn't be read\n{told}")
            self.counts.update(f"by {each}" for each in SERVED.findall(told))
            self.counts["settled"] += settled
        return ""

    def text(self) -> str:
        """Returns the counts as text."""
        counts = self.counts
        return (f"{counts['asked']:,} statements of {counts['tables']:,} tables of "
                f"{counts['rows']:,} rows: {counts['none']:,} select rows of no group, "
                f"{counts['some']:,} of some, {counts['every']:,} of every one.\nIn four files "
                f"{counts['by program']:,} were served by programs, {counts['by rows']:,} by rows. "
                f"Of {2 * counts['segments']:,} segments by columns {2 * counts['idle']:,} are in "
                f"groups without such rows, or are counted whole; {counts['settled']:,} were "
                "settled.")


def shown(table: Table, path: pathlib.Path, asked: Sequence[str], how: str) -> str:
    """Returns a difference as text."""
    return (f"{table.schema()}\n{table.csv()}\n" + "".join(f"{sql};\n" for sql in asked) +
            f"\n{path.name} {how}")


def main(words: Optional[Sequence[str]] = None) -> int:
    parser = argparse.ArgumentParser(prog="python3 -m tests.ranges", description=__doc__)
    parser.add_argument("--seed", type=int, default=1, metavar="N")
    parser.add_argument("--count", type=int, default=10_000, metavar="N")
    given = parser.parse_args(words)
    with tempfile.TemporaryDirectory() as name:
        comparison = Comparison(pathlib.Path(name), Counter())
        found = next(filter(None, comparison.tables(given.seed, given.count)), "")
    print(f"{found}seed {given.seed}: {comparison.text()}")
    print("One differs." if found else "All are equal.")
    return int(bool(found))


if __name__ == "__main__":
    sys.exit(main())

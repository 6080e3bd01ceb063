"""Compares drawn statements with sqlite3: python3 -m tests.selects [--seed N] [--count N] runs as
many as are wanted, and --mutated N as many of which some tokens were changed. It prints each that
differs, and exits with 1 if one does."""
from __future__ import annotations

import argparse
import contextlib
import datetime
import decimal
import math
import pathlib
import random
import re
import sqlite3
import sys
import tempfile
from collections import Counter
from fractions import Fraction
from typing import Any, Callable, Iterator, Sequence

import tests  # noqa: F401  finds bwtools
import bwtools
from bwtools._errors import Refused
from bwtools._sql import plan
from bwtools._sql.lexer import tokens_of
from bwtools._sql.parser import parse
from bwtools._sql.plan import Statement
from tests import drawn_select, reference, support
from tests.drawn_select import LONG, TABLES, TYPES, Pair

# so many statements are asked of one connection, and over the same rows
A_CONNECTION, A_TABLE = 40, 200
# the digits of a double that are compared: all
SURE = 16
# what is around the exact total of sqlite3
TOTAL = ("coalesce(exact_", ", 0.0)")
# what pages say is refused that SQLite answers
OURS = re.compile(
    "can't be compared|is null in|is no condition|which have no|which can't be summed|has no order|"
    "is printed as|decimals of more than|there is no (table|column)|rows have no numbers|"
    "tables are read only|write \\? for each|parameters, and|functions that return a table|"
    "is in more than|more than .* deep|outside the range of 64 bits|can't be used|of texts, which|"
    "equal texts mean|isn't one that reads tables|can't be read|is an alias, and the heading|"
    "a second statement|the statement is empty|expected SELECT or WITH|a character that isn't text|"
    "needs a double|closes none|isn't closed|unexpected|more than 64 bits|more digits than")


class ExactSum:
    """The sum of decimals as a fraction: its text, which no number has."""

    power: int | None = None

    def __init__(self) -> None:
        self.total: Fraction | None = None

    def step(self, value: Any, /) -> None:
        if value is not None:
            number = Fraction(repr(value)) if self.power is None else Fraction(value, self.power)
            self.total = number + (self.total or 0)

    def finalize(self) -> Any:
        return None if self.total is None else f"sum {self.total}"


class LongSum(ExactSum):
    power = LONG


class Compared:
    """Drawn tables, in sqlite3 and as files of bw."""

    def __init__(self, folder: pathlib.Path, seed: int) -> None:
        self.stack = contextlib.ExitStack()
        self.base = reference.Reference()
        self.stack.callback(self.base.close)
        rows = drawn_select.Rows(seed)
        self.paths = list[pathlib.Path]()
        for table, columns in TABLES.items():
            data = reference.csv_of([list(columns), *rows.tables[table]])
            words = [word for name, kind in columns.items() if kind == "text"
                     for word in ("--text", name)]
            shards = ["--shards", "3"] if table == "u" and seed % 2 else []
            (folder / f"{table}{seed}").mkdir()
            self.paths.append(support.imported(folder / f"{table}{seed}" / table, data,
                                               *words, *shards))
            typed = [(f'"{name}"', TYPES.get(kind, "TEXT")) for name, kind in columns.items()]
            self.base.add(f'"{table}"', typed, rows.values(table))
        sums: dict[str, Callable[[], Any]] = {"exact_sum": ExactSum, "long_sum": LongSum,
                                              "exact_total": reference.Total}
        for database in (self.base.exact, self.base.plain):
            for name, function in sums.items():
                database.create_aggregate(name, 1, function)
        self.connect()
        self.stack.callback(lambda: self.connection.close())

    def connect(self) -> None:
        """Connects, or connects anew."""
        self.connection = bwtools.connect(*self.paths)

    def again(self) -> None:
        self.connection.close()
        self.connect()

    def close(self) -> None:
        self.stack.close()

    def answers(self, sql: str) -> Iterator[Any]:
        """Yields the answer of each way that serves a statement."""
        statement = Statement(sql, self.connection._database.catalog)
        first = plan.answer(statement, self.connection._database.engine)
        if first:
            yield first
        yield self.connection._database.by_sqlite.answer(statement)

    def differs(self, pair: Pair) -> str:
        """Returns how an answer differs from that of sqlite3, or nothing."""
        try:
            wanted, headings, places = self.rows(pair.theirs)
        except sqlite3.Error as error:
            return self.is_refused(pair.ours, str(error))
        try:
            for answer in self.answers(pair.ours):
                found = list(answer.objects())
                if list(map(heading_of, answer.headings)) != list(map(heading_of, headings)):
                    return f"way {answer.way}: headings {answer.headings}, expected {headings}"
                is_ordered = bool(parse(tokens_of(pair.ours.rstrip("; "))).tree.orders)
                if not is_same(found, wanted, is_ordered, places):
                    return f"way {answer.way}: {found[:9]}\n  expected {wanted[:9]}"
        except Refused as refused:
            return "" if OURS.search(str(refused)) and is_long(pair) else f"refused: {refused}"
        return ""

    def rows(self, sql: str) -> tuple[list[Any], list[str], int]:
        """Returns the rows of sqlite3, their headings, and how many digits of doubles are sure:
        those of all, but before OVER its own sums must be used, in subqueries too."""
        for database, places in ((self.base.exact, SURE), (self.base.plain, SURE - 4)):
            try:
                cursor = database.execute(sql)
                return cursor.fetchall(), [each[0] for each in cursor.description], places
            except sqlite3.Error as error:
                if "window function" not in str(error) or places < SURE:
                    raise
        raise AssertionError

    def is_refused(self, sql: str, message: str) -> str:
        try:
            for answer in self.answers(sql):
                list(answer.objects())
                return f"way {answer.way} answers, sqlite3: {message}"
        except Refused:
            pass
        return ""

    def mutant_differs(self, sql: str) -> str:
        """Returns how a statement that may be none is treated otherwise than by sqlite3, or
        nothing."""
        try:
            # a semicolon at the end is left out, also if there are two
            cursor = self.base.plain.execute(f"EXPLAIN {sql.rstrip(' ;')}")
            cursor.close()
            message = ""
        except (sqlite3.Error, sqlite3.Warning) as error:
            message = str(error)
        try:
            Statement(sql, self.connection._database.catalog)
            refused = ""
        except Refused as error:
            refused = str(error)
        if message and not refused:
            return f"sqlite3 refuses it: {message}"
        if refused and not message and not OURS.search(refused):
            return f"refused: {refused}"
        return ""


def heading_of(heading: str) -> str:
    """Returns a heading without what sqlite3 gets in another form: sums of decimals, and decimals
    of many digits."""
    if heading.startswith(TOTAL[0]):
        heading = heading[len(TOTAL[0]):-len(TOTAL[1])]
    return re.sub(r"(?i)(exact_|long_)?sum|\b[0-9]{16,}(\.[0-9]+)?|\b0(\.00)?\b", "~", heading)


def is_long(pair: Pair) -> bool:
    """Returns whether a statement has decimals of many digits, or may leave 64 bits."""
    return pair.ours != pair.theirs or ".w" in re.sub("[\"`\\[]", "", pair.ours) or \
        any(f".{quote}g" in pair.ours for quote in ("", '"', "`", "["))


def is_same(found: Sequence[Any], wanted: Sequence[Any], is_ordered: bool,
            places: int = SURE) -> bool:
    """Returns whether rows are equal: in order, if they have one."""
    if len(found) != len(wanted):
        return False
    pairs = [zip(found, wanted)]
    if not is_ordered:
        pairs.append(zip(sorted(found, key=key_of), sorted(wanted, key=key_of)))
    return any(all(len(row) == len(other) and all(map(is_equal, row, other, [places] * len(row)))
                   for row, other in each) for each in pairs)


def is_equal(found: Any, wanted: Any, places: int = SURE) -> bool:
    """Returns whether a value of Python is one of sqlite3."""
    if places < SURE and isinstance(found, float) and isinstance(wanted, float) and wanted:
        return abs(found / wanted - 1) < 10.0 ** -places
    if isinstance(found, decimal.Decimal):
        if isinstance(wanted, str):
            return f"sum {Fraction(found)}" == wanted
        return Fraction(found) == (Fraction(repr(wanted)) if isinstance(wanted, float)
                                   else Fraction(wanted, LONG))
    if isinstance(wanted, str) and wanted.startswith("sum "):
        return isinstance(found, (int, float)) and found == float(Fraction(wanted[4:]))
    return reference.is_near(plain(found), wanted) or isinstance(wanted, float) and \
        isinstance(found, float) and math.isnan(found) == math.isnan(wanted) is True


def plain(value: Any) -> Any:
    """Returns SQLite's value of a value of Python."""
    if isinstance(value, bool):
        return int(value)
    if isinstance(value, datetime.datetime):
        return value.replace(tzinfo=None).isoformat(" ")
    return value.isoformat() if isinstance(value, (datetime.date, datetime.time)) else value


def key_of(row: Sequence[Any]) -> str:
    """Returns a text that equal rows share."""
    found = list[str]()
    for value in map(plain, row):
        if isinstance(value, float):
            found.append(f"{value:.10g}")
        elif isinstance(value, decimal.Decimal):
            found.append(f"{float(value):.10g}")
        elif isinstance(value, str) and value.startswith("sum "):
            found.append(f"{float(Fraction(value[4:])):.10g}")
        else:
            found.append(str(value))
    return "|".join(found)


def compare(seed: int, count: int, mutants: int, folder: pathlib.Path) -> Iterator[tuple[Any, str]]:
    """Yields statements and how each differs."""
    are_new = sqlite3.sqlite_version_info >= (3, 39)
    for part in range(-(-max(count, mutants) // A_TABLE)):
        compared = Compared(folder, seed * 1000 + part)
        try:
            for number in range(part * A_TABLE, min(count, (part + 1) * A_TABLE)):
                if number % A_CONNECTION == 0:
                    compared.again()
                chance = random.Random(f"{seed} {number}")
                pair = drawn_select.Selects(chance, are_new).statement()
                yield pair, compared.differs(pair)
            for number in range(part * A_TABLE, min(mutants, (part + 1) * A_TABLE)):
                chance = random.Random(f"mutated {seed} {number}")
                drawn = drawn_select.Selects(chance, are_new).statement().ours
                words = [token.text for token in tokens_of(drawn)[:-1]]
                sql = drawn_select.mutated(words, chance)
                yield sql, compared.mutant_differs(sql)
        finally:
            compared.close()


def main() -> int:
    parser = argparse.ArgumentParser(prog="python3 -m tests.selects", description=__doc__)
    parser.add_argument("--seed", type=int, default=1, metavar="N")
    parser.add_argument("--count", type=int, default=5000, metavar="N")
    parser.add_argument("--mutated", type=int, default=0, metavar="N")
    given = parser.parse_args()
    counts = Counter[bool]()
    with tempfile.TemporaryDirectory() as folder:
        for asked, how in compare(given.seed, given.count, given.mutated, pathlib.Path(folder)):
            counts[bool(how)] += 1
            if how:
                print(f"{asked.ours if isinstance(asked, Pair) else asked}\n  {how}\n", flush=True)
    print(f"seed {given.seed}: {counts[False]:,} as sqlite3 {sqlite3.sqlite_version}, "
          f"{counts[True]:,} not")
    return int(counts[True] > 0)


if __name__ == "__main__":
    sys.exit(main())

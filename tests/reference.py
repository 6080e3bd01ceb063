"""sqlite3 over the values that were drawn or read, beside which answers are compared. It gets them
without bwtools."""
from __future__ import annotations

import csv
import decimal
import io
import math
import re
import sqlite3
from fractions import Fraction
from typing import Any, Callable, Iterable, Iterator, Sequence

import bwtools
from bwtools._errors import Refused
from bwtools._sql import plan
from bwtools._sql.plan import Statement

from tests import support


# of doubles; it raises an error instead of rounding
EXACT = decimal.Context(prec=700, traps=[decimal.Inexact])


class Sum:
    """The sum of values, exactly: of whole numbers, of decimals of up to nine digits, or of
    doubles."""

    def __init__(self) -> None:
        self.values: list[Any] = []

    def step(self, value: Any) -> None:
        if value is not None:
            self.values.append(value)

    def exact(self) -> Fraction:
        if any(round(value, 9) != value for value in self.values):
            return Fraction(math.fsum(self.values))
        total = decimal.Decimal()
        for value in self.values:
            total = EXACT.add(total, decimal.Decimal(repr(value)))
        return Fraction(total)

    def finalize(self) -> Any:
        if not self.values:
            return None
        return sum(self.values) if all(isinstance(value, int) for value in self.values) \
            else float(self.exact())


class Total(Sum):
    """The sum of values as a double, likewise."""

    def finalize(self) -> Any:
        return float(self.exact()) if self.values else None


class Mean(Sum):
    """The mean of values, likewise."""

    def finalize(self) -> Any:
        return float(self.exact() / len(self.values)) if self.values else None


class Reference:
    """Tables, each with the names and types of its columns, and rows."""

    def __init__(self) -> None:
        self.exact, self.plain = (sqlite3.connect(":memory:") for _ in range(2))
        self.exact.create_aggregate("sum", 1, Sum)
        self.exact.create_aggregate("avg", 1, Mean)

    def add(self, name: str, columns: Sequence[tuple[str, str]],
            rows: Iterable[Sequence[Any]]) -> None:
        """Adds a table."""
        kept = list(rows)
        for database in (self.exact, self.plain):
            database.execute(f"CREATE TABLE {name} ({', '.join(map(' '.join, columns))})")
            database.executemany(
                f"INSERT INTO {name} VALUES ({', '.join('?' * len(columns))})", kept)

    def rows(self, statement: str) -> list[tuple[Any, ...]]:
        """Returns the rows of an answer. Exact sums can't be used before OVER."""
        database = self.plain if re.search(r"\bover\b", statement, re.IGNORECASE) \
            else self.exact
        return database.execute(statement).fetchall()

    def close(self) -> None:
        self.exact.close()
        self.plain.close()


def is_near(found: Any, wanted: Any) -> bool:
    """Returns whether two values are equal: doubles within one unit in the last place."""
    if isinstance(found, float) and isinstance(wanted, float) and math.isfinite(wanted):
        return abs(found - wanted) <= math.ulp(max(abs(found), abs(wanted)))
    return type(found) is type(wanted) and found == wanted


class Compared(support.TestCase):
    """Tests of answers beside those of sqlite3."""

    def compare(self, found: Sequence[Sequence[Any]], wanted: Sequence[Sequence[Any]]) -> None:
        """Compares rows, in their order."""
        for place, (row, other) in enumerate(zip(found, wanted)):
            if len(row) != len(other) or not all(map(is_near, row, other)):
                self.fail(f"row {place} is {row}, expected {other}")
        self.assertEqual(len(found), len(wanted))


def csv_of(records: Iterable[Sequence[Any]]) -> str:
    """Returns a CSV of these records."""
    out = io.StringIO()
    csv.writer(out, lineterminator="\n").writerows(records)
    return out.getvalue()


class Asked(Compared):
    """A table, of which statements are asked in both ways."""

    def set_up(self, path: Any, data: str, table: Any, *words: str) -> None:
        """Imports a table, and gives sqlite3 its values."""
        support.imported(path, data, *words)
        self.connection, self.base = bwtools.connect(path), Reference()
        self.addCleanup(self.connection.close)
        self.addCleanup(self.base.close)
        # also those of nulls, of which nothing is drawn
        columns = getattr(table, "all", table.columns)
        self.base.add(table.name, [(each.name, each.type) for each in columns],
                      zip(*(each.values for each in columns)))

    def answers(self, sql: str) -> Iterator[Any]:
        """Yields the answer of each way that serves a statement, or what refuses it."""
        statement = Statement(sql, self.connection._database.catalog)
        ways: list[Callable[[], Any]] = [
            lambda: plan.answer(statement, self.connection._database.engine),
            lambda: self.connection._database.by_sqlite.answer(statement)]
        for ask in ways:
            try:
                answer = ask()
            except Refused as refused:
                yield refused
            else:
                if answer:
                    yield answer

    def ask(self, sql: str, instead: str) -> int:
        """Compares the answers to a statement. Returns how many ways served it."""
        wanted: Any
        try:
            wanted = self.base.rows(instead)
        except sqlite3.Error as error:
            wanted = error
        try:
            found = list(self.answers(sql))
        except Refused as refused:
            self.assertIsInstance(wanted, sqlite3.Error, refused)
            return 0
        for answer in found:
            if isinstance(wanted, sqlite3.Error) or isinstance(answer, Refused):
                self.assertIsInstance(answer, Refused, wanted)
                self.assertIsInstance(wanted, sqlite3.Error, answer)
                continue
            rows = list(answer.rows())
            self.compare(rows, wanted)
            self.assertEqual(sum(len(block[0]) for block in answer.fields()), len(rows))
        if len(found) == 2 and not any(isinstance(answer, Refused) for answer in found):
            self.assertEqual(*((list(answer.headings), answer.kinds) for answer in found))
        return len(found)

"""Who answers, and what makes SQLite quick: columns that are filled, sums of integers, and doubles
that are kept."""
import datetime
import random
import unittest
from unittest import mock

import bwtools
from bwtools._aggregation import Aggregate
from bwtools._result import columns_of
from bwtools._sql import groups
from bwtools._sql.by_sqlite import text_of
from bwtools._sql.plan import Statement
from bwtools._types import kinds
from bwtools._types.base import Column

from tests.support import Imported, sample

ROWS = sample(8_000, 20_000)
COLUMN = Column("c", "c", kinds.Whole())


def drawn():
    """Returns the CSV of many rows."""
    chance, start = random.Random(3), datetime.datetime(1969, 12, 30)
    lines = ["id,g,cents,price,score,at,wide", "1,1,1,0.01,1e-300,1969-12-30 00:00:00,1"]
    for place in range(2, ROWS + 1):
        at = start + datetime.timedelta(seconds=chance.randrange(10 ** 6))
        fields = [place, chance.randrange(20), chance.randrange(-99, 100_000),
                  f"{chance.randrange(10 ** 6) / 100:.2f}", repr(chance.gauss(0, 1e9)), at,
                  chance.randrange(1 << 48)]
        lines.append(",".join("" if chance.random() < .02 else str(field) for field in fields))
    return "".join(f"{line}\n" for line in lines)


class Cost(unittest.TestCase):
    def test_the_quicker_one_is_asked(self):
        added = [Aggregate("SUM", COLUMN)]
        rows = 10 ** 6
        for given, wanted in [
                ((rows, rows, 1, [], 1), True), ((rows, 300, 1, [], 1), False),
                ((rows, 300, 1, [], 0), False), ((rows, rows, 1, [], None), False),
                ((500, 500, 1, added, 2), False), ((rows, 300, 1, added, 2), False),
                ((rows, 50_000, 1, added, 0), True), ((rows, rows, 2, added, 3), True)]:
            with self.subTest(given):
                self.assertEqual(groups.is_sqlite_quicker(*given), wanted)

    def test_groups_at_most(self):
        whole = {"MIN(c)": 3, "MAX(c)": 12}
        self.assertEqual(groups.groups_at_most([COLUMN], whole, 100), 11)
        self.assertEqual(groups.groups_at_most([COLUMN, COLUMN], whole, 100), 100)
        self.assertEqual(groups.groups_at_most([COLUMN], {"MIN(c)": None, "MAX(c)": None}, 9), 1)


class Quicker(Imported):
    tables = {"t.bw": (drawn(),)}

    def setUp(self):
        self.connection = bwtools.connect(self.folder / "t.bw")
        self.addCleanup(self.connection.close)
        self.database = self.connection._database

    def test_many_groups_are_counted_by_sqlite(self):
        for sql, way in [("SELECT id % 10, COUNT(*), SUM(cents) FROM t GROUP BY id % 10", 2),
                         ("SELECT id, g, COUNT(*) FROM t GROUP BY id, g", 2),
                         ("SELECT g, COUNT(*) FROM t GROUP BY g", 1),
                         ("SELECT g % 3, COUNT(*) FROM t GROUP BY g % 3", 1),
                         ("SELECT strftime('%H', at), COUNT(*) FROM t GROUP BY 1", 2)]:
            with self.subTest(sql):
                answer = self.database.answer(sql)
                self.assertEqual(answer.way, way)
                with bwtools.connect(self.folder / "t.bw", list_all=False) as other:
                    # if SQLite may not get the rows, Python counts
                    other._database.missing = lambda *_: None
                    again = other._database.answer(sql)
                    self.assertEqual(again.way, 1)
                    self.assertEqual(list(again.rows()), list(answer.rows()))

    def test_doubles_are_kept(self):
        first, second = (self.database.answer("SELECT AVG(score), SUM(score) FROM t")
                         for _ in range(2))
        self.assertEqual(list(first.rows()), list(second.rows()))
        self.assertEqual([len(each.asked) for each in (first, second)], [2, 1])
        wanted = self.database.by_sqlite.answer(
            Statement("SELECT AVG(score), SUM(score) FROM t", self.database.catalog))
        self.assertEqual(list(first.rows()), list(wanted.rows()))

    def test_sums_of_case_are_sums_of_integers(self):
        for argument, is_native in [
                ("CASE WHEN g = 1 THEN cents ELSE 0 END", True), ("coalesce(price, 1.5)", True),
                ("CASE g WHEN 1 THEN price WHEN 2 THEN cents END", True), ("cents + g * 2", True),
                ("CASE WHEN g < 0 THEN price ELSE 0 END", True), ("coalesce(price, 1)", True),
                ("coalesce(cents, price, 0)", True), ("ifnull(price, 0)", True),
                ("nullif(price, 0)", True), ("nullif(cents, 1.5)", False),
                ("coalesce(nullif(price, 1), iif(g > 3, 1, 2.5))", True),
                ("iif(g < 0, -price, iif(g < -1, 2.5, cents))", True), ("5. + id", False),
                ("CASE WHEN g > 3 THEN -price ELSE 7 END", True), ("NULL", False),
                ("iif(g > 5, -price, NULL)", True), ("g > 5", True), ("wide - 1", True),
                ("CASE WHEN g THEN score END", False), ("price * 2", False), ("price + 1", False),
                ("wide * wide", False), ("length(at)", False)]:
            with self.subTest(argument):
                sql = f"SELECT SUM({argument}), AVG({argument}) FROM t WHERE id + 0 > 0"
                statement = Statement(sql, self.database.catalog)
                self.assertEqual("bw_sum" not in text_of(statement), is_native)
                found = list(self.database.by_sqlite.answer(statement).rows())
                if "wide" not in argument:
                    # by our own functions of doubles
                    wanted = self.database.answer(
                        f"SELECT SUM(x), AVG(x) FROM (SELECT {argument} AS x FROM t "
                        "WHERE id + 0 > 0)")
                    wanted = list(wanted.rows())
                    # a sum of what is chosen among decimals is one of decimals
                    types = [float] * 2 if is_native and ("price" in argument or "." in argument) \
                        else list(map(type, wanted[0]))
                    self.assertEqual(list(map(type, found[0])), types)
                    self.assertAlmostEqual(found[0][0], wanted[0][0], 6)
                    self.assertAlmostEqual(found[0][1], wanted[0][1], 6)

    def test_rows_that_offset_leaves_out_are_counted(self):
        found = self.connection.execute("SELECT id, g FROM t LIMIT 3 OFFSET 7990").fetchall()
        rows = self.connection.execute("SELECT id, g FROM t").fetchall()
        self.assertEqual(found, rows[7990:7993])
        converted = list[int]()

        def noted(lines, width):
            converted.append(lines.count(b"\n"))
            return columns_of(lines, width)
        with mock.patch("bwtools._result.columns_of", noted):
            self.connection.execute("SELECT id, g FROM t LIMIT 3 OFFSET 7990").fetchall()
        self.assertEqual(sum(converted), 3)

    def test_times_before_1970_and_nulls_are_filled(self):
        statement = Statement("SELECT at, price, wide FROM t WHERE id + 0 > 0 ORDER BY id + 0",
                              self.database.catalog)
        wanted = [row[1:] for row in self.connection.execute("SELECT id, at, price, wide FROM t")
                  if row[0] is not None]
        found = list(self.database.by_sqlite.answer(statement).objects())
        self.assertEqual(found[:400], wanted[:400])
        self.assertEqual(found == wanted, True)

"""Groups and their totals: by statements of bw that must add up, and of rows that bw listed; rows
in order, within limits."""
import math
import random
import unittest
from unittest import mock

import bwtools
from bwtools import _aggregation as counted, _result as rows
from bwtools._aggregation import float_sum
from bwtools._engine import executor
from bwtools._engine.executor import Part
from bwtools._errors import Failed, Refused
from bwtools._result import Limits
from bwtools._sql import groups, plan
from bwtools._sql.groups import Wanted
from bwtools._sql.plan import Statement
from bwtools._types import kinds
from tests.support import IS_WHOLE, Imported, imported

CITIES = ("Bern", "Genf", "Zug")


def drawn():
    """Returns the CSV of drawn rows, the first of which make each column of its kind."""
    chance = random.Random(5)
    lines = ["city,n,price,f,ok,wide", ",,,,,", "Bern,1,0.05,1e-300,true,5",
             "Zug,2,12.50,-1e300,false,9223372036854775000"]
    for _ in range(500):
        fields = [chance.choice(CITIES), chance.randrange(9), f"{chance.randrange(5000) / 100:.2f}",
                  repr(chance.gauss(0, 1)),
                  chance.choice(("true", "false")), chance.randrange(10 ** 15)]
        lines.append(",".join("" if chance.random() < .1 else str(field) for field in fields))
    return "".join(f"{line}\n" for line in lines)


class Asked(Imported):
    """Questions over an imported table."""

    tables = {"t.bw": (drawn(),)}

    @classmethod
    def setUpClass(cls):
        super().setUpClass()
        cls.connection = bwtools.connect(cls.folder / "t.bw")
        cls.addClassCleanup(cls.connection.close)

    def setUp(self):
        self.engine = self.connection._database.engine(self.connection._database.catalog.only)

    def answer(self, sql):
        database = self.connection._database
        answer = plan.answer(Statement(sql, database.catalog), database.engine)
        self.assertIsNotNone(answer, sql)
        return answer

    def rows(self, sql):
        return list(self.answer(sql).rows())

    def by_sqlite(self, sql):
        database = self.connection._database
        return list(database.by_sqlite.answer(Statement(sql, database.catalog)).rows())


class Groups(Asked):
    def test_few_groups_are_counted_by_statements(self):
        answer = self.answer("SELECT city, COUNT(*), SUM(price) FROM t WHERE n > 2 GROUP BY city")
        where = "FROM t WHERE (n > 2) AND (city"
        asked = [f"SELECT COUNT(*) {where} IS NULL)",
                 *(f"SELECT COUNT(*) {where} = {code})" for code in range(3)),
                 f"SELECT COUNT(*), SUM(price) {where} IS NULL)",
                 *(f"SELECT COUNT(*), SUM(price) {where} = {code})" for code in range(3))]
        self.assertEqual(answer.asked[1:], ["SELECT COUNT(*) FROM t", *asked])
        self.assertEqual(answer.asked[0],
                         "SELECT COUNT(*), SUM(price), COUNT(city), MIN(city), MAX(city) FROM t "
                         "WHERE n > 2")
        self.assertEqual([row[0] for row in answer.rows()], [None, *CITIES])

    def test_all_groups_are_asked_their_totals_at_once(self):
        answer = self.answer("SELECT city, ok, SUM(n) FROM t GROUP BY city, ok")
        self.assertEqual(answer.asked[1:5],
                         [f"SELECT COUNT(*) FROM t WHERE city {of}"
                          for of in ("IS NULL", "= 0", "= 1", "= 2")])
        self.assertEqual(answer.asked[-1],
                         "SELECT COUNT(*), SUM(n) FROM t WHERE city = 2 AND ok = 1")
        self.assertEqual(len(answer.asked), 1 + 4 + 12)

    def test_groups_without_rows_are_asked_no_totals(self):
        answer = self.answer("SELECT n, SUM(price) FROM t WHERE n IN (1, 5) GROUP BY n")
        self.assertEqual([row[0] for row in answer.rows()], [1, 5])
        self.assertEqual(len(answer.asked), 2 + 5 + 2)
        self.assertEqual(self.answer("SELECT n, SUM(price) FROM t WHERE n > 100 GROUP BY n").asked,
                         ["SELECT COUNT(*), SUM(price), COUNT(n), MIN(n), MAX(n) FROM t WHERE n > "
                          "100"])

    def test_columns_of_few_groups_are_counted_one_after_another(self):
        answer = self.answer(
            "SELECT city, ok, COUNT(*) FROM t WHERE city = 'Zug' GROUP BY city, ok")
        self.assertEqual(len(answer.asked), 2 + 1 + 3)
        self.assertEqual([row[:2] for row in answer.rows()],
                         [("Zug", None), ("Zug", 0), ("Zug", 1)])

    def test_totals_that_do_not_add_up_fail(self):
        for sql, at in [("SELECT city, COUNT(*) FROM t GROUP BY city", 2),
                        ("SELECT n, SUM(price) FROM t GROUP BY n", 4),
                        ("SELECT city, MIN(n) FROM t GROUP BY city", 2),
                        ("SELECT city, MAX(n) FROM t GROUP BY city", 2),
                        ("SELECT city, SUM(n) FROM t WHERE n > 1 GROUP BY city", 7)]:
            totals, asked = self.engine.totals, []

            def wrong(statements):
                found = [list(each) for each in totals(statements)]
                for place, each in enumerate(found):
                    if len(asked) + place == at:
                        each[-1] = (each[-1] or 0) + (1 if "MIN" not in sql else -5)
                asked.extend(statements)
                return found

            with self.subTest(sql), mock.patch.object(self.engine, "totals", wrong), \
                    self.assertRaisesRegex(Failed, "don't add up to that of all rows"):
                self.rows(sql)

    def test_listed_rows_that_do_not_add_up_fail(self):
        listed = self.engine.rows

        def shorter(statement):
            return [Part(part.data[:part.data.rindex(b"\n", 0, -1) + 1])
                    for part in listed(statement)]

        for items in ("COUNT(*)", "SUM(n)", "MAX(wide)"):
            with self.subTest(items), mock.patch.object(self.engine, "rows", shorter), \
                    self.assertRaisesRegex(Failed, "don't add up"):
                self.rows(f"SELECT price, {items} FROM t GROUP BY price")

    def test_many_groups_are_those_of_statements(self):
        for sql in ("SELECT city, ok, COUNT(*), SUM(price), AVG(n), MIN(wide), MAX(price), "
                    "COUNT(n), SUM(f), COUNT(DISTINCT n) "
                    "FROM t GROUP BY city, ok",
                    "SELECT n, COUNT(*) FROM t GROUP BY n",
                    "SELECT COUNT(DISTINCT n), COUNT(DISTINCT city) FROM t",
                    "SELECT ok, MAX(n), MIN(n) FROM t WHERE wide > 5 GROUP BY ok"):
            with self.subTest(sql):
                few = self.answer(sql)
                with mock.patch.object(groups, "MOST_STATEMENTS", 0):
                    many = self.answer(sql)
                self.assertEqual(list(few.rows()), list(many.rows()))
                self.assertEqual(list(few.rows()), self.by_sqlite(sql))
                self.assertLess(len(many.asked), 6)

    def test_the_border_is_the_number_of_choices(self):
        column, other = self.connection._database.catalog.only.columns[:2]
        whole = {"COUNT(*)": 9, "COUNT(city)": 9, "MIN(city)": 0, "MAX(city)": 19, "COUNT(n)": 8,
                 "MIN(n)": -1, "MAX(n)": 17}
        for most, keys, wanted in [(20, [column], True), (19, [column], False), (20, [other], True),
                                   (19, [other], False),
                                   (400, [column, other], True), (399, [column, other], False)]:
            with self.subTest(most), mock.patch.object(groups, "MOST_STATEMENTS", most):
                found = groups.choices_of(mock.Mock(), Wanted("t", "", keys), whole)
                self.assertEqual(bool(found), wanted)
        far = {**whole, "MIN(n)": -(1 << 62), "MAX(n)": 1 << 62}
        self.assertEqual(groups.choices_of(mock.Mock(), Wanted("t", "", [other]), far), [])

    def test_few_rows_of_many_are_listed(self):
        column = self.connection._database.catalog.only.columns[0]
        whole = {"COUNT(*)": 10, "COUNT(city)": 10, "MIN(city)": 0, "MAX(city)": 19}
        for rows_of_table, wanted in [(1000, True), (1001, False)]:
            engine = mock.Mock(**{"totals.return_value": [[rows_of_table]]})
            found = groups.choices_of(engine, Wanted("t", "n > 5", [column]), whole)
            self.assertEqual(bool(found), wanted)

    def test_too_many_groups_are_refused(self):
        with mock.patch.object(counted, "MOST_GROUPS", 300):
            for sql in ("SELECT wide, COUNT(*) FROM t GROUP BY wide",
                        "SELECT wide, SUM(n) FROM t GROUP BY wide",
                        "SELECT DISTINCT price FROM t", "SELECT f, SUM(f) FROM t GROUP BY f"):
                with self.subTest(sql), self.assertRaisesRegex(Refused, "more than 300 groups"):
                    self.rows(sql)

    def test_sums_outside_64_bits_are_refused(self):
        self.assertEqual(self.rows("SELECT SUM(wide) FROM t WHERE wide > 9e18"),
                         [(9223372036854775000,)])
        for sql in ("SELECT SUM(wide) FROM t", "SELECT ok, SUM(wide) FROM t GROUP BY ok",
                    "SELECT SUM(wide) FROM t GROUP BY n > 0 "):
            with self.subTest(sql), \
                    self.assertRaisesRegex(Refused, "SUM.* is outside the range of 64 bits"):
                list(self.connection._database.answer(sql).rows())
        with mock.patch.object(groups, "MOST_STATEMENTS", 0), \
                self.assertRaisesRegex(Refused, "64 bits: 9,"):
            self.rows("SELECT ok, SUM(wide) FROM t GROUP BY ok")

    def test_floats_are_listed_and_added(self):
        answer = self.answer("SELECT SUM(f), AVG(f), COUNT(f) FROM t")
        self.assertEqual(answer.asked, ["SELECT COUNT(*), COUNT(f) FROM t",
                                        "SELECT f FROM t WHERE f IS NOT NULL"])
        self.assertEqual(list(answer.rows())[0][0], -1e300)
        answer = self.answer("SELECT ok, SUM(f) FROM t WHERE f > -100 GROUP BY ok")
        self.assertIn("SELECT ok, f FROM t WHERE (f > 0) AND (f IS NOT NULL)", answer.asked)
        self.assertEqual(list(answer.rows()),
                         self.by_sqlite("SELECT ok, SUM(f) FROM t WHERE f > -100 GROUP BY ok"))

    def test_expressions_make_groups_of_those_of_their_columns(self):
        answer = self.answer("SELECT n % 3 AS r, COUNT(*), SUM(price), MIN(n), AVG(f) FROM t "
                             "WHERE f > -9 GROUP BY r")
        self.assertEqual([row[0] for row in answer.rows()], [None, 0, 1, 2])
        self.assertIn("SELECT n, f FROM t WHERE (f > 0) AND (f IS NOT NULL)", answer.asked)
        for most in (groups.MOST_STATEMENTS, 0):
            for sql in ("SELECT n % 3 AS r, COUNT(*), SUM(price), MIN(n), AVG(f) FROM t WHERE f > "
                        "-9 GROUP BY r",
                        "SELECT upper(city), ok, MAX(wide), COUNT(f) FROM t GROUP BY upper(city), "
                        "ok ORDER BY 3",
                        "SELECT n > 100, COUNT(*) FROM t WHERE n > 100 GROUP BY n > 100",
                        "SELECT n / 2, n / 2.0 FROM t GROUP BY n / 2.0, n / 2"):
                with self.subTest(sql, most=most), \
                        mock.patch.object(groups, "MOST_STATEMENTS", most):
                    self.assertEqual(self.rows(sql), self.by_sqlite(sql))
        with mock.patch.object(counted, "MOST_GROUPS", 300):
            sql = "SELECT wide % 2, COUNT(*) FROM t GROUP BY wide % 2"
            self.assertEqual(self.connection._database.answer(sql).way, 2)

    def test_distinct_rows_keep_the_order_of_the_file(self):
        for sql in ("SELECT DISTINCT city, ok FROM t", "SELECT DISTINCT n FROM t WHERE n > 3",
                    "SELECT DISTINCT upper(city) FROM t"):
            with self.subTest(sql):
                answer = self.answer(sql)
                self.assertEqual(list(answer.rows()), self.by_sqlite(sql))
                self.assertEqual(len(answer.asked), 2)
        self.assertEqual(len(self.answer("SELECT DISTINCT city FROM t ORDER BY city DESC").asked),
                         5)
        self.assertEqual(len(self.answer("SELECT DISTINCT city c, ok FROM t ORDER BY c, 2").asked),
                         1 + 4 + 12)
        self.assertEqual(len(self.answer("SELECT DISTINCT city, ok FROM t ORDER BY city").asked), 2)

    def test_expressions_over_groups_fail_as_sqlite_says(self):
        with self.assertRaisesRegex(Refused, "integer overflow"):
            self.rows("SELECT abs(-9223372036854775807 - COUNT(n) / COUNT(n)) FROM t")


class Counted(unittest.TestCase):
    """Listed rows, counted and added."""

    def parts(self, *texts):
        return [Part(f"heading\n{text}".encode()) for text in texts]

    def test_counts_are_in_the_order_of_rows(self):
        found = counted.counts(self.parts("2,1\nNULL,1\n2,1\n", "", "0,NULL\n2,1\n"))
        null = counted.NULL_NUMBER
        self.assertEqual((found.keys, found.totals),
                         ([(2, 1), (null, 1), (0, null)], {"COUNT(*)": [3, 1, 1]}))
        found = found.ascending()
        self.assertEqual((found.keys, found.totals),
                         ([(null, 1), (0, null), (2, 1)], {"COUNT(*)": [1, 1, 3]}))

    def test_distinct(self):
        self.assertEqual(counted.distinct(self.parts("1,5\n1,6\n1,5\n", "2,5\nNULL,5\n")),
                         {(1,): 2, (2,): 1, (counted.NULL_NUMBER,): 1})
        self.assertEqual(counted.distinct(self.parts("5\n6\n", "5\n")), {(): 2})
        self.assertEqual(counted.distinct(self.parts("")), {})

    def test_totals(self):
        functions = {"a": ["SUM", "MIN", "MAX", "COUNT"], "b": ["SUM"]}
        with mock.patch.object(executor, "BLOCK", 4):
            found = counted.totals(self.parts("1,5,1\n2,NULL,1\n1,-7,NULL\n", "1,6,3\nNULL,0,0\n"),
                                   1, functions)
        self.assertEqual(found.columns, [[1, 2, counted.NULL_NUMBER]])
        self.assertEqual(found.totals, {"COUNT(*)": [3, 1, 1], "SUM(a)": [4, None, 0],
                                        "MIN(a)": [-7, None, 0],
                                        "MAX(a)": [6, None, 0], "COUNT(a)": [3, 0, 1],
                                        "SUM(b)": [4, 1, 0]})

    def test_extremes_of_64_bits(self):
        least, greatest = -(1 << 63), (1 << 63) - 1
        found = counted.totals(self.parts(f"1,{greatest}\n2,{least}\n"), 1, {"a": ["MIN", "MAX"]})
        self.assertEqual((found.totals["MIN(a)"], found.totals["MAX(a)"]),
                         ([greatest, least], [greatest, least]))

    def test_lines_of_another_width_fail(self):
        for text in ("1,2,3\n1,2\n", "1\n", "1,2,3"):
            with self.subTest(text), self.assertRaisesRegex(Failed, "lines of other than 2 fields"):
                counted.totals(self.parts(f"1,2\n{text}"), 1, {"a": ["SUM"]})

    def test_doubles(self):
        kind = kinds.Decimals(1, False)
        found = counted.doubles(self.parts("1,1,5\n1,1,6\n", "2,1,7\n"), 2, kind)
        self.assertEqual({key: list(each) for key, each in found.items()},
                         {(1, 1): [.5, .6], (2, 1): [.7]})
        self.assertEqual(list(counted.doubles(self.parts("5\n6\n"), 0, kind)[()]), [.5, .6])

    def test_sums_of_doubles(self):
        for doubles, wanted in [([.1] * 10, 1.0), ([1e308, 1e308, -1e308], 1e308),
                                ([1e308] * 2, math.inf),
                                ([-1e308] * 2, -math.inf), ([1e100, 1.0, -1e100], 1.0)]:
            self.assertEqual(float_sum(doubles), wanted)
        self.assertIsNone(counted.float_total("AVG", 0.0, 0))

    def test_numbers_of_each_binade_have_one_exponent(self):
        gap, least, greatest = 5, 3, (4 << 52) + 7
        found = counted.binades(gap, least, greatest)
        self.assertEqual((found[0][0], found[-1][1], len(found)), (least, greatest, 5))
        for (_, last), (first, _) in zip(found, found[1:]):
            self.assertEqual(last + 1, first)
            self.assertEqual((first + gap) % (1 << 52), 0)
        self.assertEqual(counted.binades(gap, -greatest, -least),
                         [(-last, -first) for first, last in reversed(found)])
        with self.assertRaisesRegex(Refused, "none of its column's floats"):
            counted.sum_of_binades(kinds.Floats(0), [(0x7FF << 52, 1, 0x7FF << 52)])


class SumsOfFloats(Imported):
    """Sums by statements for each exponent are those of listed rows."""

    def test_both_are_the_double_nearest_to_the_exact_sum(self):
        chance = random.Random(53)
        for number, draw in enumerate([
                lambda: chance.gauss(50, 20), lambda: chance.choice((1, -1)) * 5e-324 *
                chance.randrange(1 << 54), lambda: chance.choice((1e308, 1.7e308, 5e307)),
                lambda: chance.choice((0.1, -0.1, 0.0, 0.3, 1e16)),
                lambda: math.ldexp(chance.random() - .5, chance.randrange(-40, 40))]):
            doubles = [draw() for _ in range(500)]
            # the whole asks a statement for each of a thousand exponents, the sample for sixty
            other = 1e-7 if IS_WHOLE else max(doubles) / 2 ** 60 or 5e-324
            lines = "".join(f"{place},{each!r}\n" for place, each in enumerate(doubles))
            path = self.folder / f"floats{number}.bw"
            imported(path, f"id,f\n{lines}999,{other}\n998,\n")
            with bwtools.connect(path) as connection:
                for where, kept in [("", [*doubles, other]),
                                    (" WHERE id < 200", doubles[:200]),
                                    (" WHERE f < 0", [each for each in doubles if each < 0]),
                                    (" WHERE id = 998", [])]:
                    wanted = float_sum(kept) if kept else None
                    for cost in (10 ** 9, 0):
                        with mock.patch("bwtools._sql.groups.FLOAT_COST", cost):
                            answer = connection._database.answer(
                                f"SELECT SUM(f), COUNT(f) FROM floats{number}{where}")
                        listed = any(sql.startswith("SELECT f ") for sql in answer.asked)
                        self.assertEqual(listed, cost == 0 and bool(kept))
                        self.assertEqual(list(answer.rows()), [(wanted, len(kept))])
                        connection._database.engine(
                            connection._database.catalog.only).kept.clear()


class InOrder(Asked):
    """Rows in order, within limits."""

    STATEMENTS = ["SELECT n, city FROM t ORDER BY n LIMIT 20",
                  "SELECT n, city FROM t ORDER BY n DESC, city DESC LIMIT 20 OFFSET 7",
                  "SELECT n FROM t ORDER BY n NULLS LAST LIMIT 90",
                  "SELECT wide w, n FROM t ORDER BY w DESC NULLS FIRST LIMIT 70",
                  "SELECT city FROM t ORDER BY city, price DESC NULLS LAST, f LIMIT 33",
                  "SELECT f FROM t ORDER BY f DESC LIMIT 3",
                  "SELECT n FROM t WHERE n IS NULL ORDER BY n LIMIT 5",
                  "SELECT n FROM t WHERE n > 100 ORDER BY n LIMIT 5",
                  "SELECT ok, n FROM t WHERE city = 'Zug' ORDER BY 1, 2 DESC",
                  "SELECT n FROM t ORDER BY ok LIMIT 40",
                  "SELECT price FROM t ORDER BY price LIMIT 0",
                  "SELECT n, n, city FROM t WHERE ok LIMIT 3 OFFSET 2",
                  "SELECT * FROM t LIMIT -1 OFFSET 490",
                  "SELECT n FROM t ORDER BY n LIMIT 5 OFFSET 600"]

    def test_rows_are_those_of_sqlite(self):
        for sql in self.STATEMENTS:
            for many in (rows.MANY_ROWS, 10):
                with self.subTest(sql, many=many), mock.patch.object(rows, "MANY_ROWS", many):
                    self.assertEqual(self.rows(sql), self.by_sqlite(sql))

    def test_a_limit_lists_few_rows(self):
        listed = []
        ask = self.engine.rows

        def noted(statement):
            parts = ask(statement)
            listed.append(sum(part.count for part in parts))
            return parts

        for sql, most in [("SELECT wide FROM t ORDER BY wide LIMIT 60", 60),
                          ("SELECT f FROM t ORDER BY f DESC LIMIT 5", 5),
                          ("SELECT wide FROM t ORDER BY wide DESC NULLS FIRST LIMIT 2", 80)]:
            with self.subTest(sql), mock.patch.object(rows, "MANY_ROWS", 10), \
                    mock.patch.object(self.engine, "rows", noted):
                self.rows(sql)
                self.assertLessEqual(listed.pop(), most)

    def test_too_many_rows_to_sort_are_left_to_sqlite(self):
        with mock.patch.object(rows, "MOST_ROWS", 100):
            statement = Statement("SELECT n FROM t ORDER BY n", self.connection._database.catalog)
            self.assertIsNone(plan.answer(statement, self.connection._database.engine))
            with mock.patch.object(rows, "MANY_ROWS", 10):
                self.rows("SELECT wide FROM t ORDER BY wide DESC LIMIT 5")

    def test_limits_without_an_order_are_of_all_files(self):
        parts = [Part(b"a\n1\n2\n"), Part(b"a\n"), Part(b"a\n3\n4\n")]
        self.assertEqual(rows.limited(parts, Limits(2, 1)), b"\n2\n3\n")
        parts = [Part(b"a\n7\n", None, 4), Part(b"a\n8\n9\n")]
        self.assertEqual(rows.limited(parts, Limits(2, 4)), b"\n7\n8\n")
        parts = [Part(b"a\n", None, 4), Part(b"a\n8\n9\n")]
        self.assertEqual(rows.limited(parts, Limits(2, 5)), b"\n9\n")


class Files(Imported):
    """A folder of shards is asked as one table."""

    tables = {"t.bw": (drawn(),), "shards": (drawn(), "--shards", "3")}

    def test_answers_of_shards_are_those_of_one_file(self):
        with bwtools.connect(self.folder / "t.bw") as one, \
                bwtools.connect(self.folder / "shards") as several:
            for sql in ("SELECT COUNT(*), SUM(price), MIN(city), MAX(f), AVG(n), SUM(f) FROM t",
                        "SELECT * FROM t WHERE n > 4",
                        "SELECT city, COUNT(*), COUNT(DISTINCT n) FROM t GROUP BY city",
                        "SELECT DISTINCT n, ok FROM t",
                        "SELECT price, SUM(n) FROM t GROUP BY price",
                        "SELECT wide FROM t ORDER BY wide DESC LIMIT 9"):
                with self.subTest(sql):
                    found = several._database.answer(sql)
                    self.assertEqual(found.way, 1)
                    self.assertEqual(list(found.rows()), list(one._database.answer(sql).rows()))
            asker = several._database.engine(several._database.catalog.only).asker
            self.assertEqual(len(asker.sessions.sessions), 3)

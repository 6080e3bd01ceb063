"""What is answered by statements of bw, and what their conditions become over numbers."""
import contextlib
import io
import pathlib
import tempfile
import unittest
from fractions import Fraction
from unittest import mock

from bwtools._engine.executor import Outside
from bwtools._errors import Refused
from bwtools._result import Limits
from bwtools._sql import plan, pushdown
from bwtools._sql.lexer import tokens_of
from bwtools._sql.literals import Constant, evaluate
from bwtools._sql.parser import parse
from bwtools._sql.plan import Statement
from bwtools._sql.pushdown import Comparand
from bwtools._sql.syntax import Literal, walk
from bwtools._storage import columns_file
from bwtools._storage.catalog import Catalog, Table
from bwtools._types import kinds
from bwtools._types.base import Column
from bwtools._types.dictionary import SortedList
from tests.support import texts

CITIES = ("Bern", "Genf", "O'Hare", "Zug", "bern", "x_y", "ärger")
NAMES = [f"n{place:03}" for place in range(1000)]


def columns():
    """Returns columns of all kinds, as a columns file has them."""
    floats = kinds.Floats(0)
    return [Column("n", "n", kinds.Whole(), ends=["1", "9"]),
            Column("price", "unit price", kinds.Decimals(2, False), ends=["0.00", "20.00"]),
            Column("cost", "cost", kinds.Decimals(2, True), ends=["0", "99"]),
            Column("weight", "weight", kinds.Decimals(1, False), ends=["0.5", "0.7"]),
            Column("day", "day", kinds.Dates(), ends=["2024-04-28", "2024-05-03"]),
            Column("city", "city", texts(*CITIES), ["-"]),
            Column("paid", "paid", kinds.Truths("no", "yes"), ends=["no", "yes"]),
            Column("gone", "gone", kinds.Nulls()),
            Column("f", "f", floats, ends=["-1.5", "2.5"]),
            Column("town", "town", texts("Bern", "Ulm")),
            Column("name", "name", texts(*NAMES)),
            Column("at", "at", kinds.Times("%Y-%m-%d %H:%M"),
                   ends=["2024-05-01 00:00", "2024-05-01 12:00"]),
            Column("big", "big", kinds.Whole(), ends=["0", "99999"]),
            Column("long", "long", kinds.Decimals(1, False), ends=["0.0", "1234567890123456.1"])]


class OverTable(unittest.TestCase):
    """Statements over a table of which only the columns are known."""

    @classmethod
    def setUpClass(cls):
        cls.stack = contextlib.ExitStack()
        cls.addClassCleanup(cls.stack.close)
        folder = cls.stack.enter_context(tempfile.TemporaryDirectory(prefix="unittests-"))
        path = pathlib.Path(folder) / "columns"
        columns_file.write(path, columns(), "t")
        cls.store = cls.stack.enter_context(contextlib.closing(columns_file.Store(path)))
        cls.table = Table("t", "t", cls.store.columns, [])
        cls.catalog = Catalog([cls.table])

    def question(self, statement, *parameters):
        return plan.question_of(Statement(statement, self.catalog, parameters))

    def where(self, condition, *parameters):
        """Returns the condition over numbers."""
        return self.question(f"SELECT n FROM t WHERE {condition}", *parameters).where

    def check(self, pairs):
        for condition, wanted in pairs:
            with self.subTest(condition):
                self.assertEqual(self.where(condition), wanted)

    def refuse(self, conditions):
        for condition in conditions:
            with self.subTest(condition), self.assertRaises(Outside):
                self.fail(self.where(condition))


class Conditions(OverTable):
    def test_literals_of_the_column(self):
        self.check([
            ("n = 5", "n = 5"), ("n == 5", "n = 5"), ("n != 5", "n <> 5"), ("n = -5", "n = -5"),
            ("price < 12.5", "price < 1250"), ("12.50 > price", "price < 1250"),
            ("price = 1e1", "price = 1000"), ("n = 0x10", "n = 16"), ("n = TRUE", "n = 1"),
            ("day >= '2024-05-01'", "day >= 19844"), ("day = DATE '2024-5-1'", "day = 19844"),
            ("city = 'Zug'", "city = 3"), ("city = 'O''Hare'", "city = 2"),
            ("paid = TRUE", "paid = 1"), ("paid = 'false'", "paid = 0"),
            ("n = NULL", "NULL = NULL"), ("f >= 0", "f >= 0"), ('"unit price" = 1', "price = 100"),
            ("t.n = 1", "n = 1"), ("N = 1 -- so", "n = 1"), ("`n` = 1 /* so */", "n = 1"),
            ("1 < 2", "1 = 1"), ("'a' = 'b'", "1 = 0")])

    def test_literals_that_the_column_cannot_have(self):
        self.check([
            ("price < 12.505", "price <= 1250"), ("price > 12.505", "price > 1250"),
            ("price <= 12.505", "price <= 1250"), ("price >= 12.505", "price > 1250"),
            ("price = 12.505", "price <> price"), ("price <> 12.505", "price = price"),
            ("city < 'C'", "city <= 0"), ("city >= 'C'", "city > 0"),
            ("city = 'C'", "city <> city"), ("city <> 'C'", "city = city"),
            ("n < 99999999999999999999", "n = n"), ("n > 99999999999999999999", "n <> n"),
            ("n < -99999999999999999999", "n <> n"), ("day < '2024-05-01 12:00'", "day <= 19844")])

    def test_numbers_of_many_digits_mean_their_exact_values(self):
        self.check([("price < 12.10000000000001", "price <= 1210"),
                    ("price < 1e300", "price = price"),
                    ("f = 0.30000000000000004", "f = 4599075939470750516"),
                    ("f < 1e400", "f < 9218868437227405312"),
                    ("n < 12.10000000000000000001", "n <= 12"),
                    ("long = 1234567890123456.1", "long = 12345678901234561"),
                    ("long = 1234567890123456.10000000000000001", "long <> long")])
        self.check([("price = 12.1000000000000000001", "price <> price"),
                    ("price > 12.1000000000000000001", "price > 1210"),
                    ("f = 9007199254740993", "f <> f"),
                    ("f < 9007199254740993", "f <= 4845873199050653696"),
                    ("f < 0.1000000000000000055", "f < 4591870180066957722"),
                    ("n = 1e999999", "n <> n"), ("n > 1e-999999", "n > 0")])

    def test_truth(self):
        self.check([
            ("paid", "paid <> 0"), ("n", "n <> 0"), ("price", "price <> 0"), ("1", "1 = 1"),
            ("NOT paid", "NOT paid <> 0"), ("paid IS TRUE", "paid <> 0 IS TRUE"),
            ("n = 1 IS NOT FALSE", "n = 1 IS NOT FALSE"), ("(n = 1) IS NULL", "n = 1 IS UNKNOWN"),
            ("n = 1 NOTNULL", "n = 1 IS NOT UNKNOWN"), ("gone IS NULL", "gone IS NULL"),
            ("n IS NOT NULL", "n IS NOT NULL"), ("n ISNULL", "n IS NULL"),
            ("n NOT NULL", "n IS NOT NULL"), ("n IS NULL IS FALSE", "n IS NULL IS FALSE"),
            ("n = 1 IS TRUE IS FALSE", "(n = 1 IS TRUE) IS FALSE")])

    def test_operators_bind_as_in_sqlite(self):
        self.check([
            ("n = 1 OR n = 2 AND n = 3", "n = 1 OR n = 2 AND n = 3"),
            ("(n = 1 OR n = 2) AND n = 3", "(n = 1 OR n = 2) AND n = 3"),
            ("NOT n = 1 AND n = 2", "NOT n = 1 AND n = 2"),
            ("NOT (n = 1 AND n = 2)", "NOT (n = 1 AND n = 2)"),
            ("NOT NOT n = 1", "NOT (NOT n = 1)"), ("((n = 1))", "n = 1"),
            ("NOT n = 1 IS NULL", "NOT n = 1 IS UNKNOWN"),
            ("(NOT n = 1) IS NULL", "(NOT n = 1) IS UNKNOWN"),
            ("(n = 1 OR n = 2) IS NOT TRUE", "(n = 1 OR n = 2) IS NOT TRUE"),
            ("n BETWEEN 1 AND 2 AND n = 3", "n BETWEEN 1 AND 2 AND n = 3")])

    def test_between_and_in(self):
        self.check([
            ("price BETWEEN 1.005 AND 2.505", "price BETWEEN 101 AND 250"),
            ("n NOT BETWEEN 1 AND 2", "NOT n BETWEEN 1 AND 2"),
            ("city BETWEEN 'A' AND 'C'", "city BETWEEN 0 AND 0"),
            ("n BETWEEN 1 AND NULL", "(n >= 1 AND NULL = NULL)"),
            ("n BETWEEN 1 AND 99999999999999999999", "(n >= 1 AND n = n)"),
            ("5 BETWEEN n AND 9", "(n <= 5 AND 1 = 1)"),
            ("city IN ('Zug', 'C')", "city IN (3)"), ("city IN ('C')", "city <> city"),
            ("city NOT IN ('C')", "NOT city <> city"),
            ("price IN (1, NULL)", "price IN (100, NULL)"),
            ("price IN (1, cost)", "(price = cost OR price IN (100))"),
            ("n IN (1, 1.5, 2, 1)", "n IN (1, 2)")])

    def test_like_and_glob_are_runs_of_codes(self):
        self.check([
            ("city LIKE 'bern'", "city IN (0, 4)"), ("city GLOB 'bern'", "city IN (4)"),
            ("city LIKE '%e%'", "city IN (0, 1, 2, 4, 6)"),
            ("city NOT LIKE '%e%'", "NOT city IN (0, 1, 2, 4, 6)"),
            ("city LIKE 'x!_%' ESCAPE '!'", "city IN (5)"), ("city LIKE '%'", "city = city"),
            ("city LIKE 'Ä%'", "city <> city"), ("city LIKE 'ä%'", "city IN (6)"),
            ("name GLOB 'n1*'", "name BETWEEN 100 AND 199"),
            ("day LIKE '2024-05%'", "day IN (19844, 19845, 19846)"),
            ("at LIKE '2024-05-01 00:00:0_'", "at BETWEEN 1714521600 AND 1714521609")])
        self.assertEqual(self.where("name LIKE '%0'").count(","), 99)
        # each ten texts of a hundred are a run
        with mock.patch.object(pushdown, "MOST_RUNS", 10):
            self.assertEqual(self.where("name GLOB 'n?5?'").count("BETWEEN"), 10)
        with mock.patch.object(pushdown, "MOST_RUNS", 9):
            self.refuse(["name GLOB 'n?5?'"])
        with mock.patch.object(pushdown, "MOST_BYTES", 400):
            self.refuse(["name LIKE '%0'"])

    def test_columns_of_several_scales_are_compared_by_value(self):
        self.check([
            ("price < cost", "price < cost"), ("n < n", "n < n"), ("n < big", "n < big"),
            ("weight < price", "(weight <> weight OR price <> price OR weight = 5 AND price > 50 "
                               "OR weight = 6 AND price > 60 OR weight = 7 AND price > 70)"),
            ("price = weight", "(price <> price OR weight <> weight OR weight = 5 AND price = 50 "
                               "OR weight = 6 AND price = 60 OR weight = 7 AND price = 70)"),
            ("weight >= paid", "(weight <> weight OR paid <> paid OR paid = 0 AND weight >= 0 "
                               "OR paid = 1 AND weight >= 10)")])
        self.assertIn("n = 3 AND price <> 300", self.where("n <> price"))
        self.assertIn("weight = 6 AND f < 4603579539098121011", self.where("f < weight"))
        self.refuse(["price < big", "f < price", "city = town", "city < day", "n = city"])

    def test_what_is_left_to_sqlite(self):
        self.refuse([
            "n + 1 = 2", "n = 1 + 1", "n = 1 = 1", "n < 2 < 3", "abs(n) = 1",
            "n IN ()", "n IN (1 + 1)", "5 IN (n, 5)", "(n, n) = (1, 2)", "n IS 5", "n IS NOT 5",
            "city || 'x' = 'y'", "city = 'x' COLLATE NOCASE", "n LIKE 5", "city LIKE city",
            "city LIKE 'a' || 'b'", "n LIKE '1%'", "'x'", "NULL", "-n = 1",
            "CASE WHEN n THEN 1 END", "CAST(n AS TEXT) = '5'",
            "n = (SELECT 1)", "EXISTS (SELECT 1)", "n IN (SELECT 1)", "NOT " * 40 + "n = 1"])
        self.check([("(n) = 1", "n = 1"),
                    ("n BETWEEN 1 AND 2 IS NULL", "n BETWEEN 1 AND 2 IS UNKNOWN"),
                    ("city LIKE 'bern' IS NULL", "city IN (0, 4) IS UNKNOWN"),
                    ("n NOT IN (1) IS NULL", "(NOT n IN (1)) IS UNKNOWN"),
                    ("(" * 40 + "n = 1" + ")" * 40, "n = 1")])
        with mock.patch.object(pushdown, "MOST_BYTES", 40):
            self.refuse(["n = 5 OR " * 5 + "n = 7"])
            self.assertEqual(self.where("n = 5 AND n = 7"), "n = 5 AND n = 7")

    def test_parameters_are_literals(self):
        self.assertEqual(self.where("city = ? AND price < ?", "Zug", 1.5),
                         "city = 3 AND price < 150")


class Runs(unittest.TestCase):
    def test_runs(self):
        column = Column("c", "c", kinds.Whole())
        for numbers, wanted in [([], "c <> c"), ([3], "c IN (3)"), ([3, 4], "c IN (3, 4)"),
                                ([3, 4, 5, 6], "c BETWEEN 3 AND 6"),
                                ([1, 3, 4, 5, 6, 8, 9], "(c BETWEEN 3 AND 6 OR c IN (1, 8, 9))")]:
            runs = pushdown.runs_of(numbers)
            self.assertEqual((pushdown.in_runs(column, runs), sum(map(len, runs))),
                             (wanted, len(numbers)))

    def test_a_list_in_memory_has_no_like(self):
        column = Column("c", "c", kinds.Texts(SortedList(("a", "b"))))
        self.assertEqual(pushdown.like(column, "LIKE", "A", None), "c IN (0)")

    def test_literals_are_compared_with_each_other(self):
        one, half, text = (Comparand(None, Constant(None, value, value == 1))
                           for value in (Fraction(1), Fraction(1, 2), "1"))
        self.assertEqual(pushdown.compared(one, ">", one), "1 = 0")
        for other in (text, half):
            with self.assertRaises(Outside):
                pushdown.compared(one, "=", other)


# statements, and whether bw answers them by statements
TAKEN = [
    "SELECT * FROM t", "SELECT n, city FROM t WHERE n > 1", "SELECT x.n, x.* FROM t AS x",
    "SELECT n AS m, city town_2 FROM anything", "SELECT t.n FROM t ORDER BY t.n DESC NULLS LAST",
    "SELECT n m FROM t ORDER BY m, 1, city LIMIT 5 OFFSET 2", "SELECT n FROM t LIMIT 2, 5",
    "SELECT n FROM t LIMIT -1", "SELECT COUNT(*) FROM t",
    'SELECT "unit price", SUM("unit price") s FROM t GROUP BY "unit price" ORDER BY s',
    "SELECT SUM(n) / COUNT(*) FROM t WHERE city = 'Zug'", "SELECT AVG(f), SUM(f) FROM t",
    "SELECT city, COUNT(*) FROM t GROUP BY city", "SELECT city c, COUNT(*) FROM t GROUP BY c",
    "SELECT COUNT(DISTINCT city), MIN(day) FROM t", "SELECT COUNT(*) FROM t HAVING COUNT(*) > 1",
    "SELECT city FROM t GROUP BY city, day HAVING SUM(n) > 5 ORDER BY MAX(n) DESC LIMIT 3",
    "SELECT city, COUNT(*) AS k FROM t GROUP BY city HAVING k > 5 ORDER BY k, 1",
    "SELECT DISTINCT city, n FROM t", "SELECT DISTINCT * FROM t ORDER BY n",
    "SELECT DISTINCT upper(city) FROM t", "SELECT DISTINCT COUNT(*) FROM t GROUP BY city",
    "SELECT CASE WHEN COUNT(*) > 1 THEN 'x' ELSE 'y' END FROM t GROUP BY n",
    "SELECT CAST(AVG(n) AS INTEGER), round(AVG(n), 1) FROM t GROUP BY city",
    "SELECT city || '!' AS city_2 FROM t GROUP BY city ORDER BY length(city)",
    "SELECT coalesce(city, '-'), COUNT(*) FROM t GROUP BY city", "SELECT city FROM t GROUP BY city",
    "SELECT strftime('%Y', day) AS y, COUNT(*), AVG(f) FROM t GROUP BY y ORDER BY y DESC",
    "SELECT substr(city, 1, 1) || '.', SUM(n) FROM t GROUP BY substr(city, 1, 1), paid HAVING "
    "SUM(n) > 5",
    "SELECT n % 7, (n % 7) * 2, COUNT(*) FROM t GROUP BY n % 7 ORDER BY n % 7, COUNT(*)",
    "SELECT COUNT(*) FROM t GROUP BY upper(t.city)",
    "SELECT upper(CITY) FROM t GROUP BY UPPER(city)",
    "SELECT COUNT(1), COUNT('x') FROM t GROUP BY n", "SELECT n FROM t WHERE n = 1;",
    "SELECT DISTINCT SUM(n) FROM t",
    "SELECT city AS city, COUNT(*) FROM t GROUP BY city",
    "SELECT city, COUNT(*) FROM t GROUP BY 1 ORDER BY 2 DESC, 1",
    "SELECT COUNT(*), upper(city) u, paid FROM t GROUP BY 2, 3 HAVING COUNT(*) > 1 ORDER BY u",
    "SELECT n a, city a FROM t", "SELECT n AS x FROM t WHERE x = 1",
    "SELECT city, COUNT(*) FROM t GROUP BY (1)", "SELECT COUNT(*) FROM t GROUP BY CAST(n AS TEXT)",
    "SELECT n % 7 + 1, COUNT(*) FROM t GROUP BY n % 7", "SELECT COUNT(*) FROM t GROUP BY (city)",
    "SELECT COUNT(*) `bw:0` FROM t"]
LEFT = [
    "SELECT 1", "SELECT 1 FROM t", "SELECT n + 1 FROM t", "SELECT n FROM t ORDER BY n + 1",
    "SELECT n FROM t ORDER BY 'x'", "SELECT upper(city) FROM t", "SELECT city, MAX(n) FROM t",
    "SELECT city, n, COUNT(*) FROM t GROUP BY city", "SELECT max(n, big) FROM t",
    "SELECT COUNT(*) FILTER (WHERE n > 1) FROM t", "SELECT SUM(DISTINCT n) FROM t",
    "SELECT SUM(n) OVER () FROM t", "SELECT TOTAL(n) FROM t", "SELECT group_concat(city) FROM t",
    "SELECT SUM(n + 1) FROM t", "SELECT COUNT(NULL) FROM t", "SELECT COUNT() FROM t",
    "SELECT COUNT(1 + 1) FROM t", "SELECT SUM(1) FROM t", "SELECT COUNT(DISTINCT 1) FROM t",
    "SELECT city FROM t ORDER BY city COLLATE NOCASE",
    "SELECT city, COUNT(*) FROM t GROUP BY upper(city)", "SELECT COUNT(*) FROM t GROUP BY 'x'",
    "SELECT COUNT(*) FROM t GROUP BY 1 + 1", "SELECT *, COUNT(*) FROM t GROUP BY 1",
    "SELECT n % 7 + 1, 1, city FROM t GROUP BY 2, city",
    "SELECT COUNT(DISTINCT n) FROM t GROUP BY upper(city)",
    "SELECT n + 1, COUNT(*) FROM t GROUP BY n % 7", "SELECT COUNT(*) FROM t GROUP BY random() + n",
    "SELECT COUNT(*) FROM t GROUP BY date(day, 'NOW')", "SELECT date(), COUNT(*) FROM t GROUP BY n",
    "SELECT strftime('%Y', day), COUNT(*) FROM t GROUP BY strftime('%m', day)",
    "SELECT n AS city, COUNT(*) FROM t GROUP BY city", "SELECT n FROM t UNION SELECT n FROM t",
    "WITH x AS (SELECT n FROM t) SELECT n FROM x", "SELECT a.n FROM t a, t b",
    "SELECT n FROM t JOIN t b USING (n)", "SELECT DISTINCT 1 FROM t",
    "SELECT n FROM (SELECT n FROM t)", "SELECT (SELECT MAX(n) FROM t) FROM t",
    "SELECT n FROM t LIMIT 1 + 1", "SELECT n FROM t LIMIT 2.5", "SELECT random() FROM t GROUP BY n",
    "SELECT n FROM t GROUP BY n HAVING city = 'Zug'", "SELECT * FROM t GROUP BY city",
    "SELECT DISTINCT city, SUM(n) FROM t", "SELECT ALL n FROM t", "SELECT date(day, 'now') FROM t"]
# what the installed SQLite refuses
REFUSED = [
    "SELECT n FROM t ORDER BY 2", "SELECT COUNT(*) FROM t GROUP BY 1",
    "SELECT COUNT(*) FROM t GROUP BY -1", "SELECT city, COUNT(*) FROM t GROUP BY 2",
    "SELECT city FROM t GROUP BY 0", "SELECT COUNT(*) FROM t GROUP BY MAX(n) + 1",
    "SELECT n FROM t HAVING n > 1", "SELECT DISTINCT n FROM t HAVING n > 1",
    "SELECT COUNT(*) * FROM t", "SELECT COUNT(*) COUNT(*) FROM t", "SELECT SUM(n) s, s + 1 FROM t",
    "SELECT n, FROM t", "SELECT n FROM t ORDER BY n LIMIT 5 OFFSET",
    "SELECT city FROM t GROUP BY city ORDER BY 7", "SELECT n FROM t ORDER BY COUNT(*)",
    "SELECT n FROM t WHERE COUNT(*) > 1", "SELECT n n m FROM t"]


class Statements(OverTable):
    def test_taken(self):
        for statement in TAKEN:
            with self.subTest(statement):
                self.question(statement)

    def test_left_to_sqlite(self):
        for statement in LEFT:
            with self.subTest(statement), self.assertRaises(Outside):
                question = self.question(statement)
                # what is asked of bw may show it
                question.body(mock.Mock(rows=mock.Mock(side_effect=AssertionError)))

    def test_what_sqlite_refuses(self):
        for statement in REFUSED:
            with self.subTest(statement), self.assertRaises(Refused):
                self.question(statement)

    def test_the_answer_is_none(self):
        statement = Statement("SELECT n + 1 FROM t", self.catalog)
        self.assertIsNone(plan.answer(statement, lambda table: mock.Mock(asked=[])))

    def test_headings_and_kinds(self):
        question = Statement('SELECT "unit price", n AS N2, MIN(day), COUNT( * ), max(city) + 1, '
                             "SUM(price) FROM t GROUP BY price, n", self.catalog)
        engine = mock.Mock(asked=[])
        engine.totals.return_value = [[0] * 20]
        answer = plan.answer(question, lambda table: engine)
        self.assertEqual(answer.headings, ["unit price", "N2", "MIN(day)", "COUNT( * )",
                                           "max(city) + 1", "SUM(price)"])
        self.assertEqual([kind and kind.name for kind in answer.kinds],
                         ["decimals", "whole", "dates", None, None, "decimals"])
        self.assertEqual((answer.way, list(answer.rows())), (1, []))

    def test_statements_of_bw(self):
        for statement, wanted in [
                ("SELECT * FROM t WHERE n = 1", None),
                ('SELECT town, "unit price" AS p FROM x WHERE paid', "SELECT town, price FROM t "
                                                                     "WHERE paid <> 0")]:
            engine = mock.Mock(asked=[])
            engine.rows.return_value = [io.BytesIO(b"a\n")]
            plan.answer(Statement(statement, self.catalog), lambda table: engine)
            names = ", ".join(column.name for column in self.table.columns)
            wanted = wanted or f"SELECT {names} FROM t WHERE n = 1"
            engine.rows.assert_called_once_with(wanted)


class Limited(unittest.TestCase):
    def limits(self, text):
        """Returns the limits of a LIMIT."""
        tree = parse(tokens_of(f"SELECT 1 LIMIT {text}")).tree
        for node in walk(tree):
            if isinstance(node, Literal):
                evaluate(node)
        return pushdown.limits_of(tree)

    def test_limits(self):
        for text, wanted in [("5", (5, 0)), ("5 OFFSET 2", (5, 2)), ("2, 5", (5, 2)),
                             ("-1", (None, 0)), ("-1 OFFSET -3", (None, 0)), ("+3", (3, 0)),
                             ("0", (0, 0))]:
            with self.subTest(text):
                self.assertEqual(self.limits(text), Limits(*wanted))
        for text in ("x", "2.5", "'5'", "- - 1", "9" * 19, "1 + 1", "5 OFFSET x"):
            with self.subTest(text), self.assertRaises(Outside):
                self.limits(text)
        for text in ("1 2", "1, 2, 3", "1 OFFSET 2 OFFSET 3", "1, 2 OFFSET 3", "OFFSET 2",
                     "1 OFFSET"):
            with self.subTest(text), self.assertRaisesRegex(Refused, "syntax|incomplete"):
                self.limits(text)

"""Statements are read by their syntax tree: what was wrong for want of one, drawn statements beside
sqlite3, and statements that are none."""
import pathlib
import random
import sqlite3
import unittest
from collections import Counter

import bwtools
from bwtools._errors import Refused
from bwtools._sql.lexer import tokens_of
from bwtools._sql.parser import RESERVED, Unexpected, parse
from bwtools._sql.plan import Statement
from bwtools._sql.syntax import children, walk
from bwtools._storage.catalog import Catalog

from tests import drawn_numbers, drawn_select, selects, support
from tests.support import Imported

SEED = 92
TRIPS = "id,cents,city,day,price\n1,500,Bern,2024-02-01,0.10\n2,700,Ulm,2024-03-01,12.25\n" \
        "3,500,Bern,2024-03-02,-3.00\n"
LARGE = "n,m\n1152921504606846976,3\n1152921504606846977,4\n3,5\n"
ODD = "left,right,end,filter,a b\n1,2,3,4,5\n6,7,8,9,10\n"


class Found(Imported):
    """What was found wrong, each with its cause."""

    tables = {"trips.bw": (TRIPS,), "2024-trips.bw": (TRIPS,), "large.bw": (LARGE,),
              "k.bw": (ODD,), "l.bw": (ODD,)}

    def connect(self, *names):
        connection = bwtools.connect(*(self.folder / f"{name}.bw" for name in names))
        self.addCleanup(connection.close)
        return connection

    def refused(self, connection, sql, message):
        with self.subTest(sql), self.assertRaisesRegex(bwtools.ProgrammingError, message):
            connection.execute(sql)

    def test_an_unknown_table_is_never_the_only_one_beside_another_name(self):
        trips = self.connect("trips")
        for sql in ("SELECT cents FROM trips EXCEPT SELECT cents FROM old_trips",
                    "SELECT COUNT(*) FROM trips UNION ALL SELECT COUNT(*) FROM old_trips",
                    "SELECT id FROM trips WHERE cents IN (SELECT cents FROM old_trips)",
                    "SELECT 1 FROM old_trips JOIN trips",
                    "WITH aa AS (SELECT 1) SELECT * FROM old_trips"):
            self.refused(trips, sql, "there is no table old_trips: did you mean trips|there are aa")
        self.refused(self.connect("trips", "large"), "SELECT 1 FROM other", "there is no table")

    def test_a_table_may_have_any_name_throughout(self):
        for name in ("trips", "2024-trips"):
            connection = self.connect(name)
            for sql, wanted in [
                    ("SELECT COUNT(*) FROM rides", [(3,)]),
                    ("SELECT rides.id FROM rides WHERE rides.cents > 500", [(2,)]),
                    ("SELECT id FROM rides WHERE cents = (SELECT max(cents) FROM Rides)", [(2,)]),
                    ("SELECT a.id FROM rides a JOIN rides b ON a.id = b.id + 2", [(3,)]),
                    ("WITH c AS (SELECT id FROM rides) SELECT sum(id) FROM c", [(6,)])]:
                with self.subTest(sql, name=name):
                    self.assertEqual(connection.execute(sql).fetchall(), wanted)
        self.assertEqual(connection.execute("SELECT COUNT(*) FROM _2024_trips").fetchall(), [(3,)])

    def test_second_words_are_read(self):
        for sql in ("SELECT id FROM trips ORDER BX city",
                    "SELECT COUNT(*) FROM trips GROUP XY city",
                    "SELECT city FROM trips ORDER = city DESC"):
            self.refused(self.connect("trips"), sql,
                         'near "(BX|XY|=)": syntax error at character [0-9]+ of the statement')

    def test_floats_beside_integers_have_their_exact_value(self):
        connection = self.connect("large")
        database = connection._database
        for condition, value, wanted in [
                ("n >= ?", float(2 ** 60), 2), ("n = ?", float(2 ** 60), 1),
                ("n > ?", float(2 ** 60), 1), ("n < ?", 2.0 ** 60, 1), ("m = ?", 3.0, 1),
                ("n IN (?, 5)", float(2 ** 60), 1), ("n BETWEEN ? AND 9e18", 2.0 ** 60, 2),
                ("m < 3.0000000000000001", None, 1), ("m <= 2.9999999999999999999", None, 0),
                ("m = 3.0000000000000001", None, 0), ("m IN (3.0000000000000001, 4)", None, 1),
                ("n < 1152921504606846976.5", None, 2), ("n > 1152921504606846976.25", None, 1),
                ("NOT n = 1152921504606846976.5", None, 3), ("m > 1e-400", None, 3),
                ("n < 1e400", None, 3), ("n >= 1.152921504606846976e18", None, 2)]:
            given = () if value is None else (value,)
            for more, way in (("", 1), (" AND n + 0 = n", 2)):
                sql = f"SELECT COUNT(*) FROM large WHERE {condition}{more}"
                with self.subTest(sql, value=value):
                    answer = database.answer(sql, given)
                    self.assertEqual((answer.way, list(answer.rows())), (way, [(wanted,)]))
            sql = f"SELECT COUNT(*) FROM large WHERE {condition}"
            with self.subTest(sql, value=value, way=2):
                statement = Statement(sql, database.catalog, given)
                self.assertEqual(list(database.by_sqlite.answer(statement).rows()), [(wanted,)])

    def test_dates_that_are_shorter_than_a_column_are_first_moments(self):
        connection = self.connect("trips")
        for more in ("", " AND id + 0 > 0"):
            sql = f"SELECT COUNT(*) FROM trips WHERE day < '2024-3-1 00:00:01'{more}"
            self.assertEqual(connection.execute(sql).fetchall(), [(2,)])

    def test_what_is_no_statement_has_a_place(self):
        connection = self.connect("trips")
        for sql, message in [
                ("SELECT city FROM USING (city)", 'near "USING": syntax error at character 17'),
                ("SELECT id FROM trips WHERE day LIKE '2024%' ESCAPE 'xx'",
                 "ESCAPE expression must be a single character"),
                ("SELECT abs(1, 2) FROM trips", "wrong number of arguments .*at character 7"),
                ("SELECT id FROM trips ORDER BY 7", "1st ORDER BY term .*at character 30"),
                ("SELECT id FROM trips HAVING id > 1", "HAVING.*at character 28"),
                ("SELECT sum(max(id)) FROM trips", "misuse of aggregate"),
                ("SELECT id FROM trips LIMIT 1 UNION SELECT 2", "LIMIT clause should come after")]:
            self.refused(connection, sql, message)

    def test_words_that_sqlite_takes_for_names_are_names(self):
        connection = self.connect("k", "l")
        for sql, heading, wanted in [
                ("SELECT a.right FROM k a JOIN l b ON a.left = b.left", "right", [(2,), (7,)]),
                ("SELECT left.end FROM k AS left CROSS JOIN l WHERE left.left = l.left", "end",
                 [(3,), (8,)]),
                ("SELECT SUM(left) filter FROM k", "filter", [(7,)]),
                ("SELECT SUM(left) FILTER (WHERE right > 2) over FROM k", "over", [(6,)]),
                ("SELECT [a b] + `left`, \"a b\" window FROM k WHERE [left] = 1", "[a b] + `left`",
                 [(6, 5)]),
                ("SELECT max(end) OVER (ORDER BY k.filter) natural FROM k LIMIT 1", None, None),
                ("SELECT right cast FROM k LIMIT 1", "cast", [(2,)])]:
            with self.subTest(sql):
                try:
                    cursor = connection.execute(sql)
                except bwtools.ProgrammingError as error:
                    # SQLite refuses it, too
                    self.assertIsNone(wanted, error)
                    continue
                self.assertEqual((cursor.description[0][0], cursor.fetchall()), (heading, wanted))


class Forms(Imported):
    """Literals that are compared with several columns."""

    tables = {"v.bw": ("id,y,a,s,d,f,n,k\n"
                       "1,2024-02-29,2024-02-29 12:30:00,true,0.10,0.1,1,5\n"
                       "2,2024-03-01,2024-03-01 00:00:00,0,2.50,1e10,2,3\n"
                       "3,2024-03-02,2024-02-29 00:00:00,2024-02-29,-1.25,2.5,7,9\n",
                       "--text", "s")}

    def test_a_literal_has_one_form(self):
        with bwtools.connect(self.folder / "v.bw") as connection:
            for condition in ("'2024-02-29' IN (y, a)", "'2024-02-29' IN (a, y)",
                              "CASE '2024-02-29' WHEN y THEN 1 WHEN a THEN 2 END",
                              "'2024-2-29' IN (y, s)", "'2024-02-29' BETWEEN a AND y",
                              "0.1000000000000000055511151231257827 IN (f, d)"):
                with self.subTest(condition), \
                        self.assertRaisesRegex(bwtools.ProgrammingError, "write a comparison for"):
                    connection.execute(f"SELECT id FROM v WHERE {condition}")
            for condition, wanted in [("'2024-02-29' BETWEEN y AND y", [(1,)]),
                                      ("5 BETWEEN n AND k", [(1,)]),
                                      ("2.5 IN (d, f)", [(2,), (3,)]),
                                      ("2.0 IN (n, d, f)", [(2,)]), ("1e0 BETWEEN n AND d", []),
                                      ("3.0000000000000000000 IN (d, k)", [(2,)]),
                                      ("2.50 BETWEEN n AND d", [(2,)]),
                                      ("'2024-02-29' = y OR '2024-02-29' = a", [(1,), (3,)]),
                                      ("CASE 2 WHEN n THEN 1 WHEN d THEN 2 END", [(2,)])]:
                for more in ("", " AND id + 0 > 0"):
                    sql = f"SELECT id FROM v WHERE ({condition}){more} ORDER BY id"
                    with self.subTest(sql):
                        self.assertEqual(connection.execute(sql).fetchall(), wanted)


class Exact(Imported):
    """Decimals of many digits, of several scales."""

    tables = {"lg.bw": (
        "id,g,h,f\n1,1234567890123456.78,1234567890123456.780,0.5\n"
        "2,1234567890123456.79,1234567890123456.781,1e10\n"
        "3,1234567890123456.80,1234567890123456.790,2.5\n"
        "4,1234567890123456.79,1234567890123456.800,1e-7\n",)}

    def test_columns_of_several_scales_are_compared_exactly(self):
        with bwtools.connect(self.folder / "lg.bw") as connection:
            for sign, wanted in [("=", [1]), ("<>", [2, 3, 4]), ("<", [4]), (">", [2, 3]),
                                 ("<=", [1, 4]), (">=", [1, 2, 3])]:
                for sql in (f"g {sign} h", f"NOT NOT g {sign} h"):
                    found = connection.execute(f"SELECT id FROM lg WHERE {sql}").fetchall()
                    self.assertEqual([row[0] for row in found], wanted, sql)
            for sql in ("g > f", "h < f"):
                with self.assertRaisesRegex(bwtools.ProgrammingError, "more than 15 digits"):
                    connection.execute(f"SELECT id FROM lg WHERE {sql}")

    def test_ranges_of_numbers_are_refused(self):
        with bwtools.connect(self.folder / "lg.bw") as connection:
            frame = "RANGE BETWEEN 1 PRECEDING AND CURRENT ROW"
            for over in (f"OVER (ORDER BY g {frame})",
                         f"OVER (w {frame}) FROM lg WINDOW w AS (ORDER BY g)"):
                with self.assertRaisesRegex(bwtools.ProgrammingError, "more than 15 digits"):
                    connection.execute(f"SELECT COUNT(*) {over}"
                                       f"{'' if 'FROM' in over else ' FROM lg'}")
            sql = f"SELECT id, COUNT(*) OVER (ORDER BY g {frame.replace('RANGE', 'ROWS')}) FROM lg"
            self.assertEqual(len(connection.execute(sql).fetchall()), 4)

    def test_two_literals_are_compared_by_sqlite(self):
        with bwtools.connect(self.folder / "lg.bw") as connection:
            database = sqlite3.connect(":memory:")
            self.addCleanup(database.close)
            for sql in ("0.1 = 0.10000000000000001", "9223372036854775808 = 9223372036854775809",
                        "1e-400 = 0", "1e-400", "1 < 2", "'a' < 'b'", "3 = 3.0", "0.5", "2 <> 2",
                        "'é' > 'z'", "9223372036854775807 = 9223372036854775807.0", "-1 IN (1, 2)"):
                wanted, = database.execute(f"SELECT ({sql}) <> 0").fetchone()
                found = connection.execute(f"SELECT COUNT(*) FROM lg WHERE {sql}").fetchone()
                self.assertEqual(found, (4 * wanted,), sql)


class Grammar(unittest.TestCase):
    def test_each_word_is_a_name_where_sqlite_takes_it_for_one(self):
        database = sqlite3.connect(":memory:")
        self.addCleanup(database.close)
        words = {*RESERVED, *drawn_select.WORDS, *"""abort action after always analyze attach before
            begin by cascade column conflict current current_date database deferred desc detach do
            each exclude exclusive explain fail following for generated glob groups ignore immediate
            initially instead key like materialized nulls of others over partition plan pragma
            preceding query raise range recursive regexp reindex release rename replace restrict
            rollback row savepoint temp temporary ties trigger unbounded vacuum view virtual within
            without""".upper().split()}
        for word in sorted(each for each in words if each.isidentifier()):
            for form in ("SELECT 1 AS {}", "SELECT 1 {}", "SELECT {} FROM (SELECT 1 [{}])",
                         "SELECT x.{} FROM (SELECT 1 [{}]) x", "SELECT 1 FROM (SELECT 1) {}",
                         "SELECT 1 FROM (SELECT 1) AS {}", "WITH {} AS (SELECT 1) SELECT 1",
                         "SELECT 1 ORDER BY 1 + (SELECT {} FROM (SELECT 1 [{}]))"):
                sql = form.replace("{}", word)
                try:
                    database.execute(f"EXPLAIN {sql}")
                    is_one = True
                except sqlite3.Error as error:
                    is_one = "syntax error" not in str(error) and "incomplete" not in str(error)
                try:
                    parse(tokens_of(sql))
                    is_ours = True
                except Unexpected:
                    is_ours = False
                # RAISE is left to SQLite
                if word != "RAISE":
                    with self.subTest(sql):
                        self.assertEqual(is_ours, is_one)

    def test_operators_bind_as_in_sqlite(self):
        """The value of an expression is that of its tree, in brackets throughout."""
        database, chance = sqlite3.connect(":memory:"), random.Random(SEED)
        self.addCleanup(database.close)
        binary = "OR AND = <> < >= + - * / % || & | << IS LIKE".split() + ["IS NOT", "NOT LIKE"]

        def drawn(depth):
            if not depth or chance.random() < .2:
                return chance.choice("0 1 2 3 NULL".split())
            one, two = drawn(depth - 1), drawn(depth - 1)
            return chance.choice((
                *[f"{one} {chance.choice(binary)} {two}"] * 5, f"NOT {one}", f"-{one}", f"~{one}",
                f"{one} ISNULL", f"{one} NOT NULL", f"{one} BETWEEN {two} AND {drawn(0)}",
                f"{one} NOT IN ({two}, 1)", f"{one} COLLATE NOCASE",
                f"CASE WHEN {one} THEN {two} END"))

        for _ in range(support.sample(300, 1500)):
            sql = f"SELECT {drawn(4)}"
            with self.subTest(sql):
                try:
                    wanted = database.execute(sql).fetchall()
                except sqlite3.Error:
                    # a BETWEEN whose lower end has an OR takes the AND for that
                    self.assertRaises(Unexpected, parse, tokens_of(sql))
                    continue
                tree = parse(tokens_of(sql)).tree
                self.assertEqual(database.execute(bracketed(sql, tree)).fetchall(), wanted)

    def test_deep_and_long_statements(self):
        for sql in ("SELECT " + "(" * 99 + "1" + ")" * 99, "SELECT " + "NOT " * 5000 + "1",
                    "SELECT " + "-" * 1 + "- " * 5000 + "1", "SELECT 1" + " = 1" * 9000,
                    "SELECT 1" + " + 1" * 9000, "SELECT 1" + " OR 1" * 9000,
                    "SELECT 1" + " ISNULL" * 6000, "SELECT " + "CASE WHEN " * 3000,
                    "SELECT 1 FROM " + "(" * 99 + "t" + ")" * 99, "SELECT 1 IN (" + "1, " * 9000,
                    "SELECT " + "(SELECT " * 90 + "1" + ")" * 90,
                    "SELECT 1" + " UNION SELECT 1" * 600):
            try:
                Statement(sql, Catalog([]))
            except Refused as refused:
                self.assertLess(len(str(refused)), 400)


def bracketed(sql, tree):
    """Returns a statement with each expression in brackets."""
    def text(node):
        parts, at = [], node.start
        for child in sorted(children(node), key=lambda each: each.start):
            parts += [sql[at:child.start], text(child)]
            at = child.end
        found = "".join([*parts, sql[at:node.end]])
        kind = type(node).__name__
        return f"({found})" if kind not in ("Query", "Select", "Item", "When", "Name") else found

    return text(tree)


class Drawn(support.TestCase):
    """Statements of the whole grammar, which `python3 -m tests.selects` draws many more of."""

    def test_statements_and_mutants_are_treated_as_by_sqlite3(self):
        folder, count = pathlib.Path(self.new_folder()), 0
        drawn = support.sample(80, 300)
        for asked, how in selects.compare(SEED, drawn, drawn, folder):
            count += 1
            with self.subTest(asked):
                self.assertEqual(how, "")
        self.assertEqual(count, 2 * drawn)

    def test_numbers_mean_what_exact_fractions_say(self):
        """`python3 -m tests.drawn_numbers` draws many more."""
        told, drawn = Counter(), support.sample(100, 400)
        found = list(drawn_numbers.differences(SEED, drawn, self.new_folder(), told))
        self.assertEqual(found, [])
        self.assertGreater(told["answered by way 1"], drawn * .15)
        self.assertGreater(told["answered by way 2"], drawn * .5)

    def test_bytes_are_refused_or_answered(self):
        """Random bytes, and random words, of up to 64 KiB."""
        folder, chance = pathlib.Path(self.new_folder()), random.Random(SEED)
        path = support.imported(folder / "t.bw", TRIPS)
        with bwtools.connect(path) as connection:
            for number in range(support.sample(60, 300)):
                size = chance.choice((9, 99, 999, 65_536 if number % 20 == 0 else 99))
                drawn = [chance.randbytes(size).decode(chance.choice(("latin-1", "utf-8")),
                                                       "replace"),
                         " ".join(chance.choices(drawn_select.WORDS, k=size // 6)),
                         "".join(chance.choices("()'\"[]`,.;-*/ \n01x", k=size))]
                sql = chance.choice(("", "SELECT ", "SELECT * FROM t WHERE ")) + \
                    chance.choice(drawn)
                try:
                    connection.execute(sql).fetchall()
                except bwtools.Error as error:
                    self.assertLess(len(str(error)), 2000)

    def test_long_statements_are_answered_or_refused(self):
        """Each in a time that grows with its length: some took seconds, or raised ValueError."""
        deep, digits = "is in more than 100 others", "9" * 5000
        path = support.imported(self.new_folder() / "t.bw", TRIPS)
        with bwtools.connect(path) as connection:
            for sql, wanted in [
                    (f"SELECT {'CASE WHEN id THEN ' * 1000}1{' END' * 1000} FROM t", deep),
                    (f"SELECT {'(' * 20_000}1{')' * 20_000} FROM t", "is in more than 100 others"),
                    (f"SELECT id FROM t WHERE {'NOT ' * 16_000}id", deep),
                    (f"SELECT {'- ' * 30_000}id FROM t", deep),
                    (f"SELECT id FROM t WHERE {'id IN (' * 9000}1{')' * 9000}", deep),
                    (f"SELECT COUNT(*) FROM t WHERE id IN ({'1, ' * 99_999}1)",
                     "more than 70,000 words and signs"),
                    (f"SELECT COUNT(*) FROM t WHERE city IN ({chr(39) * 2}, {'1, ' * 99_999}1)",
                     "more than 70,000 words and signs"),
                    (f"SELECT id FROM t LIMIT {digits}", "datatype mismatch"),
                    (f"SELECT id FROM t ORDER BY {digits} LIMIT 1", [(1,)]),
                    (f"SELECT COUNT(*) FROM t WHERE id < {digits}", [(3,)]),
                    (f"SELECT COUNT(*) FROM t WHERE price < 0.{digits}", [(2,)]),
                    (f"SELECT COUNT(*) FROM t WHERE id > 1e{digits}", [(0,)]),
                    ("SELECT x'ff' FROM t LIMIT 1", [(b"\xff",)])]:
                with self.subTest(sql[:40]):
                    if isinstance(wanted, list):
                        self.assertEqual(connection.execute(sql).fetchall(), wanted)
                    else:
                        with self.assertRaisesRegex(bwtools.ProgrammingError, wanted) as raised:
                            connection.execute(sql)
                        self.assertLess(len(str(raised.exception)), 300)

    def test_messages_are_short_and_of_sqlite(self):
        path = support.imported(pathlib.Path(self.new_folder()) / "t.bw", TRIPS)
        with bwtools.connect(path) as connection:
            for sql, message in [
                    ("SELECT id FROM t WHERE city LIKE '" + "%a" * 30_000 + "'",
                     "^LIKE or GLOB pattern too complex$"),
                    ("SELECT 1 x city FROM t", 'near "city": syntax error at character 11 of the '
                                               "statement$"),
                    ("SELECT 0x" + "f" * 60_000, "0xf*[.]{3} at character 7 .* more than 64 bits"),
                    ("SELECT id FROM t WHERE day = '" + "2" * 60_000 + "'", "'2*[.]{3} can't be"),
                    ("SELECT 1 1" + "1" * 60_000, 'near "1*[.]{3}": syntax error at character 9'),
                    ("SELECT a b '" + "x" * 60_000 + "'", "near \"'x*[.]{3}\": syntax error")]:
                with self.subTest(sql[:40]), \
                        self.assertRaisesRegex(bwtools.ProgrammingError, message) as raised:
                    connection.execute(sql)
                self.assertLess(len(str(raised.exception)), 300)

    def test_halves_of_characters_are_refused(self):
        path = support.imported(pathlib.Path(self.new_folder()) / "t.bw", TRIPS)
        with bwtools.connect(path) as connection:
            for sql, given in (("SELECT ?", ["\ud800"]), ("SELECT '\ud800'", []),
                               ("SELECT :a", {"a": "x\udfff"})):
                with self.subTest(given), \
                        self.assertRaisesRegex(bwtools.ProgrammingError, "that isn't text"):
                    connection.execute(sql, given)

    def test_distinct_rows_in_the_order_of_another_column(self):
        """The first of equal rows has the value that orders them, as in SQLite."""
        path = support.imported(pathlib.Path(self.new_folder()) / "d.bw", "k,b\n3,2\n2,1\n3,\n")
        with bwtools.connect(path) as connection:
            for order, wanted in [("b, k", [(2,), (3,)]), ("b", [(2,), (3,)]),
                                  ("k", [(2,), (3,)]), ("b DESC, k", [(3,), (2,)])]:
                sql = f"SELECT DISTINCT k FROM d ORDER BY {order}"
                self.assertEqual(connection.execute(sql).fetchall(), wanted, sql)

    def test_statements_beneath_many_calls(self):
        path = support.imported(pathlib.Path(self.new_folder()) / "t.bw", TRIPS)
        with bwtools.connect(path) as connection:
            def ask(depth):
                if depth:
                    return ask(depth - 1)
                sql = f"SELECT id FROM t WHERE {'(' * 90}id = 1{')' * 90} {'= 1 ' * 100}"
                return connection.execute(sql).fetchall()

            for depth in range(0, 900, 30):
                try:
                    self.assertEqual(ask(depth), [(1,)])
                except bwtools.ProgrammingError as error:
                    self.assertIn("within one another", str(error))


class Tree(unittest.TestCase):
    def test_nodes_have_their_places(self):
        sql = "SELECT  a.b , (c + 1) AS [d e] FROM t AS a LEFT JOIN u USING (x) " \
              "WHERE NOT (a.b IN (1))"
        texts = {type(node).__name__: sql[node.start:node.end]
                 for node in walk(parse(tokens_of(sql)).tree)}
        self.assertEqual(texts["Operation"], "(c + 1)")
        self.assertEqual(texts["InList"], "(a.b IN (1))")
        self.assertEqual(texts["Unary"], "NOT (a.b IN (1))")
        self.assertEqual(texts["TableSource"], "u USING (x)")

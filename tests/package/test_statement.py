"""Statements that are checked before anything runs."""
import array
import collections
import datetime
import decimal
import importlib.util
import unittest

from bwtools._errors import Refused
from bwtools._sql.lexer import tokens_of
from bwtools._sql.plan import Statement
from bwtools._storage.catalog import open_catalog

from tests.support import Imported

TRIPS = """id,city,Trip Distance,amount,day,when,clock,flag,code,ratio,count,price
1,Boston,12,12.50,01/02/2024,2024-02-01 12:30:00,08:30,true,7,0.1,1,$5
2,Bergen,5,3.10,15/02/2024,2024-02-15 00:00:00,09:00,false,y,1e10,2,"$1,200"
3,Bremen,7,100.00,16/03/2024,2024-03-16 23:59:59,23:59,true,x9,2.5e-7,3,$7
4,Boston,7,1.00,17/03/2024,2024-03-17 23:59:59,23:58,true,13,2.5,4,$8
"""
STATIONS = """city,name,day,since
Boston,South Station,2024-02-01,2024-02-01 12:30:00.5
Bergen,Main,2024-01-01,2024-02-01 12:30:00.25
"""


class Statements(Imported):
    tables = {"trips.bw": (TRIPS, "--date", "day=%d/%m/%Y"), "stations.bw": (STATIONS,)}

    @classmethod
    def setUpClass(cls):
        super().setUpClass()
        cls.both = open_catalog([(name, str(cls.folder / f"{name}.bw"))
                                 for name in ("trips", "stations")])
        cls.one = open_catalog([("trips", str(cls.folder / "trips.bw"))])
        cls.addClassCleanup(cls.both.close)
        cls.addClassCleanup(cls.one.close)

    def sql(self, written, *parameters):
        """Returns the text that SQLite gets, with one blank between tokens."""
        statement = Statement(written, self.both, parameters)
        tokens = tokens_of(statement.sql())
        return "".join(token.text + " " * (token.text != "-" or token.end < following.start)
                       for token, following in zip(tokens, tokens[1:])).rstrip()

    def refused(self, written, message, *parameters):
        with self.subTest(written), self.assertRaisesRegex(Refused, message):
            Statement(written, self.both, parameters)

    def outputs(self, written, catalog=None):
        """Returns the headings and the kinds of a statement's result."""
        return [(output.heading, output.plain.kind.name if output.plain else None)
                for output in Statement(written, catalog or self.both).outputs]

    def test_tables_are_as_the_tests_need_them(self):
        kinds = [column.kind.name for column in self.one.only.columns]
        self.assertEqual(kinds, ["whole", "texts", "whole", "decimals", "dates", "times", "clocks",
                                 "truths", "texts",
                                 "floats", "whole", "whole"])
        self.assertEqual(self.one.only.column("code").looks_like, "numbers")


class Conditions(Statements):
    def test_texts_and_dates_are_no_conditions(self):
        for written in ("city", "NOT city", "(city)", "day", "id = 1 AND city", "city OR id = 1",
                        "NOT (t.code) AND id = 1", "id BETWEEN 1 AND 2 AND city"):
            self.refused(f"SELECT COUNT(*) FROM trips t WHERE {written}", "is no condition")
        for written in ("CASE WHEN city THEN 1 END", "CASE WHEN id = 1 THEN 2 WHEN day THEN 1 END",
                        "CASE WHEN id = 1 THEN CASE id WHEN 2 THEN 3 END WHEN day THEN 1 END",
                        "CASE id WHEN 1 THEN CASE WHEN id = 2 THEN 3 WHEN city THEN 4 END END",
                        "COUNT(*) FILTER (WHERE clock)"):
            self.refused(f"SELECT {written} FROM trips", "is no condition")

    def test_what_only_looks_like_one(self):
        for written in ("flag", "NOT flag", "id", "price", "city BETWEEN 'A' AND city",
                        "city IS NOT code", "city IN (code)", "CASE city WHEN code THEN 1 END",
                        "CASE city WHEN CASE WHEN id = 1 THEN 'a' END THEN 1 WHEN code THEN 2 END",
                        "length(city)", "city NOT NULL", "(city, id) = ('a', 1)"):
            with self.subTest(written):
                self.sql(f"SELECT COUNT(*) FROM trips WHERE {written}")

    def test_patterns_see_what_is_printed(self):
        for written in ("day LIKE '%/2024'", "day NOT LIKE '01/%'", "day GLOB '*2024'",
                        "substr(day, 7) = '2024'", "instr(t.day, '2024') > 0"):
            self.refused(f"SELECT COUNT(*) FROM trips t WHERE {written}",
                         "is printed as '01/05/2024'")
        for written in ("\"when\" LIKE '%02%'", "clock LIKE '08%'", "date(day) LIKE '%05'",
                        "day LIKE '2024-%'", "strftime('%Y', day) = '2024'", "city LIKE 'B%'"):
            with self.subTest(written):
                self.sql(f"SELECT COUNT(*) FROM trips WHERE {written}")

    def test_a_word_is_reserved_only_if_it_is(self):
        self.refused("SELECT price_ FROM trips",
                     "there is no column price_ at character 7 of the statement: did you mean "
                     "price")
        self.refused("SELECT count FROM trips", "the word is reserved: use count_")


class Literals(Statements):
    def test_literal_of_another_kind_is_refused(self):
        for condition in ("day > 2024", "city = 12", "id = '5'", "12 <> city",
                          "day BETWEEN '2024-02-01' AND 5",
                          "city IN ('a', 5)", "id NOT IN (1, '2')", "flag = 'maybe'",
                          "amount >= '12'", "ratio < 'x'",
                          "\"when\" = 5", "clock > 12", "city IS 5", "city IS NOT DISTINCT FROM 5",
                          "city == x'00'",
                          "(day) > (2024)", "NOT day > 2024", "t.day > 2024", "city = TRUE",
                          "city IS TRUE",
                          "(day, city) = (5, 'a')", "(day, city) IN ((5, 'a'))", "day > -2024",
                          "city COLLATE NOCASE = 5",
                          "CASE day WHEN 5 THEN 1 END", "day = '2024-02-30'", "price = '$x'"):
            self.refused(f"SELECT * FROM trips t WHERE {condition}", "can't be compared with")

    def test_literal_that_is_null_in_the_column_is_refused(self):
        self.refused("SELECT * FROM trips WHERE city = ''", "is null in city: use city IS NULL")

    def test_literals_are_checked_wherever_the_column_comes_from(self):
        for written in ("SELECT * FROM (SELECT day AS d FROM trips) WHERE d > 5",
                        "WITH x AS (SELECT max(day) d FROM trips) SELECT * FROM x WHERE d > 5",
                        "WITH x(d) AS (SELECT day FROM trips) SELECT * FROM x WHERE d > 5",
                        "SELECT day AS d FROM trips WHERE d > 5",
                        "SELECT * FROM trips a JOIN stations b ON b.name = 5",
                        "SELECT 1 FROM trips WHERE EXISTS (SELECT 1 FROM stations s "
                        "WHERE s.day = trips.day AND name = 5)",
                        "SELECT city FROM trips GROUP BY city HAVING max(day) > 5",
                        "SELECT city, count(*) n FROM trips GROUP BY city HAVING n > '5'",
                        "SELECT city FROM trips GROUP BY city "
                        "HAVING sum(id) > '5' AND count(*) = 1",
                        "SELECT (SELECT max(day) FROM trips) > 5",
                        "SELECT * FROM (SELECT * FROM trips) x WHERE x.day = 5",
                        "SELECT sum(id) FILTER (WHERE day > 5) FROM trips",
                        "SELECT city FROM trips UNION SELECT name FROM stations WHERE day < 5",
                        "SELECT iif(day > 5, 1, 2) FROM trips"):
            self.refused(written, "can't be compared with")

    def test_names_mean_what_their_query_has(self):
        """A name that another query has for another value isn't mistaken for a column."""
        for written in (
                "WITH x AS (SELECT count(*) AS day FROM trips) SELECT * FROM x WHERE day > 2024",
                "SELECT * FROM (SELECT id AS city FROM trips) WHERE city = 12",
                "SELECT * FROM (SELECT length(city) city FROM trips) WHERE city = 6",
                "WITH RECURSIVE n(city) AS (SELECT 1 UNION ALL SELECT city + 1 FROM n WHERE city < "
                "5) SELECT * FROM n"):
            with self.subTest(written):
                Statement(written, self.both)

    def test_expressions_are_no_columns(self):
        for condition in ("id + 1 > '5'", "city || 'x' = 5", "length(city) = 5", "id IN (SELECT 5)",
                          "day < date('now')",
                          "5 < 3", "'a' LIKE city", "id * 2 = 5", "substr(city, 1) = 5",
                          "day LIKE '2024%'"):
            with self.subTest(condition):
                Statement(f"SELECT * FROM trips WHERE {condition}", self.both)

    def test_dates_are_made_iso(self):
        for written, wanted in [
                ("day > '2024-2-1'", "day > '2024-02-01'"),
                ("'2024-3-4' <= day", "'2024-03-04' <= day"),
                ("day BETWEEN '2024-2-1' AND '16/03/2024'",
                 "day BETWEEN '2024-02-01' AND '2024-03-16'"),
                ("day IN ('2024-2-1', NULL)", "day IN ( '2024-02-01' , NULL )"),
                ("day = DATE '2024-2-1'", "day = '2024-02-01'"),
                ("day IN (DATE '2024-2-1')", "day IN ( '2024-02-01' )"),
                ("day > '2024-02-01 00:00:00'", "day > '2024-02-01'"),
                ("day > '2024-02-01 12:00'", "day > '2024-02-01 12:00:00'"),
                ("\"when\" > '2024-2-1'", "`when` > '2024-02-01 00:00:00'"),
                ("\"when\" = TIMESTAMP '2024-02-01T12:30'", "`when` = '2024-02-01 12:30:00'"),
                ("\"when\" > '2024-02-01 12:30:00.5'", "`when` > '2024-02-01 12:30:00.5'"),
                ("clock > '9:05'", "clock > '09:05:00'"), ("flag = 'true'", "flag = 1"),
                ("flag = FALSE", "flag = FALSE"),
                ("price > '$1,000'", "price > 1000"), ("price > 5", "price > 5"),
                ("CASE day WHEN '2024-2-1' THEN 1 END", "CASE day WHEN '2024-02-01' THEN 1 END"),
                ("(day, id) < ('2024-2-1', 5)", "( day , id ) < ( '2024-02-01' , 5 )"),
                ("city = '2024-2-1'", "city = '2024-2-1'")]:
            with self.subTest(written):
                self.assertEqual(self.sql(f"SELECT 1 FROM trips WHERE {written}"),
                                 f"SELECT 1 FROM `trips` WHERE {wanted}")

    def test_texts_of_dates_are_ordered_as_dates_are(self):
        """A time between two seconds is between their texts."""
        self.assertLess("2024-02-01 12:30:00", "2024-02-01 12:30:00.5")
        self.assertLess("2024-02-01 12:30:00.5", "2024-02-01 12:30:01")

    def test_times_of_other_digits_are_not_compared(self):
        for condition in ('t."when" = s.since', "t.day < s.since", "t.clock = s.day"):
            self.refused(f"SELECT 1 FROM trips t JOIN stations s ON {condition}",
                         "equal texts mean different values")
        for sql in ("SELECT 1 FROM trips WHERE \"when\" IN (SELECT since FROM stations)",
                    "SELECT 1 FROM (SELECT clock since FROM trips) t JOIN stations USING (since)",
                    "SELECT 1 FROM (SELECT \"when\" since FROM trips) t NATURAL JOIN stations"):
            self.refused(sql, "equal texts mean different values")
        Statement("SELECT 1 FROM trips t JOIN stations s ON t.day = s.day", self.both)
        Statement("SELECT 1 FROM trips t JOIN stations s USING (day)", self.both)
        Statement("SELECT 1 FROM trips t WHERE day IN (SELECT day FROM stations)", self.both)

    def test_dates_have_no_arithmetic(self):
        """SQLite would compute with the year, or with the hour."""
        for written in ("day + 30", "max(day) - min(day)", "-day", "1 + t.day", '"when" - 5',
                        "clock * 2", "(day) / 2", "id % day",
                        "(SELECT max(day) FROM stations) - 1", "id - d2"):
            self.refused(f"SELECT {written} FROM trips t JOIN (SELECT day AS d2 FROM stations)",
                         "has (dates|times).*, which have no")
        for written in ("julianday(day) - 5", "id - length(day)", "count(*) * 2", "t.id + -1",
                        "id - (5)", "day || 'x'", "date(day, '+1 day')",
                        "count(DISTINCT day) + 1", "strftime('%Y', day) + 0", "city + 1"):
            with self.subTest(written):
                Statement(f"SELECT {written} FROM trips t", self.both)

    def test_word_before_a_literal_may_be_a_column(self):
        self.assertEqual(self.sql("SELECT city date FROM trips"), "SELECT city date FROM `trips`")


class Orders(Statements):
    def test_column_that_looks_like_numbers_has_no_order(self):
        for written in ("SELECT * FROM trips WHERE code < '5'",
                        "SELECT * FROM trips WHERE '5' >= code",
                        "SELECT * FROM trips WHERE code BETWEEN '1' AND '2'",
                        "SELECT min(code) FROM trips",
                        "SELECT max(DISTINCT code) FROM trips", "SELECT * FROM trips ORDER BY code",
                        "SELECT code c FROM trips ORDER BY c DESC",
                        "SELECT code FROM trips ORDER BY 1",
                        "SELECT id FROM trips ORDER BY id, code COLLATE NOCASE DESC NULLS LAST "
                        "LIMIT 1",
                        "SELECT row_number() OVER (ORDER BY code) FROM trips",
                        "SELECT * FROM (SELECT code x FROM trips) ORDER BY x",
                        "SELECT * FROM trips WHERE code < city",
                        "SELECT code FROM trips UNION SELECT code FROM trips ORDER BY code"):
            self.refused(written,
                         "has no order: to order it by code points, import the file again with "
                         "--text code")

    def test_it_has_equality_and_groups(self):
        Statement("SELECT code, count(code) FROM trips WHERE code = '7' OR code IN ('x') GROUP BY "
                  "code ORDER BY id", self.both)

    def test_sums_of_dates_and_texts_are_refused(self):
        for written in ("sum(day)", "avg(city)", "SUM(DISTINCT day)", "total(city)", 'avg("when")',
                        "sum(clock) OVER ()",
                        "sum((day))"):
            self.refused(f"SELECT {written} FROM trips", "which can't be summed")
        Statement(
            "SELECT sum(amount), avg(ratio), sum(flag), sum(length(city)), sum(id) FROM trips",
            self.both)


class Names(Statements):
    def test_headings_in_double_quotes_are_names(self):
        self.assertEqual(self.sql('SELECT "Trip Distance", t."Trip Distance" FROM trips t ORDER BY '
                                  '"Trip Distance"'),
                         "SELECT `Trip_Distance` , t . `Trip_Distance` FROM `trips` t ORDER BY "
                         "`Trip_Distance`")
        self.assertEqual(self.sql('SELECT "Trip Distance" FROM (SELECT * FROM trips)'),
                         "SELECT `Trip_Distance` FROM ( SELECT * FROM `trips` )")
        self.assertEqual(self.sql('SELECT "count", "id", id AS "x""z" FROM trips'),
                         'SELECT `count_` , `id` , id AS `x"z` FROM `trips`')

    def test_no_word_is_in_double_quotes(self):
        """SQLite reads a word that it doesn't know as a text only if it is in double quotes."""
        for written in ('SELECT "Amuont" FROM trips', 'SELECT "a" b FROM "trips" "c"',
                        'WITH "x" AS (SELECT 1) SELECT "y" FROM "x"',
                        'SELECT count(*) "n" FROM trips HAVING "n" > "q"'):
            self.refused(written, "there is no column")
        for written in ('SELECT "trips"."city", 1 "b" FROM "trips"',
                        'WITH "x"("y") AS (SELECT 1) SELECT "y" AS [c d] FROM "x" AS `z`',
                        'SELECT count(*) "n" FROM trips HAVING "n" > 1'):
            self.assertNotIn('"', self.sql(written))

    def test_alias_that_is_a_heading_of_another_column_is_refused(self):
        self.refused('SELECT id AS "Trip Distance" FROM trips ORDER BY "Trip Distance"',
                     "is an alias, and the heading of the column Trip_Distance: use another alias")
        self.refused('SELECT id "Trip Distance" FROM trips WHERE "Trip Distance" > 5',
                     "is an alias")
        self.assertEqual(
            self.sql('SELECT Trip_Distance "Trip Distance" FROM trips ORDER BY "Trip Distance"'),
            "SELECT Trip_Distance `Trip Distance` FROM `trips` ORDER BY `Trip Distance`")

    def test_rows_have_no_numbers(self):
        for name in ("rowid", "oid", "_ROWID_", '"rowid"', "trips.rowid"):
            self.refused(f"SELECT {name} FROM trips", "there is no column .*: rows have no numbers")
        Statement("SELECT rowid FROM (SELECT id AS rowid FROM trips)", self.both)

    def test_tables_are_found(self):
        self.assertEqual(self.sql("SELECT 1 FROM TRIPS, main.stations"),
                         "SELECT 1 FROM `trips` , main . `stations`")
        self.refused("SELECT 1 FROM tripz", "there is no table tripz: did you mean trips")
        self.refused("SELECT 1 FROM sqlite_master",
                     "there is no table sqlite_master: there are stations, trips")

    def test_tables_of_sqlite_are_never_read(self):
        for name in ("sqlite_master", "SQLITE_SCHEMA", "pragma_table_info"):
            with self.assertRaisesRegex(Refused, "there is no table"):
                Statement(f"SELECT * FROM {name}", self.one)

    def test_only_table_may_have_any_name(self):
        self.assertEqual(Statement("SELECT x.id FROM x WHERE id > 5", self.one).sql(),
                         "SELECT x.id FROM  `trips` AS `x`  WHERE id > 5")
        self.assertEqual(Statement("SELECT y.id FROM x AS y", self.one).sql(),
                         "SELECT y.id FROM `trips` AS y")
        for written in ("SELECT 1 FROM x JOIN trips", "WITH a AS (SELECT 1) SELECT 1 FROM x",
                        "SELECT 1 FROM x WHERE id IN (SELECT id FROM y)"):
            with self.subTest(written), self.assertRaisesRegex(Refused, "there is no table x"):
                Statement(written, self.one)


class Results(Statements):
    def test_headings_and_kinds(self):
        for items, wanted in [
                ("id, CITY c, \"Trip Distance\"",
                 [("id", "whole"), ("c", "texts"), ("Trip Distance", "whole")]),
                ("id+1, id + 1 x, count ( * )",
                 [("id+1", None), ("x", None), ("count ( * )", None)]),
                ("min(day), MAX(DISTINCT amount) m, max(id, 1)",
                 [("min(day)", "dates"), ("m", "decimals"), ("max(id, 1)", None)]),
                ("(id), ((t.day)) AS 'x y'", [("id", "whole"), ("x y", "dates")]),
                ("max(day) OVER (), max(day) FILTER (WHERE id > 1)",
                 [("max(day) OVER ()", None), ("max(day) FILTER (WHERE id > 1)", "dates")]),
                ("(SELECT max(day) FROM stations), CASE WHEN 1 THEN day END, NULL",
                 [("(SELECT max(day) FROM stations)", "dates"), ("CASE WHEN 1 THEN day END", None),
                  ("NULL", None)]),
                ("sum(amount), avg(amount)", [("sum(amount)", None), ("avg(amount)", None)])]:
            with self.subTest(items):
                self.assertEqual(self.outputs(f"SELECT {items} FROM trips t"), wanted)

    def test_all_columns(self):
        stations = [("city", "texts"), ("name", "texts"), ("day", "dates"), ("since", "times")]
        self.assertEqual(self.outputs("SELECT * FROM stations"), stations)
        self.assertEqual(self.outputs("SELECT b.*, 1 FROM stations a, stations b"),
                         [*stations, ("1", None)])
        self.assertEqual(self.outputs("SELECT * FROM stations JOIN stations x USING (city, day)"),
                         [*stations, ("name", "texts"), ("since", "times")])
        self.assertEqual(self.outputs("SELECT * FROM stations NATURAL LEFT JOIN (SELECT city, 5 AS "
                                      "z FROM trips) q"),
                         [*stations, ("z", None)])

    def test_kinds_go_through_queries(self):
        for written, wanted in [
                ("SELECT d, e FROM (SELECT day d, id+1 e FROM trips)",
                 [("d", "dates"), ("e", None)]),
                ("WITH x AS (SELECT max(day) d FROM trips), y(z) AS (SELECT d FROM x) SELECT z, "
                 "x.* FROM x, y",
                 [("z", "dates"), ("d", "dates")]),
                ("SELECT day FROM trips UNION ALL SELECT city FROM stations", [("day", None)]),
                ("SELECT city FROM trips UNION SELECT name FROM stations ORDER BY 1",
                 [("city", "texts")]),
                ("SELECT * FROM (VALUES (1, 2)) v", [("column1", None), ("column2", None)])]:
            with self.subTest(written):
                self.assertEqual(self.outputs(written), wanted)


class Kept(Statements):
    def test_other_statements_are_refused(self):
        for written, message in [("DELETE FROM trips",
                                  "expected SELECT or WITH at character 0 of the statement, found "
                                  "DELETE"),
                                 ("ATTACH 'x' AS y", "found ATTACH"), ("PRAGMA x", "found PRAGMA"),
                                 ("VALUES (1)", "found VALUES"),
                                 ("VACUUM INTO 'x'", "found VACUUM"),
                                 ("EXPLAIN SELECT 1", "found EXPLAIN"), ("", "is empty"),
                                 (" -- nothing\n;", "is empty"),
                                 ("SELECT 1; SELECT 2",
                                  "a second statement begins at character 10"),
                                 ("SELECT (1",
                                  r"the bracket \( at character 7 of the statement isn't closed"),
                                 ("SELECT " + "(" * 101 + "1" + ")" * 101,
                                  "is in more than 100 others"),
                                 ("SELECT 1)",
                                  r"the bracket \) at character 8 of the statement closes none")]:
            self.refused(written, message)

    def test_semicolon_is_left_out(self):
        self.assertEqual(self.sql("SELECT 1 ; ;"), "SELECT 1")

    def test_statement_that_is_none_is_read(self):
        """What isn't a SELECT's structure is left to SQLite, which has the message."""
        for written in ("SELECT", "SELECT FROM", "SELECT FROM trips", "SELECT * FROM",
                        "SELECT a, FROM trips", "WITH", "WITH x",
                        "WITH x AS", "WITH x AS ()", "WITH x AS (SELECT) SELECT",
                        "SELECT * FROM trips WHERE", "SELECT CASE",
                        "SELECT * FROM trips WHERE day BETWEEN", "SELECT * FROM trips WHERE day IN",
                        "SELECT x.", "SELECT .x",
                        "SELECT * FROM trips JOIN", "SELECT * FROM trips t USING", "SELECT 1 UNION",
                        "SELECT sum(", "SELECT IS IN",
                        "SELECT * FROM trips ORDER BY", "SELECT * FROM (SELECT", "SELECT = day = ",
                        "SELECT COLLATE", "SELECT () FROM ()",
                        "SELECT DISTINCT", "SELECT * FROM trips WHERE (day, ) = (1)",
                        "WITH x AS (SELECT 1), SELECT 2", "SELECT sum()"):
            with self.subTest(written):
                try:
                    Statement(written, self.both)
                except Refused:
                    pass

    def test_text_is_as_it_was_written(self):
        written = "SELECT  id +\n 1,'é' /* c */ FROM trips -- d"
        statement = Statement(written, self.both)
        self.assertEqual([output.heading for output in statement.outputs], ["id +\n 1", "'é'"])


class Parameters(Statements):
    def test_values_become_literals(self):
        for value, wanted in [(5, "5"), (-5, "-5"), (2.5, "2.5"), (1e300, "1e+300"), (True, "1"),
                              (None, "NULL"), ("it's", "'it''s'"),
                              (decimal.Decimal("12.50"), "12.50"),
                              (datetime.date(2024, 2, 1), "'2024-02-01'"),
                              (datetime.datetime(2024, 2, 1, 12, 30), "'2024-02-01 12:30:00'"),
                              (datetime.time(9, 5), "'09:05:00'")]:
            with self.subTest(value):
                self.assertEqual(self.sql("SELECT ?", value), f"SELECT {wanted}")

    def test_other_types_are_refused(self):
        for value in ([1], object(), 1j, {"a": 1}):
            self.refused("SELECT ?", "parameter 1 is of type", value)
        for value in (float("nan"), float("inf"), decimal.Decimal("NaN"), 1 << 63, "a\0b"):
            self.refused("SELECT ?", "parameter 1 ", value)

    def test_values_are_compared_with_columns(self):
        self.assertEqual(self.sql("SELECT 1 FROM trips WHERE day = ? AND id-? > 0",
                                  datetime.date(2024, 2, 1), -4),
                         "SELECT 1 FROM `trips` WHERE day = '2024-02-01' AND id - -4 > 0")
        self.assertEqual(Statement("SELECT id-? FROM trips", self.both, [-4]).sql(),
                         "SELECT id- -4  FROM `trips`")
        self.refused("SELECT 1 FROM trips WHERE day > ?", "2024 can't be compared with day", 2024)
        self.refused("SELECT 1 FROM trips WHERE id = ?", "'5' can't be compared with id", "5")

    def test_each_mark_needs_a_value(self):
        self.refused("SELECT ?", "has 1 parameters, and 0 values were given")
        self.refused("SELECT 1", "has 0 parameters, and 1 values were given", 5)
        for mark in ("?2", "?1, ?", ":a, :b"):
            self.refused(f"SELECT {mark}", "has 2 parameters, and 1 values were given", 5)
        for mark in ("?0", "?32767", "?99999999999"):
            self.refused(f"SELECT {mark}", "number is from 1 to 32766", 5)
        for given, message in [({"b": 5}, "the parameters have no a"), ({}, "have no a")]:
            with self.assertRaisesRegex(Refused, message):
                Statement("SELECT :a", self.both, given)
        with self.assertRaisesRegex(Refused, "[?] at character 7 of the statement has no name"):
            Statement("SELECT ?", self.both, {"a": 5})

    def test_numbers_and_names(self):
        for sql, given, wanted in [("SELECT ?2, ?1", (5, 6), "6, 5"),
                                   ("SELECT ?2, ?", (5, 6, 7), "6, 7"),
                                   ("SELECT :a, @b, $a, :a",
                                    {"a": 5, "b": "x", "c": 1}, "5, 'x', 5, 5"),
                                   ("SELECT :a, ?, :a", (5, 6), "5, 6, 5"),
                                   ("SELECT ?, ?", range(2), "0, 1"),
                                   ("SELECT ?, ?", collections.deque([0, 1]), "0, 1"),
                                   ("SELECT ?", array.array("d", [.5]), "0.5")]:
            with self.subTest(sql):
                found = Statement(sql, self.both, given).sql()
                self.assertEqual(" ".join(found.split()).replace(" ,", ","), f"SELECT {wanted}")
        for given in ("5", b"5", {5}, iter([5]), 5, object()):
            with self.assertRaisesRegex(Refused, "parameters must be a sequence"):
                Statement("SELECT ?", self.both, given)

    def test_text_in_a_parameter_is_no_sql(self):
        self.assertEqual(self.sql("SELECT ? FROM trips", "' OR 1=1 --"),
                         "SELECT ''' OR 1=1 --' FROM `trips`")

    @unittest.skipUnless(importlib.util.find_spec("numpy"), "numpy isn't installed")
    def test_numbers_of_numpy_are_converted(self):
        import numpy
        for value, wanted in [(numpy.int64(5), "5"), (numpy.uint8(7), "7"),
                              (numpy.float64(2.5), "2.5"), (numpy.bool_(True), "1"),
                              (numpy.float32(0.5), "0.5"), (numpy.str_("a"), "'a'")]:
            with self.subTest(type(value)):
                self.assertEqual(self.sql("SELECT ?", value), f"SELECT {wanted}")
        for value, wanted in [("2024-02-01", "'2024-02-01'"), ("2024-02", "'2024-02-01'"),
                              ("2024-02-01T12:30", "'2024-02-01 12:30:00'"), ("NaT", "NULL"),
                              ("2024-02-01T12:30:00.250", "'2024-02-01 12:30:00.250'")]:
            self.assertEqual(self.sql("SELECT ?", numpy.datetime64(value)), f"SELECT {wanted}")
        for value in (numpy.array([1, 2]), numpy.float64("nan"), numpy.complex128(1),
                      numpy.timedelta64(1, "s")):
            self.refused("SELECT ?", "parameter 1 ", value)

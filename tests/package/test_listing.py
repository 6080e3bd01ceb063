"""SQLite over columns that bw listed: what is listed, once, and what SQLite computes."""
import math
import signal
import sqlite3
from unittest import mock

import bwtools
from bwtools._aggregation import NeedsExact, summed
from bwtools._engine.executor import Part
from bwtools._errors import Failed, Refused
from bwtools._result import number_in
from bwtools._sql import by_sqlite
from bwtools._sql.plan import Statement
from bwtools._sql.prepare import FUNCTIONS, Renderer
from bwtools._sql.pushdown import pushed

from tests.support import Imported, imported

TRIPS = """id,city,cents,day,flag,ratio,far,long
1,Boston,12.50,2024-02-01,true,0.1,1e300,1234567890123456.78
2,"a, \"\"b\"\"",3.10,2024-02-15,false,1e10,1e-300,1.00
3,,,,,,,
4,Boston,-1.00,2024-03-16,true,2.5e-7,-1.5,2.00
5,Bergen,0.05,2024-03-16,,2.5,0,3.00
"""
STATIONS = "city,name\nBoston,South\nBergen,Main\nBremen,\n"
BIG = "n,d\n" + "".join(f"{n},{d}\n" for n, d in [(9000000000000000000, "90000000000000000.00"),
                                                  (1000000000000000000, "0.01")])


class Listings(Imported):
    tables = {"trips.bw": (TRIPS,), "stations.bw": (STATIONS,), "big.bw": (BIG,)}

    def setUp(self):
        self.connection = bwtools.connect(*(self.folder / name for name in self.tables))
        self.addCleanup(self.connection.close)

    def statement(self, sql):
        return Statement(sql, self.connection._database.catalog)

    def answer(self, sql):
        """Returns the answer by SQLite, even if bw has it."""
        return self.connection._database.by_sqlite.answer(self.statement(sql))

    def rows(self, sql):
        return list(self.answer(sql).rows())

    def refused(self, sql, message):
        with self.subTest(sql), self.assertRaisesRegex(Refused, message):
            self.answer(sql)


class Listed(Listings):
    def test_columns_are_listed_once(self):
        for sql, asked in [
                ("SELECT id || city FROM trips",
                 ["SELECT COUNT(*) FROM trips", "SELECT id, city FROM trips"]),
                ("SELECT upper(city) FROM trips", []),
                ("SELECT city || cents FROM trips", ["SELECT cents FROM trips"]),
                ("SELECT count(*) FROM trips", []),
                ("SELECT name FROM stations JOIN trips USING (city)",
                 ["SELECT COUNT(*) FROM stations", "SELECT city, name FROM stations"]),
                ("SELECT 1 + 1", [])]:
            with self.subTest(sql):
                self.assertEqual(self.answer(sql).asked, asked)

    def test_columns_of_using_are_read(self):
        """SQLite's authorizer isn't asked for them."""
        for join in ("JOIN trips USING (city)", "NATURAL JOIN trips",
                     "JOIN (SELECT city FROM trips) USING (city)"):
            with self.subTest(join):
                self.assertEqual(sorted(self.rows(f"SELECT name FROM stations {join}")),
                                 [("Main",), ("South",), ("South",)])

    def test_statement_is_read_again(self):
        """What a statement reads is found though Python has prepared it before."""
        sql = "SELECT length(city) FROM trips WHERE id > 3 AND id + 0 > 0"
        for _ in range(3):
            self.assertEqual(self.rows(sql), [(6,), (6,)])

    def test_rows_without_columns_are_counted(self):
        self.assertEqual(self.rows("SELECT count(*) FROM trips, stations"), [(15,)])
        answer = self.answer("SELECT count(*), count(city) FROM trips")
        self.assertEqual((list(answer.rows()), answer.asked),
                         ([(5, 4)], ["SELECT city FROM trips"]))

    def test_fresh_columns_are_beside_those_before(self):
        self.assertEqual(self.rows("SELECT abs(id) FROM trips"), [(1,), (2,), (3,), (4,), (5,)])
        self.assertEqual(self.rows("SELECT id, city || '' FROM trips WHERE id > 1"),
                         [(2, 'a, "b"'), (3, None), (4, "Boston"), (5, "Bergen")])
        self.assertEqual(self.rows("SELECT -id, day || '' FROM trips ORDER BY 1 DESC"),
                         [(-1, "2024-02-01"), (-2, "2024-02-15"), (-3, None), (-4, "2024-03-16"),
                          (-5, "2024-03-16")])

    def test_condition_of_bw_is_pushed_down(self):
        answer = self.answer("SELECT city || '' FROM trips WHERE day > '2024-2-10' AND "
                             "cents + 1 > 0 AND id < 5")
        pushed = "FROM trips WHERE (day > 19763) AND (id < 5)"
        self.assertEqual(answer.asked,
                         [f"SELECT COUNT(*) {pushed}", f"SELECT id, city, cents, day {pushed}"])
        self.assertEqual(self.answer("SELECT city || '?' FROM trips WHERE id < 5 AND length(city) "
                                     "> 3 AND day > '2024-02-10'").asked[:1],
                         ["SELECT COUNT(*) FROM trips WHERE (id < 5) AND (day > 19763)"])

    def test_only_conditions_that_each_row_fulfils_are_pushed_down(self):
        for sql, wanted in [
                ("SELECT id FROM trips WHERE id > 1 AND cents + id > 2", "id > 1"),
                ("SELECT id FROM trips WHERE id > 1 OR id + 1 > 5", ""),
                ("SELECT id FROM trips WHERE (id > 1 OR id = 0) AND abs(id) > 2",
                 "id > 1 OR id = 0"),
                ("SELECT id FROM trips WHERE id BETWEEN 1 AND 3 AND id + 0 < 5",
                 "id BETWEEN 1 AND 3"),
                ("SELECT id FROM trips WHERE id + 0 BETWEEN 1 AND 3 AND id < 5", "id < 5"),
                ("SELECT id FROM trips WHERE CASE WHEN id > 1 AND id < 5 THEN 1 END AND id < 5",
                 "id < 5"),
                ("SELECT t.name FROM stations t LEFT JOIN trips ON t.city = trips.city WHERE id IS "
                 "NULL", ""),
                ("SELECT id FROM trips WHERE id > 1 UNION SELECT id FROM trips", ""),
                ("SELECT id FROM trips WHERE id > 1 AND city IN (SELECT city FROM trips)", ""),
                ("SELECT * FROM (SELECT id FROM trips) WHERE id > 1", ""),
                ("WITH x AS (SELECT 1) SELECT id FROM trips WHERE id > 1", ""),
                ("SELECT id FROM trips a WHERE a.id > 1 AND a.id * 2 > 3", "id > 1"),
                ("SELECT id FROM trips", ""),
                ("SELECT id FROM trips WHERE cents > 1.00000000000000001 AND id + 1 > 1",
                 "cents > 100"),
                ("SELECT max(id) FROM trips HAVING max(id) > 1", "")]:
            with self.subTest(sql):
                self.assertEqual(pushed(self.statement(sql).tree), wanted)

    def test_what_is_pushed_down_changes_no_answer(self):
        for sql, wanted in [
                ("SELECT s.name FROM stations s LEFT JOIN trips t ON t.city = s.city WHERE t.id IS "
                 "NULL", [(None,)]),
                ("SELECT count(*) FROM trips WHERE cents > 1 AND (SELECT count(*) FROM trips) = 5",
                 [(2,)]),
                ("SELECT sum(id) + 0, count(*) FROM trips WHERE city LIKE 'b%' AND id + 0 > 1",
                 [(9, 2)])]:
            with self.subTest(sql):
                self.assertEqual(self.rows(sql), wanted)

    def test_table_after_in_is_whole(self):
        """No condition is pushed down if IN looks into the same table."""
        imported(self.folder / "one.bw", "x\n1\n2\n3\n4\n")
        with bwtools.connect(self.folder / "one.bw", self.folder / "trips.bw") as connection:
            for sql, wanted in [("SELECT x FROM one WHERE x > 2 AND x - 2 IN one", [(3,), (4,)]),
                                ("SELECT x FROM one WHERE x > 2 AND x - 2 NOT IN main.one", []),
                                ("SELECT id FROM trips WHERE id IN one", [(1,), (2,), (3,), (4,)]),
                                ("WITH one AS (SELECT 4) SELECT id FROM trips WHERE id IN one",
                                 [(4,)])]:
                with self.subTest(sql):
                    self.assertEqual(connection.execute(sql).fetchall(), wanted)

    def test_rows_of_few_conditions_are_kept(self):
        for number in range(by_sqlite.MOST_CONDITIONS + 3):
            self.rows(f"SELECT id + 0 FROM trips WHERE id > {number} AND id + 0 > 0")
        self.assertEqual(len(self.connection._database.by_sqlite.parts), by_sqlite.MOST_CONDITIONS)
        self.assertEqual(self.answer("SELECT id + 0 FROM trips WHERE id > 10 AND id + 0 > 0").asked,
                         [])

    def test_many_rows_are_listed_if_it_is_asked_for(self):
        with mock.patch.object(by_sqlite, "MOST_ROWS", 4):
            self.refused("SELECT length(city) FROM trips",
                         "over 5 rows, which bw lists: to list more than 4, use --all, or "
                         "list_all=True")
            self.assertEqual(
                self.rows("SELECT length(city) FROM trips WHERE id > 4 AND id + 0 > 0"), [(6,)])
            self.assertEqual(self.rows("SELECT length(city) FROM stations"), [(6,), (6,), (6,)])
            self.connection._database.by_sqlite.is_all = True
            self.assertEqual(len(self.rows("SELECT length(city) FROM trips")), 5)

    def test_what_fails_leaves_no_part(self):
        engine = self.connection._database.engine(self.connection._database.catalog.get("trips"))
        self.rows("SELECT abs(id) FROM trips")
        for kept in ([b"city\n1\n2\n"], [b"city\n1\nx\nNULL\n1\n0\n"], [b"city\n77\n1\n1\n1\n1\n"]):
            with self.subTest(kept), \
                    mock.patch.object(engine, "rows", return_value=list(map(Part, kept))), \
                    self.assertRaises((Failed, Refused)):
                self.rows("SELECT id, city || '' FROM trips")
        self.assertEqual(self.rows("SELECT id, upper(city) FROM trips WHERE id > 3"),
                         [(4, "BOSTON"), (5, "BERGEN")])

    def test_interrupt_undoes_what_was_listed(self):
        with mock.patch("bwtools._sql.by_sqlite.integers_of", side_effect=KeyboardInterrupt), \
                self.assertRaises(KeyboardInterrupt):
            self.rows("SELECT abs(id) FROM trips")
        self.assertEqual(len(self.rows("SELECT abs(id) FROM trips")), 5)

    def test_exception_of_a_signal_ends_a_statement(self):
        """What a signal's handler raises is what the caller gets, be it raised in a function of
        ours or in SQLite."""
        class Late(Exception):
            pass

        def late(*_):
            raise Late

        before = signal.signal(signal.SIGALRM, late)
        self.addCleanup(signal.signal, signal.SIGALRM, before)
        self.rows("SELECT abs(id) FROM trips")
        endless = ("WITH RECURSIVE n(i) AS (SELECT 1 UNION ALL SELECT i + 1 FROM n WHERE i < 1e12) "
                   "SELECT count(*) FROM n")
        for _ in range(3):
            signal.setitimer(signal.ITIMER_REAL, 0.05)
            with self.assertRaises(Late):
                self.rows(endless)
        self.assertEqual(self.rows("SELECT abs(id), upper(city) FROM trips WHERE id > 4"),
                         [(5, "BERGEN")])

    def test_rows_that_no_name_numbers_are_listed_again(self):
        """If all names of SQLite's row numbers are columns', rows can't be joined by them."""
        imported(self.folder / "named.bw", "rowid,oid,_rowid_,x\n5,7,9,a\n3,1,2,b\n")
        with bwtools.connect(self.folder / "named.bw") as connection:
            for sql, wanted in [("SELECT count(*) FROM named a, named b", [(4,)]),
                                ("SELECT rowid + 0 FROM named", [(5,), (3,)]),
                                ("SELECT upper(x) FROM named", [("A",), ("B",)]),
                                ("SELECT oid + 0, rowid, x FROM named",
                                 [(7, 5, "a"), (1, 3, "b")])]:
                self.assertEqual(connection.execute(sql).fetchall(), wanted)

    def test_what_a_signal_left_is_undone(self):
        """An interrupt between the end of a transaction and the note of what was listed lists no
        row twice."""
        listing = self.connection._database.by_sqlite.whole
        self.rows("SELECT abs(id) FROM trips")
        del listing.listed["trips"]
        listing.database.execute("BEGIN")
        self.assertEqual(self.rows("SELECT abs(id) FROM trips"), [(1,), (2,), (3,), (4,), (5,)])


class Values(Listings):
    def test_types_are_those_of_the_reference(self):
        self.assertEqual(self.rows("SELECT typeof(id), typeof(city), typeof(cents), typeof(day), "
                                   "typeof(flag), typeof(ratio), typeof(far) "
                                   "FROM trips WHERE id + 0 = 1"),
                         [("integer", "text", "real", "text", "integer", "real", "real")])
        self.assertEqual(self.rows("SELECT id FROM trips WHERE cents / 100.0 > '0.01' + 0"),
                         [(1,), (2,)])
        self.assertEqual(
            self.rows("SELECT id FROM trips WHERE cents = 3.1 AND cents + 0 > 0 AND flag + 0 = 0"),
            [(2,)])

    def test_decimals_of_many_digits_are_refused(self):
        self.refused("SELECT length(long) FROM trips", "long has decimals of more than 15 digits")
        for sql in ("t.long + 1 > 5", "t.long > t.cents", "round(t.long) = 1", "t.long IN (id)"):
            self.refused(f"SELECT s.name FROM trips t, stations s WHERE {sql}",
                         "long has decimals of more than 15 digits")
        self.refused("SELECT long FROM trips UNION SELECT cents FROM trips", "more than 15 digits")
        self.refused("SELECT max(long) OVER () FROM trips", "more than 15 digits")
        for condition in ("long IS TRUE", "long IS NOT FALSE", "TRUE IS long"):
            self.refused(f"SELECT city FROM trips WHERE {condition}", "more than 15 digits")
        self.refused("SELECT city FROM trips GROUP BY city HAVING MIN(long) IS TRUE",
                     "more than 15 digits")
        for limit in ("LIMIT", "LIMIT 1 OFFSET"):
            self.refused(f"SELECT city FROM trips {limit} (SELECT long FROM trips)",
                         "more than 15 digits")

    def test_decimals_of_many_digits_are_compared_and_grouped(self):
        for sql, wanted in [
                ("SELECT id FROM trips WHERE long > 1234567890123456.77 AND id + 0 > 0", [(1,)]),
                ("SELECT id FROM trips WHERE long = 1234567890123456.7800 AND id + 0 > 0", [(1,)]),
                ("SELECT id FROM trips WHERE long < 1.005 AND id + 0 > 0", [(2,)]),
                ("SELECT count(*), city FROM trips GROUP BY long, city HAVING long IN (1, 2.5) AND "
                 "length(max(city)) > 1", [(1, 'a, "b"')])]:
            with self.subTest(sql):
                self.assertEqual(self.rows(sql), wanted)

    def test_sums_are_exact(self):
        for sql, wanted in [("sum(cents + 0), avg(cents + 0)", (14.65, 3.6625)),
                            ("sum(cents) + 0, avg(cents)", (14.65, 3.6625)),
                            ("sum(ratio), avg(id)", (10000000002.60000025, 3.0)),
                            ("sum(id) FILTER (WHERE id > 3), avg(id) FILTER (WHERE id > 9)",
                             (9, None)),
                            ("sum(DISTINCT cents), avg(DISTINCT flag)", (14.65, 0.5)),
                            ("sum(ALL id), sum(id * 2), sum(id * 0.5)", (15, 30, 7.5)),
                            ("sum(flag), sum(NULL), sum(1), avg('1' + 1)", (2, None, 5, 2.0)),
                            ("sum((SELECT max(cents) FROM trips))", (62.5,)),
                            ("sum(far), max(far)", (1e300, 1e300))]:
            with self.subTest(sql):
                self.assertEqual(self.rows(f"SELECT {sql}, length(max(city)) FROM trips"),
                                 [(*wanted, 6)])

    def test_decimals_of_many_digits_are_compared_with_nothing_of_another_form(self):
        """Each of several operands must have the form in which SQLite has them."""
        for sql in ("long BETWEEN 1 AND id", "long BETWEEN ratio AND 5", "long IN (1.00, id)",
                    "long NOT IN (7, cents, 5)", "CASE long WHEN 1 THEN 0 WHEN id THEN 1 END"):
            self.refused(f"SELECT id FROM trips WHERE {sql}", "more than 15 digits")

    def test_sums_of_choices_are_as_exact_as_those_of_columns(self):
        path = imported(self.folder / "choices.bw", "id,p,q,w,g\n"
                        "1,0.10,1.0001,9007199254740993,1234567890123456.78\n"
                        "2,0.20,2.0002,-4611686018427387903,1234567890123456.79\n"
                        "3,0.30,,4611686018427387904,-0.01\n4,,-0.5000,,\n")
        with bwtools.connect(path) as connection:
            for argument, wanted in [
                    ("CASE WHEN id > 1 THEN p ELSE 0 END", "0.50"), ("COALESCE(p, 1)", "1.60"),
                    ("IIF(id < 3, p, q)", "-0.2000"), ("NULLIF(p, 0.2)", "0.40"),
                    ("CASE WHEN id = 9 THEN p ELSE 2 END", "8.00"),
                    ("COALESCE(q, w)", "4611686018427387906.5003"),
                    ("CASE id WHEN 3 THEN q ELSE w END", "-4602678819172646910.0000"),
                    ("COALESCE(g, 5)", "2469135780246918.56"), ("-g", "-2469135780246913.56"),
                    ("CASE WHEN g > 1 THEN g ELSE p END", "2469135780246913.87"),
                    ("DISTINCT IFNULL(g, 7.125)", "2469135780246920.685")]:
                with self.subTest(argument):
                    found = connection.execute(f"SELECT SUM({argument}) FROM choices").fetchall()
                    self.assertEqual(list(map(str, found[0])), [wanted])
            found = connection.execute("SELECT TOTAL(p), TOTAL(IIF(id = 9, p, NULL)), TOTAL(w), "
                                       "AVG(COALESCE(q, w)), SUM(p) / 4, TOTAL(w * 1.0) "
                                       "FROM choices WHERE id < 9").fetchall()
            self.assertEqual(found, [(.6, 0.0, 9007199254740994.0, 4611686018427387906.5003 / 4,
                                      .15, 9007199254740992.0)])
            self.assertEqual(connection.execute(
                "SELECT SUM(CASE WHEN id = 9 THEN p ELSE 7 END) / 2, TOTAL(p + w) FROM choices "
                "WHERE id > 9 OR id = 1").fetchall(), [(3, 9007199254740992.0)])
            for sql in ("SUM(COALESCE(g, 5)) + 1", "AVG(COALESCE(g, 0.0000000001))",
                        "MAX(COALESCE(g, 5))"):
                with self.assertRaisesRegex(bwtools.ProgrammingError, "more than 15 digits"):
                    connection.execute(f"SELECT {sql} FROM choices")

    def test_sqlite_has_sums_before_over(self):
        self.assertEqual(self.rows("SELECT id, sum(cents) OVER (ORDER BY id), avg(id) FILTER "
                                   "(WHERE id > 1) OVER () FROM trips WHERE id < 3"),
                         [(1, 12.5, 2.0), (2, 15.6, 2.0)])
        statement = self.statement("SELECT sum(cents) OVER () FROM trips")
        self.assertIn("sum(cents) OVER",
                      Renderer(statement.written, set()).text(statement.tree))

    def test_sums_outside_64_bits_are_refused(self):
        self.refused("SELECT sum(n), sum(n + 0) FROM big", "outside the range of 64 bits")
        self.refused("SELECT sum(n + 0) FROM big",
                     "a SUM is outside the range of 64 bits: 10,000,000,000,000,000,000")
        self.refused("SELECT sum(n) FILTER (WHERE n > 0) FROM big", "outside the range of 64 bits")

    def test_sums_of_texts_are_refused(self):
        self.refused("SELECT sum(city || '') FROM trips", "SUM of texts, which can't be summed")
        self.refused("SELECT avg(upper(city)) FROM trips", "AVG of texts")

    def test_sums_that_doubles_do_not_spell_are_integers(self):
        functions = self.connection._database.by_sqlite.whole.functions
        self.assertEqual(functions.joined(0, 123456, 2, 0), 1234.56)
        self.assertEqual(functions.joined(-1, 1 << 31, 1, 0), -(1 << 31) / 10)
        for number in (1234567890123456789, -12345678901234567890123):
            halves = number >> 32, number & (1 << 32) - 1
            with self.assertRaises(NeedsExact):
                functions.joined(*halves, 2, 0)
            self.assertEqual(number_in(functions.joined(*halves, 2, 1)), number)

    def test_sums_of_doubles(self):
        for values, wanted in [([0.1] * 10, 1.0), ([1e308, 1e308, -1e308], 1e308),
                               ([1e308, 1e308], math.inf), ([-1e308] * 3, -math.inf),
                               ([1e100, 1.0, -1e100], 1.0), ([1, 2], 3), ([1, 2.5], 3.5),
                               ([math.inf, 1.0], math.inf),
                               ([math.inf, -math.inf], None)]:
            with self.subTest(values):
                self.assertEqual(summed(values), wanted)

    def test_order_of_groups_that_order_by_leaves_equal(self):
        self.assertEqual(
            self.rows("SELECT city, count(*) n FROM trips GROUP BY city ORDER BY n DESC"),
            [("Boston", 2), (None, 1), ("Bergen", 1), ('a, "b"', 1)])
        self.assertEqual(self.rows("SELECT * FROM (SELECT city, count(*) n FROM trips GROUP BY 1 "
                                   "ORDER BY n DESC LIMIT 2)"),
                         [("Boston", 2), (None, 1)])
        self.assertEqual(
            self.rows("SELECT DISTINCT count(*) FROM trips GROUP BY city ORDER BY count(*) DESC"),
            [(2,), (1,)])
        self.assertEqual(self.rows("SELECT 0 AS a UNION ALL SELECT id + 0 FROM trips GROUP BY id, "
                                   "city ORDER BY a DESC LIMIT 2"), [(5,), (4,)])
        self.assertEqual(self.rows("SELECT city c FROM trips t GROUP BY t.city, c HAVING c > 'A' "
                                   "ORDER BY length(c) > 0 DESC"),
                         [("Bergen",), ("Boston",), ('a, "b"',)])

    def test_fields_and_kinds(self):
        answer = self.answer(
            "SELECT city, cents, flag, cents * 2, max(day) OVER () FROM trips WHERE id < 4")
        self.assertEqual([kind and kind.name for kind in answer.kinds],
                         ["texts", "decimals", "truths", None, None])
        self.assertEqual([list(zip(*block)) for block in answer.fields()],
                         [[("Boston", "12.50", "true", "25.0", "2024-02-15"),
                           ('a, "b"', "3.10", "false", "6.2", "2024-02-15"),
                           ("", "", "", "", "2024-02-15")]])


class Guarded(Listings):
    def test_nothing_but_reads_of_tables_is_allowed(self):
        for sql in ("WITH x AS (SELECT 1) DELETE FROM trips",
                    "WITH x AS (SELECT 1) INSERT INTO trips SELECT 1",
                    "WITH x AS (SELECT 1) UPDATE trips SET id = 1"):
            self.refused(sql, "the statement isn't one that reads tables")
        for sql in ("SELECT load_extension('x')", "SELECT fts3_tokenizer('x')"):
            self.refused(sql, "the function .* can't be used|there is no function")
        for sql in ("SELECT * FROM sqlite_master", "SELECT * FROM pragma_table_info('trips')",
                    "SELECT * FROM temp.sqlite_master",
                    "SELECT * FROM sqlite_temp_schema"):
            self.refused(sql, "there is no table")

    def test_guard_is_on_while_a_statement_runs(self):
        listing = self.connection._database.by_sqlite.whole
        listing.guard.is_off = False
        for sql in ("ATTACH ':memory:' AS x", "PRAGMA user_version", "SELECT * FROM sqlite_master",
                    "DROP TABLE trips",
                    "CREATE TABLE x (a)", "VACUUM", "SELECT load_extension('x')", "BEGIN"):
            with self.subTest(sql), self.assertRaises(sqlite3.DatabaseError):
                listing.database.execute(sql).fetchall()

    def test_errors_have_their_place_in_the_statement_as_written(self):
        for sql, message in [
                ("SELECT  nope FROM trips",
                 "there is no column nope at character 8 of the statement: there are"),
                ("SELECT ciyt FROM trips",
                 "there is no column ciyt at character 7 of the statement: did you mean city"),
                ("SELECT t.ciyt FROM trips t", "there is no column ciyt at character 9"),
                ('SELECT id FROM trips WHERE "Botson" = city',
                 "there is no column Botson at character 27"),
                ("SELECT id,, city FROM trips",
                 'near ",": syntax error at character 10 of the statement'),
                ("SELECT id FROM trips WHERE day = '2024-2-1' AND AND id",
                 'near "AND": syntax error at character 48'),
                ("SELECT id FROM trips WHERE", "incomplete input at character 26|near the end"),
                ("SELECT foo(id) FROM trips", "there is no function foo"),
                ("SELECT cuont(id) FROM trips", "did you mean count"),
                ("SELECT thirdpercentile(id) FROM trips", "no function thirdpercentile"),
                ("SELECT id FROM trips GROUP BY", "incomplete input"),
                ("SELECT abs(1, 2)", "wrong number of arguments to function abs"),
                ("SELECT city FROM trips, stations",
                 "ambiguous column name: city .at character 7 of the statement"),
                ("SELECT max(count(*)) FROM trips", "misuse of aggregate")]:
            self.refused(sql, message)

    def test_functions_that_this_sqlite_lacks_are_called_that(self):
        with mock.patch("bwtools._sql.prepare.FUNCTIONS", FUNCTIONS | {"newest"}):
            self.refused("SELECT newest(id) FROM trips",
                         r"the function newest isn't in this SQLite \(3[0-9.]+\)")
            self.refused("SELECT newset(id) FROM trips",
                         "there is no function newset: (?!.*newest)")

    def test_functions_of_ours_are_none_of_a_statement(self):
        for call in ("bw_sum(id)", "bw_mean(1, 2, 3, 4)", "bw_halves(0, 1, 0, 0)", "BW_exact_2(id)",
                     "bw_total(id)"):
            self.refused(f"SELECT {call} FROM trips", "there is no function (bw|BW)_")

    def test_what_was_typed_is_not_proposed(self):
        for sql in ("SELECT stations.id FROM trips, stations", "SELECT t.id FROM stations t",
                    "SELECT x.city FROM trips t"):
            with self.subTest(sql), self.assertRaises(Refused) as refused:
                self.rows(sql)
            self.assertNotRegex(str(refused.exception), "did you mean (id|city)[ ?]")

    def test_words_of_sql_need_quotes(self):
        imported(self.folder / "words.bw", "order,count,to\n1,2,3\n")
        with bwtools.connect(self.folder / "words.bw") as connection:
            for sql, message in [("SELECT order + 0 FROM words",
                                  'near "order": syntax error at character 7 of the statement: '
                                  'the word is reserved: use "order"'),
                                 ("SELECT abs(count) FROM words",
                                  'there is no column count at character 11 of the statement: '
                                  'the word is reserved: use count_ or "count"')]:
                with self.subTest(sql), self.assertRaisesRegex(bwtools.ProgrammingError, message):
                    connection.execute(sql)
            self.assertEqual(
                connection.execute(
                    'SELECT "order" + 0, "count" + 0, abs(count_), "to" FROM words').fetchall(),
                [(1, 2, 2, 3)])

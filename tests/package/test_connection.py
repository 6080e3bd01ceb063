"""Connections and cursors, after PEP 249."""
import datetime
import decimal
import importlib.util
import os
import pathlib
import pydoc
import shutil
import signal
import subprocess
import sys
import threading
import time
import unittest
from unittest import mock

import bwtools
from bwtools import _aggregation as counted
from bwtools._engine.process import Session
from bwtools._sql import by_sqlite

from tests.support import Imported, imported

TRIPS = """id,city,cents,day,when,clock,flag,ratio,nothing
1,Boston,12.50,2024-02-01,2024-02-01T12:30:00Z,08:30,true,0.1,
2,Bergen,3.10,2024-02-15,2024-02-15T00:00:00Z,09:00,false,1e10,
3,,,,,,,,
"""
NANO = "at\n2024-02-01 12:30:00.123456789\n2024-02-01 12:30:00.000000001\n"


class Connections(Imported):
    tables = {"trips.bw": (TRIPS,), "other.bw": ("city,n\nBoston,1\n",), "nano.bw": (NANO,),
              "long.bw":
              ("n\n1234567890123456.78\n-0.01\n",)}

    def connect(self, *paths, **named):
        connection = bwtools.connect(*(self.folder / path for path in paths or ["trips.bw"]),
                                     **named)
        self.addCleanup(connection.close)
        return connection


class Module(unittest.TestCase):
    def test_globals(self):
        self.assertEqual((bwtools.apilevel, bwtools.threadsafety, bwtools.paramstyle),
                         ("2.0", 1, "qmark"))

    def test_errors(self):
        self.assertTrue(issubclass(bwtools.Error, Exception) and
                        issubclass(bwtools.Warning, Exception))
        for name in ("InterfaceError", "DatabaseError"):
            self.assertTrue(issubclass(getattr(bwtools, name), bwtools.Error))
        for name in ("DataError", "OperationalError", "IntegrityError", "InternalError",
                     "ProgrammingError", "NotSupportedError"):
            self.assertTrue(issubclass(getattr(bwtools, name), bwtools.DatabaseError))
            self.assertIs(getattr(bwtools.Connection, name), getattr(bwtools, name))

    def test_types(self):
        for kind, codes in [("STRING", ["texts", "text"]),
                            ("NUMBER", ["whole", "decimals", "floats", "truths", "integer",
                                        "real"]),
                            ("DATETIME", ["dates", "times", "clocks"]), ("BINARY", ["blob"])]:
            for code in codes:
                self.assertEqual(getattr(bwtools, kind), code)
                self.assertNotEqual(bwtools.ROWID, code)
        self.assertEqual(bwtools.Date(2024, 2, 1), datetime.date(2024, 2, 1))
        self.assertEqual(bwtools.DateFromTicks(0).year, bwtools.TimestampFromTicks(0).year)
        self.assertIsInstance(bwtools.TimeFromTicks(0), datetime.time)

    def test_names(self):
        self.assertIn("connect", dir(bwtools))
        with self.assertRaisesRegex(AttributeError, "no attribute 'nothing'"):
            bwtools.nothing
        for name in bwtools.__all__:
            getattr(bwtools, name)

    def test_help_has_an_example(self):
        text = pydoc.render_doc(bwtools, renderer=pydoc.plaintext)
        self.assertIn("bwtools.connect(", text)
        self.assertIn("GROUP BY", text)

    def test_import_is_cheap(self):
        """Programs that need no connection import none of its modules."""
        path = str(pathlib.Path(bwtools.__file__).parents[1])
        code = ("import sys, bwtools; print(sorted(name for name in sys.modules if "
                "name.startswith('bwtools')), 'sqlite3' in sys.modules)")
        done = subprocess.run([sys.executable, "-c", code], env={**os.environ, "PYTHONPATH": path},
                              capture_output=True, text=True,
                              stdin=subprocess.DEVNULL, check=True)
        self.assertEqual(done.stdout, "['bwtools'] False\n")


class Rows(Connections):
    def test_values(self):
        utc = datetime.timezone.utc
        wanted = [(1, "Boston", decimal.Decimal("12.50"), datetime.date(2024, 2, 1),
                   datetime.datetime(2024, 2, 1, 12, 30, tzinfo=utc),
                   datetime.time(8, 30), True, 0.1, None),
                  (2, "Bergen", decimal.Decimal("3.10"), datetime.date(2024, 2, 15),
                   datetime.datetime(2024, 2, 15, tzinfo=utc),
                   datetime.time(9), False, 1e10, None), (3, *[None] * 8)]
        connection = self.connect()
        for sql in ("SELECT * FROM trips", "SELECT * FROM trips WHERE id + 0 > 0"):
            cursor = connection.execute(sql)
            found = cursor.fetchall()
            self.assertEqual(found, wanted)
            self.assertEqual([list(map(type, row)) for row in found],
                             [list(map(type, row)) for row in wanted])
            self.assertEqual([column[0] for column in cursor.description],
                             "id city cents day when clock flag ratio nothing".split())
        self.assertEqual(cursor.answer.way, 2)

    def test_decimals_of_many_digits_are_exact(self):
        self.assertEqual(self.connect("long.bw").execute("SELECT n FROM long").fetchall(),
                         [(decimal.Decimal("1234567890123456.78"),), (decimal.Decimal("-0.01"),)])

    def test_times_beyond_microseconds_are_texts(self):
        self.assertEqual(self.connect("nano.bw").execute("SELECT at FROM nano").fetchall(),
                         [("2024-02-01 12:30:00.123456789",), ("2024-02-01 12:30:00.000000001",)])

    def test_description(self):
        cursor = self.connect().execute(
            "SELECT id, city c, day, count(*), 'x' y, NULL, id * 0.5 FROM trips GROUP BY 1, 2, 3")
        self.assertEqual([column[0] for column in cursor.description],
                         ["id", "c", "day", "count(*)", "y", "NULL", "id * 0.5"])
        kinds = [bwtools.NUMBER, bwtools.STRING, bwtools.DATETIME, bwtools.NUMBER, bwtools.STRING]
        for kind, column in zip(kinds, cursor.description):
            self.assertEqual(column[1], kind)
            self.assertEqual(column[2:], (None,) * 5)

    def test_fetching(self):
        cursor = self.connect().cursor()
        self.assertEqual((cursor.description, cursor.rowcount, cursor.arraysize), (None, -1, 1))
        for sql in ("SELECT id FROM trips", "SELECT id + 0 FROM trips"):
            self.assertIs(cursor.execute(sql), cursor)
            self.assertEqual(cursor.rowcount, 3)
            self.assertEqual([cursor.fetchone(), cursor.fetchmany(), cursor.fetchmany(5),
                              cursor.fetchone(), cursor.fetchall()],
                             [(1,), [(2,)], [(3,)], None, []])
            self.assertEqual(list(cursor.execute(sql)), [(1,), (2,), (3,)])
        cursor.arraysize = 2
        self.assertEqual(cursor.execute("SELECT id FROM trips").fetchmany(), [(1,), (2,)])
        cursor.setinputsizes([1])
        cursor.setoutputsize(1)

    def test_cursors_do_not_disturb_each_other(self):
        connection = self.connect("trips.bw", "other.bw")
        first = connection.execute("SELECT id, city FROM trips")
        self.assertEqual(first.fetchone(), (1, "Boston"))
        second = connection.execute("SELECT city, n FROM other")
        third = connection.execute("SELECT id + 0, day FROM trips")
        self.assertEqual(third.fetchone(), (1, datetime.date(2024, 2, 1)))
        self.assertEqual(first.fetchone(), (2, "Bergen"))
        self.assertEqual(second.fetchall(), [("Boston", 1)])
        self.assertEqual((third.fetchall()[-1], first.fetchall()), ((3, None), [(3, None)]))

    def test_parameters(self):
        connection = self.connect()
        for sql, values, wanted in [("SELECT id FROM trips WHERE day = ?",
                                     [datetime.date(2024, 2, 1)], [(1,)]),
                                    ("SELECT id FROM trips WHERE city = ? OR id + 0 = ?",
                                     ("Bergen", 3), [(2,), (3,)]),
                                    ("SELECT id FROM trips WHERE cents = ?",
                                     [decimal.Decimal("3.10")], [(2,)]),
                                    ("SELECT id FROM trips WHERE clock >= ?", [datetime.time(9)],
                                     [(2,)]),
                                    ("SELECT id FROM trips WHERE \"when\" > ?",
                                     [datetime.datetime(2024, 2, 2)], [(2,)]),
                                    ("SELECT id FROM trips WHERE flag = ?", [True], [(1,)]),
                                    ("SELECT ?, ?", ["a'b", None], [("a'b", None)]),
                                    ("SELECT id FROM trips LIMIT ?", [1], [(1,)])]:
            with self.subTest(sql):
                self.assertEqual(connection.execute(sql, values).fetchall(), wanted)
        for values in ([b"x"], [object()], [], [1, 2], ["5"], "5", {"a": 1}, 5):
            with self.subTest(values), self.assertRaises(bwtools.ProgrammingError):
                connection.execute("SELECT id FROM trips WHERE id = ?", values)

    def test_fetched_values_are_parameters(self):
        """What a cursor returns finds its row again."""
        connection = self.connect()
        for column in ("id", "city", "cents", "day", '"when"', "clock", "flag", "ratio"):
            value, = connection.execute(f"SELECT {column} FROM trips WHERE id = 1").fetchone()
            for more in ("", " AND id + 0 > 0"):
                self.assertEqual(
                    connection.execute(f"SELECT id FROM trips WHERE {column} = ?{more}",
                                       [value]).fetchall(), [(1,)], column)

    def test_headings_in_double_quotes(self):
        cursor = self.connect().execute(
            'SELECT "city" AS "A b", "when" FROM trips WHERE "A b" IS NULL')
        self.assertEqual(([column[0] for column in cursor.description], cursor.fetchall()),
                         (["A b", "when"], [(None, None)]))


class Tables(Connections):
    def test_names(self):
        connection = self.connect("trips.bw", t2=self.folder / "other.bw")
        self.assertEqual(connection.execute("SELECT n FROM trips JOIN t2 USING (city)").fetchall(),
                         [(1,)])
        with self.assertRaisesRegex(bwtools.ProgrammingError,
                                    "there is no table other: there are t2, trips"):
            connection.execute("SELECT 1 FROM other")
        with self.assertRaisesRegex(bwtools.ProgrammingError, "two tables have the name trips"):
            bwtools.connect(self.folder / "trips.bw", trips=self.folder / "other.bw")
        self.assertEqual(self.connect().execute("SELECT x.id FROM x WHERE x.id > 2").fetchall(),
                         [(3,)])

    def test_one_table_twice(self):
        connection = self.connect("trips.bw", again=self.folder / "trips.bw")
        self.assertEqual(
            connection.execute(
                "SELECT count(*) FROM trips JOIN again ON trips.id < again.id").fetchall(), [(3,)])

    def test_missing_files(self):
        for path in ("nothing.bw", "trips.bw.csv"):
            with self.subTest(path), self.assertRaises(bwtools.DatabaseError):
                bwtools.connect(self.folder / path)
        with self.assertRaisesRegex(bwtools.OperationalError, "nothing.bw"):
            bwtools.connect(self.folder / "nothing.bw")
        with self.assertRaisesRegex(bwtools.ProgrammingError, "not a folder of shards"):
            bwtools.connect(self.folder)

    def test_shards(self):
        data = "id,city\n" + "".join(f"{n},{'abc'[n % 3]}\n" for n in range(100))
        imported(self.folder / "shards", data, "--shards", "3")
        connection = self.connect("shards")
        self.assertEqual(len(connection._database.catalog.only.parts), 3)
        self.assertEqual(
            connection.execute(
                "SELECT city, count(*), sum(id) FROM shards GROUP BY city").fetchall(),
            [("a", 34, 1683), ("b", 33, 1617), ("c", 33, 1650)])
        self.assertEqual(connection.execute("SELECT id, city FROM shards").fetchall(),
                         [(n, "abc"[n % 3]) for n in range(100)])
        self.assertEqual(
            connection.execute("SELECT id, upper(city) FROM shards WHERE id > 97").fetchall(),
            [(98, "C"), (99, "A")])
        shutil.copy(self.folder / "trips.bw", connection._database.catalog.only.parts[1].path)
        with self.assertRaisesRegex(bwtools.ProgrammingError, "has changed or was replaced"):
            bwtools.connect(self.folder / "shards")

    def test_table_that_is_replaced_is_answered_as_it_was(self):
        imported(self.folder / "t.bw", "a,b\n1,x\n2,y\n")
        connection = self.connect("t.bw")
        self.assertEqual(connection.execute("SELECT a FROM t").fetchall(), [(1,), (2,)])
        imported(self.folder / "t.bw", "a,b\n7,z\n")
        self.assertEqual(connection.execute("SELECT a, b FROM t").fetchall(), [(1, "x"), (2, "y")])
        self.assertEqual(connection.execute("SELECT upper(b), a FROM t").fetchall(),
                         [("X", 1), ("Y", 2)])
        self.assertEqual(self.connect("t.bw").execute("SELECT upper(b), a FROM t").fetchall(),
                         [("Z", 7)])

    def test_sqlite_too_old_is_refused(self):
        with mock.patch("sqlite3.sqlite_version_info", (3, 33, 0)), \
                self.assertRaisesRegex(bwtools.DatabaseError, "SQLite 3.34"):
            bwtools.connect(self.folder / "trips.bw")


class Failures(Connections):
    def kill(self, connection):
        database = connection._database
        for session in database.engine(database.catalog.only).asker.sessions.sessions:
            os.kill(session.number, signal.SIGKILL)
            os.waitid(os.P_PID, session.number, os.WEXITED | os.WNOWAIT)

    def test_session_that_died_idle_is_started_again(self):
        for sql in ("SELECT count(*) FROM trips", "SELECT city FROM trips",
                    "SELECT upper(city) FROM trips",
                    "SELECT city, count(*) FROM trips GROUP BY city"):
            connection = self.connect()
            cursor = connection.execute("SELECT id FROM trips")
            self.kill(connection)
            with self.subTest(sql):
                self.assertEqual(cursor.execute(sql).fetchall(),
                                 self.connect().execute(sql).fetchall())
                self.assertEqual(len(cursor.execute("SELECT id FROM trips").fetchall()), 3)

    def test_session_that_dies_is_an_error(self):
        for sql in ("SELECT count(*), 1 FROM trips", "SELECT city FROM trips",
                    "SELECT upper(city) FROM trips",
                    "SELECT city, count(*) FROM trips GROUP BY city"):
            connection = self.connect()
            cursor = connection.execute("SELECT id FROM trips")
            # it dies once it was found to run
            with mock.patch.object(Session, "is_running", lambda _: True), \
                    self.subTest(sql):
                self.kill(connection)
                with self.assertRaisesRegex(bwtools.OperationalError, "ended by signal 9"):
                    cursor.execute(sql)
                with self.assertRaisesRegex(bwtools.ProgrammingError, "no statement was run"):
                    cursor.fetchall()
            self.assertEqual(len(cursor.execute("SELECT id FROM trips").fetchall()), 3)

    def test_session_that_dies_in_the_middle_leaves_no_part(self):
        """A program that writes a part of its answer and dies."""
        program = self.folder / "dies"
        program.write_text("#!/bin/sh\nread a; read b; printf 'city\\n1\\n'; kill -9 $$\n",
                           encoding="utf-8")
        program.chmod(0o755)
        with mock.patch.dict(os.environ, {"BW": str(program)}):
            connection = self.connect()
            for sql in ("SELECT city FROM trips", "SELECT upper(city) FROM trips",
                        "SELECT count(*) FROM trips"):
                with self.subTest(sql), self.assertRaises(bwtools.OperationalError):
                    connection.execute(sql)
        self.assertEqual(connection.execute("SELECT upper(city) FROM trips").fetchall(),
                         [("BOSTON",), ("BERGEN",), (None,)])

    def test_too_many_groups_are_refused_with_their_number(self):
        with mock.patch.object(counted, "MOST_GROUPS", 2), \
                mock.patch("bwtools._sql.groups.MOST_STATEMENTS", 1), \
                self.assertRaisesRegex(bwtools.ProgrammingError, "more than 2 groups"):
            self.connect().execute("SELECT id, count(*) FROM trips GROUP BY id")

    def test_too_many_rows_need_an_option(self):
        with mock.patch.object(by_sqlite, "MOST_ROWS", 2):
            with self.assertRaisesRegex(bwtools.ProgrammingError, "over 3 rows.*list_all"):
                self.connect().execute("SELECT upper(city) FROM trips")
            self.assertEqual(
                len(self.connect(list_all=True).execute(
                    "SELECT upper(city) FROM trips").fetchall()), 3)

    def test_statements_that_are_none(self):
        connection = self.connect()
        for sql in ("", "SELEC 1", "SELECT", "DELETE FROM trips", "SELECT 1; SELECT 2",
                    "SELECT * FROM nothing, trips", "SELECT 'a",
                    "SELECT id FROM trips WHERE city = 5", "ATTACH 'x' AS y",
                    "SELECT nothing2 FROM trips", "SELECT id FROM trips LIMIT 'x'"):
            with self.subTest(sql), self.assertRaises(bwtools.ProgrammingError):
                connection.execute(sql)

    def test_tables_are_read_only(self):
        connection = self.connect()
        connection.commit()
        connection.rollback()
        with self.assertRaises(bwtools.NotSupportedError):
            connection.cursor().executemany("SELECT ?", [[1]])

    def test_closing(self):
        with bwtools.connect(self.folder / "trips.bw") as connection:
            with connection.cursor() as cursor:
                cursor.execute("SELECT upper(city), count(*) FROM trips GROUP BY 1")
            for use in (cursor.fetchall, cursor.fetchone, lambda: cursor.execute("SELECT 1"),
                        cursor.df, cursor.columns):
                with self.assertRaisesRegex(bwtools.ProgrammingError, "cursor is closed"):
                    use()
            other = connection.execute("SELECT count(*) FROM trips")
            asker = connection._database.engine(connection._database.catalog.only).asker
            processes = [session.number for session in asker.sessions.sessions]
        for use in (other.fetchall, connection.cursor, connection.commit, connection.rollback,
                    lambda: other.execute("SELECT 1"), connection.close):
            with self.assertRaisesRegex(bwtools.ProgrammingError, "connection is closed"):
                use()
        self.assertTrue(processes)
        for number in processes:
            self.assertRaises(ProcessLookupError, os.kill, number, 0)

    def test_interrupt_is_noticed_at_once(self):
        """Ctrl-C ends a statement of SQLite that would take minutes; the connection answers the
        next one."""
        # a shell has background jobs ignore interrupts
        code = ("import bwtools, signal\n"
                "signal.signal(signal.SIGINT, signal.default_int_handler)\n"
                f"connection = bwtools.connect({str(self.folder / 'trips.bw')!r})\n"
                "print('ready', flush=True)\n"
                "try:\n"
                "    connection.execute('WITH RECURSIVE n(i) AS (SELECT 1 UNION ALL SELECT i + 1 "
                "FROM n WHERE i < 1e12) SELECT sum(i) + 0 FROM n')\n"
                "except KeyboardInterrupt:\n"
                "    print(connection.execute('SELECT count(*) FROM trips').fetchall())\n")
        path = str(pathlib.Path(bwtools.__file__).parents[1])
        with subprocess.Popen([sys.executable, "-c", code], env={**os.environ, "PYTHONPATH": path},
                              stdin=subprocess.DEVNULL,
                              stdout=subprocess.PIPE, text=True) as process:
            self.assertEqual(process.stdout.readline(), "ready\n")
            time.sleep(0.3)
            begun = time.monotonic()
            process.send_signal(signal.SIGINT)
            timer = threading.Timer(60, process.kill)
            timer.start()
            self.assertEqual(process.stdout.read(), "[(3,)]\n")
            timer.cancel()
            self.assertLess(time.monotonic() - begun, 5)


@unittest.skipUnless(importlib.util.find_spec("numpy"), "numpy isn't installed")
class Numpy(Connections):
    def test_numbers_of_numpy_find_their_rows(self):
        import numpy
        connection = self.connect()
        for more in ("", " AND id + 0 > 0"):
            for value in (numpy.int64(2), numpy.int8(2), numpy.float64(2.0)):
                self.assertEqual(connection.execute(f"SELECT city FROM trips WHERE id = ?{more}",
                                                    [value]).fetchall(), [("Bergen",)])

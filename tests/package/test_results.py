"""Results are exact, to the last digit, and each reader has its own place; what ends a statement
costs that statement alone."""
import contextlib
import datetime
import decimal
import gc
import importlib.util
import io
import json
import math
import os
import pathlib
import pty
import re
import select
import subprocess
import sys
import threading
import time
import unittest
from fractions import Fraction
from unittest import mock

import bwtools
from bwtools._aggregation import Aggregate, values_of
from bwtools._engine.executor import Part
from bwtools._output import writer_of
from bwtools._result import (NumberRows, Numbers, Result, ValueRows, blob_of, number_in,
                             numbers_of, stored)
from bwtools._types import kinds
from bwtools._types.base import Column

from tests.support import PYTHON, Imported, imported, in_fork, sample, texts

LONG = ("id,n,g\n1,1234567890.12345678,a\n2,1234567890.12345679,a\n3,1234567890.12345680,b\n"
        "4,-0.00000001,b\n5,,b\n")
# fifteen of these leave 64 bits, and a double
BIG = "id,n,w\n" + "".join(f"{row},{row % 7}.25,999999999999999.{row:03}\n"
                           for row in range(20)) + \
    "20,,9223372036854775.807\n"
# sums of its first rows leave 64 bits, that of all doesn't
WHOLE = "id,n\n" + "".join(f"{row},{'' if row % 5 == 4 else (1 if row < 20 else -1) << 61}\n"
                           for row in range(40))
SHOP = ("day,city,price,paid,at\n2024-01-31,Bern,2.50,true,2024-01-31 12:30:00\n"
        "2024-02-01,Ulm,12.05,false,2024-02-01 00:00:00\n2024-02-29,Bern,,true,\n"
        "2024-03-01,Graz,0.30,true,2024-03-01 23:59:59\n")
ROWS = 250_000
D = decimal.Decimal


class Results(Imported):
    tables = {"long.bw": (LONG,), "big.bw": (BIG,), "whole.bw": (WHOLE,), "shop.bw": (SHOP,),
              "many.bw": ("n,m\n" + "".join(f"{row},{row % 9}\n" for row in range(ROWS)),)}

    def setUp(self):
        self.connection = bwtools.connect(*(self.folder / name for name in self.tables))
        self.addCleanup(self.connection.close)

    def rows(self, sql, *parameters):
        return self.connection.execute(sql, parameters).fetchall()

    def both(self, sql):
        """Returns the rows of a statement by bw, which must be those of SQLite over its columns."""
        first = self.connection.execute(sql)
        second = self.connection.execute(sql.replace(" FROM ", " FROM (SELECT 1) x, "))
        self.assertEqual((first.answer.way, second.answer.way), (1, 2), sql)
        found = first.fetchall()
        self.assertEqual(found, second.fetchall(), sql)
        self.assertEqual([list(map(type, row)) for row in found],
                         [list(map(type, row)) for row in second.execute(sql).fetchall()])
        return found


class Exact(Results):
    def test_decimals_of_many_digits(self):
        self.assertEqual(self.rows("SELECT MAX(n), MIN(n), SUM(n), COUNT(n) FROM long"),
                         [(D("1234567890.12345680"), D("-0.00000001"), D("3703703670.37037036"),
                           4)])
        self.assertEqual(self.rows("SELECT n, COUNT(*) FROM long GROUP BY n"),
                         [(None, 1), (D("-0.00000001"), 1), (D("1234567890.12345678"), 1),
                          (D("1234567890.12345679"), 1), (D("1234567890.12345680"), 1)])
        self.assertEqual(self.rows("SELECT DISTINCT n FROM long WHERE id < 4 ORDER BY n DESC"),
                         [(D(f"1234567890.123456{end}"),) for end in (80, 79, 78)])
        self.assertEqual(self.rows("SELECT g, MAX(n) m, SUM(n) FROM long GROUP BY g ORDER BY m"),
                         [("a", D("1234567890.12345679"), D("2469135780.24691357")),
                          ("b", D("1234567890.12345680"), D("1234567890.12345679"))])

    def test_all_formats_have_all_digits(self):
        wanted = "1234567890.12345680"
        for form in ("csv", "table", "json", "markdown", "tsv", "vertical"):
            out = io.StringIO()
            result = self.connection._database.answer("SELECT MAX(n) AS m, SUM(n) s FROM long")
            writer_of(form)(result, out, None)
            self.assertIn(wanted, out.getvalue(), form)
            self.assertIn("3703703670.37037036", out.getvalue(), form)

    def test_sums_beyond_64_bits(self):
        whole = sum(D(f"999999999999999.{row:03}") for row in range(20)) + D("9223372036854775.807")
        wanted = [(whole, D("62.00"), 3.1)]
        for sql in ("SELECT SUM(w), SUM(n), AVG(n) FROM big",
                    "SELECT SUM(w), SUM(n), AVG(n) FROM big GROUP BY n IS 7"):
            self.assertEqual(self.rows(sql), wanted, sql)
        self.assertEqual(self.rows("SELECT AVG(w) FROM big"), [(float(Fraction(whole) / 21),)])
        if importlib.util.find_spec("pandas"):
            cursor = self.connection.execute("SELECT SUM(w) FROM big")
            self.assertEqual(cursor.df(decimals=True).values.tolist(), [[whole]])
            self.assertEqual((cursor.df().values.tolist(), cursor.columns()["SUM(w)"].tolist()),
                             ([[float(whole)]], [float(whole)]))
        groups = self.rows("SELECT n, SUM(w) s FROM big GROUP BY n ORDER BY s DESC LIMIT 2")
        self.assertEqual([row[0] for row in groups], [None, D("5.25")])

    def test_a_context_rounds_nothing(self):
        with decimal.localcontext() as context:
            context.prec = 3
            self.assertEqual(str(self.rows("SELECT MAX(n) FROM long")[0][0]),
                             "1234567890.12345680")

    def test_expressions_that_need_a_double_are_refused(self):
        for sql in ("SELECT SUM(n) * 2 FROM long", "SELECT n + 1, COUNT(*) FROM long GROUP BY n",
                    "SELECT g, SUM(n) s FROM long GROUP BY g HAVING s > 1.5",
                    "SELECT g FROM long GROUP BY g ORDER BY SUM(n) + 1"):
            with self.subTest(sql), self.assertRaisesRegex(bwtools.ProgrammingError,
                                                           "more than 15 digits"):
                self.rows(sql)
        self.assertEqual(self.rows("SELECT SUM(n) * 2 FROM big"), [(124.0,)])

    def test_sums_and_means_are_the_same_both_ways(self):
        self.both("SELECT SUM(n), AVG(n), COUNT(n) FROM whole")
        self.both("SELECT SUM(n), AVG(n), SUM(id), AVG(id) FROM big")
        self.both("SELECT SUM(price), AVG(price), SUM(paid), AVG(paid) FROM shop")
        found = self.rows("SELECT SUM(n) FILTER (WHERE id >= 0), AVG(n) FILTER (WHERE id > 1), "
                          "SUM(DISTINCT n), AVG(DISTINCT n) FROM whole")
        self.assertEqual(found, [(0, float(Fraction(-2 << 61, 30)), 0, 0.0)])
        with self.assertRaisesRegex(bwtools.ProgrammingError, "outside the range of 64 bits"):
            self.rows("SELECT SUM(n) FILTER (WHERE id >= 0) FROM whole WHERE n > 0")

    def test_sums_in_sqlite_become_integers_if_a_double_is_too_short(self):
        """A sum of decimals of few digits each may have many."""
        csv = "k,p\n" + "".join(f"{row % 3},{99999999 - row}.{row * 7919 % 999983:06}\n"
                                for row in range(3000))
        imported(self.folder / "sums.bw", csv)
        wanted = {}
        for line in csv.split("\n")[1:-1]:
            key, _, price = line.partition(",")
            wanted[int(key)] = wanted.get(int(key), 0) + D(price)
        with bwtools.connect(self.folder / "sums.bw") as connection:
            for sql in ("SELECT k, SUM(p) FROM sums GROUP BY k",
                        "SELECT k, SUM(p) s FROM sums, (SELECT 1) GROUP BY k ORDER BY s DESC"):
                self.assertEqual(dict(connection.execute(sql).fetchall()), wanted)
            with self.assertRaisesRegex(bwtools.ProgrammingError, "more than 15 digits"):
                connection.execute("SELECT SUM(p) + 1 FROM sums, (SELECT 1)")

    def test_a_filter_changes_no_type(self):
        self.assertEqual(
            self.rows("SELECT SUM(n) FILTER (WHERE g = 'a'), MAX(n) FILTER (WHERE g = 'b'), "
                      "AVG(n) FILTER (WHERE id = 1), SUM(DISTINCT n), SUM(ALL n) FROM long"),
            [(D("2469135780.24691357"), D("1234567890.12345680"), 1234567890.1234567,
              D("3703703670.37037036"), D("3703703670.37037036"))])
        self.assertEqual(
            self.rows("SELECT SUM(price) FILTER (WHERE paid), MIN(day) FILTER (WHERE NOT paid), "
                      "COUNT(price) FILTER (WHERE paid) FROM shop"),
            [(D("2.80"), datetime.date(2024, 2, 1), 2)])

    def test_integers_as_bytes_are_in_order(self):
        numbers = [-(1 << 120), -(1 << 64), -5, 0, 7, 1 << 63, 1 << 100]
        self.assertEqual(sorted(map(blob_of, numbers)), list(map(blob_of, numbers)))
        self.assertEqual(list(map(number_in, map(blob_of, numbers))), numbers)


class Kinds(unittest.TestCase):
    """SQLite's values become the numbers of their kinds, or stay values."""

    def test_values_are_read_back(self):
        for kind, numbers in (
                (kinds.Whole(), [0, -5, 1 << 62]), (kinds.Decimals(2, 0), [0, -1, 99999999999999]),
                (kinds.Decimals(9, 1), [1, -123456789012345]),
                (kinds.Truths("no", "yes"), [0, 1]), (kinds.Dates(), [-719162, 0, 2932896]),
                (kinds.Dates("%d.%m.%Y"), [19000]), (kinds.Times("%Y-%m-%d %H:%M:%S"), [0, -1]),
                (kinds.Times("%Y-%m-%d %H:%M:%S", 3, "Z"), [1706704200250, -1]),
                (kinds.Clocks("%H:%M"), [0, 86399]), (kinds.Clocks("%H:%M", 2), [5])):
            values = stored(kind, numbers)
            self.assertEqual(numbers_of(kind, [*values, None]), [*numbers, None], kind)

    def test_values_of_another_kind_stay(self):
        for kind, value in ((kinds.Whole(), 1.5), (kinds.Whole(), "a"),
                            (kinds.Decimals(2, 0), .125),
                            (kinds.Decimals(2, 0), math.inf), (kinds.Decimals(2, 0), "2.50"),
                            (kinds.Truths("no", "yes"), 2), (kinds.Dates(), "2024-1-1"),
                            (kinds.Dates(), "20240101"), (kinds.Dates(), "2024-02-30"),
                            (kinds.Times("%Y-%m-%d %H:%M:%S"), "2024-01-01 12:30"),
                            (kinds.Clocks("%H:%M"), "25:00:00")):
            self.assertIsNone(numbers_of(kind, [value]), value)
            result = Result(["a"], [kind], ValueRows([(value,)]), 2)
            self.assertEqual((result.kinds, list(result.objects())), ([None], [(value,)]))
            for form in ("csv", "json", "table", "vertical"):
                writer_of(form)(result, io.StringIO(), None)

    def test_aggregates_have_kinds(self):
        price = Column("p", "p", kinds.Decimals(2, 0))
        self.assertEqual([Aggregate(each, price).kind for each in ("SUM", "MIN", "COUNT", "AVG")],
                         [price.kind, price.kind, None, None])
        self.assertEqual(values_of(Aggregate("SUM", price), {"SUM(p)": [1 << 80, None]}),
                         [1 << 80, None])

    def test_json_is_json(self):
        values = [math.inf, -math.inf, b"\x00\xff", "a\u0000\"\\\n", 1 << 60, 1e300, -0.0, None]
        columns = [Result([f"c{place}" for place in range(len(values))], [None] * len(values),
                          ValueRows([tuple(values)]), 2),
                   Result(["p", "d", "t", "f", "n"],
                          [kinds.Decimals(2, 1), kinds.Dates("%d.%m.%Y"),
                           kinds.Truths("no", "yes"), kinds.Floats(0), kinds.Nulls()],
                          ValueRows([(-.05, "2024-02-01", 1, 1e22, None), (None,) * 5]), 2),
                   Result(["p", "s"], [kinds.Decimals(3, 1), texts("a\"", "b")],
                          NumberRows([Part(b"p,s\n-5,0\nNULL,1\n120,NULL\n")]), 1)]

        def refuse(word):
            self.fail(f"{word} isn't JSON")

        for result in columns:
            out = io.StringIO()
            writer_of("json")(result, out, None)
            self.assertTrue(json.loads(out.getvalue(), parse_constant=refuse))
        self.assertIn('{"p": -0.005, "s": "a\\""}', out.getvalue())

    def test_equal_and_different_numbers_are_turned(self):
        for items in (["5", "NULL"] * 300, [5, None] * 300, ["5", "6", "NULL"], [5, 6, None], []):
            found = Numbers(kinds.Whole(), items).turned("", lambda each: [-one for one in each])
            self.assertEqual(found, ["" if each in ("NULL", None) else -int(each)
                                     for each in items])


class Readers(Results):
    def test_each_reader_has_its_own_place(self):
        for sql, width in (("SELECT n FROM many", 1), ("SELECT n, m FROM many", 2)):
            cursor = self.connection.execute(sql)
            self.assertEqual(cursor.fetchone()[0], 0)
            self.assertEqual((cursor.rowcount, len(cursor.description)), (ROWS, width))
            if importlib.util.find_spec("numpy"):
                self.assertEqual(len(cursor.columns()["n"]), ROWS)
            self.assertEqual(cursor.fetchmany(2)[-1][0], 2)
            rest = cursor.fetchall()
            self.assertEqual([row[0] for row in rest], list(range(3, ROWS)))
            self.assertEqual((cursor.fetchone(), cursor.fetchall(), cursor.rowcount),
                             (None, [], ROWS))

    def test_a_result_in_a_file(self):
        with mock.patch("bwtools._engine.executor.MOST_IN_MEMORY", 1000):
            cursor = self.connection.execute("SELECT n, m FROM many")
        self.assertIsNotNone(cursor.answer.body.parts[0].file)
        other = iter(cursor.answer.objects())
        self.assertEqual((next(other), cursor.fetchone(), next(other)), ((0, 0), (0, 0), (1, 1)))
        self.assertEqual(cursor.rowcount, ROWS)
        self.assertEqual(len(cursor.fetchall()), ROWS - 1)
        self.assertEqual(sum(1 for _ in other), ROWS - 2)

    def test_an_interrupted_fetch_loses_no_row(self):
        cursor = self.connection.execute("SELECT n FROM many")
        self.assertEqual(len(cursor.fetchmany(10)), 10)
        turned, calls = Numbers.objects, []

        def interrupted(column):
            calls.append(1)
            if len(calls) == 3:
                raise KeyboardInterrupt
            return turned(column)

        with mock.patch.object(Numbers, "objects", interrupted), \
                self.assertRaises(KeyboardInterrupt):
            cursor.fetchall()
        self.assertEqual([row[0] for row in cursor.fetchall()], list(range(10, ROWS)))

    def test_sizes_and_codes_as_sqlite3_has_them(self):
        cursor = self.connection.execute("SELECT day, NULL, NULL + 1, price FROM shop "
                                         "WHERE price + 0 IS NULL")
        self.assertEqual([each[1] for each in cursor.description],
                         ["dates", None, None, "decimals"])
        cursor.execute("SELECT id FROM long")
        self.assertEqual((cursor.fetchmany(0), len(cursor.fetchmany(2)), len(cursor.fetchmany(-1))),
                         ([], 2, 3))
        cursor.execute("SELECT nullif(id, 1) + 0.5 FROM long")
        self.assertEqual(cursor.description[0][1], "real")

    def test_parameters(self):
        for sql, given, wanted in (
                ("SELECT id FROM long WHERE id = :n OR id = :m", {"n": 1, "m": 3}, [(1,), (3,)]),
                ("SELECT ?2, ?1 FROM long WHERE id = ?1", (2, "x"), [("x", 2)]),
                ("SELECT id FROM long WHERE id > @n + 0", {"n": 4}, [(5,)]),
                ("SELECT ?, typeof(?1), length(?1)", [b"a\xff"], [(b"a\xff", "blob", 2)]),
                ("SELECT id FROM long WHERE g = ? AND id IN (?, ?)", range(3), None)):
            if wanted is None:
                with self.assertRaisesRegex(bwtools.ProgrammingError, "can't be compared with g"):
                    self.connection.execute(sql, given)
            else:
                self.assertEqual(self.connection.execute(sql, given).fetchall(), wanted)

    @unittest.skipUnless(importlib.util.find_spec("pandas"), "pandas isn't installed")
    def test_values_of_pandas_are_parameters(self):
        import numpy
        import pandas
        for value in (pandas.NA, pandas.NaT, numpy.datetime64("NaT")):
            self.assertEqual(self.rows("SELECT ? IS NULL", value), [(1,)])
        for value in (numpy.datetime64("2024-02-01"), pandas.Timestamp("2024-02-01").date()):
            self.assertEqual(self.rows("SELECT city FROM shop WHERE day = ?", value), [("Ulm",)])
        self.assertEqual(self.rows("SELECT city FROM shop WHERE at > ?",
                                   numpy.datetime64("2024-02-01T12:00")), [("Graz",)])
        self.assertEqual(self.connection.execute("SELECT city FROM shop WHERE price = ?",
                                                 pandas.Series([12.05])).fetchall(), [("Ulm",)])


class Threads(Results):
    def test_one_after_another_both_ways(self):
        statements = ("SELECT COUNT(*) FROM long", "SELECT g, COUNT(*) FROM long GROUP BY g",
                      "SELECT upper(g), n FROM long WHERE id < 3", "SELECT id FROM long",
                      "SELECT city || '' FROM shop")
        wanted, found = [self.rows(sql) for sql in statements[:2]], []
        wanted += [[self.rows(sql)] and self.rows(sql) for sql in statements[3:]]

        def work():
            found.extend(self.rows(sql) for sql in (*statements[:2], *statements[3:]))

        for _ in range(2):
            thread = threading.Thread(target=work)
            thread.start()
            thread.join()
        self.assertEqual(found, wanted * 2)

    def test_two_at_once_are_refused(self):
        begun, go, errors = threading.Event(), threading.Event(), []
        engine = self.connection._database.engine(self.connection._database.catalog.get("long"))
        ask, other = engine.once, self.connection.execute("SELECT id FROM long")

        def slow(statement):
            begun.set()
            go.wait(20)
            return ask(statement)

        def work():
            with contextlib.suppress(BaseException):
                errors.append(self.rows("SELECT COUNT(*) FROM long"))

        with mock.patch.object(engine, "once", slow):
            thread = threading.Thread(target=work)
            thread.start()
            begun.wait(20)
            for use in (lambda: self.rows("SELECT id FROM long"), self.connection.cursor,
                        self.connection.commit, self.connection.close, other.fetchone,
                        other.fetchall, other.df, other.close, lambda: other.description,
                        lambda: other.rowcount, lambda: other.execute("SELECT 1")):
                with self.assertRaisesRegex(bwtools.ProgrammingError, "one thread at a time"):
                    use()
            go.set()
            thread.join()
        self.assertEqual(errors, [[(5,)]])
        self.assertEqual(self.rows("SELECT COUNT(*) FROM long"), [(5,)])
        self.assertEqual(len(other.fetchall()), 5)

    def test_two_on_one_cursor(self):
        """Each row is fetched once, or the call is refused."""
        cursor, found = self.connection.execute("SELECT id FROM long"), list[tuple]()

        def work():
            for _ in range(200):
                with contextlib.suppress(bwtools.ProgrammingError):
                    found.extend(cursor.fetchmany(1))

        threads = [threading.Thread(target=work) for _ in range(4)]
        for thread in threads:
            thread.start()
        for thread in threads:
            thread.join()
        self.assertEqual(sorted(found + cursor.fetchall()), [(number,) for number in range(1, 6)])


class Ended(Results):
    """What ends a statement, or the program."""

    def test_a_dropped_connection_closes_its_processes(self):
        connection = bwtools.connect(self.folder / "long.bw")
        cursor = connection.execute("SELECT id FROM long")
        connection.execute("SELECT upper(g) || id FROM long, (SELECT 1)").fetchone()
        database = connection._database
        processes = [session.number for engine in database.engines.found.values()
                     for session in engine.asker.sessions.sessions]
        self.assertTrue(processes)
        gc.disable()
        self.addCleanup(gc.enable)
        del connection, database, cursor
        for number in processes:
            self.assertRaises(ProcessLookupError, os.kill, number, 0)

    def test_no_warning(self):
        code = ("import bwtools, sys\n"
                "def work():\n"
                "    connection = bwtools.connect(sys.argv[1])\n"
                "    cursor = connection.execute('SELECT id FROM long')\n"
                "    cursor.fetchone()\n"
                "    connection.execute('SELECT upper(g) || 1 FROM long, (SELECT 1)')\n"
                "    return connection\n"
                "work()\n"
                "left = work()\n"
                "print('done')\n")
        done = subprocess.run([sys.executable, "-X", "dev", "-W", "error", "-c", code,
                               self.folder / "long.bw"], capture_output=True, text=True,
                              env={**os.environ, "PYTHONPATH": str(PYTHON)}, check=False)
        self.assertEqual((done.returncode, done.stdout, done.stderr), (0, "done\n", ""))

    def at_terminal(self, words, keys):
        """Returns what a program shows at a terminal, at which keys are typed after prompts."""
        ours, theirs = pty.openpty()
        # it has the terminal, so that Ctrl-C is a signal to its group
        starter = ("import fcntl, os, sys, termios\n"
                   "fcntl.ioctl(0, termios.TIOCSCTTY, 0)\nos.execv(sys.argv[1], sys.argv[1:])\n")
        with subprocess.Popen(
                [sys.executable, "-c", starter, sys.executable, *map(str, words)], stdin=theirs,
                stdout=theirs, stderr=theirs, cwd=self.folder, start_new_session=True,
                env={**os.environ, "TERM": "dumb", "COLUMNS": "200", "PYTHONPATH": str(PYTHON),
                     "PYTHON_BASIC_REPL": "1",
                     "BW_ASK_HISTORY": str(self.folder / "history")}) as process:
            os.close(theirs)
            shown, last = "", ""
            for prompt, key in keys:
                part, begun = "", time.monotonic()
                while not re.search(prompt, part) and time.monotonic() - begun < 60:
                    found = select.select([ours], [], [], 3)[0]
                    if not found and last == "\3":
                        # it came before the prompt waited, and is noticed with the next key
                        os.write(ours, b"\3")
                    elif found:
                        try:
                            part += os.read(ours, 4096).decode()
                        except OSError:
                            break
                shown, last = shown + part, key
                os.write(ours, key.encode())
            with contextlib.suppress(OSError):
                while part := os.read(ours, 4096).decode():
                    shown += part
            process.wait(60)
        os.close(ours)
        return shown.replace("\r", "")

    def test_ctrl_c_at_the_prompt(self):
        shown = self.at_terminal(
            [PYTHON / "bin" / "bw-ask", "--format", "csv", "long.bw"],
            [("bw> $", "SELECT COUNT(*), 1 FROM long;\n"), ("bw> $", "\3"),
             ("interrupted\r\nbw> $", "SELECT id FROM long WHERE\n"), (r"\.\.\.> $", "\3"),
             ("interrupted\r\nbw> $", "SELECT COUNT(*), 2 FROM long;\n"),
             ("5,2\r\n(?s:.*)bw> $", "SELECT g, COUNT(*) FROM long GROUP BY g;\n"),
             ("b,3\r\n(?s:.*)bw> $", ".quit\n")])
        self.assertIn("b,3\n", shown)
        self.assertNotIn("ended", shown)

    def test_ctrl_c_at_pythons_prompt(self):
        shown = self.at_terminal(
            ["-q", "-i", "-c", "import bwtools; c = bwtools.connect('long.bw')"],
            [(">>> $", "c.execute('SELECT id FROM long').fetchall()\n"), (r"\]\r\n>>> $", "\3"),
             ("KeyboardInterrupt\r\n>>> $", "c.execute('SELECT g FROM long').fetchall()\n"),
             (r"\]\r\n>>> $", "exit()\n")])
        self.assertIn("[('a',), ('a',), ('b',), ('b',), ('b',)]", shown)

    def test_a_fork_leaves_the_sessions(self):
        wanted = self.rows("SELECT id FROM long")

        def use():
            with self.assertRaisesRegex(bwtools.ProgrammingError, "opened this connection"):
                self.rows("SELECT id FROM long")

        for _ in range(2):
            child = in_fork(use)
            self.assertEqual(self.rows("SELECT id FROM long"), wanted)
            self.assertEqual(os.waitpid(child, 0)[1], 0)
        self.assertEqual(self.rows("SELECT g, COUNT(*) FROM long GROUP BY g"),
                         [("a", 2), ("b", 3)])

    def test_a_signal_of_the_group_leaves_the_sessions(self):
        self.rows("SELECT id FROM long")
        session, = self.connection._database.engine(
            self.connection._database.catalog.get("long")).asker.sessions.sessions
        self.assertEqual(os.getpgid(session.number), session.number)
        self.assertTrue(session.is_running())


# asks statements again and again, while a thread sends it interrupts, of which up to two count for
# each turn
INTERRUPTED = """
import os, random, signal, sys, threading, time
import bwtools
armed = [0]

def stop(*_):
    if armed[0]:
        armed[0] -= 1
        raise KeyboardInterrupt

signal.signal(signal.SIGINT, stop)
connection = bwtools.connect(*sys.argv[3:])
statements = ("SELECT COUNT(*) FROM shop", "SELECT n, m FROM many WHERE n < 9000",
              "SELECT m, COUNT(*), SUM(n) FROM many GROUP BY m",
              "SELECT upper(city) FROM shop, (SELECT 1)", "SELECT n, COUNT(*) FROM long GROUP BY n",
              "SELECT n FROM many WHERE n < 5000 ORDER BY m DESC LIMIT 5",
              "SELECT strftime('%m', day), SUM(price) FROM shop GROUP BY 1")
wanted = {each: connection.execute(each).fetchall() for each in statements}
chance, end, counts = random.Random(int(sys.argv[1])), time.monotonic() + float(sys.argv[2]), [0, 0]

def pest():
    # a machine with much else to do takes longer
    while time.monotonic() < end or min(counts) < 10 and time.monotonic() < end + 60:
        time.sleep(chance.random() / 30)
        os.kill(os.getpid(), signal.SIGINT)

thread = threading.Thread(target=pest)
thread.start()
while thread.is_alive():
    try:
        try:
            armed[0] = 2
            for each in statements:
                found = connection.execute(each).fetchall()
                assert found == wanted[each], each
                counts[0] += 1
        except KeyboardInterrupt:
            counts[1] += 1
        armed[0] = 0
    except KeyboardInterrupt:
        armed[0] = 0
for each in statements:
    assert connection.execute(each).fetchall() == wanted[each], each
print(min(counts) > 9)
"""


class Interrupted(Results):
    def test_interrupts_at_any_moment_cost_one_statement_each(self):
        seconds = sample(1, 4)
        done = subprocess.run(
            [sys.executable, "-c", INTERRUPTED, "5", str(seconds),
             *(self.folder / name for name in self.tables)], capture_output=True, text=True,
            env={**os.environ, "PYTHONPATH": str(PYTHON)}, check=False)
        # Python itself prints what a signal raises in a finalizer
        self.assertEqual((done.returncode, done.stdout), (0, "True\n"), done.stderr)


class Package(unittest.TestCase):
    def test_version_and_types(self):
        self.assertRegex(bwtools.__version__, r"^[0-9]+\.[0-9]+\.[0-9]+$")
        self.assertTrue((pathlib.Path(bwtools.__file__).parent / "py.typed").exists())

    def test_programs_are_short(self):
        for name in ("ask", "from_numbers", "import_", "shards", "to_numbers"):
            path = pathlib.Path(bwtools.__file__).parent / "_cli" / f"{name}.py"
            self.assertLessEqual(len(path.read_text(encoding="utf-8").splitlines()), 60, name)

    def test_errors_are_shown_as_they_are_imported(self):
        for name in ("ProgrammingError", "OperationalError", "Connection", "Cursor", "Error"):
            self.assertEqual(getattr(bwtools, name).__module__, "bwtools")
        with self.assertRaises(bwtools.OperationalError) as raised:
            bwtools.connect("nothing.bw")
        self.assertEqual(type(raised.exception).__qualname__, "OperationalError")

    def test_help_fits_two_screens(self):
        import pydoc
        text = pydoc.render_doc(bwtools, renderer=pydoc.plaintext)
        before, _, rest = text.partition("PACKAGE CONTENTS\n")
        # beside a line for each module
        self.assertLessEqual(len((before + rest.partition("\n\n")[2]).split("\n")), 60)
        for part in (r"bwtools\.connect\(", r"connect\(\s*\*paths", "VERSION"):
            self.assertRegex(text, part)
        self.assertIn("ProgrammingError", dir(bwtools))

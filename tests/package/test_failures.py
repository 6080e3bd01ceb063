"""Disks and memory that end: a line and a status of the programs, and an error of the module; and
nothing that Python would report of objects that weren't closed."""
import json
import os
import re
import resource
import signal
import sqlite3
import subprocess
import sys
import threading
from unittest import mock

import bwtools
from bwtools import _errors
from bwtools._sql import plan
from bwtools._storage import columns_file

from tests.support import (BW, IS_WHOLE, PYTHON, Imported, TestCase, content, import_package,
                           imported, sample, tool, write_script)

DISK = "the columns file can't be written: SQLite reports: " \
       "(database or disk is full|disk I/O error)"
FATAL = "Cannot recover from MemoryErrors"
ROWS = "".join(f"{n},{n * 7919 % 997:x} of {n},{n}.5\n" for n in range(3000))


class Failures(Imported):
    tables = {"t.bw": (f"n,word,price\n{ROWS}",), "s": (f"n,word,price\n{ROWS}", "--shards", "3")}

    def connect(self, name="t.bw"):
        connection = bwtools.connect(self.folder / name)
        self.addCleanup(connection.close)
        return connection


class Disks(Failures):
    def full(self, *words):
        """Runs a program that may write no more than some bytes of its columns file."""
        def write_to(*given, real=columns_file.write_to):
            resource.setrlimit(resource.RLIMIT_FSIZE, (30_000, 30_000))
            real(*given)

        before = content(self.folder)
        # here, or it would import a table with the limit
        import_package()
        with mock.patch("bwtools._storage.columns_file.write_to", write_to):
            done = tool(*words, cwd=self.folder)
        self.assertEqual(content(self.folder), before)
        return done

    def test_a_columns_file_that_does_not_fit(self):
        (self.folder / "raw.csv").write_text(f"n,word,price\n{ROWS}")
        for words in (["bw-import", "raw.csv", "o.bw"], ["bw-import", "raw.csv", "t.bw"],
                      ["bw-shards", "load", "raw.csv", "o"], ["bw-shards", "load", "raw.csv", "s"],
                      ["bw-to-numbers", "raw.csv", "o.csv"]):
            done = self.full(*words)
            with self.subTest(words):
                self.assertEqual(done.status, 5, done)
                self.assertRegex(done.err, f"\\A{words[0]}: {DISK}\n\\Z")
        self.assertEqual(self.connect().execute("SELECT COUNT(*) FROM t").fetchone(), (3000,))

    def test_what_sqlite_says_of_a_disk(self):
        connection = self.connect()
        connection.execute("SELECT upper(word) FROM t WHERE n = 1")
        listing = connection._database.by_sqlite.whole
        listing.database.execute("PRAGMA max_page_count = 3")
        with self.assertRaisesRegex(bwtools.OperationalError, "database or disk is full"):
            connection.execute("SELECT upper(word) FROM t")
        with mock.patch("bwtools._sql.by_sqlite.BySqlite.tables",
                        side_effect=sqlite3.OperationalError("disk I/O error")):
            done = tool("bw-ask", "t.bw", "SELECT upper(word) FROM t", cwd=self.folder)
        self.assertEqual(done, (5, "", "bw-ask: SQLite reports: disk I/O error\n"))


class Memory(Failures):
    def test_refused_memory(self):
        for what in (MemoryError(), sqlite3.OperationalError("out of memory"),
                     RuntimeError("can't start new thread"), OSError(12, "Cannot allocate memory"),
                     ImportError("x.so: failed to map segment from shared object")):
            with self.subTest(repr(what)), mock.patch.object(plan, "answer", side_effect=what):
                with self.assertRaisesRegex(bwtools.OperationalError, "(?i)memory"):
                    self.connect().execute("SELECT COUNT(*) FROM t")
                done = tool("bw-ask", "t.bw", "SELECT COUNT(*) FROM t", cwd=self.folder)
                self.assertEqual((done.status, done.out), (6, ""))
                self.assertRegex(done.err, "\\Abw-ask: .*memory\n\\Z")

    def test_a_mistake_of_ours_is_none(self):
        for what in (RuntimeError("another"), ImportError("no module"), KeyError("memory")):
            self.assertFalse(_errors.is_failure(what))

    def test_in_threads(self):
        for target, error in (("bwtools._engine.process.Session.totals", MemoryError()),
                              ("threading.Thread.start", RuntimeError("can't start new thread"))):
            for name in ("s", "t.bw"):
                table = name.partition(".")[0]
                if name == "t.bw" and "Thread" in target:
                    continue
                with self.subTest(target, table=table), mock.patch(target, side_effect=error), \
                        self.assertRaisesRegex(bwtools.OperationalError, "out of memory"):
                    self.connect(name).execute(f"SELECT word, COUNT(*) FROM {table} GROUP BY word "
                                               "HAVING MAX(n) > 5")
        self.assertEqual(threading.active_count(), 1)

    def test_a_session_without_memory(self):
        program = write_script(self.folder / "refusing", "while read -r line; do echo "
                               "'bw: 801 out of memory' >&2; echo; read -r empty; done; exit 6")
        for way, sql in (("rows", "SELECT n FROM t ORDER BY n"),
                         ("totals", "SELECT n, COUNT(*) FROM t GROUP BY n")):
            done = tool("bw-ask", "t.bw", sql, cwd=self.folder, BW=str(program))
            with self.subTest(way):
                self.assertEqual(done, (6, "", "bw: 801 out of memory\n"))

    def test_limits_of_the_system(self):
        """A limit that Python itself may not fit in: a right answer, or status 6, unless Python
        aborts, as it does where an error within a MemoryError finds no memory either."""
        words = [sys.executable, PYTHON / "bin" / "bw-ask", "t.bw"]
        told = subprocess.run([sys.executable, "-c", "print(open('/proc/self/status').read())"],
                              capture_output=True, text=True, check=True).stdout
        peak = int(re.findall(r"VmPeak:\s+([0-9]+) kB", told)[0]) // 1024
        asked = [("SELECT COUNT(*) FROM t", "COUNT(*)\n3000\n"),
                 ("SELECT COUNT(upper(word) || n) AS n FROM t", "n\n3000\n")]
        tried = [(peak + more, *each) for more in (2, 4, 8, 14, 30) for each in asked]
        # the sample has each size, and each statement twice or more
        for size, sql, wanted in tried if IS_WHOLE else tried[::4] + tried[3::4]:
            done = subprocess.run(
                [*words, sql], cwd=self.folder, capture_output=True, text=True, check=False,
                stdin=subprocess.DEVNULL, preexec_fn=lambda: resource.setrlimit(
                    resource.RLIMIT_AS, (size << 20, size << 20)))
            if done.returncode == -signal.SIGABRT and FATAL in done.stderr:
                continue
            with self.subTest(size, sql=sql):
                self.assertIn((done.returncode, done.stdout), ((0, wanted), (6, "")), done.stderr)
                self.assertNotIn("Traceback", done.stderr)


class Fields(TestCase):
    def setUp(self):
        self.folder = self.new_folder()

    def refused(self, data, *words):
        (self.folder / "raw.csv").write_text(data)
        done = tool("bw-import", "raw.csv", "t.bw", *words, cwd=self.folder)
        self.assertEqual((done.status, done.out, done.err.count("\n")), (3, "", 1), done)
        self.assertEqual(os.listdir(self.folder), ["raw.csv"])
        return done.err

    def test_exponents(self):
        for number in ("1e999999", "-1e999999", "1" * 5000, "1" * 5000 + ".5"):
            with self.subTest(number[:9]):
                self.assertIn("its numbers don't fit 64 bits with 2 digits",
                              self.refused(f"a,b\n2.5,x\n{number},y\n", "--digits", "a=2"))
        imported(self.folder / "s.bw", "a,b\n2.5,x\n1e-999999,y\n", "--digits", "a=2")
        with bwtools.connect(self.folder / "s.bw") as connection:
            self.assertEqual(str(connection.execute("SELECT a FROM s").fetchall()),
                             "[(Decimal('2.50'),), (Decimal('0.00'),)]")

    def test_numbers_of_thousands_of_digits(self):
        imported(self.folder / "t.bw", f"a,b\n1,{'5' * 5000}\n2,7\n")
        with bwtools.connect(self.folder / "t.bw") as connection:
            self.assertEqual(connection.execute("SELECT b FROM t").fetchall(),
                             [("5" * 5000,), ("7",)])

    def test_long_fields(self):
        most = 1 << 20
        for field in ("x" * most, f'"{"x" * (most - 1)}\n"', f'"{"x" * 999999}""{"y" * 9}"'):
            imported(self.folder / "s.bw", f"a,b\n1,{field}\n2,y\n")
            with bwtools.connect(self.folder / "s.bw") as connection:
                found, = connection.execute("SELECT b FROM s WHERE a = 1").fetchone()
                self.assertEqual(found, field.strip('"').replace('""', '"'))
        for name in os.listdir(self.folder):
            os.unlink(self.folder / name)
        for data in (f"a,b\n1,{'x' * (most + 1)}\n2,y\n", f"a,b\n1,{'x' * (most * 3)}\n2,y\n",
                     f'a,b\n1,"{"x" * most}\n"\n', f"{'h' * (most + 1)},b\n1,2\n",
                     f'a,b\n1,"{"xx" * most}\n\n\n"\n', 'a,b\n1,"' + f"{'x' * 99}\n" *
                     sample(12_000, 99_999)):
            with self.subTest(data[:9], size=len(data)):
                self.assertIn("has a field of more than 1,048,576 characters",
                              self.refused(data))


# runs programs, each in a fork that ends as a Python of its own, and prints its errors before its
# status
IN_TURN = """
import json, os, runpy, sys
from bwtools._cli import ask, from_numbers, import_, shards, to_numbers
for words in json.loads(sys.argv[1]):
    if not os.fork():
        os.dup2(1, 2)
        os.dup2(os.open(os.devnull, os.O_WRONLY), 1)
        sys.argv = words
        runpy.run_path(words[0], run_name="__main__")
        sys.exit()
    print("==", os.waitstatus_to_exitcode(os.wait()[1]), flush=True)
"""


class Objects(Failures):
    """`python -X dev` shows what wasn't closed, and exceptions that were ignored."""

    def test_programs_and_the_module(self):
        code = ("import bwtools, sys\n"
                "c = bwtools.connect('t.bw', 's')\n"
                "for sql in ('SELECT COUNT(*) FROM t', 'SELECT n FROM s LIMIT 2',\n"
                "            'SELECT upper(word) FROM t', 'SELECT word FROM s', 'SELEC'):\n"
                "    try:\n"
                "        cursor = c.execute(sql)\n"
                "    except bwtools.Error:\n"
                "        pass\n"
                "try:\n"
                "    bwtools.connect('t.bw.csv')\n"
                "except bwtools.Error:\n"
                "    del c\n")
        (self.folder / "module.py").write_text(code)
        calls = [["module.py"], *([str(PYTHON / "bin" / name), *rest] for name, *rest in (
            ("bw-import", "t.bw.csv", "o.bw"), ("bw-import", "--verify", "o.bw"),
            ("bw-import", "--dry-run", "t.bw.csv"), ("bw-to-numbers", "t.bw.csv", "o.csv"),
            ("bw-shards", "load", "t.bw.csv", "o"),
            ("bw-ask", "o", "SELECT upper(word) FROM o"),
            ("bw-ask", "t.bw", "SELECT word FROM t LIMIT 3"), ("bw-import", "t.bw", "x.bw"),
            ("bw-from-numbers", "t.bw.columns")))]
        done = subprocess.run(
            [sys.executable, "-X", "dev", "-c", IN_TURN, json.dumps(calls)], cwd=self.folder,
            check=False, text=True, stdin=subprocess.DEVNULL, stdout=subprocess.PIPE,
            stderr=subprocess.STDOUT, env={**os.environ, "PYTHONPATH": str(PYTHON),
                                           "BW": str(BW)})
        found = re.findall(r"((?:(?!== ).*\n)*)== ([0-9]+)\n", done.stdout)
        self.assertEqual([int(status) for _, status in found], [0] * 8 + [3, 3], done.stdout)
        for words, (told, _) in zip(calls, found):
            with self.subTest(words[0]):
                self.assertNotRegex(told, "Warning|Exception ignored|Traceback")

"""Statements over the files of a table: whole results, and none if a session fails."""
import os
import pathlib
import signal
import subprocess
import tempfile
import threading
import unittest
from unittest import mock

from bwtools import _errors
from bwtools._engine import cluster, executor
from bwtools._engine.process import MOST_AHEAD, SURPLUS
from bwtools._errors import Failed, Refused

COUNTS = "read a; read b; printf 'COUNT(*),MAX(x)\\n%s\\n\\n' "
BW = _errors.program()


class Temporary(unittest.TestCase):
    def setUp(self):
        folder = tempfile.TemporaryDirectory(prefix="unittests-")
        self.addCleanup(folder.cleanup)
        self.folder = pathlib.Path(folder.name)

    def opened(self, path):
        file = open(path, "rb")
        self.addCleanup(file.close)
        return file

    def asker_of(self, *args, **named):
        """Returns sessions that end with the test."""
        asker = executor.Sessions(*args, **named)
        self.addCleanup(asker.close)
        return asker


class Tables(Temporary):
    """Tables that bw has loaded."""

    def setUp(self):
        super().setUp()
        patched = mock.patch.dict(os.environ, {"BW": BW})
        patched.start()
        self.addCleanup(patched.stop)

    def table(self, name, *rows):
        """Returns an open table of columns a and b with these rows of CSV."""
        csv, schema, out = (self.folder / f"{name}{end}" for end in (".csv", ".schema", ".bw"))
        csv.write_text("".join(f"{row}\n" for row in ("a,b", *rows)), encoding="utf-8")
        schema.write_text("TABLE t\nCOLUMN a 0 9\nCOLUMN b -9 9\n", encoding="utf-8")
        subprocess.run([BW, "load", schema, csv, out], check=True, stdin=subprocess.DEVNULL)
        return self.opened(out)

    def engine_of(self, *rows, **named):
        """Returns an engine over files of these rows."""
        files = [self.table(f"t{place}", *each) for place, each in enumerate(rows)]
        return executor.Engine(self.asker_of(files, **named))

    def test_totals_of_files_are_added(self):
        asked = self.engine_of(["1,2", "1,-3"], ["2,", "1,5"], ["3,"])
        statements = ["SELECT COUNT(*), COUNT(b), SUM(b), MIN(b), MAX(b) FROM t",
                      "SELECT COUNT(*), SUM(b), MIN(a) FROM t WHERE a = 2",
                      "SELECT COUNT(*), SUM(b), MIN(a) FROM t WHERE a = 9"]
        self.assertEqual(list(map(list, asked.totals(statements))),
                         [[5, 3, 4, -3, 5], [1, None, 2], [0, None, None]])
        self.assertEqual((asked.asked, asked.totals([])), (statements, []))

    def test_rows_are_those_of_each_file_in_order(self):
        asked = self.engine_of(["1,2", "1,-3"], ["2,", "1,5"])
        for _ in range(2):
            self.assertEqual([file.rows() for file in asked.rows("SELECT b FROM t")],
                             [b"2\n-3\n", b"NULL\n5\n"])

    def test_more_files_than_memory_has_room_for_are_asked_in_turn(self):
        for name, value in (("memory", lambda: 100), ("MOST_SESSIONS", 4)):
            with mock.patch.object(executor, name, value), \
                    mock.patch.object(executor, "IN_TURN", 2):
                asked = self.engine_of(["1,2"], ["2,3"], ["3,4"], ["4,5"], ["5,6"])
                statements = ["SELECT COUNT(*), SUM(b) FROM t", "SELECT MAX(a) FROM t"]
                self.assertEqual([list(each) for each in asked.totals(statements)], [[5, 20], [5]])
                self.assertEqual(asked.asker.sessions, [])
                found = [file.rows() for file in asked.rows("SELECT a FROM t")]
                self.assertEqual(found, [f"{place}\n".encode() for place in range(1, 6)])
                with self.assertRaisesRegex(Refused, "^bw: 404 "):
                    asked.rows("SELECT c FROM t")
                self.assertEqual(asked.asker.sessions, [])

    def test_a_long_result_is_in_a_file(self):
        asked = self.engine_of([f"{place % 10},{place % 7}" for place in range(5000)])
        with mock.patch.object(executor, "MOST_IN_MEMORY", 1000):
            file, = asked.rows("SELECT a, b FROM t")
        self.assertEqual(file.rows().decode(), "".join(
            f"{place % 10},{place % 7}\n" for place in range(5000)))
        self.assertTrue(file.file.fileno())
        file.close()

    def test_a_refused_statement_leaves_the_sessions(self):
        asked = self.engine_of(["1,2"], ["2,3"])
        good = "SELECT COUNT(*) FROM t"
        for statements in (["SELECT COUNT(c) FROM t"], [good] * 40 + ["SELECT x"] + [good] * 40):
            with self.assertRaisesRegex(Refused, "^bw: 40[42] "):
                asked.totals(statements)
        with self.assertRaisesRegex(Refused, "^bw: 404 "):
            asked.rows("SELECT c FROM t")
        before = list(asked.asker.sessions)
        self.assertEqual(asked.totals([good] * 100), [[2]] * 100)
        self.assertEqual(before, asked.asker.sessions)

    def test_what_bw_says_is_passed_on(self):
        told = []
        asked = self.engine_of(["1,2"], options=["--stats"], tell=told.append)
        asked.totals(["SELECT COUNT(*) FROM t", "SELECT SUM(a) FROM t WHERE b = 2"])
        asked.rows("SELECT a FROM t")
        self.assertEqual(["".join(told).count(word) for word in ("served program", "bw: ")], [3, 0],
                         told)

    def test_the_file_that_was_opened_is_asked(self):
        asked = self.engine_of(["1,2"])
        os.replace(self.table("other", "1,2", "2,3").name, self.folder / "t0.bw")
        self.assertEqual(asked.totals(["SELECT COUNT(*) FROM t"]), [[1]])
        asked.close()
        self.assertEqual(asked.totals(["SELECT COUNT(*) FROM t"]), [[1]])


class Failing(Temporary):
    """Programs that aren't as bw is."""

    def asker(self, *scripts):
        """Returns the sessions of shells, each of which runs a script."""
        program, files = self.folder / "program", []
        for place, script in enumerate(scripts):
            path = self.folder / f"script{place}"
            path.write_text(script, encoding="utf-8")
            files.append(self.opened(path))
        program.write_text('#!/bin/sh\n. "$2"\n', encoding="utf-8")
        program.chmod(0o755)
        patched = mock.patch.dict(os.environ, {"BW": str(program)})
        patched.start()
        self.addCleanup(patched.stop)
        return self.asker_of(files)

    def refuse(self, asker, regex, statements=("one", "two", "three")):
        asked = executor.Engine(asker)
        with self.assertRaisesRegex(Failed, regex) as failed:
            asked.totals(statements)
        # the next statement begins with other sessions
        self.assertEqual(asker.sessions, [])
        return failed.exception

    def test_a_session_that_dies_in_the_middle(self):
        good = f"for each in 1 2 3; do {COUNTS} 5,1; done; cat >/dev/null"
        for dies, why in [("kill -9 $$", "signal 9"), ("echo out of luck >&2; exit 5", ""),
                          ("exit 0", "status 0 before a result"),
                          ("printf 'COUNT(*),MAX(x)\\n5'", "status 0 before a result")]:
            for scripts in ([f"{COUNTS} 5,1; {dies}"], [good, f"{COUNTS} 5,1; {dies}"],
                            [f"{COUNTS} 5,1; {dies}", good]):
                with self.subTest(dies, shards=len(scripts)):
                    self.refuse(self.asker(*scripts), why)
        self.assertEqual(self.refuse(self.asker("echo told >&2; exit 6"), "").status, 6)

    def test_rows_of_a_session_that_dies(self):
        for script in ("read a; read b; printf 'a\\n1\\n'", "printf 'a\\n1'; kill -9 $$"):
            asker = self.asker("read a; read b; printf 'a\\n1\\n\\n'; cat >/dev/null", script)
            with self.subTest(script), self.assertRaises(Failed):
                executor.Engine(asker).rows("SELECT a FROM t")
            self.assertEqual(asker.sessions, [])

    def test_results_that_are_not_the_statements_own(self):
        for script, why in [
                ("printf 'COUNT(*)\\n1\\n\\nCOUNT(*)\\n2\\n\\nCOUNT(*)\\n3\\n\\n\\n'; cat",
                 SURPLUS),
                (f"{COUNTS} 5; {COUNTS} 5; {COUNTS} 5; cat >/dev/null", "no totals"),
                (f"{COUNTS} '5,1\\n5,1'; {COUNTS} 5,1; {COUNTS} 5,1; cat", "no totals")]:
            with self.subTest(script):
                asker = self.asker(script)
                with self.assertRaisesRegex(Failed, why):
                    executor.Engine(asker).totals(["one", "two", "three"])

    def test_shards_that_disagree(self):
        one = "read a; read b; printf 'COUNT(*)\\n1\\n\\n'; cat"
        two = "read a; read b; printf 'SUM(x)\\n1\\n\\n'; cat"
        with self.assertRaisesRegex(Failed, "no totals"):
            executor.Engine(self.asker(one, two)).totals(["one"])

    def test_an_interrupt_ends_the_sessions(self):
        # a shell has background jobs ignore interrupts
        before = signal.signal(signal.SIGINT, signal.default_int_handler)
        self.addCleanup(signal.signal, signal.SIGINT, before)
        for count in (1, 3):
            asker = self.asker(*["exec sleep 60"] * count)
            timer = threading.Timer(.2, os.kill, (os.getpid(), signal.SIGINT))
            timer.start()
            with self.subTest(count), self.assertRaises(KeyboardInterrupt):
                asker.totals(["one"])
            timer.join()
            self.assertEqual(asker.sessions, [])

    def test_few_statements_are_ahead(self):
        # it answers only what it has read when its input is empty
        program = ("import os, sys, time\nsizes = []\n"
                   "while True:\n time.sleep(0.05)\n data = os.read(0, 1 << 20)\n"
                   " if not data: break\n sizes.append(len(data))\n"
                   " for _ in range(data.count(b';')):\n  os.write(1, b'COUNT(*)\\n1\\n\\n')\n"
                   "print(max(sizes), file=sys.stderr)\n")
        path = self.folder / "slow.py"
        path.write_text(program, encoding="utf-8")
        asker = self.asker(f"exec python3 {path}")
        statements = [f"SELECT COUNT(*) FROM t WHERE a = {place}" for place in range(60)]
        self.assertEqual(executor.Engine(asker).totals(statements), [[1]] * 60)
        session = asker.sessions[0]
        self.assertEqual(session.end(), 0)
        self.assertLessEqual(int(session.said()), 50 * MOST_AHEAD)


class SideBySide(unittest.TestCase):
    def test_results_are_in_order(self):
        barrier = threading.Barrier(3, timeout=20)

        def work(place):
            barrier.wait()
            return place

        works = [lambda place=place: work(place) for place in range(3)]
        self.assertEqual(executor.side_by_side(works, mock.Mock()), [0, 1, 2])

    def test_the_first_error_is_raised_once_all_have_ended(self):
        done, ready = [], threading.Event()

        def fail(why, wait):
            if wait:
                ready.wait(20)
            done.append(why)
            ready.set()
            raise ValueError(why)

        with self.assertRaisesRegex(ValueError, "first"):
            executor.side_by_side([lambda: None, lambda: fail("first", True),
                                 lambda: fail("second", False)], mock.Mock())
        self.assertEqual(done, ["second", "first"])

    def test_an_interrupt_ends_the_others(self):
        ended = threading.Event()

        def interrupted():
            raise KeyboardInterrupt

        with self.assertRaises(KeyboardInterrupt):
            executor.side_by_side([interrupted, lambda: ended.wait(20)], ended.set)
        self.assertTrue(ended.is_set())


class Scheduled(unittest.TestCase):
    def asker(self, *replies):
        joined = mock.Mock()
        joined.replies.side_effect = lambda calls: iter(replies)
        return cluster.Scheduled(joined, [("one", None), ("two", None)], "columns")

    def test_totals_are_added(self):
        asker = self.asker((0, "", b"COUNT(*)\n1\n"), (0, "", b"COUNT(*)\n2\n"),
                           (0, "", b"SUM(a)\n5\n"), (0, "", b"SUM(a)\nNULL\n"))
        self.assertEqual(executor.Engine(asker).totals(["one", "two"]), [[3], [5]])
        call = asker.cluster.replies.call_args[0][0][1]
        self.assertEqual((call[1:4], call[5]), (("two", None, "columns"), "one"))

    def test_a_shard_that_fails(self):
        unknown = (3, "bw: 404 unknown column at byte 8\n", b"")
        for reply, error, why in [(unknown, Refused, "^bw: 404"),
                                  ((5, "gone", b""), Failed, "^two: gone$")]:
            asker = self.asker((0, "", b"COUNT(*)\n1\n"), reply)
            with self.subTest(why), self.assertRaisesRegex(error, why):
                executor.Engine(asker).totals(["one"])

"""A first statement, and the first rows of a result: by `bw query`, without a session."""
import os
import pathlib
import signal
import tempfile
import threading
import time
import unittest
from unittest import mock

import bwtools
from bwtools._engine.executor import Engine, Local
from bwtools._errors import Failed, Refused
from tests.support import Imported

COUNT = "SELECT COUNT(*) FROM t"


class Failing(unittest.TestCase):
    """Programs that aren't as bw is: each table file is the script that runs."""

    def setUp(self):
        folder = tempfile.TemporaryDirectory(prefix="unittests-")
        self.addCleanup(folder.cleanup)
        self.folder, self.told = pathlib.Path(folder.name), []
        program = self.folder / "program"
        program.write_text("#!/bin/sh\n. /dev/fd/0\n", encoding="utf-8")
        program.chmod(0o755)
        patched = mock.patch.dict(os.environ, {"BW": str(program)})
        patched.start()
        self.addCleanup(patched.stop)

    def engine(self, *scripts):
        """Returns an engine over files, of which each is a script."""
        files = []
        for place, script in enumerate(scripts):
            path = self.folder / f"script{place}"
            path.write_text(script, encoding="utf-8")
            files.append(open(path, "rb"))
            self.addCleanup(files[-1].close)
        return Engine(Local(files, (), self.told.append, [file.name for file in files]))

    def test_what_fails(self):
        good = "printf 'COUNT(*)\\n1\\n'"
        for script, error, regex in (
                ("echo 'bw: 404 unknown column at byte 7' >&2; exit 3", Refused, "^bw: 404 unk"),
                ("echo 'bw: 301 magic at byte 0' >&2; exit 3", Failed, ""),
                ("printf 'COUNT(*)\\n1\\n'; exit 5", Failed, "status 5"),
                ("printf 'COUNT(*)\\n1\\n'; kill -9 $$", Failed, "ended by signal 9"),
                ("exit 0", Failed, ""), ("printf 'COUNT(*)\\n1\\n1\\n'", Failed, "no totals")):
            for scripts in ([script], [good, script], [script, good]):
                with self.subTest(script, files=len(scripts)):
                    with self.assertRaisesRegex(error, regex) as raised:
                        self.engine(*scripts).once(COUNT)
                    named = f"script{scripts.index(script)}: "
                    if error is Failed and len(scripts) > 1 and regex != "no totals" and \
                            script != "exit 0":
                        self.assertIn(named, str(raised.exception))
        self.assertEqual(self.engine(good, good).once(COUNT), [2])

    def test_first_rows(self):
        endless = "echo a; while :; do echo 5; done"
        for script, rows, wanted in ((endless, 2, "a\n5\n5\n"), (endless, 0, "a\n"),
                                     ("printf 'a\\n1\\n2\\n'", 5, "a\n1\n2\n")):
            begun = time.monotonic()
            found = self.engine(script, script).beginning("SELECT a FROM t", rows)
            self.assertEqual([each.data for each in found], [wanted.encode()] * 2)
            self.assertLess(time.monotonic() - begun, 20)
        for script, rows, skipped, wanted in (
                (endless, 4, 2, b"a\n5\n5\n"), ("printf 'a\\n1\\n2\\n'", 5, 1, b"a\n2\n"),
                ("printf 'a\\n1\\n2\\n'", 2, 2, b"a\n"), ("printf 'a\\n1\\n'", 9, 7, b"a\n"),
                ("printf a; sleep .1; printf '\\n1'; sleep .1; printf '2\\n3\\n'", 2, 1, b"a\n3\n"),
                ("printf 'a\\n'; sleep .1; seq 90000", 70001, 70000, b"a\n70001\n")):
            with self.subTest(script, rows=rows, skipped=skipped):
                found = self.engine(script, script).beginning("SELECT a FROM t", rows, skipped)
                self.assertEqual(found[0].data, wanted)
                self.assertEqual(found[0].skipped + found[0].count, found[1].count)
                # of which it isn't known yet how many are skipped
                self.assertEqual(found[1].skipped, 0)
        for script, error in (("printf 'a\\n1\\n'; exit 5", Failed), ("exit 0", Failed),
                              ("printf 'a\\n1\\n'; kill -9 $$", Failed),
                              ("echo 'bw: 405 literal at byte 9' >&2; exit 3", Refused)):
            for scripts in ([script], [endless, script], [script, endless]):
                with self.subTest(script, files=len(scripts)), self.assertRaises(error):
                    self.engine(*scripts).beginning("SELECT a FROM t", 2)

    def test_an_interrupt_ends_all(self):
        before = signal.signal(signal.SIGINT, signal.default_int_handler)
        self.addCleanup(signal.signal, signal.SIGINT, before)
        script = f"echo $$ >> {self.folder / 'pids'}; exec sleep 60"
        timer = threading.Timer(.5, os.kill, (os.getpid(), signal.SIGINT))
        timer.start()
        with self.assertRaises(KeyboardInterrupt):
            self.engine(script, script, script).once(COUNT)
        timer.join()
        for pid in (self.folder / "pids").read_text(encoding="utf-8").split():
            with self.assertRaises(ProcessLookupError):
                os.kill(int(pid), 0)

    def test_no_program(self):
        with mock.patch.dict(os.environ, {"BW": str(self.folder / "none")}), \
                self.assertRaises(FileNotFoundError) as raised:
            self.engine("").once(COUNT)
        self.assertEqual(raised.exception.filename, str(self.folder / "none"))


class First(Imported):
    tables = {"t.bw": ("n,word\n" + "".join(f"{n},w{n % 7}\n" for n in range(3000)),),
              "shards": ("n,word\n" + "".join(f"{n},w{n % 7}\n" for n in range(3000)), "--shards",
                         "3")}

    def test_sessions_begin_with_the_second_statement(self):
        for name in ("t.bw", "shards"):
            with bwtools.connect(t=self.folder / name) as connection:
                asker = connection._database.engine(connection._database.catalog.only).asker
                for count in (0, 1 if name == "t.bw" else 3):
                    found = connection.execute("SELECT COUNT(*), MAX(word) FROM t WHERE n > 4")
                    self.assertEqual(found.fetchall(), [(2995, "w6")])
                    self.assertEqual("sessions" in vars(asker), count > 0)
                self.assertEqual(len(asker.sessions.sessions), count)

    def test_few_rows_are_read_without_a_session(self):
        for name in ("t.bw", "shards"):
            with bwtools.connect(t=self.folder / name) as connection:
                asker = connection._database.engine(connection._database.catalog.only).asker
                for sql, wanted in (
                        ("SELECT n, word FROM t LIMIT 3", [(0, "w0"), (1, "w1"), (2, "w2")]),
                        ("SELECT n FROM t LIMIT 2 OFFSET 998", [(998,), (999,)]),
                        ("SELECT n FROM t LIMIT 3 OFFSET 999", [(999,), (1000,), (1001,)]),
                        ("SELECT n FROM t WHERE n > 2996 LIMIT 5", [(2997,), (2998,), (2999,)]),
                        ("SELECT n FROM t LIMIT 5 OFFSET 3000", [])):
                    with self.subTest(sql, name=name):
                        answer = connection._database.answer(sql)
                        self.assertEqual((answer.way, list(answer.rows())), (1, wanted))
                self.assertNotIn("sessions", vars(asker))

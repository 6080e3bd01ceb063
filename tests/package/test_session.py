"""A session's answers, each to the empty line that ends it, and how a session fails."""
import contextlib
import io
import os
import pathlib
import tempfile
import unittest
from unittest import mock

from bwtools._engine.process import (AT_ONCE, SURPLUS, Session, SessionOutput,
                                     one_statement)
from bwtools._errors import Failed


class Parts(io.RawIOBase):
    """Returns these parts of bytes, one for each read, and then the end."""

    def __init__(self, *parts: bytes) -> None:
        super().__init__()
        self.parts = list(parts)

    def readable(self):
        return True

    def readinto(self, buffer):
        part = self.parts.pop(0) if self.parts else b""
        buffer[:len(part)] = part
        return len(part)


def answer_of(*parts: bytes) -> bytes:
    """Returns the result of a session that writes these parts, read many bytes at a time."""
    session = mock.Mock()
    session.stdout = Parts(*parts)
    session.fail.side_effect = Failed("ended")
    return io.BufferedReader(SessionOutput(session), AT_ONCE).read()


class Answers(unittest.TestCase):
    def test_answer_ends_with_an_empty_line(self):
        for parts in ([b"a\n1\n\n"], [b"a\n1\n", b"\n"], [b"a\n", b"1", b"\n\n"],
                      [b"a", b"\n", b"1", b"\n", b"\n"]):
            with self.subTest(parts):
                self.assertEqual(answer_of(*parts), b"a\n1\n")

    def test_refused_statement_has_an_empty_answer(self):
        self.assertEqual(answer_of(b"\n"), b"")

    def test_answer_that_does_not_end_fails(self):
        for parts in ([], [b"a\n1\n"], [b"a\n1"]):
            with self.subTest(parts), self.assertRaisesRegex(Failed, "ended"):
                answer_of(*parts)

    def test_two_answers_at_once_fail(self):
        for parts in ([b"\n\n"], [b"\na\n\n"], [b"a\n\nb"], [b"a\n", b"\nb\n\n"]):
            with self.subTest(parts), self.assertRaisesRegex(Failed, SURPLUS):
                answer_of(*parts)


class Statements(unittest.TestCase):
    def test_a_statement_ends_once(self):
        for given, wanted in [("SELECT a FROM t", "SELECT a FROM t;"),
                              ("SELECT a FROM t ;", "SELECT a FROM t ;"),
                              ("SELECT ';\n\r;' ;", "SELECT '????' ;")]:
            self.assertEqual(one_statement(given), wanted)


class Sessions(unittest.TestCase):
    def session_of(self, script):
        """Returns a session of a shell that runs a script."""
        folder = tempfile.TemporaryDirectory(prefix="unittests-")
        self.addCleanup(folder.cleanup)
        program = pathlib.Path(folder.name) / "program"
        program.write_text(f"#!/bin/sh\n{script}\n", encoding="utf-8")
        program.chmod(0o755)
        with open(os.devnull, "rb") as table, mock.patch.dict(os.environ, {"BW": str(program)}):
            return Session(table)

    def test_what_is_said_belongs_to_its_answer(self):
        script = ('for each in 1 2; do read a; read b; echo "$each: $a" >&2; printf "a\\n$each\\n'
                  '\\n"; done; cat')
        with contextlib.closing(self.session_of(script)) as session:
            first = session.result_of("one")
            self.assertEqual((first.read(), session.told(), session.told()),
                             (b"a\n1\n", "1: one;\n", ""))
            self.assertEqual(session.result_of("two").readline(), b"a\n")
            self.assertEqual((session.told(), session.end()), ("2: two;\n", 0))

    def test_answer_that_is_not_read_is_dropped(self):
        script = ("read a; read b; seq 100000; echo old >&2; echo; read a; echo new >&2; echo; cat "
                  ">/dev/null; exit 3")
        with contextlib.closing(self.session_of(script)) as session:
            self.assertEqual(session.result_of("one").readline(), b"1\n")
            self.assertIsNone(session.result_of("two"))
            self.assertEqual((session.told(), session.end()), ("new\n", 3))

    def test_status_without_a_refused_statement_fails(self):
        with contextlib.closing(self.session_of("echo broken >&2; exit 3")) as session, \
                self.assertRaises(Failed) as failed:
            session.end()
        self.assertEqual((str(failed.exception), failed.exception.told, failed.exception.status),
                         ("", "broken\n", 3))

    def test_answers_at_the_end_fail(self):
        with contextlib.closing(self.session_of("cat >/dev/null; echo more")) as session, \
                self.assertRaisesRegex(Failed, SURPLUS):
            session.end()

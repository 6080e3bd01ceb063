"""Statements on standard input, the words of the command line, and the forms of an answer."""
import contextlib
import io
import json
import os
import pathlib
import pty
import select
import signal
import subprocess
import sys
import tempfile
import time
import unittest

from bwtools import _output
from bwtools._cli.asking import split
from bwtools._cli.shell import statements_in
from bwtools._errors import Refused
from bwtools._result import Result, ValueRows
from bwtools._types.kinds import Styled, Whole
from bwtools._types.number_format import Style
from bwtools._types.numbers import Decimals, Truths
from bwtools._types.temporal import Dates

from tests.support import BW, PYTHON, Imported, tool

ASK = PYTHON / "bin" / "bw-ask"
CITIES = "city,n,price,day\nBern,1,$2.50,2024-05-01\nUlm,20,$12.00,2024-05-02\nGenève,,$0.75,\n"
SHOWN = ("city     n   price\n------  --  ------\nBern     1   $2.50\nUlm     20  $12.00\n"
         "Genève       $0.75\n3 rows\n")


class Statements(unittest.TestCase):
    def test_statements(self):
        for text, wanted in (
                ("", []), (" ;; \n\n;-- nothing\n", []), ("a", ["a"]), ("a;b;", ["a", "b"]),
                ("a\nb\n\nc\n", ["a\nb\n\nc\n"]), ("a\n\n;b\n", ["a\n\n", "b\n"]),
                ("  a ; b", ["a ", "b"]),
                ("'a;\n\nb'; c", ["'a;\n\nb'", "c"]), ('"a;b" c', ['"a;b" c']),
                ("[a;b]; `c;d`", ["[a;b]", "`c;d`"]), ("'it''s; '; b", ["'it''s; '", "b"]),
                ("a -- b; '\n; c", ["a -- b; '\n", "c"]),
                ("a /* ; \n\n */ b; c", ["a /* ; \n\n */ b", "c"]),
                ("/* a; */", []), ("-- a\nb", ["-- a\nb"]), ("'a;b", ["'a;b"])):
            with self.subTest(text):
                self.assertEqual(list(statements_in(io.StringIO(text, newline=""))), wanted)

    def test_long_ones_take_no_longer_than_their_length(self):
        begun = time.monotonic()
        lines = [f"'{'x' * 50}\n" for _ in range(20_001)]
        self.assertEqual(len(list(statements_in(lines))), 1)
        self.assertLess(time.monotonic() - begun, 10)


class Words(unittest.TestCase):
    def test_words(self):
        with tempfile.TemporaryDirectory() as name:
            table = os.path.join(name, "a.bw")
            pathlib.Path(table).touch()
            for words, wanted in (
                    ([table], ([("a", table)], None)),
                    ([table, "SELECT 1"], ([("a", table)], "SELECT 1")),
                    ([table, name, "SELECT a = 5"],
                     ([("a", table), (os.path.basename(name), name)], "SELECT a = 5")),
                    ([table, f"b={name}/x.bw"], ([("a", table), ("b", f"{name}/x.bw")], None)),
                    ([f"b={table}", "select"], ([("b", table)], "select")),
                    ([table, "c.bw"], ([("a", table), ("c", "c.bw")], None))):
                with self.subTest(words):
                    self.assertEqual(split(words), wanted)
            with self.assertRaisesRegex(Refused, "there is no file SELECT 1"):
                split(["SELECT 1"])


def answer(headings, kinds, rows):
    return Result(headings, kinds, ValueRows(rows), 2)


def printed(form, found, width=None):
    out = io.StringIO()
    count = _output.writer_of(form)(found, out, width)
    return out.getvalue(), count


class Forms(unittest.TestCase):
    found = answer(["a", "b|c", "d", "e"], [None, None, Truths("no", "yes"), Dates("%d.%m.%Y")],
                   [(1, "x\ty\n", 1, "2024-05-01"), (2.5, None, None, None),
                    (None, 'q"|*', 0, "2024-05-02")])

    def test_forms(self):
        for form, wanted in (
                ("csv", 'a,b|c,d,e\n1,"x\ty\n",yes,01.05.2024\n2.5,,,\n,"q""|*",no,02.05.2024\n'),
                ("tsv",
                 'a\tb|c\td\te\n1\tx\\ty\\n\tyes\t01.05.2024\n2.5\t\t\t\n\tq"|*\tno\t02.05.2024\n'),
                ("markdown", "| a | b\\|c | d | e |\n| ---: | --- | --- | --- |\n"
                             '| 1 | x\ty<br> | yes | 01.05.2024 |\n| 2.5 |  |  |  |\n'
                             '|  | q"\\|\\* | no | 02.05.2024 |\n'),
                ("vertical", "  a = 1\nb|c = x\\ty\\n\n  d = yes\n  e = 01.05.2024\n\n  a = 2.5\n"
                             "b|c = \n  d = \n  e = \n\n  a = \nb|c = q\"|*\n  d = no\n"
                             "  e = 02.05.2024\n"),
                ("table", "  a  b|c     d    e\n---  ------  ---  ----------\n"
                          "  1  x\\ty\\n  yes  01.05.2024\n2.5\n"
                          '     q"|*    no   02.05.2024\n')):
            with self.subTest(form):
                self.assertEqual(printed(form, self.found), (wanted, 3))

    def test_json(self):
        text, count = printed("json", self.found)
        self.assertEqual(count, 3)
        self.assertEqual(json.loads(text), [
            {"a": 1, "b|c": "x\ty\n", "d": True, "e": "2024-05-01"},
            {"a": 2.5, "b|c": None, "d": None, "e": None},
            {"a": None, "b|c": 'q"|*', "d": False, "e": "2024-05-02"}])
        prices = answer(["p"], [Styled(Decimals(2, 0), Style(prefix="$"))], [(2.5,), (None,)])
        self.assertEqual(printed("json", prices)[0], '[\n{"p": 2.50},\n{"p": null}\n]\n')
        odd = answer(["x", "y"], [None, None], [(float("inf"), b"\1\xff")])
        self.assertEqual(printed("json", odd)[0], '[\n{"x": "inf", "y": "01ff"}\n]\n')
        self.assertEqual(printed("json", answer(["x"], [None], []))[0], "[]\n")
        with self.assertRaisesRegex(Refused, "two columns have the heading 'x'"):
            printed("json", answer(["x", "x"], [None, None], [(1, 2)]))

    def test_no_rows(self):
        for form, wanted in (("csv", "a\n"), ("tsv", "a\n"), ("markdown", "| a |\n| ---: |\n"),
                             ("table", "a\n-\n")):
            with self.subTest(form):
                self.assertEqual(printed(form, answer(["a"], [Whole()], [])), (wanted, 0))

    def test_a_null_alone_is_no_empty_line(self):
        self.assertEqual(printed("csv", answer(["a"], [None], [(None,), (1,)]))[0], 'a\n""\n1\n')

    def test_widths(self):
        text = "x" * 100
        found = answer(["a", "b"], [None, Whole()], [(text, 5), ("short", 123456)])
        lines = printed("table", found, 40)[0].splitlines()
        self.assertLessEqual(max(map(len, lines)), 40)
        self.assertIn("…", lines[2])
        self.assertTrue(lines[2].endswith("     5") and lines[3].endswith("123456"))
        wide = printed("table", answer(["a", "b"], [None, None], [("漢字", "x"), ("é", "y")]))[0]
        self.assertEqual(wide.splitlines()[2:], ["漢字  x", "é     y"])

    def test_many_columns_stay_readable(self):
        widths = [50] * 20
        _output.narrow(widths, 80)
        self.assertEqual(widths, [_output.LEAST] * 20)


class Programs(Imported):
    tables = {"cities.bw": (CITIES,)}

    def ask(self, *words, given=""):
        return tool("bw-ask", *words, given=given, cwd=self.folder)

    def test_forms_and_options(self):
        sql = "SELECT city, n, price FROM cities"
        self.assertEqual(self.ask("cities.bw", "--format", "table", sql), (0, SHOWN, ""))
        self.assertEqual(self.ask("cities.bw", "--plain", f"{sql} WHERE n = 20"),
                         (0, "city,n,price\nUlm,20,12.00\n", ""))
        status, out, told = self.ask("cities.bw", "--show", "SELECT COUNT(*) FROM t WHERE n > 1")
        self.assertEqual((status, out), (0, "COUNT(*)\n1\n"))
        self.assertEqual(told, "by statements of bw:\n  SELECT COUNT(*) FROM cities WHERE n > 1\n")
        self.assertIn("by SQLite, over what bw listed:",
                      self.ask("cities.bw", "--show", "SELECT upper(city) FROM t")[2])

    def test_statements_on_standard_input(self):
        self.assertEqual(self.ask("cities.bw", given="SELECT n FROM t LIMIT 1; SELECT x FROM t;\n"
                                                     "SELECT NULL\n"),
                         (3, 'n\n1\n\n\nNULL\n""\n\n',
                          "bw-ask: there is no column x at character 7 of the statement: there are "
                          "city, day, n, price\n"))

    def test_each_answer_is_there_before_the_next_statement(self):
        with subprocess.Popen([sys.executable, "-S", ASK, "cities.bw"], stdin=subprocess.PIPE,
                              stdout=subprocess.PIPE, cwd=self.folder, text=True) as process:
            for n in (1, 20):
                process.stdin.write(f"SELECT city FROM t WHERE n = {n};\n")
                process.stdin.flush()
                self.assertEqual([process.stdout.readline() for _ in range(3)],
                                 ["city\n", {1: "Bern\n", 20: "Ulm\n"}[n], "\n"])
            process.stdin.close()
        self.assertEqual(process.returncode, 0)

    def test_two_tables(self):
        self.assertEqual(self.ask("cities.bw", "more=cities.bw", "SELECT a.city, b.n FROM cities a "
                                  "JOIN more b USING (city) WHERE b.n > 1"),
                         (0, "city,n\nUlm,20\n", ""))

    def test_what_is_no_table(self):
        self.assertEqual(self.ask("none.bw")[::2],
                         (5, "bw-ask: none.bw: No such file or directory\n"))
        self.assertEqual(self.ask("SELECT 1")[0], 3)

    def waited(self, *words, program):
        """Returns what a question writes to a file, and what it shows at a terminal meanwhile. `bw`
        is this script of a shell."""
        path = self.folder / "slow"
        path.write_text(f"#!/bin/sh\n{program}\n", encoding="utf-8")
        path.chmod(0o755)
        ours, theirs = pty.openpty()
        with subprocess.Popen([sys.executable, "-S", ASK, *words], stdin=subprocess.DEVNULL,
                              stdout=subprocess.PIPE, stderr=theirs, cwd=self.folder, text=True,
                              env={**os.environ, "BW": str(path)}) as process:
            os.close(theirs)
            shown = self.until(ours, process, "SQLite computes, 1 s")
            if process.poll() is None:
                process.send_signal(signal.SIGTERM)
                shown += self.until(ours, process)
            out = process.stdout.read()
        os.close(ours)
        return out, shown

    def test_what_is_waited_for_is_shown_after_a_second(self):
        quick = f'exec "{BW}" "$@"'
        slow = f"sleep 1.5; {quick}"
        # it is ended once the line is there
        endless = "WITH RECURSIVE n(i) AS (SELECT 1 UNION ALL SELECT i + 1 FROM n) " \
                  "SELECT COUNT(*) FROM n, cities WHERE cities.n = 20"
        for words, program, what, wanted in (
                (["SELECT COUNT(*) FROM t"], slow, "bw answers, 1 s", "COUNT(*)\n3\n"),
                (["SELECT upper(city) FROM t"], f'if [ "$1" = session ]; then {slow}; fi',
                 "bw lists, 1 s", "upper(city)\nBERN\nULM\nGENèVE\n"),
                ([endless], quick, "SQLite computes, 1 s", "")):
            with self.subTest(words):
                out, shown = self.waited("cities.bw", *words, program=program)
                self.assertEqual(out, wanted)
                self.assertIn(f"\r{what}\x1b[K", shown)
                # the line is removed
                self.assertTrue(shown.endswith("\r\x1b[K"), shown)
        self.assertEqual(self.waited("cities.bw", "SELECT COUNT(*) FROM t",
                                     program=quick), ("COUNT(*)\n3\n", ""))

    def at_terminal(self, keys):
        """Returns what a terminal shows while these lines are typed, each after a prompt."""
        ours, theirs = pty.openpty()
        with subprocess.Popen([sys.executable, "-S", ASK, "cities.bw"], stdin=theirs, stdout=theirs,
                              stderr=theirs, cwd=self.folder, start_new_session=True,
                              env={**os.environ, "TERM": "dumb", "COLUMNS": "80",
                                   "BW_ASK_HISTORY": str(self.folder / "history")}) as process:
            os.close(theirs)
            shown = ""
            for key in (*keys, None):
                shown += self.until(ours, process)
                if key is not None:
                    os.write(ours, key.encode())
            process.wait(60)
        os.close(ours)
        return shown.replace("\r", ""), process.returncode

    def until(self, ours, process, line="bw> "):
        """Returns what is shown up to the next prompt, or a line, or the end."""
        shown, begun = "", time.monotonic()
        while not shown.endswith(("bw> ", "...> ")) and line not in shown and \
                time.monotonic() - begun < 60:
            if not select.select([ours], [], [], 0.2)[0]:
                if process.poll() is not None:
                    break
                continue
            with contextlib.suppress(OSError):
                part = os.read(ours, 4096).decode()
                shown += part
                if part:
                    continue
            break
        return shown

    def test_files_at_the_prompt(self):
        (self.folder / "one.sql").write_text(
            ".format tsv\nSELECT city,\n\n n FROM t -- it's; one\n WHERE n > 1;\n.read two.sql\n"
            ".read none.sql\nSELECT x FROM t; SELECT 'last' AS z")
        (self.folder / "two.sql").write_text(".once 'out.csv'\n.once out.tsv\n"
                                             "SELECT day FROM t; SELECT 5 AS five;")
        shown, status = self.at_terminal([
            ".read one.sql\n", ".once\n", ".once no/such/folder\n", "SELECT 7 AS seven;\n",
            ".format vertical\n", "SELECT city, n FROM t LIMIT 2\n", "\n", "SELECT 'a\n", "\n",
            "b' AS c;\n", ".format json\n", ".once out.tsv\n", "SELECT 1 AS a, 2 AS a;\n",
            ".quit\n"])
        self.assertEqual(status, 0)
        for part in ("city\tn\nUlm\t20\n", "five\n5\n", "none.sql: No such file or directory\n",
                     "there is no column x", "z\nlast\n", "use .once FILE", "no/such/folder: ",
                     "city = Bern\n   n = 1\n\ncity = Ulm\n   n = 20\n", "c = a\\n\\nb\n"):
            with self.subTest(part):
                self.assertIn(part, shown)
        self.assertEqual((self.folder / "out.tsv").read_text(),
                         "day\n2024-05-01\n2024-05-02\n\n")
        self.assertIn("two columns have the heading", shown)
        self.assertEqual(list(self.folder.glob("out*")), [self.folder / "out.tsv"])

    def test_prompt(self):
        shown, status = self.at_terminal([
            ".tables\n", ".schema\n", "SELECT city,\n", "n FROM t WHERE n > 1;\n", ".format csv\n",
            "SELECT x FROM t;\n", "SELECT city FROM t LIMIT 1;\n", ".timer off\n", ".format odd\n",
            ".nothing\n", ".help\n", ".quit\n"])
        self.assertEqual(status, 0)
        for part in ("cities  3 rows\n", "  price  decimals, $0.75 to $12.00\n",
                     "city   n\n----  --\nUlm   20\n1 row, ", "there is no column x",
                     "city\nBern\n",
                     "there is no format odd: use csv, table, json, markdown, tsv, "
                     "vertical",
                     "there is no command .nothing", ".schema [TABLE]"):
            with self.subTest(part):
                self.assertIn(part, shown)
        self.assertIn("SELECT city,", (self.folder / "history").read_text())

"""Imports by columns, which bw-import and bw-shards write, beside those by rows: the first bytes,
the same answers, and what becomes of statements if a column is damaged."""
from __future__ import annotations

import os
import pathlib
import random
from typing import Any

import bwtools
from bwtools._errors import Refused

from tests import column_files, drawn, support
from tests.reference import csv_of
from tests.support import Imported, TestCase, imported, tool

COLUMNS, ROWS = b"BWBYCOLS", b"BWCOLUMN"
SHORT = "n,word,price\n1,plum,2.50\n2,pear,3.75\n,,4.25\n"
# of each kind of answer: totals, rows, the first rows, groups, and by SQLite; as bw-ask asks them
ASKED = ("COUNT({0}), MAX({0}) FROM t", "COUNT(*) FROM t WHERE {0} IS NULL", "{0} FROM t",
         "{0} FROM t LIMIT 3", "{0}, COUNT(*) FROM t GROUP BY 1 ORDER BY 1",
         "upper({0}) FROM t ORDER BY 1")


class Orders(Imported):
    """What the first bytes of the files are."""

    tables = {"t.bw": (SHORT,), "named.bw": (SHORT, "--columnar"), "rows.bw": (SHORT, "--by-rows"),
              "s": (SHORT, "--shards", "2"), "r": (SHORT, "--shards", "2", "--by-rows")}

    def magics(self, *names: str) -> list[bytes]:
        return [(self.folder / name).read_bytes()[:8] for name in names]

    def test_tables(self) -> None:
        self.assertEqual(self.magics("t.bw", "named.bw", "rows.bw"), [COLUMNS, COLUMNS, ROWS])
        for name, magic in (("s", COLUMNS), ("r", ROWS)):
            self.assertEqual(self.magics(f"{name}/shard-001.bw", f"{name}/shard-002.bw"),
                             [magic, magic])

    def test_shards(self) -> None:
        for words, magic in (((), COLUMNS), (["--columnar"], COLUMNS), (["--by-rows"], ROWS)):
            done = tool("bw-shards", "load", *words, "t.bw.csv", "loaded", cwd=self.folder)
            self.assertEqual((done.status, done.err), (0, ""))
            self.assertEqual(self.magics("loaded/shard-001.bw"), [magic])

    def test_both_are_a_usage_error(self) -> None:
        for words in (("bw-import",), ("bw-shards", "load")):
            done = tool(*words, "--columnar", "--by-rows", "t.bw.csv", "new", cwd=self.folder)
            self.assertEqual((done.status, done.out), (2, ""))
            self.assertIn("--by-rows: not allowed with argument --columnar", done.err)
            self.assertFalse((self.folder / "new").exists())


@support.each([(f"seed {seed}", seed) for seed in range(3)])
class Answers(TestCase):
    """Drawn statements over a table, and over shards of it: the same answers and refusals."""

    def check(self, _: str, seed: int) -> None:
        folder, table = self.new_folder(), drawn.Table("t", seed)
        data, chance = csv_of(table.lines()), random.Random(seed)
        words = [word for column in table.columns if column.kind in ("texts", "names")
                 for word in ("--text", column.name)]
        for shards in ((), ("--shards", "3")):
            both = [bwtools.connect(t=imported(folder / f"{name}{len(shards)}", data, "--table",
                                               "t", *words, *shards, *order))
                    for name, order in (("columns", ()), ("rows", ("--by-rows",)))]
            for number in range(20):
                sql, _ = drawn.Statements(table, chance, number % 3 > 0).statement()
                with self.subTest(sql, shards=shards):
                    self.assertEqual(*(self.outcome(connection, sql) for connection in both))
            for connection in both:
                connection.close()

    @staticmethod
    def outcome(connection: Any, sql: str) -> object:
        """Returns the answer to a statement, and the way that served it, or what refused it."""
        try:
            answer = connection._database.answer(sql)
        except Refused as refused:
            return str(refused)
        return answer.way, list(answer.headings), list(answer.rows())


class Damage(Imported):
    """A byte of a file by columns is changed, and its time is put back, so that only bw reads that
    it was: an error of the statements that name its column, and no other answer of the others."""

    DATA = "n,word,day,price\n" + "".join(
        f"{row % 50 if row % 7 else ''},{('pear', 'plum', '', 'fig')[row % 4]},"
        f"2024-0{1 + row % 3}-1{row % 10},{row % 90}.{row % 4}5\n" for row in range(1300))
    NAMES = ("n", "word", "day", "price")
    tables = {"t.bw": (DATA, "--table", "t"), "s": (DATA, "--table", "t", "--shards", "2")}

    def put(self, path: pathlib.Path, data: bytes) -> None:
        """Writes a file again, and puts its time back."""
        told = path.stat()
        with open(path, "r+b") as file:
            file.write(data)
        os.utime(path, ns=(told.st_atime_ns, told.st_mtime_ns))

    def answers(self, name: str, column: str) -> list[Any]:
        """Returns the answers to the statements of a column, or their errors."""
        found = list[Any]()
        with bwtools.connect(t=self.folder / name) as connection:
            for statement in ASKED:
                try:
                    cursor = connection.execute(f"SELECT {statement.format(column)}")
                    found.append(cursor.fetchall())
                except bwtools.OperationalError as error:
                    found.append(str(error))
        return found

    def test_what_bw_ask_prints(self) -> None:
        """A row past the last one that isn't zero, in each column."""
        for name, part, sign in (("t.bw", "t.bw", ""),
                                 ("s", "s/shard-002.bw", "bw-ask: s/shard-002.bw: ")):
            path = self.folder / part
            whole = path.read_bytes()
            file = column_files.File(whole)
            for place, column in enumerate(self.NAMES):
                other = self.NAMES[place - 1]
                at = file.place(place + 1, 0) - 1
                told = f"{sign}bw: 308 padding at byte {at}\n"
                right = tool("bw-ask", name, given=self.statements(other), cwd=self.folder)
                self.put(path, whole[:at] + b"\x80" + whole[at + 1:])
                for statement in ASKED:
                    with self.subTest(statement, name=name, column=column):
                        done = tool("bw-ask", name, f"SELECT {statement.format(column)}",
                                    cwd=self.folder)
                        self.assertEqual((done.status, done.out, done.err), (3, "", told))
                done = tool("bw-ask", name, given=self.statements(other), cwd=self.folder)
                self.assertEqual(done, right)
                self.assertEqual((done.status, done.err, done.out.count("\n\n")), (0, "", 6))
                self.put(path, whole)

    @staticmethod
    def statements(column: str) -> str:
        return "".join(f"SELECT {statement.format(column)};\n" for statement in ASKED)

    def test_any_byte(self) -> None:
        """One bit, wherever it is: the statements of a column have errors exactly if its blocks
        have one."""
        chance = random.Random(9)
        for name, part in (("t.bw", "t.bw"), ("s", "s/shard-001.bw")):
            path = self.folder / part
            whole = path.read_bytes()
            file = column_files.File(whole)
            right = {column: self.answers(name, column) for column in self.NAMES}
            for number in range(8):
                place = number % 4
                at = chance.randrange(file.place(place, 0), file.place(place + 1, 0))
                changed = bytearray(whole)
                changed[at] ^= 1 << chance.randrange(8)
                self.put(path, changed)
                with self.subTest(name, at=at):
                    self.compare(self.answers(name, self.NAMES[place]),
                                 column_files.File(bytes(changed)), place)
                    other = self.NAMES[(place + 1 + number // 4) % 4]
                    self.assertEqual(self.answers(name, other), right[other])
            self.put(path, whole)

    def compare(self, found: list[Any], file: column_files.File, place: int) -> None:
        """Compares the answers about a column of a changed file with the error of its blocks, if
        they have one."""
        try:
            file.values(place)
        except column_files.check.Fault as fault:
            for told in found:
                self.assertIn(f"bw: {fault.args[0]} ", told)
        else:
            self.assertFalse([told for told in found if isinstance(told, str)])

    def test_header(self) -> None:
        """A header of other bytes isn't the one that the columns file names."""
        for name, part in (("t.bw", "t.bw"), ("s", "s/shard-001.bw")):
            path = self.folder / part
            whole = path.read_bytes()
            for at in range(column_files.File(whole).at):
                self.put(path, whole[:at] + bytes([whole[at] ^ 1]) + whole[at + 1:])
                with self.subTest(name, at=at), self.assertRaises(bwtools.Error):
                    bwtools.connect(t=self.folder / name)
            self.put(path, whole)
            self.assertIsInstance(self.answers(name, "n")[0], list)

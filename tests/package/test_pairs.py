"""A table file and the columns file that belongs to it, whenever an import is stopped."""
import contextlib
import hashlib
import os
import pathlib
import signal
import sqlite3
import tempfile
import unittest
import zlib
from unittest import mock

from bwtools._errors import Refused
from bwtools._storage import atomic, catalog, columns_file
from bwtools._types.base import Column

from tests.support import Imported, described, in_fork, texts, tool

RAW = "word,n,price\npear,1,2.50\nplum,2,3.75\n,3,4.25\n"
# the header of a table file: one column, `a`, without nulls and with the number 0 alone
HEADER = b"BWCOLUMN\1\0\1\0\0\0\0\0\1t\1a" + bytes(17)


class Verified(Imported):
    """`bw-import --verify` names the part that isn't as it was imported."""
    tables = {"t.bw": (RAW,), "s": (RAW, "--shards", "2"), "kept.bw": (RAW,)}

    def told(self, name="t.bw"):
        done = tool("bw-import", "--verify", name, cwd=self.folder)
        self.assertEqual(done.status, 0 if done.out else 3)
        return done.out + done.err

    def changed(self, sql, name="t.bw.columns", is_forged=False):
        """Returns what is told of a columns file that SQL has changed, and puts it back."""
        path = self.folder / name
        before, told = path.read_bytes(), path.stat()
        with contextlib.closing(sqlite3.connect(path, isolation_level=None)) as made:
            made.executescript(sql)
            if is_forged:
                head = [made.execute(each).fetchall() for each in columns_file.HEAD]
                made.execute("UPDATE sums SET sum = ?", (columns_file.sum_of_head(head),))
        found = self.told(name.partition("/")[0].removesuffix(".columns"))
        path.write_bytes(before)
        os.utime(path, ns=(told.st_mtime_ns, told.st_mtime_ns))
        return found

    def test_parts(self):
        sums = "its settings, its columns or its list of files have another sum"
        for sql, wanted in (("UPDATE settings SET value = 3 WHERE name = 'digits'", sums),
                            ("UPDATE files SET sha256 = upper(sha256)", sums),
                            ("UPDATE columns SET least = '9' WHERE place = 1", sums),
                            ("UPDATE values_0 SET texts = replace(hex(texts), '70', '71')",
                             "column word, from code 0 on: a block has another sum"),
                            ("DELETE FROM columns WHERE place = 1", sums)):
            with self.subTest(sql):
                self.assertIn(wanted, self.changed(sql))
        self.assertIn(sums, self.changed("DELETE FROM files WHERE place = 1", "s/shards.columns"))
        for sql in ("DELETE FROM columns WHERE place = 2; DELETE FROM settings WHERE place = 2",
                    "UPDATE columns SET name = 'other' WHERE place = 1"):
            with self.subTest(sql):
                self.assertIn("its columns aren't those of", self.changed(sql, is_forged=True))
        self.assertEqual(self.told(), "t.bw is as it was imported\n")
        self.assertEqual(self.told("s"), "s is as it was imported\n")

    def test_the_table_file(self):
        for name, table in (("t.bw", "t.bw"), ("s", "s/shard-002.bw")):
            path = self.folder / table
            before, told = path.read_bytes(), path.stat()
            path.write_bytes(before[:-64] + bytes([before[-64] ^ 1]) + before[-63:])
            os.utime(path, ns=(told.st_mtime_ns, told.st_mtime_ns))
            with self.subTest(name):
                self.assertIn(f"{table} isn't as it was written: its bytes have another SHA-256",
                              self.told(name))
            path.write_bytes(before)
            os.utime(path, ns=(told.st_mtime_ns, told.st_mtime_ns))
            self.assertIn("is as it was imported", self.told(name))


class Pairs(unittest.TestCase):
    def setUp(self):
        folder = tempfile.TemporaryDirectory(prefix="unittests-")
        self.addCleanup(folder.cleanup)
        self.folder = pathlib.Path(folder.name)
        self.table, self.columns = self.folder / "t.bw", self.folder / "t.bw.columns"
        self.put("a table")

    def put(self, content):
        """Puts a pair in place: a header and this content, and a columns file that has it as a
        text."""
        with atomic.new_folder(self.table) as folder:
            made, columns = folder / "table.bw", folder / "columns"
            made.write_bytes(HEADER + content.encode())
            record = catalog.record_of(made)
            column = Column("a", "A é", texts(content), why="so")
            columns_file.write(columns, [column], "t", [record])
            catalog.put_pair(folder, made, columns, record.sha256, self.table)

    def found(self):
        """Returns the content of the table file, and the text of its columns file."""
        with catalog.open_pair(self.table) as pair:
            data = pair.file.read()
            self.assertEqual(data[:len(HEADER)], HEADER)
            return data[len(HEADER):].decode(), list(pair.store.columns[0].kind.listed)

    def left(self):
        return sorted(os.listdir(self.folder))

    def test_what_was_written_is_read(self):
        with catalog.open_pair(self.table) as pair:
            record, = pair.store.files
            self.assertEqual((pair.store.name, record.size, record.file),
                             ("t", len(HEADER) + 7, ""))
            self.assertEqual(record.sha256, hashlib.sha256(HEADER + b"a table").hexdigest())
            self.assertEqual(record.header, zlib.crc32(HEADER))
            self.assertEqual(list(map(described, pair.store.columns)),
                             [("a", "A é", "texts", {}, [], [], "so", ["a table"])])
        self.assertEqual(self.left(), ["t.bw", "t.bw.columns"])

    def test_a_copy_of_the_table_is_the_same(self):
        copy = self.folder / "copy"
        copy.write_bytes(HEADER + b"a table")
        copy.replace(self.table)
        self.assertEqual(self.found()[0], "a table")

    def test_another_table_is_refused(self):
        for content in (HEADER + b"a Table", HEADER + b"a table.", b"", b"a table"):
            self.table.write_bytes(content)
            os.utime(self.table, ns=(1, 1))
            with self.subTest(content), \
                    self.assertRaisesRegex(Refused, "t.bw.columns belongs to another table than"):
                self.found()

    def test_no_columns_file(self):
        self.columns.unlink()
        with self.assertRaisesRegex(Refused, "is missing, which says what the numbers of"):
            self.found()

    def test_columns_of_no_table(self):
        self.columns.unlink()
        columns_file.write(self.columns, [Column("a", "a", texts("x"))])
        with self.assertRaisesRegex(Refused, "belongs to no table"):
            self.found()

    def test_beside_what_a_symlink_stands_for(self):
        link = self.folder / "link.bw"
        link.symlink_to(self.table)
        self.assertEqual(catalog.columns_beside(link), os.path.realpath(self.columns))
        self.assertEqual(catalog.columns_beside(self.table), str(self.columns))

    def killed(self, content, moves):
        """Puts a pair in a process that is killed before its next move after so many."""
        done = 0

        def replace(made, target, real=os.replace):
            nonlocal done
            if done == moves:
                os.kill(os.getpid(), signal.SIGKILL)
            real(made, target)
            done += 1

        def put():
            with mock.patch("os.replace", replace):
                self.put(content)

        return os.waitpid(in_fork(put), 0)[1]

    def test_stopped_at_each_moment(self):
        for moves, content in ((0, "a table"), (1, "a table"), (2, "another one"),
                               (3, "another one")):
            self.put("a table")
            with self.subTest(moves):
                self.assertEqual(self.killed("another one", moves), 0 if moves == 3 else 9)
                self.assertEqual(self.found(), (content, [content]))
                # what it left is removed by the next one
                self.put("a third")
                self.assertEqual(self.found(), ("a third", ["a third"]))
                self.assertEqual(self.left(), ["t.bw", "t.bw.columns"])

    def test_stopped_twice(self):
        self.killed("second", 2)
        self.killed("third one", 1)
        self.assertEqual(self.found(), ("second", ["second"]))
        self.killed("third one", 2)
        self.assertEqual(self.found(), ("third one", ["third one"]))

    def test_stopped_over_a_foreign_columns_file(self):
        for content in (b"", b'{"bw columns": 1}', None):
            self.put("a table")
            if content is None:
                self.columns.unlink()
            else:
                self.columns.write_bytes(content)
            self.assertEqual(self.killed("another one", 2), 9)
            with self.subTest(content):
                self.assertEqual(self.found(), ("another one", ["another one"]))

    def test_two_at_once(self):
        """Many processes replace one pair, while it is read: each time one pair is found whole."""
        def put(number):
            for turn in range(25):
                self.put(f"{number} {turn}")

        children = [in_fork(lambda number=number: put(number)) for number in range(4)]
        for _ in range(60):
            content, listed = self.found()
            self.assertEqual([content], listed)
        for process in children:
            self.assertEqual(os.waitpid(process, 0)[1], 0)
        content, listed = self.found()
        self.assertEqual([content], listed)
        self.assertEqual(self.left(), ["t.bw", "t.bw.columns"])

    def test_a_columns_file_that_goes_away_while_it_is_opened(self):
        """SQLite says that it can't open it, and Python that it isn't there."""
        def connect(*words, **more):
            self.columns.unlink()
            return real(*words, **more)

        real = sqlite3.connect
        with mock.patch("sqlite3.connect", connect), self.assertRaisesRegex(Refused, "is missing"):
            self.found()

    def test_a_failed_move_leaves_the_old_pair(self):
        self.columns.unlink()
        self.columns.mkdir()
        (self.columns / "mine").write_text("kept")
        with self.assertRaises(OSError):
            self.put("another one")
        self.assertEqual((self.table.read_bytes(), self.left()),
                         (HEADER + b"a table", ["t.bw", "t.bw.columns"]))

    def test_files_that_are_not_regular(self):
        os.mkfifo(self.folder / "fifo")
        for target in (self.folder / "fifo", "/dev/zero", self.folder):
            for path in (self.table, self.columns):
                kept = path.rename(self.folder / "kept")
                path.symlink_to(target)
                with self.subTest(path=path, target=target), \
                        self.assertRaisesRegex(Refused, "is no regular file"):
                    self.found()
                kept.replace(path)

"""The columns file: what was written is read, and what others made is refused."""
import contextlib
import os
import pathlib
import random
import sqlite3
import tempfile
import time
import unittest

from bwtools._errors import Refused
from bwtools._storage import columns_file
from bwtools._storage.columns_file import Store, TableFile
from bwtools._types import dictionary, kinds
from bwtools._types.base import Column
from bwtools._types.dictionary import SortedList
from bwtools._types.number_format import Style

from tests.support import described, sample_of, texts

WORDS = ("", "a", "a\0b", "b\n", "é", "\ue000", "\U0001f600")
COLUMNS = [Column("a", "A é", texts(*WORDS), [], ["", "\U0001f600"], "so", "numbers"),
           Column("n", "n", kinds.Whole(), ["NA", "-"], ["1", "2"]),
           Column("price", "unit price", kinds.Styled(kinds.Decimals(2, 1), Style(",")), [],
                  ["0,5", "1,5"]),
           Column("at", "at", kinds.Times("%Y-%m-%d %H:%M", 0, "Z")),
           Column("ok", "ok", kinds.Truths("no", "yes")), Column("gone", "gone", kinds.Nulls()),
           Column("none", "none", texts())]
FILES = [TableFile("shard-001.bw", 5, 7, 1 << 60, 1 << 40, "ab" * 32, 1 << 31)]


class Files(unittest.TestCase):
    def setUp(self):
        folder = tempfile.TemporaryDirectory(prefix="unittests-")
        self.addCleanup(folder.cleanup)
        self.path = pathlib.Path(folder.name) / "it's a ?%20 name.columns"
        self.write()

    def write(self, columns=COLUMNS):
        self.path.unlink(missing_ok=True)
        columns_file.write(self.path, columns, "t", FILES)


class Whole(Files):
    def test_what_was_written_is_read(self):
        with contextlib.closing(Store(self.path)) as found:
            self.assertEqual((found.name, found.files), ("t", FILES))
            self.assertEqual(list(map(described, found.columns)), list(map(described, COLUMNS)))
            self.assertEqual(found.columns[0].looks_like, "numbers")
            found.verify()

    def test_a_list_is_the_one_in_memory(self):
        many = sorted({str(number * number) for number in range(3000)})
        for values in (WORDS, many, ()):
            self.write([Column("a", "a", texts(*values))])
            with contextlib.closing(Store(self.path)) as found:
                listed, wanted = found.columns[0].kind.listed, SortedList(values)
                self.assertEqual(len(listed), len(wanted))
                tried = ["", "\0", "a", "a\0", "aa", "é", "\uffff", "\U0010ffff", *values[:50],
                         *(f"{value}x" for value in values[:50])]
                self.assertEqual(list(map(listed.place, tried)), list(map(wanted.place, tried)))
                for codes in ([], [0, 0, 2], [len(values) - 1], range(0, len(values), 3),
                              range(len(values))):
                    if values:
                        self.assertEqual(listed.values(codes), wanted.values(codes))
                self.assertEqual(list(listed), list(values))
                for codes in ([-1], [len(values)], [1 << 62], [-1 << 63]):
                    with self.assertRaises(IndexError):
                        listed.values(codes)

    def test_doubles(self):
        values = (-1e300, -0.5, 0.0, 5e-324, 1.5, 1e300, float("inf"))
        path = self.path.with_name("doubles")
        with contextlib.closing(sqlite3.connect(path, isolation_level=None)) as made:
            self.assertEqual(columns_file.write_list(made, 0, values, 5), len(values))
            listed = columns_file.StoredList(made, 0, len(values), float, 5, "a")
            self.assertEqual((list(listed), listed.place(1.0), listed.place(1.5)),
                             (list(values), (3, False), (4, True)))

    def test_long_texts_are_in_blocks_of_their_own(self):
        long = [letter * 200_000 for letter in "abcdefgh"]
        values = sorted([*long, *(f"{letter}{number}" for letter in "abc" for number in range(99))])
        self.assertGreater(len(list(dictionary.blocks_of(long))), 7)
        self.write([Column("a", "a", texts(*values))])
        with contextlib.closing(Store(self.path)) as found:
            listed = found.columns[0].kind.listed
            self.assertEqual(list(listed), values)
            self.assertEqual([listed.place(value) for value in values],
                             [(code, True) for code in range(len(values))])

    def test_texts_of_a_pattern(self):
        values = sorted(["", "a", "a\0b", *(f"{number}x" for number in range(1000))])
        self.write([Column("a", "a", texts(*values))])
        with contextlib.closing(Store(self.path)) as found:
            listed = found.columns[0].kind.listed
            for pattern in ("%9%x", "a%", "", "%"):
                codes = list(listed.matching("WHERE value LIKE ? ORDER BY code", (pattern,)))
                with contextlib.closing(sqlite3.connect(":memory:")) as made:
                    made.execute("CREATE TABLE l (code INTEGER PRIMARY KEY, value TEXT)")
                    made.executemany("INSERT INTO l VALUES (?, ?)", enumerate(values))
                    self.assertEqual(codes, [code for code, in made.execute(
                        "SELECT code FROM l WHERE value LIKE ? ORDER BY code", (pattern,))])

    def test_a_list_that_does_not_ascend(self):
        for values in (("b", "a"), ("a", "a")):
            with self.subTest(values), self.assertRaisesRegex(Refused, "don't ascend"):
                self.write([Column("a", "a", texts(*values))])
        with self.assertRaisesRegex(Refused, "don't ascend"):
            self.write([Column("a", "a", texts(*map(str, range(100000, 122000)), "1"))])

    def test_it_is_read_only_and_as_it_was(self):
        before = self.path.read_bytes()
        with contextlib.closing(Store(self.path)) as found:
            with self.assertRaises(sqlite3.OperationalError):
                found.database.execute("DELETE FROM columns")
        self.assertEqual(self.path.read_bytes(), before)
        self.assertEqual(len(os.listdir(self.path.parent)), 1)


class Foreign(Files):
    """Files that others made, or that are damaged."""

    def refused(self, wanted="is not a columns file"):
        begun = time.monotonic()
        with self.assertRaisesRegex(Refused, wanted) as refused:
            with contextlib.closing(Store(self.path)) as found:
                found.verify()
        self.assertNotIn("\n", str(refused.exception))
        self.assertLess(time.monotonic() - begun, 10)

    def test_files_of_other_forms(self):
        for data in (b"", b"[]", b"{" * 200_000, b"[" * 200_000, b"\0" * 4096,
                     b"SQLite format 3\0", b"SQLite format 3\0" + b"\1" * 5000):
            self.path.write_bytes(data)
            with self.subTest(data[:20]):
                self.refused()
        self.path.write_bytes(b'{"bw columns": 1, "table": null, "columns": []}')
        self.refused("is a columns file of an earlier version: import the file again, by "
                     "bw-import RAW.csv .*/it's a ..20 name$")
        for version in (3, 5):
            self.changed(f"PRAGMA user_version = {version}")
            self.refused(f"of version {version}, .* reads version 4: import the file again, by "
                         "bw-import RAW.csv .*/it's a ..20 name$")
        shards = self.path.with_name("shards.columns")
        self.path.rename(shards)
        with self.assertRaisesRegex(Refused, "again, by bw-shards load RAW.csv /"):
            Store(shards)

    def test_bits_that_are_flipped(self):
        """A sample of every bit of each byte that isn't 0, and of drawn ones of the others: the
        file is refused, or everything reads as it was."""
        self.write(COLUMNS[:3])
        data, drawn = self.path.read_bytes(), random.Random(94)
        right = self.content()
        zeros = [at for at, byte in enumerate(data) if not byte]
        flips = [(at, bit) for at, byte in enumerate(data) if byte for bit in range(8)]
        flips += [(at, drawn.randrange(8)) for at in drawn.sample(zeros, 500)]
        count, flips = 0, sample_of(flips, 400, 94)
        for at, bit in flips:
            self.overwrite(at, data[at] ^ 1 << bit)
            try:
                self.assertEqual(self.content(), right, (at, bit))
            except Refused:
                count += 1
            self.overwrite(at, data[at])
        self.assertGreater(count, len(flips) // 4)

    def content(self):
        """Returns all that answers depend on."""
        with contextlib.closing(Store(self.path)) as found:
            return found.name, found.files, list(map(described, found.columns)), \
                [column.looks_like for column in found.columns]

    def test_files_that_are_cut(self):
        data = self.path.read_bytes()
        for end in (1, 99, 100, 4096, len(data) - 1):
            self.path.write_bytes(data[:end])
            with self.subTest(end):
                self.refused("columns file|damaged")

    def overwrite(self, at, byte):
        """Changes a byte of the file in its place: a file that is written anew waits for a disk."""
        with self.path.open("r+b") as file:
            file.seek(at)
            file.write(bytes([byte]))

    def changed(self, *statements):
        """Changes the file by SQL, with a schema that may be written, and has the sum of what it
        has then, as a forger would."""
        self.write()
        with contextlib.closing(sqlite3.connect(self.path, isolation_level=None)) as made:
            made.execute("PRAGMA synchronous = off")
            made.execute("PRAGMA writable_schema = on")
            for sql in statements:
                made.execute(sql)
            with contextlib.suppress(sqlite3.Error):
                head = [made.execute(sql).fetchall() for sql in columns_file.HEAD]
                made.execute("UPDATE sums SET sum = ?", (columns_file.sum_of_head(head),))

    def test_what_the_sum_covers(self):
        """Whatever changes without the sum is refused, though each field might be one."""
        for sql in ("UPDATE named SET name = 'u'", "UPDATE files SET rows = 6",
                    "UPDATE files SET inode = 7", "DELETE FROM files",
                    "INSERT INTO files SELECT 1, * FROM (SELECT file, rows, size, changed, inode, "
                    "sha256, header FROM files)", "UPDATE files SET header = 5",
                    "UPDATE columns SET heading = 'other' WHERE place = 1",
                    "UPDATE columns SET least = '0' WHERE place = 1",
                    "UPDATE columns SET why = '' WHERE place = 0",
                    "UPDATE columns SET looks_like = '' WHERE place = 0",
                    "UPDATE settings SET value = 3 WHERE name = 'digits' AND place = 2",
                    "UPDATE nulls SET word = 'other'", "DELETE FROM nulls",
                    "DELETE FROM columns WHERE place = 6; DROP TABLE values_6",
                    "UPDATE sums SET sum = sum + 1", "DELETE FROM sums"):
            self.write()
            with contextlib.closing(sqlite3.connect(self.path, isolation_level=None)) as made:
                made.executescript(sql)
            with self.subTest(sql):
                self.refused("its settings, its columns or its list of files have another sum")

    def test_another_schema(self):
        for sql in ("CREATE VIEW v AS SELECT 1", "CREATE TABLE more (a)", "DROP TABLE nulls",
                    "CREATE TRIGGER tr AFTER INSERT ON nulls BEGIN SELECT 1; END", "ANALYZE",
                    "DROP TABLE values_0", "CREATE INDEX i ON nulls (word)",
                    "ALTER TABLE nulls ADD COLUMN more", "ALTER TABLE settings RENAME TO s",
                    "ALTER TABLE nulls ADD COLUMN g AS (length(word))",
                    "UPDATE sqlite_master SET sql = replace(sql, 'NOT NULL', '') WHERE name = "
                    "'values_0'", "DROP TABLE sums",
                    "UPDATE sqlite_master SET sql = 'CREATE VIEW named AS SELECT ''t'' AS name', "
                    "type = 'view', rootpage = 0 WHERE name = 'named'"):
            self.changed(sql)
            with self.subTest(sql):
                self.refused("is not a columns file .*")

    def test_fields_that_are_checked(self):
        for sql in ("UPDATE columns SET name = 5 WHERE place = 1",
                    "UPDATE columns SET name = 'a b'",
                    "UPDATE columns SET name = x'00' WHERE place = 1",
                    "UPDATE columns SET name = 'A' WHERE place = 1",
                    "UPDATE columns SET kind = 'other' WHERE place = 1",
                    "UPDATE columns SET kind = 'texts' WHERE place = 1",
                    "UPDATE columns SET kind = 'whole' WHERE place = 0",
                    "UPDATE columns SET listed = 1000000 WHERE place = 0",
                    "UPDATE columns SET listed = 3 WHERE place = 0",
                    "UPDATE columns SET listed = -1 WHERE place = 0",
                    "UPDATE columns SET listed = 'x' WHERE place = 0",
                    "UPDATE columns SET listed = 1e300 WHERE place = 0",
                    "UPDATE columns SET least = NULL WHERE place = 0",
                    "UPDATE columns SET place = 70 WHERE place = 6", "DELETE FROM columns",
                    "UPDATE settings SET value = 1000000000 WHERE name = 'digits'",
                    "UPDATE settings SET value = -1 WHERE name = 'digits'",
                    "UPDATE settings SET value = '2' WHERE name = 'digits'",
                    "UPDATE settings SET value = 2.5 WHERE name = 'digits'",
                    "UPDATE settings SET value = x'00' WHERE name = 'digits'",
                    "UPDATE settings SET value = 5 WHERE name = 'form'",
                    "UPDATE settings SET value = '%Z' WHERE name = 'form'",
                    "UPDATE settings SET name = 'other' WHERE name = 'digits'",
                    "UPDATE settings SET place = 99", "UPDATE settings SET place = 'x'",
                    "INSERT INTO settings SELECT * FROM settings", "DELETE FROM settings",
                    "INSERT INTO nulls VALUES (99, 'x')", "UPDATE nulls SET word = x'00'",
                    "DELETE FROM named", "INSERT INTO named VALUES ('u')",
                    "UPDATE named SET name = x'00'", "UPDATE files SET size = 'x'",
                    "UPDATE files SET file = '../x'", "UPDATE files SET sha256 = x'00'",
                    "UPDATE values_0 SET code = 5", "UPDATE values_0 SET code = -5",
                    "UPDATE values_0 SET texts = x'61'", "UPDATE values_0 SET texts = 'zz'",
                    "UPDATE values_0 SET texts = x''", "UPDATE values_0 SET sum = sum + 1",
                    "UPDATE values_0 SET sum = 'x'", "DELETE FROM values_0",
                    "INSERT INTO values_0 VALUES (7, x'7a', 5)",
                    "INSERT INTO values_6 SELECT * FROM values_0",
                    "PRAGMA user_version = 2", "PRAGMA application_id = 5",
                    "PRAGMA journal_mode = WAL"):
            self.changed(sql)
            with self.subTest(sql):
                self.refused("columns file")

    def test_many_rows(self):
        tables = [("nulls", "0, 'x'"), ("settings", "0, x, x"),
                  ("columns", "x + 100, 'a', 'a', 'whole', '', '', NULL, NULL, NULL"),
                  ("named", "'t'")]
        for table, row in sample_of(tables, 2, 94):
            self.changed("WITH RECURSIVE c (x) AS (SELECT 0 UNION ALL SELECT x + 1 FROM c LIMIT "
                         f"70000) INSERT INTO {table} SELECT {row} FROM c")
            with self.subTest(table):
                self.refused()

    def test_a_look_up_checks_what_it_reads(self):
        for sql in ("UPDATE values_0 SET texts = x'61ff62'", "UPDATE values_0 SET code = 1",
                    "DELETE FROM values_0", "UPDATE values_0 SET sum = 0"):
            self.changed(sql)
            with contextlib.closing(Store(self.path)) as found:
                listed = found.columns[0].kind.listed
                for act in (lambda: listed.place("a"), lambda: listed.values([5]),
                            lambda: list(listed), lambda: list(listed.matching("", ())),
                            found.verify):
                    with self.subTest(sql), \
                            self.assertRaisesRegex(Refused, "damaged: .*: column a, from code"):
                        act()

    def test_blocks_of_another_file(self):
        """A block whose own sum is right, of another column, place or columns file."""
        self.write([Column("a", "a", texts("x", "y")), Column("b", "b", texts("p", "q"))])
        with contextlib.closing(sqlite3.connect(self.path, isolation_level=None)) as made:
            a, b = (made.execute(f"SELECT * FROM values_{place}").fetchone() for place in (0, 1))
            for place, row in ((0, b), (1, a)):
                made.execute(f"DELETE FROM values_{place}")
                made.execute(f"INSERT INTO values_{place} VALUES (?, ?, ?)", row)
        self.refused("a block has another sum")
        self.write([Column("a", "a", texts("x", "y"))])
        with contextlib.closing(sqlite3.connect(self.path, isolation_level=None)) as made:
            other = self.path.with_name("other")
            files = [TableFile("shard-001.bw", 5, 7, 1 << 60, 1 << 40, "cd" * 32, 1 << 31)]
            columns_file.write(other, [Column("a", "a", texts("p", "q"))], "t", files)
            with contextlib.closing(sqlite3.connect(other)) as from_there:
                row = from_there.execute("SELECT * FROM values_0").fetchone()
            made.execute("DELETE FROM values_0")
            made.execute("INSERT INTO values_0 VALUES (?, ?, ?)", row)
        self.refused("a block has another sum")

    def test_tables_that_share_pages(self):
        self.changed("UPDATE sqlite_master SET rootpage = (SELECT rootpage FROM sqlite_master "
                     "WHERE name = 'nulls') WHERE name = 'values_6'")
        self.refused("columns file|damaged")

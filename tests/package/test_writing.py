"""Numbers that are written, what is said of each column, and files that are put into their
places."""
import contextlib
import io
import os
import pathlib
import tempfile
import unittest
from unittest import mock

from bwtools._errors import Refused
from bwtools._storage import atomic
from bwtools.loader import encode
from bwtools.loader.table import Table

from tests.support import Import, numbers_of, options, table_of


class Tables(unittest.TestCase):
    def test_numbers(self):
        self.assertEqual(numbers_of(b"a,b,c,d\n1,x,1.5,2024-05-01\n,b,2,1970-01-01\n5,x,,\n"),
                         [["1", "", "5"], ["1", "0", "1"], ["15", "20", ""], ["19844", "0", ""]])

    def test_nulls_of_one_column(self):
        self.assertEqual(numbers_of(b'a\n5\n""\n'), [["5", "NULL"]])

    def test_many_texts_that_look_like_numbers(self):
        fields = [*map(str, range(9000)), "x", "y", "z", "12a"]
        found = Import("a,b\n" + "".join(f"{field},1\n" for field in fields))
        column = found.columns[0]
        self.assertEqual(list(column.kind.listed), sorted(fields))
        self.assertEqual([row.split(",")[0] for row in found.rows], fields)
        self.assertEqual((column.why, column.looks_like),
                         ("9,000 of 9,004 fields look like numbers", "numbers"))

    def test_a_column_of_many_odd_spellings(self):
        table = table_of(("a\n" + "".join(f"+{number}\n" for number in range(5000))).encode())
        self.assertEqual((table.columns[0].ends, table.numbers[0].counts.changed),
                         (["0", "4999"], 5000))

    def test_report(self):
        table = table_of(b"a,b\n1.5,x\n2.25,NA\n3.0,\n")
        with contextlib.redirect_stdout(io.StringIO()) as out:
            table.report()
        lines = ["COLUMN  HEADING  WHAT IT IS               FROM  TO    NULLS              NOTES",
                 "a                decimals times 10^2      1.50  3.00                     "
                 "spelling changed in 2 fields, values kept",
                 "b                texts as places among 2  NA    x     1 null as nothing  "
                 "'NA' is a text in 1 field, and null by --null b=NA",
                 "3 rows, separated by ',', in utf-8", ""]
        self.assertEqual(out.getvalue(), "\n".join(lines))

    def test_schema(self):
        table = table_of(b"a,b,c\n1,x,\n,y,\n-5,z,\n")
        self.assertEqual(table.schema("t"),
                         "TABLE t\nCOLUMN a -5 1\nCOLUMN b 0 2 NOT NULL\nCOLUMN c 0 0\n")

    def test_changed_spelling_is_counted_alike(self):
        fields = ["1.5", "2.25", "3", "4.10", "+5.00"]
        for many in (0, 1 << 11):
            with mock.patch("bwtools._inference.fields.MANY", many):
                table = table_of(("a\n" + "\n".join(fields * 20) + "\n").encode())
                # all but 2.25 and 4.10
                self.assertEqual(table.numbers[0].counts.changed, 60)

    def test_a_file_that_changes_is_refused(self):
        def change(*given, real=encode.encode):
            pathlib.Path(path).write_bytes(b"a\n1\n2\n")
            return real(*given)

        with tempfile.TemporaryDirectory() as name:
            path = pathlib.Path(name) / "in.csv"
            path.write_bytes(b"a\n1\n")
            with mock.patch.object(encode, "encode", change), \
                    self.assertRaisesRegex(Refused, "the file changed while it was read"):
                Table(str(path), options(), pathlib.Path(name))

    def test_what_is_waited_for(self):
        with mock.patch("bwtools._progress.Waiting.begin") as begun:
            table_of(b"a\n1\n2\n")
        self.assertEqual([call.args[0] for call in begun.call_args_list],
                         ["bw codes the rows", "its distinct fields are examined"])

    def test_too_much_is_refused(self):
        for data, most in ((b"a\n1\n2\n", 5), (b"a\nx\n2\n", 3)):
            with mock.patch("bwtools.loader.table.MOST_BYTES",
                            most), self.assertRaisesRegex(Refused, "more than 1 GiB"):
                numbers_of(data)


class Files(unittest.TestCase):
    def setUp(self):
        folder = tempfile.TemporaryDirectory(prefix="unittests-")
        self.addCleanup(folder.cleanup)
        self.folder = pathlib.Path(folder.name)

    def test_targets(self):
        file, link, pipe = self.folder / "file", self.folder / "link", self.folder / "pipe"
        file.touch()
        link.symlink_to(file)
        os.mkfifo(pipe)
        atomic.refuse_target(file, [self.folder / "other"])
        atomic.refuse_target(self.folder / "none", [])
        for path, sources, wanted in [(link, [], "a symlink"), (pipe, [], "a FIFO"),
                                      (self.folder, [], "a folder"),
                                      (os.devnull, [], "a device"),
                                      (file, [link], "is the file to read")]:
            with self.subTest(wanted), self.assertRaisesRegex(Refused, wanted):
                atomic.refuse_target(path, sources)

    def test_all_files_are_put_or_none(self):
        for each in ("one", "two"):
            (self.folder / each).write_text(each, encoding="utf-8")
        (self.folder / "first").write_text("before", encoding="utf-8")
        with self.assertRaises(OSError):
            atomic.put(self.folder, [(self.folder / "one", self.folder / "first"),
                                      (self.folder / "two", self.folder / "no" / "where")])
        self.assertEqual((self.folder / "first").read_text(encoding="utf-8"), "before")
        (self.folder / "one").write_text("one", encoding="utf-8")
        atomic.put(self.folder, [(self.folder / "one", self.folder / "first"),
                                  (self.folder / "two", self.folder / "second")])
        self.assertEqual([(self.folder / each).read_text(encoding="utf-8")
                          for each in ("first", "second")], ["one", "two"])

    def test_new_folder_is_gone(self):
        with atomic.new_folder(self.folder / "out") as folder:
            self.assertEqual(folder.parent, self.folder)
        self.assertFalse(folder.exists())
        with self.assertRaisesRegex(Refused,
                                    "isn't a folder"), \
                atomic.new_folder(self.folder / "no" / "out"):
            pass

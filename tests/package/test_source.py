"""How files are read: columns of fields, the lines of rows, and what is refused."""
import bz2
import csv
import gzip
import io
import lzma
import pathlib
import random
import unittest

from bwtools._csv import reader
from bwtools._csv.file import Source
from bwtools._errors import Refused
from bwtools.loader.dictionary import texts_of
from bwtools.loader.encode import Coder

from tests.support import bw, in_file, options, sample, source_of


def columns_of(data, *words):
    """Returns the fields of a file as they are read here, once bw has read the same."""
    columns = [list(column) for column in zip(*source_of(data, *words).rows())]

    def compare(path):
        found = Source(path, options(*words))
        for marked in (set(), set(range(len(found.headings)))):
            coder = Coder(found, options(*words), pathlib.Path(path).parent, False, marked)
            self.assertEqual(coded_columns(coder.code()) if columns else [], columns)

    self = unittest.TestCase()
    in_file(data, compare)
    return columns


def coded_columns(coded):
    """Returns the fields that the tables and the dictionaries of a file spell."""
    columns = []
    for part in coded.parts:
        rows = [line.split(",") for line in bw("dump", part.coded.path).out.splitlines()[1:]]
        for place, column in enumerate(zip(*rows)):
            listed = part.dictionaries[place] and [
                text for block in part.dictionaries[place].blocks()
                for text in texts_of(block.fields)]
            columns += [[]] if place == len(columns) else []
            columns[place] += ["" if code == "NULL" else listed[int(code)] if listed else code
                               for code in column]
    return columns


def parts(text, width, separator=",", quote='"'):
    return reader.columns_of(text.split(quote), separator, width)


class Columns(unittest.TestCase):
    def test_plain(self):
        self.assertEqual(parts("1,a\n2,b\n", 2), [["1", "2"], ["a", "b"]])

    def test_no_line_feed_at_the_end(self):
        self.assertEqual(parts("1,a\n2,", 2), [["1", "2"], ["a", ""]])

    def test_line_feeds_of_windows(self):
        self.assertEqual(parts('1,a\r\n2,"b\r\n"\r\n', 2), [["1", "2"], ["a", "b\r\n"]])

    def test_quotes_round_fields(self):
        self.assertEqual(parts('"1","a,\n"\n"","b"\n', 2), [["1", ""], ["a,\n", "b"]])

    def test_other_signs(self):
        self.assertEqual(parts("1|'a|'\n", 2, "|", "'"), [["1"], ["a|"]])

    def test_what_is_left_to_the_csv_module(self):
        for text in ['1,"a""b"\n', '1,a"b"\n', '1,"a"b\n', '1,"a\n', "1\n", "1,2,3\n", "1,2\n\n",
                     "\n1,2\n", "1,2\r3,4\r",
                     '1, "a"\n',
                     "1,2,3\n1\n"]:
            with self.subTest(text):
                self.assertIsNone(parts(text, 2))
        self.assertIsNone(parts("1\n\n2\n", 1))

    def test_as_the_csv_module_reads(self):
        draw, found = random.Random(8), 0
        for _ in range(sample(1500, 5000)):
            text = "".join(draw.choices(['"', ",", "\n", "a", "\r\n", "1", '","', '"\n', '\n"'],
                                        k=draw.randrange(1, 16)))
            columns = parts(text, 2)
            if columns is not None:
                rows = list(csv.reader(io.StringIO(text, newline=""), strict=True))
                self.assertEqual([list(each) for each in zip(*rows)], columns, text)
                found += 1
        self.assertGreater(found, 40)


class Files(unittest.TestCase):
    def test_heading_and_rows(self):
        found = source_of(b"a;b,c;d\n1;2;3\n")
        self.assertEqual((found.separator, found.headings), (";", ["a", "b,c", "d"]))
        self.assertEqual(list(found.rows()), [["1", "2", "3"]])

    def test_no_heading(self):
        found = source_of(b"1,2\n3,4\n", "--no-heading")
        self.assertEqual((found.headings, columns_of(b"1,2\n3,4\n", "--no-heading")),
                         (["c1", "c2"], [["1", "3"], ["2", "4"]]))

    def test_empty_lines_are_counted(self):
        found = source_of(b"\n\na,b\n\n1,2\n\n\n3,4\n")
        self.assertEqual(list(found.rows()), [["1", "2"], ["3", "4"]])
        self.assertEqual((found.counts.rows, found.counts.empty), (2, 5))

    def test_excel_says_its_separator(self):
        self.assertEqual(columns_of(b"sep=;\r\na;b\r\n1,5;2\r\n"), [["1,5"], ["2"]])

    def test_byte_order_mark(self):
        self.assertEqual(source_of(b"\xef\xbb\xbfa\n1\n").headings, ["a"])
        self.assertEqual(source_of("a,b\n".encode("utf-16")).headings, ["a", "b"])

    def test_fields_of_more_lines(self):
        draw = random.Random(9)
        for _ in range(sample(25, 60)):
            rows = [["".join(draw.choices(['"', ",", "\n", "ab", "\r\n", "1"],
                                          k=draw.randrange(6))) for _ in range(3)]
                    for _ in range(draw.randrange(1, 9))]
            out = io.StringIO(newline="")
            csv.writer(out, lineterminator=draw.choice(["\n", "\r\n"]),
                       quoting=draw.choice([csv.QUOTE_ALL, csv.QUOTE_MINIMAL])
                       ).writerows([["a", "b", "c"], *rows])
            self.assertEqual(columns_of(out.getvalue().encode()),
                             [list(each) for each in zip(*rows)], out.getvalue())

    def test_lines_of_rows(self):
        found = source_of(b'\na,b\n1,"x\ny"\n\n2,3\n4,5\n').numbered_rows()
        self.assertEqual([line for line, _ in found], [3, 6, 7])

    def test_refused(self):
        for data, wanted in [(b"", "there is no heading"),
                             (b"a,b\n1,2\n3\n", "line 3 has 1 field, and the heading has 2"),
                             (b'a,b\n1,2\n3,"x"y\n', "line 3: "),
                             (b'a,b\n1,"\n2\n', "line 2: unexpected end of data"),
                             (b"a\n1\n\xff\n", "line 3, byte 1 isn't utf-8"),
                             (b",".join([b"a"] * 65), "65 columns: a table"),
                             (b"a\0\n", "has NUL bytes, so it isn't UTF-8 text")]:
            with self.subTest(data[:20]), self.assertRaises(Refused) as refused:
                columns_of(data)
            self.assertIn(wanted, str(refused.exception))
        with self.assertRaisesRegex(Refused, "unknown encoding none"):
            columns_of(b"a\n", "--encoding", "none")


class Forms(unittest.TestCase):
    """What comes in beside plain files of UTF-8."""

    ROWS = [["1", "2"], ["x", "y"]]

    def refused(self, data, *words):
        with self.assertRaises(Refused) as refused:
            columns_of(data, *words)
        return str(refused.exception).partition("in.csv")[2]

    def test_compressed(self):
        data = b"a,b\n1,x\n2,y\n"
        for packed in (gzip.compress(data), bz2.compress(data), lzma.compress(data),
                       gzip.compress(data[:6]) + gzip.compress(data[6:])):
            self.assertEqual(columns_of(packed), self.ROWS)
        self.assertEqual(columns_of(gzip.compress(data.decode().encode("utf-16"))), self.ROWS)

    def test_compressed_and_damaged(self):
        data = b"a,b\n" + b"".join(b"%d,%d\n" % (number, number * 7919 % 10007)
                                   for number in range(5000))
        for name, pack in (("gzip", gzip.compress), ("bzip2", bz2.compress), ("xz", lzma.compress)):
            packed = pack(data)
            for spoiled in (packed[:-5], packed[:20], packed[:-9] + b"\1" + packed[-8:],
                            packed[:500] + b"\0\1" + packed[502:]):
                with self.subTest(name):
                    self.assertIn(f" is not a whole {name} file: ", self.refused(spoiled))

    def test_other_forms(self):
        for begin, wanted in ((b"PK\3\4", "a zip archive, or a spreadsheet"),
                              (b"PAR1", "a Parquet file"), (b"SQLite format 3\0", "a database")):
            self.assertIn(f" is {wanted}", self.refused(begin + b"\0" * 50))

    def test_skipped_lines(self):
        data = b'A report, of 2024\nby "me\n\na;b\n1;x\n2;y\n'
        self.assertEqual(columns_of(data, "--skip", "2"), self.ROWS)
        self.assertEqual(columns_of(b"title\nsep=;\na;b\n1;x\n2;y\n", "--skip", "1"), self.ROWS)
        self.assertEqual(source_of(data, "--skip", "2").headings, ["a", "b"])
        self.assertIn("there is no heading", self.refused(data, "--skip", "60"))
        self.assertIn("line 8 has 1 field", self.refused(data + b"\n3\n", "--skip", "2"))

    def test_comments(self):
        data = b'# made, by "me\n#\na;b\n1;x\n# more\n2;y\n#'
        self.assertEqual(columns_of(data, "--comment", "#"), self.ROWS)
        self.assertEqual(columns_of(data.replace(b"#", b"//"), "--comment", "//"), self.ROWS)
        # bw ends a comment by a line feed alone
        for end in (b"\r\n", b"\r"):
            other = data.replace(b"\n", end)
            for text in (other, other + end):
                self.assertEqual(columns_of(text, "--comment", "#"), self.ROWS, text)
        self.assertEqual(columns_of(b'a,b\n1,"\n# x"\n#,\n2,y\n', "--comment", "#"),
                         [["1", "2"], ["\n# x", "y"]])
        self.assertIn("line 8 has 3 fields", self.refused(data + b"\n3;4;5\n", "--comment", "#"))
        self.assertEqual(columns_of(b"a,b\n1,#x\n2,y\n", "--comment", "#"),
                         [["1", "2"], ["#x", "y"]])

    def test_comments_beside_quotes(self):
        data = (b"# \" one\n" + b'a,b\n1,"x\n#\n"\n# it\"s\n' + b"# x\n" * 9 + b'2,y\n' +
                b"#\n" * 9)
        self.assertEqual(columns_of(data, "--comment", "#"), [["1", "2"], ["x\n#\n", "y"]])

    def test_ends_of_lines_in_records_that_are_picked(self):
        for end in ("\n", "\r", "\r\n"):
            self.assertEqual(columns_of(f'a,b,c\n1,"x{end}y",3\n2,z,4\n'.encode(), "--columns",
                                        "a,b"), [["1", "2"], [f"x{end}y", "z"]])

    def test_ragged_rows(self):
        self.assertEqual(self.refused(b"a,b,c\n1,2\n1,2,3\n1\n2,3\n4\n"),
                         ": lines 2, 4 and 5 have 2, 1 and 2 fields, and the heading has 3: "
                         "--fill adds empty fields to short rows")
        widen = ": --widen adds columns for long rows, and empty fields to the others"
        self.assertEqual(self.refused(b"a,b\n1,2\n1,2,3\n"),
                         f": line 3 has 3 fields, and the heading has 2{widen}")
        self.assertEqual(self.refused(b"a,b\n1,2\n1,2,3\n1\n", "--fill"),
                         f": line 3 has 3 fields, and the heading has 2{widen}")
        self.assertEqual(self.refused(b"1,2\n1\n", "--no-heading"),
                         ": line 2 has 1 field, and the first line has 2: "
                         "--fill adds empty fields to short rows")

    def test_short_rows_are_filled(self):
        found = source_of(b"a,b,c\n1,2\n1,2,3\n\n1\n", "--fill")
        self.assertEqual(list(found.rows()), [["1", "2", ""], ["1", "2", "3"], ["1", "", ""]])
        self.assertEqual((found.counts.filled, found.counts.empty), (2, 1))

    def test_a_title_or_a_comment_is_recognised(self):
        for data, wanted in (
                (b"Trips of 2024\n\nid,city\n1,Bern\n2,Ulm\n", "--skip 2 skips the lines above"),
                (b"Trips\nid,city\n1,Bern\n2,Ulm\n", "--skip 1 skips the line above the heading"),
                (b"id,city\n1,Bern\n# the end\n", "--comment '#' skips lines that begin so"),
                (b"# by me\nid,city\n1,Bern\n", "--comment '#' skips lines that begin so")):
            with self.subTest(data):
                self.assertIn(wanted, self.refused(data))

    def test_encodings(self):
        self.assertIn("line 2, byte 2 isn't utf-8: it may be cp1252: use --encoding cp1252",
                      self.refused(b"a\nG\xe4u\n"))
        self.assertIn("it may be latin-1: use --encoding latin-1", self.refused(b"a\nG\xe4u\x81\n"))
        for name, mark in (("utf-16-le", b"\xff\xfe"), ("utf-16-be", b"\xfe\xff")):
            data = "a,b\n1,x\n2,y\n".encode(name)
            self.assertIn(f"it may be {name}: use --encoding {name}", self.refused(data))
            self.assertEqual(columns_of(data, "--encoding", name), self.ROWS)
            self.assertEqual(columns_of(mark + data), self.ROWS)
        self.assertEqual(columns_of("a,b\n1,€\n".encode("cp1252"), "--encoding", "cp1252"),
                         [["1"], ["€"]])

    def test_nothing_with_a_nul_is_text(self):
        data = b"a,b\n" + b"1,x\n" * 3000 + b"2,y\0\n"
        self.assertIn("line 3002 has a NUL, so it isn't text", self.refused(data))
        self.assertIn("line 3002 has a NUL",
                      self.refused("\ufeff".encode("utf-16-le") +
                                   data.decode().encode("utf-16-le")))
        self.assertIn("has NUL bytes", self.refused(b"a,b\n1,\0\n"))

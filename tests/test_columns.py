"""bw-to-numbers, bw-from-numbers, and bw-ask by columns of each kind: files are translated to
numbers, loaded as a table and translated back without a difference. Files that would lose something
are rejected, and nothing is written. Results of drawn conditions are compared with SQLite's over
the original fields."""
import contextlib
import csv
import decimal
import io
import os
import random
import sqlite3

from bwtools._cli import to_numbers
from bwtools._inference.options import parsed
from bwtools._output import turn_back
from bwtools._storage import columns_file

from tests import drawn, support
from tests.support import bw, tool


def records_of(text, **form):
    return list(csv.reader(io.StringIO(text, newline=""), **form))


class Columns(support.TestCase):
    """A folder, in which files are translated and imported."""

    def to_numbers(self, folder, data, *options):
        (folder / "in.csv").write_bytes(data)
        return tool("bw-to-numbers", *options, folder / "in.csv", folder / "out.csv")

    def came_back(self, folder):
        """Loads OUT.csv as a table. Returns the records that all rows are translated back to, by
        the functions that from-numbers uses."""
        (folder / "t.schema").write_text(bw("infer", folder / "out.csv").out)
        loaded = bw("load", folder / "t.schema", folder / "out.csv", folder / "t.bw")
        self.assertEqual(loaded, (0, "", ""))
        out, columns = io.StringIO(newline=""), columns_file.Store(folder / "out.columns").columns
        done = bw("query", folder / "t.bw", "SELECT * FROM t")
        turn_back(columns, io.StringIO(done.out, newline=""), out)
        return records_of(out.getvalue())


# What a file is, its bytes, the options, and its restored records, if they aren't those that Python
# reads.
BACK = [
    ("whole numbers", b"a,b\n1,-5\n0,9223372036854775806\n", []),
    ("the least number", b"a\n-9223372036854775808\n-1\n", []),
    ("numbers too far apart", b"a,b\n-1,1\n9223372036854775807,2\n", []),
    ("numbers past 64 bits", b"a\n1\n99999999999999999999\n5\n", []),
    ("numbers that don't come back", b"a,b,c,d\n007,+5,-0,1 \n1,1,1,1\n",
     ["--keep-spelling", "--keep-blanks"]),
    ("decimals", b"a,b,c\n12.50,-0.50,0.1\n-12.05,0.00,-0.9\n", []),
    ("decimals of 18 digits", b"a\n0.000000000000000001\n-0.223372036854775807\n", []),
    ("decimals of more digits than 64 bits",
     b"a\n0.00000000000000000000000000001\n0.90000000000000000000000000000\n", [],
     [["a"], ["1e-29"], ["0.9"]]),
    ("decimals of many digits", b"a\n1.5\n1.25\n-3\n0.125\n0\n", []),
    ("a zero at the end beside fewer digits", b"a,b\n1.5,1\n1.50,1.0\n", ["--keep-spelling"]),
    ("negative nothing", b"a,b\n-0.00,1\n0.50,-0.0\n", ["--keep-spelling"]),
    ("points without digits", b"a,b\n.5,5.\n.25,6.\n", ["--keep-spelling"]),
    ("exponents and words of numbers", b"a,b\n1e5,inf\n2,1\n",
     ["--keep-spelling", "--number", "a"]),
    ("digits of other scripts", "a\n\u0661\n1\n".encode(), []),
    ("dates", b"a\n2024-02-29\n0001-01-01\n9999-12-31\n1969-12-31\n", []),
    ("dates that aren't",
     b"a,b,c\n2023-02-29,20240501,2024-W01-1\n2023-02-28,20240502,2024-01-01\n", []),
    ("times", b"a,b,c\n2024-05-01 12:30:00,2024-05-01T00:00:00,1969-12-31T23:59:59Z\n"
              b"0001-01-01 00:00:00,,2024-05-01T00:00:00Z\n", []),
    ("times of two forms",
     b"a,b\n2024-05-01 12:30:00,2024-05-01T12:30:00Z\n2024-05-01T12:30:00,2024-05-01T12:30:00\n",
     ["--keep-spelling", "--text", "b"]),
    ("times that aren't",
     b"a,b\n2024-05-01 24:00:00,2024-05-01 12:30\n2024-05-01 23:59:60,2024-05-01 12:30\n", []),
    ("dates and times in one column", b"a\n2024-05-01\n2024-05-01 00:00:00\n", ["--text", "a"]),
    ("true and false", b"a,b,c,d\ntrue,False,TRUE,yes\nfalse,True,TRUE,no\n,,,\n", []),
    ("two spellings of true", b"a\ntrue\nFalse\n", ["--keep-spelling"]),
    ("quotes, commas and line feeds", b'a,b\n"say ""no""","x,y"\n"one\ntwo","cr\rlf\r\n"\n" ",\'\n',
     ["--keep-blanks"]),
    ("a carriage return alone", b'a,b\n"x\ry",1\n"\r",2\n', []),
    ("texts beyond ASCII", "a,b\nZürich,\U0001f600\nÅrhus,\uffff\n,\u2028x\n".encode(), []),
    ("a byte order mark", b"\xef\xbb\xbfa,b\r\n1,x\r\n", [], [["a", "b"], ["1", "x"]]),
    ("UTF-16, the least byte first", b"\xff\xfe" + "a;b\n1;\u0416\n".encode("utf-16-le"), [],
     [["a", "b"], ["1", "\u0416"]]),
    ("UTF-16, the greatest byte first", b"\xfe\xff" + "a\tb\n1\t\u0416\n".encode("utf-16-be"), [],
     [["a", "b"], ["1", "\u0416"]]),
    ("UTF-16 without a mark", "a,b\n1,\u0416\n".encode("utf-16-le"), ["--encoding", "utf-16-le"],
     [["a", "b"], ["1", "\u0416"]]),
    ("Latin-1", "a,b\n1,Zürich\n".encode("latin-1"), ["--encoding", "latin-1"],
     [["a", "b"], ["1", "Zürich"]]),
    ("cp1252", "a,b\n1,5 €\n".encode("cp1252"), ["--encoding", "cp1252"],
     [["a", "b"], ["1", "5 €"]]),
    ("semicolons", b'a;"b,c,d,e"\n1,5;x\n"2;5";y\n', [],
     [["a", "b,c,d,e"], ["1,5", "x"], ["2;5", "y"]]),
    ("bars", b"a|b\n1|2\n", [], [["a", "b"], ["1", "2"]]),
    ("a separator that is said", b"a:b,c\n1:2\n", ["--separator", ":"], [["a", "b,c"], ["1", "2"]]),
    ("a tab that is said", b"a,b\tc\n1\t2\n", ["--separator", "tab"], [["a,b", "c"], ["1", "2"]]),
    ("single quotes", b"a,b\n'1,5','it''s'\n", ["--quote", "'", "--text", "a"],
     [["a", "b"], ["1,5", "it's"]]),
    ("escapes", b'a,b\n"1\\",5",x\\,y\n', ["--escape", "\\"], [["a", "b"], ['1",5', "x,y"]]),
    ("lines that end in CR", b"a,b\r1,x\r2,y\r", [], [["a", "b"], ["1", "x"], ["2", "y"]]),
    ("no line feed at the end", b"a,b\n1,x", []),
    ("empty lines", b"\n\na,b\n\n1,x\n\n\n2,y\n\n", [], [["a", "b"], ["1", "x"], ["2", "y"]]),
    ("mixed columns", b"a,b,c\n1,2024-05-01,1.5\nx,7,true\n2.5,,2024-05-01\n",
     ["--text", "a", "--text", "b", "--text", "c"]),
    ("texts that come late", b"a\n1\n2\n1\nx\n3\n", ["--text", "a"]),
    ("nulls", b"a,b,c\nNA,N/A,-\n1,0.5,2024-05-01\nNA,N/A,-\n", [],
     [["a", "b", "c"], ["", "", ""], ["1", "0.5", "2024-05-01"], ["", "", ""]]),
    ("two words for null", b"a,b\nNA,1\n,2\n5,3\n", [],
     [["a", "b"], ["", "1"], ["", "2"], ["5", "3"]]),
    ("a word for null that is said", b"a,b\nNA,?\nx,5\n", ["--null", "?"],
     [["a", "b"], ["NA", ""], ["x", "5"]]),
    ("an empty field for null", b"a,b\nNA,\n-,5\n", ["--null", ""],
     [["a", "b"], ["NA", ""], ["-", "5"]]),
    ("two of them", b"a,b\nNA,?\nx,7\n", ["--null", "?", "--null", "NA"],
     [["a", "b"], ["", ""], ["x", "7"]]),
    ("nulls alone", b"a,b\n,NULL\n,NULL\n", []),
    ("one column of nulls", b'a\n""\nNULL\n', []),
    ("one column with nulls", b'a\n5\n""\nx\n', []),
    ("no rows", b"a,b\n", []),
    ("headings that are no names",
     'a b,,1st,select,Größe,a_b,A_B,,%,x\ty,"q""",_\n1,2,3,4,5,6,7,8,9,10,11,12\n'.encode(), []),
    ("headings that are alike", b"a,a,A,a_2, a\n1,2,3,4,5\n", [],
     [["a", "a", "A", "a_2", "a"], ["1", "2", "3", "4", "5"]]),
    ("long headings", b"x" * 63 + b"," + b"x" * 64 + b"," + b"x" * 70 + b"\n1,2,3\n", []),
    ("texts by option", b"a,b\n1,2\n10,3\n9,4\n", ["--text", "a"]),
    ("signs and points by their value", b"a,b,c\n+5,.5,1e3\n-0,5.,-2.5e-3\n", [],
     [["a", "b", "c"], ["5", "0.5", "1000.0"], ["0", "5", "-0.0025"]]),
    ("fewer digits beside a zero at the end", b"a\n1.25\n2.0\n13.5\n-0.0\n3\n", [],
     [["a"], ["1.25"], ["2.00"], ["13.50"], ["0.00"], ["3.00"]]),
    ("exponents of 18 digits and of more", b"a,b\n1e17,1e18\n1e-18,1\n",
     ["--number", "b"], [["a", "b"], ["1e+17", "1e+18"], ["1e-18", "1.0"]]),
    ("an exponent without end", b"a\n1e999999\n5\n", ["--text", "a"]),
    ("zeros in front", b"a,b,c\n007,00.5,0\n1,1.5,-0.5\n", [],
     [["a", "b", "c"], ["007", "00.5", "0"], ["1", "1.5", "-0.5"]]),
    ("zeros in front as numbers", b"a\n007\n1\n", ["--number", "a"], [["a"], ["7"], ["1"]]),
    ("decimal commas", b"a;b\n1,5;-0,25\n2;3,5\n", [],
     [["a", "b"], ["1,5", "-0,25"], ["2", "3,5"]]),
    ("decimal commas of one number of digits", b"a;b\n1,50;x\n0,05;y\n", [],
     [["a", "b"], ["1,50", "x"], ["0,05", "y"]]),
    ("decimal commas and points", b"a;b\n1,5;x\n2.5;y\n", ["--text", "a"],
     [["a", "b"], ["1,5", "x"], ["2.5", "y"]]),
    ("commas that may part thousands",
     b"a;b\n1,234;x\n12,500;y\n7;z\n", ["--number", "a"],
     [["a", "b"], ["1,234", "x"], ["12,500", "y"], ["7,000", "z"]]),
    ("commas that may part thousands, as numbers", b"a;b\n1,234;x\n7;y\n", ["--number", "a"],
     [["a", "b"], ["1,234", "x"], ["7", "y"]]),
    ("points that may part thousands", b"a;b\n1,5;1.234\n2,5;12.500\n", [],
     [["a", "b"], ["1,5", "1.234"], ["2,5", "12.500"]]),
    ("commas in quotes between commas", b'a,b\n"1,5",x\n"2,5",y\n', ["--number", "a"]),
    ("dates with points", b"a\n31.12.2024\n01.02.2024\n", []),
    ("dates with points and few digits", b"a\n31.12.2024\n1.2.2024\n", [],
     [["a"], ["31.12.2024"], ["01.02.2024"]]),
    ("dates with strokes of one reading", b"a,b\n03/04/2024,12/31/2024\n31/12/2024,01/02/2024\n",
     []),
    ("dates with strokes of no reading", b"a\n31/12/2024\n12/31/2024\n", ["--text", "a"]),
    ("dates by option", b"a,b\n03/04/2024,2024-03\n1/2/2024,2024-04\n",
     ["--date", "a=%m/%d/%Y", "--text", "b"],
     [["a", "b"], ["03/04/2024", "2024-03"], ["01/02/2024", "2024-04"]]),
    ("dates of two forms", b"a\n2024-05-01\n01.05.2024\n", ["--text", "a"]),
    ("times without seconds", b"a,b\n2024-05-01 12:30,12:30\n2024-05-01 00:00,23:59\n", []),
    ("times with and without seconds", b"a\n2024-05-01 12:30\n2024-05-01 12:30:01\n", [],
     [["a"], ["2024-05-01 12:30:00"], ["2024-05-01 12:30:01"]]),
    ("milliseconds",
     b"a,b\n2024-05-01T12:30:00.125Z,12:30:00.5\n1969-12-31T23:59:59.999Z,00:00:00.0\n", []),
    ("milliseconds and microseconds", b"a\n2024-05-01 12:30:00.125\n2024-05-01 12:30:00.000001\n",
     [],
     [["a"], ["2024-05-01 12:30:00.125000"], ["2024-05-01 12:30:00.000001"]]),
    ("offsets",
     b"a\n2024-05-01T12:30:00+02:00\n2024-05-01T00:30:00-0530\n2024-05-01T12:30:00Z\n2024-01-01 "
     b"01:00:00+02\n", [],
     [["a"], ["2024-05-01T10:30:00Z"], ["2024-05-01T06:00:00Z"], ["2024-05-01T12:30:00Z"],
      ["2023-12-31T23:00:00Z"]]),
    ("offsets past the calendar", b"a\n0001-01-01T00:00:00+01:00\n2024-05-01T12:30:00Z\n", []),
    ("times with a zone and without", b"a\n2024-05-01T12:30:00\n2024-05-01T12:30:00+02:00\n",
     ["--text", "a"]),
    ("times by option", b"a,b\n01/02/2024 07.05,7h05\n02/02/2024 23.59,23h59\n",
     ["--date", "a=%d/%m/%Y %H.%M", "--date", "b=%Hh%M"],
     [["a", "b"], ["01/02/2024 07.05", "07h05"], ["02/02/2024 23.59", "23h59"]]),
    ("true in two spellings", b"a,b\ntrue,TRUE\nFalse,FALSE\n", [],
     [["a", "b"], ["true", "TRUE"], ["false", "FALSE"]]),
    ("words for null among texts", b"a,b\nNA,NULL\nDE,-\n", []),
    ("words for null alone", b"a,b\nNA,x\nNA,y\n", []),
    ("words for null among texts, as null", b"a,b\nNA,1\nDE,NA\n", ["--null", "NA"],
     [["a", "b"], ["", "1"], ["DE", ""]]),
    ("no heading", b"1,x\n2,y\n", ["--no-heading"], [["c1", "c2"], ["1", "x"], ["2", "y"]]),
    ("a heading that looks like a row", b"2023,x\n1,y\n", ["--heading"]),
    ("years above texts", b"2023,x\nhigh,1\n", []),
    ("Excel's first line", b"sep=;\r\na,b;c\r\n1,5;2\r\n", [], [["a,b", "c"], ["1,5", "2"]]),
    ("many rows, and texts at the end",
     b"a,b\n" + b"".join(b"%d,%d.5\n" % (n, n) for n in range(20000)) + b"x,y\n",
     ["--text", "a", "--text", "b"]),
    ("many rows, and nulls at the end",
     b"a,b\n" + b"".join(b"%d,2024-05-01 12:%02d:00\n" % (n, n % 60) for n in range(20000))
     + b",\n", []),
    ("64 columns",
     ",".join(f"c{n}" for n in range(64)).encode() + b"\n" + b",".join([b"1.5"] * 64) + b"\n", []),
]


class ThereAndBack(Columns):
    """A file is translated to numbers, loaded as a table, and restored. This process does what the
    program does: other classes run that."""

    PARSER = to_numbers.parser_of()

    def check(self, _, data, words, wanted=None):
        folder = self.new_folder()
        (folder / "in.csv").write_bytes(data)
        given = [*words, str(folder / "in.csv"), str(folder / "out.csv")]
        with contextlib.redirect_stdout(io.StringIO()):
            to_numbers.work(parsed(self.PARSER, given))
        self.assertEqual(self.came_back(folder),
                         wanted or records_of(data.decode(), strict=True))


@support.each(BACK)
class Back(ThereAndBack):
    """Files of many kinds."""


def made_file(seed):
    """Returns a file of drawn columns, with its own separator, encoding and nulls."""
    chance = random.Random(seed)
    fields, separator = drawn.Fields(chance), chance.choice(",;\t|")
    encoding = chance.choice(("utf-8", "utf-8-sig", "utf-16", "latin-1", "cp1252"))
    null = chance.choice(("", "NA", "-", "N/A"))
    columns = [chance.choice(list(fields.TYPES)[1:]) for _ in range(chance.randrange(1, 9))]
    heads = [chance.choice((column, f"{column} {place}", f"#{place}", column.upper()))
             for place, column in enumerate(columns)]
    rows = [[null if chance.random() < .1 else fields.field(column) for column in columns]
            for _ in range(chance.randrange(1, 40))]
    out = io.StringIO(newline="")
    csv.writer(out, delimiter=separator,
               quoting=chance.choice((csv.QUOTE_MINIMAL, csv.QUOTE_ALL))).writerows([heads, *rows])
    options = ["--encoding", encoding] if encoding in ("latin-1", "cp1252") else []
    options += ["--separator", separator] if len(columns) == 1 else []
    # in a column of texts they are texts
    wanted = [[field if column == "city" or field != null else ""
               for field, column in zip(row, columns)] for row in rows]
    return (f"seed {seed}", out.getvalue().encode(encoding), [*options, "--keep-blanks"],
            [heads, *wanted])


@support.each(map(made_file, range(support.sample(6, 12))))
class Made(ThereAndBack):
    """Drawn files."""


# What a file is, the options, and the content of OUT.csv
WRITTEN = [
    ("texts in their order", b"a,b\nb,1\na,2\nZ,3\n\xc3\xa9,4\n", [], "a,b/2,1/1,2/0,3/3,4/"),
    ("decimals times ten", b"a,b\n12.50,1.5\n-0.50,2\n", [], "a,b/1250,15/-50,20/"),
    ("days", b"a,b\n1970-01-02,1\n1969-12-31,2\n", [], "a,b/1,1/-1,2/"),
    ("seconds", b"a,b\n1970-01-02 00:00:01,1\n1969-12-31 23:59:59,2\n", [], "a,b/86401,1/-1,2/"),
    ("truths", b"a,b\ntrue,1\nfalse,2\n", [], "a,b/1,1/0,2/"),
    ("true alone", b"a,b\ntrue,1\n", [], "a,b/1,1/"),
    ("nulls", b"a,b,c\nNA,1,NA\n5,null,DE\n", [], "a,b,c/,1,1/5,,0/"),
    ("nulls of one column", b'a\n""\n5\n', [], "a/NULL/5/"),
    ("names", b"a b,,select,1st,a,A, a,%\n", [], "a_b,_,select_,_1st,a,A_2,a_3,__2/"),
    ("a name that is taken first", b"x y,x_y\n", [], "x_y_2,x_y/"),
    ("numbers as texts", b"a,b\n10,1\n9,2\n", ["--text", "a"], "a,b/0,1/1,2/"),
]


@support.each(WRITTEN)
class Written(Columns):
    """What is written as OUT.csv."""

    def check(self, _, data, options, wanted):
        folder = self.new_folder()
        self.assertEqual(self.to_numbers(folder, data, *options).status, 0)
        self.assertEqual((folder / "out.csv").read_text(), wanted.replace("/", "\n"))


# What a file is, its bytes, the options, the status, and the message
REFUSED = [
    ("a short row", b"a,b\n1,2\n3\n", [], 3, "line 3 has 1 field, and the heading has 2"),
    ("a long row after one of two lines", b'a,b\n"1\n2",2\n1,2,3\n', [], 3,
     "line 4 has 3 fields, and the heading has 2"),
    ("a long row of two lines", b'a,b\n1,2\n"x\ny",2,3\n', [], 3,
     "line 3 has 3 fields, and the heading has 2"),
    ("a line of blanks", b"a,b\n1,2\n \n", [], 3, "line 3 has 1 field"),
    ("no heading", b"", [], 3, "there is no heading"),
    ("empty lines alone", b"\n\n", [], 3, "there is no heading"),
    ("bytes that aren't UTF-8", b"a,b\n1,x\n2,Z\xfcrich\n", [], 3,
     "line 3, byte 4 isn't utf-8: it may be cp1252: use --encoding cp1252"),
    ("half a character at the end", b"a,b\n1,\xc3", [], 3, "line 2, byte 3 isn't utf-8"),
    ("half a UTF-16 character", b"\xff\xfea\0\n\0\x01", [], 3, "isn't utf-16"),
    ("UTF-16 without a mark", "a,b\n1,2\n".encode("utf-16-le"), [], 3,
     "it may be utf-16-le: use --encoding utf-16-le"),
    ("no encoding", b"a\n", ["--encoding", "none"], 3, "unknown encoding none"),
    ("a quote that isn't closed", b'a,b\n1,2\n"x,3\n4,5\n', [], 3, "line 3: "),
    ("a text after a quote", b'a,b\n"1"x,2\n', [], 3, "line 2: "),
    ("65 columns", b",".join([b"x"] * 65) + b"\n", [], 3, "65 columns: a table has at most 64"),
    ("no such column", b"a\n", ["--text", "b"], 3, "no column has the heading 'b'"),
    ("a long separator", b"a\n", ["--separator", ",,"], 2, "must be one character"),
]


@support.each(REFUSED)
class Refused(Columns):
    """A rejected file leaves the folder as it was."""

    def check(self, _, data, options, status, wanted):
        folder = self.new_folder()
        for name in ("out.csv", "out.columns"):
            (folder / name).write_text("as it was")
        done = self.to_numbers(folder, data, *options)
        self.assertEqual((done.status, done.out), (status, ""))
        self.assertIn(wanted, done.err)
        self.assertEqual(support.content(folder), {"out.csv": b"as it was", "in.csv": data,
                                                   "out.columns": b"as it was"})


ODD = b"""name;day;at;fare;ok;n;other;due;part;code;late;none;2nd
Boston;2024-05-01;2024-05-01 12:30:00;12.50;true;1;0.5;2024-05-03;1.5;Boston;2024-05-01T10:00:00;;x
"O'Hare";2024-05-03;2024-05-02 12:30:00;-0.50;false;-7;1.5;2024-05-02;2;Boston;\
2024-05-01T10:00:00;;y
NA;;;;;;;;;;;;
"""

# A statement over these columns, the options, the status, the result and the message
ASKED = [
    ("SELECT name, fare FROM t WHERE name > 'Bosto'", [], 0,
     "name,fare\nBoston,12.50\nO'Hare,-0.50\n", ""),
    ("SELECT name, n FROM t WHERE n IS NULL", [], 0, "name,n\n,\n", ""),
    ("select Sum(fare), sum(part), MIN(day), MAX(at), SUM(ok), SUM(none) from T", [], 0,
     "Sum(fare),sum(part),MIN(day),MAX(at),SUM(ok),SUM(none)\n12.00,3.5,2024-05-01,2024-05-02 "
     "12:30:00,1,\n", ""),
    ('SELECT MAX("2nd"), COUNT("2nd"), COUNT(*) FROM t', [], 0,
     '"MAX(""2nd"")","COUNT(""2nd"")",COUNT(*)\ny,2,3\n', ""),
    ("SELECT none FROM t WHERE n = 1", [], 0, 'none\n""\n', ""),
    ("SELECT n FROM t WHERE n = 9", [], 0, "n\n", ""),
    ("SELECT n FROM t WHERE fare = 12.5;", ["--stats"], 0, "n\n1\n",
     "served program segments 1 loads "),
    ("SELECT n FROM t WHERE fare = 12.5", ["--show"], 0, "n\n1\n",
     "by statements of bw:\n  SELECT n FROM t WHERE fare = 1250\n"),
    ("SELECT SUM(day) FROM t", [], 3, "",
     "bw-ask: SUM(day): day has dates, which can't be summed: use COUNT, MIN or MAX\n"),
    ("SELECT SUM(name) FROM t", [], 3, "",
     "bw-ask: SUM(name): name has texts, which can't be summed: use COUNT, MIN or MAX\n"),
    ("SELECT n FROM u WHERE n = 1", [], 0, "n\n1\n", ""),
    ("SELECT n WHERE n = 1", [], 3, "",
     "bw-ask: there is no column n at character 7 of the statement"),
    ("DELETE FROM t", [], 3, "",
     "bw-ask: expected SELECT or WITH at character 0 of the statement, found DELETE"),
]


class Odd(Columns):
    """A folder with columns of every kind, translated and imported."""

    @classmethod
    def setUpClass(cls):
        cls.folder = cls.new_class_folder()
        cls.to_numbers(cls, cls.folder, ODD, "--null", "NA")
        (cls.folder / "t.csv").write_bytes(ODD)
        done = tool("bw-import", "--null", "NA", cls.folder / "t.csv", cls.folder / "t.bw")
        assert done.status == 0, done


@support.each(ASKED)
class Asked(Odd):
    """Statements over these columns."""

    def check(self, statement, options, status, answer, told):
        done = tool("bw-ask", self.folder / "t.bw", *options, statement)
        self.assertEqual(done[:2], (status, answer))
        self.assertEqual(done.err[:len(told)] if told else done.err, told)


class Files(Odd):
    """Files that can't be read or written, and what isn't a columns file."""

    def to(self, *words, **more):
        return tool("bw-to-numbers", *words, cwd=self.folder, **more)

    def test_a_pipe(self):
        done = support.sh(f"cat in.csv | '{support.PYTHON}/bin/bw-to-numbers' --null NA /dev/stdin "
                          "piped.csv", self.folder)
        self.assertEqual(done.status, 0, done)
        self.assertEqual(*((self.folder / name).read_bytes() for name in ("piped.csv", "out.csv")))

    def test_a_file_is_not_written_over(self):
        done = self.to("in.csv", "in.csv")
        self.assertEqual(done.status, 3)
        self.assertIn("is the file to read", done.err)
        self.assertEqual((self.folder / "in.csv").read_bytes(), ODD)

    def test_a_folder_is_not_written_over(self):
        (self.folder / "taken.columns").mkdir()
        done = self.to("in.csv", "taken.csv")
        self.assertEqual(done.status, 3)
        self.assertIn("is a folder", done.err)
        self.assertFalse((self.folder / "taken.csv").exists())
        self.assertEqual([name for name in os.listdir(self.folder) if name.startswith(".")], [])

    def test_what_is_not_there(self):
        self.assertEqual(self.to("in.csv", "none/out.csv").status, 3)
        self.assertEqual(self.to("none", "other.csv").status, 5)
        self.assertEqual(self.from_("none").status, 5)
        done = tool("bw-ask", self.folder / "t.bw", "SELECT n FROM t", BW=f"{self.folder}/none")
        self.assertEqual(done, (5, "", f"bw-ask: {self.folder}/none: No such file or directory\n"))

    def from_(self, name, answer=""):
        return tool("bw-from-numbers", self.folder / name, given=answer)

    def test_what_is_no_columns_file(self):
        self.assertEqual(self.from_("in.csv").status, 3)
        (self.folder / "older.columns").write_text('{"columns": []}\n')
        done = self.from_("older.columns", "name\n0\n")
        self.assertEqual(done.status, 3)
        self.assertIn("older.columns is not a columns file that bw-import wrote", done.err)

    def test_help(self):
        for name in support.TOOLS:
            with self.subTest(name):
                done = tool(name, "--help")
                self.assertEqual((done.status, done.err), (0, ""))
                self.assertRegex(done.out, r"\Ausage: ")


# what an answer is, its bytes, the status, and the message
ANSWERS = [
    ("another column", b"n,x\n1,2\n", 3, "the result has a column x"),
    ("a sum of dates", b"SUM(day)\n5\n", 3, "SUM(day): day has dates, which can't be summed: use"),
    ("no place among the texts", b"name\n7\n", 3,
     "line 2 of the result: 7 isn't a number of column name"),
    ("a place below them", b"name\n-1\n", 3,
     "line 2 of the result: -1 isn't a number of column name"),
    ("a day past the calendar", b"day\n99999999999\n", 3, "isn't a number of column day"),
    ("a fault for an answer", b"n\nbw: 404\n", 3,
     "line 2 of the result: bw: 404 isn't a number of column n"),
    ("a short record", b"n,ok\n5\n", 3, "line 2 of the result has 1 field, expected 2"),
    ("bytes that aren't UTF-8", b"n\n\xff\n", 3, "can't decode"),
    ("no answer", b"", 3, "the result is empty"), ("a count", b"COUNT(name)\n2\n", 0, "")]


@support.each(ANSWERS)
class Answers(Odd):
    """Results that belong to the columns, and some that don't."""

    def check(self, _, answer, status, told):
        done = tool("bw-from-numbers", self.folder / "out.columns", given=answer)
        self.assertEqual(done.status, status)
        self.assertIn(told, done.err)
        self.assertEqual(done.err[:17], "bw-from-numbers: " if status else "")

    def test_a_dump(self):
        dump = bw("dump", self.folder / "t.bw").out
        done = tool("bw-from-numbers", self.folder / "out.columns", given=dump)
        self.assertEqual(records_of(done.out),
                         [["" if field == "NA" else field for field in row]
                          for row in records_of(ODD.decode(), delimiter=";")])

    def test_no_standard_input(self):
        done = support.sh(f"'{support.PYTHON}/bin/bw-from-numbers' out.columns <&-", self.folder)
        self.assertEqual(done.status, 3)
        self.assertIn("the result is empty", done.err)


SAID = """\
COLUMN   HEADING   WHAT IT IS                 FROM   TO    NULLS                              \
  NOTES
n                  whole numbers as they are  -5     12    1 null as nothing
x_y      'x y'     texts as places among 3    -      b     1 null as nothing                  \
  texts, though 1 of 2 fields look like numbers; so not ordered, unless by --text 'x y'; '-' is \
a text in 1 field, and null by --null 'x y=-'
select_  'select'  decimals times 10^2        -0.50  1.25                                     \
  spelling changed in 2 fields, values kept
m                  whole numbers as they are  1      2     1 null as nothing, 1 null as 'NULL'
"""


class Report(Columns):
    """What to-numbers prints about a file."""

    def test_report(self):
        folder = self.new_folder()
        done = self.to_numbers(
            folder, b"n;x y;select;m\n12;1;1.25;1\n;;0.0;\n-5;b;-.50;NULL\n\n7;-;1.00;2\n")
        last = "4 rows, separated by ';', in utf-8; 1 empty line skipped\n"
        self.assertEqual(done, (0, f"{SAID}{last}{folder}/out.csv and {folder}/out.columns are "
                                   "written\n", ""))


TOTALS = ("COUNT(*), SUM(fare), SUM(rate), MAX(city), MIN(day), MAX(at), MIN(fare), COUNT(n), "
          "SUM(ok)")


def totals(rows):
    """Returns the values of `TOTALS` over rows, computed from the texts."""
    def held(column):
        place = list(drawn.Fields.TYPES).index(column)
        return [row[place] for row in rows if row[place]]

    fares, rates = ([decimal.Decimal(text) for text in held(name)] for name in ("fare", "rate"))
    # fares all have two digits after the point, rates none that is 0 at the end
    rate = f"{sum(rates):f}"
    return [str(len(rows)), f"{sum(fares):.2f}" if fares else "",
            (rate.rstrip("0").rstrip(".") if "." in rate else rate) if rates else "",
            max(held("city"), default=""), min(held("day"), default=""),
            max(held("at"), default=""), str(min(fares)) if fares else "", str(len(held("n"))),
            str(held("ok").count("true")) if held("ok") else ""]


@support.each([(f"seed {seed}", seed) for seed in range(support.sample(2, 6))])
class Meanings(Columns):
    """Drawn conditions over drawn rows select those that SQLite selects."""

    def check(self, _, seed):
        fields = drawn.Fields(random.Random(seed))
        rows, names = fields.rows(300), list(fields.TYPES)
        base, folder, out = sqlite3.connect(":memory:"), self.new_folder(), io.StringIO(newline="")
        self.addCleanup(base.close)
        base.execute(f"CREATE TABLE t ({', '.join(map(' '.join, fields.TYPES.items()))})")
        base.executemany(f"INSERT INTO t VALUES ({', '.join('?' * len(names))})", [
            [None if text == "" else {"true": 1, "false": 0}.get(text, text) for text in row]
            for row in rows])
        csv.writer(out, lineterminator="\n").writerows([names, *rows])
        (folder / "t.csv").write_bytes(out.getvalue().encode())
        made = tool("bw-import", "--keep-blanks", folder / "t.csv", folder / "t.bw")
        self.assertEqual(made.status, 0, made)
        asked = [(TOTALS if number % 5 == 4 else "*", fields.condition(number % 4))
                 for number in range(support.sample(40, 75))]
        done = tool("bw-ask", folder / "t.bw", given="".join(
            f"SELECT {items} FROM t WHERE {condition};\n" for items, condition in asked))
        came = done.out.split("\n\n")[:-1]
        self.assertEqual(len(came), len(asked), done.err)
        for (items, condition), answer in zip(asked, came):
            found = [rows[place] for place, in base.execute(
                f"SELECT id FROM t WHERE {condition} ORDER BY id")]
            wanted = [TOTALS.split(", "), totals(found)] if items == TOTALS else [names, *found]
            with self.subTest(condition):
                self.assertEqual(records_of(answer), wanted)

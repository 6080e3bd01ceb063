"""Files whose columns could become something else: each is read as what it means, named in the
report, or refused with the options that load it."""
import contextlib
import csv
import io
import pathlib
import random
import unittest
import zipfile

import bwtools

from bwtools._errors import Refused

from tests import foreign, support
from tests.support import Import, Imported, in_file, source_of, table_of

# each file with the options, the kinds of its columns, its rows as they come back, and a part of
# the report
READ = [
    ("telephone numbers", "tel\n+41791234567\n+41441234567\n", (), "texts",
     ["+41791234567", "+41441234567"],
     "texts: '+41441234567' and others have a leading +, which --number tel drops"),
    ("telephone numbers with blanks", "tel\n+41 791 234 567\n+41 441 234 567\n", (), "texts",
     ["+41 791 234 567", "+41 441 234 567"], "leading +"),
    ("telephone numbers by name", "tel\n+41791234567\n", ("--number", "tel"), "whole",
     ["41791234567"], "spelling changed in 1 field"),
    ("differences with signs", "d\n+1234567\n-1234567\n", (), "whole", ["1234567", "-1234567"],
     "spelling changed in 1 field, values kept"),
    ("small numbers with signs", "d\n+12\n+5\n", (), "whole", ["12", "5"],
     "spelling changed in 2 fields, values kept"),
    ("dates with zeros", "v\n01.10.12\n02.04.10\n", (), "dates", ["01.10.12", "02.04.10"],
     "years of 69 to 99 are 1969 to 1999, those of 00 to 68 are 2000 to 2068"),
    ("times with years of two digits", "v\n13/10/12 10:00\n", (), "times", ["13/10/12 10:00"],
     "years of 69 to 99 are 1969 to 1999"),
    ("a whole number that is a double", "n\n999999999999998592\n0.125e-3\n", (), "floats",
     ["9.999999999999986e+17", "0.000125"], "spelling changed in 2 fields"),
    ("powers among fractions", "c\n1001\n10E2\n20.5\n", (), "floats",
     ["1001.0", "1000.0", "20.5"], "shortest spelling"),
    ("codes by name", "c\n1001\n10E2\n2001\n", ("--text", "c"), "texts",
     ["1001", "10E2", "2001"], "by --text"),
    ("a fraction that no double is", "n\n1.000000000000000001\n1234.5\n", (), "floats",
     ["1.0", "1234.5"],
     "  1 field rounded to the nearest doubles, by at most 0.000000000000000001\n"),
    ("a power below all doubles", "n\n1e-400\n1e-3\n", (), "floats", ["0.0", "0.001"],
     "1 field rounded to the nearest doubles, by at most 1e-400"),
    ("all digits of a double", "n\n0.30000000000000004\n1.7976931348623157e+308\n", (), "floats",
     ["0.30000000000000004", "1.7976931348623157e+308"], "floats in their order"),
    ("a whole number that is no double, by name", "n\n9007199254740993\n1.5e3\n",
     ("--number", "n"), "floats", ["9007199254740992.0", "1500.0"],
     "1 field rounded to the nearest doubles, by at most 1; spelling changed in 1 field"),
    ("a whole number that is no double, by its digits", "n\n9007199254740993\n1.5e3\n",
     ("--digits", "n=0"), "whole", ["9007199254740993", "1500"], "spelling changed in 1 field"),
    ("an offset after a blank", "t\n2024-05-01 10:00 +0200\n2024-05-02 10:00 -05:00\n", (),
     "times", ["2024-05-01 08:00Z", "2024-05-02 15:00Z"], "times of UTC as seconds since 1970"),
    ("UTC by name", "t\n2024-05-01 10:00:00.5 UTC\n2024-05-02T10:00:00 GMT\n", (), "times",
     ["2024-05-01T10:00:00.5Z", "2024-05-02T10:00:00.0Z"], "times of UTC"),
    ("UTC by --date", "t\n01/05/2024 10:00 UTC\n", ("--date", "t=%d/%m/%Y %H:%M %z"), "times",
     ["01/05/2024 10:00Z"], "times %d/%m/%Y %H:%M of UTC"),
    ("times of mails",
     't\n"Wed, 01 May 2024 10:00:00 +0200"\n"Thu, 2 May 2024 23:30:00 -0100 (AZOT)"\n',
     (), "times", ["01 May 2024 08:00:00Z", "03 May 2024 00:30:00Z"],
     "times %d %b %Y %H:%M:%S of UTC as seconds since 1970"),
    ("times without signs", "t\n20240501T123000Z\n20240502T003000+0200\n", (), "times",
     ["20240501T123000Z", "20240501T223000Z"], "times %Y%m%dT%H%M%S of UTC"),
    ("times without signs, with parts", "t\n20240501T123000.25\n20240502T123000\n", (), "times",
     ["20240501T123000.25", "20240502T123000.00"], "times %Y%m%dT%H%M%S as seconds times 10^2"),
    ("crowns", "c\n5 kr\n12 kr\n", (), "whole", ["5 kr", "12 kr"], "with 'kr'"),
    ("three digits after a point", "a,b\n23.110,x\n1.250,y\n", (), "decimals texts",
     ["23.110,x", "1.250,y"], "decimals times 10^3"),
]

# each file with the options, and what the refusal says
REFUSED = [
    ("codes among whole numbers", "c\n1001\n10E2\n2001\n", (),
     "column 'c': '10E2' in line 3 may be a code, or a number with a power of ten: use --number c, "
     "or --text c"),
    ("a whole number that is no double", "n\n9007199254740993\n1.5e3\n", (),
     "column 'n': '9007199254740993' in line 2 is no double: the nearest is 9007199254740992: use "
     "--digits n=0, or --text n"),
    ("a large number that is no double", "n\n123456789012345678901\n1.5e-3\n", (),
     "is no double: the nearest is 123456789012345683968: use --number n, which rounds it, or "
     "--text n"),
    ("another separator than commas in texts", "a^b^c\n1^x, y^2\n3^z^4\n", (),
     "the separator may be '^' (3 fields) or ',' (1 field): use --separator '^', or --separator "
     "comma"),
    ("a wrong weekday", 't\n"Wed, 01 May 2024"\n"Wed, 02 May 2024"\n"Sat, 03 Feb 2024"\n', (),
     "column 't': 'Wed, 02 May 2024' in line 3 isn't a date, as 2 of 3 fields are: use --null "
     "'t=Wed, 02 May 2024', or --text t"),
    ("versions or dates", "v\n1.10.12\n2.4.10\n3.1.15\n", (),
     "column 'v': '1.10.12' in line 2 may be a date or a version: use --date v=%d.%m.%y, or "
     "--text v"),
    ("a decimal comma in another column", 'a,b\n23.110,"1,5"\n1.250,"2,5"\n', (),
     "has a comma, which separates the fields"),
    ("a comma between thousands or before decimals", "a;b\n1,000;x\n23,110;y\n", (),
     "column 'a': '1,000' in line 2 may be 1000 or 1.000: use --thousands ',', or --number a, or "
     "--text a"),
]

# columns that are texts, and what the report says they look like
LOOK = [
    ("months in German", "dates", ["1. Mai 2024", "2. Juni 2024", "13. März 2024"]),
    ("months in French", "dates", ["1er mai 2024", "2 juin 2024", "14 févr. 2024"]),
    ("months in Spanish", "dates", ["1 de mayo de 2024", "2 de enero de 2024"]),
    ("months and years", "dates", ["May 2024", "Jan 2023", "Sep 2022"]),
    ("months by number", "dates", ["05/2024", "11/2023"]),
    ("quarters", "dates", ["Q1 2024", "Q3 2023"]),
    ("a zone by name", "dates", ["2024-05-01 10:00 CEST", "2024-11-01 10:00 CET"]),
    ("sizes", "numbers with units", ["10K", "5M", "1.5G"]),
    ("sizes of one length", "numbers with units", ["10K", "50M", "15G"]),
    ("dashes for minus", "numbers with units", ["–5.25", "12.5", "−3"]),
    ("bounds", "numbers with units", ["<5", "12", ">= 100"]),
    ("millions", "numbers with units", ["1.5 million", "300 thousand", "2 billion"]),
    ("halves of the day with points", "times of day", ["9:30 a.m.", "10:15 p.m.", "12 a.m."]),
    ("times of day in German", "times of day", ["9.30 Uhr", "14 Uhr"]),
    ("times of day in French", "times of day", ["9h30", "14h05"]),
    ("addresses", "versions or addresses", ["10.0.0.1", "9.12.0.3", "10.0.0.10"]),
    ("versions", "versions or addresses", ["1.10.2", "1.9.3", "2.0.0"]),
    ("versions of one length", "", ["1.0.2", "1.9.3", "2.0.0"]),
    ("an unknown unit", "numbers with units", ["5 Lek", "12 Lek"]),
    ("more than a day", "lengths of time", ["25:10", "100:30"]),
    ("minutes and parts", "lengths of time", ["0:45.25", "61:30.5", "10:30.5"]),
    ("lengths in words", "lengths of time", ["1h 30m", "2h", "45 min"]),
    ("lengths of ISO 8601", "lengths of time", ["PT1H30M", "P3D"]),
    ("words", "", ["May I", "no 12 monkeys", "Boeing 747", "Area 51"]),
    ("seats", "", ["12A", "14C", "09F"]),
]


class Looks(unittest.TestCase):
    def test_what_texts_look_like(self):
        for name, wanted, texts in LOOK:
            with self.subTest(name):
                found = Import("".join(f"{text}\n" for text in ["t", *texts]), "--separator", "tab")
                self.assertEqual((found.refusal, found.kinds, found.rows), ("", ["texts"], texts))
                self.assertEqual(found.columns[0].looks_like, wanted)
                self.assertEqual("so not ordered, unless by --text t" in found.report,
                                 bool(wanted))

    def test_by_name_they_are_texts(self):
        found = Import("t\n10K\n5M\n1.5G\n", "--text", "t")
        self.assertEqual((found.kinds, found.columns[0].looks_like), (["texts"], ""))


# the separator of each file
SEPARATORS = [
    ("a;b,c;d\n1;2;3\n", ";"), ("a,b;c\n1,2\n3,4\n", ","), ("a;b\n1,5;2,5\n", ";"),
    ("a\tb, c\nx, y\t2\nz\t3\n", "\t"), ('a,"b;c;d"\n1,2\n', ","),
    ("name\nJohn Smith\nMary Jones\n", ","),
    ("url\nhttp://a\nhttp://b\n", ","), ("t\nx; y\nz\nw\n", ","),
]

# each file with the options, and what the refusal says
TIES = [
    ("a tie", "a,b;c\n1,2;3\n", (),
     "the separator may be ',' (2 fields) or ';' (2 fields): use --separator comma, or --separator "
     "semicolon"),
    ("a tie of a heading", "a,b,c;d\n", (), "the separator may be ',' (3 fields) or ';'"),
    ("a heading with more of another", "size (a, b, c);n\n1;2\n", (),
     "the separator may be ';' (2 fields) or ',' (3 fields): use --separator semicolon, or "
     "--separator comma"),
    ("a heading with another", "a,b,c\n1;2;3\n4;5;6\n", (),
     "the separator may be ';' (3 fields) or ',' (3 fields)"),
    ("a title above semicolons", "Sales\na;b\n1;2\n", (),
     "lines 2 and 3 have 2 and 2 fields, and the heading has 1: --skip 1 skips the line above the "
     "heading, if that is a title"),
    ("comments above bars", "# a, b, c\n# d, e, f\na|b\n1|2\n", (),
     "--comment '#' skips lines that begin so"),
    ("a title above tabs", "Sales, in all\na\tb\tc\n1\t2\t3\n", (), "--skip 1 skips the line"),
    ("a table of blanks", "a b c\n1  2 3\n1 22 3\n", (),
     "column 'a b c': all its rows have 2 ' ', which may separate fields: use --separator space, "
     "or --text 'a b c'"),
    ("a line of numbers", "1.001 0.994 0.9951\n", (),
     "the only line has 2 ' ', which may separate fields: use --separator space"),
    ("colons", "root:x:0:0\nbin:x:1:1\nsys:y:2:2\n", (),
     "all its rows have 3 ':', which may separate fields: use --separator :, or --text root:x:0:0"),
    ("carets", "a^b\nx^y\nz^w\n", ("--no-heading",), "use --separator '^', or --text c1"),
]

# each file that is refused, with what is said, and for each option that is named for it the rows
NAMED = [
    ("a padded title", "Sales,,\n,,\nid,city,n\n1,Bern,2\n2,Ulm,3\n",
     "the first line has 'Sales' and empty fields: use --skip 2 if it is a title, or --heading",
     {("--skip", "2"): ["1,Bern,2", "2,Ulm,3"]}),
    ("a padded title of two fields", "506,3,,,,\nCRIM,ZN,X,Y,Z,T\n1,2,3,4,5,6\n", "use --skip 1 if",
     {("--skip", "1"): ["1,2,3,4,5,6"]}),
    ("a title above a heading with a separator at its end", 'Clicks\n"a","b",\nx,1\ny,2\n',
     "--skip 1 skips the line above the heading",
     {("--skip", "1", "--fill"): ["x,1,", "y,2,"]}),
    ("a separator at the end of the heading", 'a,b,\nx,1\ny,2\n',
     "lines 2 and 3 have 2 and 2 fields, and the heading has 3: --fill adds empty fields to short "
     "rows",
     {("--fill",): ["x,1,", "y,2,"]}),
    ("a padded title above two columns", "Sales,\nid,n\n1,2\n", "use --skip 1 if it is a title",
     {("--skip", "1"): ["1,2"]}),
    ("a row that is asked about", "6.000;7.5\n1.000;2.5\n",
     "the first line has '6.000' above a column of such fields: use --no-heading if it is a row",
     {("--no-heading", "--number", "c1"): ["6.000,7.5", "1.000,2.5"]}),
    ("a heading like an option", "-x,b\n1,x\n?,y\n3,z\n",
     "use --null='-x=?', or --text=-x",
     {("--null=-x=?",): ["1,x", ",y", "3,z"], ("--text=-x",): ["1,x", "?,y", "3,z"]}),
    ("a heading that ends in a comma", '"a,",b\n1,x\n?,y\n3,z\n',
     "use --null 'a,=?', or --text 'a,'", {("--text", "a,"): ["1,x", "?,y", "3,z"]}),
    ("row names", "a,b\nr1,1,2\nr2,3,4\n",
     "lines 2 and 3 have 3 and 3 fields, and the heading has 2: --row-names reads a first column "
     "that the heading lacks",
     {("--row-names",): ["r1,1,2", "r2,3,4"]}),
    ("separators at the end of rows", "a,b\n1,2,\n3,4,\n",
     "--trailing-separators drops the empty field at the end of rows",
     {("--trailing-separators",): ["1,2", "3,4"]}),
    ("separators at the end of some rows", "a,b\n1,2,\n3,4\n", "--trailing-separators drops",
     {("--trailing-separators",): ["1,2", "3,4"]}),
    ("rows short and long", "a,b\n1,2,5\n3\n",
     "--widen adds columns for long rows, and empty fields to the others",
     {("--widen",): ["1,2,5", "3,,"]}),
    ("a title or one column", "Sales\nid;n\n1;2\n3;4\n",
     "--skip 1 skips the line above the heading, if that is a title; --separator bar reads "
     "each line as one field",
     {("--skip", "1"): ["1,2", "3,4"], ("--separator", "bar"): ["id;n", "1;2", "3;4"]}),
    ("row names or a title", "x\nr1;1\nr2;2\n", "--row-names reads a first column that the heading "
     "lacks; --skip 1 skips the line above the heading, if that is a title",
     {("--row-names",): ["r1,1", "r2,2"]}),
    ("text after a quote", 'a,b\n1,"x"y\n3,z\n',
     "use --lenient, which reads 'xy', or --quote none, which reads '\"x\"y'",
     {("--lenient",): ["1,xy", "3,z"], ("--quote", "none"): ['1,"x"y', "3,z"]}),
    ("a table of blanks and quotes, as of R", '"x" "y"\n"r 1" 3 "a b"\n"r2" 5 "c"\n',
     "use --separator space",
     {("--separator", "space", "--row-names"): ["r 1,3,a b", "r2,5,c"]}),
    ("an escaped quote", 'a,b\n1,"x\\"y"\n3,z\n',
     "use --escape '\\', which reads 'x\"y', or --lenient, which reads",
     {("--escape", "\\"): ['1,x"y', "3,z"]}),
    ("an open quote", 'a,b\n1,"x\n3,z\n',
     "unexpected end of data: use --quote none, which reads '\"x', or --lenient, which reads",
     {("--quote", "none"): ['1,"x', "3,z"]}),
    ("many columns", ",".join(f"k{n}" for n in range(70)) + "\n" + ",".join(map(str, range(70))),
     "70 columns: a table has at most 64: use --columns k0,k1, with the headings to pick",
     {("--columns", "k0,k1"): ["0,1"], ("--columns", "k69", "--columns", "k3,k5"): ["3,5,69"]}),
    ("many columns without a heading", "1," * 69 + "1\n" + "2," * 69 + "2\n", "70 columns",
     {("--no-heading", "--columns", "c2,c70"): ["1,1", "2,2"]}),
    ("many numbers in a line", " -1.5," * 69 + "1\n", "use --no-heading --columns c1,c2, with",
     {("--no-heading", "--columns", "c1,c2"): ["-1.5,-1.5"]}),
    ("a column that isn't there", "a,b,c\n1,2\n", "--fill adds",
     {("--columns", "a,c", "--fill"): ["1,"], ("--columns", "b", "--fill"): ["2"]}),
    ("blanks", "a  b c\n 1 2   x\n3\t4 y \n\n5 6 'u  v'\n", "",
     {("--separator", " ", "--quote", "'"): ["1,2,x", "3,4,y", "5,6,u  v"]}),
]


class Named(unittest.TestCase):
    def test_what_a_refusal_names_loads_the_file(self):
        for name, data, told, options in NAMED:
            with self.subTest(name):
                self.assertIn(told, Import(data).refusal)
                for words, rows in options.items():
                    found = Import(data, *words)
                    self.assertEqual((found.refusal, found.rows), ("", rows))

    def test_columns_are_picked_after_rows_are_counted(self):
        data = "a,b,c\n1,2,3\n4,5\n"
        self.assertIn("line 3 has 2 fields, and the heading has 3: --fill adds",
                      Import(data, "--columns", "a,b").refusal)
        self.assertIn("--columns: no column has the heading 'x'; there are 'a', 'b', 'c'",
                      Import(data, "--columns", "x").refusal)

    def test_lines_are_the_files_own(self):
        data = '\n"x  \n y" b\n\n1 2\n3 "4\n5"\n?  6\n7 8\n9 10\n'
        for more in ("", "a title\nof two lines\n"):
            words = ("--separator", "space", *(("--skip", "2") if more else ()))
            line = 8 + more.count("\n")
            self.assertIn(f"'?' in line {line} isn't a number, as 4 of 5 fields are",
                          Import(more + data, *words).refusal)

    def test_a_mark_after_skipped_lines_is_a_character(self):
        found = Import("title\n\ufeff\nx\n", "--skip", "1")
        self.assertEqual(found.columns[0].heading, "\ufeff")
        self.assertEqual(found.rows, ["x"])

    def test_encodings(self):
        for text, name in (("日本語", "shift_jis"), ("カタカナとひらがな", "shift_jis"),
                           ("中华人民共和国", "gb18030"), ("한국어", "euc_kr"), ("Gäu", "cp1252")):
            with self.subTest(name):
                data = f"a,b\n{text},1\n".encode(name)
                self.assertIn(f"it may be {name}: use --encoding {name}, which reads '{text},1'",
                              Import(data).refusal)
                self.assertEqual(Import(data, "--encoding", name).rows, [f"{text},1"])
        self.assertIn("line 3, byte 2 isn't utf-8",
                      Import(b'a,b\n1,"x"y\nG\xe4u,2\n').refusal)
        data = "a,b\nZürich,1\nBärn,2\n".encode() + b"G\xe4u,3\n"
        self.assertIn("line 4, byte 2 isn't utf-8: it may be utf-8+cp1252: use --encoding "
                      "utf-8+cp1252, which reads 'Gäu,3', or another one", Import(data).refusal)
        self.assertEqual(Import(data, "--encoding", "utf-8+cp1252").rows,
                         ["Zürich,1", "Bärn,2", "Gäu,3"])

    def test_archives(self):
        for names, told in ((["a.csv"], ""), (["a/", "a/b.csv"], ""),
                            (["a.csv", "b.csv"], "is a zip archive of 2 files: pipe one, as unzip "
                             "-p FILE a.csv | bw-import - TABLE.bw"),
                            (["[Content_Types].xml", "b.xml"], "is a spreadsheet: export it")):
            with self.subTest(names):
                out = io.BytesIO()
                with zipfile.ZipFile(out, "w", zipfile.ZIP_DEFLATED) as archive:
                    for name in names:
                        archive.writestr(name, "" if name.endswith("/") else "a,b\n1,x\n")
                data = out.getvalue()
                if told:
                    self.refuse(data, told)
                else:
                    self.assertEqual(Import(data).rows, ["1,x"])
                    self.refuse(data[:-30], "can't be unpacked")
                if names == ["a.csv"]:
                    self.refuse(data[:40] + b"xx" + data[42:], "can't be unpacked")
        out = io.BytesIO()
        with zipfile.ZipFile(out, "w") as archive:
            archive.writestr("a.csv", "a,b\n" + "1,x\n" * 20)
        draw = random.Random(93)
        for _ in range(support.sample(40, 200)):
            data = bytearray(out.getvalue())
            for _ in range(draw.randrange(1, 4)):
                place = draw.choice([draw.randrange(40), draw.randrange(len(data) - 80, len(data))])
                data[place] = draw.randrange(256)
            with contextlib.suppress(Refused):
                source_of(bytes(data))
        self.refuse(b"\x28\xb5\x2f\xfd\x04\x00",
                    "is a zstd file: pipe it, as zstd -dc FILE | bw-import - TABLE.bw")

    def refuse(self, data, told):
        with self.assertRaises(Refused) as refused:
            table_of(data)
        self.assertIn(told, str(refused.exception))


class Foreign(unittest.TestCase):
    """The script for other projects' files types what refusals name."""

    def test_options_are_tried(self):
        for data, wanted in (
                ("a,b\n1,2\n", ()), ("a,b\n1,2,\n", ("--trailing-separators",)),
                ('a\n"1,234"\n', ("--thousands", ",")),
                ('a,b\n1,"x\\"y"\n', ("--escape", "\\")),
                ("a b,c\n1,x\n?,y\n3,soon\n4,z\n", ("--null", "a b=?")),
                ("a,b\n1,2024-01-01\n?,2024-01-02\n3,soon\n4,2024-01-04\n",
                 ("--null", "a=?", "--null", "b=soon")),
                ("x y,b\nx  ,1\nx,2\n", ("--drop-blanks=x y",))):
            with self.subTest(data):
                tried = in_file(data.encode(), lambda path: foreign.attempts(pathlib.Path(path)))
                self.assertEqual((tried[-1].refusal, tried[-1].lost, tried[-1].words),
                                 ("", [], wanted))


class Separators(unittest.TestCase):
    def test_chosen(self):
        for data, wanted in SEPARATORS:
            with self.subTest(data):
                self.assertIn(f"separated by {wanted!r}, in utf-8", Import(data).report)

    def test_refused(self):
        for name, data, words, told in TIES:
            with self.subTest(name):
                self.assertIn(told, Import(data, *words).refusal)

    def test_by_name(self):
        for sign in ("comma", "semicolon"):
            self.assertEqual(Import("a,b;c\n1,2;3\n", "--separator", sign).refusal, "")
        self.assertEqual(Import("x:y\na:b\nc:d\n", "--text", "x:y").rows, ["a:b", "c:d"])
        self.assertEqual(Import("x:y\na:b\nc:d\n", "--separator", "comma").rows, ["a:b", "c:d"])


class Meanings(unittest.TestCase):
    def test_read(self):
        for name, data, words, kinds, rows, told in READ:
            with self.subTest(name):
                found = Import(data, *words)
                self.assertEqual(found.refusal, "")
                self.assertEqual((" ".join(found.kinds), found.rows), (kinds, rows))
                self.assertIn(told, found.report)

    def test_refused(self):
        for name, data, words, told in REFUSED:
            with self.subTest(name):
                self.assertIn(told, Import(data, *words).refusal)


class Drawn(unittest.TestCase):
    """Tables of drawn texts are read as they were written, or refused."""

    def table(self, draw, fields):
        width = draw.randrange(2, 5)
        heading = [f"h{place}{draw.choice(['', ' of x', ' (a, b)', ';c'])}"
                   for place in range(width)]
        count = draw.randrange(6)
        return [heading, *([draw.choice(fields) for _ in heading] for _ in range(count))]

    def imported(self, text, *words):
        return Import(text, "--keep-spelling", "--keep-blanks", "--heading", *words)

    def test_separators(self):
        draw, loaded = random.Random(93), 0
        fields = ["a", "b c", "x;y", "1,5", "p|q", "z: u", 'say "a"', "", "one\ntwo", "t\tu"]
        count = support.sample(30, 150)
        for _ in range(count):
            table = self.table(draw, draw.sample(fields, draw.choice([2, 3, 5])))
            out = io.StringIO()
            csv.writer(out, delimiter=draw.choice(",;\t|"), lineterminator="\n",
                       quoting=draw.choice([csv.QUOTE_ALL, csv.QUOTE_MINIMAL])).writerows(table)
            found = self.imported(out.getvalue())
            if not found.refusal:
                loaded += 1
                self.assertEqual(found.rows, [",".join(row) for row in table[1:]], out.getvalue())
                self.assertEqual([column.heading for column in found.columns], table[0])
            if len(table) > 1:
                self.assertNotEqual(self.imported(f"Sales of 2024\n{out.getvalue()}").refusal, "")
        self.assertGreater(loaded, count // 2)

    def test_runs_of_blanks(self):
        draw = random.Random(94)
        for _ in range(support.sample(20, 80)):
            table = self.table(draw, ["a", "'b  c'", "u,v", "x;y", "''", "'it''s'"])
            table[0] = [f"h{place}" for place in range(len(table[0]))]
            lines = ["".join(draw.choice([" ", "  ", "\t", " \t "]) + field for field in row)
                     for row in table]
            text = "".join(draw.choice([line, line.lstrip()]) + draw.choice(["", " "]) + "\n"
                           for line in lines)
            found = self.imported(text, "--separator", "space", "--quote", "'")
            wanted = [",".join(field.strip("'").replace("''", "'") for field in row)
                      for row in table[1:]]
            self.assertEqual(found.refusal, "", text)
            self.assertEqual(found.rows, wanted, text)

    def test_changed_rows(self):
        draw = random.Random(95)
        for _ in range(support.sample(16, 80)):
            heading, *rows = self.table(draw, ["a", "b c", 'say "a"', "", "one\ntwo", "x,y"])
            ends = [draw.randrange(1, len(heading) + 3) for _ in rows]
            width = max([len(heading), *ends])
            longer = [["x"] * end for end in ends]
            picked = draw.sample(heading, draw.randrange(1, len(heading)))
            places = [place for place, name in enumerate(heading) if name in picked]
            name = io.StringIO()
            csv.writer(name, lineterminator="").writerow(picked)
            for table, words, wanted in (
                    ([heading, *([*row, ""] for row in rows)], ["--trailing-separators"], rows),
                    ([heading, *(["n", *row] for row in rows)], ["--row-names"],
                     [["n", *row] for row in rows]),
                    ([heading, *longer], ["--widen"],
                     [row + [""] * (width - len(row)) for row in longer]),
                    ([heading, *rows], ["--columns", name.getvalue()],
                     [[row[place] for place in places] for row in rows])):
                out = io.StringIO()
                csv.writer(out).writerows(table)
                found = self.imported(out.getvalue(), "--separator", ",", *words)
                self.assertEqual((found.refusal, found.rows),
                                 ("", [",".join(row) for row in wanted]), (words, table))


# fields that may come back in another spelling
FIELDS = ["1", "-0", "+5", "007", "1.50", "2.0", "1.25", "1e5", "1E+3", "1.5e3", "-0.0", "1,5",
          "9007199254740993", "1.000", "1,234.50", "$5", "(12)", "5 %", "NA", "-", "null", "", "  ",
          " 1", "1 ", "x", "y ", "True", "true", "FALSE", "2024-05-01", "01.05.2024", "1.5.24",
          "03/04/2024", "2024-05-01 10:00", "2024-05-01T10:00:00Z", "2024-05-01 10:00 +0200",
          "10:30", "9:05", "1:30 PM", "10:30:15.5", "Wed, 01 May 2024 10:00:00 +0200", "1 May 2024",
          "20240501T103000Z", "0.1234567890123456789", "1e-400", ".5", "5.", "12,34,567", "1'000"]


class Spellings(unittest.TestCase):
    def test_all_are_kept_or_named(self):
        draw, loaded, count = random.Random(93), 0, support.sample(60, 300)
        for _ in range(count):
            kinds = draw.sample(FIELDS, draw.choice([1, 2, 2, 3, 4]))
            fields = draw.choices(kinds, k=draw.randrange(1, 7))
            out = io.StringIO()
            csv.writer(out, "excel-tab").writerows([["a", "b"], *([each, "x"] for each in fields)])
            found = Import(out.getvalue(), "--separator", "tab", "--keep-spelling", "--keep-blanks")
            if found.refusal:
                continue
            loaded += 1
            note = found.report.splitlines()[1]
            for field, row in zip(fields, found.rows):
                if row != f"{field},x":
                    self.assertEqual(row, ",x", fields)
                    self.assertIn(repr(field.strip()), note.partition("can't be kept")[0], fields)
        self.assertGreater(loaded, count // 2)


class Headings(Imported):
    tables = {"t": ("a,,c\n1,x,3\n",), "u": ("\"\"\n1\n", "--heading")}

    def test_an_empty_one_comes_back(self):
        with bwtools.connect(self.folder / "t", self.folder / "u") as connection:
            for sql, wanted in (("SELECT * FROM t", ["a", "", "c"]), ("SELECT * FROM u", [""]),
                                ("SELECT _, c FROM t", ["", "c"]),
                                ("SELECT * FROM t ORDER BY upper(a)", ["a", "", "c"])):
                with self.subTest(sql):
                    found = connection.execute(sql)
                    self.assertEqual([each[0] for each in found.description], wanted)

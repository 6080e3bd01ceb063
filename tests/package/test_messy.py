"""Messy files, and what they must give: never numbers, dates or times that are ordered as texts."""
import unittest

from tests.support import Import, table_of

# each file with the options, the kinds of its columns, its rows as they come back, and a part of
# the report
READ = [
    ("blanks after commas",
     "id, amount, day\n1, 9, 2024-01-01\n2, 10, 2024-02-01\n3,\t11, 2024-03-01\n", (),
     "whole whole dates", ["1,9,2024-01-01", "2,10,2024-02-01", "3,11,2024-03-01"],
     "blanks dropped in 3 fields"),
    ("one blank in one date", "day\n2024-01-01\n2024-02-01 \n2024-03-01\n", (), "dates",
     ["2024-01-01", "2024-02-01", "2024-03-01"], "blanks dropped in 1 field"),
    ("blanks around texts", "city,n\n Bern,1\nUlm ,2\n", (), "texts whole", ["Bern,1", "Ulm,2"],
     "blanks dropped in 2 fields"),
    ("blanks of one column kept", "a,b\nx ,x \nx,y\n", ("--keep-blanks=a",), "texts texts",
     ["x ,x", "x,y"], "blanks dropped in 1 field"),
    ("blanks of all columns but one dropped", "a,b\nx ,x \nx,x\n",
     ("--drop-blanks", "--keep-blanks=b"), "texts texts", ["x,x ", "x,x"],
     "blanks dropped in 1 field"),
    ("blanks around booleans and times",
     "a,b,c\ntrue , 10:00,2024-05-01 10:00 \nfalse,11:30,2024-05-02 11:00\n", (),
     "truths clocks times", ["true,10:00,2024-05-01 10:00", "false,11:30,2024-05-02 11:00"],
     "blanks dropped in 1 field"),
    ("a field of blanks alone", "a,b\n1,x\n  , \n3,y\n", (), "whole texts", ["1,x", ",", "3,y"],
     "1 null as nothing"),
    ("ordinary floats", "density\n9.99e-05\n0.03699\n0.0123456789012345678\n", (), "floats",
     ["9.99e-05", "0.03699", "0.012345678901234568"], "floats"),
    ("zero below zero", "x\n-0.0\n1e-3\n2.5\n", (), "floats", ["0.0", "0.001", "2.5"],
     "-0.0 in 1 field is 0.0"),
    ("far apart with both signs", "x\n1e-300\n-1e10\n1e10\n0\n", (), "ranked",
     ["1e-300", "-10000000000.0", "10000000000.0", "0.0"],
     "floats as places among 4"),
    ("rounded on demand", "x\n1.23456e1\n2.5\n", ("--digits", "x=2"), "decimals",
     ["12.35", "2.50"], "1 field rounded, by at most 0.0044"),
    ("thousands shown by another column", "a;b\n1.000;1.234,00\n12;5,50\n250;7,25\n", (),
     "whole decimals",
     ["1.000,1.234,00", "12,5,50", "250,7,25"], "'.' between thousands"),
    ("two signs between thousands", "a;b\n1.000.000;x\n1.000;y\n250;z\n", (), "whole texts",
     ["1.000.000,x", "1.000,y", "250,z"], "'.' between thousands"),
    ("thousands by name", "a;b\n1.000;x\n250;y\n", ("--thousands", "."), "whole texts",
     ["1.000,x", "250,y"], "between thousands"),
    ("lakhs", 'a,b\n"12,34,567.89","1,00,000"\n"99,999.50",7\n"1,23,456.00","12,345"\n', (),
     "decimals whole", ["12,34,567.89,1,00,000", "99,999.50,7", "1,23,456.00,12,345"],
     "',' between thousands and lakhs"),
    ("lakhs with a currency", 'a\n"₹12,34,567"\n"₹99,999"\n', (), "whole",
     ["₹12,34,567", "₹99,999"], "between thousands and lakhs"),
    ("apostrophes", "a\n1'234'567.50\n12.25\n", (), "decimals", ["1'234'567.50", "12.25"],
     '"\'" between thousands'),
    ("dollars and brackets", "a,b\n$1.50,(12)\n\"$1,234.00\",7\n", (), "decimals whole",
     ["$1.50,(12)", "$1,234.00,7"],
     "brackets for negative"),
    ("units", "a,b,c\n12 EUR,5 %,3 kg\n7 EUR,12 %,20 kg\n", (), "whole whole whole",
     ["12 EUR,5 %,3 kg", "7 EUR,12 %,20 kg"], "'EUR'"),
    ("codes by name", "a\n1E3\n2E4\n7E1\n", ("--text", "a"), "texts", ["1E3", "2E4", "7E1"],
     "by --text"),
    ("codes of one width", "zip,n\n01234,1\n99999,2\n", (), "texts whole", ["01234,1", "99999,2"],
     "leading zeros"),
    ("Namibia among countries", "code,n\nNA,1\nDE,NA\n", (), "texts whole", ["NA,1", "DE,"],
     "'NA' is a text in 1 field, and null by --null code=NA"),
    ("a word for one column", "a,b\n1,n/a\nn/a,x\n", ("--null", "a=n/a"), "whole texts",
     ["1,n/a", ",x"], "1 null as 'n/a'"),
    ("house numbers", "no\n1\n2\n3\n4\n5\n6\n12a\n14b\n3c\n7e\n", (), "texts",
     ["1", "2", "3", "4", "5", "6", "12a", "14b", "3c", "7e"],
     "texts, though 6 of 10 fields look like numbers"),
    ("months by name", "d\n1 May 2024\n12 Dec 2023\n", (), "dates", ["01 May 2024", "12 Dec 2023"],
     "dates %d %b %Y"),
    ("years of two digits", "d\n13/05/24\n14/06/99\n", (), "dates", ["13/05/24", "14/06/99"],
     "dates %d/%m/%y"),
    ("afternoons", "t,at\n1:30 PM,05/13/2024 1:30 PM\n12:05 AM,05/14/2024 12:05 AM\n", (),
     "clocks times",
     ["01:30 PM,05/13/2024 01:30 PM", "12:05 AM,05/14/2024 12:05 AM"], "times of day"),
    ("nanoseconds", "at\n2024-05-01T10:00:00.123456789Z\n2024-05-01T10:00:00.5Z\n", (), "times",
     ["2024-05-01T10:00:00.123456789Z", "2024-05-01T10:00:00.500000000Z"], "nanoseconds"),
    ("ids of twenty digits", "id\n18446744073709551615\n340282366920938463463374607431768211455\n",
     (), "texts",
     ["18446744073709551615", "340282366920938463463374607431768211455"],
     "numbers of more than 64 bits"),
]

# each file with the options, and what the refusal says
REFUSED = [
    ("blanks that make two texts", "a,b\nx ,1\nx,2\n", (),
     "'x ' in line 2 and 'x' in line 3 differ only in blanks: use --drop-blanks=a, or "
     "--keep-blanks=a"),
    ("not a number", "x\n1.5e-3\nNaN\n2.5\n", (),
     "'NaN' in line 3 isn't a number, as 2 of 3 fields are: use --null x=NaN, or --text x"),
    ("infinity", "x\n1.5e-3\n2\n-inf\n", (),
     "'-inf' in line 4 isn't a number, as 2 of 3 fields are: use --null x=-inf, or --text x"),
    ("too large for a double", "x\n1e400\n2.5\n", (),
     "'1e400' in line 2 is too large for a double"),
    ("codes or powers", "a\n1E3\n2E4\n7E1\n", (),
     "'1E3' in line 2 may be a code, or a number with a power of ten: use --number a, or --text a"),
    ("thousands or decimals", "a;b\n1.000;x\n12;y\n250;z\n", (),
     "'1.000' in line 2 may be 1000 or 1.000: use --thousands ., or --number a, or --text a"),
    ("a comma that separates", "a,b\n\"1,5\",2\n", (),
     "'1,5' in line 2 has a comma, which separates the fields: use --number a, or --text a"),
    ("two currencies", "a\n$1.50\n€2.00\n", (),
     "'$1.50' in line 2 and '€2.00' in line 3 are numbers with different signs: use --text a"),
    ("thousands and lakhs", 'a\n"12,34,567"\n"1,234"\n"1,234,567"\n', (),
     "'12,34,567' in line 2 and '1,234,567' in line 4 are numbers with different signs: use "
     "--text a"),
    ("two decimal signs", "a;b\n1.5;1\n2,5;2\n", (),
     "'1.5' in line 2 and '2,5' in line 3 are numbers with different signs: use --text a"),
    ("one n/a in forty rows", "a\n" + "".join(f"{number}\n" for number in range(39)) + "n/a\n", (),
     "'n/a' in line 41 isn't a number, as 39 of 40 fields are: use --null a=n/a, or --text a"),
    ("a word more frequent than the numbers", "a\n1\n2\n3\n" + "none\n" * 9, (),
     "'none' in line 5 isn't a number, as 3 of 12 fields are"),
    ("two columns at once", "a,b\n1,2024-01-01\n?,2024-01-02\n3,soon\n4,2024-01-04\n", (),
     "2 columns can't be decided:\n  column 'a': '?' in line 3 isn't a number, as 3 of 4 fields "
     "are: use --null 'a=?', or --text a\n"
     "  column 'b': 'soon' in line 4 isn't a date, as 3 of 4 fields are: use --null b=soon, or "
     "--text b"),
    ("no such day", "d\n2024-02-28\n2024-02-30\n2024-02-29\n", (),
     "'2024-02-30' in line 3 isn't a date: use --null d=2024-02-30, or --text d"),
    ("day or month", "d\n03/04/2024\n05/06/2024\n", (),
     "'03/04/2024' in line 2 may be read in two ways: use --date d=%d/%m/%Y, or --date d=%m/%d/%Y, "
     "or --text d"),
    ("some with a zone", "t\n2024-05-01T10:00\n2024-05-01T10:00Z\n", (),
     "'2024-05-01T10:00' in line 2 and '2024-05-01T10:00Z' in line 3 are of different forms: use "
     "--text t"),
    ("dates of two formats", "d\n13.5.2024\n2024-05-01\n", (),
     "'13.5.2024' in line 2 and '2024-05-01' in line 3 are dates of different forms: use --text d"),
    ("not as --number states", "a\n1\nx\n", ("--number", "a"),
     "'x' in line 3 isn't a number, as --number states: use --null a=x"),
    ("blanks both kept and dropped", "a\n1\n", ("--keep-blanks=a", "--drop-blanks=a"),
     "give one of --keep-blanks and --drop-blanks for it"),
    ("no column to keep blanks of", "a\n1\n", ("--keep-blanks=b",),
     "no column has the heading 'b'; there are 'a'"),
    ("no column of the option", "a\n1\n", ("--null", "b=x"), "no column has the heading 'b'"),
]


class Messy(unittest.TestCase):
    def test_read(self):
        for name, data, words, kinds, rows, told in READ:
            with self.subTest(name):
                found = Import(data, *words)
                self.assertEqual(found.refusal, "")
                self.assertEqual((" ".join(found.kinds), found.rows), (kinds, rows))
                self.assertIn(told, found.report)

    def test_refused(self):
        for name, data, words, told in REFUSED:
            with self.subTest(name):
                found = Import(data, *words)
                self.assertEqual(found.refusal[:len(told)] if told.startswith(("column", "2 "))
                                 else told in found.refusal and told,
                                 told, found.refusal)

    def test_the_greatest_is_the_numbers(self):
        self.assertEqual(Import("id, amount\n1, 9\n2, 10\n3, 11\n").greatest(1), "11")
        self.assertEqual(Import("density\n9.99e-05\n0.03699\n1e-20\n").greatest(0), "0.03699")
        self.assertEqual(Import("a;b\n1.000;1.234,00\n12;5,5\n250;7,0\n").greatest(0), "1.000")

    def test_formats(self):
        for form, field in (("%d %B %y", "01 May 24"),
                            ("%b %d %Y %I:%M %p", "May 01 2024 01:30 PM"),
                            ("%Y%m%d", "20240501"), ("%I %p", "07 AM")):
            with self.subTest(form):
                self.assertEqual(Import(f"a\n{field}\n", "--date", f"a={form}").rows, [field])
        for form in ("%d", "%y-%m", "%H:%M %p", "%Y-%m-%d %I:%M", "%Q", "%H:%M:%f", "%f", "%z",
                     "%Y-%m-%d%z", "%H:%M%z", "%z %Y-%m-%d %H:%M", "%H:%M %Y-%m-%d %z",
                     "%Y-%m-%d %H:%M:%S.%%f%z%z"):
            with self.subTest(form):
                self.assertIn("is not a valid format",
                              Import("a\n1\n", "--date", f"a={form}").refusal)

    def test_parts_of_seconds(self):
        for form, fields, wanted in (
                ("%d/%m/%Y %H:%M:%S.%f", "01/05/2024 10:00:00.50", "01/05/2024 10:00:00.50"),
                ("%d/%m/%Y %H:%M:%S.%f", "01/05/2024 10:00:00.5\n02/05/2024 10:00:00",
                 "01/05/2024 10:00:00.5\n02/05/2024 10:00:00.0"),
                ("%Y%m%d %H%M%S.%f", "20240501 100000.123456789", "20240501 100000.123456789"),
                ("%Y%m%d %H%M%S,%f", "20240501 100000,25", "20240501 100000.25"),
                ("%d/%m/%Y %I:%M:%S.%f %p", "01/05/2024 10:00:00.25 PM",
                 "01/05/2024 10:00:00.25 PM"),
                ("%H%M%S.%f", "100000.25\n235959.5", "100000.25\n235959.50")):
            with self.subTest(form):
                rows = "".join(f'"{field}"\n' for field in fields.split("\n"))
                found = Import(f"a\n{rows}", "--date", f"a={form}")
                self.assertEqual((found.refusal, "\n".join(found.rows)), ("", wanted))
        for form, field in (("%d/%m/%Y %H:%M:%S", "01/05/2024 10:00:00.50"),
                            ("%d/%m/%Y %H:%M:%S.%f", "01/05/2024 10:00:00.1234567891"),
                            ("%Y%m%d %H%M", "20240501 1000.5"), ("%H%M%S", "100000.25")):
            with self.subTest(form):
                self.assertIn("as --date states",
                              Import(f"a\n{field}\n", "--date", f"a={form}").refusal)
        many = "01/01/1000 10:00:00.123456789\n01/01/3000 10:00:00.1\n"
        self.assertIn("too many digits for 64 bits", Import(
            f"a\n{many}", "--date", "a=%d/%m/%Y %H:%M:%S.%f").refusal)

    def test_zones(self):
        for form, fields, wanted in (
                ("%d/%m/%Y %H:%M %z", "01/05/2024 10:00 +0200", "01/05/2024 08:00Z"),
                ("%d/%m/%Y %H:%M%z", "01/05/2024 10:00+02:00\n01/05/2024 23:30-01\n"
                 "01/05/2024 10:00Z", "01/05/2024 08:00Z\n02/05/2024 00:30Z\n01/05/2024 10:00Z"),
                ("%Y%m%d%H%M%S.%f%z", "20240501100000.25+0530", "20240501043000.25Z"),
                ("%d %b %Y %I:%M %p %z", "01 May 2024 10:00 PM -0500", "02 May 2024 03:00 AMZ")):
            with self.subTest(form):
                found = Import(f"a\n{fields}\n", "--date", f"a={form}")
                self.assertEqual((found.refusal, "\n".join(found.rows)), ("", wanted))
                self.assertIn("of UTC", found.report)
                # what is printed can be asked for
                kind = found.columns[0].kind
                for row, number in zip(found.rows, found.numbers[0]):
                    self.assertEqual((kind.number(row), kind.place(row)), (number, (number, True)))
        for form, field in (("%d/%m/%Y %H:%M %z", "01/05/2024 10:00"),
                            ("%d/%m/%Y %H:%M", "01/05/2024 10:00+02:00"),
                            ("%d/%m/%Y %H:%M %z", "01/05/2024 10:00 +24:00"),
                            ("%d/%m/%Y %H:%M %z", "01/01/0001 10:00 +20:00")):
            with self.subTest(field):
                self.assertIn("as --date states",
                              Import(f"a\n{field}\n", "--date", f"a={form}").refusal)

    def test_no_rows(self):
        found = Import("a,b\n")
        self.assertEqual((found.kinds, found.rows), (["nulls", "nulls"], []))

    def test_options_contradict(self):
        for words in (("--text", "a", "--number", "a"), ("--number", "a", "--date", "a=%Y"),
                      ("--digits", "a=2", "--text", "a")):
            with self.subTest(words):
                self.assertIn("give one of --text", Import("a\n1\n", *words).refusal)

    def test_texts_like_numbers_have_no_order(self):
        for data, wanted in (("no\n1\n2\n3\n4\n5\n6\n12a\n14b\n3c\n7e\n", "numbers"),
                             ("a\n007\n10\n", "numbers"), ("a\n007\n010\n", ""),
                             ("a\nx\ny\n", ""), ("id\n18446744073709551615\n", "numbers")):
            with self.subTest(data):
                self.assertEqual(Import(data).columns[0].looks_like, wanted)

    def test_numbers_among_many_texts(self):
        """So many texts that only some of them are looked at first: the fields count too."""
        words = [f"w{place}" for place in range(17_000)]
        for name, numbers, wanted in (("none", [], ""), ("few", range(7_000), ""),
                                      ("one that is in most fields", [0] * 20_000, "numbers"),
                                      ("most texts", range(20_000), "numbers")):
            with self.subTest(name):
                data = "\n".join(["a", *words, *map(str, numbers)]) + "\n"
                self.assertEqual(table_of(data.encode()).columns[0].looks_like, wanted)

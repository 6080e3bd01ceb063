"""bw-import and bw-ask over data of Debian's packages, beside sqlite3: ieee-data, tor-geoipdb,
unicode-data, tzdata, distro-info-data, and the data sets of R (r-base-core), those that are
installed.

Each file is imported as a user would, and asked drawn statements in both ways. sqlite3 gets the
same data as Python reads it. A few lines of rules choose the kind of each column here once more,
which is compared with import's choice. It is a sample: few tables, the first rows of each, and few
statements. With ./check --whole, it is all rows of all tables, and a hundred statements for each,
in some minutes; with SHARDS=1 the files are loaded as three shards."""
import collections
import contextlib
import csv
import datetime
import decimal
import itertools
import math
import os
import pathlib
import random
import re
import shutil
import sqlite3
import subprocess

from bwtools._errors import Refused

from tests import drawn, reference, support

IS_WHOLE, HAS_SHARDS = (bool(os.environ.get(name)) for name in ("WHOLE", "SHARDS"))
NULLS = ("NULL", "null", "NA", "N/A", "-")
NUMBER = re.compile(r"[+-]?(?:[0-9]+(?:\.[0-9]*)?|\.[0-9]+)(?:[eE][+-]?[0-9]{1,3})?")
ZEROS = re.compile(r"[+-]?0[0-9]")
MOST = (1 << 63) - 1
# the tables of a sample, and how many rows of each
FEW, FEW_ROWS = ["R/airquality", "R/attenu", "unicode-data/DerivedNumericValues", "ieee-data/iab",
                 "distro-info-data/ubuntu", "tor-geoipdb/geoip", "tor-geoipdb/derived",
                 "tzdata/zone1970"], 400

# A data set: its name, its package, its file, the function that reads its rows, and whether the
# first row is a heading.
Dataset = collections.namedtuple("Dataset", "name package path read has_heading")


def read_csv(path):
    with open(path, encoding="utf-8", newline="") as file:
        return [row for row in csv.reader(file) if row]


def read_ragged(path):
    """Returns the rows of a file whose last fields may be missing."""
    rows = read_csv(path)
    return [row + [""] * (len(rows[0]) - len(row)) for row in rows]


def read_semicolons(path):
    with open(path, encoding="utf-8", newline="") as file:
        return [line.rstrip("\n").split(";") for line in file]


def read_properties(path):
    """Returns the rows of a file of character properties, without comments. The first field is a
    character or a range of them."""
    rows = []
    for line in pathlib.Path(path).read_text(encoding="utf-8").splitlines():
        fields = [field.strip() for field in line.partition("#")[0].split(";")]
        if len(fields) > 1:
            first, _, last = fields[0].partition("..")
            rows.append([first, last or first, *fields[1:]])
    return rows


def read_plain(path):
    """Returns the rows of a file with comments, for a sample those of its first lines."""
    separator = "\t" if path.suffix == ".tab" else ","
    with open(path, encoding="utf-8") as file:
        lines = [line.rstrip("\n") for line in itertools.islice(file, None if IS_WHOLE else 1000)]
    rows = [line.split(separator) for line in lines if line and not line.startswith("#")]
    width = max(map(len, rows))
    return [row + [""] * (width - len(row)) for row in rows]


def read_derived(path):
    """Returns ranges of addresses with what is derived of them, as floats: a share, a logarithm
    in millionths, and a deviation."""
    ranges = [tuple(map(int, row[:2])) for row in read_plain(path) if row[0].isdigit()]
    sizes = [last - first + 1 for first, last in ranges]
    mean = sum(sizes) / len(sizes)
    return [["first", "share", "log", "deviation"],
            *([str(first), repr(size / last), repr(math.log10(size / first) / 1e6),
               repr((size - mean) / mean if size % 5 else 0.0)]
              for (first, last), size in zip(ranges, sizes))]


UNICODE, TZ = "/usr/share/unicode", "/usr/share/zoneinfo"
FILES = [
    *((f"ieee-data/{name}", "ieee-data", f"/usr/share/ieee-data/{name}.csv", read_csv, True)
      for name in ("mam", "oui36", "iab", "oui")),
    ("unicode-data/UnicodeData", "unicode-data", f"{UNICODE}/UnicodeData.txt", read_semicolons,
     False),
    *((f"unicode-data/{name.split('/')[-1]}", "unicode-data", f"{UNICODE}/{name}.txt",
       read_properties, False)
      for name in ("extracted/DerivedNumericValues", "extracted/DerivedCombiningClass",
                   "DerivedAge", "NameAliases", "Scripts",
                   "EastAsianWidth")),
    *((f"tor-geoipdb/{name}", "tor-geoipdb", f"/usr/share/tor/{name}", read_plain, False)
      for name in ("geoip", "geoip6")),
    ("tor-geoipdb/derived", "tor-geoipdb", "/usr/share/tor/geoip", read_derived, True),
    *((f"distro-info-data/{name}", "distro-info-data", f"/usr/share/distro-info/{name}.csv",
       read_ragged, True)
      for name in ("debian", "ubuntu")),
    *((f"tzdata/{name}", "tzdata", f"{TZ}/{name}.tab", read_plain, False)
      for name in ("zone1970", "iso3166")),
]
OF_R = ["airquality", "mtcars", "iris", "quakes", "esoph", "infert", "attenu", "longley", "CO2",
        "ChickWeight", "USArrests",
        "sleep", "LifeCycleSavings", "swiss", "warpbreaks", "stackloss", "rock", "ToothGrowth",
        "chickwts", "anscombe"]
EXPORT = """
name <- commandArgs(TRUE)[1]
x <- as.data.frame(get(name, "package:datasets"))
if (name == "airquality") x$Date <- as.Date(sprintf("1973-%02d-%02d", x$Month, x$Day))
if (name == "attenu") x$far <- x$dist > 50
write.csv(x, row.names = is.character(attr(x, "row.names")))
"""


def read_r(name):
    """Returns the rows of a data set of R."""
    done = subprocess.run(["Rscript", "-e", EXPORT, name], check=True, stdin=subprocess.DEVNULL,
                          stdout=subprocess.PIPE, text=True)
    return list(csv.reader(done.stdout.splitlines()))


def date_of(text):
    try:
        is_iso = re.fullmatch("[0-9]{4}-[0-9]{2}-[0-9]{2}", text)
        return datetime.date.fromisoformat(text) if is_iso else None
    except ValueError:
        return None


class Known(drawn.Column):
    """A column of a data set, whose kind is found by a second implementation of the rules: all its
    fields that aren't null are numbers, dates or booleans, or else it is one of texts."""

    def __init__(self, heading, fields):
        self.heading, self.digits = heading, 0
        # import calls a column without a heading so, as R's of the names of rows
        self.name = '"' + heading.replace('"', '""') + '"' if heading else "_"
        fields = [field.strip(" \t") for field in fields]
        present = {field for field in fields if field and field not in NULLS}
        self.kind, values = self.kind_of(present)
        if self.kind == "texts":
            values = {field: field for field in fields if field}
        self.values = [values.get(field) for field in fields]
        self.type = {"whole": "INTEGER", "truths": "INTEGER", "nulls": "INTEGER",
                     "decimals": "REAL", "floats": "REAL"}.get(self.kind, "TEXT")
        self.known = list(dict.fromkeys(value for value in self.values if value is not None))

    def kind_of(self, present):
        """Returns the kind of a column of these fields, and the value of each."""
        if not present:
            return "nulls", {}
        if all(NUMBER.fullmatch(field) and not ZEROS.match(field) for field in present):
            numbers = {field: decimal.Decimal(field) for field in present}
            self.digits = max(max(0, -number.as_tuple().exponent) for number in numbers.values())
            is_small = all(abs(number.scaleb(self.digits)) <= MOST // 2
                           for number in numbers.values())
            has_exponent = any("e" in field.lower() for field in present)
            if self.digits <= 18 and is_small and not has_exponent:
                if not self.digits:
                    return "whole", {field: int(number) for field, number in numbers.items()}
                return "decimals", {field: float(number) for field, number in numbers.items()}
            if self.digits:
                return "floats", {field: float(field) for field in present}
        if all(map(date_of, present)):
            return "dates", {field: field for field in present}
        for words in (("false", "true"), ("False", "True"), ("FALSE", "TRUE")):
            if present <= set(words):
                return "truths", {field: words.index(field) for field in present}
        return "texts", {}


class Table:
    """A table of a data set, as `drawn` has tables: the last column, id, has the numbers of the
    rows."""

    def __init__(self, dataset):
        rows = dataset.read(dataset.path)
        headings, rows = (rows[0], rows[1:]) if dataset.has_heading \
            else ([f"c{place + 1}" for place in range(len(rows[0]))], rows)
        headings = [f"{each} of it" if each.lower() == "id" else each for each in headings]
        self.name, self.records = "t", [[*headings, "id"]]
        self.records += [[*row, str(number)]
                         for number, row in enumerate(rows if IS_WHOLE else rows[:FEW_ROWS], 1)]
        self.all = [Known(heading, fields) for heading, *fields in zip(*self.records)]
        # a column of nulls can be compared with nothing
        self.columns = [column for column in self.all if column.kind != "nulls"]


def kept(path, what):
    """Returns what the columns file of a table says of each column."""
    name = path / "shards.columns" if HAS_SHARDS else path.with_name("t.columns")
    with contextlib.closing(sqlite3.connect(f"file:{name}?mode=ro&immutable=1", uri=True)) as base:
        return [row[0] for row in base.execute(f"SELECT {what} FROM columns ORDER BY place")]


class Datasets(reference.Asked):
    """A test of each data set."""

    def check(self, dataset):
        if not (shutil.which("Rscript") if dataset.read is read_r else dataset.path.exists()):
            self.skipTest(f"data sets: install {dataset.package}")
        table, folder = Table(dataset), self.new_folder()
        words = ["--shards", "3"] if HAS_SHARDS else []
        data, path = reference.csv_of(table.records), folder / "t"
        try:
            support.imported(path, data, *words)
        except Refused as refused:
            # texts differ only in blanks, which the values here don't have
            words += re.findall(r"(--drop-blanks=[^\n]*?)'?, or ", str(refused))
            support.imported(path, data, *words)
        doubted = [column for column, is_doubted in zip(table.all, kept(path, "looks_like <> ''"))
                   if is_doubted]
        # a column that only looks like numbers has an order if it is one of texts by option
        words += [word for each in doubted for word in ("--text", each.heading)]
        if doubted:
            shutil.rmtree(path, ignore_errors=True)
        self.set_up(path, data, table, *words)
        self.assertEqual(kept(path, "kind"), [column.kind for column in table.all])
        served = 0
        for number in range(100 if IS_WHOLE else 10):
            chance = random.Random(f"{dataset.name} {number}")
            sql, instead = drawn.Statements(table, chance, number % 3 > 0).statement()
            with self.subTest(sql):
                served += self.ask(sql, instead)
        self.assertGreater(served, 5)


def add_tests():
    """Makes a test of each data set."""
    found = [Dataset(name, package, pathlib.Path(path), *how)
             for name, package, path, *how in FILES]
    found += [Dataset(f"R/{name}", "r-base-core", pathlib.Path(name), read_r, True)
              for name in OF_R]
    for each in found:
        if IS_WHOLE or each.name in FEW:
            setattr(Datasets, f"test_{support.slug(each.name)}",
                    lambda self, dataset=each: self.check(dataset))


add_tests()

"""Questions over real tables, asked in each way that serves them, and of sqlite3 over the same
values."""
import csv
import datetime
import io
import random
import re
import sqlite3

import bwtools
from bwtools._sql import plan
from bwtools._sql.plan import Statement

from tests import reference, support
from tests.support import ROOT, Imported

HERE = ROOT / "tests" / "questions"
STORMS = ROOT / "examples" / "storms.csv"
# what each column is to SQLite, by hand: its type, and how its fields are read
INTEGER, REAL, TEXT = ("INTEGER", int), ("REAL", float), ("TEXT", str)
TRUTH = ("INTEGER", {"false": 0, "true": 1}.__getitem__)
GERMAN = ("TEXT", lambda field: datetime.datetime.strptime(field, "%d.%m.%Y").date().isoformat())
TIME = ("TEXT", lambda field: field.replace("T", " "))
CLOCK = ("TEXT", lambda field: f"{field}:00")
COLUMNS = {
    "storms": [(name, INTEGER) for name in STORMS.read_text().partition("\n")[0].split(",")],
    "zones": [("codes", TEXT), ("latitude", REAL), ("longitude", REAL), ("zone", TEXT),
              ("comments", TEXT)],
    "countries": [("code", TEXT), ("name", TEXT)],
    "releases": [("distribution", TEXT), ("version", TEXT), ("codename", TEXT), ("series", TEXT),
                 ("created", TEXT),
                 ("release", TEXT), ("end_of_life", TEXT), ("lts", TRUTH)],
    "visits": [("id", INTEGER), ("place", TEXT), ("day", GERMAN), ("arrived", TIME),
               ("open_at", CLOCK), ("fee", REAL),
               ("rate", REAL), ("score", REAL), ("member", TRUTH), ("guests", INTEGER),
               ("code", TEXT)]}
OPTIONS = {"releases": ["--text", "version"], "visits": ["--text", "code", "--date",
                                                         "day=%d.%m.%Y"]}
PLACES = ["Café \"Zur Post\"", "Bar, Grill", "two\nlines", "Ångström", "O'Neil", "straße", "Zoo",
          "zoo", "in  between", "100%", "a_b",
          "日本", "x"]


def visits():
    """Returns the CSV of drawn visits."""
    drawn = random.Random(77)
    rows = []
    for number in range(1, 701):
        day = datetime.date(2023, 1, 1) + datetime.timedelta(drawn.randrange(500))
        second = drawn.randrange(86400)
        row = [drawn.choice(PLACES), f"{day:%d.%m.%Y}",
               f"{day}T{second // 3600:02}:{second // 60 % 60:02}:{second % 60:02}",
               f"{drawn.randrange(7, 12):02}:{drawn.choice((0, 15, 30)):02}",
               f"{drawn.randrange(-500, 20000) / 100:.2f}",
               f"{drawn.randrange(3000) / 1000:.3f}",
               repr(drawn.choice([1e-7, 0.1, 2.5, 1e12, -3.75, drawn.random()])),
               drawn.choice(["true", "false"]), drawn.randrange(-2, 9), f"{drawn.randrange(40):03}"]
        rows.append([number, *("" if drawn.random() < 0.1 else field for field in row)])
    out = io.StringIO()
    csv.writer(out, lineterminator="\n").writerows([[name for name, _ in COLUMNS["visits"]], *rows])
    return out.getvalue()


def contents():
    """Returns the CSV of each table."""
    found = {name: (HERE / f"{name}.csv").read_text(encoding="utf-8")
             for name in ("zones", "countries", "releases")}
    return {"storms": STORMS.read_text(), "visits": visits(), **found}


def reference_of(tables):
    """Returns sqlite3 with these tables, which are made of their CSV without the package."""
    found = reference.Reference()
    for name, data in tables.items():
        rows = list(csv.reader(io.StringIO(data, newline="")))[1:]
        found.add(name, [(column, kind[0]) for column, kind in COLUMNS[name]],
                  [[None if field == "" else kind[1](field)
                    for field, (_, kind) in zip(row, COLUMNS[name])] for row in rows])
    return found


def questions():
    """Returns the questions of all files: where each is, what is asked, and what sqlite3 is
    asked."""
    found = []
    for path in sorted(HERE.glob("*.sql")):
        line = 1
        for paragraph in re.split(r"(\n{2,})", path.read_text(encoding="utf-8")):
            if paragraph.strip() and not is_newer(paragraph):
                instead = re.match("-- sqlite: (.*)\n", paragraph)
                asked = paragraph[instead.end():] if instead else paragraph
                found.append((f"{path.name}:{line}", asked, instead[1] if instead else asked))
            line += paragraph.count("\n")
    return found


def is_newer(asked):
    """Returns whether SQLite reads a question from version 3.39 on alone: one with rows in a list,
    or with HAVING without GROUP BY."""
    return sqlite3.sqlite_version_info < (3, 39) and (
        ") IN ((" in asked or "HAVING" in asked and "GROUP BY" not in asked)


class Questions(Imported, reference.Compared):
    tables = {f"{name}.bw": (data, *OPTIONS.get(name, [])) for name, data in contents().items()}

    @classmethod
    def setUpClass(cls):
        super().setUpClass()
        cls.connection = bwtools.connect(*(cls.folder / name for name in cls.tables))
        cls.addClassCleanup(cls.connection.close)
        plain = {name.removesuffix(".bw"): words[0] for name, words in cls.tables.items()}
        cls.reference = reference_of(plain)
        cls.addClassCleanup(cls.reference.close)

    def by(self, way, asked):
        """Returns the rows of an answer by one of the ways, or None if it doesn't serve it."""
        statement = Statement(asked, self.connection._database.catalog)
        if way == 1:
            answer = plan.answer(statement, self.connection._database.engine)
        else:
            answer = self.connection._database.by_sqlite.answer(statement)
        return answer and list(answer.rows())

    def test_each_way_has_the_rows_of_sqlite(self):
        """Columns that were listed for one question serve the others, and the same one. Of those
        that aren't in the sample, only the way that is taken is compared."""
        counts, found = {1: 0, 2: 0}, questions()
        drawn = {place for place, *_ in support.sample_of(found, len(found) // 3, 77)}
        for place, asked, instead in found:
            wanted = self.reference.rows(instead)
            for way in counts if place in drawn else ():
                with self.subTest(place, way=way, asked=asked):
                    rows = self.by(way, asked)
                    if rows is not None:
                        counts[way] += 1
                        self.compare(rows, wanted)
            with self.subTest(place, asked=asked):
                self.compare(list(self.connection._database.answer(asked).rows()), wanted)
        self.assertGreaterEqual(counts[1], len(drawn) // 2)
        self.assertEqual(counts[2], len(drawn))

    def test_fields_of_plain_columns_are_those_of_the_file(self):
        for name, (data, *_) in self.tables.items():
            with self.subTest(name):
                records = list(csv.reader(io.StringIO(data, newline="")))
                for way in (1, 2):
                    statement = Statement(f"SELECT * FROM {name.removesuffix('.bw')}",
                                          self.connection._database.catalog)
                    database = self.connection._database
                    answer = plan.answer(statement, database.engine) if way == 1 else \
                        database.by_sqlite.answer(statement)
                    self.assertEqual(answer.headings, records[0])
                    rows = [list(row) for block in answer.fields() for row in zip(*block)]
                    self.assertEqual([self.same_doubles(name, row) for row in rows],
                                     [self.same_doubles(name, row) for row in records[1:]])

    def same_doubles(self, name, row):
        """Returns the fields of a row with floats in one spelling."""
        place = 7 if name == "visits.bw" else None
        return [repr(float(field)) if at == place and field else field for at,
                field in enumerate(row)]

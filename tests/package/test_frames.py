"""Answers as data frames of pandas and as masked arrays of numpy."""
import datetime
import decimal
import importlib
import importlib.util
import math
import unittest
import warnings
from typing import Any
from unittest import mock

import bwtools

from tests.support import Imported

HAS_NUMPY, HAS_PANDAS = (importlib.util.find_spec(name) is not None for name in ("numpy", "pandas"))
KINDS = """id,city,cents,day,when,clock,flag,ratio,far,nothing
1,Boston,12.50,2024-02-01,2024-02-01T12:30:00.5Z,08:30,true,0.1,1e300,
2,Bergen,3.10,1969-02-15,1969-02-15T00:00:00.25Z,09:00,false,-1e10,-1e-300,
3,,,,,,,,,
4,Boston,-0.01,2024-03-16,2024-03-16T23:59:59.75Z,23:59,true,0,0,
"""
# both ways: what bw lists, and rows of SQLite
ALL = ("SELECT * FROM kinds", "SELECT * FROM kinds WHERE id + 0 > 0")
EDGES = ("least,greatest,wide\n-9223372036854775808,9223372036854775807,12345678901234567.8\n,,\n"
         "-9223372036854775807,9223372036854775806,0.1\n")
OLD = ("day,at,local\n0001-01-01,1066-10-14 09:00:00,2024-01-01 10:00:00\n"
       "9999-12-31,2024-01-01 00:00:00,2024-01-02 10:00:00\n,,\n")


class Frames(Imported):
    tables = {"kinds.bw": (KINDS,), "edges.bw": (EDGES,), "old.bw": (OLD,)}

    def setUp(self):
        self.connection = bwtools.connect(*(self.folder / name for name in self.tables))
        self.addCleanup(self.connection.close)

    def cursor(self, sql):
        return self.connection.execute(sql)


class Missing(Frames):
    def test_message_says_what_to_install(self):
        real = importlib.import_module

        def missing(name, *words):
            if name in ("numpy", "pandas"):
                raise ImportError(name)
            return real(name, *words)

        cursor = self.cursor(ALL[0])
        with mock.patch("importlib.import_module", side_effect=missing):
            for use in (cursor.df, cursor.columns):
                with self.assertRaisesRegex(bwtools.ProgrammingError,
                                            "numpy isn't installed: install python3-numpy of "
                                            "Debian, or run pip"):
                    use()


@unittest.skipUnless(HAS_NUMPY, "numpy isn't installed")
class Arrays(Frames):
    def test_types(self):
        wanted = {"id": "int64", "city": "object", "cents": "float64", "day": "datetime64[D]",
                  "when": "datetime64[ms]",
                  "clock": "timedelta64[s]", "flag": "bool", "ratio": "float64", "far": "float64",
                  "nothing": "int64"}
        for sql in ALL:
            found = self.cursor(sql).columns()
            self.assertEqual({name: str(column.dtype) for name, column in found.items()}, wanted)

    def test_values(self):
        for sql in ALL:
            with self.subTest(sql):
                found = {name: column.tolist() for name,
                         column in self.cursor(sql).columns().items()}
                self.assertEqual(found["id"], [1, 2, 3, 4])
                self.assertEqual(found["city"], ["Boston", "Bergen", None, "Boston"])
                self.assertEqual(found["cents"], [12.5, 3.1, None, -0.01])
                self.assertEqual(found["day"],
                                 [datetime.date(2024, 2, 1), datetime.date(1969, 2, 15), None,
                                  datetime.date(2024, 3, 16)])
                self.assertEqual(found["when"], [datetime.datetime(2024, 2, 1, 12, 30, 0, 500000),
                                                 datetime.datetime(1969, 2, 15, 0, 0, 0, 250000),
                                                 None,
                                                 datetime.datetime(2024, 3, 16, 23, 59, 59,
                                                                   750000)])
                self.assertEqual(found["clock"][:2],
                                 [datetime.timedelta(hours=8.5), datetime.timedelta(hours=9)])
                self.assertEqual(found["flag"], [True, False, None, True])
                self.assertEqual(found["ratio"], [0.1, -1e10, None, 0.0])
                self.assertEqual(found["far"], [1e300, -1e-300, None, 0.0])
                self.assertEqual(found["nothing"], [None] * 4)

    def test_expressions(self):
        found = self.cursor(
            "SELECT id * 0.5 half, city || '!' c, id * 2 twice, NULL n, max(day) FROM kinds GROUP "
            "BY id ORDER BY id").columns()
        self.assertEqual([column.tolist() for column in found.values()],
                         [[0.5, 1.0, 1.5, 2.0], ["Boston!", "Bergen!", None, "Boston!"],
                          [2, 4, 6, 8], [None] * 4,
                          [datetime.date(2024, 2, 1), datetime.date(1969, 2, 15), None,
                           datetime.date(2024, 3, 16)]])

    def test_numbers_at_the_ends_of_64_bits(self):
        for sql in ("SELECT least, greatest FROM edges",
                    "SELECT least, greatest FROM edges WHERE least + 0 < 0 OR least IS NULL"):
            found = self.cursor(sql).columns()
            self.assertEqual(found["least"].tolist(), [-2 ** 63, None, -2 ** 63 + 1])
            self.assertEqual(found["greatest"].tolist(), [2 ** 63 - 1, None, 2 ** 63 - 2])

    def test_no_rows(self):
        for sql in ("SELECT * FROM kinds WHERE id > 9",
                    "SELECT id, city, day FROM kinds WHERE id + 0 > 9"):
            found = self.cursor(sql).columns()
            self.assertTrue(found)
            self.assertTrue(all(len(column) == 0 for column in found.values()))

    def test_headings_must_differ(self):
        with self.assertRaisesRegex(bwtools.ProgrammingError,
                                    "2 columns have the heading id: give them aliases"):
            self.cursor("SELECT id, id FROM kinds").columns()

    def test_the_type_hint_is_that_of_numpy(self):
        import numpy
        hint = bwtools.Cursor.columns.__annotations__["return"]
        self.assertIn("MaskedArray", str(eval(hint, {"numpy": numpy, "Any": Any})))

    def test_rows_are_still_fetched(self):
        cursor = self.cursor("SELECT id FROM kinds")
        self.assertEqual(cursor.fetchone(), (1,))
        self.assertEqual(cursor.columns()["id"].tolist(), [1, 2, 3, 4])
        self.assertEqual(cursor.fetchall(), [(2,), (3,), (4,)])


@unittest.skipUnless(HAS_PANDAS and HAS_NUMPY, "pandas isn't installed")
class DataFrames(Frames):
    def test_types(self):
        wanted = ["Int64", "category", "float64", "datetime64[ns]", "datetime64[ns, UTC]",
                  "timedelta64[ns]", "boolean", "float64",
                  "float64", "Int64"]
        for sql in ALL:
            self.assertEqual(list(map(str, self.cursor(sql).df().dtypes)), wanted)

    def test_values(self):
        import pandas
        for sql in ALL:
            with self.subTest(sql):
                found = self.cursor(sql).df()
                self.assertEqual(list(found.columns),
                                 "id city cents day when clock flag ratio far nothing".split())
                self.assertEqual(found["id"].tolist(), [1, 2, 3, 4])
                self.assertEqual(found["city"].dropna().tolist(), ["Boston", "Bergen", "Boston"])
                self.assertEqual(found["city"].cat.categories.tolist(), ["Bergen", "Boston"])
                self.assertEqual(found["cents"].dropna().tolist(), [12.5, 3.1, -0.01])
                self.assertEqual(found["day"].dropna().dt.date.tolist(),
                                 [datetime.date(2024, 2, 1), datetime.date(1969, 2, 15),
                                  datetime.date(2024, 3, 16)])
                self.assertEqual(found["when"][1], pandas.Timestamp("1969-02-15T00:00:00.25Z"))
                self.assertEqual(found["clock"][3], pandas.Timedelta(hours=23, minutes=59))
                self.assertEqual(found["flag"].dropna().tolist(), [True, False, True])
                self.assertEqual(found["far"].dropna().tolist(), [1e300, -1e-300, 0.0])
                self.assertEqual(found.isna().sum().tolist(), [0, *[1] * 8, 4])
                self.assertTrue(math.isnan(found["cents"][2]))

    def test_decimals(self):
        for sql in ALL:
            found = self.cursor(sql).df(decimals=True)["cents"].tolist()
            self.assertEqual(found, [decimal.Decimal("12.50"), decimal.Decimal("3.10"), None,
                                     decimal.Decimal("-0.01")])
        self.assertEqual(self.cursor("SELECT wide FROM edges").df(decimals=True)["wide"].tolist()[
            0], decimal.Decimal("12345678901234567.8"))
        self.assertEqual(self.cursor("SELECT wide FROM edges").df()["wide"].tolist()[0],
                         12345678901234567.8)

    def test_years_beyond_nanoseconds_are_objects(self):
        for sql in ("SELECT day, at FROM old",
                    "SELECT day, at FROM old WHERE length(day) > 0 OR day IS NULL"):
            found = self.cursor(sql).df()
            self.assertEqual(found["day"].dropna().tolist(),
                             [datetime.date(1, 1, 1), datetime.date(9999, 12, 31)])
            self.assertEqual(found["at"].dropna().tolist(), [datetime.datetime(1066, 10, 14, 9),
                                                             datetime.datetime(2024, 1, 1)])

    def test_groups(self):
        found = self.cursor("SELECT city, count(*) n, avg(cents) FROM kinds GROUP BY city").df()
        self.assertEqual((list(found.columns), found["n"].tolist(), list(map(str, found.dtypes))),
                         (["city", "n", "avg(cents)"], [1, 1, 2], ["category", "Int64", "float64"]))

    def test_equal_headings_stay(self):
        self.assertEqual(list(self.cursor("SELECT id, id FROM kinds").df().columns), ["id", "id"])

    def test_no_rows(self):
        for sql in ("SELECT * FROM kinds WHERE id > 9", "SELECT * FROM kinds WHERE id + 0 > 9"):
            self.assertEqual(self.cursor(sql).df().shape, (0, 10))

    def test_read_sql(self):
        import pandas
        with warnings.catch_warnings():
            warnings.simplefilter("ignore", UserWarning)
            found = pandas.read_sql(
                "SELECT city, count(*) AS n FROM kinds WHERE id < ? GROUP BY city", self.connection,
                params=[4])
        self.assertEqual(found.values.tolist(), [[None, 1], ["Bergen", 1], ["Boston", 1]])

"""Answers over numbers come back in the data's own terms."""
import io
import unittest

from bwtools import _output as answers
from bwtools._csv import reader
from bwtools._errors import Refused
from bwtools._types import kinds
from bwtools._types.base import Column
from tests.support import texts

COLUMNS = [Column("n", "n", kinds.Whole(), ["NA"]),
           Column("price", "unit, price", kinds.Decimals(2, False)),
           Column("day", "day", kinds.Dates()), Column("city", "city", texts("", "a\"b", "x,y"))]


def back(answer):
    out = io.StringIO(newline="")
    answers.turn_back(COLUMNS, io.StringIO(answer, newline=""), out)
    return out.getvalue()


class Answers(unittest.TestCase):
    def test_each_kind(self):
        self.assertEqual(back("n,price,day,city\n5,1250,19844,2\nNULL,-5,NULL,1\n"),
                         'n,"unit, price",day,city\n5,12.50,2024-05-01,"x,y"\n,-0.05,,"a""b"\n')

    def test_totals(self):
        self.assertEqual(back("COUNT(*),COUNT(day),SUM(price),MIN(day),MAX(city)\n"
                              "3,2,99999999999999999999,0,0\n"),
                         'COUNT(*),COUNT(day),"SUM(unit, price)",MIN(day),MAX(city)\n'
                         '3,2,999999999999999999.99,1970-01-01,\n')
        self.assertEqual(back("SUM(n)\nNULL\n"), 'SUM(n)\n""\n')

    def test_one_empty_field_is_a_record(self):
        self.assertEqual(back("price\n100\nNULL\n"), '"unit, price"\n1.00\n""\n')

    def test_no_rows(self):
        self.assertEqual(back("n\n"), "n\n")

    def test_what_is_not_of_bw(self):
        self.assertEqual(back('n,city\r\n"5","2"\r\n'), 'n,city\n5,"x,y"\n')

    def test_refused(self):
        for answer, wanted in [("", "the result is empty"),
                               ("other\n1\n", "a column other, which isn't in the columns file"),
                               ("SUM(day)\n1\n", "SUM(day): day has dates"),
                               ("n,day\n1,2\n3\n", "line 3 of the result has 1 field"),
                               ("city\n0\n3\n",
                                "line 3 of the result: 3 isn't a number of column city"),
                               ("day\nx\n", "line 2 of the result: x isn't a number of column day"),
                               ("n\n1\n\n", "line 3 of the result"),
                               ('n\n"1\n2"\n', "isn't a number of column n")]:
            with self.subTest(answer), self.assertRaises(Refused) as refused:
                back(answer)
            self.assertIn(wanted, str(refused.exception))

    def test_many_blocks(self):
        was, reader.CHARACTERS_AT_ONCE = reader.CHARACTERS_AT_ONCE, 4
        try:
            self.assertEqual(back("day\n" + "19844\n0\nNULL\n" * 5),
                             "day\n" + '2024-05-01\n1970-01-01\n""\n' * 5)
            with self.assertRaisesRegex(Refused, "line 7 of the result: x is"):
                back("day\n1\n2\n3\n4\n5\nx\n")
        finally:
            reader.CHARACTERS_AT_ONCE = was

"""Numbers as people spell them, and the names of columns."""
import unittest

from bwtools._identifiers import is_name, name_like, names_of
from bwtools._types.number_format import LAKHS, Marks, Style, is_number, marks_of, parts_of, scaled


class Numerals(unittest.TestCase):
    def test_numbers(self):
        for text in ("1", "-5", "+5", ".5", "5.", "1e-5", "1E3", "1.234,50", "1'234",
                     "1\u00a0234,5", "$1.50", "($1,234.50)",
                     "-$5", "$-5", "12 EUR", "USD 12", "5 %", "5%", "3 kg", "1.000.000", "007",
                     "12,34,567", "-1,00,000.50"):
            with self.subTest(text):
                self.assertTrue(is_number(text))

    def test_no_numbers(self):
        for text in ("", "x", "12a", "1.2.3", "12,34,5678", "123,45,678",
                     "0,12,345", "1,2,345", "12.34.567", "1e", "--5", "(5", "5)", "(-5)", "NaN",
                     "inf", "1_0", "\u0665", "12-5",
                     "5 May", "12 Main", "1.234.5"):
            with self.subTest(text):
                self.assertFalse(is_number(text))

    def test_marks(self):
        for body, wanted in (("12", Marks()), ("1.5", Marks(decimal=".")),
                             ("1.234", Marks(either=".")),
                             ("0.234", Marks(decimal=".")), ("1.234.567", Marks(grouping=".")),
                             ("1.234,5", Marks(grouping=".", decimal=",")),
                             ("12,34,567.89", Marks(grouping=LAKHS, decimal=".")),
                             ("12,34,567", Marks(grouping=LAKHS)), ("1,23,45", None),
                             ("12,345", Marks(either=",")),
                             ("1,234,567", Marks(grouping=",")),
                             ("1'234", Marks(grouping="'")), ("1'23", None),
                             ("1,23.4", None)):
            with self.subTest(body):
                self.assertEqual(marks_of(body), wanted)

    def test_styles(self):
        self.assertEqual(parts_of("($5)").sign, "-")
        style = Style(",", ".", "", " EUR", 1)
        for text, plain in (("1.234,50 EUR", "1234.50"), ("(12 EUR)", "-12"), ("7", "7"),
                            ("$7", None), ("1.23", None)):
            with self.subTest(text):
                self.assertEqual(style.bare(text), plain)
        self.assertEqual([style.format(plain) for plain in ("1234567.5", "-0.25", "5")],
                         ["1.234.567,5 EUR", "(0,25 EUR)", "5 EUR"])

    def test_lakhs(self):
        style = Style(".", LAKHS)
        for plain, text in (("0", "0"), ("999", "999"), ("1000", "1,000"), ("99999", "99,999"),
                            ("100000", "1,00,000"), ("-1234567.5", "-12,34,567.5"),
                            ("123456789012", "1,23,45,67,89,012"), (".5", "0.5")):
            with self.subTest(plain):
                self.assertEqual(style.format(plain), text)
                self.assertEqual(style.bare(text), plain if plain[0] != "." else f"0{plain}")
        self.assertIsNone(style.bare("1,234,567"))
        self.assertIsNone(Style(".", ",").bare("12,34,567"))

    def test_scaled(self):
        for plain, digits, number in (("12.5", 2, 1250), ("-.05", 2, -5), ("1e3", 0, 1000),
                                      ("1.25e1", 0, None), ("1.25e2", 0, 125),
                                      ("x", 0, None), ("1e9999", 0, None), ("0e9999", 0, 0),
                                      ("12.505", 2, None)):
            with self.subTest(plain):
                self.assertEqual(scaled(plain, digits), number)


class Names(unittest.TestCase):
    def test_names(self):
        tried = ("a_1", "a" * 63, "1a", "select", "a" * 64, "", "a b")
        self.assertEqual([text for text in tried if is_name(text)], ["a_1", "a" * 63])
        self.assertEqual([name_like(text) for text in ["a b", "1st", "Größe", "select", "", "%"]],
                         ["a_b", "_1st", "Groe", "select_", "_", "_"])

    def test_names_differ(self):
        self.assertEqual(names_of(["a", "A", "a b", "a_b", "a"]),
                         ["a", "A_2", "a_b_2", "a_b", "a_3"])

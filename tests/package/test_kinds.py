"""How the texts of each kind are numbers, come back, and where literals stand."""
import math
import random
import struct
import unittest
from fractions import Fraction

from bwtools._types import kinds
from bwtools._types.dictionary import SortedList
from bwtools._types.number_format import Style
from tests.support import texts

# the day of 2024-05-01, worked out in test_moments
DAY = 19844
NOON = DAY * 86400 + 12 * 3600


class ThereAndBack(unittest.TestCase):
    def test_numbers_of_texts(self):
        truths, listed, decimals = kinds.Truths("false",
                                                "true"), texts("a", "b"), kinds.Decimals(2, False)
        minutes, clocks = kinds.Times("%Y-%m-%d %H:%M"), kinds.Clocks("%H:%M")
        for kind, text, number in [
                (kinds.Whole(), "-5", -5), (kinds.Whole(), "1e2", 100),
                (kinds.Whole(), "1.5", None), (kinds.Whole(), "x", None),
                (decimals, "1.5", 150), (decimals, "-0.05", -5), (decimals, "1.505", None),
                (kinds.Dates(), "2024-05-01", DAY), (kinds.Dates(), "2024-05-01 00:00", None),
                (kinds.Dates("%d.%m.%Y"), "1.5.2024", DAY),
                (minutes, "2024-05-01 12:00", NOON), (minutes, "2024-05-01 14:00+02:00", None),
                (kinds.Times("%Y-%m-%d %H:%M:%S", 3), "2024-05-01 12:00:00.25", NOON * 1000 + 250),
                (kinds.Times("%Y-%m-%d %H:%M", 0, "Z"), "2024-05-01 14:00+02:00", NOON),
                (clocks, "07:15", 26100), (clocks, "24:00", None), (truths, "true", 1),
                (truths, "yes", None),
                (listed, "b", 1), (listed, "c", None), (kinds.Nulls(), "5", None)]:
            with self.subTest(kind=kind.name, text=text):
                self.assertEqual(kind.number(text), number)

    BACK = [(kinds.Whole(), -5, "-5"), (kinds.Decimals(2, False), 150, "1.50"),
            (kinds.Decimals(2, False), -5, "-0.05"),
            (kinds.Decimals(2, True), 150, "1.5"), (kinds.Decimals(2, True), 100, "1"),
            (kinds.Styled(kinds.Decimals(2, 0), Style(",")), 150, "1,50"),
            (kinds.Dates(), DAY, "2024-05-01"), (kinds.Dates("%d.%m.%Y"), DAY, "01.05.2024"),
            (kinds.Times("%Y-%m-%d %H:%M"), NOON, "2024-05-01 12:00"),
            (kinds.Times("%Y-%m-%dT%H:%M:%S", 0, "Z"), NOON + 7, "2024-05-01T12:00:07Z"),
            (kinds.Times("%Y-%m-%d %H:%M:%S", 3), NOON * 1000 + 7, "2024-05-01 12:00:00.007"),
            (kinds.Times("%Y-%m-%d %H:%M:%S", 3), -750, "1969-12-31 23:59:59.250"),
            (kinds.Times("%d/%m/%Y %H:%M"), NOON, "01/05/2024 12:00"),
            (kinds.Times("%H h %d/%m/%Y"), NOON, "12 h 01/05/2024"),
            (kinds.Clocks("%H:%M"), 26100, "07:15"),
            (kinds.Clocks("%H:%M:%S", 1), 261005, "07:15:00.5"),
            (kinds.Times("%d %B %Y %I:%M:%S %p", 2), NOON * 100 + 7, "01 May 2024 12:00:00.07 PM"),
            (kinds.Clocks("%I:%M %p"), 48600, "01:30 PM"),
            (kinds.Dates("%d-%b-%y"), DAY, "01-May-24"),
            (kinds.Floats(0), 4609434218613702656, "1.5"),
            (kinds.Ranked(SortedList([0.5, 2.0])), 1, "2.0"),
            (kinds.Styled(kinds.Whole(), Style(suffix=" %")), 5, "5 %"),
            (kinds.Truths("F", "T"), 1, "T"), (texts("a", "b"), 0, "a")]

    def test_texts_of_numbers(self):
        for kind, number, text in self.BACK:
            with self.subTest(kind=kind.name, text=text):
                self.assertEqual(kind.text(number), text)
                self.assertEqual(kind.spell([number, number]), [text, text])

    def test_numbers_without_a_text(self):
        for kind, number in [(kinds.Clocks("%H:%M"), -1), (kinds.Clocks("%H:%M"), 86400),
                             (kinds.Truths("F", "T"), 2),
                             (texts("a"), -1), (texts("a"), 1), (kinds.Dates(), 10 ** 7)]:
            for spell in (kind.text, lambda each, kind=kind: kind.spell([each])):
                with self.subTest(kind=kind.name,
                                  number=number), \
                        self.assertRaises((IndexError, ValueError, OverflowError)):
                    spell(number)

    def test_settings_give_the_kind_back(self):
        for kind, number, text in self.BACK:
            again = kinds.kind_of(kind.name, kind.settings(), kind.listed)
            with self.subTest(kind=kind.name, text=text):
                self.assertEqual((again.settings(), again.text(number)), (kind.settings(), text))
                self.assertTrue(again.alike(kind))

    def test_sums(self):
        self.assertEqual(kinds.Decimals(2, False).total(12345), "123.45")
        self.assertEqual(kinds.Truths("F", "T").total(7), "7")
        for kind in (kinds.Dates(), kinds.Times("%Y-%m-%d %H:%M"), kinds.Clocks("%H:%M"), texts()):
            self.assertFalse(kind.is_summable)


class Places(unittest.TestCase):
    """A place is the greatest number that a literal isn't below, and whether it is that number."""

    def test_numbers(self):
        decimals = kinds.Decimals(2, False)
        self.assertEqual(decimals.place(Fraction("1.5")), (150, True))
        self.assertEqual(decimals.place(Fraction("1.505")), (150, False))
        self.assertEqual(decimals.place(Fraction("-1.505")), (-151, False))
        self.assertEqual(kinds.Whole().place(Fraction("2.5")), (2, False))
        self.assertIsNone(decimals.place("1.5"))

    def test_moments(self):
        self.assertEqual(kinds.Dates().place("2024-05-01"), (DAY, True))
        self.assertEqual(kinds.Dates().place("2024-05-01 12:00"), (DAY, False))
        self.assertIsNone(kinds.Dates().place("2024-05-01 12:00Z"))
        self.assertEqual(kinds.Times("%Y-%m-%d %H:%M").place("2024-05-01"), (DAY * 86400, True))
        self.assertEqual(kinds.Times("%Y-%m-%d %H:%M:%S").place("2024-05-01 12:00:00.5"),
                         (NOON, False))
        self.assertEqual(kinds.Times("%Y-%m-%d %H:%M", 0, "Z").place("2024-05-01T14:00+02:00"),
                         (NOON, True))
        self.assertIsNone(kinds.Times("%Y-%m-%d %H:%M").place("12:00"))
        self.assertEqual(kinds.Clocks("%H:%M").place("12:00:00.5"), (43200, False))

    def test_texts_and_truths(self):
        listed = texts("Bern", "Ulm")
        self.assertEqual([listed.place(text) for text in ("A", "Bern", "C", "Z")],
                         [(-1, False), (0, True), (0, False), (1, False)])
        self.assertIsNone(listed.place(Fraction(1)))
        self.assertEqual(kinds.Truths("F", "T").place("TRUE"), (1, True))
        self.assertIsNone(kinds.Truths("F", "T").place("x"))

    def test_floats(self):
        least, some = 2 ** -1074, 1e-20
        floats = kinds.Floats(bits(some) - 1)
        for number, text in ((0, "0.0"), (1, "1e-20"), (-1, "-1e-20"),
                             (bits(1.5) - floats.gap, "1.5"), (floats.gap - bits(2.5), "-2.5")):
            with self.subTest(text):
                self.assertEqual((floats.number(text), floats.text(number)), (number, text))
        for literal, place in ((Fraction(0), (0, True)), (Fraction(some), (1, True)),
                               (Fraction(least), (0, False)),
                               (-Fraction(least), (-1, False)), (Fraction(-some), (-1, True)),
                               (Fraction("1.5"), (bits(1.5) - floats.gap, True)),
                               (Fraction(10) ** 400, (bits(float("inf")) - floats.gap, True))):
            with self.subTest(literal):
                self.assertEqual(floats.place(literal), place)
        # a literal becomes the nearest double first
        self.assertEqual(floats.place(Fraction("0.1")), (floats.number("0.1"), True))
        self.assertEqual(floats.place(Fraction("0.1") + Fraction(1, 10 ** 30)),
                         (floats.number("0.1"), True))
        self.assertIsNone(floats.place("0.1"))
        self.assertEqual((floats.number("-0.0"), floats.number("1e400"), floats.number("nan")),
                         (0, None, None))
        for number in (1 << 63, bits(float("inf")) - floats.gap):
            with self.assertRaises(IndexError):
                floats.text(number)

    def test_floats_ascend(self):
        draw = random.Random(3)
        doubles = sorted({struct.unpack("<d",
                                        struct.pack("<Q", draw.getrandbits(63) | sign << 63))[0]
                          for _ in range(500) for sign in (0, 1)} | {0.0})
        doubles = [each for each in doubles if math.isfinite(each)]
        numbers = [kinds.Floats(0).number(repr(each)) for each in doubles]
        self.assertEqual(numbers, sorted(set(numbers)))
        self.assertEqual([kinds.Floats(0).text(number) for number in numbers],
                         list(map(repr, doubles)))
        self.assertEqual(kinds.Floats(0).numbers(doubles), numbers)

    def test_floats_of_one_sign(self):
        """With zeros of both signs among them, and without."""
        draw = random.Random(4)
        for gap in (0, 1 << 61):
            floats = kinds.Floats(gap)
            for doubles in ([draw.uniform(1, 9) for _ in range(9)], [0.0], [-0.0], []):
                for found in (doubles, [-each for each in doubles], [*doubles, 0.0],
                              [*[-each for each in doubles], -0.0]):
                    self.assertEqual(floats.numbers(found),
                                     [floats.number(repr(each)) for each in found])

    def test_ranked(self):
        ranked = kinds.Ranked(SortedList([-1e10, 0.0, 1e-300, 1e10]))
        self.assertEqual([ranked.number(text) for text in ("-1e10", "-0", "1E-300", "5")],
                         [0, 1, 2, None])
        self.assertEqual([ranked.place(Fraction(each)) for each in (-10 ** 11, 0, 5)],
                         [(-1, False), (1, True), (2, False)])
        self.assertEqual(ranked.spell([3, 0]), ["10000000000.0", "-10000000000.0"])

    def test_styles(self):
        euros = kinds.Styled(kinds.Decimals(2, 0), Style(",", ".", "", " \u20ac"))
        fields = ("1.234,50 \u20ac", "-5,00 \u20ac", "7", "1.23", "x")
        self.assertEqual(list(map(euros.number, fields)), [123450, -500, 700, None, None])
        self.assertEqual([euros.text(number) for number in (123450, -500, 0)],
                         ["1.234,50 \u20ac", "-5,00 \u20ac", "0,00 \u20ac"])
        self.assertEqual((euros.place("1.234,50 \u20ac"), euros.place(Fraction("1.505"))),
                         ((123450, True), (150, False)))
        self.assertEqual((euros.total(12345), kinds.unstyled(euros).text(123450)),
                         ("123,45 \u20ac", "1234.50"))
        brackets = kinds.Styled(kinds.Whole(), Style(prefix="$", grouping=",", brackets=1))
        self.assertEqual(brackets.spell([1234567, -12]), ["$1,234,567", "($12)"])
        self.assertEqual(brackets.number("($12)"), -12)


def bits(double):
    """Returns the place of a double above 0 in the order of all."""
    return struct.unpack("<q", struct.pack("<d", double))[0]

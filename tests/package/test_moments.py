"""Dates, times and times of day, as fields spell them."""
import random
import re
import unittest

from bwtools._types import temporal
from bwtools._types.temporal import moment_of, plain_times, times_of

from tests.support import sample

# 54 years of 365 days since 1970, 13 leap days, and 121 days up to the first of May
DAY = 54 * 365 + 13 + 121


class Moments(unittest.TestCase):
    def test_dates(self):
        for text, form in (("2024-05-01", "%Y-%m-%d"), ("1.5.2024", "%d.%m.%Y"),
                           ("01/05/24", "%d/%m/%y"),
                           ("1 May 2024", "%d %b %Y"), ("May 1, 2024", "%b %d, %Y"),
                           ("01-MAY-24", "%d-%b-%y"), ("2024/05/01", "%Y/%m/%d")):
            with self.subTest(text):
                self.assertEqual(moment_of(text).days[form], DAY)
                self.assertEqual(temporal.read_by(form, temporal.written_by(form, DAY, 0))[0], DAY)

    def test_years_of_two_digits(self):
        days = [temporal.read_by("%y-%m-%d", f"{year}-01-01")[0] for year in (68, 69)]
        self.assertEqual([temporal.written_by("%Y", day, 0) for day in days], ["2068", "1969"])

    def test_no_dates(self):
        for text in ("2024-02-30", "2024-13-01", "24:00", "1:60", "13:00 PM", "0:30 AM", "1.2.3",
                     "2024", "", "x",
                     "May 32, 2024", "2024-05-01 25:00", "2024-05-01T10:00+24:00"):
            with self.subTest(text):
                self.assertIsNone(moment_of(text))
        self.assertTrue(temporal.is_like_date("2024-02-30"))

    def test_times(self):
        for text, part, digits, clock in (("1:30 PM", 48600, 0, "%I:%M %p"),
                                          ("12:05 AM", 300, 0, "%I:%M %p"),
                                          ("07:15:00.123456789", 26100123456789, 9, "%H:%M:%S"),
                                          ("2024-05-01 14:00+02:00", 43200, 0, "%H:%M")):
            with self.subTest(text):
                found = moment_of(text)
                self.assertEqual((found.part, found.digits, found.clock), (part, digits, clock))

    def test_hours_of_twelve_come_back(self):
        form = "%I:%M %p"
        self.assertEqual([temporal.written_by(form, DAY, second) for second in (0, 43200)],
                         ["12:00 AM", "12:00 PM"])
        for second in range(0, 86400, 1800):
            text = temporal.written_by(form, DAY, second)
            self.assertEqual(temporal.read_by(form, text)[1], second, text)

    def test_plain_times_are_those_of_each(self):
        """Also if a sign of one is another, or missing."""
        draw, kept, count = random.Random(5), 0, sample(600, 3000)
        for _ in range(count):
            form = draw.choice(("%Y-%m-%dT%H:%M", "%Y-%m-%dT%H:%M:%S"))
            digits, zone = draw.choice((0, 3)) * form.endswith("S"), draw.choice(("", "Z"))
            kind = temporal.Times(form, digits, zone)
            fields = [kind.text(draw.randrange(10 ** 9) * 60 * 10 ** digits)
                      for _ in range(draw.randrange(1, 4))]
            for _ in range(draw.choice((0, 0, 1, 2))):
                place = draw.randrange(len(fields))
                at = draw.randrange(len(fields[place]) or 1)
                new = draw.choice(("", *"0123456789-: TZ\u0663"))
                fields[place] = fields[place][:at] + new + fields[place][at + 1:]
            found = plain_times("".join(f"{field}\n" for field in fields).encode(), len(fields))
            alike = {re.sub("[0-9]", "0", field) for field in fields}
            read = [temporal.read_moment(f"{form[:8]}{field[10:11]}{form[9:]}", field)
                    for field in fields]
            are_times = None not in read and all(each.has_clock for each in read)
            is_shape = temporal.SHAPE.fullmatch(fields[0]) is not None
            self.assertEqual(found is not None, len(alike) == 1 and are_times and is_shape, fields)
            if found:
                kept += 1
                self.assertEqual(found.numbers, [each.number for each in read], fields)
        self.assertGreater(kept, count // 3)

    def test_plain_times_come_back(self):
        draw = random.Random(4)
        for zone in ("", "Z", "+02:00", "-0330", "+01"):
            for digits in (0, 2, 9):
                fields = []
                for _ in range(20):
                    day = temporal.written_by("%Y-%m-%d", draw.randrange(-9000, 30000), 0)
                    clock = (
                        f"{draw.randrange(24):02}:{draw.randrange(60):02}:{draw.randrange(60):02}")
                    fields.append(
                        f"{day}T{clock}"
                        f"{f'.{draw.randrange(10 ** digits):0{digits}}' if digits else ''}{zone}")
                found = plain_times("".join(f"{field}\n" for field in fields).encode(), 20)
                self.assertEqual(times_of(found.numbers, found.shape), fields)
                one = temporal.read_moment("%Y-%m-%dT%H:%M:%S", fields[0])
                self.assertEqual((one.number, one.digits), (found.numbers[0], digits))

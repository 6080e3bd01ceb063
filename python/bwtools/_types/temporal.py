"""Dates, times and times of day: their texts, their formats and their kinds."""
from __future__ import annotations

import array
import datetime
import functools
import itertools
import math
import operator
import re
from typing import Callable, ClassVar, Iterable, NamedTuple, Optional, Sequence, Union

from .._errors import Refused, shown
from .base import Kind, Literal, Place, Settings, Valued
from .number_format import power_of_ten


# The time of day that a text spells.

# one format of a time of day for each clock of 24 and of 12 hours
CLOCK = re.compile(r"([0-9]{1,2}):([0-9]{2})(?::([0-9]{2})(?:([.,])([0-9]{1,9}))?)?"
                   "(?:( ?)([AaPp][Mm]))?"
                   "(?: ?(Z|UTC|GMT|[+-][0-9]{2}(?::?[0-9]{2})?))?")


class Clock(NamedTuple):
    """A time of day: its second multiplied by ten to `digits`, its format, the seconds that its
    zone is ahead of UTC, and whether it has a zone."""
    part: int
    digits: int
    form: str
    offset: int
    has_zone: bool


def hour_of(hour: int, half: str) -> int | None:
    """Returns the hour of 24 for one of 12, or None if there is no such hour."""
    return hour % 12 + 12 * (half.lower() == "pm") if 1 <= hour <= 12 else None


@functools.lru_cache(1 << 17)
def clock_of(text: str) -> Clock | None:
    """Returns the time of day that a text spells, or None."""
    found = CLOCK.fullmatch(text)
    if not found:
        return None
    hour, minute, second, _, part, blank, half, zone = found.groups()
    hours: int | None = hour_of(int(hour), half) if half else int(hour)
    offset = offset_of(zone)
    if hours is None or hours > 23 or int(minute) > 59 or int(second or 0) > 59 or offset is None:
        return None
    part = part or ""
    form = f"%{'I' if half else 'H'}:%M{':%S' if second else ''}" + (f"{blank}%p" if half else "")
    number = (hours * 3600 + int(minute) * 60 + int(second or 0)) * 10 ** len(part) + int(part or 0)
    return Clock(number, len(part), form, offset, bool(zone))


def offset_of(zone: str | None) -> int | None:
    """Returns the seconds that a zone is ahead of UTC, or None if there is no such zone."""
    if zone in (None, "", "Z", "UTC", "GMT"):
        return 0
    assert zone, "each other zone has digits"
    hours, minutes = int(zone[1:3]), int(zone[3:].lstrip(":") or 0)
    return None if hours > 23 or minutes > 59 else (hours * 3600 +
                                                    minutes * 60) * (-1 if zone[0] == "-" else 1)


# The date, the time or the time of day that a field spells, in whole numbers: days since 1970,
# and seconds of a day times a power of ten.

FIRST_DAY = datetime.date(1970, 1, 1).toordinal()
LAST_SECOND = (datetime.date(9999, 12, 31).toordinal() - FIRST_DAY + 1) * 86400
FIRST_SECOND = (1 - FIRST_DAY) * 86400
MOST_DIGITS, ISO_DATE = 9, "%Y-%m-%d"
MONTHS = ("January February March April May June July August September October November "
          "December").split()
MONTH_OF = {name[:length].lower(): place for place,
            name in enumerate(MONTHS, 1) for length in (3, len(name))}
# the formats of dates that are detected
FORMATS = (ISO_DATE, "%Y/%m/%d", "%Y.%m.%d", "%d.%m.%Y", "%d/%m/%Y", "%m/%d/%Y", "%d-%m-%Y",
           "%m-%d-%Y", "%d.%m.%y", "%d/%m/%y",
           "%m/%d/%y", "%d-%m-%y", "%m-%d-%y", "%y-%m-%d", "%d-%b-%Y", "%d-%b-%y", "%d %b %Y",
           "%d %B %Y", "%d. %b %Y",
           "%d. %B %Y", "%d/%b/%Y", "%b %d, %Y", "%B %d, %Y", "%b %d %Y", "%B %d %Y", "%d-%B-%Y",
           "%Y-%b-%d")
CLOCK_AT = re.compile(r"(T|,? )(?=[0-9]{1,2}:[0-9]{2})")
PATTERNS = {"%Y": "(?P<Y>[0-9]{4})", "%y": "(?P<y>[0-9]{2})", "%b": "(?P<b>[A-Za-z]{3})",
            "%B": "(?P<B>[A-Za-z]{3,9})",
            "%p": "(?P<p>[AaPp][Mm])", "%%": "%",
            **{f"%{letter}": f"(?P<{letter}>[0-9]{{1,2}})" for letter in "mdHIMS"}}
WEEKDAYS = ("Mon", "Tue", "Wed", "Thu", "Fri", "Sat", "Sun")
# the name of a weekday before a date, and what a mail has behind its time, beside the zone
DAY_NAME, ZONE_NAME = re.compile(f"({'|'.join(WEEKDAYS)}),? "), re.compile(r" \([A-Za-z]{1,5}\)$")
# a time in the basic format of ISO 8601
BASIC = re.compile("([0-9]{8})T([0-9]{6})([-+.,:0-9 UTCGMZ]*)")
BASIC_DATE, BASIC_CLOCK = "%Y%m%d", "%H%M%S"
# lines that may be dates and times, and times of day
DATE_LINES = re.compile(
    rf"^(?:[0-9]{{8}}T[0-9]{{6}}[^\n]{{0,20}}|(?:(?:{'|'.join(WEEKDAYS)}),? )?(?:"
    r"[0-9]{4}[-/.][0-9]{1,2}[-/.][0-9]{1,2}|"
    r"[0-9]{1,2}[-/.][0-9]{1,2}[-/.](?:[0-9]{2}|[0-9]{4})|"
    r"[0-9]{1,2}(?:[-/ ]|\. )[A-Za-z]{3,9}[-/ ][0-9]{2,4}|[0-9]{4}-[A-Za-z]{3}-[0-9]{1,2}|"
    r"[A-Za-z]{3,9} [0-9]{1,2},? [0-9]{4})(?:(?:T|,? )[0-9]{1,2}:[^\n]{2,40})?)$", re.MULTILINE)
CLOCK_LINES = re.compile(r"^[0-9]{1,2}:[0-9]{2}[^\n]{0,30}$", re.MULTILINE)
DATE_STARTS = [("0", ":"),
               *((name, f"{name}{{") for month in MONTHS
                 for name in (month[:3], month[:3].lower(), month[:3].upper())),
               *((name, f"{name}-") for name in WEEKDAYS)]
SHAPES = str.maketrans("123456789" + "bcdefghijklmnopqrstuvwxyz" + "ABCDEFGHIJKLMNOPQRSTUVWXYZ",
                       "0" * 9 + "a" * 51)


class Moment(NamedTuple):
    """A date, a time or a time of day: the days since 1970 that it may be, by format; the second of
    its day in UTC multiplied by ten to `digits`; what is between day and second; the format of the
    latter; and whether it has a zone."""
    days: dict[str, int]
    part: int = 0
    digits: int = 0
    between: str = ""
    clock: str = ""
    has_zone: bool = False

    @property
    def form(self) -> str:
        return "clock" if not self.days else "time" if self.clock else "date"


@functools.lru_cache(64)
def reader_of(form: str) -> re.Pattern[str]:
    """Returns the pattern of a format."""
    pieces = re.findall("%.|[^%]", form.replace("%-", "%"))
    return re.compile("".join(PATTERNS[piece] if len(piece) == 2 else re.escape(piece)
                              for piece in pieces))


@functools.lru_cache(1 << 16)
def day_of(year: int, month: int, day: int) -> int | None:
    """Returns the day since 1970, or None if there is no such day."""
    try:
        return datetime.date(year, month, day).toordinal() - FIRST_DAY
    except ValueError:
        return None


def read_by(form: str, text: str) -> tuple[int, int] | None:
    """Returns the day and the second of the day that a text spells in a format, or None."""
    found = reader_of(form).fullmatch(text)
    if not found:
        return None
    parts = found.groupdict()
    year = int(parts.get("Y") or 1970)
    if parts.get("y"):
        year = int(parts["y"]) + (1900 if int(parts["y"]) > 68 else 2000)
    name = parts.get("b") or parts.get("B")
    month = MONTH_OF.get(name.lower(), 0) if name else int(parts.get("m") or 1)
    if parts.get("b") and len(name or "") != 3:
        return None
    day = day_of(year, month, int(parts.get("d") or 1))
    hour = hour_of(int(parts.get("I") or 0),
                   parts["p"]) if parts.get("p") else int(parts.get("H") or 0)
    minute, second = int(parts.get("M") or 0), int(parts.get("S") or 0)
    if day is None or hour is None or hour > 23 or minute > 59 or second > 59:
        return None
    return day, hour * 3600 + minute * 60 + second


@functools.lru_cache(1 << 12)
def formats_of(shape: str) -> tuple[str, ...]:
    """Returns the formats of dates of a shape, which has 0 for each digit and a for each letter."""
    return tuple(form for form in FORMATS if reader_of(form).fullmatch(shape))


@functools.lru_cache(1 << 16)
def days_of(text: str) -> dict[str, int]:
    """Returns the days that a date may mean, by format; none if it isn't a date."""
    found = {form: read_by(form, text)
             for form in formats_of(text.translate(SHAPES))} if len(text) <= 20 else {}
    return {form: read[0] for form, read in found.items() if read}


def is_like_date(text: str) -> bool:
    """Returns whether a text has the shape of a date, or of a time, even if there is no such
    day."""
    place = CLOCK_AT.search(text)
    return len(text) <= 60 and bool(formats_of((text[:place.start()] if place
                                                else text).translate(SHAPES)))


def moment_of(text: str) -> Moment | None:
    """Returns the date, the time or the time of day that a text spells, or None."""
    if text[2:3] == ":" or text[1:2] == ":":
        clock = clock_of(text)
        return Moment({}, clock.part, clock.digits, "",
                      clock.form) if clock and not clock.has_zone else None
    named = DAY_NAME.match(text)
    if named:
        return on_weekday(moment_of(ZONE_NAME.sub("", text[named.end():])), named[1])
    basic = BASIC.fullmatch(text)
    if basic:
        hour, minute, second = basic[2][:2], basic[2][2:4], basic[2][4:]
        read = read_by(BASIC_DATE, basic[1])
        clock = clock_of(f"{hour}:{minute}:{second}{basic[3]}")
        return timed({BASIC_DATE: read[0]} if read else {}, clock and
                     clock._replace(form=BASIC_CLOCK), "T")
    place = CLOCK_AT.search(text)
    days = days_of(text[:place.start()] if place else text)
    if not place:
        return Moment(days) if days else None
    return timed(days, clock_of(text[place.end():]), place[1])


def on_weekday(moment: Moment | None, name: str) -> Moment | None:
    """Returns a date or a time if it may be on a weekday."""
    if moment is None:
        return None
    # the first day is a Thursday
    days = {form: day for form, day in moment.days.items() if WEEKDAYS[(day + 3) % 7] == name}
    return moment._replace(days=days) if days else None


def timed(days: dict[str, int], clock: Clock | None, between: str) -> Moment | None:
    """Returns the time that days and a time of day are, or None."""
    if not days or not clock:
        return None
    power = 10 ** clock.digits
    number = clock.part - clock.offset * power
    if clock.offset:
        ends = [day * 86400 * power + number for day in days.values()]
        if min(ends) < FIRST_SECOND * power or max(ends) >= LAST_SECOND * power:
            return None
    return Moment(days, number, clock.digits, between, clock.form, clock.has_zone)


@functools.lru_cache(1 << 17)
def written_by(form: str, day: int, second: int) -> str:
    """Returns the text of a day and a second of the day in a format. Day and month have two digits,
    unless their format is %-d or %-m, hours of 12 those of %-I."""
    date = datetime.date.fromordinal(day + FIRST_DAY)
    hour, month = second // 3600, MONTHS[date.month - 1]
    half = (hour + 11) % 12 + 1
    parts = {"%Y": f"{date.year:04}", "%y": f"{date.year % 100:02}", "%m": f"{date.month:02}",
             "%d": f"{date.day:02}",
             "%b": month[:3], "%B": month, "%H": f"{hour:02}", "%I": f"{half:02}",
             "%p": "PM" if hour > 11 else "AM",
             "%M": f"{second // 60 % 60:02}", "%S": f"{second % 60:02}", "%%": "%",
             "%-d": str(date.day), "%-m": str(date.month), "%-H": str(hour), "%-I": str(half)}
    return re.sub("%-?.", lambda found: parts[found.group()], form)


# what may follow the text of a format that ends with a time: digits after the point of its seconds,
# before AM or PM, and a zone
ENDED = re.compile(r"(?P<start>.*?[0-9])(?:[.,](?P<part>[0-9]{1,9}))?(?P<half> ?[AaPp][Mm])?"
                   r" ?(?P<zone>Z|UTC|GMT|[+-][0-9]{2}(?::?[0-9]{2})?)?", re.DOTALL)
ENDS = re.compile("%-?[HIMS](?: ?%p)?$")


class Read(NamedTuple):
    """A date or a time as one number: the seconds since 1970 multiplied by ten to `digits`; and
    whether its text has a time of day, and a zone."""
    number: int
    digits: int
    has_clock: bool
    has_zone: bool


@functools.lru_cache(64)
def date_format(form: str) -> str:
    """Returns the part of a format that is of the day, if it comes first."""
    return re.split("(?:T|,? )?(?=%-?[HI])", form)[0]


def read_moment(form: str, text: str) -> Read | None:
    """Returns the date or the time that a text spells in a format, which may be followed by a part
    of a second and by a zone, or in its format of dates with any time of day, or as an ISO date
    with or without one. Returns None for another text."""
    found = read_by(form, text)
    if found:
        return Read(found[0] * 86400 + found[1], 0, "%M" in form or "%H" in form or "%I" in form,
                    False)
    ended = read_ended(form, text)
    if ended:
        return ended
    moment = moment_of(text)
    if moment is None:
        return None
    day = moment.days.get(date_format(form), moment.days.get(ISO_DATE))
    if day is None:
        return None
    return Read(day * 86400 * 10 ** moment.digits + moment.part, moment.digits, bool(moment.clock),
                moment.has_zone)


def read_ended(form: str, text: str) -> Read | None:
    """Returns the time that a text spells in a format, with a part of a second or a zone after
    it."""
    end, found = ENDS.search(form), ENDED.fullmatch(text)
    if not end or not found or found["part"] and "S" not in end.group():
        return None
    read, offset = read_by(form, found["start"] + (found["half"] or "")), offset_of(found["zone"])
    if not read or offset is None:
        return None
    digits = len(found["part"] or "")
    second = read[0] * 86400 + read[1] - offset
    if not FIRST_SECOND <= second < LAST_SECOND:
        return None
    return Read(second * 10 ** digits + int(found["part"] or 0), digits, True,
                bool(found["zone"]))


def with_part(text: str, part: int, digits: int) -> str:
    """Returns a text of a time with a part of its last second, which is before the half of the
    day."""
    if not digits:
        return text
    end = len(text.rstrip("AMP "))
    return f"{text[:end]}.{part:0{digits}}{text[end:]}"


def unit_of(digits: int) -> str:
    """Returns what times with so many digits after the point count."""
    return {0: "seconds", 3: "milliseconds", 6: "microseconds",
            9: "nanoseconds"}.get(digits, f"seconds times 10^{digits}")


# Times that are all spelled alike, read and written many at a time.

# divmod of two integers
divide: Callable[[int, int], tuple[int, int]] = divmod


class PlainTimes(NamedTuple):
    """The seconds since 1970 of fields that are all times of one shape, multiplied by ten to its
    digits. The shape is what is between date and time, whether there are seconds, the digits after
    their point, and the zone."""
    numbers: list[int]
    shape: tuple[str, bool, int, str]


SHAPE = re.compile(r"[0-9]{4}-[0-9]{2}-[0-9]{2}([T ])[0-9]{2}:[0-9]{2}"
                   r"(:[0-9]{2}(?:\.([0-9]{1,9}))?)?"
                   "(Z|[+-][0-9]{2}(?::?[0-9]{2})?)?")
# where the digits of a date are in such a text, and those of a time of day, each with how many of
# it are one of the digit before
DAY_PLACES = (0, 1, 2, 3, 5, 6, 8, 9)
CLOCK_PLACES = ((11, 0), (12, 10), (14, 6), (15, 10), (17, 6), (18, 10))
# the numbers that the bytes of digits spell
DIGITS = bytes((byte - ord("0")) % 256 for byte in range(256))


def plain_times(lines: bytes, count: int) -> PlainTimes | None:
    """Returns the times of so many lines that all have the shape of the first, such as 2024-05-01
    12:30:00, or None if one hasn't."""
    first = lines[:lines.find(b"\n")].decode("ascii", "replace")
    shape = SHAPE.fullmatch(first)
    offset = offset_of(shape[4]) if shape else None
    if not shape or offset is None:
        return None
    between, seconds, part, zone = shape.groups("")
    power, width = 10 ** len(part), len(first) + 1
    # each place of all lines is a slice
    places = [lines[place::width] for place in range(width)]
    if len(lines) != width * count or not are_alike(places, first, len(first) - len(zone)):
        return None
    digits = CLOCK_PLACES if seconds else CLOCK_PLACES[:4]
    clocks = counted(places, [*digits, *((20 + place, 10) for place in range(len(part)))],
                     1 if seconds else 60)
    if clocks is None or max(clocks) >= 86400 * power:
        return None
    days = array.array("Q", joined(places, DAY_PLACES))
    # most have one day
    distinct = set(days[:1]) if days.tobytes() == days[:1].tobytes() * count else set(days)
    starts = {day: start_of(day, offset, power) for day in distinct}
    if None in starts.values():
        return None
    found = map(starts.__getitem__, days) if len(starts) > 1 else itertools.repeat(starts[days[0]])
    numbers = list(map(operator.add, found, clocks))
    if offset and (min(numbers) < FIRST_SECOND * power or max(numbers) >= LAST_SECOND * power):
        return None
    return PlainTimes(numbers, (between, bool(seconds), len(part), zone))


def are_alike(places: Sequence[bytes], first: str, end: int) -> bool:
    """Returns whether lines, of which each place is given, have digits where the first has some
    before an end, and else its signs."""
    for at, (sign, place) in enumerate(zip(f"{first}\n", places)):
        is_digit = sign.isdigit() and at < end
        if not (place.isdigit() if is_digit else place == sign.encode() * len(place)):
            return False
    return True


def counted(places: Sequence[bytes], digits: Iterable[tuple[int, int]],
            unit: int) -> Optional[array.array[int]]:
    """Returns the units of times of day whose digits are at some places, or None if a minute or a
    second is past 59."""
    count, found = len(places[0]), 0
    for place, radix in digits:
        if radix == 6 and places[place].strip(b"012345"):
            return None
        # one integer has 64 bits for each line
        lanes = bytearray(8 * count)
        lanes[::8] = places[place].translate(DIGITS)
        found = found * radix + int.from_bytes(lanes, "little")
    return array.array("q", (found * unit).to_bytes(8 * count, "little"))


def joined(places: Sequence[bytes], wanted: Sequence[int]) -> bytes:
    """Returns the bytes at some places of all lines, those of each line together."""
    found = bytearray(len(wanted) * len(places[0]))
    for at, place in enumerate(wanted):
        found[at::len(wanted)] = places[place]
    return bytes(found)


def start_of(day: int, offset: int, power: int) -> int | None:
    """Returns when a day begins, whose digits are the bytes of an integer, or None if there is no
    such day."""
    text = day.to_bytes(8, "little").decode("ascii")
    found = day_of(int(text[:4]), int(text[4:6]), int(text[6:]))
    return None if found is None else (found * 86400 - offset) * power


def times_of(numbers: Sequence[int], shape: tuple[str, bool, int, str]) -> list[str]:
    """Returns the texts of plain times."""
    between, has_seconds, digits, zone = shape
    offset = (offset_of(zone) or 0) * 10 ** digits
    form = f"%Y-%m-%d{between}%H:%M{':%S' if has_seconds else ''}"
    return spelled_times([number + offset for number in numbers] if offset else numbers, form,
                         digits, zone)


def spelled_times(numbers: Sequence[int], form: str, digits: int, zone: str) -> list[str]:
    """Returns the texts of seconds since 1970, multiplied by ten to `digits`, in a format that
    begins with that of the day and ends in %H:%M or %H:%M:%S."""
    power, last = 10 ** digits, ":%S" if form.endswith(":%S") else ""
    first = form[:-5 - len(last)]
    parts = list(map(divide, numbers, itertools.repeat(60 * power)))
    minutes = {minute: written_by(first, minute // 1440, 0) +
               f"{minute // 60 % 24:02}:{minute % 60:02}"
               for minute in {minute for minute, _ in parts}}
    seconds = {second: (f":{second // power:02}" if last else "") +
               (f".{second % power:0{digits}}" if digits else "") + zone
               for second in {second for _, second in parts}}
    return [minutes[minute] + seconds[second] for minute, second in parts]


# Times of day: seconds since midnight.


class Clocks(Valued):
    """Seconds since midnight, multiplied by ten to the number of digits after the point, which are
    printed in a format."""
    name: ClassVar[str] = "clocks"
    plural: ClassVar[str] = "times of day"
    is_summable: ClassVar[bool] = False
    listed: ClassVar[None] = None

    def __init__(self, form: str, digits: int = 0) -> None:
        self.form, self.digits = form, digits

    @property
    def example(self) -> str:
        return f"'{self.text(45000 * 10 ** self.digits)}'"

    def read(self, text: str) -> tuple[int, int] | None:
        """Returns the second of a time of day multiplied by ten to a number of digits, and that
        number; or None."""
        found = read_by(self.form, text)
        if found:
            return found[1], 0
        ended = read_ended(self.form, text)
        if ended:
            return None if ended.has_zone else (ended.number, ended.digits)
        clock = clock_of(text)
        return (clock.part, clock.digits) if clock and not clock.has_zone else None

    def number(self, text: str) -> int | None:
        found = self.read(text)
        if found is None or found[1] > self.digits:
            return None
        return found[0] * power_of_ten(self.digits - found[1])

    def text(self, number: int) -> str:
        second, part = divmod(number, 10 ** self.digits)
        if not 0 <= second < 86400:
            raise IndexError
        return with_part(written_by(self.form, 0, second), part, self.digits)

    def total(self, number: int) -> str:
        raise ValueError

    def spell(self, numbers: Sequence[int]) -> list[str]:
        return list(map(self.text, numbers))

    def place(self, literal: Literal) -> Place | None:
        found = self.read(literal) if isinstance(literal, str) else None
        if found is None:
            return None
        from fractions import Fraction
        place = Fraction(found[0] * 10 ** self.digits, 10 ** found[1])
        return math.floor(place), place.denominator == 1

    def settings(self) -> Settings:
        return {"form": self.form, "digits": self.digits}

    def alike(self, other: Kind) -> bool:
        return isinstance(other, Clocks) and self.digits == other.digits

    def told(self) -> str:
        return f"times of day as {unit_of(self.digits)} since midnight"


# Dates: days since 1970-01-01.


class Dates(Valued):
    """Days since 1970-01-01, which are printed in a format."""
    name: ClassVar[str] = "dates"
    plural: ClassVar[str] = "dates"
    is_summable: ClassVar[bool] = False
    listed: ClassVar[None] = None

    def __init__(self, form: str = ISO_DATE) -> None:
        self.form = form

    @property
    def example(self) -> str:
        return f"'{self.text(19844)}'"

    def number(self, text: str) -> int | None:
        found = read_moment(self.form, text)
        return None if found is None or found.has_clock else found.number // 86400

    def text(self, number: int) -> str:
        return written_by(self.form, number, 0)

    def total(self, number: int) -> str:
        raise ValueError

    def spell(self, numbers: Sequence[int]) -> list[str]:
        return [written_by(self.form, number, 0) for number in numbers]

    def place(self, literal: Literal) -> Place | None:
        found = read_moment(self.form, literal) if isinstance(literal, str) else None
        if found is None or found.has_zone:
            return None
        from fractions import Fraction
        day = Fraction(found.number, 86400 * 10 ** found.digits)
        return math.floor(day), day.denominator == 1

    def settings(self) -> Settings:
        return {"form": self.form}

    def alike(self, other: Kind) -> bool:
        return isinstance(other, Dates)

    def told(self) -> str:
        return f"dates{'' if self.form == ISO_DATE else f' {self.form}'} as days since 1970"


# Times: seconds since the start of 1970.


class Times(Valued):
    """Seconds since the start of 1970, multiplied by ten to the number of digits after the point,
    which are printed in a format. With a zone Z all are in UTC."""
    name: ClassVar[str] = "times"
    plural: ClassVar[str] = "times"
    is_summable: ClassVar[bool] = False
    listed: ClassVar[None] = None

    def __init__(self, form: str, digits: int = 0, zone: str = "") -> None:
        self.form, self.digits, self.zone = form, digits, zone

    @property
    def example(self) -> str:
        return f"'{self.text(1714566600 * 10 ** self.digits)}'"

    def number(self, text: str) -> int | None:
        found = read_moment(self.form, text)
        if found is None or found.digits > self.digits or found.has_zone and not self.zone:
            return None
        return found.number * power_of_ten(self.digits - found.digits)

    def text(self, number: int) -> str:
        seconds, part = divmod(number, 10 ** self.digits)
        text = written_by(self.form, *divmod(seconds, 86400))
        return with_part(text, part, self.digits) + self.zone

    def total(self, number: int) -> str:
        raise ValueError

    def spell(self, numbers: Sequence[int]) -> list[str]:
        if self.form.endswith(("%H:%M", "%H:%M:%S")):
            return spelled_times(numbers, self.form, self.digits, self.zone)
        return list(map(self.text, numbers))

    def place(self, literal: Literal) -> Place | None:
        found = read_moment(self.form, literal) if isinstance(literal, str) else None
        if found is None or found.has_zone and not self.zone:
            return None
        from fractions import Fraction
        place = Fraction(found.number * 10 ** self.digits, 10 ** found.digits)
        return math.floor(place), place.denominator == 1

    def settings(self) -> Settings:
        return {"form": self.form, "digits": self.digits, "zone": self.zone}

    def alike(self, other: Kind) -> bool:
        return isinstance(other, Times) and (self.digits, self.zone) == (other.digits, other.zone)

    def told(self) -> str:
        form = "" if self.form.startswith(ISO_DATE) else f" {self.form}"
        return f"times{form}{' of UTC' if self.zone else ''} as {unit_of(self.digits)} since 1970"


# Formats of dates and times, and which kinds they make.

LETTERS = set("YymbBdHIpMS")
# a format with a part of a second, and with a zone at its end
FORMAT_PARTS = re.compile(r"(.*?)((?<=%S)[.,]%f)?((?: ?%p)?)( ?%z)?", re.DOTALL)


class DateFormat(NamedTuple):
    """A format of dates or times as an option gives it: the part that a kind has, whether parts of
    seconds may be in it, and whether zones must be."""
    form: str
    has_part: bool
    has_zone: bool

    def kind(self, digits: int) -> Union[Dates, Times, Clocks]:
        """Returns the kind of a column with so many digits after the point of its seconds. Those
        with zones become times of UTC."""
        if not has_any(self.form, "HIpMS"):
            return Dates(self.form)
        if not has_any(self.form, "Yy"):
            return Clocks(self.form, digits)
        return Times(self.form, digits, "Z" if self.has_zone else "")


def has_any(form: str, letters: str) -> bool:
    return not set(letters).isdisjoint(re.findall("%(.)", form))


def format_of(text: str) -> DateFormat:
    """Returns the format that an option gives."""
    found = FORMAT_PARTS.fullmatch(text)
    assert found, "each part may be missing"
    form = found[1] + found[3]
    letters = set(re.findall("%(.)", form)) - {"%"}
    has_day = bool(letters & set("Yy")) and bool(letters & set("mbB")) and "d" in letters
    has_clock = bool(letters & set("HIpMS"))
    hours = letters & set("HIp")
    is_zoned = found[4] is None or has_day and ENDS.search(form)
    if letters <= LETTERS and (has_day or not letters & set("YymbBd")) and \
            (has_day or has_clock) and (not has_clock or hours in ({"H"}, {"I", "p"})) and is_zoned:
        return DateFormat(form, found[2] is not None, found[4] is not None)
    raise Refused(f"--date: {shown(text)} is not a valid format: use %Y or %y, %m, %b or %B, and "
                  "%d, and for a time %H, or %I and %p, and %M and %S, which .%f may follow; %z "
                  "must be behind the time, at the end")


def is_format(form: object) -> bool:
    """Returns whether a setting is a format of dates or times."""
    if not isinstance(form, str) or len(form) > 80:
        return False
    return set(re.findall("%-?(.?)", form)) <= LETTERS | {"%"}

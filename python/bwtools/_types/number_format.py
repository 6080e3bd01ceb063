"""Numbers as texts: their digits and signs, and the style in which a column prints them."""
from __future__ import annotations

import functools
import re
from typing import NamedTuple


# How numbers are spelled: their digits and signs, and what is written around them. A number in
# *plain spelling* has an optional sign, digits with at most one point, and an optional power of
# ten, such as -12.50 or 1e-3. A style adds what people write around it: another decimal sign,
# signs between thousands, a currency or a unit, and brackets for negative numbers.

PLAIN = re.compile(r"[+-]?(?:[0-9]+\.?[0-9]*|\.[0-9]+)(?:[eE][+-]?[0-9]{1,6})?")
CURRENCIES = "$\u00a2\u00a3\u00a4\u00a5\u20a0-\u20cf"
ISO_CODES = ("AUD|BRL|CAD|CHF|CNY|CZK|DKK|EUR|GBP|HKD|HUF|ILS|INR|JPY|KRW|MXN|NOK|NZD|PLN|RON|"
         "RUB|SEK|SGD|TRY|USD|ZAR")
# units that may follow a number at once, and those that a blank must be before
UNITS = (f"%|\u2030|\u00b0[CF]?|{ISO_CODES}|[KMGT]i?B|kB|mg|kg|mm|cm|km|ms|min|lbs|oz|km/h|mph|"
         "m/s|kW|kWh|Hz|kHz|MHz|GHz|ml|px|pt|kr|z\u0142|K\u010d|Ft|lei")
LETTERS = "[BghmstdlWVkx]|lb|ft|in|mi|yd"
DOLLARS = "US$|A$|C$|R$|S$|HK$|NZ$|CA$|AU$"
PREFIX = (f"(?:{ISO_CODES}|{DOLLARS.replace(chr(36), chr(92) + chr(36))}|"
          f"[{CURRENCIES}])[ \u00a0]?")
SUFFIX = f"[ \u00a0\u202f]?(?:{UNITS}|[{CURRENCIES}])|[ \u00a0\u202f](?:{LETTERS})"
# what may separate thousands besides a point and a comma: an apostrophe, a blank of three widths,
# or a low line
BETWEEN = "'\u2019 \u00a0\u202f_"
# stands for a comma that separates the last three digits, and above these every two, as in India
LAKHS = ",,"
# patterns of many words take long to compile, and queries need none of them
STYLED = (
    rf"(?P<open>\()?(?P<sign>[+-]?)(?P<prefix>{PREFIX})?(?P<inner>[+-]?)"
    rf"(?P<body>[0-9](?:[0-9.,{BETWEEN}]*[0-9.,])?|[.,][0-9]+)(?P<power>[eE][+-]?[0-9]{{1,6}})?"
    rf"(?P<suffix>{SUFFIX})?(?P<close>\))?")
# a code such as 1E3, which is also a number
CODE = re.compile("[0-9]+[eE][0-9]+")
# a telephone number with the sign of a country's code, which is also a number
PHONE = re.compile(r"\+[1-9][0-9 \u00a0\u202f]*")
# a number with a larger power of ten than this doesn't fit
MOST_SHIFT = 400
SIMPLE = re.compile("-?(?:0|[1-9][0-9]*)")
ZEROS = re.compile("[+-]?0[0-9]")
WHOLE = re.compile("[+-]?[0-9]+")


class Parts(NamedTuple):
    """The parts of a text that is a number: its sign, its digits with the marks among them, and
    what is around it."""
    sign: str
    body: str
    power: str
    prefix: str
    suffix: str
    has_brackets: bool


class Marks(NamedTuple):
    """What the marks among a number's digits show: the sign between its thousands, its decimal
    sign, and a mark that may be either of them, each of them or nothing."""
    grouping: str = ""
    decimal: str = ""
    either: str = ""


@functools.lru_cache(None)
def styled_number() -> re.Pattern[str]:
    """Returns the pattern of numbers in any style."""
    return re.compile(STYLED)


def parts_of(text: str) -> Parts | None:
    """Returns the parts of a text, or None if it isn't a number in any style."""
    found = styled_number().fullmatch(text)
    if not found or (found["open"] is None) != (found["close"] is None):
        return None
    if found["sign"] and found["inner"]:
        return None
    sign = found["sign"] or found["inner"]
    if found["open"] and sign or not found["prefix"] and found["inner"]:
        return None
    return Parts("-" if found["open"] else sign, found["body"], found["power"] or "",
                 found["prefix"] or "",
                 found["suffix"] or "", found["open"] is not None)


@functools.lru_cache(64)
def groups(mark: str) -> re.Pattern[str]:
    if mark == LAKHS:
        return re.compile("[1-9][0-9]?(?:,[0-9]{2})*,[0-9]{3}")
    return re.compile(f"[1-9][0-9]{{0,2}}(?:{re.escape(mark)}[0-9]{{3}})+")


def is_grouped(body: str, mark: str) -> bool:
    """Returns whether a mark separates the thousands of digits."""
    return groups(mark).fullmatch(body) is not None


def grouping_of(body: str, mark: str) -> str:
    """Returns how a mark groups digits, or nothing if it doesn't."""
    kinds = (mark, LAKHS) if mark == "," else (mark,)
    return next((each for each in kinds if is_grouped(body, each)), "")


def grouped(digits: str, mark: str) -> str:
    """Returns digits with a mark between groups."""
    if mark != LAKHS:
        return f"{int(digits):,}".replace(",", mark)
    first, last = digits[:-3], digits[-3:]
    pairs = [first[max(end - 2, 0):end] for end in range(len(first), 0, -2)]
    return ",".join([*pairs[::-1], last])


def marks_of(body: str) -> Marks | None:
    """Returns what the marks among digits show, or None if these are no number."""
    found = re.sub("[0-9]", "", body)
    if not found:
        return Marks()
    first, last = found[0], found[-1]
    if len(set(found)) == 1:
        if len(found) == 1 and first in ".,":
            return Marks(either=first) if is_grouped(body, first) else Marks(decimal=first)
        kind = grouping_of(body, first)
        return Marks(grouping=kind) if kind else None
    whole, _, part = body.rpartition(last)
    if last not in ".," or set(found[:-1]) != {first} or first == last:
        return None
    kind = grouping_of(whole, first)
    return Marks(grouping=kind, decimal=last) if kind else None


def is_number(text: str) -> bool:
    """Returns whether a text is a number, in plain spelling or with marks, currencies and units
    that are in use."""
    if PLAIN.fullmatch(text):
        return True
    found = parts_of(text)
    return found is not None and marks_of(found.body) is not None


@functools.lru_cache(None)
def like_number() -> re.Pattern[str]:
    """Returns the pattern of lines that may be numbers."""
    return re.compile("^(?:" + re.sub(r"\?P<[a-z]+>", "?:", STYLED) +
                      "|[+-]?[0-9]+\\.(?:[eE][+-]?[0-9]{1,6})?)$", re.MULTILINE)


# the ranges in which such lines begin: those from ( to 9, and those with a currency
STARTS = [("$", "%"), ("(", ")"), ("+", "/"), ("0", ":"), ("\u00a2", "\u00a6"),
          ("\u20a0", "\u20d0"),
          *((code, f"{code}\U0010ffff") for code in ISO_CODES.split("|")),
          *((code, f"{code}%") for code in DOLLARS.split("|"))]


def power_of_ten(exponent: int) -> int:
    """Returns a power of ten whose exponent isn't negative."""
    return int(10 ** exponent)


def scaled(plain: str, digits: int) -> int | None:
    """Returns a number in plain spelling multiplied by ten to `digits`, or None if that isn't a
    whole number."""
    if plain.isdecimal() and plain.isascii():
        return int(plain) * power_of_ten(digits)
    if not PLAIN.fullmatch(plain):
        return None
    mantissa, _, power = plain.lower().partition("e")
    whole, _, part = mantissa.partition(".")
    shift = digits - len(part) + int(power or 0)
    if abs(shift) > MOST_SHIFT:
        return None if int(f"{whole}{part}" or 0) else 0
    number = int(f"{whole}{part}")
    if shift >= 0:
        return number * power_of_ten(shift)
    found, rest = divmod(number, power_of_ten(-shift))
    return None if rest else found


# The style that all numbers of a column share.


class Style(NamedTuple):
    """What is written around and between the digits of a column's numbers."""
    mark: str = "."
    grouping: str = ""
    prefix: str = ""
    suffix: str = ""
    brackets: int = 0

    def bare(self, text: str) -> str | None:
        """Returns the plain spelling of a text that is a number in this style, or in it without its
        unit; None for another."""
        if self == DEFAULT and PLAIN.fullmatch(text):
            return text
        found = parts_of(text)
        if found is None or not {found.prefix.strip()} <= {"", self.prefix.strip()} or \
                not {found.suffix.strip()} <= {"", self.suffix.strip()}:
            return None
        body, between = found.body, self.grouping[:1]
        if between and between in body:
            if not is_grouped(body.partition(self.mark)[0], self.grouping):
                return None
            body = body.replace(between, "")
        plain = f"{found.sign}{body.replace(self.mark, '.')}{found.power}"
        return plain if PLAIN.fullmatch(plain) else None

    def format(self, plain: str) -> str:
        """Returns a plain spelling in this style."""
        is_negative, digits = plain[:1] == "-", plain.lstrip("+-")
        if self.grouping and "e" not in digits:
            whole, point, part = digits.partition(".")
            whole = grouped(whole or "0", self.grouping)
            digits = f"{whole}{self.mark}{part}" if point else whole
        elif self.mark != ".":
            digits = digits.replace(".", self.mark)
        text = f"{self.prefix}{digits}{self.suffix}"
        return text if not is_negative else f"({text})" if self.brackets else f"-{text}"

    def told(self) -> str:
        """Returns what the style adds, for a report."""
        found = [f"{affix.strip()!r}" for affix in (self.prefix, self.suffix) if affix]
        lakhs = " and lakhs" if self.grouping == LAKHS else ""
        found += [f"{self.grouping[0]!r} between thousands{lakhs}"] if self.grouping else []
        found += [f"{self.mark!r} as the decimal sign"] if self.mark != "." else []
        return ", ".join([*found, *(["brackets for negative"] if self.brackets else [])])


DEFAULT = Style()

"""What literals mean. A number means its exact value, also beside an integer column; beside a
column of floats the double nearest to it, unless it is an integer of 64 bits. A date or a time
means a moment: the first one, if it is shorter than the column's values are.

SQLite would compare doubles and texts: so a literal that is compared with a column may have another
text for it."""
from __future__ import annotations

import math
import re
from collections.abc import Mapping
from typing import TYPE_CHECKING, Any, Sequence, Union

from .._errors import Refused
from .._result import INTEGER, MOMENTS, affinity, is_long
from .._types.base import GREATEST, LEAST, Column
from .._types.dictionary import is_unicode
from .._types.kinds import Styled, unstyled
from .lexer import BLOB, MOST_SHORT, NUMBER, TEXT, WORD, text_literal
from .syntax import ColumnName, Literal, Node, Unary

if TYPE_CHECKING:
    from fractions import Fraction

NUMERAL = re.compile("-?(0[xX][0-9A-Fa-f]+|[0-9.]+([eE][+-]?[0-9]+)?)")
# the digits of a number that are read: it is beyond all columns, or nearer to 0 than any, if its
# first one is further away from the point
MOST_DIGITS = 400
# integers of more bits aren't in a message
MOST_BITS = 256
# the longest numeral of which SQLite reads the nearest double
MOST_SURE = 17
# integers up to it, and a half beside each, are doubles
MOST_HALVES = 1 << 51


class Constant:
    """An operand that is a literal, with its sign: its value, of which None is NULL and bytes a
    blob; and whether SQLite reads it as an integer."""
    __slots__ = ("node", "value", "is_integer", "is_float", "text")

    def __init__(self, node: Node | None, value: Union[None, str, Fraction, bytes],
                 is_integer: bool = False, is_float: bool = False, text: str = "") -> None:
        self.node, self.value = node, value
        self.is_integer, self.is_float, self.text = is_integer, is_float, text

    def beside(self, column: Column) -> Union[None, str, Fraction, bytes]:
        """Returns the value that it has beside a column: a double beside decimals is the decimal
        that it is printed as."""
        if self.is_float and column.kind.name == "decimals":
            from fractions import Fraction
            return Fraction(self.text)
        return self.value


def constant_of(node: Node) -> Constant | None:
    """Returns what an expression is that is a literal, or None."""
    if isinstance(node, Literal):
        value, text = node.value, node.text
        is_integer = node.kind == NUMBER and is_integral(text) and (
            len(text) <= MOST_SHORT or value is not None and
            not isinstance(value, (str, bytes)) and LEAST <= value <= GREATEST)
        return Constant(node, value, is_integer, node.is_float, text)
    if isinstance(node, Unary) and node.sign in ("+", "-"):
        inner = constant_of(node.operand) if isinstance(node.operand, Literal) else None
        if inner is None or inner.value is None or isinstance(inner.value, (str, bytes)):
            return None
        if node.sign == "+":
            return Constant(node, inner.value, inner.is_integer, inner.is_float, inner.text)
        text = inner.text[1:] if inner.text[:1] == "-" else f"-{inner.text}"
        is_integer = is_integral(inner.text) and inner.value <= -LEAST
        return Constant(node, -inner.value, is_integer, inner.is_float, text)
    if isinstance(node, ColumnName) and not node.output and not node.table and \
            not node.name.quote and node.name.text.upper() in ("TRUE", "FALSE"):
        from fractions import Fraction
        return Constant(node, Fraction(node.name.text.upper() == "TRUE"), True)
    return None


def is_integral(text: str) -> bool:
    return text.isdecimal() or text.lstrip("-").isdecimal() or text[:2].lower() == "0x"


def evaluate(literal: Literal) -> None:
    """Gives a literal its value."""
    if literal.kind == NUMBER:
        literal.value = exact(literal.text)
    elif literal.kind == TEXT:
        literal.value = literal.text[1:-1].replace("''", "'")
    elif literal.kind == BLOB:
        literal.value = b""


def exact(text: str) -> Fraction:
    """Returns the number of a numeral. One that is beyond all columns, or nearer to 0 than any, or
    has more digits than any, becomes another one that compares with theirs as it does."""
    from fractions import Fraction
    if len(text) <= MOST_SHORT and text.isdecimal():
        # most numbers
        return Fraction(int(text))
    sign, text = (-1, text[1:]) if text[:1] == "-" else (1, text)
    if text[:2].lower() == "0x":
        number = int(text, 16)
        return Fraction(sign * (number if number <= GREATEST else number - (1 << 64)))
    mantissa, _, power = text.lower().partition("e")
    whole, _, part = mantissa.partition(".")
    digits = (whole + part).lstrip("0")
    if not digits:
        return Fraction(0)
    many = len(power) > 9
    tens = (int(power[:10] or 0) if not many else 10 ** 9 * (-1 if power[0] == "-" else 1)) - \
        len(part)
    if len(digits) + tens > MOST_DIGITS:
        return Fraction(sign * 10 ** MOST_DIGITS)
    if len(digits) + tens < -MOST_DIGITS:
        return Fraction(sign, 10 ** MOST_DIGITS)
    most = 2 * MOST_DIGITS
    if len(digits) > most:
        rest, tens = digits[most:], tens + len(digits) - most
        digits = digits[:most]
        if rest.strip("0"):
            digits, tens = f"{digits}1", tens - 1
    return sign * int(digits) * Fraction(10) ** tens


def bind(parameters: Sequence[Literal], given: Any) -> None:
    """Gives the parameters of a statement their values. Raises Refused if there are too few or too
    many, or for a value of another type."""
    if not parameters and isinstance(given, (tuple, list, dict)) and (
            not given or isinstance(given, dict)):
        return
    for literal, (value, number) in zip(parameters, values_of(parameters, given)):
        literal.kind, literal.text = literal_of(value, literal, number)
        literal.is_float = isinstance(value, float) or is_of_numpy(value, "f")
        if literal.is_float:
            from fractions import Fraction
            literal.value = Fraction(float(value))
        else:
            evaluate(literal)


def form_of(column: Column, constant: Constant, sign: str) -> str:
    """Returns the text for SQLite of a literal that is compared with a column, or nothing if it
    stays as it is. `sign` is the operator between the column and the literal, = for one of
    equality. Raises Refused if SQLite can't compare them."""
    kind, value = column.kind, constant.beside(column)
    if isinstance(value, str):
        return text_form(column, value)
    if value is None or isinstance(value, bytes):
        return ""
    plain: Any = unstyled(kind)
    if is_long(column):
        scaled = Constant(None, value * 10 ** plain.digits, False, False, "." * (MOST_SURE + 1))
        return integer_form(scaled, value * 10 ** plain.digits, sign)
    if affinity(kind) == INTEGER:
        return integer_form(constant, value, sign)
    if plain.name == "decimals":
        return decimal_form(plain, constant, value)
    return "" if constant.is_integer else double_form(constant, value)


def are_same(form: str, other: str, constant: Constant) -> bool:
    """Returns whether two texts for SQLite of a literal mean the same; an empty one is what was
    written."""
    if form == other:
        return True
    texts = [each or constant.text for each in (form, other)]
    return all(map(NUMERAL.fullmatch, texts)) and \
        read_by_sqlite(texts[0]) == read_by_sqlite(texts[1])


def read_by_sqlite(text: str) -> int | float:
    """Returns the number that SQLite reads: an integer of 64 bits, or the nearest double."""
    value = exact(text)
    if is_integral(text) and LEAST <= value <= GREATEST:
        return int(value)
    try:
        return float(value)
    except OverflowError:
        return math.inf if value > 0 else -math.inf


def text_form(column: Column, value: str) -> str:
    """Returns the text for SQLite of a text: of a date or a time the ISO form, of a number in the
    column's style the number, of a boolean 0 or 1."""
    kind = column.kind
    if kind.name in MOMENTS:
        # few statements need it
        from .._result import iso_text
        return text_literal(iso_text(kind, value))
    place = kind.place(value) if kind.name == "truths" or isinstance(kind, Styled) else None
    if place is None:
        return ""
    return kind.inner.text(place[0]) if isinstance(kind, Styled) else str(place[0])


def integer_form(constant: Constant, value: Fraction, sign: str) -> str:
    """Returns the text of a number that compares with integers as its exact value does."""
    floor = math.floor(value)
    if constant.is_integer:
        return ""
    if not LEAST <= floor <= GREATEST:
        return "9e999" if value > 0 else "-9e999"
    if value == floor and abs(floor) < 2 * MOST_HALVES and len(constant.text) <= MOST_SURE:
        # it is a double
        return ""
    if value == floor:
        return str(floor) if floor != LEAST else "(-9223372036854775807 - 1)"
    if abs(floor) < MOST_HALVES:
        double = float(value)
        return "" if floor < double < floor + 1 and len(constant.text) <= MOST_SURE else \
            f"{floor}.5" if floor >= 0 else f"-{-floor - 1}.5"
    if sign == "ROW":
        raise Refused(f"{constant.text} can't be compared with an integer in a row: write integers")
    if sign in ("<", ">="):
        return str(floor + 1)
    return str(floor) if sign in ("<=", ">") else "0.5"


def decimal_form(kind: Any, constant: Constant, value: Fraction) -> str:
    """Returns the text of a number that compares with decimals, which SQLite has as doubles, as its
    exact value does."""
    power = 10 ** kind.digits
    scaled = value * power
    if scaled.denominator == 1 or constant.is_integer:
        return "" if constant.is_integer else double_form(constant, value)
    floor = math.floor(scaled)
    try:
        if floor / power < float(value) < (floor + 1) / power:
            return double_form(constant, value)
        return repr((2 * floor + 1) / (2 * power))
    except OverflowError:
        return "9e999" if value > 0 else "-9e999"


def double_form(constant: Constant, value: Fraction) -> str:
    """Returns the text of the double nearest to a number, if it is longer than that."""
    if len(constant.text) <= MOST_SURE:
        return ""
    try:
        return repr(float(value))
    except OverflowError:
        return "9e999" if value > 0 else "-9e999"


# the greatest number of a parameter
MOST = 32_766
# types of pandas whose only value is null
MISSING = ("NAType", "NaTType")


def values_of(marks: Sequence[Literal], parameters: Any) -> list[tuple[Any, int]]:
    """Returns the values of a statement's parameters, and their numbers. A mapping has those of
    names, and any sequence those of numbers. Raises Refused if a value is missing or surplus."""
    numbers = numbers_of(marks)
    most = max(numbers, default=0)
    if isinstance(parameters, Mapping):
        return [(named(parameters, mark), number) for mark, number in zip(marks, numbers)]
    if isinstance(parameters, (str, bytes)) or not hasattr(parameters, "__getitem__"):
        raise Refused("parameters must be a sequence of values, one for each ?, or a mapping with "
                      "one for each name")
    try:
        values = list(parameters)
    except TypeError:
        raise Refused("parameters must be a sequence of values, or a mapping") from None
    if most != len(values):
        raise Refused(f"the statement has {most} parameters, and {len(values)} values were given")
    return [(values[number - 1], number) for number in numbers]


def numbers_of(marks: Sequence[Literal]) -> list[int]:
    """Returns the numbers of parameters."""
    known, found, most = dict[str, int](), list[int](), 0
    for mark in marks:
        if mark.mark[1:].isdecimal() and mark.mark[0] == "?":
            number = int(mark.mark[1:6])
            if not 0 < number <= MOST or len(mark.mark) > 6:
                raise Refused(f"{mark.mark} at character {mark.start} of the statement: a "
                              f"parameter's number is from 1 to {MOST}")
        else:
            number = most + 1 if mark.mark == "?" else known.setdefault(mark.mark, most + 1)
        found.append(number)
        most = max(most, number)
    return found


def named(parameters: Mapping[str, Any], mark: Literal) -> Any:
    """Returns the value of a parameter's name."""
    where = f"{mark.mark} at character {mark.start} of the statement"
    if mark.mark[0] == "?":
        raise Refused(f"{where} has no name, and the parameters are a mapping: write :name")
    try:
        return parameters[mark.mark[1:]]
    except KeyError:
        raise Refused(f"{where}: the parameters have no {mark.mark[1:]}") from None


def literal_of(value: Any, mark: Literal, number: int) -> tuple[str, str]:
    """Returns the kind and the text of the literal of a parameter. Integers and floats of any
    library are converted, and decimals exactly; other types are refused."""
    import datetime
    what = f"parameter {number}" if mark.mark[0] == "?" else f"parameter {mark.mark}"
    if value is None or type(value).__name__ in MISSING or is_of_numpy(value, "M") and \
            str(value) == "NaT":
        return WORD, "NULL"
    if isinstance(value, str):
        if "\0" in value:
            raise Refused(f"{what} has a character NUL")
        if not is_unicode(value):
            raise Refused(f"{what} has a character that isn't text")
        return TEXT, text_literal(str(value))
    if isinstance(value, (bytes, bytearray, memoryview)):
        return BLOB, f"X'{bytes(value).hex()}'"
    if isinstance(value, (datetime.date, datetime.time)) or is_of_numpy(value, "M"):
        return TEXT, text_literal(iso(value))
    text = numeral(value, what)
    if text is None:
        raise Refused(f"{what} is of type {type(value).__module__}."
                      f"{type(value).__qualname__}: use int, float, str, bool, None, bytes, "
                      "datetime.date, datetime.datetime, datetime.time or decimal.Decimal")
    return NUMBER, text


def numeral(value: Any, what: str) -> str | None:
    """Returns the numeral of a number, or None for another value."""
    import decimal
    import operator
    if isinstance(value, decimal.Decimal):
        # of few digits, but for zeros: the text of 1E+300000000 has 300 MB
        is_short = not value or abs(value.adjusted()) <= MOST_DIGITS
        found, is_finite = f"{value:{'f' if is_short else 'e'}}", value.is_finite()
    elif isinstance(value, float) or is_of_numpy(value, "f"):
        found, is_finite = repr(float(value)), math.isfinite(value)
    else:
        try:
            # numpy's booleans are none of Python's integers
            whole = int(operator.index(value.item() if is_of_numpy(value, "b") else value))
        except TypeError:
            return None
        if not LEAST <= whole <= GREATEST:
            is_long = whole.bit_length() > MOST_BITS
            shown = "" if is_long else f": {whole}"
            raise Refused(f"{what} is outside the range of 64 bits{shown}")
        return str(whole)
    if not is_finite:
        raise Refused(f"{what} is {value}, which isn't a number")
    return found


def is_of_numpy(value: Any, kind: str) -> bool:
    """Returns whether a value is a scalar of numpy, of a kind of its types."""
    return type(value).__module__ == "numpy" and hasattr(value, "dtype") and \
        value.dtype.kind == kind and not getattr(value, "shape", ())


def iso(value: Any) -> str:
    """Returns the ISO form of a date or a time."""
    import datetime
    if isinstance(value, datetime.datetime):
        return value.isoformat(" ")
    if isinstance(value, (datetime.date, datetime.time)):
        return value.isoformat()
    # numpy's: of days if its unit is no shorter, and with seconds if it is a part of a day
    unit = str(value.dtype).partition("[")[2].rstrip("]")
    if unit in ("Y", "M", "W", "D"):
        return str(value.astype("datetime64[D]"))
    return str(value.astype("datetime64[s]") if unit in ("h", "m") else value).replace("T", " ")

"""Conditions, sums and lists over columns of numbers, drawn together with what they mean, by exact
fractions, without SQLite: python3 -m tests.drawn_numbers [--seed N] [--count N]. It prints each
answer that differs, in either way, and exits with 1 if there is one. A refusal isn't one, if its
message is among those that pages list."""
from __future__ import annotations

import argparse
import math
import operator
import pathlib
import random
import re
import sys
import tempfile
from collections import Counter
from fractions import Fraction
from typing import Any, Callable, Iterator, List, NamedTuple, Sequence, Tuple

import tests  # noqa: F401  finds bwtools
import bwtools
from bwtools._errors import Refused
from bwtools._sql import plan
from bwtools._sql.plan import Statement
from tests import reference, support

# the columns, and the digits after the point of decimals; -1 are floats
COLUMNS = {"id": 0, "w": 0, "d": 2, "c": 4, "g": 2, "h": 2, "l": 4, "f": -1, "e": -1}
LONG = ("g", "h", "l")
ROWS, A_TABLE = 24, 250
# what pages list
REFUSED = re.compile("decimals of more than 15 digits|has it in different forms|which have it in "
                     "different forms|outside the range of 64 bits|with an integer in a row")
SIGNS: dict[str, Callable[[Any, Any], Any]] = {
    "=": operator.eq, "<>": operator.ne, "<": operator.lt, ">": operator.gt, "<=": operator.le,
    ">=": operator.ge}
# a value: of a whole number, or of a decimal that is exact, or a double
Value = Any
Row = dict[str, Value]
# a statement, and the rows of its answer
Asked = Tuple[str, List[Tuple[Value, ...]]]


class Expression(NamedTuple):
    """The text of an expression, and what it is for a row."""

    text: str
    of: Callable[[Row], Value]
    # whether it is a column or a literal, so that it is compared by its exact value
    is_plain: bool = False
    column: str = ""


class Decimal(Fraction):
    """A decimal of a column, which is compared exactly, but beside floats as its double."""


def double(value: Value) -> Value:
    """Returns what SQLite has of a value."""
    return float(value) if isinstance(value, Fraction) else value


def compared(left: Value, sign: str, right: Value) -> bool | None:
    """Returns a comparison of two values, or None if one is null."""
    if left is None or right is None:
        return None
    if isinstance(left, float) and isinstance(right, Decimal) or \
            isinstance(right, float) and isinstance(left, Decimal):
        left, right = double(left), double(right)
    return bool(SIGNS[sign](exact(left), exact(right)))


def nearest(value: Fraction) -> float:
    """Returns the double nearest to a number."""
    try:
        return float(value)
    except OverflowError:
        return math.inf if value > 0 else -math.inf


def exact(value: Value) -> Fraction | float:
    if isinstance(value, float) and not math.isfinite(value):
        return value
    return Fraction(value)


def truncated(value: Value) -> int:
    """Returns a value as a whole number of 64 bits."""
    return max(-1 << 63, min((1 << 63) - 1, int(value)))


def is_true(value: Value) -> bool | None:
    return None if value is None else value != 0


def negated(value: bool | None) -> bool | None:
    return None if value is None else not value


def both(left: bool | None, right: bool | None) -> bool | None:
    if left is False or right is False:
        return False
    return None if left is None or right is None else True


class Literal(NamedTuple):
    """A numeral, and its exact value."""

    text: str

    @property
    def value(self) -> Fraction:
        return Fraction(self.text.replace(" ", ""))

    @property
    def is_integer(self) -> bool:
        return self.text.lstrip("+-").isdecimal() and -1 << 63 <= self.value < 1 << 63

    def beside(self, column: str) -> Value:
        """Returns what it means beside a column."""
        if COLUMNS[column] >= 0 or self.is_integer:
            return self.value
        return nearest(self.value)

    @property
    def plain(self) -> Value:
        """What it is to SQLite."""
        return int(self.value) if self.is_integer else nearest(self.value)


class Drawn:
    """Draws rows, and expressions over them."""

    def __init__(self, seed: str) -> None:
        self.chance = random.Random(seed)
        self.rows = [self.row(number) for number in range(ROWS)]

    def some(self, *forms: Any) -> Any:
        return self.chance.choice(forms)

    def row(self, number: int) -> Row:
        chance = self.chance
        row: Row = {"id": number, "w": self.wide(), "d": Decimal(chance.randrange(-400, 900), 100),
                    "c": Decimal(chance.randrange(-90000, 90000), 10000),
                    "g": self.long(100), "h": self.long(100), "l": self.long(10000),
                    "f": self.float(), "e": self.float()}
        for name in row:
            if name != "id" and chance.random() < .12 and number > 1:
                row[name] = None
        if number < 2:
            row |= {"g": Decimal(123456789012345678 + number, 100), "w": (1 << 62) + number,
                    "h": Decimal(-987654321098765432, 100), "l": Decimal(123456789012345678, 10000),
                    "f": (1e300, 1e-7)[number], "e": (.1, 2.0 ** 53)[number]}
        return row

    def wide(self) -> int:
        return int(self.some((1 << 53) + self.chance.randrange(-3, 4), self.chance.randrange(-5, 6),
                             self.chance.randrange(-1 << 62, 1 << 62),
                             (1 << 62) - self.chance.randrange(3), 10 ** 15,
                             123456789012345678 + self.chance.randrange(-2, 3)))

    def long(self, power: int) -> Decimal:
        number = self.some(self.chance.randrange(-10 ** 18, 10 ** 18),
                           123456789012345678 + self.chance.randrange(-2, 3),
                           self.chance.randrange(-500, 500), power * self.chance.randrange(-3, 4),
                           999999999999999999, 10 ** 15 + self.chance.randrange(-2, 3),
                           power * ((1 << 53) + self.chance.randrange(-2, 3)) % 10 ** 18)
        return Decimal(number, power)

    def float(self) -> float:
        chance = self.chance
        return float(self.some(.1, 2.5, -3.75, 1e300, 1e-7, 0.0, 3.0, float(1 << 53),
                               float((1 << 53) + 2), float(1 << 60), 1234567890123456.8,
                               chance.randrange(-300, 300) / 100, 9.2e18, 1 / 3))

    def csv(self) -> str:
        """Returns the rows as a CSV."""
        return reference.csv_of([list(COLUMNS), *([field(name, row[name]) for name in COLUMNS]
                                                  for row in self.rows)])

    def column(self, *names: str) -> Expression:
        name = str(self.chance.choice(names or tuple(COLUMNS)))
        return Expression(name, lambda row: row[name], True, name)

    def literal(self, column: str = "") -> Literal:
        """Returns a numeral near a value of a column."""
        name = column if column and self.chance.random() < .75 else \
            str(self.chance.choice(list(COLUMNS)))
        value = self.chance.choice(self.rows)[name]
        value = Fraction(3) if value is None else Fraction(value)
        forms = [str(int(value)), f"{int(value)}.0", repr(float(value)), spelled(value, 2),
                 spelled(value, 4), spelled(value, 25),
                 spelled(value + Fraction(self.some(1, -1), 10 ** self.chance.randrange(25)), 26),
                 f"{int(value)}.5", self.some("9223372036854775807", "9223372036854775807.0",
                                              "9223372036854775808", "-9223372036854775808.0",
                                              "0", "3.0", "0.0", "1e0", "1e18", "1e400", "-0.0",
                                              "123456789012345678.0", "9007199254740993.0")]
        return Literal(str(self.chance.choice(forms)))

    # --- conditions

    def condition(self, depth: int) -> Expression:
        """Returns a condition."""
        if depth > 0 and self.chance.random() < .45:
            one, two = self.condition(depth - 1), self.condition(depth - 1)
            return self.joined(one, two)
        return self.atom(depth)

    def joined(self, one: Expression, two: Expression) -> Expression:
        a, b = one.of, two.of
        return Expression(*self.some(
            (f"({one.text}) AND ({two.text})", lambda row: both(a(row), b(row))),
            (f"({one.text} OR {two.text})",
             lambda row: negated(both(negated(a(row)), negated(b(row))))),
            (f"NOT ({one.text})", lambda row: negated(a(row))),
            (f"({one.text}) IS NOT TRUE", lambda row: a(row) is not True),
            (f"({one.text}) IS FALSE", lambda row: a(row) is False),
            (f"({one.text}) IS NULL", lambda row: a(row) is None),
            (f"CASE WHEN {one.text} THEN {two.text} ELSE 1 END",
             lambda row: b(row) if a(row) else True),
            (f"IIF({one.text}, {two.text}, 0)", lambda row: b(row) if a(row) else False),
            (f"COALESCE({one.text}, {two.text})",
             lambda row: b(row) if a(row) is None else a(row))))

    def atom(self, depth: int) -> Expression:
        """Returns a comparison of a column."""
        column = self.column()
        form = self.chance.randrange(12)
        if form < 4:
            return self.simple(column)
        if form < 7:
            return self.listed(column)
        if form == 7:
            low, high = self.beside(column), self.beside(column)
            word = self.some("", "NOT ")
            text = f"{column.text} {word}BETWEEN {low.text} AND {high.text}"

            def of(row: Row) -> bool | None:
                found = both(compared(column.of(row), ">=", low.of(row)),
                             compared(column.of(row), "<=", high.of(row)))
                return negated(found) if word else found
            return Expression(text, of)
        if form == 8:
            return self.tested(column)
        if form == 9:
            return self.of_values(depth)
        if form == 10:
            other = self.beside(column)
            sign = self.some("=", "<>")
            one = self.literal("id")
            return Expression(
                f"({column.text}, id) {sign} ({other.text}, {one.text})",
                lambda row: (lambda found: found if sign == "=" else negated(found))(
                    both(compared(column.of(row), "=", other.of(row)),
                         compared(row["id"], "=", one.value))))
        other = self.beside(column)
        return Expression(f"CASE {column.text} WHEN {other.text} THEN 1 ELSE 0 END",
                          lambda row: compared(column.of(row), "=", other.of(row)) is True)

    def beside(self, column: Expression) -> Expression:
        """Returns a literal, or a column, that is compared with a column."""
        if self.chance.random() < .2:
            return self.column()
        literal = self.literal(column.column)
        value = literal.beside(column.column)
        return Expression(literal.text, lambda row: value, True)

    def simple(self, column: Expression) -> Expression:
        other, sign = self.beside(column), self.some(*SIGNS)
        if self.chance.random() < .3:
            return Expression(f"{other.text} {sign} {column.text}",
                              lambda row: compared(other.of(row), sign, column.of(row)))
        if self.chance.random() < .15:
            word = self.some("IS", "IS NOT")
            return Expression(f"{column.text} {word} {other.text}", lambda row: (
                compared(column.of(row), "=", other.of(row)) is True
                if column.of(row) is not None and other.of(row) is not None
                else column.of(row) is None and other.of(row) is None) == (word == "IS"))
        return Expression(f"{column.text} {sign} {other.text}",
                          lambda row: compared(column.of(row), sign, other.of(row)))

    def listed(self, column: Expression) -> Expression:
        """Returns an IN: of a column among literals and columns, or of a literal among columns."""
        word = self.some("", "NOT ")
        members = [self.beside(column) for _ in range(self.some(1, 2, 3, 9))]
        text, operand = column.text, column
        if self.chance.random() < .3:
            literal = self.literal()
            members = [self.column() for _ in range(self.some(1, 2, 2, 3))]
            text = literal.text
            pairs = [(each.of, literal.beside(each.column)) for each in members]
        else:
            pairs = []
        if not pairs and self.chance.random() < .2:
            members.append(Expression("NULL", lambda row: None))

        def of(row: Row) -> bool | None:
            found = [compared(one(row), "=", two) for one, two in pairs] or \
                [compared(operand.of(row), "=", each.of(row)) for each in members]
            result = True if True in found else None if None in found else False
            return negated(result) if word else result
        return Expression(f"{text} {word}IN ({', '.join(each.text for each in members)})", of)

    def tested(self, column: Expression) -> Expression:
        """Returns a test of a column's truth."""
        of = column.of
        return Expression(*self.some(
            (f"{column.text} IS TRUE", lambda row: is_true(of(row)) is True),
            (f"{column.text} IS NOT FALSE", lambda row: is_true(of(row)) is not False),
            (f"NOT {column.text}", lambda row: negated(is_true(of(row)))),
            (column.text, lambda row: is_true(of(row))),
            (f"{column.text} IS NULL", lambda row: of(row) is None)))

    def of_values(self, depth: int) -> Expression:
        """Returns a comparison of an expression: as SQLite compares doubles."""
        one, two = self.value(depth, False), self.value(depth, False)
        sign = self.some(*SIGNS)
        return Expression(f"{one.text} {sign} {two.text}", lambda row: compared(
            double(one.of(row)), sign, double(two.of(row))))

    # --- values

    def value(self, depth: int, are_long: bool = True) -> Expression:
        """Returns an expression that isn't a column or a literal alone, of columns that may have
        long decimals."""
        names = tuple(COLUMNS) if are_long else ("id", "w", "d", "c", "f", "e")
        condition = self.condition(depth - 1) if depth > 0 else self.simple(self.column())
        parts = [self.part(names) for _ in range(self.some(1, 2, 2, 3))]
        forms: list[Callable[..., Any]] = [self.of_one, self.of_two, self.of_three]
        text, of = forms[len(parts) - 1](condition, *parts)
        if any(part.column in ("f", "e") for part in parts) and "INTEGER" not in text:
            # decimals beside floats are doubles
            return Expression(text, lambda row: double(of(row)))
        return Expression(text, of)

    def of_one(self, condition: Expression, one: Expression) -> Any:
        a, when = one.of, condition.of
        return self.some(
            (f"CASE WHEN {condition.text} THEN {one.text} END",
             lambda row: a(row) if when(row) else None),
            (f"- {one.text}", lambda row: None if a(row) is None else -a(row)),
            (f"CAST({one.text} AS INTEGER)",
             lambda row: None if a(row) is None else truncated(a(row))),
            (f"CAST({one.text} AS REAL)", lambda row: None if a(row) is None else float(a(row))),
            (f"+ {one.text}", a))

    def of_two(self, condition: Expression, one: Expression, two: Expression) -> Any:
        a, b, when = one.of, two.of, condition.of
        return self.some(
            (f"CASE WHEN {condition.text} THEN {one.text} ELSE {two.text} END",
             lambda row: a(row) if when(row) else b(row)),
            (f"COALESCE({one.text}, {two.text})", lambda row: b(row) if a(row) is None else a(row)),
            (f"IFNULL({one.text}, {two.text})", lambda row: b(row) if a(row) is None else a(row)),
            (f"IIF({condition.text}, {one.text}, {two.text})",
             lambda row: a(row) if when(row) else b(row)))

    def of_three(self, condition: Expression, *parts: Expression) -> Any:
        a, b, c = (each.of for each in parts)
        one, two, three = (each.text for each in parts)
        return self.some(
            (f"COALESCE(IIF({condition.text}, {one}, NULL), {two}, {three})",
             lambda row: next((value for value in (
                 a(row) if condition.of(row) else None, b(row), c(row))
                 if value is not None), None)),
            (f"COALESCE({one}, CASE WHEN {condition.text} THEN - {two} ELSE {three} END)",
             lambda row: a(row) if a(row) is not None else (
                 c(row) if not condition.of(row) else None if b(row) is None else -b(row))))

    def part(self, names: Sequence[str]) -> Expression:
        if self.chance.random() < .7:
            return self.column(*names)
        literal = self.literal(str(self.chance.choice(names)))
        while len(literal.text) > 16 or "e" in literal.text:
            literal = self.literal("d")
        value = literal.plain if literal.is_integer or "e" in literal.text else \
            Decimal(literal.value)
        return Expression(literal.text, lambda row: value)

    # --- statements

    def statement(self) -> Asked:
        """Returns a statement, and the rows of its answer."""
        form = self.chance.randrange(12)
        if form < 5:
            condition = self.condition(2)
            return self.selected(condition)
        if form == 5:
            return self.selected(self.of_query())
        if form == 6:
            return self.compound()
        if form == 7:
            return self.grouped()
        return self.aggregate()

    def selected(self, condition: Expression) -> Asked:
        """Returns a list of rows, which may be limited by an expression."""
        found: list[tuple[Value, ...]] = [(row["id"],) for row in self.rows if condition.of(row)]
        sql = f"SELECT id FROM t WHERE {condition.text} ORDER BY id"
        if self.chance.random() < .3:
            other = self.condition(0)
            most = sum(1 for row in self.rows if other.of(row))
            skipped = self.some("0", "1", "2 - 1", "- 3", "3.0", "'2'", "NULL + 0", "max(1, 2)")
            text, count = self.some((f"(SELECT COUNT(*) FROM t WHERE {other.text})", most),
                                    ("2 + 3", 5), ("-1", len(found)), ("'4'", 4), ("7.0", 7))
            if skipped == "NULL + 0":
                return f"{sql} LIMIT {text}", found[:count]
            start = {"0": 0, "1": 1, "2 - 1": 1, "- 3": 0, "3.0": 3, "'2'": 2, "max(1, 2)": 2}
            at = start[skipped]
            return f"{sql} LIMIT {text} OFFSET {skipped}", found[at:][:count]
        return sql, found

    def query(self, column: Expression) -> tuple[str, list[Value]]:
        """Returns a query of a column, and its values."""
        only = self.condition(1)
        return f"SELECT {column.text} FROM t WHERE {only.text}", \
            [column.of(row) for row in self.rows if only.of(row)]

    def of_query(self) -> Expression:
        """Returns a comparison of a column with a query of another."""
        column, other = self.column(), self.column()
        sql, values = self.query(other)
        present = [value for value in values if value is not None]
        form = self.chance.randrange(4)
        if form == 0:
            word = self.some("", "NOT ")

            def of(row: Row) -> bool | None:
                found = [compared(column.of(row), "=", value) for value in values]
                result = True if True in found else None if None in found else False
                return negated(result) if word else result
            return Expression(f"{column.text} {word}IN ({sql})", of)
        if form == 1:
            word, sign = self.some("MIN", "MAX"), self.some(*SIGNS)
            end = (min if word == "MIN" else max)(present, key=exact) if present else None
            sql = sql.replace(f"SELECT {other.text}", f"SELECT {word}({other.text})", 1)
            return Expression(f"{column.text} {sign} ({sql})",
                              lambda row: compared(column.of(row), sign, end))
        if form == 2:
            return Expression(
                f"EXISTS (SELECT 1 FROM t u WHERE u.{other.text} = t.{column.text})",
                lambda row: any(compared(each[other.text], "=", column.of(row))
                                for each in self.rows))
        literal = self.literal(other.column)
        return Expression(f"{column.text} IN (SELECT {other.text} FROM t WHERE {other.text} = "
                          f"{literal.text})", lambda row: any(
                              compared(each[other.text], "=", column.of(row)) for each in self.rows
                              if compared(each[other.text], "=", literal.beside(other.text)))
                          if any(compared(each[other.text], "=", literal.beside(other.text))
                                 for each in self.rows) else False)

    def compound(self) -> Asked:
        """Returns a compound of two queries, in order."""
        first, second = self.query(self.column()), self.query(self.column())
        word = self.some("UNION", "UNION ALL", "EXCEPT", "INTERSECT")
        left, right = list(first[1]), list(second[1])
        if any(isinstance(value, float) for value in [*left, *right]):
            left, right = list(map(double, left)), list(map(double, right))
        if word != "UNION ALL":
            known, others = distinct(left), distinct(right)
            keys = {key_of(value) for value in right}
            left = distinct([*known, *others]) if word == "UNION" else [
                value for value in known if (key_of(value) in keys) == (word == "INTERSECT")]
            right = []
        found = sorted([*left, *right], key=lambda value: (value is not None, exact(value or 0)))
        return f"{first[0]} {word} {second[0]} ORDER BY 1", [(value,) for value in found]

    def grouped(self) -> Asked:
        """Returns groups, with a sum, of which a condition selects some."""
        key, column = self.column("d", "g", "h", "l", "w", "f"), self.column("d", "c", "w", "id")
        literal, sign = self.literal("d"), self.some("<", ">=", "=", "<>")
        while len(literal.text) > 16 or "e" in literal.text:
            literal = self.literal("d")
        groups: dict[Any, list[Row]] = {}
        for row in self.rows:
            groups.setdefault(key_of(key.of(row)), []).append(row)
        found = list[tuple[Value, ...]]()
        for rows in groups.values():
            each = total("SUM", [value for row in rows
                                 if (value := column.of(row)) is not None])
            if compared(each, sign, literal.value):
                found.append((key.of(rows[0]), each))
        found.sort(key=lambda row: (row[0] is not None, exact(row[0] or 0)))
        return f"SELECT {key.text}, SUM({column.text}) FROM t GROUP BY {key.text} HAVING " \
               f"SUM({column.text}) {sign} {literal.text} ORDER BY 1", found

    def aggregate(self) -> Asked:
        argument = self.value(1) if self.chance.random() < .7 else self.column()
        only = self.condition(1) if self.chance.random() < .4 else Expression("1", lambda row: True)
        word = self.some("SUM", "AVG", "SUM", "AVG", "TOTAL", "MIN", "MAX", "SUM(DISTINCT",
                         "COUNT(DISTINCT")
        values = [argument.of(row) for row in self.rows if only.of(row)]
        call = f"{word}({argument.text})" if "(" not in word else f"{word} {argument.text})"
        where = f" WHERE {only.text}" if only.text != "1" else ""
        sql = f"SELECT {call} FROM t{where}"
        if self.chance.random() < .3 and where:
            sql = f"SELECT {call} FILTER ({where.strip()}) FROM t"
        return sql, [(total(word, [each for each in values if each is not None]),)]


def key_of(value: Value) -> Any:
    """Returns what equal values share."""
    return None if value is None else exact(double(value) if isinstance(value, float) else value)


def distinct(values: Sequence[Value]) -> list[Value]:
    return list({key_of(value): value for value in values}.values())


def field(name: str, value: Value) -> str:
    digits = COLUMNS[name]
    if value is None:
        return ""
    return repr(value) if digits < 0 else spelled(value, digits)


def spelled(value: Value, digits: int) -> str:
    """Returns a numeral of so many digits after the point."""
    number = int(abs(Fraction(value)) * 10 ** digits)
    text = str(number).rjust(digits + 1, "0")
    text = f"{text[:-digits]}.{text[-digits:]}" if digits else text
    return f"-{text}" if value < 0 and number else text


def total(word: str, values: Sequence[Value]) -> Value:
    """Returns an aggregate of values that aren't null."""
    if "DISTINCT" in word:
        values = list({exact(double(each) if any(isinstance(other, float) for other in values)
                             else each): each for each in values}.values())
    if word == "COUNT(DISTINCT":
        return len(values)
    if word in ("MIN", "MAX") and values:
        return (min if word == "MIN" else max)(values, key=exact)
    found = sum(map(Fraction, values), Fraction())
    if word == "TOTAL":
        return float(found)
    if not values:
        return None
    if word == "AVG":
        return float(found / len(values))
    return int(found) if all(isinstance(each, int) for each in values) else found


def is_same(found: Value, wanted: Value, word: str) -> bool:
    """Returns whether a value is the one that is wanted: a double is the nearest one, and within
    one unit in the last place if SQLite or a quotient rounded it."""
    if found is None or wanted is None:
        return found is wanted
    if isinstance(found, float) and not math.isfinite(found):
        return bool(abs(wanted) > 10 ** 308)
    if isinstance(found, float):
        near = float(wanted)
        return abs(found - near) <= math.ulp(near) * (word in ("AVG", "TOTAL"))
    return bool(Fraction(found) == exact(wanted))


def differences(seed: int, count: int, folder: pathlib.Path, told: Counter[str]
                ) -> Iterator[tuple[str, str]]:
    """Yields statements, and how each differs."""
    for part in range(-(-count // A_TABLE)):
        drawn = Drawn(f"numbers {seed} {part}")
        (folder / f"t{seed}_{part}").mkdir()
        path = support.imported(folder / f"t{seed}_{part}" / "t.bw", drawn.csv())
        with bwtools.connect(path) as connection:
            for _ in range(min(A_TABLE, count - part * A_TABLE)):
                sql, wanted = drawn.statement()
                how = differs(connection._database, sql, wanted, told)
                if how:
                    yield sql, how


def differs(database: Any, sql: str, wanted: Sequence[Any], told: Counter[str]) -> str:
    """Returns how the answer to a statement differs, or nothing."""
    ways: list[Callable[[Statement], Any]] = [
        lambda statement: plan.answer(statement, database.engine), database.by_sqlite.answer]
    word = sql[7:].partition("(")[0]
    for way, ask in enumerate(ways, 1):
        try:
            answer = ask(Statement(sql, database.catalog))
            found = list(answer.objects()) if answer else None
        except Refused as refused:
            if not REFUSED.search(str(refused)):
                return f"way {way}: refused: {refused}"
            told[f"refused by way {way}"] += 1
            continue
        if found is None:
            continue
        told[f"answered by way {way}"] += 1
        if len(found) != len(wanted) or not all(
                is_same(one, other, word) for row, more in zip(found, wanted)
                for one, other in zip(row, more)):
            return f"way {way}: {found}\n  expected {wanted}"
    return ""


def main() -> int:
    parser = argparse.ArgumentParser(prog="python3 -m tests.drawn_numbers", description=__doc__)
    parser.add_argument("--seed", type=int, default=1, metavar="N")
    parser.add_argument("--count", type=int, default=2000, metavar="N")
    given = parser.parse_args()
    told, wrong = Counter[str](), 0
    with tempfile.TemporaryDirectory() as folder:
        for sql, how in differences(given.seed, given.count, pathlib.Path(folder), told):
            wrong += 1
            print(f"{sql}\n  {how}\n", flush=True)
    print(f"seed {given.seed}: {dict(told)}, {wrong:,} wrong")
    return int(wrong > 0)


if __name__ == "__main__":
    sys.exit(main())

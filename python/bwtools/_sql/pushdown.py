"""What statements of bw can answer: conditions as numbers, totals and rows."""
from __future__ import annotations

import operator
import sqlite3
from typing import TYPE_CHECKING, Any, Callable, Iterable, Sequence, Union

from .. import _result as values
from .._aggregation import AGGREGATES, Aggregate, values_of
from .._engine.executor import Engine, Outside, select as select_text
from .._result import Limits, NumberRows, SortKey, ValueRows, WantedRows
from .._storage.catalog import Table
from .._types.base import GREATEST, LEAST, Column, Kind
from .._types.dictionary import StoredList
from .._types.kinds import unstyled
from .lexer import NUMBER, TEXT
from .literals import Constant, constant_of
from .resolve import place_of
from .syntax import (Between, Call, ColumnName, Comparison, InList, InQuery, Like, Literal, Node,
                     NullTest, Operation, OrderTerm, Query, Select, Subquery, TableSource, Unary,
                     walk)

if TYPE_CHECKING:
    from fractions import Fraction


# Translates a condition to one over a table's numbers, which bw evaluates. It may have AND, OR
# and NOT; comparisons, BETWEEN and IN of columns and literals; LIKE and GLOB of a column and a
# text; tests of nulls and truths; and columns of numbers or booleans, and numbers, which are TRUE
# if they aren't 0. All else is outside. A literal that no row can have is compared correctly: it
# is between two numbers, so `< 12.505` is `<= 1250` on hundredths. A condition that is FALSE for
# each value becomes `x <> x`, and one that is TRUE becomes `x = x`: both are UNKNOWN if x is
# null, as the original is.

SWAPPED = {"<": ">", ">": "<", "<=": ">=", ">=": "<=", "=": "=", "<>": "<>"}
# of two texts or of two numbers
MEANING: dict[str, Callable[[Any, Any], bool]] = {
    "<": operator.lt, ">": operator.gt, "<=": operator.le, ">=": operator.ge, "=": operator.eq,
    "<>": operator.ne}
UNKNOWN, TRUE, FALSE = "NULL = NULL", "1 = 1", "1 = 0"
# the bytes of a pattern that SQLite takes
MOST_PATTERN = 50_000
# in how many runs the codes of a condition may be that have more than so many numbers, how many
# values a column may have that is compared with one of another scale, and how many days or times
# LIKE may choose from
MOST_RUNS, SHORT, MOST_VALUES, MOST_MOMENTS = 200, 3, 100, 50_000


class Comparand:
    """An operand of a comparison: a column, or a literal, or neither, which is NULL."""

    def __init__(self, column: Column | None = None, constant: Constant | None = None) -> None:
        self.column, self.constant = column, constant

    @property
    def value(self) -> Union[str, Fraction, None]:
        """The value of a literal, or None."""
        value = self.constant.value if self.constant else None
        assert not isinstance(value, bytes)
        return value

    @property
    def is_null(self) -> bool:
        return self.column is None and self.value is None


def never(column: Column) -> str:
    return f"{column.name} <> {column.name}"


def always(column: Column) -> str:
    return f"{column.name} = {column.name}"


def literal_place(column: Column, literal: Comparand) -> tuple[int, bool]:
    """Returns the place of a literal among the numbers of a column: the greatest number whose value
    is at most the literal's, and whether they are equal."""
    constant = literal.constant
    value = constant.beside(column) if constant else None
    assert constant and value is not None and not isinstance(value, bytes)
    place = column.kind.place(value)
    if place is None:
        raise Outside
    if constant.is_integer and column.kind.plural == "floats":
        # an integer is compared with doubles as it is
        from fractions import Fraction
        double = Fraction(float(value))
        if isinstance(value, Fraction) and double != value:
            return place[0] - (place[1] and double > value), False
    return place


def compared(left: Comparand, sign: str, right: Comparand) -> str:
    """Returns a comparison over numbers."""
    if left.is_null or right.is_null:
        return UNKNOWN
    if left.column and right.column:
        return columns_compared(left.column, sign, right.column)
    if right.column:
        return compared(right, SWAPPED[sign], left)
    if left.column:
        return placed(left.column, sign, *literal_place(left.column, right))
    if not all(each.constant and (each.constant.is_integer or isinstance(each.value, str))
               for each in (left, right)) or \
            isinstance(left.value, str) != isinstance(right.value, str):
        # SQLite compares other numbers as doubles
        raise Outside
    return TRUE if MEANING[sign](left.value, right.value) else FALSE


def placed(column: Column, sign: str, number: int, is_exact: bool) -> str:
    """Returns the comparison of a column with a literal whose place is known."""
    if number < LEAST:
        return always(column) if sign in (">", ">=", "<>") else never(column)
    if number > GREATEST:
        return always(column) if sign in ("<", "<=", "<>") else never(column)
    if is_exact:
        return f"{column.name} {sign} {number}"
    if sign in ("=", "<>"):
        return never(column) if sign == "=" else always(column)
    return f"{column.name} {'<=' if sign in ('<', '<=') else '>'} {number}"


def columns_compared(left: Column, sign: str, right: Column) -> str:
    """Returns the comparison of two columns: of their numbers, if equal ones are equal values, else
    value by value."""
    if left is right or left.kind.alike(right.kind) or right.kind.alike(left.kind):
        return f"{left.name} {sign} {right.name}"
    affinities = {values.affinity(each.kind) for each in (left, right)}
    if values.TEXT in affinities:
        raise Outside
    few, other = left, right
    if len(range_of(right)) < len(range_of(left)):
        few, other, sign = right, left, SWAPPED[sign]
    are_doubles = "floats" in (left.kind.plural, right.kind.plural)
    if len(range_of(few)) > MOST_VALUES or are_doubles and (
            values.is_long(left) or values.is_long(right)):
        raise Outside
    terms = [never(left), never(right)]
    for number, value in zip(range_of(few), exact_values(few, range_of(few))):
        constant = Constant(None, value)
        part = placed(other, SWAPPED[sign], *literal_place(other, Comparand(None, constant)))
        terms.append(f"{few.name} = {number} AND {part}")
    return f"({' OR '.join(terms)})"


def exact_values(column: Column, numbers: Sequence[int]) -> list[Fraction]:
    """Returns the values of a column's numbers: of doubles the decimals as which they are
    printed."""
    from fractions import Fraction
    plain: Any = unstyled(column.kind)
    if plain.plural == "floats":
        return [Fraction(repr(value)) for value in values.stored(column.kind, numbers)]
    power = 10 ** plain.digits if plain.name == "decimals" else 1
    return [Fraction(number, power) for number in numbers]


def range_of(column: Column) -> range:
    """Returns the numbers of a column from its minimum to its maximum, of which some may not
    occur."""
    if column.kind.listed is not None or column.kind.name == "truths":
        return range(len(column.kind.listed or "01"))
    numbers = [column.kind.number(end) for end in column.ends]
    if not numbers or None in numbers:
        raise Outside
    least, greatest = numbers
    assert least is not None and greatest is not None
    return range(least, greatest + 1) if greatest - least < GREATEST else range(GREATEST)


def between(operand: Comparand, low: Comparand, high: Comparand) -> str:
    """Returns a BETWEEN over numbers: one BETWEEN, if its ends are literals that have a place, or
    else two comparisons in brackets."""
    if operand.column and low.value is not None and high.value is not None:
        least, is_exact = literal_place(operand.column, low)
        least, greatest = least if is_exact else least + 1, literal_place(operand.column, high)[0]
        if LEAST <= least <= GREATEST and LEAST <= greatest <= GREATEST:
            return f"{operand.column.name} BETWEEN {least} AND {greatest}"
    return f"({compared(operand, '>=', low)} AND {compared(operand, '<=', high)})"


def among(column: Column, members: Sequence[Comparand]) -> str:
    """Returns an IN over numbers, without the members that the column can't have."""
    kept, others = list[str](), list[str]()
    for member in members:
        if member.is_null:
            kept.append("NULL")
        elif member.column:
            others.append(columns_compared(column, "=", member.column))
        else:
            number, is_exact = literal_place(column, member)
            if is_exact and LEAST <= number <= GREATEST:
                kept.append(str(number))
    if kept:
        others.append(f"{column.name} IN ({', '.join(dict.fromkeys(kept))})")
    if len(others) > 1:
        return f"({' OR '.join(others)})"
    return others[0] if others else never(column)


def like(column: Column, sign: str, pattern: str, escape: str | None) -> str:
    """Returns a LIKE or GLOB as the runs of numbers whose values match it, by SQLite itself."""
    words = f"WHERE value {sign} ?{'' if escape is None else ' ESCAPE ?'} ORDER BY code"
    wanted = (pattern,) if escape is None else (pattern, escape)
    if len(pattern.encode()) > MOST_PATTERN:
        # SQLite has the message
        raise Outside
    try:
        return runs_like(column, words, wanted)
    except sqlite3.Error:
        # it has the message where it is asked itself
        raise Outside from None


def runs_like(column: Column, words: str, wanted: tuple[str, ...]) -> str:
    """Returns the runs of numbers of which the values fulfil an SQL condition."""
    if column.kind.name == "texts" and isinstance(column.kind.listed, StoredList):
        count = len(column.kind.listed)
        codes: Iterable[int] = list(column.kind.listed.matching(words, wanted))
    elif values.affinity(column.kind) == values.TEXT:
        numbers = range_of(column)
        if len(numbers) > MOST_MOMENTS:
            raise Outside
        count, codes = len(numbers), matching(column, numbers, words, wanted)
    else:
        raise Outside
    runs = runs_of(codes)
    if sum(len(run) > SHORT for run in runs) > MOST_RUNS:
        raise Outside
    if sum(len(run) for run in runs) == count:
        return always(column)
    return in_runs(column, runs)


def matching(column: Column, numbers: range, words: str, wanted: tuple[str, ...]) -> list[int]:
    """Returns the numbers of a column whose values fulfil an SQL condition."""
    from .._result import stored
    database = sqlite3.connect(":memory:")
    try:
        database.execute("CREATE TABLE listed (code INTEGER PRIMARY KEY, value TEXT)")
        database.executemany("INSERT INTO listed VALUES (?, ?)",
                             zip(numbers, stored(column.kind, numbers)))
        found = database.execute(f"SELECT code FROM listed {words}", wanted)
        return [code for code, in found]
    finally:
        database.close()


def runs_of(numbers: Iterable[int]) -> list[range]:
    """Returns ascending numbers as runs of those that follow one another."""
    runs = list[range]()
    for number in numbers:
        if runs and number == runs[-1].stop:
            runs[-1] = range(runs[-1].start, number + 1)
        else:
            runs.append(range(number, number + 1))
    return runs


def in_runs(column: Column, runs: Sequence[range]) -> str:
    """Returns the condition that a column has a number of one of these runs. Those of short ones
    are in one list, which bw searches in a time that hardly depends on its length."""
    listed = [str(number) for run in runs if len(run) <= SHORT for number in run]
    terms = [f"{column.name} BETWEEN {run.start} AND {run.stop - 1}" for run in runs
             if len(run) > SHORT]
    if listed:
        terms.append(f"{column.name} IN ({', '.join(listed)})")
    return f"({' OR '.join(terms)})" if len(terms) > 1 else terms[0] if terms else never(column)


# how deep a condition may be: bw has a limit of 100, and one over numbers has more brackets
MOST_DEPTH = 30
# the bytes of a condition: a statement of bw has at most 65,536, and 64 columns' names
MOST_BYTES = 60_000
OR, AND, NOT, TEST, PRIMARY = range(5)


class Fragment:
    """A part of a condition over numbers: its text, and how strongly its operator binds."""
    __slots__ = ("text", "level")

    def __init__(self, text: str, level: int) -> None:
        self.text, self.level = text, level

    def within(self, level: int) -> str:
        """Returns the text as an operand of an operator of this level."""
        return self.text if self.level >= level else f"({self.text})"


def condition_of(node: Node | None) -> str:
    """Returns the condition of bw that an expression is, or nothing for none. Raises Outside if bw
    can't evaluate it."""
    text = translated(node, 0).text if node else ""
    if len(text) > MOST_BYTES:
        raise Outside
    return text


def pushed(tree: Query) -> str:
    """Returns the condition of bw that each row of a statement's answer fulfils: those among the
    operands of AND in WHERE that have one, if it is one SELECT over one table; or nothing."""
    found = list[str]()
    try:
        where = single(tree)[0].where
    except Outside:
        return ""
    parts = [where] if where else []
    if isinstance(where, Operation) and where.signs[0] == "AND":
        parts = where.operands
    for node in parts:
        try:
            found.append(condition_of(node))
        except Outside:
            pass
    condition = " AND ".join(f"({each})" for each in found) if len(found) > 1 else "".join(found)
    return condition if len(condition) <= MOST_BYTES else ""


def single(tree: Query) -> tuple[Select, Table]:
    """Returns the SELECT of a statement that is one over one table, and that table. Raises Outside
    for another statement."""
    select = tree.selects[0]
    source = select.sources[0] if select.sources else None
    if tree.commons or len(tree.selects) > 1 or len(select.sources) != 1 or \
            not isinstance(source, TableSource) or not source.table or source.on or source.using \
            or any(isinstance(node, (Subquery, InQuery)) for node in walk(tree)):
        raise Outside
    return select, source.table


def direct_column(node: Node) -> Column | None:
    """Returns the column of a table that a name is, also by its alias; or None."""
    while isinstance(node, ColumnName) and node.item and node.item.expression:
        node = node.item.expression
    return node.output.plain if isinstance(node, ColumnName) and node.output else None


def operand_of(node: Node) -> Comparand | None:
    """Returns the column or the literal that an expression is, or None."""
    column = direct_column(node)
    if column:
        return Comparand(column)
    constant = constant_of(node)
    if constant is None or isinstance(constant.value, bytes):
        return None
    return Comparand(None, constant)


def translated(node: Node, depth: int) -> Fragment:
    """Returns a condition over numbers."""
    if depth > MOST_DEPTH:
        raise Outside
    if isinstance(node, Operation) and node.signs[0] in ("AND", "OR"):
        level = AND if node.signs[0] == "AND" else OR
        parts = [translated(each, depth + 1).within(level + 1) for each in node.operands]
        return Fragment(f" {node.signs[0]} ".join(parts), level)
    if isinstance(node, Unary) and node.sign == "NOT":
        return Fragment(f"NOT {translated(node.operand, depth + 1).within(TEST)}", NOT)
    if isinstance(node, Comparison) and node.sign in ("IS", "IS NOT"):
        return tested(node.left, node.sign == "IS NOT", truth_of(node.right), depth)
    if isinstance(node, NullTest):
        return tested(node.operand, node.is_negated, "NULL", depth)
    if isinstance(node, Comparison):
        return Fragment(compared(wanted(node.left), node.sign, wanted(node.right)), PRIMARY)
    if isinstance(node, (Between, InList, Like)):
        text = chosen(node)
        return Fragment(f"NOT {text}", NOT) if node.is_negated else Fragment(text, PRIMARY)
    return Fragment(is_true(wanted(node)), PRIMARY)


def wanted(node: Node) -> Comparand:
    """Returns the column or the literal that an expression is. Raises Outside for another one."""
    found = operand_of(node)
    if not found:
        raise Outside
    return found


def tested(node: Node, is_negated: bool, truth: str, depth: int) -> Fragment:
    """Returns a test of an expression: whether it is null, true or false."""
    negated, column = "NOT " if is_negated else "", direct_column(node)
    if truth == "NULL" and column:
        return Fragment(f"{column.name} IS {negated}NULL", PRIMARY)
    text = translated(node, depth + 1).within(PRIMARY)
    return Fragment(f"{text} IS {negated}{'UNKNOWN' if truth == 'NULL' else truth}", TEST)


def truth_of(node: Node) -> str:
    """Returns NULL, TRUE or FALSE. Raises Outside for another expression."""
    text = node.text if isinstance(node, Literal) else \
        node.name.text if isinstance(node, ColumnName) and constant_of(node) else ""
    if text.upper() not in ("NULL", "TRUE", "FALSE"):
        raise Outside
    return text.upper()


def chosen(node: Between | InList | Like) -> str:
    """Returns a BETWEEN, IN, LIKE or GLOB over numbers."""
    if isinstance(node, Between):
        return between(wanted(node.operand), wanted(node.low), wanted(node.high))
    column = direct_column(node.operand)
    if not column:
        raise Outside
    if isinstance(node, InList):
        if not node.members:
            raise Outside
        return among(column, [wanted(each) for each in node.members])
    texts = [text_of(each) for each in (node.pattern, node.escape) if each]
    if node.sign not in ("LIKE", "GLOB"):
        raise Outside
    return like(column, node.sign, texts[0], texts[1] if node.escape else None)


def text_of(node: Node) -> str:
    """Returns the value of a literal of a text. Raises Outside for another expression."""
    if not isinstance(node, Literal) or node.kind != TEXT:
        raise Outside
    return str(node.value)


def is_true(operand: Comparand) -> str:
    """Returns the condition that a number isn't 0."""
    column = operand.column
    if operand.is_null or not column and isinstance(operand.value, str) or \
            column and values.affinity(column.kind) == values.TEXT:
        raise Outside
    from fractions import Fraction
    return compared(operand, "<>", Comparand(None, Constant(None, Fraction(0), True)))


# What statements of bw answer without groups: totals of all rows, and rows of columns, in order
# and within limits.


def totals_of(tree: Query, select: Select) -> list[Aggregate]:
    """Returns the aggregates that a statement asks for, or none if it asks for anything else."""
    if select.quantifier or select.groups or select.having or tree.orders or tree.limit:
        return []
    found = list[Aggregate]()
    for item in select.items:
        if not isinstance(item.expression, Call) or item.expression.name not in AGGREGATES:
            return []
        try:
            found.append(aggregate_of(item.expression))
        except Outside:
            return []
        if not found[-1].is_of_bw:
            return []
    return found


class Totals:
    """Totals of all rows, and nothing else, each of which bw computes: one statement of bw, whose
    answer is one row. No other module of SQL is needed for it."""

    def __init__(self, select: Select, table: Table, aggregates: Sequence[Aggregate]) -> None:
        self.select, self.table, self.aggregates = select, table, aggregates
        self.where = condition_of(select.where)

    def kinds(self) -> list[Kind | None]:
        """Returns the kinds of the columns."""
        return [each.kind for each in self.aggregates]

    def body(self, engine: Engine, _: object = None) -> ValueRows:
        """Returns the row."""
        names = list(dict.fromkeys(name for each in self.aggregates for name in each.totals))
        asked = select_text(", ".join(names), self.table.bw_name, self.where)
        found = {name: [value] for name, value in zip(names, engine.once(asked))}
        exact = [place for place, kind in enumerate(self.kinds()) if kind]
        return ValueRows([tuple(values_of(each, found)[0] for each in self.aggregates)], exact)


def aggregate_of(call: Call) -> Aggregate:
    """Returns an aggregate over a column, or COUNT(*), as which COUNT(1) is. Raises Outside for
    another one."""
    if call.filter or call.over or call.orders or call.is_bare:
        raise Outside
    argument = call.arguments[0] if len(call.arguments) == 1 else None
    is_of_rows = isinstance(argument, Literal) and argument.kind in (NUMBER, TEXT) and \
        not call.is_distinct
    if call.name == "COUNT" and (call.is_star or is_of_rows):
        return Aggregate("COUNT")
    column = direct_column(argument) if argument else None
    if not column or call.is_distinct and call.name in ("SUM", "AVG"):
        raise Outside
    return Aggregate(call.name, column, call.is_distinct and call.name == "COUNT")


class Rows:
    """Rows of columns, in order and within limits."""

    def __init__(self, tree: Query, select: Select, table: Table) -> None:
        self.table, self.columns = table, list[Column]()
        for item in select.items:
            self.columns += [wanted_column(item.expression)] if item.expression else table.columns
        self.keys = [self.key(term) for term in tree.orders]
        self.limits = limits_of(tree)
        self.where = condition_of(select.where)

    def kinds(self) -> list[Kind | None]:
        """Returns the kinds of the columns."""
        return [column.kind for column in self.columns]

    def key(self, term: OrderTerm) -> SortKey:
        """Returns the column of a term of ORDER BY: by its place, its name or its alias."""
        place = place_of(term.expression, len(self.columns))
        column = wanted_column(term.expression) if place is None else self.columns[place]
        return SortKey(column, term.is_descending, term.are_nulls_first)

    def body(self, engine: Engine, _: object = None) -> NumberRows:
        """Returns the rows that bw lists."""
        return WantedRows(self.table.bw_name, self.columns, self.where, self.keys,
                          self.limits).body(engine)


def wanted_column(node: Node) -> Column:
    """Returns the column that an expression is. Raises Outside for another one."""
    column = direct_column(node)
    if not column:
        raise Outside
    return column


def limits_of(tree: Query) -> Limits:
    """Returns the limits of LIMIT, which must be whole numbers. Raises Outside for others."""
    if tree.limit is None:
        return Limits()
    most = whole_number(tree.limit)
    offset = whole_number(tree.offset) if tree.offset else 0
    return Limits(None if most < 0 else most, max(0, offset))


def whole_number(node: Node) -> int:
    """Returns a whole number with an optional sign."""
    sign = 1
    if isinstance(node, Unary) and node.sign in ("+", "-"):
        sign, node = -1 if node.sign == "-" else 1, node.operand
    text = node.text if isinstance(node, Literal) else ""
    if not text.lstrip("-").isdecimal() or len(text) > 18:
        raise Outside
    return sign * int(text)

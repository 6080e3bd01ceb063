"""Groups of rows, and the totals of each.

Few groups are counted by statements of bw, one for each number that the columns may have, and their
totals are asked likewise: so each is an answer of bw, and all must add up to those of all rows. The
rows of many groups are listed by bw, and counted and added here (`counted`). Sums of floats and
counts of distinct values of many are made of rows that bw listed, too."""
from __future__ import annotations

import contextlib
import math
import sqlite3
from collections import Counter
from typing import Any, Callable, Iterable, Iterator, Mapping, NamedTuple, Optional, Sequence, Tuple

from .. import _aggregation as counted
from .._aggregation import (AGGREGATES, NULL_NUMBER, Aggregate, Found, Key, TooMany, float_total,
                            values_for_sqlite, values_of)
from .._engine.executor import COUNT, Engine, Outside, Totals, added, both, names_of, select
from .._errors import Failed, Refused
from .._result import Limits, Value, ValueRows, affinity, is_long
from .._storage.catalog import Table
from .._types.base import Column, Kind
from .._types.kinds import unstyled
from .lexer import quoted_name
from .pushdown import aggregate_of, condition_of, direct_column, limits_of
from .resolve import place_of
from .syntax import (Between, Call, Case, Cast, ColumnName, Comparison, InList, Item, Like, Literal,
                     Node, NullTest, Operation, Query, Select, Unary)
from .validate import NO_DOUBLE, refuse_doubles


# Who answers a question of groups that are too many for a statement of bw each: Python, which
# counts and adds rows that bw lists, or SQLite, over columns that bw lists and the connection
# keeps. The figures are microseconds of a processor, measured on 2026-11-30 over a million rows
# with Python 3.11 and SQLite 3.40, by both ways side by side: `bench/bench.py ask --only
# questions`.

# Python: for each row, for each further column of a group, and for each aggregate that is added;
# and for each group, and each aggregate of one
COUNTED, JOINED, ADDED, GROUP, GROUP_ADDED = .35, .15, .9, 13, 20
# SQLite: for each row and column that is to be listed; for each row, for each further column of a
# group, and for each aggregate; and for any question
LISTED, GROUPED, SORTED, SUMMED, FIXED = .8, .9, .8, .3, 20_000


def is_sqlite_quicker(rows: int, groups: int, keys: int, aggregates: Sequence[Aggregate],
                      missing: int | None, is_coarse: bool = False) -> bool:
    """Returns whether SQLite is quicker than Python, for so many rows that make so many groups, by
    so many columns. `missing` is the number of columns that SQLite hasn't got yet, or None if it
    may not get them. Of groups by expressions SQLite evaluates each for each row."""
    if missing is None:
        return False
    added = sum(each.column is not None for each in aggregates)
    by_python = rows * (COUNTED + JOINED * (keys - 1) + ADDED * added) + \
        groups * (GROUP + GROUP_ADDED * bool(added))
    by_sqlite = FIXED + rows * (LISTED * missing + GROUPED * (1 + is_coarse) +
                                SORTED * (keys - 1) + SUMMED * added)
    return by_sqlite < by_python


def groups_at_most(keys: Sequence[Column], whole: Mapping[str, Optional[int]], rows: int) -> int:
    """Returns how many groups there are at most, by the least and the greatest number of each
    column that makes them, which are among the totals of all rows."""
    counts = list[int]()
    for column in keys:
        least, greatest = whole[f"MIN({column.name})"], whole[f"MAX({column.name})"]
        counts.append(1 if least is None or greatest is None else greatest - least + 2)
    return min(rows, math.prod(counts))


# so many groups are counted by statements at most, and only if the rows that those scan are no more
# than so many times the rows that would be listed: which takes as long
MOST_STATEMENTS, LISTED_COST, LONG = 1000, 2000, 200
# so many rows are scanned for a sum of floats at most, for each row that would be listed: a
# statement counts as this many more
FLOAT_COST, STATEMENT_COST = 200, 20_000
# the doubles of so many columns of all rows, or of those of a condition, are kept
MOST_KEPT = 8
# the totals of all rows by their names
WholeTotals = Mapping[str, Optional[int]]


# returns how many of some columns SQLite hasn't got yet, or None if it may not get so many rows
Missing = Callable[[Sequence[Column], int], Optional[int]]


class Wanted(NamedTuple):
    """Which rows make groups, by which columns, and the aggregates of each group. Groups ascend,
    nulls first, or have the order of their first rows. Without `missing` SQLite isn't asked."""

    table: str
    where: str
    keys: Sequence[Column]
    aggregates: Sequence[Aggregate] = ()
    is_in_rows_order: bool = False
    # whether expressions make fewer groups of these
    is_coarse: bool = False
    missing: Optional[Missing] = None

    @property
    def totals(self) -> list[str]:
        """The totals of bw that the aggregates need."""
        found = [name for each in self.aggregates if each.is_of_bw for name in each.totals]
        return list(dict.fromkeys([COUNT, *found]))

    def select(self, items: str, where: str = "") -> str:
        """Returns the statement of bw over these rows, of which those are wanted that fulfil a
        condition."""
        return select(items, self.table, both(self.where, where))


class GroupValues(NamedTuple):
    """Groups in order: SQLite's values of what makes them, and of each aggregate, for all groups;
    and which of these columns, one after another, are decimals as their integers."""

    columns: Sequence[Sequence[Value]]
    values: Sequence[Sequence[Value]]
    exact: Sequence[int] = ()


# gets SQLite's values of the columns that make groups, and returns those of what makes fewer
# groups, and the place among these of each of the others
Coarse = Callable[[Sequence[Sequence[Value]]],
                  Tuple[Sequence[Sequence[Value]], Sequence[int]]]


def groups_of(engine: Engine, wanted: Wanted, coarse: Coarse | None = None) -> GroupValues:
    """Returns the groups of rows; or those that some of them make together, if `coarse` returns
    their columns and the place of each of the groups."""
    found = totals_of(engine, wanted)
    if not wanted.is_in_rows_order:
        found = found.ascending()
    keys, columns = found.keys, found.columns
    exact = list[int]()
    made: Sequence[Sequence[Any]] = [
        of_column(place, column, column.kind, numbers, exact)
        for place, (column, numbers) in enumerate(zip(wanted.keys, columns))]
    places: Sequence[int] = range(len(keys))
    if coarse:
        made, places = coarse(made)
        found = found.coarser(places, len(made[0]))
    count = len(found.totals[COUNT])
    # of each column the sum and the number of its doubles, or the number of its values, in each
    # group
    sums: dict[str, Sequence[tuple[float, int]]] = {}
    distinct: dict[str, Mapping[Key, int]] = {}
    results = list[Sequence[Value]]()
    for each in wanted.aggregates:
        if each.column and each.is_distinct:
            if each.column.name not in distinct:
                distinct[each.column.name] = distinct_of(engine, wanted, each.column)
            results.append([distinct[each.column.name].get(key, 0) for key in keys])
        elif each.column and each.is_float_sum:
            if each.column.name not in sums:
                sums[each.column.name] = sums_of_floats(engine, wanted, each.column, keys, places,
                                                        count)
            results.append([float_total(each.function, *found)
                            for found in sums[each.column.name]])
        else:
            results.append(of_column(len(made) + len(results), each.column, each.kind,
                                     values_of(each, found.totals), exact,
                                     each.function == "SUM"))
    return GroupValues(made, results, exact)


def of_column(place: int, column: Column | None, kind: Kind | None, numbers: Sequence[Any],
              exact: list[int], is_sum: bool = False) -> Sequence[Value]:
    """Returns SQLite's values of a column of groups, and notes its place if it is exact."""
    if kind is None:
        return numbers
    if column and is_long(column) and not is_sum:
        exact.append(place)
        return [None if number == NULL_NUMBER else number for number in numbers]
    found, is_exact = values_for_sqlite(kind, numbers, is_sum)
    exact += [place] * is_exact
    return found


def sums_of_floats(engine: Engine, wanted: Wanted, column: Column, keys: Sequence[Key],
                   places: Sequence[int], count: int) -> Sequence[tuple[float, int]]:
    """Returns the sum and the number of a column's doubles in each of so many groups, as
    `together` does."""
    found = None if wanted.keys else sum_by_statements(engine, wanted, column)
    if found:
        return [found]
    doubles = together(doubles_of(engine, wanted, column), keys, places, count)
    return [(counted.float_sum(part), len(part)) for part in doubles]


def sum_by_statements(engine: Engine, wanted: Wanted, column: Column) -> tuple[float, int] | None:
    """Returns the sum and the number of a column's doubles, by a statement for each exponent that
    they have; or None if so many would take longer than to list them."""
    plain: Any = unstyled(column.kind)
    if plain.name != "floats":
        return None
    name, parts = column.name, list[tuple[int, int]]()
    ends = f"COUNT({name}), MIN({name}), MAX({name})"
    signs = engine.totals([wanted.select(ends, f"{name} >= 1"), wanted.select(ends, f"{name} < 0")])
    for _, least, greatest in signs:
        if least is not None and greatest is not None:
            parts += counted.binades(plain.gap, least, greatest)
    present, scanned = engine.totals([wanted.select(f"COUNT({name}), {COUNT}"),
                                      select(f"COUNT({name}), {COUNT}", wanted.table, "")])
    scan = (scanned[1] or 0) * (1 + len(wanted.where) // LONG)
    if len(parts) * (scan + STATEMENT_COST) > FLOAT_COST * (present[0] or 0):
        return None
    found = engine.totals([wanted.select(f"COUNT({name}), SUM({name})",
                                         f"{name} BETWEEN {first} AND {last}")
                           for first, last in parts])
    totals = [(first, number or 0, total or 0)
              for (first, _), (number, total) in zip(parts, found)]
    if sum(number for _, number, _ in totals) != sum(each[0] or 0 for each in signs):
        raise Failed(f"the numbers of {name} don't add up to those of all rows")
    return counted.sum_of_binades(column.kind, totals), present[0] or 0


def together(doubles: Mapping[Key, Sequence[float]], keys: Sequence[Key], places: Sequence[int],
             count: int) -> list[Sequence[float]]:
    """Returns the doubles of so many groups, each of which has those of some keys."""
    if len(keys) == count:
        return [doubles.get(key, ()) for _, key in sorted(zip(places, keys))]
    found: list[list[float]] = [[] for _ in range(count)]
    for key, place in zip(keys, places):
        found[place] += doubles.get(key, ())
    return list(found)


def totals_of(engine: Engine, wanted: Wanted) -> Found:
    """Returns the totals of bw for each group, of which all have rows unless there is only one
    group. Raises Failed if those don't add up to the totals of all rows."""
    names = names_of_ends(wanted)
    whole = dict(zip(names, engine.totals([wanted.select(", ".join(names))])[0]))
    if not wanted.keys:
        return Found([], {name: [whole[name]] for name in names})
    if not whole[COUNT]:
        return Found([[] for _ in wanted.keys], {name: [] for name in wanted.totals})
    choices = [] if wanted.is_in_rows_order else choices_of(engine, wanted, whole)
    if not choices:
        refuse_slower(wanted, whole)
    found = by_statements(engine, wanted, choices) if choices else by_rows(engine, wanted)
    for name in wanted.totals:
        if added(name.partition("(")[0], found.totals[name]) != whole[name]:
            raise Failed(f"the groups' {name} don't add up to that of all rows, {whole[name]}")
    return found


def refuse_slower(wanted: Wanted, whole: WholeTotals) -> None:
    """Raises Outside if SQLite is quicker."""
    rows = whole[COUNT] or 0
    columns = [*wanted.keys, *(each.column for each in wanted.aggregates if each.column)]
    missing = wanted.missing(columns, rows) if wanted.missing else None
    groups = groups_at_most(wanted.keys, whole, rows)
    if is_sqlite_quicker(rows, groups, len(wanted.keys), wanted.aggregates, missing,
                         wanted.is_coarse):
        raise Outside


def names_of_ends(wanted: Wanted) -> list[str]:
    """Returns the totals that are asked of all rows: those that are wanted, and those that tell
    which numbers the groups' columns may have."""
    ends = [f"{function}({column.name})" for column in wanted.keys
            for function in ("COUNT", "MIN", "MAX")]
    return list(dict.fromkeys([*wanted.totals, *ends]))


def choices_of(engine: Engine, wanted: Wanted, whole: WholeTotals) -> list[list[int]]:
    """Returns the numbers that each column may have among rows of which these are the totals; none
    if there are too many groups to count them by statements."""
    found = list[list[int]]()
    for column in wanted.keys:
        least, greatest = (whole[f"{end}({column.name})"] for end in ("MIN", "MAX"))
        numbers = range(0)
        if least is not None and greatest is not None:
            numbers = range(least, min(greatest, least + MOST_STATEMENTS) + 1)
        has_null = whole[COUNT] != whole[f"COUNT({column.name})"]
        found.append([*([NULL_NUMBER] if has_null else []), *numbers])
    count, rows = math.prod(map(len, found)), whole[COUNT] or 0
    if count > MOST_STATEMENTS:
        return []
    scanned = rows
    if wanted.where:
        scanned = engine.totals([select(COUNT, wanted.table, "")])[0][0] or 0
    # a long condition takes longer
    scanned *= 1 + len(wanted.where) // LONG
    return found if count * scanned <= LISTED_COST * rows else []


def by_statements(engine: Engine, wanted: Wanted, choices: Sequence[Sequence[int]]) -> Found:
    """Returns the totals of each group by statements of bw: first the count of each, column by
    column, and then the totals of those that have rows. Without a condition most have rows, so the
    totals are asked at once with the last column's counts."""
    keys, items = list[Key]([()]), ", ".join(wanted.totals)
    totals = list[Totals]()
    for place, column in enumerate(choices, 1):
        asked = items if place == len(choices) and not wanted.where else COUNT
        tried = [(*key, number) for key in keys for number in column]
        found = engine.totals([wanted.select(asked, condition(wanted, key)) for key in tried])
        keys = [key for key, each in zip(tried, found) if each[0]]
        totals = [each for each in found if each[0]]
    if wanted.where and wanted.totals != [COUNT]:
        totals = engine.totals([wanted.select(items, condition(wanted, key)) for key in keys])
    columns = list(zip(*keys)) if keys else [()] * len(wanted.keys)
    return Found(columns, dict(zip(wanted.totals, zip(*totals) if keys else
                                   [()] * len(wanted.totals))))


def condition(wanted: Wanted, key: Key) -> str:
    """Returns the condition of a group's rows, or of those of several whose numbers begin so."""
    return " AND ".join(f"{column.name} IS NULL" if number == NULL_NUMBER
                        else f"{column.name} = {number}"
                        for column, number in zip(wanted.keys, key))


def by_rows(engine: Engine, wanted: Wanted) -> Found:
    """Returns the totals of each group, counted here of rows that bw listed."""
    named = {column.name: column for each in wanted.aggregates if (column := each.column)}
    functions: dict[str, list[str]] = {}
    for name in wanted.totals[1:]:
        function, _, of = name[:-1].partition("(")
        functions.setdefault(of, []).append(function)
    columns = [*wanted.keys, *map(named.__getitem__, functions)]
    parts = engine.rows(wanted.select(names_of(columns)))
    if not functions:
        return counted.counts(parts)
    return counted.totals(parts, len(wanted.keys), functions)


def distinct_of(engine: Engine, wanted: Wanted, column: Column) -> Mapping[Key, int]:
    """Returns how many numbers a column has in each group."""
    finer = wanted._replace(keys=[*wanted.keys, column], aggregates=(), is_in_rows_order=False)
    names = names_of_ends(finer)
    whole = dict(zip(names, engine.totals([finer.select(", ".join(names))])[0]))
    choices = choices_of(engine, finer, whole)
    if not choices:
        parts = engine.rows(finer.select(names_of(finer.keys), f"{column.name} IS NOT NULL"))
        return counted.distinct(parts)
    found = by_statements(engine, finer, choices)
    return Counter(key[:-1] for key in found.keys if key[-1] != NULL_NUMBER)


def doubles_of(engine: Engine, wanted: Wanted, column: Column) -> Mapping[Key, Sequence[float]]:
    """Returns the doubles of a column in each group, which bw lists. Those of all rows are kept."""
    columns = [*wanted.keys, column]
    statement = wanted.select(names_of(columns), f"{column.name} IS NOT NULL")
    if wanted.keys:
        return counted.doubles(engine.rows(statement), len(wanted.keys), column.kind)
    found = engine.kept.pop(statement, None)
    if found is None:
        found = counted.doubles_in(engine.rows(statement), column.kind)
    engine.kept[statement] = found
    while len(engine.kept) > MOST_KEPT:
        del engine.kept[next(iter(engine.kept))]
    return {(): found} if found else {}


# functions whose value depends on nothing but their arguments
FUNCTIONS = frozenset(
    "ABS CHAR COALESCE DATE DATETIME HEX IFNULL IIF INSTR JULIANDAY LENGTH LOWER LTRIM NULLIF "
    "PRINTF QUOTE REPLACE ROUND RTRIM SIGN STRFTIME SUBSTR SUBSTRING TIME TRIM TYPEOF UNICODE "
    "UPPER".split())
TYPES = ("INTEGER", "INT", "REAL", "TEXT", "NUMERIC")
# what names in the table of groups begin with, and the table
PREFIX = "bw:"
TABLE = quoted_name(f"{PREFIX}groups")


class Group:
    """What makes groups: a column, or an expression over columns, of which this is the text; and
    the type of its values if it is a CAST."""
    __slots__ = ("column", "text", "type")

    def __init__(self, column: Column | None, text: str = "", name: str = "") -> None:
        self.column, self.text, self.type = column, text, name


class GroupText:
    """Makes the text of expressions over groups, and notes what makes the groups and which
    aggregates are needed. `are_free` says that any column may make groups, as in SELECT
    DISTINCT."""

    def __init__(self, table: Table, groups: Iterable[Group] = (), are_free: bool = False) -> None:
        self.table, self.groups, self.are_free = table, list(groups), are_free
        self.aggregates: list[Aggregate] = []
        # what expressions that make groups are called, by their text over columns
        self.made = {group.text: self.name(place) for place, group in enumerate(self.groups)
                     if not group.column}

    @property
    def columns(self) -> list[Column]:
        """The columns that make groups."""
        return [group.column for group in self.groups if group.column]

    @property
    def names(self) -> list[str]:
        """The names of the columns of the table of groups: of what makes them, and of aggregates.
        """
        return [*map(self.name, range(len(self.groups))),
                *(quoted_name(f"{PREFIX}{place}") for place in range(len(self.aggregates)))]

    @property
    def kinds(self) -> dict[str, Kind | None]:
        """The kinds of these columns, by their names."""
        kinds = [group.column.kind if group.column else None for group in self.groups]
        return dict(zip(self.names, [*kinds, *(each.kind for each in self.aggregates)]))

    @property
    def types(self) -> list[str]:
        """The columns of the table of groups: those that make them, with the type that SQLite
        compares them by; expressions and aggregates have none."""
        types = [group.type if not group.column else
                 "INTEGER" if is_long(group.column) else affinity(group.column.kind)
                 for group in self.groups]
        return [f"{name} {typed}" for name, typed
                in zip(self.names, [*types, *[""] * len(self.aggregates)])]

    def name(self, place: int) -> str:
        """Returns the name of what makes groups, by its place."""
        column = self.groups[place].column
        return quoted_name(f"{PREFIX}{column.name if column else f'group {place}'}")

    def key(self, column: Column) -> str:
        """Returns the name of a column that makes groups. Raises Outside for another one."""
        places = [place for place, group in enumerate(self.groups) if group.column is column]
        if not places and not self.are_free or column not in self.table.columns:
            raise Outside
        if not places:
            self.groups.append(Group(column))
        return self.name(places[0] if places else len(self.groups) - 1)

    def aggregate(self, call: Call) -> str:
        """Returns the name of an aggregate's column."""
        found = aggregate_of(call)
        if found not in self.aggregates:
            self.aggregates.append(found)
        return quoted_name(f"{PREFIX}{self.aggregates.index(found)}")

    def text(self, node: Node) -> str:
        """Returns the text of an expression. Raises Outside for one that isn't over groups."""
        if self.made and not isinstance(node, (Literal, ColumnName)):
            name = self.made.get(text_over_columns(self.table, node) or "")
            if name:
                return name
        if isinstance(node, ColumnName):
            return self.column(node)
        if isinstance(node, Literal):
            if str(node.value).lower() == "now":
                # of the present moment
                raise Outside
            return node.form or node.text
        if node.form:
            return node.form
        if isinstance(node, Call):
            return self.call(node)
        return f"({self.operation(node)})"

    def column(self, node: ColumnName) -> str:
        """Returns the text of a name: what its alias stands for, or a column that makes groups."""
        if node.item and node.item.expression:
            return self.text(node.item.expression)
        if node.output is None and node.name.text.upper() in ("TRUE", "FALSE"):
            return node.form or node.name.text
        column = direct_column(node)
        if not column:
            raise Outside
        return self.key(column)

    def call(self, node: Call) -> str:
        """Returns the text of a call: of an aggregate, or of a function of its arguments alone."""
        if node.name in AGGREGATES and (len(node.arguments) < 2 or node.name not in ("MIN", "MAX")):
            return self.aggregate(node)
        if node.name not in FUNCTIONS or not node.arguments or is_special(node):
            raise Outside
        return f"{node.name}({', '.join(map(self.text, node.arguments))})"

    def operation(self, node: Node) -> str:
        """Returns the text of an operator and its operands."""
        negated = "NOT " if getattr(node, "is_negated", False) else ""
        if isinstance(node, Unary):
            return f"{node.sign} {self.text(node.operand)}"
        if isinstance(node, Operation) and not any("->" in sign for sign in node.signs):
            parts = [f" {sign} {self.text(operand)}"
                     for sign, operand in zip(node.signs, node.operands[1:])]
            return "".join([self.text(node.operands[0]), *parts])
        if isinstance(node, Comparison):
            return f"{self.text(node.left)} {node.sign} {self.text(node.right)}"
        if isinstance(node, NullTest):
            return f"{self.text(node.operand)} IS {negated}NULL"
        if isinstance(node, Between):
            return f"{self.text(node.operand)} {negated}BETWEEN {self.text(node.low)} AND " \
                   f"{self.text(node.high)}"
        if isinstance(node, InList):
            return f"{self.text(node.operand)} {negated}IN ({self.texts(node.members)})"
        if isinstance(node, Like) and node.sign in ("LIKE", "GLOB"):
            escape = f" ESCAPE {self.text(node.escape)}" if node.escape else ""
            return f"{self.text(node.operand)} {negated}{node.sign} {self.text(node.pattern)}" \
                   f"{escape}"
        if isinstance(node, Case):
            return self.case(node)
        if isinstance(node, Cast) and node.type in TYPES:
            return f"CAST({self.text(node.operand)} AS {node.type})"
        raise Outside

    def texts(self, nodes: Sequence[Node]) -> str:
        return ", ".join(map(self.text, nodes))

    def case(self, node: Case) -> str:
        """Returns the text of a CASE."""
        parts = ["CASE", *([self.text(node.operand)] if node.operand else [])]
        for when in node.whens:
            parts.append(f"WHEN {self.text(when.condition)} THEN {self.text(when.result)}")
        parts += [f"ELSE {self.text(node.otherwise)}"] if node.otherwise else []
        return " ".join([*parts, "END"])


def text_over_columns(table: Table, node: Node) -> str | None:
    """Returns the text of an expression over columns, which is equal for expressions that mean the
    same; or None for another expression."""
    made = GroupText(table, are_free=True)
    try:
        text = made.text(node)
    except Outside:
        return None
    return text if made.groups and not made.aggregates else None


def is_special(call: Call) -> bool:
    """Returns whether a call has more than a name and arguments."""
    return bool(call.is_bare or call.is_star or call.is_distinct or call.filter or call.over
                or call.orders)


class GroupsPlan:
    """A statement with groups, or with totals of all rows. If an expression makes groups, rows are
    first grouped by the columns in it (`fine`), and of these groups SQLite makes fewer."""

    def __init__(self, query: Query, select: Select, table: Table) -> None:
        self.query, self.select, self.table = query, select, table
        self.fine = GroupText(table, are_free=True)
        # what makes groups, as expressions over the columns of `fine`
        self.made: list[str] = []
        are_free = select.quantifier == "DISTINCT" and not select.groups
        self.over = GroupText(table, self.groups(), are_free)
        self.is_in_rows_order = False
        # the texts of the items, of the terms of ORDER BY, and of HAVING
        self.shown: list[str] = []
        self.orders: list[str] = []
        self.having = ""
        self.sql = self.statement()
        self.refuse_mixed()
        refuse_doubles(query)

    @property
    def is_coarse(self) -> bool:
        """Whether an expression makes groups."""
        return any(group.column is None for group in self.over.groups)

    @property
    def columns(self) -> list[Column]:
        """The columns by which rows are grouped."""
        return self.fine.columns if self.is_coarse else self.over.columns

    def groups(self) -> list[Group]:
        """Returns what GROUP BY names, each once: columns, and expressions over columns."""
        found = dict(self.group(each) for each in self.select.groups)
        self.made = list(found)
        return list(found.values())

    def group(self, node: Node) -> tuple[str, Group]:
        """Returns what makes groups, as an expression over the columns of `fine`, and as what it is
        in the statement."""
        expression = self.placed(node)
        while isinstance(expression, ColumnName) and expression.item and \
                expression.item.expression:
            expression = expression.item.expression
        column = direct_column(expression)
        if column:
            return self.fine.key(column), Group(column)
        text = text_over_columns(self.table, expression)
        if text is None:
            # what has no column makes one group
            raise Outside
        made = self.fine.text(expression)
        name = expression.type if isinstance(expression, Cast) else ""
        return made, Group(None, text, name)

    def placed(self, node: Node) -> Node:
        """Returns the item whose place a literal is, or another expression as it is."""
        items = self.select.items
        place = place_of(node, len(self.select.outputs))
        if place is None:
            return node
        if len(items) != len(self.select.outputs):
            raise Outside
        expression = items[place].expression
        if expression is None:
            raise Outside
        return expression

    def refuse_mixed(self) -> None:
        """Raises Outside if groups are missing or surplus: an aggregate makes one group of all
        rows, HAVING needs one, and DISTINCT columns. Numbers of distinct values of groups don't add
        up to those of fewer groups."""
        made, select = self.over, self.select
        has_aggregates = bool(made.aggregates)
        if not select.groups and (has_aggregates == bool(made.groups) or
                                  select.having and not has_aggregates):
            raise Outside
        if self.is_coarse and any(each.is_distinct for each in made.aggregates):
            raise Outside

    def statement(self) -> str:
        """Returns the statement over the table of groups."""
        made, is_distinct = self.over, self.select.quantifier == "DISTINCT"
        items = self.shown = [text for item in self.select.items for text in self.items(item)]
        sql = f"SELECT {'DISTINCT ' if is_distinct else ''}{', '.join(items)} FROM {TABLE}"
        if self.select.having:
            self.having = made.text(self.select.having)
            sql += f" WHERE {self.having}"
        orders = self.orders
        for term in self.query.orders:
            place = place_of(term.expression, len(items))
            # not a literal, which would be a place
            orders.append(items[place] if place is not None else f"+{made.text(term.expression)}"
                          if isinstance(term.expression, Literal) else made.text(term.expression))
        if made.are_free:
            keys = {made.name(place) for place in range(len(made.groups))}
            # a term that is no item has the value of the first of equal rows
            self.is_in_rows_order = not set(items) == keys <= set(orders)
        if orders:
            terms = [f"{order} {term.words}" for order, term in zip(orders, self.query.orders)]
            sql += f" ORDER BY {', '.join([*terms, f'{TABLE}.rowid'])}"
        return sql

    def items(self, item: Item) -> list[str]:
        """Returns the expressions that an item is."""
        if item.expression is None:
            if not self.over.are_free:
                raise Outside
            return [self.over.key(column) for column in self.table.columns]
        return [self.over.text(item.expression)]


class Groups:
    """Groups, and expressions over them and their totals."""

    def __init__(self, tree: Query, select: Select, table: Table) -> None:
        self.table, self.plan = table, GroupsPlan(tree, select, table)
        self.limits, self.where = limits_of(tree), condition_of(select.where)
        self.sql = self.plan.sql
        if self.limits != Limits():
            most = -1 if self.limits.most is None else self.limits.most
            self.sql += f" LIMIT {most} OFFSET {self.limits.offset}"
        explain(self.plan.over.types, self.sql)
        if self.plan.is_coarse:
            explain(self.plan.fine.types, f"SELECT {', '.join(self.plan.made)} FROM {TABLE}")

    def body(self, engine: Engine, missing: Missing | None = None) -> ValueRows:
        """Returns the rows that SQLite makes of the groups. Raises Outside if it is quicker over
        all rows."""
        made = self.plan.over
        if self.limits.most == 0:
            return ValueRows([])
        wanted = Wanted(self.table.bw_name, self.where, self.plan.columns, made.aggregates,
                        self.plan.is_in_rows_order, self.plan.is_coarse, missing)
        try:
            groups = groups_of(engine, wanted, self.coarse if self.plan.is_coarse else None)
        except TooMany:
            if self.plan.is_coarse:
                raise Outside from None
            raise
        exact = [made.names[place] for place in groups.exact]
        self.refuse_sums(exact)
        places = [place for place, item in enumerate(self.plan.shown) if item in exact]
        rows = rows_of(made.types, [*groups.columns, *groups.values], self.sql)[0]
        return ValueRows(rows, places)

    def kinds(self) -> list[Kind | None]:
        """Returns the kinds of the columns: those of items that are columns or aggregates."""
        kinds = self.plan.over.kinds
        return [kinds.get(item) for item in self.plan.shown]

    def refuse_sums(self, exact: Sequence[str]) -> None:
        """Rejects a statement that has one of these sums in an expression."""
        made = self.plan.over
        texts = [self.plan.having, *(each for each in (*self.plan.shown, *self.plan.orders)
                                     if each not in exact)]
        for name, each in zip(made.names[len(made.groups):], made.aggregates):
            if each.function == "SUM" and name in exact and any(name in text for text in texts):
                raise Refused(NO_DOUBLE.format(each.totals[0]))

    def coarse(self, columns: Sequence[Sequence[Value]]
               ) -> tuple[Sequence[Sequence[Value]], Sequence[int]]:
        """Returns the values of the expressions that make groups, in order, and the place among
        them of each group that the columns make."""
        made = self.plan.made
        items, order = ", ".join(made), ", ".join(str(place + 1) for place in range(len(made)))
        rows, groups = rows_of(self.plan.fine.types, columns, f"SELECT {items} FROM {TABLE}",
                               f"SELECT DISTINCT {items} FROM {TABLE} ORDER BY {order}")
        places = {row: place for place, row in enumerate(groups)}
        return list(zip(*groups)) if groups else [()] * len(made), [places[row] for row in rows]


@contextlib.contextmanager
def table_of(types: Sequence[str]) -> Iterator[sqlite3.Connection]:
    """Yields a database that has the table of groups, without rows."""
    database = sqlite3.connect(":memory:", isolation_level=None)
    try:
        database.execute(f"CREATE TABLE {TABLE} ({', '.join(types)})")
        database.execute("BEGIN")
        yield database
    finally:
        database.close()


def rows_of(types: Sequence[str], columns: Sequence[Sequence[Value]],
            *statements: str) -> list[list[tuple[Value, ...]]]:
    """Returns the rows of statements over the table of groups of these columns."""
    try:
        with table_of(types) as database:
            database.executemany(f"INSERT INTO {TABLE} VALUES ({', '.join('?' * len(types))})",
                                 zip(*columns))
            return [database.execute(sql).fetchall() for sql in statements]
    except sqlite3.Error as error:
        raise Refused(str(error)) from None


def explain(types: Sequence[str], sql: str) -> None:
    """Raises Outside if SQLite can't run a statement over the table of groups."""
    try:
        with table_of(types) as database:
            database.execute(f"EXPLAIN {sql}")
    except sqlite3.Error:
        raise Outside from None

"""What is refused before a statement runs, since SQLite's answer would be wrong for a reader: a
literal compared with a column of another kind, sums of dates and texts, the order of texts that
look like numbers, texts and dates as conditions, arithmetic on dates, and patterns for dates that
aren't spelled as SQLite has them. Literals that are compared with columns get their text for SQLite
here."""
from __future__ import annotations

from typing import Iterable, Iterator, Sequence

from .. import _aggregation
from .._errors import Refused
from .._identifiers import option
from .._result import MOMENTS, TEXT, affinity, is_long, plain_of
from .._types.base import Column, Literal as Value
from .lexer import TEXT as TEXT_TOKEN, short
from .literals import Constant, are_same, constant_of, form_of
from .resolve import choices, column_of, exact_of, meaning, place_of
from .syntax import (Between, Call, Case, ColumnName, Comparison, InList, InQuery, Item, Like,
                     Literal, Node, NullTest, Operation, OrderTerm, Output, Query, Row, Select,
                     Source, Subquery, TableSource, Unary, Window, bare, children)

ARITHMETIC = ("+", "-", "*", "/", "%")
EQUAL = ("=", "<>", "IS", "IS NOT", "IN", "CASE")
SWAPPED = {"<": ">", ">": "<", "<=": ">=", ">=": "<="}
# functions of the text that SQLite has of a date
OF_TEXT = ("SUBSTR", "SUBSTRING", "INSTR", "REPLACE", "UPPER", "LOWER", "TRIM", "LTRIM",
           "RTRIM", "LIKE", "GLOB")


def validate(tree: Query, written: str) -> None:
    """Raises Refused for what is refused. Gives literals their texts for SQLite."""
    checks = Checks(written)
    for node in resolved(tree):
        checks.node(node)


def resolved(tree: Query) -> Iterator[Node]:
    """Yields the nodes of a tree without the queries of WITH that nothing reads."""
    left: list[Node] = [tree]
    while left:
        node = left.pop()
        if isinstance(node, Query) and node.scope is None:
            continue
        yield node
        left += reversed(children(node))


class Checks:
    """The checks of a statement, each for some nodes."""

    def __init__(self, written: str) -> None:
        self.written = written
        # the texts for SQLite of literals, each with a column that needs it
        self.forms: dict[Node, tuple[str, Column]] = {}

    def node(self, node: Node) -> None:
        """Checks a node, whose children are checked by themselves."""
        if isinstance(node, (Literal, ColumnName)):
            return
        if isinstance(node, Call):
            self.call(node)
        elif isinstance(node, (Query, Window)):
            self.orders(node.orders, node.outputs if isinstance(node, Query) else [])
        elif isinstance(node, (Operation, Unary)):
            self.operation(node)
        elif isinstance(node, Select):
            self.conditions([node.where, node.having])
            same_moments(node.scope.pairs if node.scope else [])
        elif isinstance(node, InQuery):
            operand = meaning(bare(node.operand))
            same_moments([(operand, output) for output in outputs_of(node)[:1] if operand])
        elif isinstance(node, Source):
            self.conditions([node.on])
        elif isinstance(node, Case) and not node.operand:
            self.conditions([when.condition for when in node.whens])
        elif isinstance(node, Like):
            self.pattern(node)
        if isinstance(node, InList):
            self.members(node)
            return
        for left, sign, right in comparisons(node):
            self.comparison(left, sign, right)

    def members(self, node: InList) -> None:
        """Checks the members of a list: literals beside a column by themselves, since there may be
        many."""
        found = meaning(bare(node.operand))
        column = found.column if found else None
        for left, sign, right in comparisons(node):
            constant = constant_of(right) if column and isinstance(right, Literal) else None
            if not column or not constant:
                self.comparison(left, sign, right)
            elif constant.value is not None:
                self.literal(column, constant, sign)

    def conditions(self, nodes: Sequence[Node | None]) -> None:
        """Rejects columns of texts, dates and times as conditions: to SQLite a text is true if it
        begins with a number other than 0, so each date is true, and most texts are false."""
        for node in nodes:
            found = meaning(bare(node)) if node else None
            if node and found and found.column and affinity(found.column.kind) == TEXT:
                column = found.column
                raise Refused(f"{self.shown(node)} is no condition ({where(node)}): "
                              f"{held(column)}; write {column.name} = {column.kind.example}, or "
                              f"{column.name} IS NOT NULL")

    def call(self, node: Call) -> None:
        """Checks a call of a function."""
        self.orders(node.orders, [])
        self.conditions([node.filter])
        for argument in node.arguments:
            column = column_of(argument)
            if column and node.name in ("MIN", "MAX"):
                refuse_unordered(column, f"{node.name}({column.name})")
            elif column and node.name in ("SUM", "AVG", "TOTAL"):
                refuse_sum(column, node.name)
            elif column and node.name in OF_TEXT:
                refuse_form(node.name, node, column)

    def orders(self, terms: Sequence[OrderTerm], outputs: Sequence[Output]) -> None:
        """Checks the terms of ORDER BY."""
        for term in terms:
            place = place_of(term.expression, len(outputs))
            column = column_of(bare(term.expression)) if place is None else outputs[place].plain
            if column:
                refuse_unordered(column, f"ORDER BY {column.name}")

    def operation(self, node: Operation | Unary) -> None:
        """Checks arithmetic, of which SQLite would take a date's year or a time's hour, and
        conditions."""
        operands = node.operands if isinstance(node, Operation) else [node.operand]
        signs = node.signs if isinstance(node, Operation) else [node.sign]
        if signs[0] in ("AND", "OR", "NOT"):
            self.conditions(operands)
        for place, operand in enumerate(operands):
            sign, column = signs[max(0, place - 1)], column_of(operand)
            if sign in ARITHMETIC and column and column.kind.name in MOMENTS:
                raise Refused(f"{self.shown(operand)} has {column.kind.plural}, which have no "
                              f"{sign} ({where(operand)}): use julianday({column.name}) for days, "
                              f"or date({column.name}, '+1 day')")

    def pattern(self, node: Like) -> None:
        """Rejects patterns for dates and times that are printed in another form than SQLite has,
        unless they are clearly for SQLite's, and escapes that SQLite rejects on the first row."""
        escape = node.escape
        if isinstance(escape, Literal) and escape.kind == TEXT_TOKEN and \
                len(str(escape.value)) != 1:
            raise Refused(f"ESCAPE expression must be a single character ({where(escape)})")
        found = meaning(bare(node.operand))
        wanted = node.pattern
        text = str(wanted.value) if isinstance(wanted, Literal) and wanted.kind == TEXT_TOKEN \
            else ""
        if node.sign in ("LIKE", "GLOB") and found and found.column and not (
                text[:4].isdecimal() or text[:4] in ("____", "????")):
            refuse_form(node.sign, node, found.column)

    def comparison(self, left: Node, sign: str, right: Node) -> None:
        """Checks a comparison, and gives its literal SQLite's form."""
        columns = [found.column if (found := meaning(bare(each))) else None
                   for each in (left, right)]
        constants = [None if column else constant_of(bare(each))
                     for column, each in zip(columns, (left, right))]
        for column, other, constant in zip(columns, reversed(columns), reversed(constants)):
            is_known = other or constant and constant.value is not None
            if column and is_known and sign.removesuffix(" ROW") not in EQUAL:
                refuse_unordered(column,
                                 f"{self.shown(left)} {sign[:2].strip()} {self.shown(right)}")
        if columns[0] and constants[1] and constants[1].value is not None:
            self.literal(columns[0], constants[1], sign)
        if columns[1] and constants[0] and constants[0].value is not None:
            self.literal(columns[1], constants[0], SWAPPED.get(sign, sign))
        if columns[0] and columns[1]:
            refuse_moments(columns[0], columns[1])

    def literal(self, column: Column, constant: Constant, sign: str) -> None:
        """Rejects a literal of another kind than the column's, and gives it SQLite's form."""
        assert constant.node
        if is_long(column) and sign.startswith("IS") and isinstance(constant.node, ColumnName):
            # TRUE and FALSE after IS ask whether the column's double is 0
            raise Refused(NO_DOUBLE.format(column.name))
        shown, value = self.shown(constant.node), constant.beside(column)
        if isinstance(value, bytes) or value is None:
            raise Refused(f"{shown} can't be compared with {column.name}: {held(column)}")
        refuse_other(column, value, shown, sign in EQUAL)
        if sign.endswith(" ROW"):
            sign = "=" if sign.removesuffix(" ROW") in EQUAL else "ROW"
        form = form_of(column, constant, "=" if sign in EQUAL else sign)
        before, other = self.forms.setdefault(constant.node, (form, column))
        if not are_same(before, form, constant):
            raise Refused(f"{shown} ({where(constant.node)}) is compared with {other.name} and "
                          f"{column.name} at once, which have it in different forms: write a "
                          "comparison for each")
        constant.node.form = form

    def shown(self, node: Node) -> str:
        """Returns a node's text for a message, with the values of parameters."""
        if isinstance(node, Literal):
            return short(node.text if node.mark else self.written[node.start:node.end])
        parts, at, left = list[str](), node.start, [node]
        marks = list[Literal]()
        while left:
            each = left.pop()
            if isinstance(each, Literal) and each.mark:
                marks.append(each)
            left += reversed(children(each))
        for mark in marks:
            parts += [self.written[at:mark.start], mark.text]
            at = mark.end
        return short("".join([*parts, self.written[at:node.end]]))


def comparisons(node: Node) -> Iterator[tuple[Node, str, Node]]:
    """Yields the comparisons that a node makes, each of two operands by an operator, which is IN
    for a member of a list, CASE for a WHEN, and for members of rows ends with ROW."""
    if isinstance(node, Comparison):
        yield from pairs(node.left, node.sign, node.right)
    elif isinstance(node, InList):
        for member in node.members:
            yield from pairs(node.operand, "IN", member)
    elif isinstance(node, Between):
        yield from pairs(node.operand, ">=", node.low)
        yield from pairs(node.operand, "<=", node.high)
    elif isinstance(node, Case) and node.operand:
        for when in node.whens:
            yield from pairs(node.operand, "CASE", when.condition)


def pairs(left: Node, sign: str, right: Node) -> Iterator[tuple[Node, str, Node]]:
    """Yields the comparison of two operands, or those of the members of two rows."""
    if isinstance(left, Row) and isinstance(right, Row) and \
            len(left.members) == len(right.members):
        for pair in zip(left.members, right.members):
            yield pair[0], f"{sign} ROW", pair[1]
    else:
        yield left, sign, right


def where(node: Node) -> str:
    return f"at character {node.start} of the statement"


def held(column: Column) -> str:
    """Returns what a column has, in a message."""
    ends = ""
    if column.ends and column.kind.name not in ("texts", "truths"):
        ends = f" from {column.ends[0]} to {column.ends[1]}"
    return f"{column.name} has {column.kind.plural}{ends}{f' ({column.why})' if column.why else ''}"


def refuse_unordered(column: Column, what: str) -> None:
    """Rejects what needs the order of a column whose texts look like numbers or dates: by code
    points 10 is before 9."""
    if column.looks_like:
        raise Refused(f"{what}: {column.name} has texts ({column.why}), so it has no order: "
                      "to order it by code points, import the file again with "
                      f"{option('--text', column.heading)}")


def refuse_other(column: Column, value: Value, text: str, is_equal: bool) -> None:
    """Rejects a literal of another kind than a column's, and one that is null there."""
    is_null = value == "" or value in column.nulls
    if is_null and (is_equal or column.kind.name != "texts"):
        raise Refused(f"{text} is null in {column.name}: use {column.name} IS NULL")
    # any text is one of texts: to look for its place takes longer
    is_text = isinstance(value, str) and column.kind.name == "texts"
    if not is_text and column.kind.place(value) is None:
        raise Refused(f"{text} can't be compared with {column.name}: {held(column)}; write such a "
                      f"literal as {column.kind.example}")


def refuse_sum(column: Column, function: str) -> None:
    """Rejects a sum or a mean of dates, times and texts."""
    if not column.kind.is_summable and column.kind.plural != "floats":
        raise Refused(f"{function}({column.name}): {column.name} has {column.kind.plural}, which "
                      "can't be summed: use COUNT, MIN or MAX")


def refuse_form(word: str, node: Node, column: Column) -> None:
    """Rejects a function or a pattern of texts if the column isn't printed as SQLite has it."""
    if column.kind.name not in MOMENTS:
        return
    plain, name = plain_of(column.kind), column.name
    printed, had = column.kind.text(0)[:10], plain.text(0)[:10]
    if printed[:len(had)] != had[:len(printed)]:
        raise Refused(f"{word} on {name} ({where(node)}): {name} is printed as "
                      f"{column.kind.example}, but {word} would see {plain.example}: compare "
                      f"{name} itself, or use strftime('%Y-%m-%d', {name})")


def same_moments(pairs: Iterable[tuple[Output, Output]]) -> None:
    """Rejects the comparisons of columns as `refuse_moments` does."""
    for left, right in pairs:
        if left.plain and right.plain:
            refuse_moments(left.plain, right.plain)


def refuse_moments(left: Column, right: Column) -> None:
    """Rejects the comparison of dates and times whose texts aren't ordered as they are."""
    kinds = [column.kind for column in (left, right)]
    if all(kind.name in MOMENTS for kind in kinds) and not kinds[0].alike(kinds[1]):
        raise Refused(f"{left.name} and {right.name} can't be compared: "
                      f"{held(left)}, {held(right)}, and equal texts mean different values")


# --- decimals whose digits a double doesn't hold, which SQLite has as integers

NO_DOUBLE = ("{} has decimals of more than 15 digits, and an expression computes with doubles, "
             "which have fewer: list, compare, group, count or sum the column")


def is_exact(output: Output | None) -> bool:
    """Returns whether SQLite has the values of a column as integers."""
    return output is not None and output.plain is not None and is_long(output.plain)


def digits_of(output: Output | None) -> int:
    """Returns how many digits the values of a column have after the point in SQLite's integers, or
    -1 if it has doubles."""
    return _aggregation.digits_of(output.plain.kind) if output and output.plain and \
        is_exact(output) else -1


def refuse_doubles(tree: Query) -> None:
    """Raises Refused if a statement computes with the double of decimals of many digits."""
    nodes = list(resolved(tree))
    tables = [node.table for node in nodes if isinstance(node, TableSource) and node.table]
    if not any(is_long(column) for table in tables for column in table.columns):
        return
    windows = [node for node in nodes if isinstance(node, Window)]
    ordered = [found for node in windows for term in node.orders
               if is_exact(found := meaning(bare(term.expression)))]
    if ordered and ordered[0] and any(node.unit == "RANGE" and node.bounds for node in windows):
        # a bound is a number that is added to the column
        raise no_double(ordered[0])
    allowed = {child for node in nodes for child in allowed_in(node)}
    for node in nodes:
        refuse_compared(node)
        for child in children(node):
            found = meaning(child)
            if found and is_exact(found) and child not in allowed:
                raise no_double(found)
        pairs = list[tuple[Output, Output]]()
        if isinstance(node, Query):
            pairs += [(found, output) for select in node.selects
                      for found, output in zip(select.outputs, node.outputs)]
        if isinstance(node, Select) and node.scope:
            pairs += node.scope.pairs
        if isinstance(node, InQuery):
            operand = meaning(node.operand) or Output("", "", None)
            pairs += [(operand, output) for output in outputs_of(node)]
        for one, other in pairs:
            if digits_of(one) != digits_of(other):
                raise no_double(one if is_exact(one) else other)


def refuse_compared(node: Node) -> None:
    """Raises Refused if decimals of many digits are compared with an expression, or a column, whose
    values SQLite has in another form."""
    for left, _, right in comparisons(node):
        one, other = meaning(left), meaning(right)
        if digits_of(one) != digits_of(other) and not constant_of(left) and not constant_of(right):
            raise no_double(one if one and is_exact(one) else other or Output("", "", None))


def no_double(output: Output) -> Refused:
    return Refused(NO_DOUBLE.format(output.plain.name if output.plain else output.name))


def outputs_of(node: InQuery) -> list[Output]:
    """Returns the columns of the query or the table in which IN looks."""
    if node.query:
        return node.query.outputs
    table = node.source.table if node.source else None
    return [Output(each.name, each.name, each) for each in table.columns] if table else []


def allowed_in(node: Node) -> Iterator[Node]:
    """Yields the children of a node that may be integers in place of decimals."""
    if isinstance(node, (Item, OrderTerm, NullTest, InQuery, Select, Source, TableSource)):
        yield from children(node)
    elif isinstance(node, Query):
        yield from (child for child in children(node) if child not in (node.limit, node.offset))
    elif isinstance(node, Window):
        yield from node.partitions
    elif isinstance(node, Operation) and node.signs[0] in ("AND", "OR") or \
            isinstance(node, Unary) and node.sign == "NOT":
        yield from children(node)
    elif isinstance(node, Call) and not node.over and len(node.arguments) == 1 and (
            node.name in ("COUNT", "SUM", "AVG", "TOTAL", "MIN", "MAX")):
        yield from node.arguments
        exact = exact_of(node.arguments[0]) if node.name in ("SUM", "AVG", "TOTAL") else None
        if exact and exact.is_scaled:
            yield from choices(node.arguments[0])
    # others were refused
    for left, _, right in comparisons(node):
        yield from (left, right)


def shown_sums(tree: Query) -> list[Node]:
    """Returns the expressions that are items of a result, or terms of its order."""
    if len(tree.selects) > 1:
        return []
    return [*(item.expression for item in tree.selects[0].items if item.expression),
            *(term.expression for term in tree.orders)]


def inner_sums(tree: Query) -> Iterator[tuple[Node, Output]]:
    """Yields the sums of decimals that are anywhere else: an expression needs their doubles."""
    shown = set(shown_sums(tree))
    for node in resolved(tree):
        found = meaning(node) if isinstance(node, (Call, ColumnName, Subquery)) else None
        if found and found.is_total and found.kind and node not in shown:
            yield node, found


def whole_sums(tree: Query) -> set[Node]:
    """Returns the sums of decimals that are shown with all their digits: none if an expression
    calls one by its alias."""
    if any(isinstance(node, ColumnName) for node, _ in inner_sums(tree)):
        return set()
    return {node for node in shown_sums(tree) if isinstance(node, Call)
            and (found := meaning(node)) and found.is_total and found.kind}


def inner_sum(tree: Query) -> Refused:
    """Returns the refusal of a sum of decimals that has more digits than a double, in an
    expression."""
    found = [output for _, output in inner_sums(tree)]
    return no_double(found[0] if found else Output("a sum", "", None))

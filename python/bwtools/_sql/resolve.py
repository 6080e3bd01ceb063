"""Binds the names of a statement, and says which expressions are decimals."""
from __future__ import annotations

from typing import Any, Iterator, Sequence

from .. import _aggregation
from .._errors import Refused
from .._result import EXACT_DIGITS
from .._storage.catalog import Catalog, missing
from .._types import kinds
from .._types.base import GREATEST, Column, Kind
from .._types.kinds import unstyled
from .lexer import MOST_SHORT, NUMBER, WORD
from .syntax import (Between, Call, Case, ColumnName, Common, Comparison, FromItem, InList, InQuery,
                     Item, Literal, Name, NestedSources, Node, NullTest, Operation, Output, Query,
                     QuerySource, Scope, Select, Source, Subquery, TableSource, Unary, bare,
                     children)


# What expressions are: a table's column, or the minimum, the maximum, a total or a query of one;
# and whether all values of one are whole numbers or decimals, of which sums are exact.

TOTALS = ("COUNT", "SUM", "AVG", "TOTAL")
# functions whose value is one of their arguments, from a place on
CHOICES = {"COALESCE": 0, "IFNULL": 0, "NULLIF": 0, "IIF": 1}
TRUTHS = (Comparison, NullTest, Between, InList, InQuery)


def meaning(node: Node) -> Output | None:
    """Returns what an expression means that is a column, the minimum or maximum of one, a total or
    a query of one column; None for another expression."""
    if isinstance(node, ColumnName):
        return node.output
    if isinstance(node, Subquery) and not node.is_exists:
        return node.query.outputs[0] if len(node.query.outputs) == 1 else None
    if not isinstance(node, Call) or node.over or node.is_bare:
        return None
    if node.name in TOTALS:
        return Output(node.name, node.name, Column(node.name, node.name, kind_of_total(node)), True)
    if node.name in ("MIN", "MAX") and len(node.arguments) == 1:
        return meaning(node.arguments[0])
    return None


def kind_of_total(call: Call) -> Kind:
    """Returns the kind with which a total is compared: a sum of decimals is one of decimals, also
    of those that CASE and its like choose."""
    if call.name == "COUNT":
        return kinds.Whole()
    argument = call.arguments[0] if call.name == "SUM" and len(call.arguments) == 1 else None
    column = column_of(argument) if argument else None
    if column:
        return _aggregation.kind_of_sum(column.kind) or kinds.Floats(0)
    exact = exact_of(argument) if argument else None
    if exact and exact.digits > 0:
        return kinds.Decimals(exact.digits, 0)
    return kinds.Floats(0)


def column_of(node: Node) -> Column | None:
    """Returns the column of a table whose values an expression has, or None."""
    found = meaning(node)
    return found.plain if found else None


class Exact:
    """An expression of whole numbers or decimals: the digits after their point, the greatest
    magnitude of the integers that they are then, and whether some values are whole numbers to
    SQLite, and others doubles. NULL alone has -1 digits."""
    __slots__ = ("digits", "most", "is_mixed")

    def __init__(self, digits: int, most: int, is_mixed: bool = False) -> None:
        self.digits, self.most, self.is_mixed = digits, most, is_mixed

    @property
    def is_scaled(self) -> bool:
        """Whether 64 bits hold these integers."""
        return self.most <= GREATEST


def exact_of(node: Node) -> Exact | None:
    """Returns what is known of an expression whose value is a whole number or a decimal."""
    column = column_of(node)
    if column:
        return exact_column(column)
    if isinstance(node, Literal):
        return exact_literal(node)
    if isinstance(node, TRUTHS) or isinstance(node, Unary) and node.sign == "NOT":
        return Exact(0, 1)
    if isinstance(node, Unary) and node.sign in ("-", "+"):
        return exact_of(node.operand)
    if isinstance(node, Case):
        found = [each.result for each in node.whens]
        return together([exact_of(each) for each in
                         [*found, *([node.otherwise] if node.otherwise else [])]])
    if isinstance(node, Call) and node.name in CHOICES and not node.is_distinct:
        parts = [exact_of(each) for each in node.arguments[CHOICES[node.name]:]]
        exact = together(parts)
        if node.name == "NULLIF" and exact and parts[0]:
            # its value is the first argument's
            first = parts[0]
            is_odd = first.is_mixed or first.digits < 0 or exact.digits > 0 == first.digits
            return None if is_odd else Exact(exact.digits, exact.most)
        return exact
    if isinstance(node, Operation) and node.signs[0] in "+-*":
        return exact_operation(node)
    return None


def exact_column(column: Column) -> Exact | None:
    """Returns what is known of a column: its bounds are among the columns file's."""
    kind: Any = unstyled(column.kind)
    if kind.name == "truths":
        return Exact(0, 1)
    if kind.name not in ("whole", "decimals"):
        return None
    numbers = [kind.number(end) for end in column.ends]
    if None in numbers:
        return None
    return Exact(_aggregation.digits_of(kind), max(map(abs, numbers), default=0))


def exact_literal(node: Literal) -> Exact | None:
    """Returns what is known of a literal: of a number whose digits a double has, if it is one, or
    NULL."""
    if node.kind == WORD:
        return Exact(-1, 0)
    text = node.text
    if node.kind != NUMBER or node.is_float or "e" in text.lower() or "x" in text.lower() or \
            len(text) > (EXACT_DIGITS + 1 if "." in text else MOST_SHORT):
        return None
    # a number with a point is a double, also without digits after it
    digits = max(len(text.partition(".")[2]), int("." in text))
    value = node.value
    assert value is not None and not isinstance(value, (str, bytes))
    return Exact(digits, int(abs(value) * 10 ** digits))


def together(parts: list[Exact | None]) -> Exact | None:
    """Returns what is known of one of some expressions."""
    found = [each for each in parts if each and each.digits >= 0]
    if None in parts or not found:
        return None
    digits = max(each.digits for each in found)
    is_mixed = any(each.is_mixed or not each.digits for each in found) and digits > 0
    most = max(each.most * 10 ** (digits - each.digits) for each in found)
    return Exact(digits, most, is_mixed)


def exact_operation(node: Operation) -> Exact | None:
    """Returns what is known of arithmetic on whole numbers that stays within 64 bits."""
    parts = [exact_of(each) for each in node.operands]
    if any(each is None or each.digits for each in parts):
        return None
    numbers = [each.most for each in parts if each]
    most = numbers[0]
    for sign, number in zip(node.signs, numbers[1:]):
        if sign not in ("+", "-", "*"):
            return None
        most = most * number if sign == "*" else most + number
        if most > GREATEST:
            return None
    return Exact(0, most)


def choices(node: Node) -> Iterator[Node]:
    """Yields an expression that `exact_of` knows, and the expressions that its value may be."""
    yield node
    if isinstance(node, Unary) and node.sign in ("-", "+"):
        yield from choices(node.operand)
    elif isinstance(node, Case):
        for each in (*(when.result for when in node.whens), node.otherwise):
            if each:
                yield from choices(each)
    elif isinstance(node, Call) and node.name in CHOICES:
        for each in node.arguments[CHOICES[node.name]:]:
            yield from choices(each)


# What the names of a statement mean, by SQLite's rules: the tables of FROM, and for each name in
# an expression a column or an alias of its SELECT, or of one around it. Names that mean nothing
# are left to SQLite, which has the message; a table must be known.

# how the names of SQLite's own tables begin
HIDDEN = ("sqlite_", "pragma_")
# the quotes of a name that may be a heading
QUOTES = ('"', "`", "[")
ROWIDS = ("rowid", "oid", "_rowid_")


def resolve(tree: Query, catalog: Catalog, written: str) -> None:
    """Binds the names of a tree. Raises Refused for a table that isn't in the catalog; the only
    table of one may have any name, if the statement calls it by one name throughout."""
    Resolver(catalog, written).whole(tree)


class Resolver:
    """Binds names, and makes the columns of each query's result."""

    def __init__(self, catalog: Catalog, written: str) -> None:
        self.catalog, self.written = catalog, written
        # the tables that were named, and all queries of WITH
        self.named: list[TableSource] = []
        self.commons: list[Common] = []

    def whole(self, tree: Query) -> None:
        self.query(tree, None, {})
        others = [each.name.text for each in self.named
                  if self.catalog.get(each.name.text) is not each.table]
        names = {each.name.text.lower() for each in self.named}
        # a query of WITH that isn't read may have been meant
        unread = [each.node.name.text for each in self.commons if not each.is_begun]
        if others and (len(names) > 1 or unread):
            raise missing("table", others[0], [*self.catalog.names(), *unread])

    def query(self, query: Query, outer: Scope | None, commons: dict[str, Common]) -> None:
        """Binds the names of a query."""
        if query.commons:
            commons = dict(commons)
            for each in query.commons:
                common = commons[each.name.text.lower()] = Common(each, commons, outer)
                self.commons.append(common)
        for select in query.selects:
            self.select(select, outer, commons)
            if select is query.selects[0]:
                query.outputs = list(select.outputs)
            else:
                query.outputs = [union(*each) for each in zip(query.outputs, select.outputs)]
        scope = query.selects[0].scope
        if len(query.selects) > 1 or scope is None:
            scope = Scope(outer, commons, [FromItem("", query.outputs)])
        query.scope = scope
        for term in query.orders:
            self.order(term.expression, scope)
        for limit in (query.limit, query.offset):
            if limit:
                self.expression(limit, Scope(None, commons))

    def order(self, expression: Node, scope: Scope) -> None:
        """Binds the names of a term of ORDER BY: a name alone is an alias before a column."""
        plain = bare(expression)
        if isinstance(plain, ColumnName) and not plain.table and \
                plain.name.text.lower() in scope.aliases and not self.is_headed(plain, scope):
            self.bind_alias(plain, scope, scope)
        else:
            self.expression(expression, scope)

    def is_headed(self, column: ColumnName, scope: Scope) -> bool:
        return column.name.quote in QUOTES and bool(scope.headed(column.name.text, ""))

    def select(self, select: Select, outer: Scope | None, commons: dict[str, Common]) -> None:
        """Binds the names of a SELECT, in the order in which SQLite does: its items don't see their
        own aliases."""
        scope = select.scope = Scope(outer, commons)
        if select.rows:
            for row in select.rows:
                self.expression(row, scope)
            select.outputs = [Output(f"column{place}", f"column{place}", None)
                              for place in range(1, len(select.rows[0].members) + 1)]
            return
        for source in select.sources:
            self.source(source, scope, scope)
        for item in select.items:
            if item.expression:
                self.expression(item.expression, scope)
        for item in select.items:
            outputs = self.outputs(item, scope)
            select.outputs += outputs
            if item.alias:
                scope.aliases.setdefault(item.alias.text.lower(), (outputs[0], item))
        for source in select.sources:
            self.conditions(source, scope)
        for part in (select.where, *select.groups, select.having, *select.windows):
            if part:
                self.expression(part, scope)

    def expression(self, node: Node, scope: Scope) -> None:
        """Binds the names of an expression."""
        left = [node]
        while left:
            each = left.pop()
            if isinstance(each, ColumnName):
                self.bind(each, scope)
            elif isinstance(each, Query):
                self.query(each, scope, scope.commons)
            elif isinstance(each, TableSource):
                self.table(each, scope.commons)
            elif not isinstance(each, Name):
                left += children(each)

    def bind(self, column: ColumnName, scope: Scope) -> None:
        """Binds a name to the column or the alias that it means. Raises Refused if it is a heading
        that means several."""
        name = column.name.text
        qualifier = column.table.text if column.table else ""
        column.scope = scope
        around: Scope | None = scope
        while around:
            if column.name.quote in QUOTES and self.bind_heading(column, around, qualifier):
                return
            column.output = around.column(name, qualifier)
            if column.output:
                return
            if not qualifier and name.lower() in around.aliases:
                self.bind_alias(column, scope, around)
                return
            around = around.outer
        if name.lower() in ROWIDS:
            raise Refused(f"there is no column {name} at character {column.name.start} of the "
                          "statement: rows have no numbers")

    def bind_alias(self, column: ColumnName, scope: Scope, around: Scope) -> None:
        column.scope = scope
        column.output, column.item = around.aliases[column.name.text.lower()]

    def bind_heading(self, column: ColumnName, scope: Scope, qualifier: str) -> bool:
        """Binds a name in quotes to the column that has it as its heading."""
        name = column.name
        headed = scope.headed(name.text, qualifier)
        names = sorted({output.name for output in headed})
        written = self.written[name.start:name.end]
        if len(names) > 1:
            raise Refused(f"{len(headed)} columns have the heading {written}: use "
                          f"{' or '.join(names)}, without quotes")
        alias = None if qualifier else scope.aliases.get(name.text.lower())
        if alias and names and name.text.lower() != names[0].lower():
            if alias[0].plain is not headed[0].plain:
                raise Refused(f"{written} at character {name.start} of the statement is an alias, "
                              f"and the heading of the column {names[0]}: use another alias")
            column.output, column.item = alias
            return True
        if names:
            column.output = headed[0]
            name.text = names[0]
        return bool(names)

    def outputs(self, item: Item, scope: Scope) -> list[Output]:
        """Returns the columns of the result that an item is: many for a `*`."""
        if item.qualifier:
            return [output for source in scope.each(item.qualifier.text)
                    for output in source.outputs]
        if item.expression is None:
            return [scope.joined.get(output.name.lower(), output) for source in scope.sources
                    for output in source.outputs if output.name.lower() not in source.merged]
        found = meaning(item.expression)
        if item.alias:
            name = item.alias.text
            return [found.called(name) if found else Output(name, name, None)]
        if found and isinstance(item.expression, ColumnName):
            return [found]
        text = self.written[item.expression.start:item.expression.end]
        return [found.called(text) if found else Output(text, text, None)]

    def source(self, source: Source, scope: Scope, target: Scope) -> None:
        """Adds what FROM names to a scope."""
        alias = source.alias.text if source.alias else ""
        if isinstance(source, NestedSources):
            inner = target if not alias else Scope(scope.outer, scope.commons)
            for each in source.sources:
                self.source(each, scope, inner)
            if not alias:
                self.merge(source, target)
                return
            outputs = [output for each in inner.sources for output in each.outputs]
        elif isinstance(source, QuerySource):
            self.query(source.query, scope.outer, scope.commons)
            outputs = distinct_names(source.query.outputs)
        else:
            assert isinstance(source, TableSource)
            outputs, alias = self.table(source, scope.commons), alias or source.name.text
        target.sources.append(FromItem(alias, outputs))
        self.merge(source, target)

    def merge(self, source: Source, scope: Scope) -> None:
        """Notes the columns that the last source has in common with those before it."""
        last = scope.sources[-1]
        before = scope.sources[:-1]
        if "NATURAL" in source.joined:
            last.merged |= {name for each in before for name in each.named} & last.named.keys()
        last.merged |= {name.text.lower() for name in source.using}
        for name in last.merged & last.named.keys():
            first = next((each.named[name] for each in before if name in each.named), None)
            if first:
                scope.pairs.append((first, last.named[name]))
                if "RIGHT" in source.joined or "FULL" in source.joined:
                    scope.joined[name] = union(scope.joined.get(name, first), last.named[name])

    def conditions(self, source: Source, scope: Scope) -> None:
        """Binds the names of the conditions of joins."""
        if source.on:
            self.expression(source.on, scope)
        if isinstance(source, NestedSources):
            for each in source.sources:
                self.conditions(each, scope)

    def table(self, source: TableSource, commons: dict[str, Common]) -> list[Output]:
        """Returns the columns of a table, or of a query of WITH, that a statement names."""
        name = source.name.text
        schema = source.schema.text if source.schema else ""
        if not schema and name.lower() in commons and source.arguments is None:
            return self.common(commons[name.lower()])
        table = self.catalog.get(name) or self.catalog.only
        if source.arguments is not None and not name.lower().startswith(HIDDEN):
            raise Refused(f"{name} at character {source.start} of the statement: functions that "
                          "return a table can't be used")
        if table is None or name.lower().startswith(HIDDEN) or schema.lower() not in ("", "main"):
            raise missing("table", f"{schema}.{name}" if schema else name,
                          [*self.catalog.names(), *(each.node.name.text
                                                    for each in commons.values())])
        source.table = table
        self.named.append(source)
        return [Output(each.name, each.heading, each) for each in table.columns]

    def common(self, common: Common) -> list[Output]:
        """Returns the columns of a query of WITH, which may read from itself."""
        node = common.node
        if not common.is_begun:
            common.is_begun = True
            self.query(node.query, common.outer, common.commons)
        outputs = node.query.outputs
        if node.columns:
            known = [*outputs, *[None] * len(node.columns)]
            return [output.called(name.text) if output else Output(name.text, name.text, None)
                    for name, output in zip(node.columns, known)]
        return distinct_names(outputs)


def distinct_names(outputs: Sequence[Output]) -> list[Output]:
    """Returns the columns of a query that FROM names, in which SQLite gives equal names numbers."""
    taken, found = set[str](), list[Output]()
    for output in outputs:
        name, count = output.name, 0
        while name.lower() in taken and count < len(outputs):
            count += 1
            name = f"{output.name}:{count}"
        taken.add(name.lower())
        found.append(output if name == output.name else output.called(name))
    return found


def place_of(node: Node, count: int) -> int | None:
    """Returns the place among so many columns that a literal in ORDER BY or GROUP BY is, from 0 on,
    or None. A parameter is none."""
    node = bare(node)
    while isinstance(node, Unary) and node.sign == "+":
        node = node.operand
    if isinstance(node, Literal) and not node.mark and node.text.isdecimal() and \
            len(node.text) < 9 and 0 < int(node.text) <= count:
        return int(node.text) - 1
    return None


def union(first: Output, second: Output) -> Output:
    """Returns the column of a compound SELECT, which has a kind if both have it."""
    both = [output.column.kind for output in (first, second) if output.column]
    if len(both) == 2 and (both[0] == both[1] or {each.name for each in both} == {"texts"}):
        return first
    return Output(first.name, first.heading, None)

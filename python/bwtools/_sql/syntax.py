"""The syntax tree of a statement, and what its names mean. Each node has the places of its first
character and after its last one in the statement as it was written, brackets around it included.

These classes aren't dataclasses: those take longer to import than one COUNT may."""
from __future__ import annotations

from typing import TYPE_CHECKING, Iterable, Iterator, Optional, Sequence, Tuple

from .._storage.catalog import Table
from .._types.base import Column, Kind

if TYPE_CHECKING:
    from fractions import Fraction
    from typing import Union

    from typing_extensions import TypeAlias

    # what a literal means: None is NULL, and bytes is a blob
    LiteralValue: TypeAlias = Union[None, str, Fraction, bytes]


# how a table after IN is joined
IN = "IN"


class Node:
    """A node of the tree. `PARTS` names the attributes that have its children, each a node, a list
    of nodes or None; `height` is the length of the longest path to a leaf; `form` is its text for
    SQLite, if that isn't what was written."""
    __slots__ = ("start", "end", "height", "form")
    PARTS: Tuple[str, ...] = ()

    def __init__(self, start: int, end: int) -> None:
        self.start, self.end, self.height, self.form = start, end, 1, ""


class Name(Node):
    """An identifier without its quotes. `quote` is the first of these, or an empty text."""
    __slots__ = ("text", "quote")

    def __init__(self, start: int, end: int, text: str, quote: str) -> None:
        super().__init__(start, end)
        self.text, self.quote = text, quote


class Literal(Node):
    """A literal: the kind of its token (WORD for NULL), its text, and its value. A parameter is
    one, whose `mark` is what was written: `is_float` says that its value is a double."""
    __slots__ = ("kind", "text", "value", "mark", "is_float")

    def __init__(self, start: int, end: int, kind: str, text: str) -> None:
        super().__init__(start, end)
        self.kind, self.text, self.mark, self.is_float = kind, text, "", False
        self.value: LiteralValue = None


class ColumnName(Node):
    """A name in an expression, with the names of its table and its schema if they are written.
    `output` is what it means, `item` the item of its SELECT whose alias it is, and `scope` where it
    was looked for."""
    __slots__ = ("schema", "table", "name", "output", "item", "scope")
    PARTS = ("schema", "table", "name")

    def __init__(self, start: int, end: int, name: Name, table: Optional[Name] = None,
                 schema: Optional[Name] = None) -> None:
        super().__init__(start, end)
        self.schema, self.table, self.name = schema, table, name
        self.output: Optional[Output] = None
        self.item: Optional[Item] = None
        self.scope: Optional[Scope] = None


class Unary(Node):
    """An operator before its operand: NOT, -, + or ~."""
    __slots__ = ("sign", "operand")
    PARTS = ("operand",)

    def __init__(self, start: int, end: int, sign: str, operand: Node) -> None:
        super().__init__(start, end)
        self.sign, self.operand = sign, operand


class Operation(Node):
    """Operands with operators of one precedence between them, from left to right: ORs, ANDs,
    arithmetic, or parts of texts that are joined."""
    __slots__ = ("signs", "operands")
    PARTS = ("operands",)

    def __init__(self, start: int, end: int, signs: list[str], operands: list[Node]) -> None:
        super().__init__(start, end)
        self.signs, self.operands = signs, operands


class Comparison(Node):
    """A comparison of two operands. `sign` is =, <>, <, <=, > or >=, IS or IS NOT, as which IS
    [NOT] DISTINCT FROM is."""
    __slots__ = ("sign", "left", "right")
    PARTS = ("left", "right")

    def __init__(self, start: int, end: int, sign: str, left: Node, right: Node) -> None:
        super().__init__(start, end)
        self.sign, self.left, self.right = sign, left, right


class NullTest(Node):
    """A test whether its operand is null: ISNULL, NOTNULL or NOT NULL."""
    __slots__ = ("operand", "is_negated")
    PARTS = ("operand",)

    def __init__(self, start: int, end: int, operand: Node, is_negated: bool) -> None:
        super().__init__(start, end)
        self.operand, self.is_negated = operand, is_negated


class Between(Node):
    __slots__ = ("operand", "low", "high", "is_negated")
    PARTS = ("operand", "low", "high")

    def __init__(self, start: int, end: int, operand: Node, low: Node, high: Node,
                 is_negated: bool) -> None:
        super().__init__(start, end)
        self.operand, self.low, self.high, self.is_negated = operand, low, high, is_negated


class InList(Node):
    """An IN of members in brackets."""
    __slots__ = ("operand", "members", "is_negated")
    PARTS = ("operand", "members")

    def __init__(self, start: int, end: int, operand: Node, members: list[Node],
                 is_negated: bool) -> None:
        super().__init__(start, end)
        self.operand, self.members, self.is_negated = operand, members, is_negated


class InQuery(Node):
    """An IN of a query in brackets, or of a table."""
    __slots__ = ("operand", "query", "source", "is_negated")
    PARTS = ("operand", "query", "source")

    def __init__(self, start: int, end: int, operand: Node, query: Optional[Query],
                 source: Optional[TableSource], is_negated: bool) -> None:
        super().__init__(start, end)
        self.operand, self.query, self.source = operand, query, source
        self.is_negated = is_negated


class Like(Node):
    """A LIKE, GLOB, REGEXP or MATCH."""
    __slots__ = ("sign", "operand", "pattern", "escape", "is_negated")
    PARTS = ("operand", "pattern", "escape")

    def __init__(self, start: int, end: int, sign: str, operand: Node, pattern: Node,
                 escape: Optional[Node], is_negated: bool) -> None:
        super().__init__(start, end)
        self.sign, self.operand, self.pattern, self.escape = sign, operand, pattern, escape
        self.is_negated = is_negated


class When(Node):
    """A WHEN of a CASE, and its THEN."""
    __slots__ = ("condition", "result")
    PARTS = ("condition", "result")

    def __init__(self, start: int, end: int, condition: Node, result: Node) -> None:
        super().__init__(start, end)
        self.condition, self.result = condition, result


class Case(Node):
    __slots__ = ("operand", "whens", "otherwise")
    PARTS = ("operand", "whens", "otherwise")

    def __init__(self, start: int, end: int, operand: Optional[Node], whens: list[When],
                 otherwise: Optional[Node]) -> None:
        super().__init__(start, end)
        self.operand, self.whens, self.otherwise = operand, whens, otherwise


class Cast(Node):
    """A CAST, with its type in upper case."""
    __slots__ = ("operand", "type")
    PARTS = ("operand",)

    def __init__(self, start: int, end: int, operand: Node, name: str) -> None:
        super().__init__(start, end)
        self.operand, self.type = operand, name


class Collate(Node):
    __slots__ = ("operand", "collation")
    PARTS = ("operand",)

    def __init__(self, start: int, end: int, operand: Node, collation: str) -> None:
        super().__init__(start, end)
        self.operand, self.collation = operand, collation


class Row(Node):
    """Several values in brackets."""
    __slots__ = ("members",)
    PARTS = ("members",)

    def __init__(self, start: int, end: int, members: list[Node]) -> None:
        super().__init__(start, end)
        self.members = members


class Call(Node):
    """A call of a function, by its name in upper case: with DISTINCT, `*`, FILTER or OVER. A word
    such as CURRENT_DATE is one without brackets."""
    __slots__ = ("name", "arguments", "is_distinct", "is_star", "is_bare", "orders", "filter",
                 "over")
    PARTS = ("arguments", "orders", "filter", "over")

    def __init__(self, start: int, end: int, name: str, arguments: list[Node]) -> None:
        super().__init__(start, end)
        self.name, self.arguments = name, arguments
        self.is_distinct = self.is_star = self.is_bare = False
        self.orders: list[OrderTerm] = []
        self.filter: Optional[Node] = None
        self.over: Optional[Window] = None


class Subquery(Node):
    """A query in brackets that is a value, or after EXISTS."""
    __slots__ = ("query", "is_exists")
    PARTS = ("query",)

    def __init__(self, start: int, end: int, query: Query, is_exists: bool) -> None:
        super().__init__(start, end)
        self.query, self.is_exists = query, is_exists


class OrderTerm(Node):
    """A term of ORDER BY: an expression, whether it descends, and where nulls are (FIRST or LAST),
    if that is written."""
    __slots__ = ("expression", "is_descending", "nulls")
    PARTS = ("expression",)

    def __init__(self, start: int, end: int, expression: Node, is_descending: bool,
                 nulls: str) -> None:
        super().__init__(start, end)
        self.expression, self.is_descending, self.nulls = expression, is_descending, nulls

    @property
    def are_nulls_first(self) -> bool:
        return self.nulls == "FIRST" if self.nulls else not self.is_descending

    @property
    def words(self) -> str:
        """The words after the expression."""
        return f"{'DESC' if self.is_descending else 'ASC'}" \
               f"{f' NULLS {self.nulls}' if self.nulls else ''}"


class Window(Node):
    """The window of OVER, or of the clause WINDOW under a name: another one that it is based on,
    its terms, and the unit and the bounds of its frame."""
    __slots__ = ("base", "name", "partitions", "orders", "unit", "bounds")
    PARTS = ("name", "base", "partitions", "orders", "bounds")

    def __init__(self, start: int, end: int, base: Optional[Name], partitions: list[Node],
                 orders: list[OrderTerm], bounds: list[Node]) -> None:
        super().__init__(start, end)
        self.base, self.partitions, self.orders, self.bounds = base, partitions, orders, bounds
        self.name: Optional[Name] = None
        self.unit = ""


class Item(Node):
    """An item of a SELECT: an expression with an alias, or `*`, which may have the name of a table
    before it."""
    __slots__ = ("expression", "qualifier", "alias")
    PARTS = ("expression", "qualifier", "alias")

    def __init__(self, start: int, end: int, expression: Optional[Node], qualifier: Optional[Name],
                 alias: Optional[Name]) -> None:
        super().__init__(start, end)
        self.expression, self.qualifier, self.alias = expression, qualifier, alias


class Source(Node):
    """What FROM names: how it is joined to those before it (words in upper case, such as `LEFT`,
    NATURAL among them), by which condition or columns, and its alias."""
    __slots__ = ("joined", "alias", "on", "using")

    def __init__(self, start: int, end: int, alias: Optional[Name]) -> None:
        super().__init__(start, end)
        self.alias = alias
        self.joined: list[str] = []
        self.on: Optional[Node] = None
        self.using: list[Name] = []


class TableSource(Source):
    """A table, or a query of WITH, by its name. `table` is the one that it means, or None."""
    __slots__ = ("schema", "name", "arguments", "table", "index")
    PARTS = ("schema", "name", "arguments", "alias", "index", "on", "using")

    def __init__(self, start: int, end: int, name: Name, schema: Optional[Name],
                 alias: Optional[Name]) -> None:
        super().__init__(start, end, alias)
        self.schema, self.name = schema, name
        # the arguments of a function that returns a table, or None
        self.arguments: Optional[list[Node]] = None
        self.table: Optional[Table] = None
        self.index: Optional[Name] = None


class QuerySource(Source):
    """A query in brackets."""
    __slots__ = ("query",)
    PARTS = ("query", "alias", "on", "using")

    def __init__(self, start: int, end: int, query: Query, alias: Optional[Name]) -> None:
        super().__init__(start, end, alias)
        self.query = query


class NestedSources(Source):
    """Sources in brackets."""
    __slots__ = ("sources",)
    PARTS = ("sources", "alias", "on", "using")

    def __init__(self, start: int, end: int, sources: list[Source], alias: Optional[Name]) -> None:
        super().__init__(start, end, alias)
        self.sources = sources


class Select(Node):
    """One SELECT, or VALUES, whose rows are then `rows`. `quantifier` is DISTINCT, ALL or
    nothing."""
    __slots__ = ("quantifier", "items", "sources", "where", "groups", "having", "windows", "rows",
                 "scope", "outputs")
    PARTS = ("items", "sources", "where", "groups", "having", "windows", "rows")

    def __init__(self, start: int, end: int) -> None:
        super().__init__(start, end)
        self.quantifier = ""
        self.items: list[Item] = []
        self.sources: list[Source] = []
        self.where: Optional[Node] = None
        self.groups: list[Node] = []
        self.having: Optional[Node] = None
        self.windows: list[Window] = []
        self.rows: list[Row] = []
        self.scope: Optional[Scope] = None
        self.outputs: list[Output] = []


class CommonQuery(Node):
    """A query of WITH, its name, and the names of its columns if they are written."""
    __slots__ = ("name", "columns", "query")
    PARTS = ("name", "columns", "query")

    def __init__(self, start: int, end: int, name: Name, columns: list[Name],
                 query: Query) -> None:
        super().__init__(start, end)
        self.name, self.columns, self.query = name, columns, query


class Query(Node):
    """A query: those of its WITH; one SELECT, or several with UNION, EXCEPT and INTERSECT between
    them; their order and limits. `outputs` are the columns of its result."""
    __slots__ = ("commons", "selects", "operators", "orders", "limit", "offset", "scope", "outputs")
    PARTS = ("commons", "selects", "orders", "limit", "offset")

    def __init__(self, start: int, end: int, commons: list[CommonQuery], selects: list[Select],
                 operators: list[str]) -> None:
        super().__init__(start, end)
        self.commons, self.selects, self.operators = commons, selects, operators
        self.orders: list[OrderTerm] = []
        self.limit: Optional[Node] = None
        self.offset: Optional[Node] = None
        self.scope: Optional[Scope] = None
        self.outputs: list[Output] = []


# --- what names mean

class Output:
    """A column of a table or of a query's result: its name, its heading, and the column of a table
    whose values it has, or None for another expression. A total has a column of its own, which no
    table has: its kind says what the total can be compared with."""
    __slots__ = ("name", "heading", "column", "is_total")

    def __init__(self, name: str, heading: str, column: Column | None,
                 is_total: bool = False) -> None:
        self.name, self.heading, self.column, self.is_total = name, heading, column, is_total

    @property
    def kind(self) -> Kind | None:
        """The kind of its values in a result: a column's, or decimals of a sum of them."""
        if self.column and (not self.is_total or self.column.kind.name == "decimals"):
            return self.column.kind
        return None

    @property
    def plain(self) -> Column | None:
        """The table's column of which it has values."""
        return None if self.is_total else self.column

    def called(self, name: str, heading: str = "") -> Output:
        """Returns it with another name, which is its heading as well unless one is given."""
        return Output(name, heading or name, self.column, self.is_total)


class FromItem:
    """A table or a query that FROM names: the name by which columns are qualified, its columns, and
    those among them, in lower case, that `*` leaves out since a source before has them."""

    def __init__(self, name: str, outputs: Sequence[Output],
                 merged: Iterable[str] = ()) -> None:
        self.name, self.outputs, self.merged = name, outputs, set(merged)
        self.named: dict[str, Output] = {}
        for output in outputs:
            self.named.setdefault(output.name.lower(), output)


class Common:
    """A query of WITH, all those that it may read from, and the scope around its WITH."""

    def __init__(self, node: CommonQuery, commons: dict[str, Common], outer: Scope | None) -> None:
        self.node, self.commons, self.outer = node, commons, outer
        self.is_begun = False


class Scope:
    """Where the names of a SELECT are looked for: what it reads from, the items that have aliases,
    and the SELECT around it. `commons` are the queries of WITH that it may read from."""

    def __init__(self, outer: Scope | None, commons: dict[str, Common],
                 sources: Sequence[FromItem] = ()) -> None:
        self.outer, self.commons, self.sources = outer, commons, list(sources)
        # by their names in lower case; items themselves can't name them
        self.aliases: dict[str, tuple[Output, Item]] = {}
        # columns of USING that several sources have values of, and the pairs that are compared
        self.joined: dict[str, Output] = {}
        self.pairs: list[tuple[Output, Output]] = []

    def each(self, qualifier: str) -> Iterator[FromItem]:
        """Yields the sources of a name, or all."""
        for source in self.sources:
            if not qualifier or source.name.lower() == qualifier.lower():
                yield source

    def column(self, name: str, qualifier: str) -> Output | None:
        """Returns the column of a name, or None."""
        key = name.lower()
        if not qualifier and key in self.joined:
            return self.joined[key]
        return next((source.named[key] for source in self.each(qualifier) if key in source.named),
                    None)

    def headed(self, heading: str, qualifier: str) -> list[Output]:
        """Returns the columns of tables that have a heading and go by their own names."""
        return [output for source in self.each(qualifier) for output in source.outputs
                if output.plain and output.plain.heading == heading
                and output.name == output.plain.name]

    def names(self) -> list[str]:
        """Returns all names of columns that mean something."""
        found = [output.name for source in self.sources for output in source.outputs]
        found += [output.name for output, _ in self.aliases.values()]
        return found + (self.outer.names() if self.outer else [])


def children(node: Node) -> list[Node]:
    """Returns the children of a node."""
    found = list[Node]()
    for name in node.PARTS:
        part = getattr(node, name)
        if isinstance(part, list):
            found += part
        elif part is not None:
            found.append(part)
    return found


def walk(node: Node) -> Iterator[Node]:
    """Yields a node and all below it, in the statement's order as far as their parts have it."""
    left = [node]
    while left:
        found = left.pop()
        yield found
        left += reversed(children(found))


def bare(node: Node) -> Node:
    """Returns a node without the COLLATE after it."""
    while isinstance(node, Collate):
        node = node.operand
    return node

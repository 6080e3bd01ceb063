"""Reads a statement's tokens into its syntax tree, by SQLite's grammar of SELECT and the precedence
of its operators."""
from __future__ import annotations

from typing import Callable, Optional, Sequence

from .._errors import Refused
from .lexer import (BLOB, COMPARE, COMPOUND, END, JOINS, MOMENTS, NUMBER, PARAMETER, QUERY, QUOTED,
                    RESERVED, TEXT, WORD, Token, short)
from .syntax import (IN, Between, Call, Case, Cast, Collate, ColumnName, CommonQuery, Comparison,
                     InList, InQuery, Item, Like, Literal, Name, NestedSources, Node, NullTest,
                     Operation, OrderTerm, Query, QuerySource, Row, Select, Source, Subquery,
                     TableSource, Unary, When, Window, children)

# the levels of operators: those of a higher one bind tighter
OR, AND, NOT, EQUAL, ORDER, BITS, SUM, PRODUCT, JOINED, COLLATE, SIGN = range(11)
LEVELS = {"OR": OR, "AND": AND, "NOT": NOT, "=": EQUAL, "==": EQUAL, "<>": EQUAL, "!=": EQUAL,
          "IS": EQUAL, "IN": EQUAL, "LIKE": EQUAL, "GLOB": EQUAL, "REGEXP": EQUAL, "MATCH": EQUAL,
          "BETWEEN": EQUAL, "ISNULL": EQUAL, "NOTNULL": EQUAL, "<": ORDER, "<=": ORDER, ">": ORDER,
          ">=": ORDER, "&": BITS, "|": BITS, "<<": BITS, ">>": BITS, "+": SUM, "-": SUM,
          "*": PRODUCT, "/": PRODUCT, "%": PRODUCT, "||": JOINED, "->": JOINED, "->>": JOINED,
          "COLLATE": COLLATE}
# those of which several operands are one node
FLAT = (OR, AND, BITS, SUM, PRODUCT, JOINED)
LIKES = ("LIKE", "GLOB", "REGEXP", "MATCH")
AFTER_NOT = ("NULL", "IN", "BETWEEN", *LIKES)
SIGNS = {"==": "=", "!=": "<>"}
# words after which DATE and TIMESTAMP begin a literal
BEFORE_LITERAL = ("BETWEEN", "AND", "OR", "NOT", "WHERE", "ON", "HAVING", "WHEN", "THEN", "ELSE")
# how deep brackets, NOTs and signs may be within one another, as in SQLite; and how high a tree may
# be: long chains of comparisons make it high
MOST_DEPTH, MOST_HEIGHT = 100, 250


class Unexpected(Refused):
    """A token that can't be where it is, and its place."""

    def __init__(self, token: Token) -> None:
        what = "incomplete input" if token.kind == END else \
            f'near "{short(token.text)}": syntax error'
        super().__init__(f"{what} at character {token.start} of the statement")
        self.token = token


class ExpressionParser:
    """A place among the tokens of a statement, and the parameters before it."""

    def __init__(self, tokens: Sequence[Token]) -> None:
        self.tokens, self.at, self.depth = tokens, 0, 0
        self.is_list = False
        self.parameters: list[Literal] = []

    @property
    def token(self) -> Token:
        """The next token."""
        return self.tokens[self.at]

    @property
    def before(self) -> Token:
        """The token before it."""
        return self.tokens[self.at - 1]

    @property
    def key(self) -> str:
        return self.tokens[self.at].key

    def ahead(self, count: int) -> Token:
        """Returns a token after the next one."""
        return self.tokens[min(self.at + count, len(self.tokens) - 1)]

    def take(self) -> Token:
        """Consumes the next token."""
        self.at += 1
        return self.tokens[self.at - 1]

    def takes(self, key: str) -> bool:
        """Consumes the next token, if it is this word or sign."""
        found = self.tokens[self.at].key == key
        self.at += found
        return found

    def wants(self, key: str) -> Token:
        if self.tokens[self.at].key != key:
            raise self.unexpected()
        return self.take()

    def unexpected(self) -> Unexpected:
        return Unexpected(self.token)

    def refused(self, message: str) -> Refused:
        """Returns the refusal of the next token."""
        return Refused(f"{message} (at character {self.token.start} of the statement)")

    def deepen(self) -> None:
        """Notes that an expression, a query or sources within others begin."""
        self.depth += 1
        if self.depth > MOST_DEPTH:
            raise self.refused(f"the expression is in more than {MOST_DEPTH} others")

    def query(self) -> Query:
        raise NotImplementedError

    def nested(self) -> Query:
        """Consumes the query within brackets."""
        if self.key not in QUERY:
            raise self.unexpected()
        self.deepen()
        found = self.query()
        self.depth -= 1
        return found

    def made(self, node: Node) -> Node:
        """Returns a node whose end is before the next token. Raises Refused if its tree is too
        high."""
        node.end = self.before.end
        node.height = 1 + max((each.height for each in children(node)), default=0)
        if node.height > MOST_HEIGHT:
            raise self.refused(f"the expression is more than {MOST_HEIGHT} deep")
        return node

    def is_name(self, token: Token) -> bool:
        """Returns whether a token can be a name: SQLite takes most of its words for one."""
        return token.kind in (QUOTED, TEXT) or token.kind == WORD and token.key not in RESERVED

    def name(self) -> Name:
        """Consumes a name."""
        token = self.token
        if not self.is_name(token):
            raise self.unexpected()
        self.at += 1
        text = token.value if token.kind == TEXT else token.name
        return Name(token.start, token.end, text, "" if token.kind == WORD else token.text[0])

    def expressions(self) -> list[Node]:
        """Consumes expressions between commas."""
        found = [self.expression()]
        while self.takes(","):
            found.append(self.expression())
        return found

    def expression(self, floor: int = OR, is_low: bool = False) -> Node:
        """Consumes an expression whose operators are of a level, or higher ones. `is_low` says that
        it is the lower end of BETWEEN, whose AND ends it."""
        self.deepen()
        start, found = self.token.start, self.primary()
        chained: int | None = None
        while True:
            level = self.level()
            if level is None or level < floor or is_low and level == AND:
                self.depth -= 1
                return found
            if level in FLAT:
                sign = self.take().key
                other = self.expression(level + 1)
                if chained == level and isinstance(found, Operation):
                    found.signs.append(sign)
                    found.operands.append(other)
                    found.end = self.before.end
                    found.height = max(found.height, 1 + other.height)
                else:
                    found = self.made(Operation(start, start, [sign], [found, other]))
                    chained = level
            else:
                found, chained = self.after(start, found, level), None

    def level(self) -> Optional[int]:
        """Returns the level of the operator that is next, or None."""
        token = self.token
        if token.kind == QUOTED or token.key == "NOT" and self.ahead(1).key not in AFTER_NOT:
            return None
        return LEVELS.get(token.key)

    def after(self, start: int, left: Node, level: int) -> Node:
        """Consumes an operator that isn't of several operands, and what follows it."""
        is_negated = self.takes("NOT")
        sign = self.take().key
        if sign in ("ISNULL", "NOTNULL", "NULL"):
            return self.made(NullTest(start, start, left, is_negated or sign == "NOTNULL"))
        if sign == "COLLATE":
            return self.made(Collate(start, start, left, self.name().text))
        if sign == "IS":
            return self.identity(start, left)
        if sign == "IN":
            return self.members(start, left, is_negated)
        if sign == "BETWEEN":
            low = self.expression(OR, True)
            self.wants("AND")
            return self.made(Between(start, start, left, low, self.expression(ORDER), is_negated))
        if sign in LIKES:
            # also after NOT, which binds less
            pattern = self.expression(ORDER)
            escape = self.expression(ORDER) if self.takes("ESCAPE") else None
            return self.made(Like(start, start, sign, left, pattern, escape, is_negated))
        right = self.expression(level + 1)
        return self.made(Comparison(start, start, SIGNS.get(sign, sign), left, right))

    def identity(self, start: int, left: Node) -> Node:
        """Consumes what follows IS."""
        is_negated = self.takes("NOT")
        if self.takes("DISTINCT"):
            self.wants("FROM")
            is_negated = not is_negated
        sign = "IS NOT" if is_negated else "IS"
        return self.made(Comparison(start, start, sign, left, self.expression(ORDER)))

    def members(self, start: int, left: Node, is_negated: bool) -> Node:
        """Consumes what follows IN."""
        if not self.takes("("):
            source = self.listed_table()
            return self.made(InQuery(start, start, left, None, source, is_negated))
        if self.key in QUERY:
            query = self.nested()
            self.wants(")")
            return self.made(InQuery(start, start, left, query, None, is_negated))
        found = list[Node]()
        while self.key != ")" and (not found or self.takes(",") or self.wants(",")):
            self.is_list = True
            found.append(self.expression(OR))
        self.wants(")")
        return self.made(InList(start, start, left, found, is_negated))

    def listed_table(self) -> TableSource:
        """Consumes the name of a table after IN."""
        start, name, schema = self.token.start, self.name(), None
        if self.takes("."):
            schema, name = name, self.name()
        found = TableSource(start, self.before.end, name, schema, None)
        found.joined = [IN]
        if self.takes("("):
            found.arguments = [] if self.key == ")" else self.expressions()
            self.wants(")")
            found.end = self.before.end
        return found

    def primary(self) -> Node:
        """Consumes an operand."""
        token, key, is_list = self.token, self.key, self.is_list
        self.is_list = False
        if token.kind in (NUMBER, TEXT, BLOB, PARAMETER):
            if token.kind != TEXT or self.ahead(1).key != ".":
                return self.literal()
        elif key in PRIMARIES:
            return PRIMARIES[key](self)
        if not self.is_name(token):
            raise self.unexpected()
        following = self.ahead(1)
        if key in MOMENTS and following.kind == TEXT and (
                is_list or self.before.key in COMPARE or self.before.key in BEFORE_LITERAL):
            self.at += 1
            return self.literal(token.start)
        if following.key == "(" and token.kind != TEXT:
            return self.call()
        return self.column()

    def literal(self, start: int = -1) -> Literal:
        """Consumes a literal, or a parameter, which begins at a place."""
        token = self.take()
        found = Literal(token.start if start < 0 else start, token.end, token.kind, token.text)
        if token.kind == PARAMETER:
            found.mark = token.text
            self.parameters.append(found)
        return found

    def column(self) -> ColumnName:
        """Consumes a name, with those of its table and its schema before it."""
        names = [self.name()]
        while len(names) < 3 and self.takes("."):
            names.append(self.name())
        table = names[-2] if len(names) > 1 else None
        schema = names[0] if len(names) > 2 else None
        return ColumnName(names[0].start, self.before.end, names[-1], table, schema)

    def bracket(self) -> Node:
        """Consumes an expression, a row or a query in brackets."""
        start = self.take().start
        if self.key in QUERY:
            query = self.nested()
            self.wants(")")
            return self.made(Subquery(start, start, query, False))
        found = self.expressions()
        self.wants(")")
        if len(found) > 1:
            return self.made(Row(start, start, found))
        found[0].start, found[0].end = start, self.before.end
        return found[0]

    def sign(self) -> Node:
        """Consumes a sign or NOT, and its operand."""
        token = self.take()
        level = NOT if token.key == "NOT" else SIGN
        return self.made(Unary(token.start, token.end, token.key, self.expression(level)))

    def exists(self) -> Node:
        start = self.take().start
        self.wants("(")
        query = self.nested()
        self.wants(")")
        return self.made(Subquery(start, start, query, True))

    def case(self) -> Node:
        """Consumes a CASE."""
        start, whens = self.take().start, list[When]()
        operand = None if self.key == "WHEN" else self.expression()
        while self.key == "WHEN":
            begun = self.take().start
            condition = self.expression()
            self.wants("THEN")
            when = When(begun, begun, condition, self.expression())
            self.made(when)
            whens.append(when)
        if not whens:
            raise self.unexpected()
        otherwise = self.expression() if self.takes("ELSE") else None
        self.wants("END")
        return self.made(Case(start, start, operand, whens, otherwise))

    def cast(self) -> Node:
        """Consumes a CAST."""
        start = self.take().start
        self.wants("(")
        operand, words = self.expression(), list[str]()
        self.wants("AS")
        while self.is_name(self.token) and self.key not in JOINS:
            words.append(self.name().text.upper())
        if words and self.takes("("):
            self.number()
            if self.takes(","):
                self.number()
            self.wants(")")
        self.wants(")")
        return self.made(Cast(start, start, operand, " ".join(words)))

    def number(self) -> None:
        """Consumes a number with an optional sign."""
        if self.key in ("+", "-"):
            self.take()
        if self.take().kind != NUMBER:
            self.at -= 1
            raise self.unexpected()

    def moment(self) -> Node:
        """Consumes a word for the present moment."""
        token = self.take()
        found = Call(token.start, token.end, token.key, [])
        found.is_bare = True
        return found

    def null(self) -> Node:
        token = self.take()
        return Literal(token.start, token.end, WORD, token.text)

    def call(self) -> Node:
        """Consumes a call of a function."""
        token = self.token
        found = Call(token.start, token.end, self.name().text.upper(), [])
        self.wants("(")
        if self.takes("*"):
            found.is_star = True
        else:
            found.is_distinct = self.takes("DISTINCT")
            if not found.is_distinct:
                self.takes("ALL")
            if self.key not in (")", "ORDER") or found.is_distinct and self.key != ")":
                found.arguments = self.expressions()
            if self.key == "ORDER":
                found.orders = self.orders()
        self.wants(")")
        if self.is_filter():
            self.at += 2
            self.wants("WHERE")
            found.filter = self.expression()
            self.wants(")")
        if self.is_over():
            self.take()
            found.over = self.window() if self.key == "(" else self.window_name()
        return self.made(found)

    def is_filter(self) -> bool:
        """Returns whether a FILTER is next, and no name."""
        return self.key == "FILTER" and self.before.key == ")" and self.ahead(1).key == "("

    def is_over(self) -> bool:
        """Returns whether an OVER is next, and no name."""
        following = self.ahead(1)
        return self.key == "OVER" and self.before.key == ")" and (
            following.key == "(" or self.is_name(following))

    def window_name(self) -> Window:
        name = self.name()
        return Window(name.start, name.end, name, [], [], [])

    def window(self) -> Window:
        """Consumes a window in brackets."""
        start, base, partitions = self.wants("(").start, None, list[Node]()
        if self.key not in ("PARTITION", "ORDER", "RANGE", "ROWS", "GROUPS", ")"):
            base = self.name()
        if self.takes("PARTITION"):
            self.wants("BY")
            partitions = self.expressions()
        orders = self.orders() if self.key == "ORDER" else []
        unit = self.key if self.key in ("RANGE", "ROWS", "GROUPS") else ""
        bounds = self.frame() if unit else []
        self.wants(")")
        found = Window(start, self.before.end, base, partitions, orders, bounds)
        found.unit = unit
        return found

    def frame(self) -> list[Node]:
        """Consumes the frame of a window. Returns the expressions that are its bounds."""
        self.take()
        if self.takes("BETWEEN"):
            bounds = self.bound(True)
            self.wants("AND")
            bounds += self.bound()
        else:
            bounds = self.bound()
        if self.takes("EXCLUDE"):
            if self.takes("NO"):
                self.wants("OTHERS")
            elif self.takes("CURRENT"):
                self.wants("ROW")
            elif not self.takes("GROUP"):
                self.wants("TIES")
        return bounds

    def bound(self, is_low: bool = False) -> list[Node]:
        """Consumes a bound of a frame. Returns its expression, if it has one."""
        if self.takes("CURRENT"):
            self.wants("ROW")
            return []
        found = list[Node]() if self.takes("UNBOUNDED") else [self.expression(OR, is_low)]
        if not self.takes("PRECEDING"):
            self.wants("FOLLOWING")
        return found

    def orders(self) -> list[OrderTerm]:
        """Consumes ORDER BY and its terms."""
        self.wants("ORDER")
        self.wants("BY")
        found = [self.order()]
        while self.takes(","):
            found.append(self.order())
        return found

    def order(self) -> OrderTerm:
        """Consumes a term of ORDER BY."""
        start, expression, nulls = self.token.start, self.expression(), ""
        is_descending = self.key == "DESC"
        if self.key in ("ASC", "DESC"):
            self.take()
        if self.takes("NULLS"):
            if self.key not in ("FIRST", "LAST"):
                raise self.unexpected()
            nulls = self.take().key
        return OrderTerm(start, self.before.end, expression, is_descending, nulls)


PRIMARIES: dict[str, Callable[[ExpressionParser], Node]] = {
    "(": ExpressionParser.bracket, "NOT": ExpressionParser.sign, "-": ExpressionParser.sign,
    "+": ExpressionParser.sign, "~": ExpressionParser.sign, "CASE": ExpressionParser.case,
    "CAST": ExpressionParser.cast, "EXISTS": ExpressionParser.exists,
    "NULL": ExpressionParser.null, "CURRENT_DATE": ExpressionParser.moment,
    "CURRENT_TIME": ExpressionParser.moment, "CURRENT_TIMESTAMP": ExpressionParser.moment}


def parse(tokens: Sequence[Token]) -> Parser:
    """Reads the tokens of one statement, the last of which is its end. Returns the parser, with the
    tree and the parameters in it. Raises Unexpected for a token that can't be where it is."""
    parser = Parser(tokens)
    parser.tree = parser.query()
    if parser.token.kind != END:
        raise parser.unexpected()
    return parser


class Parser(ExpressionParser):
    """Reads queries."""

    tree: Query

    def query(self) -> Query:
        """Consumes a query, with its WITH, order and limits."""
        start, commons = self.token.start, list[CommonQuery]()
        if self.takes("WITH"):
            self.takes("RECURSIVE")
            commons.append(self.common())
            while self.takes(","):
                commons.append(self.common())
        selects, operators = [self.select()], list[str]()
        while self.key in COMPOUND:
            operators.append(self.take().key + (" ALL" if self.key == "ALL" else ""))
            if operators[-1] != "UNION ALL" and self.key == "ALL":
                raise self.unexpected()
            self.takes("ALL")
            selects.append(self.select())
        found = Query(start, self.before.end, commons, selects, operators)
        if self.key == "ORDER":
            found.orders = self.orders()
        if self.takes("LIMIT"):
            found.limit = self.expression()
            if self.takes(","):
                found.offset, found.limit = found.limit, self.expression()
            elif self.takes("OFFSET"):
                found.offset = self.expression()
        if self.key in COMPOUND:
            raise self.misplaced(found)
        found.end = self.before.end
        return found

    def common(self) -> CommonQuery:
        """Consumes a query of WITH."""
        start, name, columns = self.token.start, self.name(), list[Name]()
        if self.takes("("):
            columns.append(self.name())
            while self.takes(","):
                columns.append(self.name())
            self.wants(")")
        self.wants("AS")
        if self.takes("NOT"):
            self.wants("MATERIALIZED")
        else:
            self.takes("MATERIALIZED")
        self.wants("(")
        query = self.nested()
        self.wants(")")
        return CommonQuery(start, self.before.end, name, columns, query)

    def select(self) -> Select:
        """Consumes one SELECT, or VALUES."""
        found = Select(self.token.start, self.token.end)
        if self.takes("VALUES"):
            found.rows.append(self.values())
            while self.takes(","):
                found.rows.append(self.values())
        else:
            self.wants("SELECT")
            if self.key in ("DISTINCT", "ALL"):
                found.quantifier = self.take().key
            found.items.append(self.item())
            while self.takes(","):
                found.items.append(self.item())
            self.clauses(found)
        found.end = self.before.end
        return found

    def values(self) -> Row:
        """Consumes a row of VALUES."""
        start = self.wants("(").start
        members = self.expressions()
        self.wants(")")
        return Row(start, self.before.end, members)

    def clauses(self, found: Select) -> None:
        """Consumes the clauses after the items."""
        if self.takes("FROM"):
            found.sources = self.sources()
        if self.takes("WHERE"):
            found.where = self.expression()
        if self.takes("GROUP"):
            self.wants("BY")
            found.groups = self.expressions()
        if self.takes("HAVING"):
            found.having = self.expression()
        if self.is_window():
            self.take()
            found.windows.append(self.named_window())
            while self.takes(","):
                found.windows.append(self.named_window())

    def item(self) -> Item:
        """Consumes an item of a SELECT."""
        start = self.token.start
        if self.takes("*"):
            return Item(start, self.before.end, None, None, None)
        if self.ahead(1).key == "." and self.ahead(2).key == "*" and self.is_name(self.token):
            qualifier = self.name()
            self.wants(".")
            self.wants("*")
            return Item(start, self.before.end, None, qualifier, None)
        expression, alias = self.expression(), self.alias()
        return Item(start, self.before.end, expression, None, alias)

    def alias(self) -> Optional[Name]:
        """Consumes an alias, if one is next."""
        if self.takes("AS"):
            return self.name()
        if self.token.kind in (TEXT, QUOTED) or self.token.kind == WORD and not (
                self.key in RESERVED or self.key in JOINS or self.key == "INDEXED" or
                self.is_window() or self.is_filter() or self.is_over()):
            return self.name()
        return None

    def sources(self) -> list[Source]:
        """Consumes what FROM names."""
        found = [self.source([])]
        while True:
            joined = self.join()
            if not joined:
                return found
            found.append(self.source(joined))

    def join(self) -> list[str]:
        """Consumes the words between two sources, if there are some."""
        if self.takes(","):
            return [","]
        found = list[str]()
        while self.key in JOINS and self.token.kind == WORD:
            found.append(self.take().key)
        if self.takes("JOIN"):
            return [*found, "JOIN"]
        if found:
            raise self.unexpected()
        return []

    def source(self, joined: list[str]) -> Source:
        """Consumes a source, and how it is joined."""
        start = self.token.start
        found: Source
        if self.takes("("):
            if self.key in QUERY:
                query = self.nested()
                self.wants(")")
                found = QuerySource(start, self.before.end, query, self.alias())
            else:
                self.deepen()
                sources = self.sources()
                self.depth -= 1
                self.wants(")")
                found = NestedSources(start, self.before.end, sources, self.alias())
        else:
            found = self.table()
        found.joined = joined
        if self.takes("ON"):
            found.on = self.expression()
        elif self.takes("USING"):
            self.wants("(")
            found.using.append(self.name())
            while self.takes(","):
                found.using.append(self.name())
            self.wants(")")
        found.end = self.before.end
        return found

    def table(self) -> TableSource:
        """Consumes the name of a table, its alias, and which index it is read by."""
        start, name, schema = self.token.start, self.name(), None
        if self.takes("."):
            schema, name = name, self.name()
        arguments: Optional[list[Node]] = None
        if self.takes("("):
            arguments = [] if self.key == ")" else self.expressions()
            self.wants(")")
        found = TableSource(start, self.before.end, name, schema, self.alias())
        found.arguments = arguments
        if self.key == "NOT" and self.ahead(1).key == "INDEXED":
            self.at += 2
        elif self.takes("INDEXED"):
            self.wants("BY")
            found.index = self.name()
        return found

    def is_window(self) -> bool:
        """Returns whether the clause WINDOW is next, and no name."""
        return self.key == "WINDOW" and self.is_name(self.ahead(1)) and self.ahead(2).key == "AS"

    def named_window(self) -> Window:
        """Consumes a window of the clause WINDOW."""
        start, name = self.token.start, self.name()
        self.wants("AS")
        found = self.window()
        found.start, found.name = start, name
        return found

    def misplaced(self, found: Query) -> Exception:
        """Returns the refusal of an order or a limit before another SELECT."""
        clause = "LIMIT" if found.limit else "ORDER BY"
        return self.refused(f"{clause} clause should come after {self.token.text.upper()} not "
                            "before")

"""A statement: read, resolved and validated; and its plan, if statements of bw can answer it."""
from __future__ import annotations

import functools
from typing import TYPE_CHECKING, Any, Callable, Mapping, Optional, Sequence, Union

from .._aggregation import AGGREGATES
from .._engine.executor import Engine, Outside
from .._errors import Refused
from .._result import Result
from .._storage.catalog import Catalog, Table
from .._types.base import Column
from .lexer import END, Token, tokens_of
from .literals import bind, evaluate
from .parser import MOST_DEPTH, Unexpected, parse
from .prepare import Emptied, Renderer
from .pushdown import Totals, single, totals_of
from .resolve import resolve
from .syntax import Call, Literal, Output, walk
from .validate import validate

if TYPE_CHECKING:
    from .groups import Groups
    from .pushdown import Rows


# A statement over tables: its tree, bound and checked before anything runs.

# values for `?` in order, or for names
Parameters = Union[Sequence[Any], Mapping[str, Any]]


class Statement:
    """A SELECT over the tables of a catalog. `parameters` are the values of those in it. Raises
    Refused for one that SQLite refuses, or that pages say is refused."""

    def __init__(self, written: str, catalog: Catalog, parameters: Parameters = ()) -> None:
        self.written, self.catalog = written, catalog
        tokens = one_statement(tokens_of(written))
        match_brackets(tokens)
        empty = emptied(catalog)
        try:
            parser = parse(tokens)
        except Unexpected as unexpected:
            raise empty.refusal(tokens, written, unexpected) from None
        self.tree = parser.tree
        bind(parser.parameters, parameters)
        for node in walk(self.tree):
            if isinstance(node, Literal) and not node.mark:
                evaluate(node)
        resolve(self.tree, catalog, written)
        empty.prepare(self.tree, self.sql(), tokens, written)
        validate(self.tree, written)

    @property
    def outputs(self) -> Sequence[Output]:
        """The columns of its result, with their headings and the tables' columns that they are."""
        return self.tree.outputs

    def sql(self) -> str:
        """Returns its text for SQLite, with SQLite's own sums."""
        return Renderer(self.written).text(self.tree)


def emptied(catalog: Catalog) -> Emptied:
    """Returns the empty tables of a catalog, which it keeps."""
    if catalog.empty is None:
        catalog.empty = Emptied(catalog)
        catalog.stack.callback(catalog.empty.close)
    assert isinstance(catalog.empty, Emptied)
    return catalog.empty


def one_statement(tokens: list[Token]) -> list[Token]:
    """Returns the tokens of one SELECT, without the semicolon at its end. Raises Refused for
    another statement, or for several."""
    while len(tokens) > 1 and tokens[-2].key == ";":
        del tokens[-2]
    for token, following in zip(tokens, tokens[1:]):
        if token.key == ";":
            raise Refused(f"a second statement begins at character {following.start}: run one at a "
                          "time")
    first = tokens[0]
    if first.kind == END:
        raise Refused("the statement is empty")
    if first.key not in ("SELECT", "WITH"):
        raise Refused(f"expected SELECT or WITH at character {first.start} of the statement, found "
                      f"{first.text}: tables are read only")
    return tokens


def match_brackets(tokens: Sequence[Token]) -> None:
    """Raises Refused for a bracket that has no other one, or that is in too many."""
    opened = list[Token]()
    for token in tokens:
        if token.key == "(":
            opened.append(token)
            if len(opened) > MOST_DEPTH:
                raise Refused(f"the bracket at character {token.start} of the statement is in more "
                              f"than {MOST_DEPTH} others")
        elif token.key == ")":
            if not opened:
                raise Refused(f"the bracket ) at character {token.start} of the statement closes "
                              "none")
            opened.pop()
    if opened:
        raise Refused(f"the bracket ( at character {opened[-1].start} of the statement isn't "
                      "closed")


# How a statement is answered: by statements of bw, if it asks for totals, for rows of columns or
# for groups of one table; or by SQLite over the columns that it reads, which bw lists.

EngineOf = Callable[[Table], Engine]
MissingOf = Callable[[Table, Sequence[Column], int], Optional[int]]


def answer(statement: Statement, engine_of: EngineOf, missing: MissingOf | None = None
           ) -> Result | None:
    """Returns the answer to a statement by statements of bw, or None if it is outside of what they
    answer, bw would have to list too much, or SQLite is quicker: `missing` returns how many of a
    table's columns SQLite hasn't got yet, or None if it may not get so many rows. Raises Refused if
    a result is refused, and Failed if bw ends by itself."""
    try:
        question = question_of(statement)
        engine = engine_of(question.table)
        before = len(engine.asked)
        body = question.body(engine, functools.partial(missing, question.table) if missing
                             else None)
    except Outside:
        return None
    return Result([output.heading for output in statement.outputs], question.kinds(), body, 1,
                  engine.asked[before:])


def question_of(statement: Statement) -> Totals | Rows | Groups:
    """Returns what a statement asks. Raises Outside if statements of bw don't answer it. Totals
    need the fewest modules; those of the other questions are imported when one is asked."""
    tree = statement.tree
    select, table = single(tree)
    if select.windows or select.quantifier == "ALL":
        raise Outside
    totals = totals_of(tree, select)
    if totals:
        return Totals(select, table, totals)
    if select.quantifier or select.groups or select.having or any(
            isinstance(node, Call) and node.name in AGGREGATES for node in walk(tree)):
        from .groups import Groups
        return Groups(tree, select, table)
    from .pushdown import Rows
    return Rows(tree, select, table)

"""Has SQLite read a statement over empty tables, and makes the text that it answers."""
from __future__ import annotations

import contextlib
import re
import sqlite3
from typing import Any, Callable, Collection, Iterator, Sequence

from .. import _aggregation
from .._errors import Refused
from .._identifiers import RESERVED
from .._result import INTEGER, affinity, is_long
from .._storage.catalog import Catalog, missing
from .._types.base import Column
from .lexer import JOINS, MOMENTS, MOST_SHOWN, RESERVED as NO_NAMES, Token, quoted_name, short
from .resolve import CHOICES, HIDDEN, column_of, exact_of, place_of
from .syntax import (IN, Call, Case, ColumnName, Literal, Name, Node, OrderTerm, Query, Row, Select,
                     TableSource, Unary, Window, children, walk)


# SQLite reads every statement before anything runs, over empty tables of the columns' types: what
# it refuses is refused, with its message and the place. Its authorizer says what a statement may
# do, and which columns it reads.

# actions of SQLite that Python's module doesn't name
RECURSIVE = 33
# the instructions of SQLite that open a table and read a column
READS = (b"OpenRead", b"Column")
# SQLite's functions without those of files and extensions
FUNCTIONS = frozenset(
    "abs char coalesce concat concat_ws format glob hex if ifnull iif instr length like "
    "likelihood likely lower ltrim max min nullif octet_length printf quote random randomblob "
    "replace round rtrim sign soundex sqlite_version substr substring trim typeof unhex unicode "
    "unistr unlikely upper zeroblob date time datetime julianday unixepoch strftime timediff "
    "current_date current_time current_timestamp avg count group_concat string_agg sum total "
    "median percentile percentile_cont percentile_disc row_number rank dense_rank percent_rank "
    "cume_dist ntile lag lead first_value last_value nth_value acos acosh asin asinh atan atan2 "
    "atanh ceil ceiling cos cosh degrees exp floor ln log log10 log2 mod pi pow power radians sin "
    "sinh sqrt tan tanh trunc json json_array json_array_length json_extract json_insert "
    "json_object json_patch json_remove json_replace json_set json_type json_valid json_quote "
    "json_group_array json_group_object json_error_position json_pretty -> ->>".split())


class Guard:
    """An authorizer that allows reads of our tables and functions without files, nothing else. It
    notes which columns are read, and why a statement was denied. It allows all while `is_off`,
    for the statements that fill the tables."""

    def __init__(self, catalog: Catalog) -> None:
        self.catalog, self.is_off, self.denied = catalog, True, ""
        # how many statements were explained
        self.explained = 0
        # the columns that were read of each table, by their names in lower case
        self.read: dict[str, set[str]] = {}

    def __call__(self, action: int, first: str | None, second: str | None,
                 database: str | None, _: str | None) -> int:
        if self.is_off or action in (sqlite3.SQLITE_SELECT, RECURSIVE):
            return sqlite3.SQLITE_OK
        # of a table, or a query of WITH, whose columns aren't read SQLite names no database
        if action == sqlite3.SQLITE_READ and database in ("main", None):
            table = self.catalog.get(first or "")
            if not table and not second and not str(first).lower().startswith(HIDDEN):
                return sqlite3.SQLITE_OK
            if table:
                columns = self.read.setdefault(table.name, set())
                columns |= {second.lower()} if second else set()
                return sqlite3.SQLITE_OK
            self.denied = f"{first} can't be read: a statement reads the tables " \
                          f"{', '.join(self.catalog.names())}"
        elif action == sqlite3.SQLITE_FUNCTION:
            # ours are in the text of a statement that was accepted without them
            if str(second).lower() in FUNCTIONS or second in _aggregation.FUNCTIONS:
                return sqlite3.SQLITE_OK
            self.denied = f"the function {second} can't be used: it isn't one of SQLite's " \
                          "without files and extensions"
        else:
            self.denied = self.denied or "the statement isn't one that reads tables"
        return sqlite3.SQLITE_DENY

    def is_lost(self, error: Exception) -> bool:
        """Returns whether a signal's exception ended the guard: it denied, and noted no reason."""
        is_denied = "not authorized" in str(error) or str(error).endswith("is prohibited")
        return is_denied and not self.denied


class Emptied:
    """A database of SQLite that has the tables of a catalog, without rows."""

    def __init__(self, catalog: Catalog) -> None:
        self.catalog, self.guard = catalog, Guard(catalog)
        self.database = sqlite3.connect(":memory:", isolation_level=None, check_same_thread=False)
        self.database.set_authorizer(self.guard)
        declare(self.database, catalog)

    def close(self) -> None:
        self.database.close()

    def prepare(self, tree: Query, sql: str, tokens: Sequence[Token], written: str) -> None:
        """Has SQLite read the text of a statement. Raises Refused with its message if it refuses
        it."""
        message = self.message(sql)
        if message:
            refused = Refused(self.guard.denied or told(tree, message))
            raise self.refusal(tokens, written, refused) if is_of_syntax(message) else refused

    def refusal(self, tokens: Sequence[Token], written: str, ours: Refused) -> Refused:
        """Returns the refusal of a statement that SQLite can't parse: with its message and the
        place, or `ours` if it has none."""
        parts = list[str]()
        for at, token in enumerate(tokens[:-1]):
            # SQLite doesn't know the words before a literal of a date or a time
            is_word = token.key in MOMENTS and tokens[at + 1].text[:1] == "'"
            parts.append(" " * len(token.text) if is_word else token.text)
        sql = written
        for token, part in zip(tokens, parts):
            sql = sql[:token.start] + part + sql[token.end:] if part != token.text else sql
        message = self.message(sql)
        if not is_of_syntax(message):
            return Refused(self.guard.denied) if self.guard.denied else ours
        place = self.place(tokens, sql)
        near = message.replace('near ""', "near the end")
        if len(message) > MOST_SHOWN:
            near = re.sub('"(.*)"', lambda found: f'"{short(found[1])}"', near, flags=re.DOTALL)
        return Refused(f"{near} at character {place} of the statement"
                       f"{reserved(self.catalog, tokens, place)}")

    def message(self, sql: str) -> str:
        """Returns SQLite's message about a statement, or nothing."""
        try:
            explain(self.database, self.guard, sql, False)
        except (sqlite3.Error, sqlite3.Warning) as error:
            if self.guard.is_lost(error):
                raise KeyboardInterrupt from None
            return str(error)
        return ""

    def place(self, tokens: Sequence[Token], sql: str) -> int:
        """Returns the character of the token at which SQLite finds an error of syntax: the last one
        of the shortest part of the statement, from its beginning, that has it."""
        low, high = 0, len(tokens) - 1
        while low < high:
            middle = (low + high) // 2
            is_wrong = self.message(sql[:tokens[middle].end]).startswith('near "')
            low, high = (low, middle) if is_wrong else (middle + 1, high)
        return tokens[low].start


def is_of_syntax(message: str) -> bool:
    return message.startswith('near "') or message == "incomplete input"


def declare(database: sqlite3.Connection, catalog: Catalog) -> None:
    """Makes the tables of a catalog, without rows."""
    for table in catalog.tables.values():
        columns = ", ".join(map(declared, table.columns))
        database.execute(f"CREATE TABLE {quoted_name(table.name)} ({columns})")


def declared(column: Column) -> str:
    """Returns a column's name and type in SQLite: decimals of many digits are integers."""
    return f"{quoted_name(column.name)} {INTEGER if is_long(column) else affinity(column.kind)}"


def explain(database: sqlite3.Connection, guard: Guard, sql: str, is_wanted: bool = True
            ) -> list[tuple[Any, ...]]:
    """Has SQLite read a statement, which it doesn't run. Returns what its program reads, if that is
    wanted."""
    guard.read, guard.denied, guard.is_off = {}, "", False
    # Python keeps statements by their text, and SQLite doesn't authorize one again that was kept
    guard.explained += 1
    # a literal of bytes is a text there
    database.text_factory = bytes
    try:
        found = database.execute(f"EXPLAIN /* {guard.explained} */ {sql}")
        if not is_wanted:
            found.close()
            return []
        return [row for row in found if row[1] in READS]
    finally:
        database.text_factory, guard.is_off = str, True


def reads_of(database: sqlite3.Connection, guard: Guard, tree: Query, sql: str
             ) -> dict[str, set[str]]:
    """Returns the columns that a statement reads of each table, by name: those that the authorizer
    was asked for, and those that SQLite's program reads, such as the columns of USING. Raises
    Refused with SQLite's message if it isn't one that may run."""
    try:
        program = explain(database, guard, sql)
    except (sqlite3.Error, sqlite3.Warning) as error:
        if str(error) == "interrupted" or guard.is_lost(error):
            raise
        raise Refused(guard.denied or told(tree, str(error))) from None
    found = {name: set(columns) for name, columns in guard.read.items()}
    for name, column in program_reads(database, guard.catalog, program):
        found.setdefault(name, set()).add(column)
    return found


def program_reads(database: sqlite3.Connection, catalog: Catalog,
                  program: Sequence[tuple[Any, ...]]) -> Iterator[tuple[str, str]]:
    """Yields the tables and the columns that a program of SQLite reads, in lower case."""
    pages = {page: catalog.get(name) for name, page
             in database.execute("SELECT name, rootpage FROM sqlite_master WHERE type = 'table'")}
    opened = {row[2]: pages.get(row[3]) for row in program if row[1] == READS[0] and not row[4]}
    for row in program:
        table = opened.get(row[2]) if row[1] == READS[1] else None
        if table and row[3] < len(table.columns):
            yield table.name, table.columns[row[3]].name.lower()


def told(tree: Query, message: str) -> str:
    """Returns what to print for an error of SQLite in a statement that was parsed."""
    what, _, name = message.partition(": ")
    if what == "no such column" and name:
        return missing_column(tree, name)
    if what == "no such function":
        return missing_function(tree, name)
    return f"{message}{at_name(tree, name.split(' ')[0]) or at_term(tree, message)}"


def missing_column(tree: Query, name: str) -> str:
    """Returns what to print for a name that is no column: where it is, and the nearest names."""
    last = name.rpartition(".")[2]
    for node in walk(tree):
        if isinstance(node, ColumnName) and node.scope and not node.output and \
                node.name.text == last:
            names, where = node.scope.names(), f" at character {node.name.start} of the statement"
            near = [each for each in names if each.lower() == f"{last.lower()}_"]
            if near and last.upper() in RESERVED:
                return f"there is no column {last}{where}: the word is reserved: use {near[0]} " \
                       f'or "{last}"'
            return str(missing("column", last, names, where))
    return f"there is no column {name}"


def missing_function(tree: Query, name: str) -> str:
    """Returns what to print for a function that isn't there, or that this SQLite lacks."""
    where = at_name(tree, name)
    if name.lower() in FUNCTIONS:
        return f"the function {name} isn't in this SQLite ({sqlite3.sqlite_version}): it needs a " \
               f"later one, or one that was built with it{where}"
    with contextlib.closing(sqlite3.connect(":memory:")) as database:
        present = {row[0] for row in database.execute("PRAGMA function_list")}
    known = [each for each in FUNCTIONS & present if each.isalpha()]
    return f"{missing('function', name, known)}{where}"


def at_term(tree: Query, message: str) -> str:
    """Returns the place of what a message of SQLite is about, or nothing: of a function, of a term
    of ORDER BY or GROUP BY, or of a clause."""
    found = re.search(r"([0-9]+)(?:st|nd|rd|th) (ORDER|GROUP) BY term", message)
    named = re.search(r"(\w+)\(\)", message)
    nodes = list[Node]()
    for node in walk(tree):
        if found and found[2] == "ORDER" and isinstance(node, (Query, Window)):
            nodes += node.orders[int(found[1]) - 1:int(found[1])]
        elif found and isinstance(node, Select):
            nodes += node.groups[int(found[1]) - 1:int(found[1])]
        elif named and isinstance(node, Call) and node.name == named[1].upper():
            nodes.append(node)
        elif "GROUP BY clause" in message and isinstance(node, Select):
            nodes += node.groups
        elif "HAVING" in message and isinstance(node, Select) and node.having:
            nodes.append(node.having)
        elif "row value" in message and isinstance(node, Row):
            nodes.append(node)
    return f" (at character {nodes[0].start} of the statement)" if nodes else ""


def at_name(tree: Query, name: str) -> str:
    """Returns the place of a name in a statement, for a message, or nothing."""
    last = name.rpartition(".")[2].lower().removesuffix("()")
    for node in walk(tree):
        if last and name_in(node).lower() == last:
            return f" (at character {node.start} of the statement)"
    return ""


def name_in(node: Node) -> str:
    """Returns the name that a node has in an expression, or nothing."""
    if isinstance(node, ColumnName):
        return node.name.text
    return node.name if isinstance(node, Call) else ""


def reserved(catalog: Catalog, tokens: Sequence[Token], place: int) -> str:
    """Returns how to write a column's name that is a word of SQL, if one is at a place."""
    words = [token.text for token in tokens if token.start == place
             and (token.key in NO_NAMES or token.key in JOINS)]
    found = [column.name for table in catalog.tables.values() for column in table.columns
             if words and column.name.lower() == words[0].lower()]
    return f": the word is reserved: use \"{found[0]}\"" if found else ""


# The text of a statement for SQLite: what was written, with its names in quotes that SQLite never
# takes for a text, tables by their own names, literals in SQLite's form, and groups in order; and
# exact sums and means: of whole numbers and decimals they are SQLite's own sums of integers, also
# of what CASE and COALESCE choose among them.


class Renderer:
    """Makes the text of nodes. SUM, AVG and TOTAL are exact, those among `whole` as `blob_of` has
    them; without it they are SQLite's own."""

    def __init__(self, written: str, whole: Collection[Node] | None = None) -> None:
        self.written, self.whole = written, whole
        # what follows the last term of an ORDER BY of groups
        self.ties: dict[OrderTerm, str] = {}

    def text(self, node: Node) -> str:
        """Returns the text of a node."""
        if node.form:
            # what replaces a token must not become one with its neighbours
            return f" {node.form} "
        if isinstance(node, Name) and node.quote:
            return quoted_name(node.text)
        if isinstance(node, Literal):
            is_other = node.mark or node.text[:1] == "'"
            return f" {node.text} " if is_other else self.written[node.start:node.end]
        if isinstance(node, Call) and self.whole is not None:
            found = sum_text(node, self.text, node in self.whole)
            if found is not None:
                return found
        if isinstance(node, Query) and self.whole is not None:
            self.note_ties(node)
        parts, at = list[str](), node.start
        for child in sorted(children(node), key=lambda each: each.start):
            parts += [self.written[at:child.start], self.child(node, child)]
            at = child.end
        parts.append(self.written[at:node.end])
        if isinstance(node, OrderTerm) and node in self.ties:
            parts.append(self.ties[node])
        return "".join(parts)

    def child(self, node: Node, child: Node) -> str:
        """Returns the text of a child of a node."""
        if isinstance(node, TableSource) and child is node.name and node.table:
            name, table = node.name.text, quoted_name(node.table.name)
            is_renamed = not node.alias and name.lower() != node.table.name.lower()
            return f" {table} AS {quoted_name(name)} " if is_renamed and node.joined != [IN] \
                else table
        if isinstance(child, Literal) and child.mark and isinstance(node, (OrderTerm, Select)):
            # which isn't a column's place
            return f" {child.text} || '' "
        return self.text(child)

    def note_ties(self, query: Query) -> None:
        """Notes the terms by which groups that ORDER BY leaves equal ascend, nulls first. SQLite
        may sort groups the other way round if a term descends."""
        select = query.selects[0]
        if len(query.selects) > 1 or not query.orders or not select.groups or \
                select.quantifier == "DISTINCT":
            return
        count = len(select.outputs)
        terms = [self.text(each) if place_of(each, count) is not None
                 else f"+({self.text(each)})" for each in select.groups]
        self.ties[query.orders[-1]] = f", {', '.join(terms)}"


def scaled(node: Node, digits: int, text: Callable[[Node], str]) -> str:
    """Returns the text of an expression that `exact_of` knows, multiplied by ten to `digits`: of
    integers."""
    if not digits:
        return text(node)
    column = column_of(node)
    if column:
        own = _aggregation.digits_of(column.kind)
        more = f" * {10 ** (digits - own)}" if digits > own else ""
        if not own or is_long(column):
            return f"{text(node)}{more}"
        return f"CAST(ROUND(({text(node)}) * 1e{own}) AS INTEGER){more}"
    if isinstance(node, Literal):
        value = node.value
        return "NULL" if value is None or isinstance(value, (str, bytes)) else \
            str(int(value * 10 ** digits))
    if isinstance(node, Unary) and node.sign in ("-", "+"):
        return f"{node.sign} ({scaled(node.operand, digits, text)})"
    if isinstance(node, Case):
        parts = [f"WHEN {text(each.condition)} THEN {scaled(each.result, digits, text)}"
                 for each in node.whens]
        operand = f"{text(node.operand)} " if node.operand else ""
        last = f" ELSE {scaled(node.otherwise, digits, text)}" if node.otherwise else ""
        return f"CASE {operand}{' '.join(parts)}{last} END"
    if isinstance(node, Call):
        first = CHOICES[node.name]
        arguments = [*map(text, node.arguments[:first]),
                     *(scaled(each, digits, text) for each in node.arguments[first:])]
        return f"{node.name}({', '.join(arguments)})"
    return f"({text(node)}) * {10 ** digits}"


def sum_text(call: Call, text: Callable[[Node], str], is_whole: bool = False) -> str | None:
    """Returns the text for SQLite of a SUM, AVG or TOTAL, or None for another call, and before
    OVER, where they are SQLite's own. A sum of decimals `is_whole` if it is to be as `blob_of` has
    it."""
    if call.name not in ("SUM", "AVG", "TOTAL") or call.over or len(call.arguments) != 1:
        return None
    argument, distinct = call.arguments[0], "DISTINCT " * call.is_distinct
    only = f"FILTER (WHERE {text(call.filter)})" if call.filter else ""
    exact = exact_of(argument)
    if not exact or exact.digits < 0:
        found = f" bw_{call.name.lower()}({distinct}{text(argument)}) {only} "
        # Python isn't asked for the total of no rows
        return f" CASE COUNT({text(argument)}) {only} WHEN 0 THEN 0.0 ELSE {found} END " \
            if call.name == "TOTAL" else found
    high, numbers = "0", scaled(argument, exact.digits, text) if exact.is_scaled else text(argument)
    if call.is_distinct or not exact.is_scaled:
        digits = 0 if exact.is_scaled else exact.digits
        low = f"bw_exact_{digits}({distinct}{numbers}) {only}"
    elif exact.most < _aggregation.SMALL:
        low = f"SUM({numbers}) {only}"
    else:
        high, low = (f"SUM(({numbers}) {half}) {only}" for half in (">> 32", "& 4294967295"))
    if call.name == "AVG":
        return f" bw_mean({high}, {low}, COUNT({distinct}{numbers}) {only}, {exact.digits}) "
    if call.name == "SUM" and not exact.digits and low[:3] == "SUM" and high == "0":
        return f" {low} "
    form = _aggregation.TOTAL if call.name == "TOTAL" else _aggregation.BLOB if is_whole else 0
    doubles = f", COUNT({doubles_of(argument, text)}) {only}" if exact.is_mixed and not form else ""
    return f" bw_halves({high}, {low}, {exact.digits}, {form}{doubles}) "


def doubles_of(node: Node, text: Callable[[Node], str]) -> str:
    """Returns the text of a choice, such as CASE, with NULL in place of its whole numbers."""
    def result(each: Node) -> str:
        exact = exact_of(each)
        if exact is None or exact.digits <= 0:
            return "NULL"
        return doubles_of(each, text) if exact.is_mixed else text(each)

    if isinstance(node, Case):
        parts = [f"WHEN {text(each.condition)} THEN {result(each.result)}" for each in node.whens]
        operand = f"{text(node.operand)} " if node.operand else ""
        last = f" ELSE {result(node.otherwise)}" if node.otherwise else ""
        return f"CASE {operand}{' '.join(parts)}{last} END"
    if isinstance(node, Call) and node.name == "IIF":
        return f"IIF({text(node.arguments[0])}, {', '.join(map(result, node.arguments[1:]))})"
    if isinstance(node, Call):
        # the first of its arguments that isn't null
        parts = [f"WHEN {text(each)} IS NOT NULL THEN {result(each)}" for each in node.arguments]
        return f"CASE {' '.join(parts)} END"
    # a sign before one
    return doubles_of(node.operand, text) if isinstance(node, Unary) else text(node)

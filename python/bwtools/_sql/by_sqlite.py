"""Answers a statement by SQLite, over tables that list what the statement needs."""
from __future__ import annotations

import collections
import contextlib
import itertools
import sqlite3
from typing import Any, Callable, Iterable, Iterator, Mapping, Sequence

from .._aggregation import Functions, NeedsExact
from .._engine.executor import Engine
from .._errors import Failed, Refused, failure_of, is_of_system
from .._progress import Waiting
from .._result import Numbers, Result, ValueRows, integers_of, is_long
from .._storage.catalog import Catalog, Table
from .._types.base import Column
from .._types.kinds import unstyled
from .lexer import quoted_name
from .plan import Statement
from .prepare import Guard, Renderer, declare, declared, reads_of, told
from .pushdown import pushed
from .validate import inner_sum, is_exact, refuse_doubles, whole_sums


# SQLite's tables of the columns that bw listed. SQLite itself makes doubles of decimals, and the
# texts of times if most are different; other values are made once for each distinct integer.

# after how many of SQLite's instructions a signal is noticed
INSTRUCTIONS = 20_000


def watch(database: sqlite3.Connection, keep: Callable[[BaseException], None]) -> None:
    """Has a statement end early once a signal's handler raises an exception, such as
    KeyboardInterrupt, which `keep` gets."""
    watcher = watching(keep)
    # it begins here, where what a handler raises is no callback's
    next(watcher)
    database.set_progress_handler(watcher.__next__, INSTRUCTIONS)


def watching(keep: Callable[[BaseException], None]) -> Iterator[int]:
    """Yields 0, as long as no handler raises an exception; then 1 once. A function would not catch
    it: handlers run when it begins, and a generator goes on within its `try`."""
    is_ended = 0
    while True:
        try:
            yield is_ended
            is_ended = 0
        except GeneratorExit:
            raise
        except BaseException as error:
            keep(error)
            is_ended = 1


# so many variables has a statement that inserts rows; any SQLite takes 999
MOST_VARIABLES = 500
# the seconds since 1970 of which SQLite has texts: those of the years 1 to 9999
LEAST_SECOND, MOST_SECOND = -62_135_596_800, 253_402_300_799
# values are made once for each distinct integer if fewer than this part of some rows have different
# ones; so many are known at most
FEW, MOST_KNOWN = 1 / 4, 1 << 18


class Filler:
    """Inserts rows into a table of SQLite, of columns that bw lists."""

    def __init__(self, database: sqlite3.Connection, target: str,
                 columns: Sequence[Column]) -> None:
        self.database, self.columns, self.width = database, columns, len(columns)
        names = ", ".join(quoted_name(each.name) for each in columns)
        # the values of the integers that were met, by the columns' places
        self.known: list[dict[Any, Any]] = [{None: None} for _ in columns]
        self.into = f"INSERT INTO {quoted_name(target)} ({names}) VALUES"

    def insert(self, lines: bytes) -> int:
        """Inserts the rows of whole lines of integers. Returns how many they are."""
        flat, rows = integers_of(lines), lines.count(b"\n")
        if len(flat) != rows * self.width:
            raise Failed(f"bw listed lines of other than {self.width} fields")
        marks = [self.value(place, column, flat) for place, column in enumerate(self.columns)]
        row = f"({', '.join(marks)})"
        at_once = max(1, MOST_VARIABLES // self.width)
        values, whole = iter(flat), rows // at_once
        self.database.executemany(f"{self.into} {', '.join([row] * at_once)}",
                                  several(values, at_once * self.width, whole))
        self.database.executemany(f"{self.into} {row}",
                                  several(values, self.width, rows - whole * at_once))
        return rows

    def value(self, place: int, column: Column, flat: list[Any]) -> str:
        """Returns SQLite's text of a column's value, and puts what it is made of into the rows."""
        kind: Any = unstyled(column.kind)
        if kind.name in ("whole", "nulls") or is_long(column):
            return "?"
        if kind.name == "decimals":
            return f"? / {10 ** kind.digits}.0"
        numbers = flat[place::self.width]
        distinct = set(numbers)
        if len(distinct) < FEW * len(numbers):
            known = self.known[place]
            fresh = [number for number in distinct if number not in known]
            known.update(zip(fresh, Numbers(column.kind, fresh).values()))
            flat[place::self.width] = map(known.__getitem__, numbers)
            if len(known) > MOST_KNOWN:
                self.known[place] = {None: None}
        elif kind.name == "times" and not kind.digits and is_plain(distinct - {None}):
            return "datetime(?, 'unixepoch')"
        else:
            flat[place::self.width] = Numbers(column.kind, numbers).values()
        return "?"


def several(values: Iterator[Any], width: int, count: int) -> Iterator[tuple[Any, ...]]:
    """Yields so many tuples of values, one after another."""
    for _, found in zip(range(count), zip(*[values] * width)):
        yield found


def is_plain(seconds: set[int]) -> bool:
    """Returns whether SQLite has texts of all seconds."""
    return bool(seconds) and LEAST_SECOND <= min(seconds) and max(seconds) <= MOST_SECOND


ROWIDS = ("rowid", "oid", "_rowid_")
FRESH = "bw:fresh"
EACH_ROW = ("WITH RECURSIVE n(i) AS (SELECT 1 WHERE ? > 0 UNION ALL SELECT i + 1 FROM n "
            "WHERE i < ?) INSERT INTO {0} ({1}) SELECT NULL FROM n")


class Listing:
    """A database in memory with the tables of a catalog: of each the columns that were listed, and
    nulls in others. All rows are listed, or those of a condition of bw."""

    def __init__(self, catalog: Catalog, condition: str = "") -> None:
        self.condition = condition
        self.database = sqlite3.connect(":memory:", isolation_level=None,
                                        check_same_thread=False)
        self.guard, self.functions = Guard(catalog), Functions(self.database)
        self.database.set_authorizer(self.guard)
        declare(self.database, catalog)
        # the columns of each table that are listed, by their names, and the number of its rows
        self.listed = dict[str, set[str]]()
        self.rows = dict[str, int]()

    def close(self) -> None:
        self.database.close()

    @contextlib.contextmanager
    def watched(self) -> Iterator[None]:
        """Raises what was raised in a callback of SQLite, a refusal or a signal's exception,
        instead of SQLite's own error."""
        self.functions.raised = None
        watch(self.database, self.functions.keep)
        try:
            yield
        except sqlite3.Error as error:
            if self.functions.raised:
                raise self.functions.raised from None
            # a signal's exception ends the function of ours that it finds
            if "interrupted" in str(error) or "user-defined" in str(error) or \
                    self.guard.is_lost(error):
                raise KeyboardInterrupt from None
            raise

    def missing(self, table: Table, names: set[str]) -> list[Column]:
        """Returns the columns among these names in lower case that aren't listed yet."""
        listed = self.listed.get(table.name, set())
        return [each for each in table.columns if each.name.lower() in names - listed]

    def count(self, table: Table, engine: Engine) -> int:
        """Returns the number of the table's rows, which bw counts."""
        if table.name not in self.rows:
            found, = engine.totals([f"SELECT COUNT(*) FROM {table.bw_name}{self.where()}"])
            self.rows[table.name] = found[0] or 0
        return self.rows[table.name]

    def where(self) -> str:
        return f" WHERE {self.condition}" if self.condition else ""

    def add(self, table: Table, names: set[str], engine: Engine,
            progress: Callable[[int], None]) -> None:
        """Lists the columns of these names that aren't listed yet, all of them or none."""
        if table.name in self.listed and not self.missing(table, names):
            return
        before, count = self.listed.get(table.name, set()), self.count(table, engine)
        columns = self.missing(table, names)
        if before and not rowid_of(table.columns):
            # rows can't be joined: all columns are listed again
            columns = [each for each in table.columns if each.name.lower() in before | names]
            before = set()
        with self.transaction():
            if before:
                self.create(FRESH, columns)
            else:
                # rows may be there that were counted
                self.database.execute(f"DELETE FROM {quoted_name(table.name)}")
            found = self.fill(FRESH if before else table.name, table, columns, engine, progress)
            if found != count:
                raise Failed(f"bw listed {found:,} rows of {table.name}, expected {count:,}")
            if before:
                self.join(table, columns)
        self.listed[table.name] = before | {each.name.lower() for each in columns}

    @contextlib.contextmanager
    def transaction(self) -> Iterator[None]:
        """Undoes what isn't done to its end."""
        # a signal may have ended what should have set it
        self.guard.is_off = True
        if self.database.in_transaction:
            # a signal ended what should have undone it
            self.database.execute("ROLLBACK")
        self.database.execute("BEGIN")
        try:
            yield
        except BaseException:
            # SQLite itself has undone it if its memory or disk is full
            if self.database.in_transaction:
                self.database.execute("ROLLBACK")
            raise
        self.database.execute("COMMIT")

    def create(self, name: str, columns: Sequence[Column]) -> None:
        typed = ", ".join(map(declared, columns))
        self.database.execute(f"CREATE TABLE {quoted_name(name)} ({typed})")

    def fill(self, target: str, table: Table, columns: Sequence[Column], engine: Engine,
             progress: Callable[[int], None]) -> int:
        """Lists columns into a table of SQLite. Returns the number of rows. Without columns it
        makes as many rows as bw counted."""
        if not columns:
            self.database.execute(EACH_ROW.format(quoted_name(target), quoted_name(
                table.columns[0].name)), (self.rows[table.name], self.rows[table.name]))
            return self.rows[table.name]
        names = ", ".join(each.name for each in columns)
        parts = engine.rows(f"SELECT {names} FROM {table.bw_name}{self.where()}")
        filler, count = Filler(self.database, target, columns), 0
        try:
            for part in parts:
                for lines in part.blocks():
                    found = filler.insert(lines)
                    count += found
                    progress(found)
        finally:
            for part in parts:
                part.close()
        return count

    def join(self, table: Table, fresh: Sequence[Column]) -> None:
        """Makes the table of its rows with the fresh columns beside those listed before."""
        name, made, new = quoted_name(table.name), quoted_name("bw:made"), quoted_name(FRESH)
        kept = [each for each in table.columns if each.name.lower() in self.listed[table.name]]
        self.create("bw:made", table.columns)
        into = ", ".join(quoted_name(each.name) for each in itertools.chain(kept, fresh))
        items = ", ".join([*(f"a.{quoted_name(each.name)}" for each in kept),
                           *(f"b.{quoted_name(each.name)}" for each in fresh)])
        left, right = rowid_of(table.columns), rowid_of(fresh)
        self.database.execute(f"INSERT INTO {made} ({into}) SELECT {items} FROM {name} a "
                              f"JOIN {new} b ON b.{right} = a.{left} ORDER BY a.{left}")
        self.database.execute(f"DROP TABLE {name}")
        self.database.execute(f"DROP TABLE {new}")
        self.database.execute(f"ALTER TABLE {made} RENAME TO {name}")


def rowid_of(columns: Sequence[Column]) -> str:
    """Returns the name of SQLite's row numbers that no column of a table has, or nothing."""
    taken = {each.name.lower() for each in columns}
    return next((name for name in ROWIDS if name not in taken), "")


# Answers statements by SQLite over columns that bw listed: all that bw can't answer itself.

# so many rows are listed without being asked for, and so many conditions' rows are kept
MOST_ROWS, MOST_CONDITIONS = 4_000_000, 8
EngineOf = Callable[[Table], Engine]


class BySqlite:
    """SQLite over the listed columns of a catalog's tables, which are kept. `is_all` says whether
    any number of rows may be listed."""

    def __init__(self, catalog: Catalog, engine_of: EngineOf, is_all: bool,
                 waiting: Waiting) -> None:
        self.catalog, self.engine_of = catalog, engine_of
        self.is_all, self.waiting = is_all, waiting
        self.whole = Listing(catalog)
        # the rows of conditions, the last one used last
        self.parts = collections.OrderedDict[str, Listing]()

    def close(self) -> None:
        """Forgets what was listed."""
        for listing in (self.whole, *self.parts.values()):
            listing.close()

    def answer(self, statement: Statement) -> Result:
        """Returns the answer to a statement. Raises Refused for one that can't run, Failed if bw
        can't list a column, and KeyboardInterrupt when it is interrupted."""
        refuse_doubles(statement.tree)
        sql = text_of(statement)
        with self.whole.watched():
            reads = reads_of(self.whole.database, self.whole.guard, statement.tree, sql)
        listing, asked = self.listing(statement, reads), list[str]()
        tables = [self.tables()[name] for name in reads]
        engines = {table.name: self.engine_of(table) for table in tables}
        before = {name: len(engine.asked) for name, engine in engines.items()}
        self.waiting.begin("bw lists")
        self.refuse_many(listing, tables, reads, engines)
        for table in tables:
            with listing.watched():
                listing.add(table, reads[table.name], engines[table.name], self.waiting.add)
        for name, engine in engines.items():
            asked += engine.asked[before[name]:]
        try:
            return self.run(listing, statement, sql, asked)
        except NeedsExact:
            raise inner_sum(statement.tree) from None

    def tables(self) -> Mapping[str, Table]:
        return {table.name: table for table in self.catalog.tables.values()}

    def refuse_many(self, listing: Listing, tables: Iterable[Table], reads: Mapping[str, set[str]],
                    engines: Mapping[str, Engine]) -> None:
        """Rejects a statement for which too many rows would be listed."""
        count = sum(listing.count(table, engines[table.name]) for table in tables
                    if table.name not in listing.listed or
                    listing.missing(table, reads[table.name]))
        if count > MOST_ROWS and not self.is_all:
            raise Refused(f"SQLite would answer this over {count:,} rows, which bw lists: to list "
                          f"more than {MOST_ROWS:,}, use --all, or list_all=True")

    def listing(self, statement: Statement, reads: Mapping[str, set[str]]) -> Listing:
        """Returns where a statement runs: over all rows if they are listed, or if it has no
        condition of bw; else over those of the condition."""
        tables = self.tables()
        if all(table in self.whole.listed and not self.whole.missing(tables[table], columns)
               for table, columns in reads.items()):
            return self.whole
        condition = pushed(statement.tree)
        if not condition:
            return self.whole
        found = self.parts.pop(condition, None) or Listing(self.catalog, condition)
        self.parts[condition] = found
        while len(self.parts) > MOST_CONDITIONS:
            self.parts.popitem(last=False)[1].close()
        return found

    def run(self, listing: Listing, statement: Statement, sql: str, asked: list[str]) -> Result:
        """Runs a statement over what is listed. Raises NeedsExact if a double isn't a sum of
        decimals that an expression has."""
        guard = listing.guard
        self.waiting.begin("SQLite computes")
        guard.denied, guard.read, guard.is_off = "", {}, False
        # an interrupt may have ended what reads bytes
        listing.database.text_factory = str
        try:
            with listing.watched():
                cursor = listing.database.execute(sql)
                rows = cursor.fetchall()
        except sqlite3.Error as error:
            guard.is_off = True
            if is_of_system(error):
                raise failure_of(error) from None
            raise Refused(self.failure(listing, statement, str(error))) from None
        finally:
            guard.is_off = True
        names = [each[0] for each in cursor.description]
        outputs = statement.outputs
        if len(outputs) != len(names):
            # integers that stand for decimals must not be taken for numbers
            raise Failed(f"SQLite returned {len(names)} columns, expected {len(outputs)}")
        exact = [place for place, each in enumerate(outputs) if is_exact(each) or each.is_total
                 and each.kind and any(isinstance(row[place], bytes) for row in rows)]
        return Result([each.heading for each in outputs], [each.kind for each in outputs],
                      ValueRows(rows, exact), 2, asked)

    def failure(self, listing: Listing, statement: Statement, message: str) -> str:
        """Returns what to print for SQLite's message, while it ran a statement."""
        if message == "integer overflow":
            return "integer overflow: a SUM or abs() is outside the range of 64 bits"
        return listing.guard.denied or told(statement.tree, message)


def text_of(statement: Statement) -> str:
    """Returns a statement's text for SQLite, with exact sums."""
    return Renderer(statement.written, whole_sums(statement.tree)).text(statement.tree)

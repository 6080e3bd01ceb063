"""Connections and cursors, after PEP 249, with its errors and types."""
from __future__ import annotations

import builtins
import functools
import os
import sqlite3
from typing import TYPE_CHECKING, Any, Callable, Optional, Sequence, Tuple, TypeVar, cast

from ._database import Database, Settings
from ._errors import Refused, failure_of, is_failure
from ._result import Position, Result, ResultColumn, Values
from ._sql.plan import Parameters
from ._storage.catalog import name_of, open_catalog

if TYPE_CHECKING:
    import datetime

    import numpy
    import pandas

# the SQLite of Debian 11
OLDEST = (3, 34, 0)
Method = TypeVar("Method", bound=Callable[..., Any])
# the name of a column, the code of its type, and five values that aren't known
Described = Tuple[str, Optional[str], None, None, None, None, None]


class Warning(builtins.Exception):
    """A warning; none is raised yet."""


class Error(builtins.Exception):
    """What is wrong with a statement, a table or an answer."""


class InterfaceError(Error):
    """A use of the module that it doesn't have."""


class DatabaseError(Error):
    """What is wrong with a table or a statement."""


class DataError(DatabaseError):
    """A value that can't be computed with."""


class OperationalError(DatabaseError):
    """A file that can't be read or changed, a bw that ended, or refused memory: nothing is wrong
    with the statement."""


class IntegrityError(DatabaseError):
    """Tables are read only: none is raised."""


class InternalError(DatabaseError):
    """SQLite's database in memory is at fault: none is raised."""


class ProgrammingError(DatabaseError):
    """A statement that is rejected, and why, or a closed connection or cursor."""


class NotSupportedError(DatabaseError):
    """What read-only tables don't have."""


def translated(call: Callable[[], Any]) -> Any:
    """Returns what a function returns. Turns what the package raises into errors of PEP 249 with
    the same sentence."""
    try:
        return call()
    except Refused as refused:
        raise ProgrammingError(str(refused)) from None
    except Exception as error:
        if not is_failure(error):
            raise
        failed = failure_of(error)
        raise OperationalError(str(failed) or failed.told.strip()) from None


def alone(method: Method) -> Method:
    """Makes a method of a connection or a cursor one that runs alone: one call at a time, in the
    process that opened the connection."""
    @functools.wraps(method)
    def call(self: Any, *words: Any, **named: Any) -> Any:
        def run() -> Any:
            return method(self, *words, **named)

        database: Database = self._database
        return translated(lambda: database.alone(run))

    return cast(Method, call)


class Type:
    """Equals the codes of some types of columns."""

    def __init__(self, *codes: str) -> None:
        self.codes = frozenset(codes)

    def __eq__(self, other: object) -> bool:
        return other in self.codes if isinstance(other, str) else self is other

    def __hash__(self) -> int:
        return hash(self.codes)


STRING = Type("texts", "text")
BINARY = Type("blob")
NUMBER = Type("whole", "decimals", "floats", "ranked", "truths", "integer", "real")
DATETIME = Type("dates", "times", "clocks")
# rows have no numbers
ROWID = Type()
CODES = {int: "integer", float: "real", str: "text", bytes: "blob"}
Binary = bytes


def Date(year: int, month: int, day: int) -> datetime.date:
    """Returns a date."""
    import datetime
    return datetime.date(year, month, day)


def Time(hour: int, minute: int, second: int) -> datetime.time:
    """Returns a time of day."""
    import datetime
    return datetime.time(hour, minute, second)


def Timestamp(year: int, month: int, day: int, hour: int, minute: int, second: int
              ) -> datetime.datetime:
    """Returns a time."""
    import datetime
    return datetime.datetime(year, month, day, hour, minute, second)


def DateFromTicks(ticks: float) -> datetime.date:
    """Returns the date of a number of seconds since 1970."""
    import datetime
    return datetime.date.fromtimestamp(ticks)


def TimeFromTicks(ticks: float) -> datetime.time:
    """Returns the time of day of a number of seconds since 1970."""
    return TimestampFromTicks(ticks).time()


def TimestampFromTicks(ticks: float) -> datetime.datetime:
    """Returns the time of a number of seconds since 1970."""
    import datetime
    return datetime.datetime.fromtimestamp(ticks)


class Connection:
    """A connection to some tables, which are read only. It answers all statements from the files
    that it opened, also if they are replaced meanwhile; if one of them changes, all later calls
    fail. Any thread of the process that opened it may use it, one at a time."""

    Warning = Warning
    Error = Error
    InterfaceError = InterfaceError
    DatabaseError = DatabaseError
    DataError = DataError
    OperationalError = OperationalError
    IntegrityError = IntegrityError
    InternalError = InternalError
    ProgrammingError = ProgrammingError
    NotSupportedError = NotSupportedError

    def __init__(self, database: Database) -> None:
        self._database, self._is_closed = database, False

    def __enter__(self) -> Connection:
        return self

    def __exit__(self, *_: Any) -> None:
        # a fork leaves what belongs to its parent
        if not self._is_closed and self._database.process == os.getpid():
            self.close()

    def _refuse_closed(self) -> None:
        if self._is_closed:
            raise ProgrammingError("the connection is closed")

    @alone
    def cursor(self) -> Cursor:
        """Returns a cursor, which doesn't disturb others."""
        self._refuse_closed()
        return Cursor(self)

    def execute(self, sql: str, parameters: Parameters = ()) -> Cursor:
        """Returns a cursor that has run a statement."""
        return self.cursor().execute(sql, parameters)

    @alone
    def commit(self) -> None:
        """Does nothing: tables are read only."""
        self._refuse_closed()

    @alone
    def rollback(self) -> None:
        """Does nothing: tables are read only."""
        self._refuse_closed()

    @alone
    def close(self) -> None:
        """Ends the sessions, and closes the files. Any later use fails, and so does closing it
        again."""
        self._refuse_closed()
        self._is_closed = True
        self._database.close()


class Cursor:
    """Runs statements, and returns their rows. `execute` reads the whole result; values become
    Python's objects when they are fetched. `answer` is the result: `answer.way` is 1 if statements
    of bw found it, 2 if SQLite did, and `answer.asked` has the statements that bw ran."""

    def __init__(self, connection: Connection) -> None:
        self.connection, self.arraysize = connection, 1
        self._database = connection._database
        self.answer: Result | None = None
        self._is_closed = False
        self._start()

    def _start(self) -> None:
        """Begins with the first row: nothing was read, and no row that was read is left. Both
        change at once, so that an interrupt loses no row."""
        self._state: tuple[Position, Sequence[tuple[Any, ...]], int] = ((0, 0), (), 0)

    def __enter__(self) -> Cursor:
        return self

    def __exit__(self, *_: Any) -> None:
        if self._database.process == os.getpid():
            self.close()

    @alone
    def close(self) -> None:
        """Forgets the result. Any later use fails."""
        self._is_closed, self.answer = True, None
        self._start()

    def _refuse_closed(self) -> None:
        self.connection._refuse_closed()
        if self._is_closed:
            raise ProgrammingError("the cursor is closed")

    def _answered(self) -> Result:
        """Returns the result of the last statement."""
        self._refuse_closed()
        if self.answer is None:
            raise ProgrammingError("no statement was run")
        return self.answer

    @property
    @alone
    def description(self) -> Optional[Sequence[Described]]:
        """The columns of the result, or None before the first statement. The type of a column
        equals one of STRING, NUMBER and DATETIME, or is None if it has only nulls."""
        if self.answer is None:
            return None
        kinds, codes = self.answer.kinds, list[Optional[str]]()
        blocks = iter(self.answer.blocks()) if None in kinds else iter(())
        first = next(blocks, None)
        for place, kind in enumerate(kinds):
            code = None if kind is None or kind.name == "nulls" else kind.name
            if kind is None and first:
                code = code_of(first[place])
                for block in self.answer.blocks() if code is None else ():
                    code = code or code_of(block[place])
            codes.append(code)
        return [(heading, code, None, None, None, None, None)
                for heading, code in zip(self.answer.headings, codes)]

    @property
    @alone
    def rowcount(self) -> int:
        """The number of the result's rows, or -1 before the first statement."""
        return -1 if self.answer is None else self.answer.count()

    @alone
    def execute(self, sql: str, parameters: Parameters = ()) -> Cursor:
        """Runs a statement. Its parameters are a sequence of values for `?` and `?1`, or a mapping
        of names for `:name`, `@name` and `$name`. Returns the cursor."""
        self._refuse_closed()
        self.answer = None
        self._start()
        self.answer = self._database.answer(sql, parameters)
        return self

    def executemany(self, sql: str, seq_of_parameters: Sequence[Parameters]) -> Cursor:
        """Fails: it is for statements that change tables."""
        raise NotSupportedError("tables are read only: use execute")

    def _next(self) -> bool:
        """Reads more rows, if none are left. Returns whether there are any."""
        position, rows, at = self._state
        while at >= len(rows):
            found = self._answered().block(position)
            if found is None:
                return False
            block, position = found
            rows, at = self._database.compared(lambda: objects_of(block)), 0
            self._state = position, rows, at
        return True

    @alone
    def fetchone(self) -> tuple[Any, ...] | None:
        """Returns the next row, or None after the last one."""
        self._answered()
        if not self._next():
            return None
        position, rows, at = self._state
        self._state = position, rows, at + 1
        return rows[at]

    @alone
    def fetchmany(self, size: int | None = None) -> list[tuple[Any, ...]]:
        """Returns the next rows: `size` of them, or `arraysize`, or those that are left, as all
        are if the number is negative."""
        return self._fetch(self.arraysize if size is None else size)

    @alone
    def fetchall(self) -> list[tuple[Any, ...]]:
        """Returns the rows that are left."""
        return self._fetch(-1)

    def _fetch(self, size: int) -> list[tuple[Any, ...]]:
        """Returns so many rows, or all if the number is negative. If it is interrupted, these rows
        are those that are fetched next."""
        self._answered()
        before, found = self._state, list[Tuple[Any, ...]]()
        try:
            while (size < 0 or len(found) < size) and self._next():
                position, rows, at = self._state
                end = len(rows) if size < 0 else min(len(rows), at + size - len(found))
                found += rows[at:end]
                self._state = position, rows, end
            return found
        except BaseException:
            self._state = before
            raise

    def __iter__(self) -> Cursor:
        return self

    def __next__(self) -> tuple[Any, ...]:
        row = self.fetchone()
        if row is None:
            raise StopIteration
        return row

    def setinputsizes(self, sizes: Sequence[Any]) -> None:
        """Does nothing."""

    def setoutputsize(self, size: int, column: int | None = None) -> None:
        """Does nothing."""

    @alone
    def df(self, decimals: bool = False) -> pandas.DataFrame:
        """Returns the whole result as a data frame of pandas: whole numbers are Int64, true and
        false boolean, texts Categorical, dates and times datetime64, times of day timedelta64, and
        floats and decimals float64; with `decimals` the latter are decimal.Decimal."""
        from ._dataframes import frame_of
        answer = self._answered()

        def made() -> Any:
            return frame_of(answer, decimals)

        return self._database.compared(made)

    @alone
    def columns(self) -> dict[str, numpy.ma.MaskedArray[Any, Any]]:
        """Returns the columns of the whole result as masked arrays of numpy, by their headings."""
        from ._dataframes import arrays_of
        answer = self._answered()
        return self._database.compared(lambda: arrays_of(answer))


def objects_of(block: Sequence[ResultColumn]) -> list[tuple[Any, ...]]:
    """Returns the rows of some columns, as Python's objects."""
    return list(zip(*(column.objects() for column in block)))


def code_of(column: Any) -> str | None:
    """Returns the code of the first value that isn't null, or None."""
    values = column.items if isinstance(column, Values) else ()
    return next((CODES[type(value)] for value in values if value is not None), None)


def connect(*paths: str | os.PathLike[str], scheduler: str | None = None, list_all: bool = False,
            **named: str | os.PathLike[str]) -> Connection:
    """Opens tables that bw-import wrote, or folders of shards that bw-shards load wrote. A table
    has the name of its file or folder, or the one of its keyword: connect("trips.bw",
    places="stations.bw"). With `scheduler`, the address of Dask's, shards are asked on its
    workers. A statement that SQLite answers over more than 4 million rows needs `list_all`."""
    if sqlite3.sqlite_version_info < OLDEST:
        raise NotSupportedError("SQLite 3.34 or later is needed, and this Python has "
                                f"{sqlite3.sqlite_version}")
    given = [*((name_of(path), os.fspath(path)) for path in paths),
             *((name, os.fspath(path)) for name, path in named.items())]
    settings = Settings(scheduler=scheduler, list_all=list_all)
    database: Database = translated(lambda: Database(open_catalog(given, scheduler is None),
                                                     settings))
    return Connection(database)


for shown in (Warning, Error, InterfaceError, DatabaseError, DataError, OperationalError,
              IntegrityError, InternalError, ProgrammingError, NotSupportedError, Connection,
              Cursor):
    # as they are imported
    shown.__module__ = "bwtools"

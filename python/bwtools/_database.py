"""Has statements answered over the tables of a catalog: by statements of bw, or by SQLite over
columns that bw lists."""
from __future__ import annotations

import functools
import os
from typing import TYPE_CHECKING, Any, Callable, Sequence, TypeVar

from ._engine.executor import Asker, Engine, Local
from ._errors import Failed, Refused
from ._progress import Waiting
from ._result import Result
from ._sql import plan
from ._sql.plan import Parameters, Statement
from ._storage.catalog import Catalog, Table
from ._storage.columns_file import ATTEMPTS
from ._types.base import Column

if TYPE_CHECKING:
    from ._sql.by_sqlite import BySqlite

T = TypeVar("T")


def nothing(told: str) -> None:
    """Drops what bw prints beside an answer."""


class Settings:
    """How a connection asks: the scheduler of a cluster, or None for sessions on this machine; bw's
    options; what gets that which bw prints beside its answers; whether SQLite may get any number of
    rows; and what shows what an answer waits for."""

    def __init__(self, scheduler: str | None = None, options: Sequence[str] = (),
                 tell: Callable[[str], None] = nothing, list_all: bool = False,
                 waiting: Waiting | None = None) -> None:
        self.scheduler, self.options, self.tell = scheduler, options, tell
        self.list_all, self.waiting = list_all, waiting or Waiting(False)


class Engines:
    """The engines of the tables that were asked, by the tables' names."""

    def __init__(self, settings: Settings) -> None:
        self.settings, self.found = settings, dict[str, Engine]()

    def of(self, table: Table) -> Engine:
        """Returns the engine that asks bw about a table, whose sessions begin when they are
        needed."""
        if table.name not in self.found:
            self.found[table.name] = Engine(self.asker(table))
        return self.found[table.name]

    def asker(self, table: Table) -> Asker:
        settings = self.settings
        if settings.scheduler is None:
            files = [part.file for part in table.parts if part.file]
            return Local(files, settings.options, settings.tell,
                         [part.path for part in table.parts])
        # it needs Dask
        from ._engine.cluster import Cluster, Scheduled
        files_there = [(os.path.abspath(part.path), part.record) for part in table.parts]
        return Scheduled(Cluster(settings.scheduler), files_there, table.parts[0].columns,
                         settings.options, settings.tell)

    def close(self) -> None:
        """Ends the sessions. Later ones are others'."""
        found, self.found = self.found, {}
        for engine in found.values():
            engine.close()


class Database:
    """Some tables, which are read only, and what answers statements over them, from the files that
    were opened, also if these are replaced meanwhile; if one of them changes, no answer is returned
    any more. One call at a time may use it, in the process that opened it. It is closed when it is
    dropped."""

    def __init__(self, catalog: Catalog, settings: Settings | None = None) -> None:
        self.catalog, self.settings = catalog, settings or Settings()
        self.engines = Engines(self.settings)
        # the calls that are under way: one, but for those that are refused
        self.process, self.calls = os.getpid(), dict[object, None]()

    def __enter__(self) -> Database:
        return self

    def __exit__(self, *_: Any) -> None:
        self.close()

    def __del__(self) -> None:
        if "engines" in vars(self):
            self.close()

    def alone(self, call: Callable[[], T]) -> T:
        """Returns what a function returns that no other one may interfere with. Raises Refused in
        another process than the one that opened the tables, such as a fork of it, and while another
        call is under way: two threads may both be refused, but never be served at once."""
        own = object()
        try:
            self.calls[own] = None
            if os.getpid() != self.process:
                raise Refused(f"process {self.process} opened this connection: open another one in "
                              f"process {os.getpid()}")
            if len(self.calls) > 1:
                raise Refused("another call is under way: one thread at a time may use a "
                              "connection")
            return call()
        finally:
            # at once, so that no interrupt leaves it
            self.calls.pop(own, None)

    def answer(self, sql: str, parameters: Parameters = ()) -> Result:
        """Returns the result of a statement. Raises Refused for a statement that is rejected, and
        Failed if bw fails, or if a file of the tables changed after it was opened."""
        self.refuse_changed()
        for _ in range(ATTEMPTS):
            try:
                return self.compared(lambda: self.found(sql, parameters))
            except Failed as failed:
                # bw also fails if an import moves a file away while it reads it
                if not failed.is_unread():
                    raise
        return self.compared(lambda: self.found(sql, parameters))

    def compared(self, call: Callable[[], T]) -> T:
        """Returns what a function returns that is made of the tables' files. Raises Failed if one
        of them changed after it was opened, which may be why the function failed."""
        try:
            found = call()
        except Exception:
            self.refuse_changed()
            raise
        self.refuse_changed()
        return found

    def found(self, sql: str, parameters: Parameters) -> Result:
        """Returns the result of a statement, of files that may have changed meanwhile."""
        try:
            statement = Statement(sql, self.catalog, parameters)
            for engine in self.engines.found.values():
                engine.asked.clear()
            return plan.answer(statement, self.engine, self.missing) or \
                self.by_sqlite.answer(statement)
        except RecursionError:
            raise Refused("the statement has too many expressions within one another for the calls "
                          "around it") from None

    def refuse_changed(self) -> None:
        """Raises Failed if a file of the tables changed after it was opened, and forgets what was
        read of it."""
        try:
            self.catalog.refuse_changed()
        except Failed:
            self.forget()
            raise

    def missing(self, table: Table, columns: Sequence[Column], rows: int) -> int | None:
        """Returns how many of a table's columns SQLite hasn't got yet, or None if it may not get so
        many rows."""
        from ._sql.by_sqlite import MOST_ROWS
        names = {column.name.lower() for column in columns}
        if "by_sqlite" in vars(self):
            listing = self.by_sqlite.whole
            if table.name in listing.listed and not listing.missing(table, names):
                return 0
        return None if rows > MOST_ROWS and not self.settings.list_all else len(names)

    def engine(self, table: Table) -> Engine:
        """Returns the engine that asks bw about a table."""
        return self.engines.of(table)

    @functools.cached_property
    def by_sqlite(self) -> BySqlite:
        """SQLite over listed columns, which most statements don't need. It has no reference to this
        object, which could not be dropped with one."""
        from ._sql.by_sqlite import BySqlite
        return BySqlite(self.catalog, self.engines.of, self.settings.list_all,
                        self.settings.waiting)

    def forget(self) -> None:
        """Ends the sessions, and drops what was listed."""
        if "by_sqlite" in vars(self):
            self.by_sqlite.close()
            del self.by_sqlite
        self.engines.close()

    def close(self) -> None:
        """Ends the sessions, and closes the files."""
        self.forget()
        self.catalog.close()

"""Asks bw about the rows of a table: by processes on this machine, or on the workers of a cluster.
What it returns is whole: a file of the table that can't be asked is an exception, and so is a
process that ends by itself."""
from __future__ import annotations

import functools
import io
import os
import re
from typing import (TYPE_CHECKING, Any, BinaryIO, Callable, Iterable, Iterator, Protocol, Sequence,
                    TypeVar, Union)

from .._errors import FILES, INPUT, MEMORY, Failed, Refused
from .process import AT_ONCE, Query, Session

if TYPE_CHECKING:
    from array import array

    from .._types.base import Column

COUNT = "COUNT(*)"
# the bytes of a statement that bw takes, without its end
MOST_BYTES = 65_530
# the totals of a statement, of which None is null
Totals = Sequence[Union[int, None]]
Tell = Callable[[str], None]
T = TypeVar("T")
# so many queries run at a time, of totals, and of rows, which are in memory
TOTALS_AT_ONCE, ROWS_AT_ONCE = 64, 4
# a result up to this many bytes is kept in memory, a longer one in a temporary file, and so many
# are read at a time
MOST_IN_MEMORY, BLOCK = 1 << 26, 1 << 18
# so many sessions are kept at most; if there are more files, or memory has no room for their
# tables, so many work at a time
MOST_SESSIONS, IN_TURN = 64, 4
# the statuses of errors of a session, by their first digits
STATUSES = {"3": INPUT, "8": MEMORY}


class Outside(Exception):
    """What bw doesn't answer by itself: it isn't in the grammar of statements of bw, or has no
    condition over numbers. So SQLite answers it over listed columns."""


def select(items: str, table: str, where: str) -> str:
    """Returns a statement of bw. Raises Outside if it is too long for it."""
    statement = f"SELECT {items} FROM {table}{f' WHERE {where}' if where else ''}"
    if len(statement) > MOST_BYTES:
        raise Outside
    return statement


def both(one: str, other: str) -> str:
    """Returns the conditions of both, of which either may be empty."""
    return f"({one}) AND ({other})" if one and other else one or other


def names_of(columns: Sequence[Column]) -> str:
    """Returns the names of columns, as a statement has them."""
    return ", ".join(column.name for column in columns)


class Part:
    """The rows of one file of a table as bw wrote them: a heading, and a line for each row, without
    the first ones if some were skipped. Each reader has a place of its own."""

    def __init__(self, data: bytes = b"", file: BinaryIO | None = None, skipped: int = 0) -> None:
        # a file is unnamed, and never moved in: only `os.pread` reads it
        self.data, self.file, self.skipped = data, file, skipped
        self.start = self.lines(0).find(b"\n") + 1

    def __del__(self) -> None:
        self.close()

    def lines(self, place: int) -> bytes:
        """Returns whole lines, many at a time, from a place on; nothing at the end."""
        size = BLOCK
        while True:
            found = self.data[place:place + size] if self.file is None else \
                os.pread(self.file.fileno(), size, place)
            end = found.rfind(b"\n") + 1
            if end or len(found) < size:
                return found[:end] if end else found
            # a line that is longer than what is read at once
            size *= 2

    def blocks(self) -> Iterator[bytes]:
        """Yields the lines after the heading, many at a time."""
        place = self.start
        while found := self.lines(place):
            place += len(found)
            yield found

    @functools.cached_property
    def count(self) -> int:
        """The number of rows."""
        return sum(block.count(b"\n") for block in self.blocks())

    def rows(self) -> bytes:
        """Returns all lines after the heading."""
        return self.data[self.start:] if self.file is None else b"".join(self.blocks())

    def close(self) -> None:
        """Forgets the rows."""
        self.data = b""
        if self.file is not None:
            self.file.close()


class Asker(Protocol):
    """Runs statements on each file of a table."""

    def once(self, statement: str) -> list[bytes]:
        """Returns the results of a statement of totals, after which no other is known to follow,
        for each file."""

    def totals(self, statements: Sequence[str]) -> list[list[bytes]]:
        """Returns the results of statements of totals, for each file."""

    def rows(self, statement: str) -> list[Part]:
        """Returns the results of a statement of rows, one for each file."""

    def beginnings(self, statement: str, rows: int, skipped: int) -> list[Part]:
        """Returns the results of a statement of rows, of which some after so many may be missing,
        for each file; of the first one so many rows may be skipped."""

    def close(self) -> None:
        """Ends what it has started."""


class Engine:
    """Runs statements on all rows of a table."""

    def __init__(self, asker: Asker) -> None:
        self.asker = asker
        # the statements that bw ran, in order, and the doubles that some listed, the last ones used
        # last
        self.asked: list[str] = []
        self.kept: dict[str, array[float]] = {}

    def once(self, statement: str) -> Totals:
        """Returns the totals of a statement over all files, as `totals` does, without a session for
        later ones."""
        self.asked.append(statement)
        return totals_of(self.asker.once(statement))

    def totals(self, statements: Sequence[str]) -> list[Totals]:
        """Returns the totals of each statement over all files. Raises Refused if bw rejects one,
        and Failed if a file can't be asked."""
        self.asked += statements
        parts = self.asker.totals(statements) if statements else []
        return [totals_of(results) for results in zip(*parts)]

    def rows(self, statement: str) -> list[Part]:
        """Returns the results of a statement of rows, in the files' order, as `totals` does."""
        self.asked.append(statement)
        return self.asker.rows(statement)

    def beginning(self, statement: str, rows: int, skipped: int = 0) -> list[Part]:
        """Returns the results of a statement of rows as `rows` does; those after so many of a file
        may be missing, and so many of the first file may be skipped. A file that can't be asked is
        an exception here, too."""
        self.asked.append(statement)
        return self.asker.beginnings(statement, rows, skipped)

    def close(self) -> None:
        """Ends the sessions. A later statement begins others."""
        self.asker.close()


def totals_of(results: Sequence[bytes]) -> Totals:
    """Returns the totals of all rows, from the results of a table's files."""
    lines = [result.split(b"\n") for result in results]
    heading = lines[0][0]
    functions = [item.partition("(")[0] for item in heading.decode().split(",")]
    fields = [each[1].decode().split(",") for each in lines if len(each) == 3 and not each[2]]
    if len(fields) != len(lines) or any(each[0] != heading for each in lines) or \
            any(len(each) != len(functions) for each in fields):
        raise Failed(f"bw returned no totals: {results!r}")
    values = [[None if field == "NULL" else int(field) for field in each] for each in fields]
    if len(values) == 1:
        return values[0]
    return [added(function, each) for function, each in zip(functions, zip(*values))]


def added(function: str, values: Iterable[int | None]) -> int | None:
    """Returns the total over all rows, from those of parts of them. None is null, the total of no
    value; a COUNT is never null."""
    present = [value for value in values if value is not None]
    if not present:
        return None
    totals: dict[str, Callable[[list[int]], int]] = {"COUNT": sum, "SUM": sum, "MIN": min,
                                                     "MAX": max}
    return totals[function](present)


class Local:
    """Runs statements on each of some open table files: by `bw query` a first statement of totals,
    which may be the only one, and one of which the first rows are read; all others in sessions,
    which stay open."""

    def __init__(self, files: Sequence[BinaryIO], options: Sequence[str], tell: Tell,
                 names: Sequence[str]) -> None:
        self.files, self.options, self.tell, self.names = files, options, tell, names
        self.is_asked = False

    @functools.cached_property
    def sessions(self) -> Sessions:
        """The sessions, which begin when they are needed."""
        self.is_asked = True
        return Sessions(self.files, self.options, self.tell, self.names)

    def once(self, statement: str) -> list[bytes]:
        if self.is_asked:
            return [result for result, in self.totals([statement])]
        self.is_asked = True
        found = self.queries(statement, self.options, TOTALS_AT_ONCE, Query.result)
        for _, told in found:
            self.tell(told)
        return [result for result, _ in found]

    def beginnings(self, statement: str, rows: int, skipped: int) -> list[Part]:
        if self.options:
            # what they print comes at the end
            return self.rows(statement)
        # of other files it isn't known yet how many
        skips = iter([skipped])
        found = self.queries(statement, (), ROWS_AT_ONCE,
                             lambda query: query.beginning(rows, next(skips, 0)))
        return [Part(data, None, count) for data, count in found]

    def queries(self, statement: str, options: Sequence[str], at_once: int,
                read: Callable[[Query], T]) -> list[T]:
        """Returns what a function returns for a query of each file, some of which run at a time."""
        found = list[T]()
        for first in range(0, len(self.files), at_once):
            running = list[Query]()
            try:
                for file in self.files[first:first + at_once]:
                    running.append(Query(file, statement, options))
                for query in running:
                    found.append(self.named(len(found), query, read))
            finally:
                for query in running:
                    query.close()
        return found

    def named(self, place: int, query: Query, read: Callable[[Query], T]) -> T:
        """Returns what a function returns for the query of a file. If bw fails, and there are other
        files, it is named."""
        try:
            return read(query)
        except Failed as failed:
            raise failed.of(self.names[place]) if len(self.files) > 1 else failed from None

    def totals(self, statements: Sequence[str]) -> list[list[bytes]]:
        return self.sessions.totals(statements)

    def rows(self, statement: str) -> list[Part]:
        return self.sessions.rows(statement)

    def close(self) -> None:
        # whoever asks again has sessions
        if "sessions" in vars(self):
            self.sessions.close()


class Sessions:
    """A session of bw for each of some open table files, begun when it is needed, and again if it
    has ended between two statements. They work side by side, and have the tables in memory, or the
    columns that statements named: if these are too many or too large for that, a few work at a
    time, and end after each call. If one fails, all are ended, so no result of theirs is taken for
    another one's."""

    def __init__(self, files: Sequence[BinaryIO], options: Sequence[str] = (),
                 tell: Tell = lambda told: None, names: Sequence[str] = ()) -> None:
        self.files, self.options, self.tell = files, options, tell
        self.names = names or [f"file {place}" for place in range(1, len(files) + 1)]
        self.sessions: list[Session] = []
        size = sum(os.fstat(file.fileno()).st_size for file in files)
        self.are_kept = len(files) == 1 or len(files) <= MOST_SESSIONS and size <= memory() // 2

    def totals(self, statements: Sequence[str]) -> list[list[bytes]]:
        def asked(session: Session) -> list[bytes]:
            results, told = session.totals(statements)
            if b"" in results:
                raise refusal(told)
            self.tell(told)
            return results

        return self.each(asked)

    def rows(self, statement: str) -> list[Part]:
        def asked(session: Session) -> Part:
            answer = session.result_of(statement)
            found = kept(answer) if answer else None
            told = session.told()
            if found is None:
                raise refusal(told)
            self.tell(told)
            return found

        return self.each(asked)

    def each(self, work: Callable[[Session], T]) -> list[T]:
        """Returns what a function returns for each session."""
        count, found = len(self.files), list[T]()
        at_once = count if self.are_kept else IN_TURN
        try:
            for first in range(0, count, at_once):
                found += self.some(range(first, min(first + at_once, count)), work)
            return found
        except Refused:
            # every session has answered
            raise
        except BaseException:
            self.close()
            raise

    def some(self, places: range, work: Callable[[Session], T]) -> list[T]:
        """Returns what a function returns for the sessions of the files of some places."""
        try:
            for at, place in enumerate(places):
                if at < len(self.sessions) and self.sessions[at].is_running() and \
                        not self.sessions[at].is_busy:
                    continue
                for session in self.sessions[at:at + 1]:
                    session.close()
                self.sessions[at:at + 1] = [Session(self.files[place], self.options)]

            def call(place: int, session: Session) -> Callable[[], T]:
                return lambda: self.named(place, session, work)

            return side_by_side(list(map(call, places, self.sessions)), self.kill)
        finally:
            if not self.are_kept:
                self.close()

    def named(self, place: int, session: Session, work: Callable[[Session], T]) -> T:
        """Returns what a function returns for a session. If it fails, and there are others, its
        file is named."""
        try:
            return work(session)
        except Failed as failed:
            if len(self.files) == 1:
                raise
            raise failed.of(self.names[place]) from None

    def kill(self) -> None:
        """Ends the processes of all sessions, whatever they do."""
        for session in self.sessions:
            session.kill()

    def close(self) -> None:
        # first, so that none is used again if this is interrupted, too
        sessions, self.sessions = self.sessions, []
        for session in sessions:
            session.kill()
        for session in sessions:
            session.close()


def memory() -> int:
    """Returns the bytes of the machine's memory."""
    try:
        return os.sysconf("SC_PHYS_PAGES") * os.sysconf("SC_PAGE_SIZE")
    except (ValueError, OSError):
        return 1 << 62


def refusal(told: str) -> Exception:
    """Returns what a statement without an answer raises: that bw rejected it, for a reason."""
    if told.startswith("bw: 4"):
        return Refused(told.rstrip("\n"))
    if told:
        # a column is damaged, or memory was refused, or the file can't be read
        found = re.search("^bw: ([38])", told, re.MULTILINE)
        return Failed("", told, STATUSES[found[1]] if found else FILES)
    return Failed("bw session gave no answer and no reason")


def side_by_side(works: Sequence[Callable[[], T]], end: Callable[[], None]) -> list[T]:
    """Runs functions, each but the first in a thread of its own. Returns their results, or raises
    the exception of the first that failed, once all have ended. `end` has them end early, if this
    thread is interrupted."""
    results: dict[int, T] = {}
    errors: dict[int, Exception] = {}

    def do(place: int) -> None:
        try:
            results[place] = works[place]()
        except Exception as error:
            errors[place] = error

    if len(works) == 1:
        return [works[0]()]
    # one file needs none
    import threading
    threads = [threading.Thread(target=do, args=(place,), daemon=True)
               for place in range(1, len(works))]
    try:
        for thread in threads:
            thread.start()
        do(0)
        for thread in threads:
            thread.join()
    except BaseException:
        end()
        for thread in filter(threading.Thread.is_alive, threads):
            thread.join()
        raise
    if errors:
        raise errors[min(errors)]
    return [results[place] for place in range(len(works))]


def kept(answer: io.BufferedReader) -> Part:
    """Returns a result that was read to its end."""
    found = io.BytesIO()
    while part := answer.read(AT_ONCE):
        found.write(part)
        if found.tell() > MOST_IN_MEMORY:
            return kept_in_file(found, answer)
    return Part(found.getvalue())


def kept_in_file(begun: io.BytesIO, answer: io.BufferedReader) -> Part:
    """Returns a long result, of which some is in memory."""
    # it takes long to load, and few results are so long
    import tempfile
    file: Any = tempfile.TemporaryFile(buffering=0)
    try:
        data: Any = begun.getbuffer()
        while data:
            rest = memoryview(data)
            while rest:
                rest = rest[file.write(rest):]
            data = answer.read(AT_ONCE)
        return Part(b"", file)
    except BaseException:
        file.close()
        raise

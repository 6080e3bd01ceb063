"""Runs of bw over an open table file: `bw query` answers one statement, and reads the file while it
scans; `bw session` first has all of it in memory, and then answers many statements. Of a file by
columns, both have the columns in memory that their statements name.

They are started by posix_spawn: the module subprocess takes as long to import as bw's whole answer
to a small question. Each has a process group of its own, so that Ctrl-C at a terminal ends what
this process does, and no session that waits for the next statement."""
from __future__ import annotations

import contextlib
import io
import os
import re
import signal
from _weakref import proxy
from typing import Any, BinaryIO, Iterator, NoReturn, Sequence, Tuple

from .. import _errors
from .._errors import Failed, Refused

AT_ONCE = 1 << 16
# signals that Python ignores, and other programs don't
IGNORED = (signal.SIGPIPE, signal.SIGXFSZ)
# signals whose handlers may raise an exception
HELD = (signal.SIGINT, signal.SIGTERM, signal.SIGHUP)
# how many statements, and how many bytes of them and of their results, may be under way at once: no
# more than the least pipe has room for, so that neither side waits for the other
MOST_AHEAD, BYTES_AHEAD = 16, 1 << 12
RESULT = re.compile(rb"((?:[^\n]+\n)*)\n")
SURPLUS = "bw session returned more results than it was sent statements"


class Process:
    """A run of bw. It is ended by `close`, and when the object is dropped, also if a signal's
    exception ends what makes it."""

    number: int | None = None
    is_killed = False
    ends: Sequence[Any] = ()
    answer: io.BufferedReader | None = None

    def __init__(self, words: list[str], table: BinaryIO, inputs: int) -> None:
        """Starts bw. The table is its input of number 0, or of number 3 if `inputs` is 1: then its
        standard input is a pipe."""
        self.owner = os.getpid()
        # this process's ends of the pipes: standard input if it is one, output and error
        self.ends = made = list[Any]()
        try:
            with held_signals():
                self.start(words, table, inputs, made)
        except BaseException:
            self.close()
            raise

    def start(self, words: list[str], table: BinaryIO, inputs: int, made: list[Any]) -> None:
        """Starts bw, and adds this process's ends of the pipes."""
        theirs, sources = list[int](), [table.fileno()]
        reap()
        try:
            for is_input in (*[True] * inputs, False, False):
                reading, writing = os.pipe()
                own, other = (writing, reading) if is_input else (reading, writing)
                theirs.append(other)
                made.append(open(own, "wb" if is_input else "rb", buffering=0))
            sources = [*theirs, *sources] if inputs else [*sources, *theirs]
            if min(sources) < len(sources):
                # a number that one of theirs gets: as if this process had no standard input
                sources = list(map(higher, sources))
                theirs += sources
            actions = [(os.POSIX_SPAWN_DUP2, source, place)
                       for place, source in enumerate(sources)]
            self.number = os.posix_spawnp(words[0], words, os.environ, file_actions=actions,
                                          setpgroup=0, setsigdef=IGNORED, setsigmask=())
        finally:
            for end in theirs:
                os.close(end)

    def __del__(self) -> None:
        # quickly: what a signal's handler raises here is lost
        if self.number is not None:
            self.kill()
            left.append((self.number, self.owner))
        for end in self.ends:
            end.close()

    def is_running(self) -> bool:
        """Returns whether it hasn't ended."""
        if self.number is not None:
            try:
                has_ended = os.waitpid(self.number, os.WNOHANG)[0] != 0
            except ChildProcessError:
                has_ended = True
            self.number = None if has_ended else self.number
        return self.number is not None and not self.is_killed

    def wait(self) -> int:
        """Waits for its end. Returns its status, or less than 0 if a signal ended it."""
        assert self.number is not None
        try:
            status = os.waitstatus_to_exitcode(os.waitpid(self.number, 0)[1])
        except ChildProcessError:
            self.number = None
            raise Failed("the status of bw is lost: this process ignores SIGCHLD") from None
        self.number = None
        return status

    def kill(self) -> None:
        """Ends it, whatever it does, without waiting. A fork of this process ends none."""
        self.is_killed = True
        if self.number is not None and self.owner == os.getpid():
            with contextlib.suppress(ProcessLookupError):
                os.kill(self.number, signal.SIGKILL)

    def close(self) -> None:
        """Ends it, if it runs."""
        self.kill()
        if self.number is not None and self.owner == os.getpid():
            with contextlib.suppress(ChildProcessError):
                os.waitpid(self.number, 0)
        self.number = None
        for end in self.ends:
            end.close()
        self.ends = ()


# the numbers of processes that were ended and not waited for, and of those that started them
left = list[Tuple[int, int]]()


def reap() -> None:
    """Waits for the processes that are left, if they have ended."""
    for each in left[:]:
        with contextlib.suppress(ChildProcessError):
            if each[1] == os.getpid() and not os.waitpid(each[0], os.WNOHANG)[0]:
                continue
        left.remove(each)


@contextlib.contextmanager
def held_signals() -> Iterator[None]:
    """Has handlers of signals wait until the end, so that no process is started and lost."""
    before = signal.pthread_sigmask(signal.SIG_BLOCK, HELD)
    try:
        yield
    finally:
        signal.pthread_sigmask(signal.SIG_SETMASK, before)


def higher(number: int) -> int:
    """Returns another number of an open file, above those of the standard streams."""
    import fcntl
    return fcntl.fcntl(number, fcntl.F_DUPFD_CLOEXEC, 10)


class Query(Process):
    """A run of `bw query`. It writes a result when it has all of it, and nothing if it fails. Its
    output must be read, or it must be ended."""

    def __init__(self, table: BinaryIO, statement: str, options: Sequence[str] = ()) -> None:
        # bw reads the file that was compared, even if its path has another one by now
        super().__init__([_errors.program(), "query", *options, "/dev/fd/0", statement], table, 0)

    def result(self) -> tuple[bytes, str]:
        """Waits for its end. Returns its result, and what it printed on standard error, which is
        short. Raises Refused if bw rejects the statement, and Failed if bw fails."""
        result: bytes = self.ends[0].readall()
        return result, self.ended()

    def beginning(self, rows: int, skipped: int = 0) -> tuple[bytes, int]:
        """Returns its result's heading and first rows, up to so many, as `result` does, but for the
        first ones, which are skipped; and how many these are. If there are more rows, it is ended
        by `close`."""
        found, seen, part = list[bytes](), 0, self.ends[0].read(AT_ONCE)
        while part and b"\n" not in part:
            part = part + self.ends[0].read(AT_ONCE)
        end = part.find(b"\n") + 1
        found.append(part[:end])
        part = part[end:] or self.ends[0].read(AT_ONCE)
        while part and seen < rows:
            count = part.count(b"\n")
            start = after(part, skipped - seen) if seen < skipped <= seen + count else \
                len(part) * (seen < skipped)
            found.append(part[start:after(part, rows - seen) if seen + count >= rows else None])
            seen += count
            part = self.ends[0].read(AT_ONCE)
        if seen < rows:
            self.ended()
        if not end:
            raise Failed("bw query gave no answer and no reason")
        return b"".join(found), min(seen, skipped)

    def ended(self) -> str:
        """Waits for its end. Returns what it printed on standard error, and raises as `result`
        does."""
        told: bytes = self.ends[1].readall()
        status, lines = self.wait(), told.decode("utf-8", "replace")
        if status == 3 and lines.startswith("bw: 4"):
            raise Refused(lines.rstrip("\n"))
        if status < 0:
            raise Failed(f"bw query was ended by signal {-status}", lines, 128 - status)
        if status:
            raise Failed("" if lines else f"bw query ended with status {status}", lines, status)
        return lines


def after(lines: bytes, count: int) -> int:
    """Returns the place after so many lines."""
    end = 0
    for _ in range(count):
        end = lines.index(b"\n", end) + 1
    return end


class SessionOutput(io.RawIOBase):
    """The bytes of one result, up to the empty line that ends it. No result has an empty line in
    it."""

    def __init__(self, session: Session) -> None:
        super().__init__()
        # a session has its output: one that is dropped meanwhile must not be kept by it
        self.session, self.last, self.is_ended = proxy(session), b"\n", False

    def readable(self) -> bool:
        return True

    def readinto(self, buffer: Any) -> int:
        if self.is_ended:
            return 0
        count: int = self.session.stdout.readinto(buffer)
        if not count:
            self.session.fail()
        text = self.last + bytes(buffer[:count])
        end, self.last = text.find(b"\n\n"), text[-1:]
        self.is_ended = end >= 0
        # nothing follows the empty line until the next statement is sent
        if self.is_ended and end + 2 < len(text):
            raise Failed(SURPLUS)
        return count - self.is_ended


class Session(Process):
    """A run of `bw session`. It gets one statement at a time, and reads the next one only when its
    result is written, so that neither waits for the other. Standard error has a short line or two
    for each result. It is busy from when a statement is sent until its result was read to the end:
    if an exception ends that, its next result isn't the next statement's."""

    is_busy = False

    def __init__(self, table: BinaryIO, options: Sequence[str] = ()) -> None:
        super().__init__([_errors.program(), "session", *options, "/dev/fd/3"], table, 1)
        self.stdin: io.FileIO = self.ends[0]
        self.stdout: io.FileIO = self.ends[1]
        self.stderr: io.FileIO = self.ends[2]
        os.set_blocking(self.stderr.fileno(), False)
        self.has_refused = False

    def result_of(self, statement: str) -> io.BufferedReader | None:
        """Sends a statement. Returns its result, or None if it is rejected; standard error then has
        the reason."""
        self.told()
        self.is_busy = True
        self.send(sent_form(statement))
        answer = self.answer = io.BufferedReader(SessionOutput(self), AT_ONCE)
        if answer.peek(1):
            return answer
        self.has_refused = True
        return None

    def totals(self, statements: Sequence[str]) -> tuple[list[bytes], str]:
        """Sends statements whose results are totals, some of them ahead of the results of those
        before. Returns the results, and what was printed on standard error for them. That of a
        rejected statement is empty."""
        self.told()
        self.is_busy = True
        results, ahead = list[bytes](), list[int]()
        told, rest, sent = "", b"", 0
        while len(results) < len(statements):
            while sent < len(statements) and len(ahead) < MOST_AHEAD and (
                    not ahead or sum(ahead) + room_of(statements[sent]) <= BYTES_AHEAD):
                self.send(sent_form(statements[sent]))
                ahead.append(room_of(statements[sent]))
                sent += 1
            part = self.stdout.read(AT_ONCE)
            if not part:
                self.fail()
            found, rest = results_in(rest + part)
            results += found
            del ahead[:len(found)]
            told += self.said()
        if rest or len(results) > len(statements):
            raise Failed(SURPLUS)
        self.has_refused |= b"" in results
        self.is_busy = False
        return results, told

    def send(self, data: bytes) -> None:
        """Sends bytes, unless the session has ended, which reading its result will show."""
        rest = memoryview(data)
        try:
            while rest:
                rest = rest[self.stdin.write(rest):]
        except BrokenPipeError:
            pass

    def told(self) -> str:
        """Returns what was printed on standard error for the last result, once. Drops the rest of
        the result."""
        if not self.answer:
            return ""
        while self.answer.read(AT_ONCE):
            pass
        found = self.said()
        self.answer, self.is_busy = None, False
        return found

    def said(self) -> str:
        """Returns what is on standard error by now. All that belongs to a result is printed before
        its end."""
        said = b""
        while part := self.stderr.read(AT_ONCE):
            said += part
        return said.decode("utf-8", "replace")

    def close(self) -> None:
        self.answer = None
        super().close()

    def end(self) -> int:
        """Ends the session. Returns its status: 0, or that of the first statement that was
        rejected."""
        self.told()
        self.stdin.close()
        if self.stdout.readall():
            raise Failed(SURPLUS)
        status = self.wait()
        if status < 0 or status and not self.has_refused:
            self.raise_failure(status)
        return status

    def fail(self) -> NoReturn:
        """Raises what a session printed that has ended by itself."""
        self.stdin.close()
        self.raise_failure(self.wait())

    def raise_failure(self, status: int) -> NoReturn:
        told = self.said()
        if status < 0:
            raise Failed(f"bw session was ended by signal {-status}", told, 128 - status)
        raise Failed("" if told and status
                     else f"bw session ended with status {status} before a result", told, status
                     or 5)


def room_of(statement: str) -> int:
    """Returns a bound of the bytes that a statement of totals and its result take, whose heading is
    a part of the statement: a total has at most 28 characters."""
    return 2 * len(statement) + 32 * (statement.count(",") + 1)


def results_in(data: bytes) -> tuple[list[bytes], bytes]:
    """Returns the results in these bytes that are complete, and the rest. A result ends with an
    empty line; that of a rejected statement is this line alone."""
    results, start = list[bytes](), 0
    while found := RESULT.match(data, start):
        results.append(found[1])
        start = found.end()
    return results, data[start:]


def sent_form(statement: str) -> bytes:
    """Returns a statement as it is sent."""
    return f"{one_statement(statement)}\n\n".encode()


def one_statement(statement: str) -> str:
    """Returns a statement in the session's form, which ends at its first semicolon and at an empty
    line. If these occur before the end, as in a text that bw rejects anyway, they become a
    character that bw rejects everywhere."""
    return re.sub("[;\r\n]", "?", statement.removesuffix(";")) + ";"

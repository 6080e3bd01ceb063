"""Asks statements, one after another, and prints their answers."""
from __future__ import annotations

import contextlib
import io
import os
import sys
import time
from typing import Callable, Iterable, Sequence, TextIO, cast

from .. import _errors
from .._database import Database, Settings
from .._errors import Refused, counted, failure_of, is_failure
from .._identifiers import is_name
from .._output import Writer, writer_of
from .._progress import Waiting
from .._result import Result
from .._storage.catalog import name_of, open_catalog
from .options import AnswerOptions

# so many characters of an answer are held until it is whole; a longer one is written as it comes
MOST_HELD = 1 << 20
WAYS = {1: "by statements of bw", 2: "by SQLite, over what bw listed"}


class Held:
    """What is written of an answer, held until the files that it is made of are compared: before it
    is written, and of a long one before each part is."""

    def __init__(self, out: TextIO, compare: Callable[[], None]) -> None:
        self.out, self.compare = out, compare
        self.parts, self.size = list[str](), 0

    def write(self, text: str) -> int:
        self.parts.append(text)
        self.size += len(text)
        if self.size > MOST_HELD:
            self.flush()
        return len(text)

    def flush(self) -> None:
        """Writes what is held. Raises Failed if a file changed, and then writes nothing."""
        self.compare()
        parts, self.parts, self.size = self.parts, [], 0
        self.out.write("".join(parts))


class Asking:
    """How answers are printed: in which format; whether numbers lose their signs; whether it is
    told which way served an answer; whether a table is followed by the time that it took; and to
    which file the next one goes, if it doesn't go to standard output."""

    def __init__(self, database: Database, form: str, is_plain: bool = False,
                 is_told: bool = False, is_timed: bool = False) -> None:
        self.database, self.form = database, form
        self.is_plain, self.is_told, self.is_timed = is_plain, is_told, is_timed
        self.once = ""

    def ask(self, sql: str) -> None:
        """Runs a statement, and writes its answer. Raises Refused or Failed."""
        begun, path, self.once = time.monotonic(), self.once, ""
        waiting = self.database.settings.waiting
        with waiting.shown("bw answers"):
            result = self.database.answer(sql)
        if self.is_told:
            tell_way(result)
        if self.is_plain:
            result.drop_styles()
        if path:
            write_file(path, self.written, result)
            return
        width = width_of_terminal()
        # rows at a terminal show themselves that they come
        with contextlib.nullcontext() if width else waiting.shown("the answer is written"):
            count = self.written(result, sys.stdout, width)
        took = f", {time.monotonic() - begun:.2f} s" if self.is_timed else ""
        if self.form == "table" or took:
            where = sys.stdout if self.form == "table" else sys.stderr
            print(f"{counted(count, 'row')}{took}", file=where)
        sys.stdout.flush()

    def written(self, result: Result, out: TextIO, width: int | None) -> int:
        """Writes a result. Returns the number of rows."""
        held, write = Held(out, self.database.refuse_changed), writer_of(self.form)
        # a writer needs nothing else of a file
        count = self.database.compared(lambda: write(result, cast(TextIO, held), width))
        held.flush()
        return count

    def ask_all(self, lines: Iterable[str]) -> int:
        """Runs the statements in these lines. Each answer is followed by an empty line; one that is
        rejected has the empty line alone. Returns the status of the first one that failed."""
        first = 0
        # few questions come on standard input
        from .shell import statements_in
        for statement in statements_in(lines):
            status = self.status_of(statement)
            first = first or status
            sys.stdout.write("\n")
            sys.stdout.flush()
        return first

    def status_of(self, statement: str) -> int:
        """Runs a statement. Returns its status, and prints why it failed."""
        try:
            self.ask(statement)
            return 0
        except Refused as refused:
            print(f"{_errors.own_name()}: {refused}", file=sys.stderr)
            return 3
        except OSError:
            # the answer can't be written, nor the next one
            raise
        except Exception as error:
            if not is_failure(error):
                raise
            return failure_of(error).report()


def write_file(path: str, write: Writer, result: Result) -> None:
    """Writes a result to a file, all of it or nothing."""
    is_own = not os.path.lexists(path) or os.path.isfile(path) and not os.path.islink(path)
    # a device, or what a link names, stays at its place
    target = f"{path}.part" if is_own else path
    try:
        with open(target, "w", encoding="utf-8", newline="") as file:
            write(result, file, None)
        if is_own:
            os.replace(target, path)
    except BaseException as error:
        if is_own:
            with contextlib.suppress(OSError):
                os.unlink(target)
        if isinstance(error, OSError):
            # not by the name that nobody typed
            raise OSError(error.errno, error.strerror, path) from None
        raise


def width_of_terminal() -> int | None:
    """Returns the width of the terminal that standard output is, or None."""
    if not os.isatty(sys.stdout.fileno()):
        return None
    import shutil
    return shutil.get_terminal_size().columns


def tell_way(result: Result) -> None:
    """Prints which way served an answer, and the statements that bw ran."""
    print(f"{WAYS[result.way]}:", file=sys.stderr)
    for statement in result.asked:
        print(f"  {statement}", file=sys.stderr)


def table_of(word: str) -> tuple[str, str] | None:
    """Returns the name and the path of a table that a word names, or None."""
    name, sign, path = word.partition("=")
    if sign and is_name(name) and not os.path.lexists(word):
        return name, path
    return (name_of(word), word) if os.path.lexists(word) or looks_like_path(word) else None


def looks_like_path(word: str) -> bool:
    """Returns whether a word is rather a file that isn't there than a statement."""
    return bool(word) and not any(each.isspace() for each in word) and \
        (word.endswith(".bw") or os.sep in word)


def split(words: Sequence[str]) -> tuple[list[tuple[str, str]], str | None]:
    """Returns the tables that the words of the command line name, and the statement, if the last
    word is one."""
    statement = None if table_of(words[-1]) else words[-1]
    names = words if statement is None else words[:-1]
    if not names:
        raise Refused(f"there is no file {words[-1]}: expected a table that bw-import wrote")
    return [table_of(word) or (name_of(word), word) for word in names], statement


def tell(told: str) -> None:
    """Passes on what bw prints beside an answer."""
    if told:
        print(told.rstrip("\n"), file=sys.stderr)


def ask(given: AnswerOptions, tables: Iterable[tuple[str, str]], statement: str | None,
        scheduler: str | None = None) -> int:
    """Runs a statement, or those on standard input. Returns the status."""
    _errors.write_utf8()
    is_terminal = os.isatty(sys.stdout.fileno())
    form = given.form or ("table" if is_terminal else "csv")
    # bw's statistics come while it answers
    waiting, options = Waiting(not given.has_stats), ["--stats"] if given.has_stats else []
    settings = Settings(scheduler, options, tell, given.is_all, waiting)
    with Database(open_catalog(tables, scheduler is None), settings) as database:
        asking = Asking(database, form, given.is_plain, given.is_told,
                        is_terminal and form == "table")
        if statement is not None:
            asking.ask(statement)
            return 0
        if sys.stdin and os.isatty(sys.stdin.fileno()) and is_terminal:
            from .shell import Shell
            return Shell(asking).run()
        lines: Iterable[str] = io.TextIOWrapper(sys.stdin.buffer, encoding="utf-8", newline="",
                                                errors="surrogateescape") if sys.stdin else ()
        return asking.ask_all(lines)

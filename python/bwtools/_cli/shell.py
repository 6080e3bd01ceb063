"""Reads statements and commands at a terminal."""
from __future__ import annotations

import contextlib
import os
import pathlib
import sys
from typing import TYPE_CHECKING, Callable, Iterable, Iterator

from .. import _errors
from .._errors import Refused, counted, failure_of, is_failure
from .._identifiers import is_name
from .._output import FORMATS
from .._storage.catalog import Table

if TYPE_CHECKING:
    from .asking import Asking


# The statements in lines of text.

# what ends a text that begins with these characters
QUOTES = {"'": "'", '"': '"', "`": "`", "[": "]"}


class Splitter:
    """Splits lines into statements, each of which ends with a semicolon that isn't within a text or
    a comment. Empty ones are left out."""

    def __init__(self) -> None:
        self.parts, self.end, self.is_empty = list[str](), "", True

    @property
    def is_within(self) -> bool:
        """Whether a statement, or a comment, has begun and not ended."""
        return not self.is_empty or self.end != ""

    def feed(self, line: str) -> Iterator[str]:
        """Yields the statements that a line ends."""
        at = 0
        while at < len(line):
            size, self.end, is_blank = piece(line, at, self.end)
            part, at = line[at:at + size], at + size
            if part == ";" and not self.end:
                yield from self.rest()
            else:
                self.parts.append(part)
                self.is_empty = self.is_empty and is_blank

    def rest(self) -> Iterator[str]:
        """Yields the statement that has begun, if one has, and begins another."""
        found = "" if self.is_empty else "".join(self.parts).lstrip()
        self.parts, self.end, self.is_empty = [], "", True
        if found:
            yield found


def statements_in(lines: Iterable[str]) -> Iterator[str]:
    """Yields the statements in these lines, of which the last one may end with the last line."""
    splitter = Splitter()
    for line in lines:
        yield from splitter.feed(line)
    yield from splitter.rest()


def piece(line: str, at: int, end: str) -> tuple[int, str, bool]:
    """Returns the size of the next piece of a line, what ends the text or comment in which it
    leaves off, or nothing, and whether it is a blank or a part of a comment. `end` is what ends the
    one in which it begins."""
    if end:
        place = line.find(end, at)
        if place < 0:
            return len(line) - at, end, end == "*/"
        return place + len(end) - at, "", end == "*/"
    if line.startswith("--", at):
        return len(line) - at, "", True
    if line.startswith("/*", at):
        return 2, "*/", True
    character = line[at]
    return 1, QUOTES.get(character, ""), character.isspace()


PROMPT, MORE = "bw> ", "...> "
KEYWORDS = ("SELECT FROM WHERE GROUP BY HAVING ORDER LIMIT OFFSET DISTINCT COUNT SUM AVG MIN MAX "
            "AND OR NOT NULL IS IN BETWEEN LIKE AS JOIN ON WITH CASE WHEN THEN ELSE END DESC "
            "UNION").split()
HELP = """\
.tables            the tables, and how many rows they have
.schema [TABLE]    the columns of a table, and what they are
.format [FORMAT]   how answers are printed: {}
.once FILE         the next answer is written to a file
.read FILE         runs the statements and commands of a file
.timer on|off      whether the time of an answer is printed
.help              this list
.quit              ends (also Ctrl-D)
A statement ends with a semicolon or, at the prompt, with an empty line. Ctrl-C ends one that runs,
or drops the lines that were typed."""
HISTORY, MOST_LINES = ".bw-ask_history", 1000
# how deep files may read others
MOST_DEPTH = 10


class Shell:
    """A dialogue at a terminal."""

    def __init__(self, asking: Asking) -> None:
        self.asking = asking
        self.tables = list(asking.database.catalog.tables.values())
        self.is_ended, self.depth = False, 0
        self.commands: dict[str, Callable[[str], None]] = {
            ".tables": self.print_tables, ".schema": self.print_schema,
            ".format": self.set_format, ".once": self.set_once, ".read": self.read,
            ".timer": self.set_timer, ".help": self.print_help, ".quit": self.end,
            ".exit": self.end}

    def run(self) -> int:
        """Answers statements until the input or the user ends it. Returns 0."""
        with history(self.words()):
            print('Type .help for commands, and .quit to end.')
            splitter = Splitter()
            while not self.is_ended:
                try:
                    line = input(MORE if splitter.is_within else PROMPT)
                    self.answer(splitter, f"{line}\n")
                    if not line.strip() and not splitter.end:
                        self.ask(splitter.rest())
                except KeyboardInterrupt:
                    splitter = Splitter()
                    print("\ninterrupted", file=sys.stderr)
                except EOFError:
                    print()
                    break
        return 0

    def answer(self, splitter: Splitter, line: str) -> None:
        """Runs a command, or the statements that a line ends."""
        if not splitter.is_within and line.lstrip().startswith("."):
            self.command(line)
        else:
            self.ask(splitter.feed(line))

    def ask(self, statements: Iterable[str]) -> None:
        for statement in statements:
            with reported():
                self.asking.status_of(statement)

    def command(self, line: str) -> None:
        """Runs a command."""
        name, _, rest = line.strip().partition(" ")
        run = self.commands.get(name)
        if run:
            with reported():
                run(rest.strip())
        else:
            print(f"there is no command {name}: type .help for a list", file=sys.stderr)

    def print_tables(self, _: str) -> None:
        database = self.asking.database
        found = database.compared(lambda: [
            database.engine(table).totals([f"SELECT COUNT(*) FROM {table.bw_name}"])[0][0] or 0
            for table in self.tables])
        for table, rows in zip(self.tables, found):
            print(f"{table.name}  {counted(rows, 'row')}")

    def print_schema(self, name: str) -> None:
        found = self.asking.database.catalog.get(name) if name else None
        if name and not found:
            print(f"there is no table {name}", file=sys.stderr)
        for table in [found] if found else [] if name else self.tables:
            print("\n".join(described(table)))

    def set_format(self, name: str) -> None:
        if name in FORMATS:
            self.asking.form = name
        elif name:
            print(f"there is no format {name}: use {', '.join(FORMATS)}", file=sys.stderr)
        else:
            print(self.asking.form)

    def set_once(self, path: str) -> None:
        if path:
            self.asking.once = path
        else:
            print("use .once FILE", file=sys.stderr)

    def read(self, path: str) -> None:
        if not path or self.depth == MOST_DEPTH:
            print("use .read FILE" if not path else f"{path}: files read files more than "
                  f"{MOST_DEPTH} deep", file=sys.stderr)
            return
        self.depth += 1
        try:
            splitter = Splitter()
            with open(path, encoding="utf-8", newline="") as file:
                for line in file:
                    if not self.is_ended:
                        self.answer(splitter, line)
            self.ask(splitter.rest())
        finally:
            self.depth -= 1

    def set_timer(self, value: str) -> None:
        if value in ("on", "off"):
            self.asking.is_timed = value == "on"
        else:
            print("use .timer on or .timer off", file=sys.stderr)

    def print_help(self, _: str) -> None:
        print(HELP.format(", ".join(FORMATS)))

    def end(self, _: str) -> None:
        self.is_ended = True

    def words(self) -> list[str]:
        """Returns what may be completed."""
        names = {table.name for table in self.tables}
        for table in self.tables:
            for column in table.columns:
                names |= {column.name, *([column.heading] if is_name(column.heading) else [])}
        return sorted([*KEYWORDS, *names, *self.commands, *FORMATS], key=str.lower)


@contextlib.contextmanager
def reported() -> Iterator[None]:
    """Prints why a file can't be read or written, or a command can't be done."""
    try:
        yield
    except (Refused, UnicodeError) as refused:
        print(f"{_errors.own_name()}: {refused}", file=sys.stderr)
    except Exception as error:
        if not is_failure(error):
            raise
        failure_of(error).report()


def described(table: Table) -> Iterator[str]:
    """Yields the lines that describe a table."""
    yield table.name
    width = max(len(column.name) for column in table.columns)
    for column in table.columns:
        ends = f", {column.ends[0]} to {column.ends[1]}" if column.ends else ""
        heading = f" {column.heading!r}" if column.heading != column.name else ""
        yield f"  {column.name.ljust(width)}  {column.kind.plural}{ends}{heading}"


@contextlib.contextmanager
def history(words: list[str]) -> Iterator[None]:
    """Completes words, and keeps the lines that were typed, where Python has readline."""
    try:
        import readline
    except ImportError:
        yield
        return

    def complete(text: str, state: int) -> str | None:
        found = [word for word in words if word.lower().startswith(text.lower())]
        return found[state] if state < len(found) else None

    path = pathlib.Path(os.environ.get("BW_ASK_HISTORY") or pathlib.Path.home() / HISTORY)
    readline.set_completer(complete)
    readline.set_completer_delims(" \t\n,()=<>;*+-/")
    readline.parse_and_bind("tab: complete")
    with contextlib.suppress(OSError):
        readline.read_history_file(path)
    readline.set_history_length(MOST_LINES)
    try:
        yield
    finally:
        with contextlib.suppress(OSError):
            readline.write_history_file(path)

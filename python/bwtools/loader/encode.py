"""Has bw code the rows of a CSV file, parts of it side by side."""
from __future__ import annotations

import argparse
import bisect
import contextlib
import csv
import io
import itertools
import os
import pathlib
import pickle
import re
import signal
import subprocess
import sys
import threading
from dataclasses import dataclass
from typing import (Any, Callable, Collection, Generic, Iterator, Optional, Protocol, Sequence,
                    TypeVar)

from .. import _errors
from .._csv.dialect import Signs
from .._csv.file import Positioned, Source
from .._csv.reader import reader_of
from .._errors import Refused
from .._identifiers import MOST_BYTES, MOST_ROWS
from .._progress import Waiting
from .._storage import catalog
from .dictionary import ByteFile, Dictionary, breaks_in, read_fields


# Runs the parts of one task side by side: in processes, or one of them in a thread.

MOST = 4
T = TypeVar("T")


def processors() -> int:
    """Returns how many processes can run side by side, up to MOST."""
    if not hasattr(os, "fork"):
        return 1
    allowed = getattr(os, "sched_getaffinity", None)
    return min(MOST, len(allowed(0)) if allowed else os.cpu_count() or 1)


class Child:
    """A process that runs one part, and sends its result, or the exception that ended it."""

    def __init__(self, act: Callable[[int], Any], part: int) -> None:
        reading, writing = os.pipe()
        self.process = os.fork()
        if self.process == 0:
            # nothing of this process may run past here: not the caller's `finally`, nor what Python
            # does at its end
            try:
                os.setpgid(0, 0)
                os.close(reading)
                for number in (signal.SIGINT, signal.SIGTERM, signal.SIGHUP):
                    signal.signal(number, signal.SIG_DFL)
                with open(writing, "wb") as out:
                    pickle.dump(outcome(act, part), out)
            finally:
                os._exit(0)
        # its group, so that the programs that it runs are ended with it
        with contextlib.suppress(OSError):
            os.setpgid(self.process, self.process)
        os.close(writing)
        self.reading = open(reading, "rb")

    def result(self) -> Any:
        """Waits for the result of the part. Raises what its process raised, or OSError if that
        ended without a result."""
        try:
            done, found = pickle.load(self.reading)
        except (EOFError, pickle.UnpicklingError):
            raise ChildProcessError(0, "a process that did a part of the work has ended") from None
        if not done:
            raise found
        return found

    def end(self) -> None:
        """Ends the process, if it still runs."""
        self.reading.close()
        with contextlib.suppress(ProcessLookupError):
            os.killpg(self.process, signal.SIGKILL)
        with contextlib.suppress(ChildProcessError):
            os.waitpid(self.process, 0)


class Aside(Generic[T]):
    """Runs a function in a thread, which is worth it while it computes a sum, or waits."""

    def __init__(self, act: Callable[[], T]) -> None:
        self.act = act
        self.told: tuple[bool, Any] = False, None
        self.thread = threading.Thread(target=self.run, daemon=True)
        self.thread.start()

    def run(self) -> None:
        self.told = outcome(lambda _: self.act(), 0)

    def result(self) -> T:
        """Waits for the result, or raises the exception of the function."""
        self.thread.join()
        done, found = self.told
        if not done:
            raise found
        result: T = found
        return result


def outcome(act: Callable[[int], Any], part: int) -> tuple[bool, Any]:
    """Returns whether a part was done, and its result, or else the exception."""
    try:
        return True, act(part)
    except Exception as error:
        return False, error


def do_parts(count: int, act: Callable[[int], T]) -> list[T]:
    """Runs `act(0)` here and the other parts in processes of their own. Returns the results in
    order, or raises the exception of the first part that failed. When it returns or raises, no
    process is left."""
    children: list[Child] = []
    try:
        for part in range(1, count):
            children.append(Child(act, part))
        return [act(0), *(child.result() for child in children)]
    finally:
        for child in children:
            child.end()


# The bytes of a CSV file as `bw encode` reads them: UTF-8, with marks of one byte. A plain file
# is read as it is; another one is decoded, or its records are written anew. `Index` finds where
# records begin, so that parts of a file can be read.

BYTES_AT_ONCE, CHARACTERS_AT_ONCE = 1 << 20, 1 << 18
# a place is noted after so many records
EVERY = 1 << 12
MARK = b"\xef\xbb\xbf"
# before each field of a column that gets codes, whatever its fields are
SIGN = "x"


class HasNumber(Protocol):
    """An open file."""

    def fileno(self) -> int: ...


class Feed:
    """Bytes for `bw encode`, and the options that name their marks. A file that is read as it is is
    `whole`. `breaks` counts the ends of lines of what was read, once all is; if records are written
    anew, `empty` counts those that were left out. `heading` is sent before the rest."""

    def __init__(self, words: Sequence[str] = (), whole: Optional[HasNumber] = None,
                 heading: bytes = b"") -> None:
        self.words, self.whole, self.heading = list(words), whole, heading
        self.breaks, self.empty, self.last = 0, 0, b"\n"

    def blocks(self) -> Iterator[bytes]:
        """Yields the bytes after the heading, many at a time."""
        raise NotImplementedError

    def counted(self) -> Iterator[bytes]:
        """Yields the bytes, and counts the ends of lines."""
        for block in self.blocks():
            self.breaks += breaks_in(block) - (self.last == b"\r" and block[:1] == b"\n")
            self.last = block[-1:]
            yield block
        if self.last not in (b"\n", b"\r"):
            # bw takes a comment that doesn't end for a record
            self.breaks += 1
            yield b"\n"

    def send(self, pipe: Optional[int]) -> None:
        """Sends all bytes to a pipe, unless bw reads the file itself or ends early."""
        if pipe is None:
            for _ in self.counted():
                pass
            return
        with contextlib.suppress(BrokenPipeError), open(pipe, "wb") as out:
            out.write(self.heading)
            for block in self.counted():
                out.write(block)


class FileFeed(Feed):
    """A part of a file of UTF-8, as it is."""

    def __init__(self, file: HasNumber, signs: Signs, start: int, end: int, heading: bytes) -> None:
        is_whole = not heading and not start and end == size_of(file) and not signs.comment
        whole = file if is_whole else None
        super().__init__(words_of(signs), whole, heading)
        self.file, self.signs, self.start, self.end = file, signs, start, end

    def blocks(self) -> Iterator[bytes]:
        at = self.start
        while at < self.end:
            block = os.pread(self.file.fileno(), min(BYTES_AT_ONCE, self.end - at), at)
            if not block:
                raise Refused("the file changed while it was read")
            yield block
            at += len(block)


class DecodedFeed(Feed):
    """A file of another encoding."""

    def __init__(self, source: Source, heading: bytes) -> None:
        super().__init__(words_of(source.text.signs), None, heading)
        self.source = source

    def blocks(self) -> Iterator[bytes]:
        text = self.source.text.decoded()
        try:
            while block := text.read(CHARACTERS_AT_ONCE):
                yield block.encode()
        except UnicodeDecodeError:
            self.source.text.undecoded()
        finally:
            text.detach()


class RecordFeed(Feed):
    """A file whose records are read here, and written anew with commas. Fields of some columns get
    a sign before them, so that they are no numbers."""

    def __init__(self, source: Source, marked: Collection[int], heading: bytes) -> None:
        super().__init__((), None, heading)
        self.source, self.marked = source, marked

    def blocks(self) -> Iterator[bytes]:
        out = io.StringIO(newline="")
        # both ends of lines are quoted only if both are in this one
        writer = csv.writer(out, lineterminator="\r\n")
        for record in self.source.rows():
            for place in self.marked:
                record[place] = SIGN + record[place]
            writer.writerow(record)
            if out.tell() > BYTES_AT_ONCE:
                yield out.getvalue().encode()
                out.seek(0)
                out.truncate()
        yield out.getvalue().encode()
        self.empty = self.source.counts.empty


def size_of(file: HasNumber) -> int:
    return os.fstat(file.fileno()).st_size


def words_of(signs: Signs) -> list[str]:
    """Returns the options that name the marks of a file."""
    named = (("--separator", signs.separator, ","), ("--quote", signs.quote, '"'),
             ("--comment", signs.comment, ""))
    return [f"{name}={sign}" for name, sign, default in named if sign != default]


def is_plain(signs: Signs) -> bool:
    """Returns whether `bw encode` reads records of these marks as they are read here."""
    marks = [signs.separator, signs.quote, *signs.comment]
    return signs.is_simple and len(signs.comment) <= 1 and all(map(str.isascii, marks)) and \
        len({*marks, "\n", "\r"}) == len(marks) + 2


def has_returns(source: Source) -> bool:
    """Returns whether carriage returns without a line feed are in a file. These end lines, but for
    bw no comments."""
    text, before = source.text.decoded(), ""
    try:
        while block := text.read(CHARACTERS_AT_ONCE):
            alone = block.count("\r") - block.count("\r\n") - block.endswith("\r")
            if alone or before == "\r" and block[0] != "\n":
                return True
            before = block[-1]
    except UnicodeDecodeError:
        source.text.undecoded()
    finally:
        text.detach()
    return before == "\r"


def start_of(source: Source) -> int:
    """Returns where the heading of a file of UTF-8 begins, after a byte order mark and lines that
    are skipped."""
    begin = os.pread(source.text.file.fileno(), len(MARK), 0)
    start = len(MARK) if begin == MARK else 0
    if source.text.skipped:
        skipped, source.text.skipped = source.text.skipped, 0
        text = source.text.decoded()
        start += sum(len(text.readline().encode()) for _ in range(skipped))
        text.detach()
        source.text.skipped = skipped
    return start


def heading_of(width: int, separator: str = ",", quote: str = '"') -> bytes:
    """Returns a heading for records without one, which no comment is like."""
    return (separator.join([quote * 2] * width) + "\n").encode()


def feed_of(source: Source, marked: Collection[int] = ()) -> Feed:
    """Returns the bytes of a file, of which some columns must have codes."""
    signs, width = source.text.signs, len(source.headings)
    if marked or not is_plain(signs) or signs.comment and has_returns(source):
        return RecordFeed(source, marked, heading_of(width))
    heading = b"" if source.has_heading else heading_of(width, signs.separator, signs.quote)
    if source.text.encoding not in ("utf-8-sig", "utf-8") or source.text.errors != "strict":
        return DecodedFeed(source, heading)
    file, start = source.text.file, start_of(source)
    if os.pread(file.fileno(), len(MARK), start) == MARK:
        # bw would leave it out, as if the file began there
        return RecordFeed(source, marked, heading_of(width))
    return FileFeed(file, signs, start, size_of(file), heading)


class Index:
    """The records of a file of UTF-8, from a place on: how many there are, and the places after
    some of them. Empty lines and comments are none. Raises csv.Error for what is no CSV."""

    def __init__(self, file: HasNumber, signs: Signs, start: int) -> None:
        self.file, self.signs = file, signs
        # numbers of records, and the place after the last of these
        self.numbers, self.places = [0], [start]
        if self.has(signs.quote) or signs.comment and self.has(signs.comment):
            self.read_records()
        else:
            self.count_lines()

    @property
    def count(self) -> int:
        return self.numbers[-1]

    def has(self, sign: str) -> bool:
        """Returns whether a sign occurs in the file."""
        sought, at = sign.encode(), 0
        while block := os.pread(self.file.fileno(), BYTES_AT_ONCE, at):
            if sought in block:
                return True
            at += len(block)
        return False

    def count_lines(self) -> None:
        """Notes places of a file each of whose records is a line."""
        at = self.places[0]
        while block := os.pread(self.file.fileno(), BYTES_AT_ONCE, at):
            end = block.rfind(b"\n") + 1
            while len(block) % BYTES_AT_ONCE == 0 and not end:
                more = os.pread(self.file.fileno(), BYTES_AT_ONCE, at + len(block))
                block += more
                end = block.rfind(b"\n") + 1 if more else len(block)
            # the last line may lack its end
            end = end if len(block) >= BYTES_AT_ONCE else len(block)
            lines = block[:end].splitlines()
            at += end
            self.note(len(lines) - lines.count(b""), at)

    def read_records(self) -> None:
        """Notes places of a file of any records."""
        lines = Lines(self.file, self.places[0])
        reader = reader_of(lines, self.signs)
        while True:
            before = reader.line_num
            count = sum(map(bool, itertools.islice(reader, EVERY)))
            if reader.line_num == before:
                break
            self.note(count, lines.at)

    def note(self, count: int, place: int) -> None:
        if count:
            self.numbers.append(self.count + count)
            self.places.append(place)
        else:
            self.places[-1] = place

    def place_after(self, number: int) -> int:
        """Returns the place after so many records."""
        known = bisect.bisect_right(self.numbers, number) - 1
        left, lines = number - self.numbers[known], Lines(self.file, self.places[known])
        records = filter(None, reader_of(lines, self.signs))
        for _ in itertools.islice(records, left):
            pass
        return lines.at


class Borrowed(Positioned):
    """An open file with a position of its own, which stays open."""

    def close(self) -> None:
        io.RawIOBase.close(self)


class Lines:
    """The lines of a file from a place on, in an encoding of one byte for each character. `at` is
    the place after those that were read."""

    def __init__(self, file: HasNumber, start: int) -> None:
        self.at, borrowed = start, Borrowed(file)
        borrowed.position = start
        self.text = io.TextIOWrapper(io.BufferedReader(borrowed), encoding="latin-1", newline="")

    def __iter__(self) -> Iterator[str]:
        for line in self.text:
            self.at += len(line)
            yield line


# Has bw code a CSV file: whole or, if it is too long for one table or shards are asked for, in
# parts, several side by side. Then it replaces codes by numbers.

# errors of bw that are the file's own: of too many rows and bytes, and all of them
TOO_MANY, TOO_LONG = 207, 208
OWN = (105, 201, 203, TOO_MANY, TOO_LONG, 209)
# a part has room for a heading
SPARE = 1 << 10
# from so many rows on, `auto` is one shard for each processor
MANY_ROWS = 1_000_000
# a load takes at most so many times the bytes of its numbers
MEMORY = 4


class Rejected(Exception):
    """A CSV file that `bw encode` rejects, by an error of this number."""

    def __init__(self, number: int, told: str) -> None:
        super().__init__(number, told)
        self.number, self.told = number, told

    def __str__(self) -> str:
        return self.told


@dataclass(frozen=True)
class Coded:
    """A table file of codes and numbers: how many rows it has, and the bounds of its columns."""
    path: pathlib.Path
    rows: int
    bounds: list[tuple[int, int]]

    def counts(self, places: Sequence[int]) -> list[int]:
        """Returns how many fields of some columns aren't null."""
        if not places or not self.rows:
            return [0] * len(places)
        items = ", ".join(f"COUNT(c{place + 1})" for place in places)
        told = output_of(["query", self.path, f"SELECT {items} FROM t"])
        return list(map(int, told.splitlines()[1].split(b",")))


def encode(feed: Feed, table: pathlib.Path, fields: pathlib.Path, fills: bool) -> Coded:
    """Codes a CSV file, whose short records are filled if that is asked for. Raises Rejected if it
    isn't one of records of one length."""
    reading, writing = (feed.whole.fileno(), None) if feed.whole else os.pipe()
    words = ["encode", *feed.words, *["--fill"] * fills, f"/dev/fd/{reading}", table, fields]
    with subprocess.Popen([_errors.program(), *map(str, words)], stdin=subprocess.DEVNULL,
                          stdout=subprocess.DEVNULL, stderr=subprocess.PIPE,
                          restore_signals=False, pass_fds=[reading]) as process:
        try:
            if writing is not None:
                os.close(reading)
            feed.send(writing)
            assert process.stderr is not None
            told = process.stderr.read().decode("utf-8", "replace")
        except BaseException:
            process.kill()
            raise
    found = re.match("bw: ([0-9]+) ", told)
    if process.returncode and found and int(found[1]) in OWN:
        raise Rejected(int(found[1]), told.strip())
    check("encode", process.returncode, told)
    return coded_at(table)


def coded_at(path: pathlib.Path) -> Coded:
    """Returns what the header of a table file says."""
    with open(path, "rb") as file:
        data, columns = catalog.header_of(file)
    return Coded(path, int.from_bytes(data[12:16], "little"),
                 [(least, greatest) for _, least, greatest, _ in columns])


def check(name: str, status: int, told: str) -> None:
    """Passes on what a command of bw told, and raises Ended if it failed."""
    sys.stderr.write(told)
    if status:
        if not told:
            print(f"bw {name} ended with status {status}", file=sys.stderr)
        raise _errors.Ended(status if status > 0 else 128 - status)


def output_of(words: Sequence[Any]) -> bytes:
    """Returns what a command of bw prints."""
    # a file past the system's limit is then an error of writing, and no signal
    done = subprocess.run([_errors.program(), *map(str, words)], stdin=subprocess.DEVNULL,
                          capture_output=True, restore_signals=False, check=False)
    check(str(words[0]), done.returncode, done.stderr.decode("utf-8", "replace"))
    return done.stdout


def recode(coded: Coded, schema: pathlib.Path, numbers: pathlib.Path, out: pathlib.Path,
           by_rows: bool) -> None:
    """Writes the table of a schema, whose numbers are in place of the codes, by columns or by
    rows."""
    order = [] if by_rows else ["--columnar"]
    output_of(["recode", *order, coded.path, schema, numbers, out])


class TooMuch(Exception):
    """More rows or bytes than a table may have."""


@dataclass
class CodedPart:
    """A part of a file as bw coded it: a table of codes and numbers, the dictionary of each column
    of codes, and how many fields of each column of numbers aren't null."""
    coded: Coded
    dictionaries: list[Optional[Dictionary]]
    counts: dict[int, int]


@dataclass
class CodedFile:
    """A file as bw coded it, in one or more parts; and how many empty lines and comments were left
    out."""
    parts: list[CodedPart]
    empty: int

    @property
    def rows(self) -> int:
        return sum(part.coded.rows for part in self.parts)


class Coder:
    """Has bw code a file, by way of files in a folder. Columns that are `marked` get codes,
    whatever their fields are."""

    def __init__(self, source: Source, given: argparse.Namespace, folder: pathlib.Path,
                 is_split: bool, marked: Collection[int]) -> None:
        self.source, self.given, self.folder = source, given, folder
        self.is_split, self.marked = is_split, marked

    def code(self) -> CodedFile:
        """Returns the file as bw coded it. Rejects one whose records aren't as they must be."""
        feed = feed_of(self.source, self.marked)
        try:
            if not self.is_split:
                with contextlib.suppress(TooMuch):
                    return self.whole(feed)
            return self.split(feed)
        except (Rejected, csv.Error) as rejected:
            self.source.refuse_odd()
            raise Refused(f"{self.source.path}: {rejected}") from None

    def whole(self, feed: Feed) -> CodedFile:
        with Waiting().shown("bw codes the rows"):
            part = self.part(self.encoded(feed, 0), 0)
        return CodedFile([part], self.empty_lines(feed, [part], feed.breaks))

    def encoded(self, feed: Feed, place: int) -> Coded:
        """Has bw code a part."""
        if feed.whole and size_of(feed.whole) > MOST_BYTES:
            raise TooMuch
        table, fields = self.folder / f"codes-{place}.bw", self.folder / f"fields-{place}"
        try:
            return encode(feed, table, fields, self.source.fills)
        except Rejected as rejected:
            if rejected.number in (TOO_MANY, TOO_LONG):
                raise TooMuch from None
            raise

    def part(self, coded: Coded, place: int) -> CodedPart:
        """Reads what bw wrote of a part."""
        dictionaries = read_fields(ByteFile(self.folder / f"fields-{place}"), self.marked)
        numbers = [place for place, each in enumerate(dictionaries) if each is None]
        return CodedPart(coded, dictionaries, dict(zip(numbers, coded.counts(numbers))))

    def empty_lines(self, feed: Feed, parts: Sequence[CodedPart], breaks: int) -> int:
        """Returns how many empty lines and comments there are among the lines that were read."""
        if not isinstance(feed, (FileFeed, DecodedFeed)):
            return self.source.counts.empty
        left = breaks - sum(part.coded.rows for part in parts) - self.source.has_heading
        if left:
            left -= sum(each.count_breaks() for part in parts for each in part.dictionaries if each)
        if left and self.source.has_heading:
            left -= sum(breaks_in(each.encode()) for each in self.source.headings)
        return left

    def split(self, feed: Feed) -> CodedFile:
        """Codes a file in parts."""
        plain, has_heading = feed, self.source.has_heading
        if not isinstance(feed, FileFeed):
            plain, has_heading = self.copied(feed)
        assert isinstance(plain, FileFeed)
        feeds = self.feeds(plain, has_heading)
        count = processes_for(len(feeds), plain.end - plain.start)

        def code_some(process: int) -> list[tuple[Coded, int]]:
            return [(self.encoded(feeds[place], place), feeds[place].breaks)
                    for place in range(process, len(feeds), count)]

        found = do_parts(count, code_some)
        each = [found[place % count][place // count] for place in range(len(feeds))]
        parts = [self.part(coded, place) for place, (coded, _) in enumerate(each)]
        return CodedFile(parts, self.empty_lines(feed, parts, sum(breaks for _, breaks in each)))

    def copied(self, feed: Feed) -> tuple[FileFeed, bool]:
        """Returns a copy of a file in UTF-8, and whether it begins with the heading."""
        path = self.folder / "plain.csv"
        feed.send(os.open(path, os.O_WRONLY | os.O_CREAT, 0o600))
        file, is_decoded = ByteFile(path), isinstance(feed, DecodedFeed)
        path.unlink()
        signs = self.source.text.signs if is_decoded else Signs()
        return FileFeed(file, signs, len(feed.heading), size_of(file), feed.heading), \
            is_decoded and self.source.has_heading

    def feeds(self, plain: FileFeed, has_heading: bool) -> list[Feed]:
        """Returns the parts of a file that become a table each."""
        index = Index(plain.file, plain.signs, plain.start)
        rows = rows_a_shard(index.count - has_heading, getattr(self.given, "shards", None),
                                     getattr(self.given, "rows", None))
        while True:
            numbers = range(rows + has_heading, index.count, rows)
            ends = [plain.start, *map(index.place_after, numbers), plain.end]
            longest = max(end - start for start, end in zip(ends, ends[1:]))
            if longest <= MOST_BYTES - SPARE or rows == 1:
                break
            rows = max(1, rows * (MOST_BYTES - SPARE) // longest * 15 // 16)
        signs = plain.signs
        heading = heading_of(len(self.source.headings), signs.separator, signs.quote)
        return [FileFeed(plain.file, signs, start, end,
                         b"" if has_heading and start == plain.start else heading)
                for start, end in zip(ends, ends[1:])]


def rows_a_shard(rows: int, wanted: str | None, most_rows: int | None) -> int:
    """Returns how many of all rows a shard has, for a wanted number of shards, or the most rows of
    one."""
    least = 1
    if most_rows is not None:
        return most_rows
    if wanted in (None, "auto"):
        least = processors() if rows >= MANY_ROWS else 1
    elif wanted is not None:
        least = int(wanted)
    return max(1, min(MOST_ROWS, -(-rows // least)))


def processes_for(count: int, size: int) -> int:
    """Returns how many processes load so many shards of so many bytes side by side: as many as
    there are processors, and as memory allows."""
    free = os.sysconf("SC_AVPHYS_PAGES") * os.sysconf("SC_PAGE_SIZE")
    fitting = free // (MEMORY * min(size // count + 1, MOST_BYTES))
    return max(1, min(count, processors(), fitting))

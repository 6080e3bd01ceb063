"""The columns file of a table, and whether a file has changed since it was opened."""
from __future__ import annotations

import contextlib
import fcntl
import os
import re
import sqlite3
import stat
import time
import zlib
from typing import Any, BinaryIO, Callable, Iterable, Iterator, Sequence

from .._errors import MEMORY, Failed, Refused, counted, failure_of
from .._identifiers import is_name
from .._types import kinds
from .._types.base import Column, Settings, Valued
from .._types.dictionary import StoredList, are_ascending, blocks_of, packed, sum_of_block


# Opens files that must be regular ones, since a FIFO would be waited for, and a device has no
# end; and finds out whether one changed after it was opened.

# how often, and after how many seconds, a file is compared again that may be moved
ATTEMPTS, WAIT = 5, .005


def open_regular(path: str | os.PathLike[str]) -> BinaryIO:
    """Opens a regular file for reading, by a descriptor that is none of the three standard ones, so
    that a program can read it by that. Raises Refused if it is another sort of file."""
    if not stat.S_ISREG(os.stat(path).st_mode):
        raise Refused(f"{path} is no regular file")
    # without O_NONBLOCK, a FIFO that was put there meanwhile would be waited for
    found = os.open(path, os.O_RDONLY | os.O_NONBLOCK | os.O_NOCTTY)
    try:
        if not stat.S_ISREG(os.fstat(found).st_mode):
            raise Refused(f"{path} is no regular file")
        return open(fcntl.fcntl(found, fcntl.F_DUPFD_CLOEXEC, 3), "rb")
    finally:
        os.close(found)


class Marks(Valued):
    """What changes whenever the bytes of a file do: its length, the times of the last change of its
    bytes and of anything about it, its number of names, and which file it is."""

    def __init__(self, file: BinaryIO) -> None:
        told = os.fstat(file.fileno())
        self.size, self.modified, self.inode = told.st_size, told.st_mtime_ns, told.st_ino
        self.changed, self.names, self.device = told.st_ctime_ns, told.st_nlink, told.st_dev

    def differ(self, now: Marks) -> bool:
        """Returns whether the file may have other bytes now, by the rule of bw's error 701. A file
        that lost a name, because another was moved onto it, has the same bytes."""
        return self.are_others(now) or self.changed != now.changed and self.names == now.names

    def are_others(self, now: Marks) -> bool:
        """Returns whether anything but the names and rights of the file is another."""
        return (self.size, self.modified, self.device, self.inode) != \
            (now.size, now.modified, now.device, now.inode)


class Watched:
    """An open file that must not change, with its path, and its marks when it was opened. `is_same`
    reads it again, and returns whether it has the bytes that were written: it is asked if the file
    may only have got another name or other rights, as one does that an import moves."""

    is_same: Callable[[], bool] | None = None

    def __init__(self, path: str | os.PathLike[str], file: BinaryIO) -> None:
        self.path, self.file, self.marks = os.fspath(path), file, Marks(file)

    def has_changed(self) -> bool:
        """Returns whether the file may have other bytes than when it was opened."""
        for attempt in range(ATTEMPTS):
            now = Marks(self.file)
            if not self.marks.differ(now):
                return False
            if self.marks.are_others(now) or not self.is_same:
                return True
            if self.is_same() and not now.are_others(Marks(self.file)):
                self.marks = now
                return False
            # it may be moved at this moment, and can't be read by its name
            time.sleep(WAIT)
        return True


# The columns file TABLE.bw.columns, which says what a table's numbers mean: an SQLite database.
# It has the name of the table and what identifies its file, the columns, their settings and words
# for null, and a table `values_N` for each column whose numbers are places in a list. A file that
# was made by others, or is damaged, is refused: its header is checked before SQLite opens it, its
# schema must have the statements below and no others, and each field is checked before it is
# used. A sum covers all but the lists, and is compared when the file is opened; each block of a
# list has its own, which is compared when it is read.

VERSION, APPLICATION, MAGIC = 4, 0x62776331, b"SQLite format 3\0"
# the first bytes of a columns file of the versions before, which was JSON
EARLIER = b'{"bw columns"'
MOST_COLUMNS, MOST_TABLES, MOST_SETTINGS, MOST_NULLS, MOST_CODES = 64, 1 << 16, 16, 1 << 12, 1 << 32
FIXED = {
    "named": "CREATE TABLE named (name TEXT NOT NULL)",
    "sums": "CREATE TABLE sums (sum INTEGER NOT NULL)",
    "files": "CREATE TABLE files (place INTEGER PRIMARY KEY, file TEXT NOT NULL, rows INTEGER NOT "
             "NULL, size INTEGER NOT NULL, changed INTEGER NOT NULL, inode INTEGER NOT NULL, "
             "sha256 TEXT NOT NULL, header INTEGER NOT NULL)",
    "columns": "CREATE TABLE columns (place INTEGER PRIMARY KEY, name TEXT NOT NULL, heading TEXT "
               "NOT NULL, kind TEXT NOT NULL, why TEXT NOT NULL, looks_like TEXT NOT NULL, least "
               "TEXT, greatest TEXT, listed INTEGER)",
    "settings": "CREATE TABLE settings (place INTEGER NOT NULL, name TEXT NOT NULL, value NOT "
                "NULL)",
    "nulls": "CREATE TABLE nulls (place INTEGER NOT NULL, word TEXT NOT NULL)"}
# of a column whose numbers are places in a list of texts, or of doubles: blocks of them, by their
# first codes, and the sum of each
LISTED = "CREATE TABLE values_{} (code INTEGER PRIMARY KEY, {} BLOB NOT NULL, sum INTEGER NOT NULL)"
TYPES = {str: "texts", float: "doubles"}
# what the sum covers
HEAD = ("SELECT name FROM named",
        "SELECT file, rows, size, changed, inode, sha256, header FROM files ORDER BY place",
        "SELECT place, name, heading, kind, why, looks_like, least, greatest, listed FROM columns "
        "ORDER BY place",
        "SELECT place, name, value FROM settings", "SELECT place, word FROM nulls")
# the bytes of a path that a URI has as numbers
UNSAFE = re.compile(b"[^A-Za-z0-9/._~-]")
# the name of a columns file: in a folder of shards, and how that of a table ends
FOLDERS, ENDING = "shards.columns", ".columns"


class TableFile(Valued):
    """What identifies a table file: its size, and the sum of its header; and its time of change and
    inode, else its SHA-256. Of a shard also its name in the folder, and its rows."""

    def __init__(self, file: str, rows: int, size: int, changed: int, inode: int, sha256: str,
                 header: int) -> None:
        self.file, self.rows, self.size = file, rows, size
        self.changed, self.inode, self.sha256, self.header = changed, inode, sha256, header


class OtherVersion(Refused):
    """A columns file of another version."""


class Store:
    """An open columns file. `watched` tells whether it changed since."""

    def __init__(self, path: str | os.PathLike[str]) -> None:
        self.path = os.fspath(path)
        self.watched, self.database = opened(self.path)
        try:
            with self.reading():
                self.refuse_schema()
                self.read_head()
            self.watched.is_same = self.is_same
        except BaseException:
            self.close()
            raise

    def close(self) -> None:
        """Closes the file; texts can't be read any more."""
        self.database.close()
        self.watched.file.close()

    @contextlib.contextmanager
    def reading(self) -> Iterator[None]:
        """Turns what SQLite reports of a damaged file into a refusal."""
        try:
            yield
        except sqlite3.Error as error:
            if failure_of(error).status == MEMORY:
                raise
            raise self.foreign(str(error)) from None
        except (OverflowError, ValueError) as error:
            raise self.foreign(str(error)) from None

    def foreign(self, why: str) -> Refused:
        """Returns the refusal of this file."""
        return Refused(f"{self.path} is not a columns file that bw-import wrote, or is damaged: "
                       f"{' '.join(why.split())}")

    def rows(self, sql: str, most: int) -> list[tuple[Any, ...]]:
        """Returns the rows of a query, of which there may be so many."""
        found = self.database.execute(sql).fetchmany(most + 1)
        if len(found) > most:
            raise self.foreign(f"it has more than {counted(most, 'row')} of one sort")
        return found

    def refuse_schema(self) -> None:
        """Rejects a file whose tables aren't those of a columns file, or that has more."""
        most = len(FIXED) + MOST_COLUMNS
        found = self.rows("SELECT type, name, tbl_name, sql FROM sqlite_master", most)
        listed = {name: sql for _, name, _, sql in found if name not in FIXED}
        wanted = {("table", name, name, sql) for name, sql in FIXED.items()}
        for place in range(MOST_COLUMNS):
            name = f"values_{place}"
            for type_ in TYPES.values() if name in listed else ():
                if listed[name] == LISTED.format(place, type_):
                    wanted.add(("table", name, name, listed[name]))
        if len(found) != len(wanted) or set(found) != wanted:
            raise self.foreign("its schema is another one")
        self.listed = {int(name[7:]): str if " texts " in sql else float
                       for name, sql in listed.items() if name.startswith("values_")}

    def read_head(self) -> None:
        """Reads all but the lists, and compares its sum."""
        head = list(map(self.rows, HEAD, (1, MOST_TABLES, MOST_COLUMNS)))
        for sql, most in zip(HEAD[3:], (MOST_SETTINGS, MOST_NULLS)):
            head.append(self.rows(sql, most * len(head[2])))
        self.sum = sum_of_head(head)
        if self.rows("SELECT sum FROM sums", 1) != [(self.sum,)]:
            raise self.foreign("its settings, its columns or its list of files have another sum")
        named, files, columns, settings, nulls = head
        self.name = self.text(named[0][0] if named else None, "the table's name")
        self.seed = seed_of(head)
        self.files = self.read_files(files)
        self.columns = self.read_columns(columns, settings, nulls)

    def is_same(self) -> bool:
        """Returns whether the open file still has what was read when it was opened. The lists have
        sums of their own."""
        uri = f"file:/proc/self/fd/{self.watched.file.fileno()}?mode=ro&immutable=1"
        try:
            with contextlib.closing(sqlite3.connect(uri, uri=True)) as again:
                return sum_of_head([again.execute(sql).fetchall() for sql in HEAD]) == self.sum
        except sqlite3.Error:
            return False

    def read_files(self, found: Sequence[tuple[Any, ...]]) -> list[TableFile]:
        names = ("file", "rows", "size", "changed", "inode", "sha256", "header")
        for row in found:
            for name, value in zip(names, row):
                if type(value) is not (str if name in ("file", "sha256") else int):
                    raise self.foreign(f"{name} of a table file is {type(value).__name__}")
        files = [TableFile(*row) for row in found]
        if any(os.path.basename(each.file) != each.file or "\0" in each.file for each in files):
            raise self.foreign("a table file isn't beside it")
        return files

    def read_columns(self, found: Sequence[tuple[Any, ...]], settings: Sequence[tuple[Any, ...]],
                     nulls: Sequence[tuple[Any, ...]]) -> list[Column]:
        if not found or [row[0] for row in found] != list(range(len(found))):
            raise self.foreign("its columns aren't numbered from 0 on")
        if set(self.listed) != {row[0] for row in found if row[8] is not None}:
            raise self.foreign("its lists aren't those of its columns")
        own, words = self.read_settings(settings, len(found)), self.read_nulls(nulls, len(found))
        columns = [self.column(row, own[row[0]], words[row[0]]) for row in found]
        if len({column.name.lower() for column in columns}) < len(columns):
            raise self.foreign("two columns have one name")
        return columns

    def column(self, row: tuple[Any, ...], settings: Settings, nulls: list[str]) -> Column:
        """Returns a column of a row, its settings and its words for null, all of them checked."""
        place, name, heading, kind, why, looks_like, least, greatest, count = row
        for value in (name, heading, kind, why, looks_like):
            self.text(value, f"a field of column {place}")
        ends = [self.text(end, f"an end of column {place}") for end in (least, greatest)
                if end is not None]
        if not is_name(name) or len(ends) == 1:
            raise self.foreign(f"column {place} has no valid name, or only one end")
        listed = None
        if count is not None:
            if type(count) is not int or not 0 <= count < MOST_CODES:
                raise self.foreign(f"column {name} has {count} values")
            listed = StoredList(self.database, place, count, self.listed[place], self.seed,
                                f"{self.path}: column {name}")
        try:
            made = kinds.kind_of(kind, settings, listed)
        except (ValueError, TypeError, KeyError):
            raise self.foreign(f"column {name} is of no kind that this version knows") from None
        return Column(name, heading, made, nulls, ends, why, looks_like)

    def read_settings(self, found: Sequence[tuple[Any, ...]], count: int) -> list[Settings]:
        settings: list[Settings] = [{} for _ in range(count)]
        for place, name, value in found:
            if type(place) is not int or not 0 <= place < count or type(name) is not str or \
                    type(value) not in (int, str) or name in settings[place]:
                raise self.foreign("a setting is of no column, or of no type that settings have")
            settings[place][name] = value
        return settings

    def read_nulls(self, found: Sequence[tuple[Any, ...]], count: int) -> list[list[str]]:
        nulls: list[list[str]] = [[] for _ in range(count)]
        for place, word in found:
            if type(place) is not int or not 0 <= place < count:
                raise self.foreign("a word for null is of no column")
            nulls[place].append(self.text(word, "a word for null"))
        return nulls

    def text(self, value: Any, what: str) -> str:
        """Returns a value that must be text."""
        if type(value) is not str:
            raise self.foreign(f"{what} isn't text")
        return value

    def verify(self) -> None:
        """Rejects a file of which a part is damaged, though it wasn't needed by now: it reads all
        of it."""
        with self.reading():
            for column in self.columns:
                if column.kind.listed is not None:
                    for _ in column.kind.listed:
                        pass
            found = self.database.execute("PRAGMA integrity_check(1)").fetchone()
            if found != ("ok",):
                raise self.foreign(str(found[0]))


def sum_of_head(head: Sequence[Sequence[tuple[Any, ...]]]) -> int:
    """Returns the sum of rows, whose `ascii` is the same in every version of Python."""
    return zlib.crc32(ascii(head).encode())


def seed_of(head: Sequence[Sequence[tuple[Any, ...]]]) -> int:
    """Returns what the sums of blocks begin with: that of the name and the table files. So a block
    of another columns file has a wrong sum."""
    return sum_of_head(head[:2])


def opened(path: str) -> tuple[Watched, sqlite3.Connection]:
    """Opens a columns file, which must be a regular file, to be read only. SQLite opens a file by
    its path: if another one is put there at that moment, it is opened again."""
    for _ in range(100):
        with contextlib.ExitStack() as stack:
            file = stack.enter_context(open_regular(path))
            watched = Watched(path, file)
            refuse_header(path, file.read(100), watched.marks.size)
            try:
                database = sqlite3.connect(uri_of(path), uri=True, check_same_thread=False)
            except sqlite3.OperationalError:
                if os.path.samestat(os.stat(path), os.fstat(file.fileno())):
                    raise
                continue
            stack.callback(database.close)
            if os.path.samestat(os.stat(path), os.fstat(file.fileno())):
                for pragma in ("trusted_schema = off", "cell_size_check = on"):
                    database.execute(f"PRAGMA {pragma}")
                stack.pop_all()
                return watched, database
    raise Refused(f"{path} is replaced again and again")


def uri_of(path: str) -> str:
    """Returns how SQLite opens a file that nobody writes."""
    whole = path if os.path.isabs(path) else os.path.join(os.getcwd(), path)
    quoted = UNSAFE.sub(lambda found: b"%%%02X" % ord(found[0]), os.fsencode(whole))
    return f"file:{quoted.decode()}?mode=ro&immutable=1"


def refuse_header(path: str, header: bytes, size: int) -> None:
    """Rejects a file whose first bytes aren't those of a columns file of this version."""
    if header.startswith(EARLIER):
        raise OtherVersion(f"{path} is a columns file of an earlier version: import the file "
                           f"again, by {again(path)}")
    version, mark, encoding = (int.from_bytes(header[at:at + 4], "big") for at in (60, 68, 56))
    if not header.startswith(MAGIC) or len(header) < 100 or mark != APPLICATION or encoding != 1 \
            or header[18:20] != b"\1\1":
        raise Refused(f"{path} is not a columns file that bw-import wrote")
    if version != VERSION:
        raise OtherVersion(f"{path} is a columns file of version {version}, and this program reads "
                           f"version {VERSION}: import the file again, by {again(path)}")
    pages, page = int.from_bytes(header[28:32], "big"), int.from_bytes(header[16:18], "big")
    if pages * (1 << 16 if page == 1 else page) != size:
        raise Refused(f"{path} is damaged: it has {size:,} bytes, and not those of its pages")


def again(path: str) -> str:
    """Returns the command that writes a columns file anew."""
    folder, name = os.path.split(path)
    if name == FOLDERS:
        return f"bw-shards load RAW.csv {folder or '.'}"
    table = path[:-len(ENDING)] if name.endswith(ENDING) else "TABLE.bw"
    return f"bw-import RAW.csv {table}"


def write(path: str | os.PathLike[str], columns: Sequence[Column], name: str = "",
          files: Sequence[TableFile] = ()) -> None:
    """Writes a columns file. Each column's `kind.listed` is iterated once, in order: so it may be
    read from elsewhere meanwhile. Raises Refused if it isn't strictly ascending, and Failed if the
    file can't be written."""
    try:
        with contextlib.closing(sqlite3.connect(os.fspath(path), isolation_level=None)) as made:
            write_to(made, columns, name, files)
    except sqlite3.Error as error:
        # the disk is full, or memory: nothing else was written there
        found = failure_of(error)
        raise Failed(f"the columns file can't be written: {found}", status=found.status) from None


def write_to(database: sqlite3.Connection, columns: Sequence[Column], name: str,
             files: Sequence[TableFile]) -> None:
    """Writes a columns file into an empty database."""
    for pragma in ("page_size = 16384", "encoding = 'UTF-8'", "journal_mode = OFF",
                   "synchronous = OFF", "locking_mode = EXCLUSIVE", f"user_version = {VERSION}",
                   f"application_id = {APPLICATION}"):
        database.execute(f"PRAGMA {pragma}").fetchall()
    database.execute("BEGIN")
    for sql in FIXED.values():
        database.execute(sql)
    database.execute("INSERT INTO named VALUES (?)", (name,))
    database.executemany("INSERT INTO files VALUES (?, ?, ?, ?, ?, ?, ?, ?)",
                         [(place, *vars(file).values()) for place, file in enumerate(files)])
    seed = seed_of([database.execute(sql).fetchall() for sql in HEAD[:2]])
    for place, column in enumerate(columns):
        write_column(database, place, column, seed)
    # of what was written, as it is read
    head = [database.execute(sql).fetchall() for sql in HEAD]
    database.execute("INSERT INTO sums VALUES (?)", (sum_of_head(head),))
    database.execute("COMMIT")


def write_column(database: sqlite3.Connection, place: int, column: Column, seed: int) -> None:
    """Writes a column, its settings, its words for null and its list."""
    listed, ends = column.kind.listed, column.ends or (None, None)
    count = None if listed is None else write_list(database, place, listed, seed)
    database.execute("INSERT INTO columns VALUES (?, ?, ?, ?, ?, ?, ?, ?, ?)",
                     (place, column.name, column.heading, column.kind.name, column.why,
                      column.looks_like, *ends, count))
    database.executemany("INSERT INTO settings VALUES (?, ?, ?)",
                         [(place, *each) for each in column.kind.settings().items()])
    database.executemany("INSERT INTO nulls VALUES (?, ?)",
                         [(place, word) for word in column.nulls])


def write_list(database: sqlite3.Connection, place: int, listed: Iterable[Any], seed: int) -> int:
    """Writes the values of a list, and returns how many there are. Raises Refused if they don't
    ascend."""
    count, last = 0, list[Any]()
    # texts that are read as bytes are written as these
    encoded = getattr(listed, "encoded", None)
    for block in blocks_of(encoded() if encoded else listed):
        if not count:
            database.execute(LISTED.format(place, TYPES[float if type(block[0]) is float else str]))
        if not are_ascending([*last, *block]):
            raise Refused(f"the values of column {place + 1} don't ascend")
        data = packed(block)
        database.execute(f"INSERT INTO values_{place} VALUES (?, ?, ?)",
                         (count, data, sum_of_block(data, seed, place, count)))
        count, last = count + len(block), block[-1:]
    if not count:
        database.execute(LISTED.format(place, TYPES[str]))
    return count

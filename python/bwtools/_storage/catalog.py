"""The tables of statements: table files, each with its columns file, and folders of shards."""
from __future__ import annotations

import contextlib
import os
import re
import zlib
from typing import TYPE_CHECKING, Any, BinaryIO, Iterable, Iterator, List, Sequence, Tuple

from .._errors import FILES, UNREAD, Failed, Refused, shown
from .._identifiers import name_like
from .._types.base import Column
from .columns_file import (ATTEMPTS, FOLDERS, Marks, OtherVersion, Store, TableFile, Watched,
                           open_regular)

if TYPE_CHECKING:
    import pathlib


# A table file and the columns file that belongs to it. TABLE.columns names its table file by
# size, time of change and inode, or else by the SHA-256 of its bytes. An import first puts its
# columns file beside the old one, under a name with the new table's sum, then its table file, and
# then renames the columns file. So whenever it is stopped, the table file has a columns file that
# names it: TABLE.columns, or the one with its sum.

# how often a pair is opened again that is replaced at that moment
OPENINGS = 100
DIGITS = 16
# a header's bytes are at most those of 64 columns with names of 63 bytes
TABLE_MAGIC, COLUMNS_MAGIC, MOST_HEADER = b"BWCOLUMN", b"BWBYCOLS", 1 << 13
# the columns of a table file: their names, minimums and maximums, and whether they may be null
Header = List[Tuple[str, int, int, bool]]


class Pair:
    """An open table file, and its columns. `watched` tells whether the table file changed since."""

    def __init__(self, watched: Watched, store: Store) -> None:
        self.watched, self.file, self.store = watched, watched.file, store

    def __enter__(self) -> Pair:
        return self

    def __exit__(self, *_: Any) -> None:
        self.file.close()
        self.store.close()


def header_of(file: BinaryIO) -> tuple[bytes, Header]:
    """Returns the header of a table file, or of one by columns, and the columns that it names;
    nothing if it isn't one that bw wrote."""
    data = os.pread(file.fileno(), MOST_HEADER, 0)
    if not data.startswith((TABLE_MAGIC, COLUMNS_MAGIC)):
        return b"", []
    columns: Header = []
    try:
        # after the magic, the version, the layout, the number of rows and the table's name
        at = 17 + data[16]
        for _ in range(int.from_bytes(data[10:12], "little")):
            end = at + 1 + data[at]
            columns.append((data[at + 1:end].decode("ascii", "replace"),
                            int.from_bytes(data[end:end + 8], "little", signed=True),
                            int.from_bytes(data[end + 8:end + 16], "little", signed=True),
                            data[end + 16] == 1))
            at = end + 17
    except IndexError:
        return b"", []
    return (data[:at], columns) if at <= len(data) else (b"", [])


def header_sum(file: BinaryIO) -> int:
    """Returns the sum of a table file's header."""
    return zlib.crc32(header_of(file)[0])


def are_columns_of(columns: Sequence[Column], file: BinaryIO) -> bool:
    """Returns whether a table file has these columns, and no number outside of a column's list."""
    found = header_of(file)[1]
    if [each.name for each in columns] != [name for name, *_ in found]:
        return False
    lists = [(each.kind.listed, least, greatest)
             for each, (_, least, greatest, _) in zip(columns, found)]
    return all(listed is None or 0 <= least <= greatest < max(1, len(listed))
               for listed, least, greatest in lists)


def sum_of(file: BinaryIO) -> str:
    """Returns the SHA-256 of a file's bytes."""
    # few need it, and it loads slowly
    import hashlib
    found = hashlib.sha256()
    file.seek(0)
    for part in iter(lambda: file.read(1 << 20), b""):
        found.update(part)
    file.seek(0)
    return found.hexdigest()


def digest_of(path: str | os.PathLike[str]) -> str:
    """Returns the SHA-256 of a table file."""
    with open_regular(path) as file:
        return sum_of(file)


def record_of(path: str | os.PathLike[str], name: str = "", rows: int = 0,
              digest: str = "") -> TableFile:
    """Returns a table file's record for a columns file. Its SHA-256 may be known."""
    with open_regular(path) as file:
        marks = Marks(file)
        return TableFile(name, rows, marks.size, marks.modified, marks.inode,
                         digest or sum_of(file), header_sum(file))


def is_of(record: TableFile, file: BinaryIO) -> bool:
    """Returns whether an open file is the one of a record: by size, header, time and inode, or else
    by its bytes."""
    marks = Marks(file)
    return record.size == marks.size and record.header == header_sum(file) and (
        (record.changed, record.inode) == (marks.modified, marks.inode) or
        record.sha256 == sum_of(file))


def refuse_changed(*watched: Watched) -> None:
    """Raises Failed if a file changed after it was opened."""
    for each in watched:
        if each.has_changed():
            raise Failed(f"{each.path} changed after it was opened, so nothing that was read of it "
                         "counts: try again once it is written")


def watch(watched: Watched, record: TableFile) -> Watched:
    """Has a table file compared with its record, if it may only have got another name."""
    watched.is_same = lambda: sum_of(watched.file) == record.sha256
    return watched


def columns_beside(table: str | os.PathLike[str]) -> str:
    """Returns the path of a table's columns file: beside the table, or beside the file that a link
    points to."""
    beside = f"{os.fspath(table)}.columns"
    is_real = os.path.islink(table) and not os.path.lexists(beside)
    return f"{os.path.realpath(table)}.columns" if is_real else beside


def kept_path(columns: str, digest: str) -> str:
    """Returns the path of a columns file until its table file is at its place."""
    return f"{columns}.{digest[:DIGITS]}"


def open_pair(table: str | os.PathLike[str]) -> Pair:
    """Opens a table file with its columns. Raises Refused if the columns file is missing, is no
    columns file, or belongs to another table."""
    columns = columns_beside(table)
    for _ in range(OPENINGS):
        before = places(table, columns)
        file = open_regular(table)
        try:
            watched = Watched(table, file)
            store = store_of(columns, file)
            if store:
                return Pair(watch(watched, store.files[0]), store)
        except BaseException:
            file.close()
            raise
        file.close()
        if places(table, columns) == before:
            break
    if not os.path.lexists(columns):
        raise Refused(f"{columns} is missing, which says what the numbers of {table} mean: "
                      "bw-import writes both; query a table of plain numbers with bw query")
    with contextlib.closing(Store(columns)) as found:
        if not found.files:
            raise Refused(f"{columns} belongs to no table: bw-to-numbers wrote it; run bw-import "
                          f"to write one for {table}")
    raise foreign(columns, table)


def foreign(columns: str | os.PathLike[str], table: str | os.PathLike[str]) -> Refused:
    """Returns the refusal of a table file that a columns file doesn't name."""
    return Refused(f"{columns} belongs to another table than {table}, which has changed or was "
                   "replaced: run bw-import again, which writes both")


def places(table: str | os.PathLike[str], columns: str) -> list[Any]:
    """Returns which files are at the two places."""
    found: list[Any] = []
    for path in (table, columns):
        with contextlib.suppress(FileNotFoundError):
            told = os.stat(path)
            found.append((path, told.st_dev, told.st_ino, told.st_mtime_ns))
    return found


def store_of(columns: str, file: BinaryIO) -> Store | None:
    """Returns the open columns file that names a table file, or None: the one at its place, or the
    one that an import left which was stopped."""
    refused = store = None
    try:
        store = store_at(columns, file)
    except Refused as error:
        refused = error
    if not store and any(left(columns)):
        store = store_at(kept_path(columns, sum_of(file)), file)
    if refused and not store:
        raise refused
    return store


def store_at(path: str, file: BinaryIO) -> Store | None:
    """Returns the open columns file of a path, if it is there and names a table file."""
    try:
        store = Store(path)
    except FileNotFoundError:
        return None
    try:
        if len(store.files) != 1 or not is_of(store.files[0], file):
            store.close()
            return None
        if not are_columns_of(store.columns, file):
            raise store.foreign("its columns aren't those of the table file")
        return store
    except BaseException:
        store.close()
        raise


def left(columns: str) -> Iterator[str]:
    """Yields the columns files that imports left which were stopped."""
    folder, own = os.path.split(columns)
    name = re.compile(re.escape(own) + f"\\.[0-9a-f]{{{DIGITS}}}")
    # a folder may be one to write into alone
    with contextlib.suppress(PermissionError):
        yield from [os.path.join(folder, each) for each in os.listdir(folder or ".")
                    if name.fullmatch(each)]


def put_pair(folder: pathlib.Path, table: pathlib.Path, columns: pathlib.Path, digest: str,
             target: str | os.PathLike[str]) -> None:
    """Moves a table file with this SHA-256, and its columns file, to their places, after those that
    another import moves at the same time. Whenever it is stopped, the old pair is there or the new
    one."""
    import pathlib

    from . import atomic
    place, beside = pathlib.Path(target), f"{os.fspath(target)}.columns"
    kept = pathlib.Path(kept_path(beside, digest))
    with atomic.locked(place.parent):
        finish(place, beside)
        try:
            atomic.put(folder, [(columns, kept), (table, place), (kept, pathlib.Path(beside))])
        finally:
            with contextlib.suppress(FileNotFoundError):
                kept.unlink()


def finish(table: pathlib.Path, columns: str) -> None:
    """Ends what a stopped import began: renames the columns file that it left, if its table file is
    at its place, and else removes it."""
    for path in list(left(columns)):
        is_whole = False
        with contextlib.suppress(Refused, OSError), open_regular(table) as file:
            is_whole = not store_fits(columns, file) and store_fits(path, file)
        if is_whole:
            os.replace(path, columns)
        else:
            os.unlink(path)


def store_fits(path: str, file: BinaryIO) -> bool:
    """Returns whether a path has a columns file that names a table file."""
    try:
        store = store_at(path, file)
    except Refused:
        return False
    if store:
        store.close()
    return store is not None


# A folder of shards: the tables into which one file was split, and one columns file, which
# identifies their table files. Each shard is queried on its own, and the results are combined
# into that of a single table. `ask_shard` and what it calls use only the standard library, so
# that a worker on another machine can run them.

FILE = FOLDERS
SHARD = re.compile(r"shard-[0-9]{3,}\.bw")
CHANGED = "it changed after it was opened"
FOREIGN = "isn't the table that {} names: it has changed or was replaced; run bw-shards load again"

# What asking a shard gives: the status of bw, or of a table file that can't be asked; what was said
# of it; and the answer
Reply = tuple[int, str, bytes]


class Folder:
    """A folder of shards: the columns of its tables, their name, and the records of the table
    files, in the rows' order."""

    def __init__(self, path: str) -> None:
        self.path, self.file = path, os.path.join(path, FILE)
        if not os.path.exists(self.file):
            raise Refused(f"{path} is not a folder of shards: {self.file}, which bw-shards load "
                          "writes, is missing")
        self.store = found = Store(self.file)
        self.name, self.shards, self.columns = found.name, found.files, found.columns
        if not self.shards or not all(each.file for each in self.shards):
            found.close()
            raise Refused(f"{self.file} is not a columns file of bw-shards load")

    def close(self) -> None:
        """Closes the columns file; texts can't be read any more."""
        self.store.close()

    def path_of(self, place: int) -> str:
        return os.path.join(self.path, self.shards[place].file)

    def foreign_files(self) -> list[str]:
        """Returns the files in the folder that aren't shards."""
        own = {FILE, *(record.file for record in self.shards)}
        return sorted(set(os.listdir(self.path)) - own)


def ask_shard(program: str, path: str, record: TableFile, columns: str, options: Sequence[str],
              statement: str) -> Reply:
    """Queries a table file by bw, if it is the one of the record. bw reads the file that was
    compared."""
    import shutil
    import subprocess
    found = program if os.access(program, os.X_OK) else shutil.which("bw") or program
    try:
        with open(path, "rb") as table:
            watched = watch(Watched(path, table), record)
            if not is_of(record, table):
                return 3, FOREIGN.format(columns), b""
            for _ in range(ATTEMPTS):
                done = subprocess.run([found, "query", *options, f"/dev/fd/{table.fileno()}",
                                       statement], stdin=subprocess.DEVNULL,
                                      capture_output=True, pass_fds=[table.fileno()], check=False)
                if watched.has_changed():
                    return FILES, CHANGED, b""
                # bw also fails if the file is moved away while it reads it
                if not done.stderr.startswith(UNREAD.encode()):
                    break
    except OSError as error:
        where = f"{error.filename}: " if error.filename != path else ""
        return 5, f"{where}{error.strerror}", b""
    if done.returncode < 0:
        return 128 - done.returncode, f"bw was ended by signal {-done.returncode}", b""
    return done.returncode, done.stderr.decode("utf-8", "replace"), done.stdout


def is_of_statement(reply: Reply) -> bool:
    """Returns whether an error is one of the statement, which each shard would return."""
    return reply[0] == 3 and reply[1].startswith("bw: 4")


def refuse_folder(path: str) -> None:
    """Rejects a target folder that exists and has anything but shards that were loaded before."""
    if not os.path.lexists(path):
        return
    if os.path.islink(path) or not os.path.isdir(path):
        what = "a symlink" if os.path.islink(path) else "no folder"
        raise Refused(f"{path} can't be overwritten: it is {what}")
    if not os.listdir(path):
        return
    try:
        with contextlib.closing(Folder(path)) as folder:
            foreign = folder.foreign_files()
    except OtherVersion:
        # it names its shards in a form that isn't known
        foreign = sorted(name for name in os.listdir(path)
                         if name != FILE and not SHARD.fullmatch(name))
    except Refused as refused:
        raise Refused(f"{path} can't be overwritten: {refused}") from None
    if foreign:
        raise Refused(f"{path} can't be overwritten: it has {foreign[0]}, which isn't one of its "
                      "shards")


def shard_file(folder: pathlib.Path, place: int) -> pathlib.Path:
    """Returns the path of a shard's table file."""
    return folder / f"shard-{place + 1:03}.bw"


# The tables that a statement may name.


class TablePart:
    """One table file of a table: its path, its record, the columns file that names it, and the
    file, open and compared with the record; or None if only a cluster's workers open it."""

    def __init__(self, path: str, record: TableFile, columns: str, file: BinaryIO | None) -> None:
        self.path, self.record, self.columns, self.file = path, record, columns, file


class Table:
    """A table: its name in statements, the one by which bw knows it, its columns, its files in the
    rows' order, the number of its rows if the columns file has it, and the files that must not
    change, since its answers are made of them."""

    def __init__(self, name: str, bw_name: str, columns: Sequence[Column],
                 parts: Sequence[TablePart], rows: int | None = None,
                 watched: Sequence[Watched] = ()) -> None:
        self.name, self.bw_name, self.columns = name, bw_name, columns
        self.parts, self.rows, self.watched = parts, rows, watched
        # what is closed with the table
        self.stack = contextlib.ExitStack()

    def close(self) -> None:
        """Closes its files; texts can't be read any more."""
        self.stack.close()

    def column(self, name: str) -> Column | None:
        """Returns the column of a name, case ignored, or None."""
        key = name.lower()
        return next((each for each in self.columns if each.name.lower() == key), None)


class Catalog:
    """Tables by their names, case ignored. `empty` keeps what SQLite knows of them."""

    def __init__(self, tables: Iterable[Table]) -> None:
        self.tables = dict[str, Table]()
        self.empty: object = None
        # what is closed with the catalog
        self.stack = contextlib.ExitStack()
        for table in tables:
            if table.name.lower() in self.tables:
                raise Refused(f"two tables have the name {table.name}: name one of them by "
                              "NAME=FILE")
            if table.name.lower().startswith("sqlite_"):
                raise Refused(f"{table.name}: SQLite reserves names that begin with sqlite_: name "
                              "the table by NAME=FILE")
            self.tables[table.name.lower()] = table

    @property
    def only(self) -> Table | None:
        """The table if there is one, which a statement may call by any name."""
        return next(iter(self.tables.values())) if len(self.tables) == 1 else None

    def get(self, name: str) -> Table | None:
        """Returns the table of a name, or None."""
        return self.tables.get(name.lower())

    def names(self) -> list[str]:
        return [table.name for table in self.tables.values()]

    def refuse_changed(self) -> None:
        """Raises Failed if a file of a table changed after it was opened."""
        for table in self.tables.values():
            refuse_changed(*table.watched)

    def close(self) -> None:
        self.stack.close()
        for table in self.tables.values():
            table.close()


def open_table(name: str, path: str, is_local: bool = True) -> Table:
    """Opens a table that bw-import wrote, or a folder of shards. If the shards aren't local, only
    their records are read. Raises Refused if it isn't one, or was replaced."""
    return open_folder(name, path, is_local) if os.path.isdir(path) else open_file(name, path)


def open_file(name: str, path: str) -> Table:
    pair = open_pair(path)
    part = TablePart(path, pair.store.files[0], pair.store.path, pair.file)
    table = Table(name, pair.store.name, pair.store.columns, [part], None,
                  [pair.watched, pair.store.watched])
    table.stack.enter_context(pair)
    return table


def open_folder(name: str, path: str, is_local: bool) -> Table:
    # most tables are one file
    folder = Folder(path)
    with contextlib.ExitStack() as stack:
        stack.callback(folder.close)
        parts, watched = list[TablePart](), [folder.store.watched]
        for place, record in enumerate(folder.shards):
            path, file = folder.path_of(place), None
            if is_local:
                file = stack.enter_context(open_regular(path))
                watched.append(watch(Watched(path, file), record))
                if not is_of(record, file):
                    raise Refused(f"{path} {FOREIGN.format(folder.file)}")
                if not are_columns_of(folder.columns, file):
                    raise folder.store.foreign(f"its columns aren't those of {path}")
            parts.append(TablePart(path, record, folder.file, file))
        rows = sum(record.rows for record in folder.shards)
        table = Table(name, folder.name, folder.columns, parts, rows, watched)
        table.stack = stack.pop_all()
    return table


def name_of(path: str | os.PathLike[str]) -> str:
    """Returns the name of a table in statements: that of its file or folder, made valid."""
    return name_like(os.path.basename(os.path.abspath(path)).removesuffix(".bw"))


def open_catalog(paths: Iterable[tuple[str, str]], is_local: bool = True) -> Catalog:
    """Opens tables, each of a name and a path."""
    with contextlib.ExitStack() as stack:
        tables = list[Table]()
        for name, path in paths:
            tables.append(open_table(name, path, is_local))
            stack.callback(tables[-1].close)
        catalog = Catalog(tables)
        stack.pop_all()
    return catalog


def missing(what: str, name: str, names: Iterable[str], where: str = "") -> Refused:
    """Returns the refusal of a name that isn't there, with the nearest ones, which are never that
    name itself."""
    import difflib
    known = sorted({each for each in names if each.lower() != name.lower()}, key=str.lower)
    lower = {each.lower(): each for each in known}
    near = difflib.get_close_matches(name.lower(), lower, 3, 0.6)
    if near:
        hint = f"did you mean {' or '.join(lower[each] for each in near)}?"
    else:
        hint = f"there are {', '.join(known[:20])}{', ...' if len(known) > 20 else ''}"
    if not known:
        return Refused(f"there is no {what} {shown(name)[1:-1]}{where}")
    return Refused(f"there is no {what} {shown(name)[1:-1]}{where}: {hint}")

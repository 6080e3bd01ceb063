"""Imports a file: as a table file and its columns file or, if it is too long for one table or
shards are asked for, as a folder of shards."""
from __future__ import annotations

import argparse
import contextlib
import os
import pathlib
import tempfile
from typing import Sequence

from .. import _errors
from .._csv.file import open_input, path_of
from .._errors import Refused, counted
from .._identifiers import MOST_ROWS
from .._inference import options
from .._progress import Waiting
from .._storage import atomic, catalog, columns_file
from .._storage.catalog import FILE, Folder, refuse_folder, shard_file
from .._storage.columns_file import MOST_TABLES, Store, TableFile, Watched, open_regular
from .._types.base import Column
from . import encode
from .encode import processes_for
from .table import Table


def dry_run(given: argparse.Namespace) -> None:
    """Prints the kind of each column, and writes nothing."""
    with tempfile.TemporaryDirectory() as folder:
        Table(given.csv, given, pathlib.Path(folder)).report()


def import_file(given: argparse.Namespace, out: str, is_folder: bool) -> None:
    """Imports a file, all of it or nothing, and prints the kind of each column. A target that is a
    folder of shards stays one."""
    name = _errors.table_name(given.name, out)
    path = out.rstrip("/") or "/"
    if not os.path.isdir(path):
        atomic.refuse_target(path, [path_of(given.csv)])
    elif not is_folder and not os.path.lexists(os.path.join(path, FILE)):
        raise Refused(f"{path} can't be overwritten: it is a folder")
    refuse_out(path)
    _errors.program()
    is_folder = is_folder or os.path.isdir(path)
    with atomic.new_folder(path) as room, open_input(given.csv) as file:
        table = Table(given.csv, given, room, file, is_folder)
        if len(table.coded.parts) == 1 and not is_folder:
            with Waiting().shown("the table is written"):
                table.write(0, name, room / "table.bw", given.by_rows)
            done = put_one(room / "table.bw", table.columns, room, name, path)
        else:
            records = load_shards(table, room, name, given.by_rows)
            done = put_many(records, table.columns, room, name, path)
    # last, since its reader may stop early, as head does
    table.report()
    print(done)


def load_shards(table: Table, room: pathlib.Path, name: str, by_rows: bool) -> list[TableFile]:
    """Writes the shards of a table into the folder `made`, several side by side. Returns their
    records in the order of rows."""
    (room / "made").mkdir()
    shards = len(table.coded.parts)
    count = processes_for(shards, table.source.text.marks().size)

    def load_some(process: int) -> list[TableFile]:
        return [table.record(place, name, shard_file(room / "made", place), by_rows)
                for place in range(process, shards, count)]

    found = encode.do_parts(count, load_some)
    return [found[place % count][place // count] for place in range(shards)]


def verify(path: str) -> None:
    """Reads all of a table file, or of a folder of shards, and of its columns file. Raises Refused
    if a part isn't as it was imported."""
    if os.path.isdir(path):
        with contextlib.closing(Folder(path)) as folder:
            for place, record in enumerate(folder.shards):
                with open_regular(folder.path_of(place)) as file:
                    verify_table(Watched(folder.path_of(place), file), record, folder.store)
            folder.store.verify()
            catalog.refuse_changed(folder.store.watched)
    else:
        with catalog.open_pair(path) as pair:
            verify_table(pair.watched, pair.store.files[0], pair.store)
            pair.store.verify()
            catalog.refuse_changed(pair.watched, pair.store.watched)
    print(f"{path} is as it was imported")


def verify_table(watched: Watched, record: TableFile, store: Store) -> None:
    """Rejects a table file of other bytes than those that were written, or of other columns than
    the columns file has."""
    if catalog.sum_of(watched.file) != record.sha256:
        raise Refused(f"{watched.path} isn't as it was written: its bytes have another SHA-256")
    if not catalog.are_columns_of(store.columns, watched.file):
        raise store.foreign(f"its columns aren't those of {watched.path}")
    catalog.refuse_changed(watched)


def number_of_shards(text: str) -> str:
    """Returns a number of shards, or auto."""
    if text != "auto" and not 1 <= options.number_of(text) <= MOST_TABLES:
        raise argparse.ArgumentTypeError(f"must be auto, or from 1 to {MOST_TABLES}")
    return text


def refuse_rows(rows: int | None) -> None:
    """Rejects a number of rows that a shard can't have."""
    if rows is not None and not 1 <= rows <= MOST_ROWS:
        raise Refused(f"--rows: a shard has from 1 to {MOST_ROWS:,} rows")


def refuse_out(path: str) -> None:
    """Rejects a target that is neither a file nor a folder of shards, or whose columns file is no
    file."""
    if os.path.isdir(path) and not os.path.islink(path):
        refuse_folder(path)
        return
    atomic.refuse_target(path, [])
    atomic.refuse_target(f"{path}.columns", [])


def put_one(made: pathlib.Path, columns: Sequence[Column], room: pathlib.Path, name: str,
            path: str, record: TableFile | None = None) -> str:
    """Moves a table file, of which there may be a record, and its columns file to their places.
    Returns what was done."""
    record = record or catalog.record_of(made)
    columns_file.write(room / "columns", columns, name, [record])
    catalog.put_pair(room, made, room / "columns", record.sha256, path)
    return f"{path} is written, as table {name}, and {path}.columns"


def put_many(records: Sequence[TableFile], columns: Sequence[Column], room: pathlib.Path, name: str,
             path: str) -> str:
    """Moves a folder of shards to its place. Returns what was done."""
    columns_file.write(room / "made" / FILE, columns, name, records)
    atomic.put_folder(room / "made", path, refuse_out)
    return told(path, name, records)


def told(path: str, name: str, records: Sequence[TableFile]) -> str:
    """Returns what is said of a folder of shards that was written."""
    most = max(record.rows for record in records)
    return (f"{path} is written, as table {name}: {counted(len(records), 'shard')} of up to "
            f"{counted(most, 'row')}")

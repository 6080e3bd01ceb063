"""The rows that are asked, as CSV files, table files and databases, each made once in a folder."""
from __future__ import annotations

import os
import pathlib
import random
import re
import sqlite3
import subprocess
from functools import partial
from typing import Callable, Dict, Iterable, Iterator, NamedTuple, Sequence

from timing import TOP, Words

LAYOUTS = ("planes", "slices")
# the rows of the wide tables
WIDE_ROWS = 1_000_000
SCHEMA = ("TABLE m\nCOLUMN a 0 255 NOT NULL\nCOLUMN b -10 10\n"
          "COLUMN c 0 1000000 NOT NULL\nCOLUMN d 0 4294967295\n")
Values = Sequence[object]


class Question(NamedTuple):
    """A statement without SELECT, its name in C, and the column of its condition."""

    name: str
    asked: str
    column: str

    @property
    def shown(self) -> str:
        """The question as tables show it."""
        return f"`{self.asked.replace(' FROM m', '')}`"

    @property
    def needs(self) -> str:
        """The names of the columns that it needs."""
        return "".join(name for name in "abcd" if re.search(rf"\b{name}\b", self.asked))


QUESTIONS = [
    Question("count_a_below_8", "COUNT(*) FROM m WHERE a < 8", "a"),
    Question("sum_d_a_below_8", "SUM(d) FROM m WHERE a < 8", "a"),
    Question("count_a_from_250", "COUNT(*) FROM m WHERE a >= 250", "a"),
    Question("count_c_between", "COUNT(*) FROM m WHERE c BETWEEN 500 AND 900", "c"),
    Question("sum_d_c_below_5000", "SUM(d) FROM m WHERE c < 5000 AND b IS NOT NULL", "c"),
    Question("count_b_in_or_d_null", "COUNT(*) FROM m WHERE b IN (1, 3, 5) OR d IS NULL", "b"),
    Question("min_c_max_d_a_is_7", "MIN(c), MAX(d) FROM m WHERE a = 7", "a"),
    Question("rows_c_below_1000", "c, d FROM m WHERE c < 1000", "c"),
]


def bw_program() -> str:
    """Returns the program bw: that of the environment variable BW, else the one that ./bw runs."""
    return os.environ.get("BW") or subprocess.run(
        [TOP / "bw", "--where"], capture_output=True, text=True, check=True).stdout.strip()


def call(words: Words) -> None:
    """Runs a call, whose output isn't wanted."""
    subprocess.run(list(words), check=True, stdin=subprocess.DEVNULL, stdout=subprocess.DEVNULL)


def compiled(folder: pathlib.Path, name: str, *options: str) -> pathlib.Path:
    """Compiles one of the C programs beside this file, and returns its path."""
    program = folder / name
    call(["gcc", *options, "-o", program, TOP / "bench" / f"{name}.c"])
    return program


def complete(path: pathlib.Path, write: Callable[[pathlib.Path], object]) -> pathlib.Path:
    """Returns the path of a file that is written once, and exists only if it is complete."""
    if not path.exists():
        part = path.with_name(path.name + ".part")
        write(part)
        part.rename(path)
    return path


def written(path: pathlib.Path, text: str) -> pathlib.Path:
    """Writes a text to a file, and returns its path."""
    path.write_text(text, encoding="utf-8")
    return path


def write_csv(path: pathlib.Path, heads: Values, rows: Iterable[Values]) -> None:
    """Writes a CSV file of numbers and names; None is NULL."""
    with open(path, "w", encoding="ascii") as out:
        out.write(",".join(map(str, heads)) + "\n")
        for row in rows:
            out.write(",".join(["NULL" if value is None else str(value) for value in row]) + "\n")


def drawn_rows(rows: int) -> Iterator[Values]:
    """Yields rows of the four columns, the same each time; a null of d is an empty field."""
    draw = random.Random(7).random
    for _ in range(rows):
        yield (int(draw() * 256), None if draw() < 0.05 else int(draw() * 21) - 10,
               int(draw() * 1_000_001), "" if draw() < 0.05 else int(draw() * 4_294_967_296))


def four_columns(folder: pathlib.Path, rows: int, by: str = "") -> pathlib.Path:
    """Returns the CSV of the four columns, sorted by one of them if that is named."""
    if not by:
        return complete(folder / f"rows-{rows}.csv",
                        lambda path: write_csv(path, "abcd", drawn_rows(rows)))
    raw, place = four_columns(folder, rows), "abcd".index(by)

    def number(line: str) -> int:
        field = line.rstrip("\n").split(",")[place]
        return int(field) if field not in ("", "NULL") else -11

    def write(path: pathlib.Path) -> None:
        with open(raw, encoding="ascii") as given, open(path, "w", encoding="ascii") as out:
            out.write(given.readline())
            out.writelines(sorted(given, key=number))
    return complete(folder / f"rows-{by}-{rows}.csv", write)


def table_files(bw: str, schema: pathlib.Path, csv: pathlib.Path, *options: str
                ) -> Dict[str, pathlib.Path]:
    """Returns the table files of a CSV file, by layout, or its files by columns."""
    def load(layout: str, path: pathlib.Path) -> None:
        call([bw, "load", *options, "--layout", layout, schema, csv, path])
    return {layout: complete(csv.with_name(f"{layout}{''.join(options)}-{csv.stem}.bw"),
                             partial(load, layout)) for layout in LAYOUTS}


def schema_file(folder: pathlib.Path) -> pathlib.Path:
    """Returns the schema of the four columns."""
    return written(folder / "rows.schema", SCHEMA)


def tables_of_rows(bw: str, folder: pathlib.Path, rows: int, by: str = "", *options: str
                   ) -> Dict[str, pathlib.Path]:
    """Returns the table files of the four columns, by layout, or their files by columns."""
    return table_files(bw, schema_file(folder), four_columns(folder, rows, by), *options)


def wide_tables(bw: str, folder: pathlib.Path, columns: int, *options: str
                ) -> Dict[str, pathlib.Path]:
    """Returns the table files of a million rows of columns from 0 to 255, of which the first is
    `a`, or their files by columns."""
    names, draw = ["a", *(f"c{number}" for number in range(1, columns))], random.Random(3)
    schema = written(folder / f"wide-{columns}.schema",
                     "TABLE m\n" + "".join(f"COLUMN {name} 0 255 NOT NULL\n" for name in names))
    csv = complete(folder / f"wide-{columns}.csv", lambda path: write_csv(
        path, names, (list(draw.randbytes(columns)) for _ in range(WIDE_ROWS))))
    return table_files(bw, schema, csv, *options)


def database_of(folder: pathlib.Path, rows: int) -> pathlib.Path:
    """Returns the database of the four columns, which sqlite3's shell imports."""
    csv = four_columns(folder, rows)
    script = (f".mode csv\nCREATE TABLE raw(a, b, c, d);\n.import --skip 1 {csv} raw\n"
              "CREATE TABLE m(a INTEGER NOT NULL, b INTEGER, c INTEGER NOT NULL, d INTEGER);\n"
              "INSERT INTO m SELECT a + 0, CASE b WHEN 'NULL' THEN NULL ELSE b + 0 END, c + 0,\n"
              "    CASE d WHEN '' THEN NULL ELSE d + 0 END FROM raw;\nDROP TABLE raw;\nVACUUM;\n")
    return complete(folder / f"rows-{rows}.db", lambda path: subprocess.run(
        ["sqlite3", str(path)], input=script.encode(), check=True))


def in_memory(folder: pathlib.Path, rows: int) -> sqlite3.Connection:
    """Returns that database in memory."""
    memory = sqlite3.connect(":memory:")
    with sqlite3.connect(database_of(folder, rows)) as database:
        database.backup(memory)
    return memory

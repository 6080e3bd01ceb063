"""Times whole queries beside C, sqlite3 and mawk, which answer the same questions.

First bw is compared with bench/tuned.c, C that is tuned by hand and validates each block as bw
does: over table files, and over files by columns, of which both read the columns that a question
needs. Damaged files show that both reject the same ones, with the same error at the same byte.
A session's first answer is compared with C that stores the columns first. Then one question is
asked of 32 columns and of one. With --only-tuned that is all. Then follow plain C (bench/query.c),
sqlite3 and mawk, and a load in each layout beside sqlite3's import, timed once. --sorted compares
with plain C over rows sorted by the column of each condition, which a program can skip more of."""
from __future__ import annotations

import argparse
import pathlib
import re
import subprocess
import sys
from typing import Dict, Iterator, List, Optional, Sequence, Tuple

from data import (LAYOUTS, QUESTIONS, WIDE_ROWS, Question, bw_program, compiled, database_of,
                  four_columns, schema_file, table_files, tables_of_rows, wide_tables)
from timing import TOP, Run, Words, agree, least, run, run_in_turn, show

RUNS, ROWS = 15, 10_000_000
ENGINES = ["bw, planes", "bw, slices", "C, planes", "C, slices", "sqlite3", "mawk over CSV"]
# mawk's test of a row, and its end, for the questions of plain C
AWK = {
    "count_a_below_8": ("$1 < 8 { n++ }", "print n + 0"),
    "sum_d_a_below_8": ("$1 < 8 { s += $4 }", 'printf "%.0f\\n", s'),
    "count_a_from_250": ("$1 >= 250 { n++ }", "print n + 0"),
    "count_c_between": ("$3 >= 500 && $3 <= 900 { n++ }", "print n + 0"),
    "sum_d_c_below_5000": ('$3 < 5000 && $2 != "NULL" { s += $4 }', 'printf "%.0f\\n", s'),
    "count_b_in_or_d_null": ('$2 == "1" || $2 == "3" || $2 == "5" || $4 == "" { n++ }',
                             "print n + 0"),
}
PLAIN = [question for question in QUESTIONS if question.name in AWK]
PROGRAMS = ["below_8_by_planes", "below_8_by_bytes"]
# the options of a load of each sort of file
ORDERS: Dict[str, Sequence[str]] = {"by rows": (), "by columns": ("--columnar",)}
# the rows of a table file of two segments, of 512 and of 2 rows, and bits that are flipped there,
# as fault, byte and bit: each of the faults 301 to 310, 306 and 307 in both segments, and 308 and
# 307 in null planes too
SMALL = "a,b,c,d\n" + "7,3,700,4294967295\n255,NULL,1000000,\n" * 257
IN_HEADER = [(301, 0, 0), (302, 8, 2), (303, 9, 1), (304, 10, 2), (310, 15, 1), (304, 16, 6),
             (304, 17, 7), (304, 35, 7), (304, 36, 1), (304, 57, 0), (304, 89, 0), (305, 13, 2),
             (309, 12, 1)]
# d gets 33 bits, for which version 1 has no room
TOO_WIDE = (304, 89, 0)
IN_BLOCKS = {
    "planes": [(306, 670, 0), (306, 2206, 1), (307, 606, 0), (307, 734, 1), (307, 2334, 1),
               (306, 4958, 0), (307, 5022, 1), (308, 4382, 2), (308, 4894, 2), (308, 8669, 7)],
    "slices": [(306, 670, 7), (306, 2207, 0), (307, 606, 0), (307, 671, 3), (307, 2783, 0),
               (306, 5406, 7), (307, 5407, 3), (308, 4832, 0), (308, 5342, 2), (308, 9565, 0)],
}
# the bytes of its header, and of a block of each column
HEAD = 94
SIZES = {"planes": (512, 384, 1280, 2112), "slices": (512, 576, 1536, 2112)}
Damage = Tuple[int, int, int, str]
Figures = List[Tuple[str, List[Optional[float]]]]


def add_options(parser: argparse.ArgumentParser) -> None:
    """Adds the options of this comparison."""
    parser.add_argument("--only-tuned", action="store_true", help="beside tuned C alone")
    parser.add_argument("--sorted", action="store_true", help="sorted rows, beside plain C alone")


def measure(given: argparse.Namespace) -> None:
    """Prints the tables."""
    bw, folder, rows = bw_program(), given.folder, given.rows
    if given.sorted:
        compare_sorted(bw, folder, rows, given.runs)
        return
    compare_tuned(bw, folder, rows, given.runs)
    if given.only_tuned:
        return
    found = [load_times(bw, folder, rows), *query_times(bw, folder, rows)]
    show(f"Whole queries, ms, {rows:,} rows; minimum of five, of mawk and loads one",
         ["Question", *ENGINES],
         ([name, *("" if taken is None else f"{taken:,.0f}" for taken in times)]
          for name, times in found))


def fault_of(words: Words) -> Optional[Tuple[int, int]]:
    """Returns the number and the byte of the error with which a call fails, if it fails so."""
    done = subprocess.run(list(words), capture_output=True, text=True, stdin=subprocess.DEVNULL,
                          check=False)
    told = re.search(r"\b(\d+) (?:[a-z ]+ )?at byte (\d+)$", done.stderr.strip())
    return (int(told[1]), int(told[2])) if done.returncode and told and not done.stdout else None


def calls_of(bw: str, tuned: pathlib.Path, question: Question, table: pathlib.Path) -> List[Words]:
    """Returns the calls of bw and of tuned C for a question."""
    return [[bw, "query", table, f"SELECT {question.asked}"], [tuned, question.name, table]]


def damage_of(layout: str, order: str) -> Iterator[Damage]:
    """Yields which bits are flipped in the small file of a layout and an order: the error, the
    byte, the bit, and the columns whose readers see it."""
    is_by_rows, sizes = order == "by rows", SIZES[layout]
    yield from ((*each, "") for each in IN_HEADER if is_by_rows or each != TOO_WIDE)
    for fault, byte, bit in IN_BLOCKS[layout]:
        segment, at = divmod(byte - HEAD, sum(sizes))
        column = max(each for each in range(4) if sum(sizes[:each]) <= at)
        moved = sum(sizes[:column]) + segment * (sizes[column] - sum(sizes))
        yield (fault, byte, bit, "") if is_by_rows else (fault, byte + moved, bit, "abcd"[column])


def compare_damaged(bw: str, tuned: pathlib.Path, folder: pathlib.Path) -> None:
    """Checks that both programs reject files in which one bit was flipped, with the same error at
    the same byte, and that both answer if they don't read it."""
    csv, count = folder / "small.csv", 0
    csv.write_text(SMALL, encoding="ascii")
    for order, options in ORDERS.items():
        for layout, table in table_files(bw, schema_file(folder), csv, *options).items():
            for question in QUESTIONS:
                agree(question.asked, [run(words).text
                                       for words in calls_of(bw, tuned, question, table)])
            for number, damage in enumerate(damage_of(layout, order)):
                count += check_damage(bw, tuned, table, damage, number)
    print(f"bw and the tuned program reject {count} damaged files, with the same error at the "
          "same byte.\n", flush=True)


def check_damage(bw: str, tuned: pathlib.Path, table: pathlib.Path, damage: Damage, number: int
                 ) -> int:
    """Checks what both say of a file with a flipped bit. Returns how often they reject it."""
    fault, byte, bit, columns = damage
    path, data = table.with_name("damaged.bw"), bytearray(table.read_bytes())
    data[byte] ^= 1 << bit
    path.write_bytes(data)
    readers = [each for each in QUESTIONS if not columns or columns in each.needs]
    question = readers[number % len(readers)]
    told = [fault_of(words) for words in calls_of(bw, tuned, question, path)]
    if told[0] is None or told[0] != told[1] or told[0][0] != fault:
        sys.exit(f"bit {bit} of byte {byte} of {table.name} is error {fault}, but bw and the tuned "
                 f"program report: {told}")
    for question in QUESTIONS:
        if question not in readers:
            agree(question.asked, [run(words).text for at in (path, table)
                                   for words in calls_of(bw, tuned, question, at)])
    return 1


def compare_tuned(bw: str, folder: pathlib.Path, rows: int, runs: int) -> None:
    """Prints the times beside tuned C."""
    tuned = compiled(folder, "tuned", "-O3", "-march=x86-64-v2")
    compare_damaged(bw, tuned, folder)
    for order, options in ORDERS.items():
        tables = tables_of_rows(bw, folder, rows, "", *options)
        show(f"Files {order} beside tuned C, ms, {rows:,} rows; minimum of {runs}",
             ["Question", *(head for layout in LAYOUTS
                            for head in (f"bw, {layout}", "tuned C", "bw / tuned C"))],
             (beside_tuned(bw, tuned, tables, question, runs) for question in QUESTIONS))
        if order == "by columns":
            show(f"A session's first answer over files by columns beside tuned C that keeps the "
                 f"columns, ms, {rows:,} rows; minimum of {runs}",
                 ["Question", *(head for layout in LAYOUTS
                                for head in (f"bw session, {layout}", "tuned C", "bw / tuned C"))],
                 (first_beside_tuned(bw, tuned, tables, question, runs) for question in QUESTIONS))
    show_widths(bw, folder, runs)


def beside_tuned(bw: str, tuned: pathlib.Path, tables: Dict[str, pathlib.Path],
                 question: Question, runs: int) -> Sequence[str]:
    """Returns the line of a question."""
    calls = {f"{number} {layout}": words for layout, table in tables.items()
             for number, words in enumerate(calls_of(bw, tuned, question, table))}
    found = run_in_turn(calls, runs)
    agree(question.asked, [each.text for each in found.values()])
    cells = [question.shown]
    for layout in LAYOUTS:
        ours, theirs = (found[f"{number} {layout}"].wall for number in (0, 1))
        cells += [f"{ours:.1f}", f"{theirs:.1f}", f"{ours / theirs:.2f}"]
    return cells


def first_beside_tuned(bw: str, tuned: pathlib.Path, tables: Dict[str, pathlib.Path],
                       question: Question, runs: int) -> Sequence[str]:
    """Returns the line of a question that is the only one of a session."""
    cells, asked = [question.shown], tables[LAYOUTS[0]].with_name("asked.sql")
    asked.write_text(f"SELECT {question.asked};\n", encoding="ascii")
    for layout in LAYOUTS:
        ours: Optional[Run] = None
        theirs: Optional[Run] = None
        for _ in range(runs):
            ours = run([bw, "session", tables[layout]], source=asked).best(ours)
            theirs = run([tuned, question.name, tables[layout], "--keep"]).best(theirs)
        assert ours and theirs
        agree(question.asked, [ours.text, theirs.text])
        cells += [f"{ours.wall:.1f}", f"{theirs.wall:.1f}", f"{ours.wall / theirs.wall:.2f}"]
    return cells


def show_widths(bw: str, folder: pathlib.Path, runs: int) -> None:
    """Prints the times of one question over one column, and over 32 of which it needs one."""
    question = QUESTIONS[0]

    def lines() -> Iterator[Sequence[str]]:
        for order, options in ORDERS.items():
            tables = {columns: wide_tables(bw, folder, columns, *options) for columns in (1, 32)}
            for layout in LAYOUTS:
                found = run_in_turn({str(columns): [bw, "query", each[layout],
                                                    f"SELECT {question.asked}"]
                                     for columns, each in tables.items()}, runs)
                one, many = (each.wall for each in found.values())
                yield [order, layout, f"{one:.2f}", f"{many:.2f}", f"{many / one:.2f}"]
    show(f"{question.shown} of one column and of 32, ms, {WIDE_ROWS:,} rows; minimum of {runs}",
         ["File", "Layout", "1 column", "32 columns", "ratio"], lines())


def load_times(bw: str, folder: pathlib.Path, rows: int) -> Tuple[str, List[Optional[float]]]:
    """Returns the times of one load in each layout and of sqlite3's import, in the order of the
    engines. The others load nothing."""
    words = [schema_file(folder), four_columns(folder, rows), folder / "loaded.bw"]
    times: List[Optional[float]] = [run([bw, "load", "--layout", layout, *words]).wall
                                    for layout in LAYOUTS]
    (folder / f"rows-{rows}.db").unlink(missing_ok=True)
    imported, _ = least(lambda: database_of(folder, rows), 1)
    return "load, or import, of the CSV", [*times, None, None, imported, None]


def query_times(bw: str, folder: pathlib.Path, rows: int) -> Figures:
    """Returns the times of the engines for each question of plain C."""
    c, csv = compiled(folder, "query", "-O2"), four_columns(folder, rows)
    tables, database, found = tables_of_rows(bw, folder, rows), database_of(folder, rows), []
    for question in PLAIN:
        sql, (test, end) = f"SELECT {question.asked}", AWK[question.name]
        calls: Dict[str, Words] = {f"bw, {layout}": [bw, "query", table, sql]
                                   for layout, table in tables.items()}
        calls.update({f"C, {layout}": [c, question.name, table]
                      for layout, table in tables.items()})
        calls["sqlite3"] = ["sqlite3", database, sql]
        taken = run_in_turn(calls, 5)
        taken.update(run_in_turn(
            {"mawk over CSV": ["mawk", "-F,", f"NR > 1 && {test} END {{ {end} }}", csv]}, 1))
        # sqlite3 and mawk write no heading
        agree(question.asked, [each.text.split("\n")[-1] for each in taken.values()])
        times: List[Optional[float]] = [taken[engine].wall for engine in ENGINES]
        found.append((question.shown, times))
    return found


def compare_sorted(bw: str, folder: pathlib.Path, rows: int, runs: int) -> None:
    """Prints the times beside plain C over sorted rows, with loads and skips."""
    c = compiled(folder, "query", "-O2")

    def lines() -> Iterator[Sequence[str]]:
        for question in PLAIN:
            tables = tables_of_rows(bw, folder, rows, question.column)
            files = PROGRAMS if question.name == "count_a_below_8" else []
            for layout, table in tables.items():
                for file in ["", *files]:
                    program = TOP / "bench" / f"{file}.prog"
                    more: Words = ["--program", program] if file else []
                    yield line_of(bw, c, question, layout, table, file, more, runs)
    show(f"Sorted rows beside plain C, ms, {rows:,} rows; minimum of {runs}",
         ["Question", "layout", "C", "bw", "bw / C", "loads", "skips"], lines())


def line_of(bw: str, c: pathlib.Path, question: Question, layout: str, table: pathlib.Path,
            file: str, more: Words, runs: int) -> Sequence[str]:
    """Returns the line of a question over sorted rows."""
    sql = f"SELECT {question.asked}"
    found = run_in_turn({"C": [c, question.name, table],
                         "bw": [bw, "query", *more, table, sql]}, runs)
    agree(question.asked, [each.text for each in found.values()])
    told = subprocess.run([bw, "query", "--stats", *more, table, sql], capture_output=True,
                          text=True, check=True).stderr
    counts = re.search(r"loads (\d+) skips (\d+)", told)
    theirs, ours = found["C"].wall, found["bw"].wall
    return [f"{question.shown}, by {file}.prog" if file else question.shown, layout,
            f"{theirs:.1f}", f"{ours:.1f}", f"{ours / theirs:.2f}",
            *(counts.groups() if counts else ("", ""))]

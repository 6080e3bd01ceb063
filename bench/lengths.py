"""Times bw on texts of the maximum length or depth, and of a quarter and a half of it, to show that
time grows in proportion to length. Most of the first ones is starting the program."""
from __future__ import annotations

import argparse
import pathlib
import subprocess
from functools import partial
from typing import Callable, Iterator, List, Sequence, Tuple

from data import bw_program, written
from timing import TOP, Words, least, show

RUNS, ROWS = 5, 512
SCHEMA, CSV = TOP / "examples" / "common.schema", TOP / "examples" / "common.csv"
ASK = "SELECT a FROM t WHERE "


def add_options(_parser: argparse.ArgumentParser) -> None:
    """Adds no options."""


def numbers(length: int) -> str:
    """Returns a statement of this length, with an IN list of numbers of five digits."""
    count = (length - len(ASK) - 7) // 6
    return f"{ASK}a IN ({','.join(f'{number % 256:05}' for number in range(count))})"


def texts(folder: pathlib.Path) -> List[Tuple[str, int, Callable[[int], Words]]]:
    """Returns what grows, its maximum length, and the arguments of a call of a length."""
    def direct(sql: str, csv: pathlib.Path = CSV) -> Words:
        return ["direct", SCHEMA, csv, sql]

    def over(text: str) -> Words:
        return direct(f"{ASK}a = 1", written(folder / "long.csv", text))

    def program(length: int) -> Words:
        lines = "NODE 0 0 0\n" * ((length - 22) // 11)
        file = written(folder / "long.prog", f"RESULT r0\nCERTIFICATE\n{lines}")
        return ["check", SCHEMA, f"{ASK}a = 1", file]
    return [
        ("opening brackets in a statement", 65536, lambda n: direct((ASK + "(" * n)[:n])),
        ("NOT after NOT in a statement", 65536, lambda n: direct((ASK + "NOT " * n)[:n])),
        ("letters of a column's name", 65536, lambda n: direct(("SELECT " + "a" * n)[:n])),
        ("bytes of an IN list", 65536, lambda n: direct(numbers(n))),
        ("fields of a record", 1_000_000, lambda n: over("a,b\n" + ",".join(["1"] * n) + "\n")),
        ("digits of a field", 1_000_000, lambda n: over("a,b\n" + "1" * n + ",2\n")),
        ("bytes of a program file", 64 << 20, program),
    ]


def first_line(words: Words) -> str:
    """Runs a call, and returns the first line that it writes."""
    done = subprocess.run(list(words), stdin=subprocess.DEVNULL, stdout=subprocess.PIPE,
                          stderr=subprocess.STDOUT, check=False)
    return done.stdout.decode().split("\n")[0]


def measure(given: argparse.Namespace) -> None:
    """Prints the table."""
    bw = bw_program()

    def lines() -> Iterator[Sequence[str]]:
        for what, most, words in texts(given.folder):
            cells, told = [what, f"{most:,}"], ""
            for part in (4, 2, 1):
                call = [bw, *words(most // part)]
                taken, told = least(partial(first_line, call), given.runs)
                cells.append(f"{taken:.1f}")
            yield [*cells, f"`{told}`"]
    show("Texts as long as allowed, ms", ["Length", "Maximum", "A quarter", "Half", "All",
                                          "Output"], lines())

"""Compares the programs that two builds of bw plan: python3 -m tests.plans OLD NEW [--seed N]
[--count N]. Each plans as many drawn conditions, over drawn columns and those of `drawn`, and runs
them over drawn rows. NEW must plan each that OLD plans, accept its own program, and print OLD's
result. It prints each condition of which that isn't so, and exits with 1 if there is one; then how
many have a program, and of those that have one by both how many instructions, and how many of these
load a plane or a byte, or compute what their register has already, by the certificate; how many
product rows that takes; and how many loads the runs take."""
from __future__ import annotations

import argparse
import pathlib
import random
import re
import sys
import tempfile
from collections import Counter
from dataclasses import dataclass, field
from typing import Iterator

from tests import drawn, support
from tests.drawn_programs import Statements

# of how many conditions each schema is
A_SCHEMA, ROWS = 10, 1500
LOADS = ("LOAD", "NULLS", "BYTELT", "BYTEEQ")
SERVED = re.compile(r"served (\w+) segments \d+ loads (\d+)")


@dataclass(frozen=True)
class Table:
    """A schema, and conditions over it."""

    columns: dict[str, drawn.Bounds]
    near: tuple[int, ...]
    conditions: list[str]


@dataclass
class Planned:
    """What a build does for a condition: its status, its program file, its result, and counts of
    both, none if it has no program."""

    status: int
    text: str
    result: str
    counts: Counter[str] = field(default_factory=Counter)


def tables(seed: int, count: int) -> Iterator[Table]:
    """Yields tables of as many conditions."""
    for number in range(0, count, A_SCHEMA):
        chance = random.Random(seed * 1_000_003 + number)
        kind, few = number // A_SCHEMA % 5, range(min(A_SCHEMA, count - number))
        conditions = drawn.Conditions(chance)
        if kind == 3:
            yield Table(drawn.MIXED, drawn.NEAR, [conditions.condition(at % 4) for at in few])
        elif kind == 4:
            yield Table(drawn.WIDE, drawn.NEAR, [conditions.long_condition(2 + at) for at in few])
        else:
            over = Statements(chance)
            yield Table(over.columns, drawn.NEAR, [over.condition(at % 4) for at in few])


def nodes_of(certificate: list[list[str]]) -> Iterator[str]:
    """Yields the node of each instruction but skips and those that fill, by a certificate."""
    rows = [line[5] for line in certificate if line[0] == "ROW"]
    chains = [line[7] for line in certificate if line[0] == "CHAIN"]
    for line in certificate:
        if line[0] == "LOAD":
            yield line[1]
        elif line[0] == "OP":
            yield rows[int(line[1])]
        elif line[0] == "BYTE":
            yield chains[int(line[1])] if line[1] != "-" else "-"


def counts_of(text: str) -> Counter[str]:
    """Returns the counts of a program file."""
    above, _, below = text.partition("CERTIFICATE\n")
    program = [line.split() for line in above.splitlines()][:-1]
    certificate = [line.split() for line in below.splitlines()]
    nodes, held = nodes_of(certificate), dict[str, str]()
    found = Counter(instructions=len(program), rows=sum(line[0] == "ROW" for line in certificate))
    for line in program:
        found["loads"] += line[0] in LOADS
        if line[0] != "SKIP":
            node = line[2] if line[0] == "FILL" else next(nodes)
            found["idle"] += held.get(line[1]) == node
            held[line[1]] = node
    return found


class Build:
    """A build of bw, and files in a folder."""

    def __init__(self, path: str, folder: pathlib.Path) -> None:
        self.path, self.folder = pathlib.Path(path).resolve(), folder

    def run(self, *words: str) -> support.Done:
        return support.run([self.path, *words], cwd=self.folder)

    def planned(self, condition: str) -> Planned:
        """Returns what it does for a condition."""
        sql = f"SELECT * FROM t WHERE {condition}"
        done, asked = self.run("plan", "t.schema", sql), self.run("query", "--stats", "t.bw", sql)
        made = Planned(done.status, done.out, f"{asked.status} {asked.out}")
        if not made.status:
            made.counts = counts_of(done.out)
            told = SERVED.search(asked.err)
            made.counts["loaded"] = int(told[2]) if told and told[1] == "program" else -10 ** 9
        return made

    def accepts(self, condition: str, text: str) -> bool:
        (self.folder / "t.prog").write_text(text, encoding="utf-8")
        done = self.run("check", "t.schema", f"SELECT * FROM t WHERE {condition}", "t.prog")
        return done.out.startswith("accepted")


def write(table: Table, chance: random.Random, build: Build) -> None:
    """Writes a table's files."""
    lines = [f"COLUMN {name} {low} {high}{'' if null else ' NOT NULL'}"
             for name, (low, high, null) in table.columns.items()]
    rows = drawn.whole_rows(chance, table.columns, table.near, ROWS)
    (build.folder / "t.schema").write_text("\n".join(["TABLE t", *lines, ""]), encoding="utf-8")
    (build.folder / "t.csv").write_text(
        "".join(",".join(map(str, row)) + "\n" for row in [[*table.columns], *rows]),
        encoding="utf-8")
    done = build.run("load", "t.schema", "t.csv", "t.bw")
    if done.status:
        sys.exit(done.err)


def compare(old: Build, new: Build, condition: str, counts: list[Counter[str]]) -> str:
    """Returns what is wrong with the new program of a condition, and adds to both counts."""
    was, now = old.planned(condition), new.planned(condition)
    for made, count in zip((was, now), counts):
        count["programs"] += not made.status
        if not was.status and not now.status:
            count.update(made.counts)
    if not now.status and not new.accepts(condition, now.text):
        return "isn't accepted"
    if now.result != was.result:
        return "has another result"
    return "" if was.status or not now.status else "has no program any more"


def main() -> int:
    """Compares both builds."""
    parser = argparse.ArgumentParser(description=__doc__)
    parser.add_argument("old")
    parser.add_argument("new")
    parser.add_argument("--seed", type=int, default=1)
    parser.add_argument("--count", type=int, default=1300)
    given = parser.parse_args()
    counts, wrong = [Counter[str](), Counter[str]()], 0
    with tempfile.TemporaryDirectory() as room:
        old, new = Build(given.old, pathlib.Path(room)), Build(given.new, pathlib.Path(room))
        for number, table in enumerate(tables(given.seed, given.count)):
            write(table, random.Random(given.seed + number), old)
            for condition in table.conditions:
                said = compare(old, new, condition, counts)
                wrong += bool(said)
                if said:
                    print(f"{(old.folder / 't.schema').read_text()}{condition}: {said}")
    print(f"seed {given.seed}: {given.count} conditions, {wrong} wrong")
    for name in counts[1] | counts[0]:
        was, now = counts[0][name], counts[1][name]
        print(f"{name} {was} -> {now} ({100 * (now - was) / max(was, 1):+.1f} %)")
    return int(wrong > 0)


if __name__ == "__main__":
    sys.exit(main())

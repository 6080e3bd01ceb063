"""Compares verify/check.py and verify/answer.py with bw: python3 -m tests.second_checker [--seed N]
[--count N] [--mutated N] [--answers N]. It checks as many programs over drawn schemas and
conditions, every other one planned, the others changed and then certified; as many program files
of which something was changed; and as many answers, some of them of changed schemas, statements or
CSVs. It prints each that differs, and exits with 1 if one does."""
from __future__ import annotations

import argparse
import itertools
import pathlib
import random
import re
import sys
import tempfile
from collections import Counter
from dataclasses import dataclass
from typing import Callable, Iterator, Optional

from tests import support
from tests.drawn_programs import Statements, changed, mutated, mutated_csv, mutated_statement
from tests.support import ROOT

sys.path.insert(0, str(ROOT / "verify"))
import answer  # noqa: E402
import check  # noqa: E402

# how many statements are asked of a CSV, and how often a program is changed to have it certified
A_CSV, TRIES = 6, 6
# what is changed for answers: nothing for every other CSV
KINDS = ("answer", "statement", "answer", "schema", "answer", "CSV")
# the files into which a CSV is loaded, and the options of each load
FILES: dict[str, list[str]] = {
    "planes.bw": [], "slices.bw": ["--layout", "slices"], "columns.bw": ["--columnar"],
    "sliced_columns.bw": ["--columnar", "--layout", "slices"]}
ERROR = re.compile(r"bw: (\d+) [^\d\n]*?(?: at (\w+ \d+))?\n")
TOLD = re.compile(r"(\d+)(?: at \w+ \d+)?")


@dataclass(frozen=True)
class Checked:
    """A program file that was checked."""

    schema: str
    sql: str
    program: str


@dataclass(frozen=True)
class Compared:
    """What was asked of both, and what each said."""

    kind: str
    asked: str
    theirs: str
    ours: str

    @property
    def counted(self) -> str:
        """Returns what was asked, with the number of bw's error, if there is one."""
        found = TOLD.fullmatch(self.theirs)
        return f"{self.kind} {found[1] if found else 'accepted'}"


class Both:
    """Asks bw and verify, with files in a folder."""

    def __init__(self, folder: pathlib.Path) -> None:
        self.folder = folder

    def write(self, name: str, text: str | bytes) -> pathlib.Path:
        path = self.folder / name
        path.write_bytes(text if isinstance(text, bytes) else text.encode("latin-1"))
        return path

    @staticmethod
    def bw(*words: object) -> str:
        """Returns what bw prints, or the number and the place of its error."""
        done = support.bw(*words)
        error = ERROR.fullmatch(done.err)
        if done.status not in (0, 3, 4) or (done.status == 0) != (not error):
            return f"status {done.status}: {done.err}"
        return done.out if not error else " at ".join(filter(None, error.groups()))

    def check(self, schema: str, sql: str, program: str | bytes, kind: str) -> Compared:
        """Compares what is said of a program file."""
        given = self.write("t.prog", program)
        theirs = self.bw("check", self.write("t.schema", schema), sql, given)
        theirs = "accepted" if theirs.startswith("accepted: ") else theirs

        def ask() -> str:
            known = check.Schema(schema.encode("latin-1"))
            statement = check.Statement(known, sql.encode())
            check.check(known, statement.condition, given.read_bytes())
            return "accepted"

        return Compared(kind, f"{schema}{sql}\n{given.read_text('latin-1')}", theirs, said(ask))

    def answers(self, schema: str, csv: str, asked: list[tuple[str, str]]) -> Iterator[Compared]:
        """Compares answers of a CSV, and of its files by rows and by columns, if it can be
        loaded."""
        paths = [self.write("t.schema", schema), self.write("t.csv", csv)]
        loads = [self.bw("load", *options, *paths, self.folder / name)
                 for name, options in FILES.items()]
        yield from (Compared("load", f"{schema}{csv[:2000]}", each, loads[0]) for each in loads[1:])
        for kind, sql in asked:
            def ask(sql: str = sql) -> str:
                known = check.Schema(schema.encode("latin-1"))
                return answer.answer(known, check.Statement(known, sql.encode()),
                                     csv.encode("latin-1"))

            ours, what = said(ask), f"{schema}{csv[:2000]}\n{sql}"
            yield Compared(kind, what, self.bw("direct", *paths, sql), ours)
            for name in FILES if not loads[0] else ():
                yield Compared(kind, f"{name}\n{what}",
                               self.bw("query", self.folder / name, sql), ours)

    def planned(self, seed: str) -> Optional[Checked]:
        """Returns a planned program over a drawn schema, if there is one."""
        over = Statements(random.Random(seed))
        sql = f"SELECT COUNT(*) FROM t{over.where()}"
        done = support.bw("plan", self.write("t.schema", over.schema()), sql)
        return Checked(over.schema(), sql, done.out) if done.status == 0 else None

    def certified(self, seed: str) -> Optional[Checked]:
        """Returns a planned program that was changed and then certified, if there is one."""
        found, chance = self.planned(seed), random.Random(f"changed {seed}")
        text = found.program.partition("CERTIFICATE")[0] if found else ""
        program = [line.split() for line in text.splitlines()]
        for _ in range(TRIES if found else 0):
            new = program
            for _ in range(chance.choice((1, 1, 2, 4))):
                new = changed(new, chance)
            path = self.write("t.prog", "".join(f"{' '.join(line)}\n" for line in new))
            done = support.bw("certify", self.folder / "t.schema", found.sql if found else "", path)
            if found and done.status == 0:
                return Checked(found.schema, found.sql, done.out)
        return None

    def programs(self, seed: int, count: int) -> Iterator[Checked]:
        """Yields as many programs, every other one planned."""
        for number in itertools.count():
            found = (self.certified, self.planned)[count % 2](f"{seed} {number}") if count else None
            count -= found is not None
            if found:
                yield found
            if not count:
                return


def said(ask: Callable[[], str]) -> str:
    """Returns what verify says: an answer, or an error."""
    try:
        return ask()
    except check.Fault as fault:
        return " at ".join(map(str, fault.args))


def compare_programs(both: Both, seed: int, count: int, mutants: int) -> Iterator[Compared]:
    """Compares programs, and as many mutants of each as of any other."""
    for number, found in enumerate(both.programs(seed, count)):
        kind = "planned" if (count - number) % 2 else "certified"
        first = both.check(found.schema, found.sql, found.program, kind)
        yield first if first.theirs == "accepted" else \
            Compared(kind, first.asked, first.theirs, "accepted by bw itself before")
        for mutant in range(mutants * number // count, mutants * (number + 1) // count):
            chance = random.Random(f"mutant {seed} {mutant}")
            yield both.check(found.schema, found.sql, mutated(found.program, chance), "mutant")


def compare_answers(both: Both, seed: int, count: int) -> Iterator[Compared]:
    """Compares answers over drawn CSVs."""
    for number in range(0, count, A_CSV):
        chance = random.Random(f"answers {seed} {number}")
        over = Statements(chance)
        csv, schema = over.csv(chance.choice((0, 1, 5, 30, 600))), over.schema()
        kind = KINDS[number // A_CSV % len(KINDS)]
        asked = [over.statement() for _ in range(min(A_CSV, count - number))]
        if kind == "schema":
            schema = mutated(schema, chance).decode("latin-1")
        elif kind == "CSV":
            csv = mutated_csv(csv, chance)
        elif kind == "statement":
            asked = [mutated_statement(sql, chance) for sql in asked]
        yield from both.answers(schema, csv, [(kind, sql) for sql in asked])


def main() -> int:
    parser = argparse.ArgumentParser(prog="python3 -m tests.second_checker", description=__doc__)
    for name, count in (("seed", 1), ("count", 2000), ("mutated", 15_000), ("answers", 3000)):
        parser.add_argument(f"--{name}", type=int, default=count, metavar="N")
    given = parser.parse_args()
    counts, wrong = Counter[str](), 0
    with tempfile.TemporaryDirectory() as name:
        both = Both(pathlib.Path(name))
        for each in itertools.chain(
                compare_programs(both, given.seed, given.count, given.mutated),
                compare_answers(both, given.seed, given.answers)):
            counts[each.counted] += 1
            if each.theirs != each.ours:
                wrong += 1
                print(f"{each.kind}\n{each.asked}\n  bw: {each.theirs[:300]!r}\n"
                      f"  verify: {each.ours[:300]!r}\n", flush=True)
    print(", ".join(f"{kind} {count:,}" for kind, count in sorted(counts.items())))
    print(f"seed {given.seed}: {sum(counts.values()) - wrong:,} as bw, {wrong:,} not")
    return int(wrong > 0)


if __name__ == "__main__":
    sys.exit(main())

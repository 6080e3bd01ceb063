"""`bw recode`: drawn tables whose codes are replaced, beside the rows that Python makes of them."""
from __future__ import annotations

import pathlib
import random
from typing import NamedTuple, Optional

from tests.support import TestCase, bw

SEED = 20261130
TABLES = 30
Value = Optional[int]


class Column(NamedTuple):
    """A column of the old table and the new one: its bounds, whether it may be null, and the
    values of its codes, unless it is kept."""

    low: int
    high: int
    nullable: bool
    new_low: int
    new_high: int
    new_nullable: bool
    values: Optional[list[Value]]

    def lines(self) -> list[str]:
        if self.values is None:
            return ["KEEP"]
        return ["CODES", *("NULL" if value is None else str(value) for value in self.values)]

    def replaced(self, value: Value) -> Value:
        """Returns what a value of the old table becomes."""
        return value if self.values is None or value is None else self.values[value - self.low]


def drawn_column(draw: random.Random) -> Column:
    """Returns a column whose codes are few, at any place of 64 bits."""
    low = draw.choice([0, -7, draw.randrange(-2**63, 2**63 - 1100)])
    high = low + draw.choice([0, 1, draw.randrange(1000)])
    nullable = draw.random() < 0.5
    if draw.random() < 0.3:
        less, more = draw.choice([(0, 0), (min(5, low + 2**63), 3)])
        return Column(low, high, nullable, low - less, high + more, True, None)
    new_low = draw.choice([0, -2**62, draw.randrange(-10**6, 10**6)])
    new_high = new_low + draw.choice([0, 3, 10**5, 2**62])
    new_nullable = nullable or draw.random() < 0.5
    values = [None if new_nullable and draw.random() < 0.2 else draw.randint(new_low, new_high)
              for _ in range(high - low + 1)]
    return Column(low, high, nullable, new_low, new_high, new_nullable, values)


def schema_text(bounds: list[tuple[int, int, bool]]) -> str:
    return "TABLE t\n" + "".join(
        f"COLUMN c{at} {low} {high}{'' if nullable else ' NOT NULL'}\n"
        for at, (low, high, nullable) in enumerate(bounds))


def csv_text(rows: list[list[Value]], width: int) -> str:
    heading = ",".join(f"c{at}" for at in range(width))
    return "".join(line + "\n" for line in (heading, *(
        ",".join("NULL" if value is None else str(value) for value in row) for row in rows)))


class Recoded(TestCase):
    """Each table has 0 to 1,500 rows, so up to three segments."""

    def test_rows_are_replaced(self) -> None:
        draw, folder = random.Random(SEED), self.new_folder()
        for at in range(TABLES):
            with self.subTest(seed=SEED, table=at):
                self.compare(folder, draw)

    def compare(self, folder: pathlib.Path, draw: random.Random) -> None:
        """Draws a table, and compares what bw and Python make of it."""
        columns = [drawn_column(draw) for _ in range(draw.randint(1, 5))]
        rows = [[None if column.nullable and draw.random() < 0.1
                 else draw.randint(column.low, column.high) for column in columns]
                for _ in range(draw.choice([0, 1, 512, draw.randrange(1500)]))]
        files = {
            "old.schema": schema_text([each[:3] for each in columns]),
            "new.schema": schema_text([each[3:6] for each in columns]),
            "old.csv": csv_text(rows, len(columns)),
            "numbers": "".join(line + "\n" for each in columns for line in each.lines()),
        }
        for each, text in files.items():
            (folder / each).write_text(text, encoding="ascii")
        layout = draw.choice(["planes", "slices"])
        orders = [[], ["--columnar"]]
        for order, name in zip(orders, ("old.bw", "old.columns")):
            words = ["load", *order, "--layout", layout, "old.schema", "old.csv", name]
            self.assertEqual(bw(*words, cwd=folder), (0, "", ""))
        order = draw.choice(orders)
        for old, new in (("old.bw", "new.bw"), ("old.columns", "other.bw")):
            words = ["recode", *order, old, "new.schema", "numbers", new]
            self.assertEqual(bw(*words, cwd=folder), (0, "", ""))
        wanted = [[column.replaced(value) for column, value in zip(columns, row)] for row in rows]
        text = csv_text(wanted, len(columns))
        self.assertEqual(bw("dump", "new.bw", cwd=folder), (0, text, ""))
        (folder / "new.csv").write_text(text, encoding="ascii")
        bw("load", *order, "--layout", layout, "new.schema", "new.csv", "loaded.bw", cwd=folder)
        for each in ("new.bw", "other.bw"):
            self.assertEqual((folder / each).read_bytes(), (folder / "loaded.bw").read_bytes())

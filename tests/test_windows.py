"""Files by columns of more segments than a query has in memory at a time."""
from __future__ import annotations

import pathlib
import random

from tests import support
from tests.column_files import LAYOUTS, File, outcome
from tests.second_checker import Both
from tests.support import bw

# In either layout a block of each column has some 4,096 bytes. So all segments are read at a time
# if at most five columns are named, and two of more than ten. The last segment has fewer rows.
COLUMNS, ROWS, HIGH = 40, 512 * 5 + 77, 2 ** 61
NAMES = [f"c{number}" for number in range(COLUMNS)]


class Windows(support.TestCase):
    """The same answers as over a table file, however many columns are named; and of damaged blocks
    the first error in the order of the columns, each completely."""

    def setUp(self) -> None:
        self.folder = self.new_folder()
        self.chance = random.Random(512)

    def load(self, layout: str) -> tuple[pathlib.Path, pathlib.Path]:
        """Loads drawn rows. Returns the table file, and the file by columns."""
        schema, rows = self.folder / "t.schema", self.folder / "t.csv"
        schema.write_text("TABLE t\n" + "".join(
            f"COLUMN {name} {-HIGH} {HIGH}{' NOT NULL' * (number % 2)}\n"
            for number, name in enumerate(NAMES)), encoding="utf-8")
        drawn = [",".join(self.value(number) for number in range(COLUMNS)) for _ in range(ROWS)]
        rows.write_text("\n".join([",".join(NAMES), *drawn, ""]), encoding="utf-8")
        by_rows, by_columns = self.folder / f"{layout}.bw", self.folder / f"{layout}.columns"
        for options, path in (([], by_rows), (["--columnar"], by_columns)):
            done = bw("load", *options, "--layout", layout, schema, rows, path)
            self.assertEqual(done, (0, "", ""))
        return by_rows, by_columns

    def value(self, number: int) -> str:
        if number % 2 == 0 and self.chance.random() < 0.1:
            return "NULL"
        return str(self.chance.choice((self.chance.randint(-HIGH, HIGH),
                                       self.chance.randint(-9, 9), HIGH)))

    def named(self, count: int) -> list[str]:
        return sorted(self.chance.sample(NAMES, count), key=NAMES.index)

    def test_answers(self) -> None:
        for layout in LAYOUTS:
            by_rows, by_columns = self.load(layout)
            self.assertEqual(bw("dump", by_rows), bw("dump", by_columns))
            for count in (1, 2, 12, 13, 16, 21, 22, 32, 33, 40):
                names = self.named(count)
                condition = " OR ".join(f"{name} > 3" for name in names[:count // 2])
                for items in (", ".join(names), ", ".join(f"MAX({name})" for name in names),
                              f"COUNT({names[-1]}), SUM({names[0]})"):
                    sql = f"SELECT {items} FROM t{condition and f' WHERE {condition}'}"
                    with self.subTest(sql[:60], layout=layout, count=count):
                        self.assertEqual(bw("query", "--stats", by_rows, sql),
                                         bw("query", "--stats", by_columns, sql))

    def test_damage(self) -> None:
        for layout in LAYOUTS:
            _, path = self.load(layout)
            whole = path.read_bytes()
            file = File(whole)
            for _ in range(20):
                names = self.named(self.chance.choice((1, 12, 13, 22, 40)))
                data = bytearray(whole)
                for name in self.chance.sample(names, min(len(names), 2)):
                    column = NAMES.index(name)
                    place = file.place(column, self.chance.randrange(file.segments))
                    # a code above the maximum, or a bit of a row past the last one
                    data[place + file.sizes[column] - self.chance.choice((1, 64))] |= 128
                path.write_bytes(data)
                sql = f"SELECT {', '.join(f'MIN({name})' for name in names)} FROM t"
                with self.subTest(sql[:60], layout=layout):
                    self.assertEqual(Both.bw("query", path, sql), outcome(bytes(data), sql))

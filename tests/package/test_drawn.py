"""Drawn statements beside sqlite3 over the same values."""
import random

import bwtools

from tests import drawn, reference, support
from tests.drawn import COLUMNS, TYPES
from tests.reference import Asked, Compared, csv_of

READERS = {"INTEGER": lambda field: int({"true": 1, "false": 0}.get(field, field)), "REAL": float,
           "TEXT": str}


class Joins(Compared):
    """Statements over two tables, of which one is a folder of shards. Connections are new again and
    again, so that each statement is the first one to list some columns."""

    def test_answers_are_those_of_sqlite(self):
        folder, chance, base = self.new_folder(), drawn.Joined(7), reference.Reference()
        self.addCleanup(base.close)
        for table, words in (("t", ()), ("u", ("--shards", "3"))):
            names, rows = COLUMNS[table], chance.rows(table)
            support.imported(folder / table, csv_of([names, *rows]), *words)
            types = [TYPES[name] for name in names]
            base.add(table, list(zip(names, types)),
                     [[READERS[each](field) if field else None for field, each in zip(row, types)]
                      for row in rows])
        ways = {1: 0, 2: 0}
        drawn_ones = support.sample(140, 600)
        for number in range(drawn_ones):
            if number % 30 == 0:
                connection = bwtools.connect(folder / "t", folder / "u")
                self.addCleanup(connection.close)
            statement = chance.statement()
            with self.subTest(number=number, statement=statement):
                answer = connection._database.answer(statement)
                rows = list(answer.rows())
                ways[answer.way] += 1
                self.compare(rows, base.rows(drawn.with_iso_dates(statement)))
                self.assertEqual(len(list(answer.objects())), len(rows))
                self.assertEqual(sum(len(block[0]) for block in answer.fields()), len(rows))
        self.assertGreater(ways[2], drawn_ones // 2)


@support.each([(f"seed {seed}", seed) for seed in range(4)])
class Tables(Asked):
    """Statements over a table of columns of every kind. Every third one is a folder of shards."""

    def check(self, _, seed):
        table = drawn.Table("t", seed)
        words = [word for each in table.columns if each.kind in ("texts", "names")
                 for word in ("--text", each.name)]
        self.set_up(self.new_folder() / "t", csv_of(table.lines()), table, *words,
                    *(("--shards", "3") if seed % 3 == 2 else ()))
        served, count = 0, support.sample(18, 60)
        for number in range(count):
            statements = drawn.Statements(table, random.Random(f"{seed} {number}"), number % 3 > 0)
            sql, instead = statements.statement()
            with self.subTest(sql):
                served += self.ask(sql, instead)
        self.assertGreater(served, count)

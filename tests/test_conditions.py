"""Conditions over rows of whole numbers. Each statement is asked of a table file in bit planes and
of one in byte slices, in a session over each. Both must be scanned by a planned program, at the
same cost, and have the result of `bw direct`, by the fallback, and of SQLite."""
import random
import re
import shlex
import sqlite3

from tests import drawn, support
from tests.drawn import COMPARE, NEAR

# columns of one, four and eight bytes, with nulls and without
COMMON = {"a": (0, 255, False), "b": (-10, 10, True)}
FOUR = {"x": (0, 4294967295, False), "y": (-5, 70000, True)}
WIDE = {"x": (0, 9223372036854775806, True), "y": (-4611686018427387904, 1, False)}
SMALL = {"a": (0, 3, False), "c": (0, 3, True), "e": (1, 3, False)}
THREE = {"x": (0, 1000, True), "y": (0, 70, True), "z": (0, 1000, True)}
FAR = {"x": (-1, 9223372036854775806, True), "y": (-1, 5, True), "z": (-1, 4294967296, False)}
TWO = {"x": (0, 1048575, True), "y": (0, 70000, False)}
LISTS = {"x": (0, 4294967295, True), "g": (0, 9223372036854775806, True)}
# the minimum and the maximum number of parts of long conditions
SIZES = ((2, 4), (5, 8), (9, 16), (17, 32))


def reversed_bits(number, bits):
    return int(f"{number:0{bits}b}"[::-1], 2)


def many_columns(bits):
    """Returns 64 columns, of which the widest have `bits` bits."""
    return {f"c{column}": (-7, 1 << column % bits, True) for column in range(64)}


def deep_over_two():
    deep = "x < 8"
    for depth in range(99):
        deep = f"y = {depth * 700} OR ({deep})" if depth % 2 == 0 \
            else f"y <> {depth * 700} AND ({deep})"
    return deep


def deep_over_many():
    joined, tested, negated = "c1 < 1", "c2 < 1", "c3 < 1"
    for depth in range(99):
        joined = f"c{depth % 64} = 0 OR ({joined})" if depth % 2 == 0 \
            else f"c{depth % 64} <> 9 AND ({joined})"
        tested = f"({tested}) IS UNKNOWN"
        if depth < 49:
            negated = f"NOT (c{depth} > 2 AND {negated})"
    return [joined, tested, negated]


# What they are, columns, numbers near which rows have values, the number of rows, and conditions
LISTED = [
    ("two narrow columns", COMMON, (0, 5, 8, 255, 300, 65535, 65536), 700, [
        "b < 1", "NOT (b < 1)", "b NOT IN (0, NULL)", "(b < 1) IS UNKNOWN",
        "(b < 1) IS NOT UNKNOWN", "a < 300", "a >= 256",
        "b <> 1000", "192 <= a", "a NOT BETWEEN 1 AND 8 OR b IS NULL", "b NOT BETWEEN 1 AND NULL",
        "b IS NULL IS NOT FALSE",
        "a BETWEEN 9 AND 3", "NULL = 1 OR 1 = 1", "1 IN (a, 3, NULL)", "(a < 5 AND b < 3) IS FALSE",
        "(a < 5 OR b < 3) IS UNKNOWN", "NOT ((a < 5 OR b < 3) IS UNKNOWN)",
        "((a < 5 OR b < 3) IS UNKNOWN) IS UNKNOWN",
        "a IN (0, 1, 2, 3, 7, 8, 255, 255, 300, -4)"]),
    ("four bytes", FOUR, (0, 5, 8, 255, 300, 65535, 65536), 700, [
        "x < 70000", "x >= 4294967295", "x BETWEEN 255 AND 256", "x BETWEEN 65535 AND 65536",
        "x IN (0, 255, 256, 511, 512, 65535, 65536, 16777216, 4294967295)",
        "x NOT IN (0, 255, 256, 511, 512, 65535, 65536, 16777216, 4294967295)",
        "y BETWEEN 0 AND 65535 AND x > 5",
        "y IN (1, 300, 66000) OR x IN (5, 6) OR y IS NULL", "NOT (y < 300 OR x < 300)",
        "(y = 300) IS NOT TRUE"]),
    ("columns of two bits beside columns", SMALL, (0, 1, 5, 60, 500), 700, [
        "a < c", "a >= c", "c = c", "a = a", "c <> c", "c <= c", "a < c AND c < 2"]),
    ("columns beside columns", THREE, (0, 1, 5, 60, 500), 700, [
        "x < y", "x > y", "x <= y", "x >= y", "x = y", "x <> y", "y < x", "x < y AND y < z",
        "x < y OR x > y",
        "(x < y) IS UNKNOWN", "(x = z) IS NOT TRUE", "x < y AND y < z AND z < x",
        "x BETWEEN y AND z", "x IN (y, 5, z)",
        "x IN (y, z, 5, NULL)", "NOT (x < y OR z < 9)", "x < 500 AND x < z AND z < 900"]),
    ("wide columns beside columns", FAR, (0, 1, 5, 60, 500), 700,
     ["x < y", "x = y", "y >= x", "x < z", "z < x"]),
    ("nearly 63 bits", WIDE, NEAR, 700, [
        "x = 9223372036854775806", "x < 9223372036854775807",
        "x > 4294967295 OR y = -4611686018427387904",
        "y BETWEEN -300 AND 7 AND x IS NOT NULL"]),
    ("a long list and a deep condition", TWO, NEAR, 700, [
        f"x IN ({','.join(str(k * 7919 % 1048576) for k in range(100))})", deep_over_two()]),
    ("64 columns", many_columns(60), (-3, 0, 1, 9, 1000), 600,
     ["c0 = 0" + "".join(f" AND c{column} <> 1" for column in range(1, 64))]),
    ("deep conditions over 64 columns", many_columns(8), (-3, 0, 1, 9, 100), 600,
     deep_over_many()),
    ("long lists", LISTS, (0, 7, 65536, 1 << 24, 1 << 31), 600, [
        f"x IN (1,{','.join(str(k * 3) for k in range(1, 100))})",
        f"x IN (1,{','.join(str(reversed_bits(k * 41 % 128, 32) >> 1) for k in range(1, 100))})",
        f"g IN (1,{','.join(str(reversed_bits(k, 64) >> 2) for k in range(1, 100))})"]),
]


def sqlite_results(columns, rows, statements):
    """Yields the result of each statement, a list of columns or totals and a condition, by SQLite's
    rows, or None if SQLite can't run it, as with deeply nested conditions."""
    names = list(columns)
    base = sqlite3.connect(":memory:")
    base.execute(f"CREATE TABLE t ({', '.join(f'{name} INTEGER' for name in names)})")
    base.executemany(f"INSERT INTO t VALUES ({', '.join('?' * len(names))})",
                     [[None if value == "NULL" else value for value in row] for row in rows])
    for items, condition in statements:
        condition = re.sub(r"IS (NOT )?UNKNOWN", r"IS \1NULL", condition)
        try:
            found = base.execute(f"SELECT * FROM t WHERE {condition} ORDER BY rowid").fetchall()
        except sqlite3.OperationalError:
            yield None
            continue
        columns_of = {name: [row[place] for row in found] for place, name in enumerate(names)}
        items = items.split(", ")
        records = [[total(item, columns_of, len(found)) for item in items]] if "(" in items[0] \
            else zip(*(columns_of[item] for item in items))
        texts = [["NULL" if value is None else str(value) for value in record]
                 for record in records]
        yield "".join(f"{','.join(record)}\n" for record in [items, *texts])
    base.close()


def total(item, columns, count):
    """Returns the total of an item over rows, of which this has the columns."""
    function, name = re.fullmatch(r"(\w+)\((.*)\)", item).groups()
    if name == "*":
        return count
    values = [value for value in columns[name] if value is not None]
    if function == "COUNT":
        return len(values)
    return {"SUM": sum, "MIN": min, "MAX": max}[function](values) if values else None


class Conditions(support.TestCase):
    """Statements over drawn rows."""

    def write(self, columns, rows):
        """Writes the table's files to a folder, which it returns."""
        folder = self.new_folder()
        lines = [f"COLUMN {name} {low} {high}{'' if null else ' NOT NULL'}\n"
                 for name, (low, high, null) in columns.items()]
        (folder / "t.schema").write_text("TABLE t\n" + "".join(lines))
        texts = [",".join(map(str, row)) for row in [columns, *rows]]
        (folder / "t.csv").write_text("\n".join(texts) + "\n")
        for layout in ("planes", "slices"):
            done = support.bw("load", "--layout", layout, "t.schema", "t.csv", f"{layout}.bw",
                              cwd=folder)
            self.assertEqual(done, (0, "", ""))
        return folder

    def session(self, folder, layout, statements):
        """Returns the result of each statement in a session, and how it was served."""
        done = support.bw("session", "--stats", f"{layout}.bw", cwd=folder,
                          given=";\n".join(statements))
        results = [f"{each}\n" for each in done.out.split("\n\n")[:-1]]
        served = done.err.splitlines()
        self.assertEqual((done.status, len(results), len(served)),
                         (0, len(statements), len(statements)), done.err[:2000])
        return list(zip(results, served))

    def direct(self, folder, statements):
        """Returns the result of each statement by `bw direct`. One sh runs them all."""
        bw = shlex.quote(str(support.BW))
        (folder / "asked").write_text("".join(
            f"{bw} direct t.schema t.csv {shlex.quote(sql)} 2>&1; echo \"status $?\"\n"
            for sql in statements))
        return re.findall(r"((?:.*\n)*?)status 0\n", support.sh(". ./asked", folder, 600).out)

    def compare(self, columns, rows, asked, by="program"):
        """Compares the results of statements. Returns by what the first of each was served."""
        folder = self.write(columns, rows)
        statements = [f"SELECT {items} FROM t WHERE {condition}" for items, condition in asked]
        direct, planes, slices = (self.direct(folder, statements),
                                  self.session(folder, "planes", statements),
                                  self.session(folder, "slices", statements))
        self.assertEqual(len(direct), len(statements))
        meant = sqlite_results(columns, rows, asked)
        served = rf"served ({by}) segments {(len(rows) + 511) // 512} loads \d+ skips \d+"
        for place, sql in enumerate(statements):
            wanted = next(meant)
            with self.subTest(sql[:1000]):
                self.assertEqual(planes[place], slices[place])
                self.assertEqual(planes[place][0], direct[place])
                self.assertRegex(planes[place][1], served)
                if wanted is not None:
                    self.assertEqual(direct[place], wanted)
                if place % 20 == 0:
                    # a query does what a session does
                    done = support.bw("query", "--stats", "planes.bw", sql, cwd=folder)
                    self.assertEqual((done.out, done.err.rstrip()), planes[place])
        return [found.split()[1] for _, found in planes]


@support.each(COMPARE)
class Numbers(Conditions):
    """Each comparison with each number, or a sample of them, over each value of a column."""

    def check(self, sign):
        rows = [[number, "NULL" if number % 22 == 21 else number % 22 - 10]
                for number in range(256)]
        numbers = {-1, 0, 1, 255, 256, *support.sample_of(range(-1, 257), 30, COMPARE.index(sign))}
        self.compare(COMMON, rows, [("COUNT(*), SUM(b)", f"a {sign} {number}")
                                    for number in sorted(numbers)])
        self.compare(COMMON, rows, [("COUNT(*), SUM(a)", f"{number} {sign} b")
                                    for number in range(-11, 12)])


@support.each(LISTED)
class Listed(Conditions):
    """Conditions of every kind."""

    def check(self, _, columns, near, count, conditions):
        rows = drawn.whole_rows(random.Random(7), columns, near, count)
        self.compare(columns, rows, [("COUNT(*)", condition) for condition in conditions])


@support.each([(f"seed {seed}", seed) for seed in range(support.sample(3, 8))])
class Drawn(Conditions):
    """Drawn conditions."""

    def check(self, _, seed):
        chance = random.Random(seed)
        rows = drawn.whole_rows(chance, drawn.MIXED, NEAR, 1500)
        items = ("a, g, b", "COUNT(*), SUM(g), MIN(x), MAX(b), COUNT(z)")
        conditions = drawn.Conditions(chance)
        self.compare(drawn.MIXED, rows, [(items[number % 2], conditions.condition(number % 4))
                                         for number in range(30)])


@support.each([(f"{least} to {most} parts", least, most) for least, most in SIZES])
class Long(Conditions):
    """Long conditions of many columns, which the fallback may also run. Nearly all of up to eight
    parts have programs."""

    def check(self, _, least, most):
        chance = random.Random(least)
        rows = drawn.whole_rows(chance, drawn.WIDE, NEAR, 1100)
        conditions, count = drawn.Conditions(chance), support.sample(8, 40)
        asked = [("COUNT(*), SUM(c), MIN(x)",
                  conditions.long_condition(chance.randint(least, most))) for _ in range(count)]
        served = self.compare(drawn.WIDE, rows, asked, "program|rows").count("program")
        self.assertGreaterEqual(served, count * {2: .95, 5: .85, 9: .25, 17: 0}[least])

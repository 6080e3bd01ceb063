"""Sessions over files by columns, which keep ranges of values: a sample of what tests.ranges
compares with table files and sqlite3, what it draws, and how it shows a difference."""
import contextlib
import io
import random
import re
import unittest.mock
from collections import Counter

from tests import ranges, support

SEED = 129
# the tables of the sample
SHAPES = (*[ranges.SMALL] * 11, ranges.WIDE)


class Sample(support.TestCase):
    """Statements that select rows of no group, of some and of every one."""

    def test_statements(self):
        counts = Counter()
        comparison = ranges.Comparison(self.new_folder(), counts)
        for found in comparison.tables(SEED, support.sample(300, 3000), SHAPES):
            self.assertEqual(found, "")
        for kind in ("none", "some", "every"):
            self.assertGreater(counts[kind], counts["asked"] / 12, kind)
        self.assertGreater(counts["by rows"], 0)
        # in both files by columns, most segments of groups without selected rows
        self.assertGreater(counts["settled"], 1.5 * counts["idle"])


class Settled(support.TestCase):
    """Which segments are settled, exactly, and what says so."""

    def settled(self, values, sql, *options):
        """Returns what sessions over a table of column `a` say beside how a statement is served."""
        table = ranges.Table({"a": (0, max(values), False)}, {"a": values}, len(values))
        base, found = ranges.Base(table), set()
        for path in ranges.loaded(table, self.new_folder())[2:]:
            done = support.bw("session", *options, path, given=sql)
            self.assertEqual(done.out, base.answer(sql) + "\n")
            found.add(re.sub(r"^served .*\n", "", done.err))
        base.database.close()
        self.assertEqual(len(found), 1, found)
        return found.pop()

    def test_words(self):
        rising, asked = list(range(2 * ranges.GROUP)), "SELECT COUNT(*) FROM t WHERE a < 9"
        self.assertEqual(self.settled(rising, asked, "--explain"), "")
        self.assertEqual(self.settled(rising, asked, "--stats"), "settled 4 segments\n")
        self.assertEqual(self.settled(rising, asked, "--stats", "--explain"), (
            "settled 4 segments\n    the ranges of their values show that none of their rows "
            "match, or, if a program only counts rows, that all do\n"))

    def test_long_tables(self):
        """Of 35 groups, the last of one segment, 32 are in wide groups."""
        rising = list(range(34 * ranges.GROUP + 300))
        for sql, settled in {
                "SELECT COUNT(*) FROM t WHERE a < 9": 133,
                "SELECT a FROM t WHERE a < 9": 133,
                "SELECT COUNT(*) FROM t WHERE a >= 10000": 133,
                "SELECT a FROM t WHERE a >= 69000": 132,
                "SELECT COUNT(*) FROM t WHERE a >= 0": 137,
                "SELECT COUNT(*) FROM t": 137}.items():
            self.assertEqual(self.settled(rising, sql, "--stats"), f"settled {settled} segments\n")
        self.assertEqual(self.settled(rising, "SELECT MAX(a) FROM t", "--stats"), "")

    def test_columns_without_order(self):
        """In each group of many there are nearly all values."""
        mixed = [number * 397 % 1009 for number in range(33 * ranges.GROUP)]
        self.assertEqual(self.settled(mixed, "SELECT COUNT(*) FROM t WHERE a > 1008", "--stats"),
                         "settled 132 segments\n")
        self.assertEqual(self.settled(mixed, "SELECT COUNT(*) FROM t WHERE a = 1008", "--stats"),
                         "")

    def test_first_hundred_groups(self):
        """After them no group is asked about if none of them was settled."""
        spread, one = [0, 1000] * (ranges.GROUP // 2), [1000] * ranges.GROUP
        for groups, told in (
                ([spread] * 100 + [one] * 10, ""),
                ([spread] * 50 + [one] + [spread] * 49 + [one] * 10, "settled 44 segments\n")):
            values = [value for group in groups for value in group]
            self.assertEqual(
                self.settled(values, "SELECT COUNT(*) FROM t WHERE a = 500", "--stats"), told)


class Drawn(support.TestCase):
    """Tables: how many rows they have, how wide their columns are, and where nulls are."""

    def test_tables(self):
        shape = ranges.Shape((0, 0, 1, 2), range(1, 7))
        tables = [ranges.drawn_table(random.Random(number), shape)
                  for number in range(support.sample(40, 300))]
        for size in (ranges.SEGMENT, ranges.GROUP):
            self.assertLessEqual({0, 1, size - 1}, {table.rows % size for table in tables})
        self.assertLessEqual({0, 1}, {table.rows for table in tables})
        widths = {(high - low).bit_length() for table in tables
                  for low, high, _ in table.columns.values()}
        self.assertLessEqual({1, 8, 63}, widths)
        found = Counter()
        for table in tables:
            for name, values in table.values.items():
                low, high, is_nullable = table.columns[name]
                numbers = [value for value in values if value is not None]
                self.assertEqual([value for value in numbers if not low <= value <= high], [])
                found.update(self.kinds(values, is_nullable))
        self.assertEqual([kind for kind in ("first", "last", "whole", "none") if not found[kind]],
                         [])

    def kinds(self, values, is_nullable):
        """Yields where the nulls of a nullable column are."""
        for at in range(0, len(values) if is_nullable else 0, ranges.GROUP):
            nulls = [value is None for value in values[at:at + ranges.GROUP]]
            if sum(nulls) == 1 < len(nulls):
                yield from ["first"] * nulls[0] + ["last"] * nulls[-1]
            yield from ["whole"] * all(nulls) + ["none"] * (not any(nulls))


class Differences(support.TestCase):
    """What is printed if a session answers wrongly: here what it writes is changed."""

    def told(self, change):
        """Returns what is printed, without the table's schema and CSV."""
        results, out = ranges.results, io.StringIO()
        with unittest.mock.patch.object(
                ranges, "results", lambda path, asked: change(path, *results(path, asked))), \
                contextlib.redirect_stdout(out):
            self.assertEqual(ranges.main(["--seed", "5", "--count", "7"]), 1)
        table = ranges.drawn_table(random.Random("ranges 5 0"), ranges.SHAPES[0])
        files = f"{table.schema()}\n{table.csv()}\n"
        self.assertEqual(out.getvalue()[:len(files)], files)
        self.assertTrue(out.getvalue().endswith("\nOne differs.\n"))
        return out.getvalue()[len(files):]

    def test_answers(self):
        def changed(path, found, told):
            if path.name == "columns.bw":
                found[3] = found[3].replace("\n", "0\n")
            return found, told

        self.assertRegex(self.told(changed), r"\A(SELECT .*;\n){4}\ncolumns\.bw answers\n(.+\n)+"
                                             r"sqlite3 answers\n(.+\n)+seed 5: 7 statements")

    def test_settled(self):
        """More segments are settled than have no rows."""
        def changed(path, found, told):
            return found, told + "settled 1000 segments\n" * (path.name == "sliced_columns.bw")

        self.assertRegex(self.told(changed), r"\A(SELECT .*;\n){7}\nsliced_columns\.bw settled "
                                             r"10\d\d of \d+ segments whose rows needn't be read\n")

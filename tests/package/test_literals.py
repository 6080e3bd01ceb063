"""Literals mean their exact values, in both ways."""
import decimal
import operator
import random
from fractions import Fraction

import bwtools
from bwtools._sql import plan
from bwtools._sql.literals import exact
from bwtools._sql.plan import Statement

from tests import support

SEED, COUNT = 11, support.sample(200, 1000)
COMPARE = {"=": operator.eq, "<>": operator.ne, "<": operator.lt, ">": operator.gt,
           "<=": operator.le, ">=": operator.ge}
SWAPPED = {"<": ">", ">": "<", "<=": ">=", ">=": "<="}
# whole numbers, decimals of few and of many digits, floats and booleans
FIELDS = {"n": [2 ** 53 + 1, 2 ** 60, 2 ** 60 + 1, -2 ** 60, 3, 0, -1, 7, 2 ** 62, 10 ** 15],
          "d": ["12.50", "0.10", "-0.25", "3.00", "2.99", "100.01"],
          "g": ["1234567890123456.78", "1234567890123456.79", "-1.05", "0.10", "99999999999999.99"],
          "f": ["0.1", "2.5", "1e-07", "10000000000.0", "9007199254740992.0", "-3.75"],
          "b": ["false", "true"]}
ODD = ("1e400", "-1e400", "1e-400", "99999999999999999999", "9223372036854775808",
       "-9223372036854775808", "0x10", "1e18", "1.5e1", "00012", "12.5000000000000000000000")
ROWS = 12


class Values(support.TestCase):
    def test_numerals_are_read_exactly(self):
        for text, wanted in [("0x1F", 31), ("0xFFFFFFFFFFFFFFFF", -1), ("-12.50", Fraction(-25, 2)),
                             ("1e-3", Fraction(1, 1000)), (".5", Fraction(1, 2)), ("0e99", 0),
                             ("1" + "0" * 9000, 10 ** 400), ("0." + "0" * 9000 + "1",
                                                             Fraction(1, 10 ** 400)),
                             ("1e" + "9" * 50, 10 ** 400), ("1e-" + "9" * 50,
                                                            Fraction(1, 10 ** 400))]:
            with self.subTest(text[:20]):
                self.assertEqual(exact(text), wanted)
        self.assertTrue(3 < exact("3." + "0" * 9000 + "1") < exact("3.0001"))

    def test_both_ways_compare_by_the_exact_value(self):
        chance = random.Random(SEED)
        rows = [[str(fields[place % len(fields)]) for fields in FIELDS.values()]
                for place in range(ROWS)]
        path = support.imported(self.new_folder() / "t.bw", "".join(
            ",".join(row) + "\n" for row in [list(FIELDS), *rows]))
        values = {name: [self.value(name, row[place]) for row in rows]
                  for place, name in enumerate(FIELDS)}
        counts = {1: 0, 2: 0}
        with bwtools.connect(path) as connection:
            for _ in range(COUNT):
                name, sign = chance.choice(list(FIELDS)), chance.choice(list(COMPARE))
                text, given, value = self.literal(chance, name)
                wanted = sum(COMPARE[sign](each, value) for each in values[name])
                sql = f"SELECT COUNT(*) FROM t WHERE {self.condition(chance, name, sign, text)}"
                for way, found in self.answers(connection._database, sql, given):
                    counts[way] += 1
                    with self.subTest(sql, given=given, way=way):
                        self.assertEqual(found, [(wanted,)])
        self.assertGreater(counts[1], COUNT // 2)
        self.assertEqual(counts[2], COUNT)

    def test_parameters_of_many_digits(self):
        path = support.imported(self.new_folder() / "t.bw", "n,f,d\n1,1e-7,0.50\n2,-3.5,-1.00\n")
        with bwtools.connect(path) as connection:
            for text, wanted in [("1E+300000000", 2), ("-1E+300000000", 0), ("1E-300000000", 1),
                                 ("-1E-300000000", 1), ("0E+300000000", 1), ("9" * 5000, 2),
                                 ("0." + "0" * 5000 + "1", 1)]:
                for name in ("f", "d"):
                    found = connection.execute(f"SELECT COUNT(*) FROM t WHERE {name} < ?",
                                               (decimal.Decimal(text),)).fetchall()
                    with self.subTest(text[:20], name=name):
                        self.assertEqual(found, [(wanted,)])
            with self.assertRaisesRegex(bwtools.ProgrammingError,
                                        "^parameter 1 is outside the range of 64 bits$"):
                connection.execute("SELECT COUNT(*) FROM t WHERE n < ?", (10 ** 5000,))

    def test_the_greatest_integer_with_a_point_is_that_integer(self):
        """As a double it is one more: SQLite's text for it must be the integer."""
        most = (1 << 63) - 1
        path = support.imported(self.new_folder() / "t.bw",
                                f"w,v\n{most},1\n{most - 1},2\n5,3\n,4\n")
        with bwtools.connect(path) as connection:
            for sign, wanted in [("=", [1]), ("<>", [2, 3]), ("<", [2, 3]), ("<=", [1, 2, 3]),
                                 (">", []), (">=", [1])]:
                for text in (f"{most}.0", f"{most}.000", f"{most}"):
                    for more in ("", " AND v + 0 > 0"):
                        sql = f"SELECT v FROM t WHERE w {sign} {text}{more} ORDER BY v"
                        for way, found in self.answers(connection._database, sql, ()):
                            with self.subTest(sql, way=way):
                                self.assertEqual(found, [(each,) for each in wanted])
            found = connection.execute(f"SELECT w IN (1, {most}.0), v FROM t WHERE v < 3")
            self.assertEqual(found.fetchall(), [(1, 1), (0, 2)])

    def test_a_literal_that_two_columns_need_as_an_integer_and_a_double_is_refused(self):
        """4.611686018427388e18 is another number to a float than to an integer of 63 bits."""
        path = support.imported(self.new_folder() / "t.bw",
                                "w,f,d\n4611686018427387904,4611686018427387904.5e0,3.00\n"
                                "4611686018427388000,1e-7,0.50\n")
        with bwtools.connect(path) as connection:
            with self.assertRaisesRegex(bwtools.Error, "different forms: write a comparison"):
                connection.execute("SELECT d FROM t WHERE 4.611686018427388e18 IN (w, f)")
            for sql, wanted in [("4.611686018427388e18 = w", 1), ("4.611686018427388e18 = f", 1),
                                ("4.611686018427388e18 IN (f, d)", 1), ("3.0 IN (f, w, d)", 1),
                                ("4611686018427387904 IN (f, w)", 1), ("0.5 IN (d, f)", 1)]:
                with self.subTest(sql):
                    found = connection.execute(f"SELECT COUNT(*) FROM t WHERE {sql}").fetchall()
                    self.assertEqual(found, [(wanted,)])

    def value(self, name, field):
        if name == "b":
            return Fraction(field == "true")
        return Fraction(float(field)) if name == "f" else Fraction(field)

    def literal(self, chance, name):
        """Returns a literal near a value of some column, or the parameter of one, and what it means
        beside a column."""
        base = Fraction(str(chance.choice(FIELDS[chance.choice("ndgf")])))
        near = base + chance.choice((1, -1, 0)) * Fraction(1, 10 ** chance.randrange(30))
        with decimal.localcontext() as context:
            context.prec = 60
            spelled = f"{decimal.Decimal(near.numerator) / near.denominator:f}"
        form = chance.randrange(6)
        if form == 0:
            double = float(near)
            # beside decimals a float is the decimal that it is printed as
            return "?", (double,), Fraction(repr(double) if name in "dg" else double)
        if form == 1:
            return "?", (decimal.Decimal(spelled),), self.beside(name, spelled)
        text = (str(int(base)), repr(float(base)), chance.choice(ODD), spelled)[form - 2]
        return text, (), self.beside(name, text)

    def beside(self, name, text):
        """Returns what a numeral means: beside floats the nearest double, unless it is an integer
        of 64 bits."""
        value = Fraction(int(text, 16) if text[:2] == "0x" else text)
        is_integer = text.lstrip("-").isdecimal() and -1 << 63 <= value < 1 << 63
        if name != "f" or is_integer or text[:2] == "0x" or abs(value) > 10 ** 308:
            return value
        return Fraction(float(value))

    def condition(self, chance, name, sign, text):
        """Returns a comparison."""
        forms = [f"{name} {sign} {text}", f"{text} {SWAPPED.get(sign, sign)} {name}",
                 f"({name}, 1) {sign} ({text}, 1)" if sign in ("=", "<>") else f"{name} {sign} "
                 f"({text})"]
        if sign == "=":
            forms += [f"{name} IN ({text}, NULL)", f"CASE {name} WHEN {text} THEN 1 ELSE 0 END"]
        if sign == "<=":
            forms.append(f"{name} BETWEEN -9e18 AND {text}")
        if sign == ">=":
            forms.append(f"NOT {name} < {text}")
        return chance.choice(forms)

    def answers(self, database, sql, given):
        """Yields the rows of each way that serves a statement."""
        statement = Statement(sql, database.catalog, given)
        first = plan.answer(statement, database.engine)
        if first:
            yield 1, list(first.rows())
        yield 2, list(database.by_sqlite.answer(statement).rows())

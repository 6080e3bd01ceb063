"""What is drawn: conditions over columns of whole numbers; tables of columns of every kind, with
statements over them; statements over two tables. All of it depends only on the seed."""
from __future__ import annotations

import datetime
import decimal
import random
import re
from typing import Any, Callable, Iterator, Sequence

COMPARE = ("=", "<>", "<", ">", "<=", ">=")

# Columns of whole numbers: the least, the greatest, and whether there are nulls. The minimum of the
# first four is 0, that of the next two is -10.
MIXED = {"a": (0, 255, False), "x": (0, 1048575, True), "y": (0, 70000, False),
         "z": (0, 1000, True), "b": (-10, 10, True), "w": (-10, 600, False),
         "g": (-9223372036854775807, 0, True)}
# narrow, wide and nullable columns, for long conditions
WIDE = {"h": (0, 1, True), "i": (0, 1, False), "a": (0, 255, False), "c": (0, 1048575, True),
        "k": (-500, 500, True), "u": (0, 4294967295, False), "v": (1, 4294967296, True),
        "p": (0, 1099511627775, False), "q": (0, 1099511627775, True),
        "x": (-4611686018427387904, 4611686018427387903, False),
        "y": (-4611686018427387904, 4611686018427387903, True)}
# numbers that conditions compare with, and near which rows have values
NEAR = (-9223372036854775807, -300, -11, -10, -1, 0, 1, 7, 8, 255, 256, 600, 65535, 70000, 16777216,
        4294967295)
Bounds = tuple[int, int, bool]


def whole_rows(chance: random.Random, columns: dict[str, Bounds], near: Sequence[int],
               count: int) -> list[list[int | str]]:
    """Returns rows of whole numbers: near a column's minimum or maximum, near another number, or
    any."""
    draw, places = chance.random, len(near)

    def value(low: int, high: int, nullable: bool) -> int | str:
        if nullable and draw() < 1 / 6:
            return "NULL"
        which = draw()
        if which < 1 / 4:
            return min(high, low + int(draw() * 6))
        if which < 1 / 2:
            return max(low, high - int(draw() * 6))
        if which < 3 / 4:
            return max(low, min(high, near[int(draw() * places)] + int(draw() * 3)))
        return chance.randint(low, high)

    return [[value(*column) for column in columns.values()] for _ in range(count)]


class Conditions:
    """Conditions over `MIXED`, and long ones over `WIDE`."""

    def __init__(self, chance: random.Random) -> None:
        self.chance = chance

    def literal(self) -> Any:
        return "NULL" if self.chance.randrange(12) == 0 else self.chance.choice(NEAR)

    def predicate(self) -> str:
        chance = self.chance
        column, sign = chance.choice(list(MIXED)), chance.choice(COMPARE)
        negated, first, second = chance.choice(("", "NOT ")), self.literal(), self.literal()
        # two columns that have the same minimum
        alike = list(MIXED)[4:6] if chance.randrange(4) == 0 else list(MIXED)[:4]
        one, other = chance.choice(alike), chance.choice(alike)
        more = "".join(f", {self.literal()}" for _ in range(chance.randrange(5)))
        return chance.choice((
            f"{first} {sign} {column}", f"{first} {sign} {second}",
            f"{column} {negated}BETWEEN {first} AND {second}", f"{column} IS {negated}NULL",
            f"{column} {negated}IN ({first}, {second}{more})",
            f"{column} {negated}IN ({first}, {second}{more})", f"{one} {sign} {other}",
            f"{one} {negated}IN ({first}, {other}, {second})", f"{column} {sign} {first}",
            f"{column} {sign} {first}"))

    def condition(self, depth: int) -> str:
        """Returns a condition whose parts are nested to this depth."""
        chance = self.chance
        if depth == 0 or chance.randrange(5) == 0:
            return self.predicate()
        first, kind = self.condition(depth - 1), chance.randrange(6)
        if kind == 0:
            return f"NOT ({first})"
        if kind == 1:
            truth = chance.choice(("TRUE", "FALSE", "UNKNOWN"))
            return f"({first}) IS {chance.choice(('', 'NOT '))}{truth}"
        second = self.condition(depth - 1)
        if kind == 2:
            return f"({first}) OR ({second}) OR {self.predicate()}"
        return f"({first}) {'OR' if kind == 3 else 'AND'} ({second})"

    def wide_predicate(self) -> str:
        """Returns a comparison of a column with one of its own numbers or with another column, or a
        BETWEEN."""
        chance, name = self.chance, self.chance.choice(list(WIDE))
        low, high, _ = WIDE[name]
        alike = [other for other, (least, _, _) in WIDE.items() if least == low and other != name]
        number, kind = chance.randint(low, high), chance.randrange(4)
        if kind == 0 and alike:
            return f"{name} {chance.choice(COMPARE)} {chance.choice(alike)}"
        if kind == 1:
            return f"{name} BETWEEN {number} AND {min(high, number + (high - low) // 50)}"
        return f"{name} {chance.choice(COMPARE)} {number}"

    def long_condition(self, size: int) -> str:
        """Returns an OR of `size` ANDs, or an AND of `size` ORs, of one to four comparisons
        each."""
        inner, outer = self.chance.choice((("AND", "OR"), ("OR", "AND")))
        parts = [f" {inner} ".join(self.wide_predicate()
                                   for _ in range(1 + self.chance.randrange(4)))
                 for _ in range(size)]
        return f" {outer} ".join(f"({part})" for part in parts)


TEXTS = ("Boston", "boston", "New York", "Zürich", "zürich", "Łódź", "O'Hare", 'say "so"', "a,b",
         "two\nlines", "10%", "x_y", "x y", "~",
         "Straße", "東京", "0", "-", "a" * 40)


class Column:
    """A column of drawn values, as SQLite has them: its name, its kind, SQLite's type, and the
    fields of the CSV."""

    def __init__(self, name: str, kind: str, chance: random.Random, rows: int) -> None:
        self.name, self.kind, self.digits = name, kind, chance.choice((1, 2, 4))
        nulls = chance.choice((0, 0, .1, .5))
        draw = getattr(self, kind)(chance)
        self.values: list[Any] = [None if chance.random() < nulls else draw() for _ in range(rows)]
        self.type = {"whole": "INTEGER", "wide": "INTEGER", "truths": "INTEGER", "decimals": "REAL",
                     "floats": "REAL"}.get(kind, "TEXT")
        self.known = [value for value in dict.fromkeys(self.values) if value is not None]

    @property
    def is_number(self) -> bool:
        return self.type != "TEXT"

    def whole(self, chance: random.Random) -> Callable[[], Any]:
        low, count = chance.choice((0, -5, 1000)), chance.choice((2, 20, 300, 2000))
        return lambda: low + chance.randrange(count)

    def wide(self, chance: random.Random) -> Callable[[], Any]:
        return lambda: chance.randrange(-10 ** 12, 10 ** 12)

    def decimals(self, chance: random.Random) -> Callable[[], Any]:
        power, count = 10 ** self.digits, chance.choice((30, 5000, 10 ** 9))
        return lambda: (chance.randrange(count) - count // 4) / power

    def floats(self, chance: random.Random) -> Callable[[], Any]:
        return lambda: chance.choice((chance.uniform(-1, 1), chance.gauss(0, 1e6),
                                      chance.random() / 7, .5))

    def truths(self, chance: random.Random) -> Callable[[], Any]:
        return lambda: chance.randrange(2)

    def dates(self, chance: random.Random) -> Callable[[], Any]:
        days = chance.choice((10, 500, 9000))
        return lambda: str(datetime.date(2001, 1, 1) + datetime.timedelta(chance.randrange(days)))

    def times(self, chance: random.Random) -> Callable[[], Any]:
        return lambda: str(datetime.datetime(2024, 2, 28)
                           + datetime.timedelta(seconds=chance.randrange(300_000)))

    def texts(self, chance: random.Random) -> Callable[[], Any]:
        return lambda: chance.choice(TEXTS)

    def names(self, chance: random.Random) -> Callable[[], Any]:
        return lambda: f"{chance.choice('abcXYZéÉ')}{chance.randrange(2000)}"

    def field(self, value: Any) -> str:
        """Returns the CSV field of a value."""
        if value is None:
            return ""
        if self.kind == "truths":
            return ("false", "true")[value]
        if self.kind == "decimals":
            return f"{value:.{self.digits}f}"
        return repr(value) if self.kind == "floats" else str(value)

    def literal(self, chance: random.Random) -> str:
        """Returns a literal to compare the column with: usually one of its values, or one near
        it."""
        value = chance.choice(self.known) if self.known \
            else {"INTEGER": 1, "REAL": .5}.get(self.type, "2024-01-01")
        if chance.random() < .03:
            return "NULL"
        if self.kind == "truths":
            return chance.choice(("TRUE", "FALSE", "1", "0"))
        if self.is_number:
            value += chance.choice((0, 0, 0, 1, -1, .5, 1000)) if self.kind != "floats" else 0
            if self.kind == "decimals":
                value = round(value, self.digits + chance.choice((0, 1)))
            return repr(value)
        if self.kind in ("texts", "names"):
            value = chance.choice((value, value, value[:1] or "a", value + "a", value.swapcase(),
                                   "É"))
        return f"'{value}'".replace("'", "''")[1:-1]


class Table:
    """A drawn table."""

    KINDS = ("whole", "whole", "wide", "decimals", "decimals", "floats", "truths", "dates", "times",
             "texts", "texts", "names")

    def __init__(self, name: str, seed: int, rows: int | None = None) -> None:
        chance = random.Random(seed)
        rows = chance.choice((2, 30, 300, 2000)) if rows is None else rows
        kinds = [*chance.sample(self.KINDS, chance.randrange(4, 9)), "whole"]
        if rows < 30:
            # few doubles could be taken for decimals of many digits
            kinds = [kind for kind in kinds if kind != "floats"]
        self.name, self.rows = name, rows
        self.columns = [Column(f"{kind[0]}{place}", kind, chance, rows)
                        for place, kind in enumerate(kinds)]
        self.columns.append(Column("id", "whole", chance, 0))
        self.columns[-1].values = self.columns[-1].known = list(range(1, rows + 1))

    def lines(self) -> Iterator[Sequence[str]]:
        """Yields the records of the CSV, the heading first."""
        yield [column.name for column in self.columns]
        yield from zip(*([column.field(value) for value in column.values]
                         for column in self.columns))


class Statements:
    """Draws statements over a table. `are_plain` leaves out what only SQLite does."""

    def __init__(self, table: Any, chance: random.Random, are_plain: bool) -> None:
        self.table, self.chance, self.are_plain = table, chance, are_plain

    def column(self, *kinds: str) -> Any:
        found = [each for each in self.table.columns if not kinds or each.kind in kinds]
        return self.chance.choice(found or self.table.columns)

    def number(self) -> Any:
        return self.chance.choice([each for each in self.table.columns if each.is_number])

    def statement(self) -> tuple[str, str]:
        """Returns a statement, and the one for sqlite3 alone. It has terms of ORDER BY for the
        groups that those of the statement leave equal, which are to ascend: sqlite3 has them in
        another order, if the terms are as many as the groups' columns."""
        forms: list[Callable[[], Any]] = [self.rows, self.groups, self.groups, self.totals,
                                          self.distinct]
        found = self.chance.choice(forms if self.are_plain else [*forms, self.odd, self.odd])()
        return (found, found) if isinstance(found, str) else (found[0], found[1])

    def where(self) -> str:
        return f" WHERE {self.condition(2)}" if self.chance.random() < .7 else ""

    def condition(self, depth: int) -> str:
        """Returns a condition."""
        chance = self.chance
        if depth and chance.random() < .5:
            parts = [self.condition(depth - 1) for _ in range(chance.choice((2, 2, 3)))]
            joined = chance.choice((" AND ", " OR ")).join(f"({part})" if chance.random() < .7
                                                           else part for part in parts)
            return f"NOT ({joined})" if chance.random() < .2 else joined
        found = self.predicate()
        if chance.random() < .1:
            truth = chance.choice(("NULL", "NOT NULL", "TRUE", "NOT TRUE", "NOT FALSE"))
            return f"({found}) IS {truth}"
        return f"NOT {found}" if chance.random() < .1 else found

    def predicate(self) -> str:
        chance, column = self.chance, self.column()
        name, negated = column.name, chance.choice(("", "", "NOT "))
        form = chance.choice(("compare", "compare", "compare", "between", "in", "null", "like",
                              "like", "columns", "truth", "odd"))
        if form == "between":
            return f"{name} {negated}BETWEEN {column.literal(chance)} AND {column.literal(chance)}"
        if form == "in":
            listed = [column.literal(chance) for _ in range(chance.choice((1, 3, 9)))]
            return f"{name} {negated}IN ({', '.join(listed)})"
        if form == "null":
            return f"{name} {chance.choice(('IS NULL', 'IS NOT NULL', 'ISNULL', 'NOTNULL'))}"
        if form == "like" and not column.is_number:
            return self.like(column, negated)
        if form == "columns":
            return self.columns(column)
        if form == "truth" and column.is_number:
            return f"{name}{chance.choice(('', ' IS TRUE', ' IS NOT FALSE'))}"
        if form == "odd" and not self.are_plain:
            return self.odd_predicate(column)
        sides = [name, column.literal(chance)]
        if chance.random() < .1:
            sides.reverse()
        return f" {chance.choice(COMPARE)} ".join(sides)

    def like(self, column: Any, negated: str) -> str:
        """Returns a LIKE or a GLOB."""
        chance = self.chance
        value = str(chance.choice(column.known or ["x"])).replace("'", "''")
        part = value[:chance.choice((1, 2, 7))]
        part = part.rstrip("'") if part.count("'") % 2 else part
        if chance.random() < .3:
            pattern = chance.choice((f"{part}*", f"*{part}*", "[a-m]*", "?????"))
            return f"{column.name} {negated}GLOB '{pattern}'"
        pattern = chance.choice((f"{part}%", f"%{part}%", f"%{part}", "_o%", f"{part}_%", "%"))
        escape = " ESCAPE '!'" if chance.random() < .1 else ""
        pattern = pattern.swapcase() if chance.random() < .2 else pattern
        return f"{column.name} {negated}LIKE '{pattern}'{escape}"

    def columns(self, column: Any) -> str:
        """Returns a comparison of two columns."""
        texts = column.kind in ("texts", "names")
        others = [each for each in self.table.columns if each.is_number == column.is_number and
                  (column.is_number or each.kind == column.kind or texts and
                   each.kind in ("texts", "names"))]
        return f"{column.name} {self.chance.choice(COMPARE)} {self.chance.choice(others).name}"

    def odd_predicate(self, column: Any) -> str:
        """Returns a predicate that only SQLite has."""
        chance, table = self.chance, self.table.name
        if column.is_number:
            return chance.choice((f"{column.name} + 1 > {column.name}",
                                  f"{column.name} * 2 < {chance.randrange(100)}",
                                  f"{column.name} > (SELECT AVG({column.name}) FROM {table})",
                                  f"{column.name} IN (SELECT {column.name} FROM {table} WHERE id "
                                  "< 9)"))
        return chance.choice((f"length({column.name}) > 5", f"upper({column.name}) = {column.name}",
                              f"{column.name} = (SELECT MAX({column.name}) FROM {table})",
                              f"substr({column.name}, 1, 1) < 'c'"))

    def limit(self) -> str:
        chance = self.chance
        form = chance.choice(("", "", " LIMIT {0}", " LIMIT {0} OFFSET {1}", " LIMIT {1}, {0}"))
        return form.format(chance.choice((0, 1, 5, 50, 5000)), chance.choice((0, 1, 20)))

    def order(self, names: Sequence[str], chances: float = .6) -> str:
        """Returns ORDER BY over some expressions, or nothing."""
        chance = self.chance
        if chance.random() > chances:
            return ""
        ways = ("", " ASC", " DESC", " DESC", " NULLS LAST", " DESC NULLS FIRST")
        terms = [f"{each}{chance.choice(ways)}"
                 for each in chance.sample(names, min(len(names), chance.choice((1, 1, 2))))]
        return f" ORDER BY {', '.join(terms)}"

    def rows(self) -> str:
        """Returns a statement of rows."""
        chance, table = self.chance, self.table
        columns = chance.sample(table.columns, chance.randrange(1, len(table.columns)))
        names = [each.name for each in columns]
        items = ["*"] if chance.random() < .1 else [f"{name} AS z{place}"
                                                    if chance.random() < .2 else name
                                                     for place, name in enumerate(names)]
        if not self.are_plain and chance.random() < .3:
            items.append(f"{self.number().name} + 1")
        terms = [*names, "1", self.column().name]
        return (f"SELECT {', '.join(items)} FROM {table.name}{self.where()}{self.order(terms)}"
                f"{self.limit()}")

    def distinct(self) -> str:
        """Returns a SELECT DISTINCT."""
        chance, table = self.chance, self.table
        columns = chance.sample(table.columns, chance.choice((1, 1, 2)))
        names = [each.name for each in columns]
        items = [f"upper({name})" if chance.random() < .1 else name for name in names]
        return (f"SELECT DISTINCT {', '.join(items)} FROM {table.name}{self.where()}"
                f"{self.order(names, .4)}{self.limit()}")

    def aggregate(self) -> str:
        """Returns an aggregate."""
        column, chance = self.column(), self.chance
        forms = [f"COUNT({column.name})", f"COUNT(DISTINCT {column.name})", f"MIN({column.name})",
                 f"max({column.name})", "COUNT(*)"]
        number = self.number().name
        forms += [f"SUM({number})", f"AVG({number})"] * 2
        if not self.are_plain and chance.random() < .2:
            return chance.choice((f"COUNT(*) FILTER (WHERE {self.predicate()})",
                                  f"SUM({number} + 1)", f"COUNT({number} > 5)",
                                  f"MAX({number}, 3)" if chance.random() < 0
                                  else f"TOTAL({number})"))
        return chance.choice(forms)

    def item(self) -> str:
        """Returns an expression over aggregates."""
        found, number = self.aggregate(), self.number().name
        return self.chance.choice((found, found, found,
                                   f"{found} AS {'y'}{self.chance.randrange(10 ** 6)}",
                                   f"SUM({number}) / COUNT(*)",
                                   "COUNT(*) + 1", f"ROUND(AVG({number}), 2)",
                                   f"coalesce(MAX({number}), -1)",
                                   "CASE WHEN COUNT(*) > 3 THEN 'many' ELSE 'few' END",
                                   "CAST(COUNT(*) AS TEXT) || '!'"))

    def totals(self) -> str:
        """Returns a statement of totals of all rows."""
        items = ", ".join(self.item() for _ in range(self.chance.randrange(1, 4)))
        having = f" HAVING COUNT(*) > {self.chance.choice((0, 10))}" if self.chance.random() < .1 \
            else ""
        where = self.where()
        limit = self.limit() if self.chance.random() < .1 else ""
        return f"SELECT {items} FROM {self.table.name}{where}{having}{limit}"

    def key(self, column: Any) -> str:
        """Returns what makes groups: usually a column, else an expression over it."""
        if self.chance.random() < .85:
            return str(column.name)
        if column.is_number:
            return self.chance.choice((f"{column.name} % 7", f"abs({column.name})",
                                       f"{column.name} > 5", f"round({column.name} / 10)"))
        return self.chance.choice((f"substr({column.name}, 1, 7)", f"length({column.name})",
                                   f"upper({column.name})",
                                   f"strftime('%m', {column.name})", f"{column.name} || '!'"))

    def groups(self) -> tuple[str, str]:
        """Returns a statement with GROUP BY, and the one for sqlite3."""
        chance, table = self.chance, self.table
        keys = [self.key(each)
                for each in chance.sample(table.columns, chance.choice((1, 1, 1, 2, 3)))]
        shown = [key for key in keys if chance.random() < .8]
        items = [*shown, *(self.item() for _ in range(chance.randrange(0 if shown else 1, 3)))]
        if not self.are_plain and chance.random() < .2:
            items.append(f"upper({self.column('texts').name})"
                         if chance.random() < 0 else f"length({keys[0]})")
        having = chance.choice(("COUNT(*) > 2", f"{self.aggregate()} IS NOT NULL",
                                f"{keys[0]} IS NOT NULL"))
        terms = [*keys, "COUNT(*)", "1", self.aggregate()]
        named = [str(shown.index(key) + 1) if key in shown and chance.random() < .1 else key
                 for key in keys]
        found = (f"SELECT {', '.join(items)} FROM {table.name}{self.where()} GROUP BY "
                 f"{', '.join(named)}"
                 f"{f' HAVING {having}' if chance.random() < .3 else ''}")
        order, limit = self.order(terms), self.limit()
        more = ", " + ", ".join(keys) if order else ""
        return f"{found}{order}{limit}", f"{found}{order}{more}{limit}"

    def odd(self) -> str:
        """Returns a statement that only SQLite answers."""
        chance, name = self.chance, self.table.name
        one, two, number = self.column().name, self.column().name, self.number().name
        return chance.choice((
            f"SELECT a.{one}, b.id FROM {name} a JOIN {name} b ON a.id = b.id + "
            f"1{self.where_of('a')} ORDER BY a.id, b.id",
            f"SELECT a.id, b.{one} FROM {name} a LEFT JOIN {name} b ON b.id = a.id * 2 WHERE "
            f"b.{two} IS NULL ORDER BY a.id",
            f"WITH x AS (SELECT {one} AS k, COUNT(*) AS n FROM {name}{self.where()} GROUP BY 1) "
            "SELECT k, n FROM x WHERE n > 1 ORDER BY k",
            f"SELECT id, SUM({number}) OVER (ORDER BY id) FROM {name}{self.where()} ORDER BY id",
            f"SELECT id, ROW_NUMBER() OVER (PARTITION BY {one} ORDER BY {two}, id) FROM {name} "
            "ORDER BY id LIMIT 50",
            f"SELECT {one} FROM {name}{self.where()} UNION SELECT {one} FROM {name} WHERE id < 5 "
            "ORDER BY 1",
            f"SELECT COUNT(*) FROM (SELECT DISTINCT {one}, {two} FROM {name}{self.where()})",
            f"SELECT {one}, (SELECT COUNT(*) FROM {name} b WHERE b.id < a.id AND a.id < 20) FROM "
            f"{name} a ORDER BY a.id LIMIT 30",
            f"SELECT id FROM {name} WHERE EXISTS (SELECT 1 FROM {name} b WHERE b.id = {name}.id + "
            f"1 AND b.{one} IS NOT NULL) ORDER BY id",
            f"SELECT length({one}), COUNT(*) FROM {name}{self.where()} GROUP BY length({one}) "
            "ORDER BY 1"))

    def where_of(self, alias: str) -> str:
        column = self.column()
        sign = self.chance.choice(COMPARE)
        return f" WHERE {alias}.{column.name} {sign} {column.literal(self.chance)}"


JOINED_TEXTS = ["a", "b", "B", 'q"q', "c,d", "e\nf", "é", "Zoo", "10%", "x_y", "it's"]
# the columns of each table: how a field is drawn, by name
COLUMNS = {"t": ["k", "s", "d", "m", "f", "b", "n"], "u": ["k", "s", "d", "um", "f", "ub", "un"]}
TYPES = {"k": "INTEGER", "s": "TEXT", "d": "TEXT", "m": "REAL", "f": "REAL", "b": "INTEGER",
         "n": "INTEGER",
         "um": "REAL", "ub": "INTEGER", "un": "INTEGER"}
JOINS = ["t a JOIN u b ON a.k = b.k AND {}", "t a LEFT JOIN u b ON a.k = b.k AND {}",
         "t a JOIN u b USING (k)", "t a LEFT JOIN u b USING (k, s)",
         "t a, u b", "t a NATURAL JOIN (SELECT k, s, um, ub, un FROM u) b"]
# as which SQLite gets a date, which a statement may have without zeros
DATE = re.compile("'2024-([0-9]+)-([0-9]+)'")


class Joined:
    """Statements that depend only on a seed."""

    def __init__(self, seed: int) -> None:
        self.random = random.Random(seed)
        # the names by which the tables of the present SELECT are qualified, and these tables
        self.sources: list[tuple[str, str]] = []

    def field(self, name: str) -> str:
        """Returns a field of a column."""
        chosen = self.random
        if chosen.random() < 0.12:
            return ""
        ways: dict[str, Callable[[], str]] = {
            "k": lambda: str(chosen.randrange(12)), "s": lambda: chosen.choice(JOINED_TEXTS),
            "d": lambda: f"2024-{chosen.randrange(1, 4):02}-{chosen.randrange(1, 29):02}",
            "m": lambda: f"{chosen.randrange(-300, 900) / 100:.2f}",
            "f": lambda: repr(chosen.choice([0.1, 1e-7, 2.5, 1e9, chosen.random()])),
            "b": lambda: chosen.choice(["true", "false"]),
            "n": lambda: str(chosen.randrange(-5, 50))}
        return ways[name.lstrip("u")]()

    def rows(self, table: str) -> list[list[str]]:
        """Returns the fields of a table's rows."""
        return [[self.field(name) for name in COLUMNS[table]]
                for _ in range(self.random.randrange(20, 120))]

    def some(self, *forms: str) -> str:
        return self.random.choice(forms)

    def column(self) -> tuple[str, str]:
        """Returns a column of the present SELECT, and its name."""
        alias, table = self.random.choice(self.sources)
        name = self.random.choice(COLUMNS[table])
        return f"{alias}.{name}", name

    def literal(self, name: str) -> str:
        """Returns a literal of a column's kind."""
        chosen = self.random
        if TYPES[name] == "TEXT" and name != "d":
            quoted = chosen.choice(JOINED_TEXTS).replace("'", "''")
            return f"'{quoted}'"
        if name == "d":
            return f"'2024-{chosen.randrange(1, 4)}-{chosen.randrange(1, 29)}'"
        if name in ("b", "ub"):
            return self.some("TRUE", "FALSE", "1", "0")
        return self.some("0.1", "2.5", "1e9") if name == "f" else str(chosen.randrange(-5, 50))

    def expression(self) -> str:
        column, name = self.column()
        if self.random.random() < 0.5:
            return column
        if TYPES[name] != "TEXT":
            return self.some(f"{column} + 1", f"-{column}", f"coalesce({column}, 0)",
                             f"{column} / 3", f"CAST({column} AS TEXT)",
                             f"CASE WHEN {self.condition(2)} THEN {column} END",
                             f"{column} IS NULL")
        return self.some(f"upper({column})", f"{column} || 'z'", f"length({column})",
                         f"substr({column}, 1, 2)",
                         f"CASE {column} WHEN {self.literal(name)} THEN 1 ELSE 2 END")

    def condition(self, depth: int = 0) -> str:
        column, name = self.column()
        literal = self.literal(name)
        forms = [f"{column} {self.some('=', '<>', '<', '<=', '>', '>=', 'IS', 'IS NOT')} {literal}",
                 f"{column} IN ({literal}, NULL)",
                 f"{column} BETWEEN {literal} AND {self.literal(name)}", f"{column} IS NOT NULL"]
        if depth < 2:
            forms += [f"({self.condition(depth + 1)} {self.some('AND', 'OR')} "
                      f"{self.condition(depth + 1)})",
                      f"NOT {self.condition(depth + 1)}", self.subquery(column, name, depth)]
        return self.some(*forms)

    def subquery(self, column: str, name: str, depth: int) -> str:
        """Returns a condition with a query over another table, or the same."""
        outer, table = self.sources, self.some(*[each for each in COLUMNS if name in COLUMNS[each]])
        alias = self.random.choice(outer)[0]
        self.sources = [("z", table)]
        inner = self.condition(depth + 1)
        self.sources = outer
        return self.some(
            f"{column} {self.some('', 'NOT ')}IN (SELECT {name} FROM {table} z WHERE {inner})",
            f"EXISTS (SELECT 1 FROM {table} z WHERE z.k = {alias}.k AND {inner})",
            f"{column} = (SELECT {self.some('max', 'min')}({name}) FROM {table})")

    def aggregate(self) -> str:
        column, name = self.column()
        function = self.some("count", "min", "max",
                             *(("sum", "avg") if TYPES[name] != "TEXT" else ()))
        only = f" FILTER (WHERE {self.condition(2)})" if self.random.random() < 0.2 else ""
        return self.some("count(*)", f"{function}({self.some('', 'DISTINCT ')}{column}){only}",
                         f"{function}({column})")

    def source(self) -> tuple[str, str]:
        """Draws what a SELECT reads. Returns its FROM, and a condition that it needs."""
        if self.random.random() < 0.3:
            self.sources = [("a", "t")]
            return self.some("t a", "(SELECT * FROM t) a", "(SELECT * FROM t WHERE n > 5) a"), ""
        self.sources = [("a", "t"), ("b", "u")]
        form = self.random.choice(JOINS)
        if "NATURAL" in form:
            self.sources = [("a", "t")]
        return form.format(self.condition(2)), "a.k = b.k" if form == "t a, u b" else ""

    def select(self) -> tuple[str, int]:
        """Returns a SELECT, and how many columns it has."""
        tables, needed = self.source()
        conditions = [needed] * bool(needed) + [self.condition()
                                                for _ in range(self.random.randrange(3))]
        where = f" WHERE {' AND '.join(conditions)}" if conditions else ""
        form = self.random.randrange(4)
        if form == 0:
            groups = [self.column()[0] for _ in range(self.random.randrange(1, 3))]
            items = [*groups, self.aggregate(), self.aggregate()]
            where += f" GROUP BY {', '.join(groups)}{self.some('', ' HAVING count(*) > 1')}"
        elif form == 1:
            items = [self.aggregate() for _ in range(self.random.randrange(1, 4))]
        elif form == 2:
            column, other = self.column()[0], self.column()[0]
            items = [column, self.some(f"count(*) OVER (PARTITION BY {other})",
                                       f"max({column}) OVER (PARTITION BY {other})",
                                       f"rank() OVER (ORDER BY {other})")]
        else:
            items = [self.expression() for _ in range(self.random.randrange(1, 4))]
        distinct = self.some("", "", "DISTINCT ") if form == 3 else ""
        return f"SELECT {distinct}{', '.join(items)} FROM {tables}{where}", len(items)

    def statement(self) -> str:
        select, count = self.select()
        places, names = ", ".join(str(place + 1) for place in range(count)), \
            ", ".join(f"c{place}" for place in range(count))
        self.sources = [("u", "u")]
        other = ", ".join(self.expression() for _ in range(count))
        return self.some(select, select,
                         f"{select} ORDER BY {places} LIMIT {self.random.randrange(9)}",
                         f"SELECT * FROM ({select}) ORDER BY {places}",
                         f"{select} {self.some('UNION', 'UNION ALL', 'EXCEPT', 'INTERSECT')} "
                         f"SELECT {other} FROM u",
                         f"WITH w({names}) AS ({select}) SELECT {names}, count(*) FROM w GROUP BY "
                         f"{names}")


def with_iso_dates(statement: str) -> str:
    """Returns a statement as SQLite gets it."""
    return DATE.sub(lambda found: f"'2024-{int(found[1]):02}-{int(found[2]):02}'", statement)


class Fields:
    """Fields of a CSV of columns of several kinds, and conditions over them that bw-ask and SQLite
    read alike."""

    # the columns, and their types in SQLite
    TYPES = {"id": "INTEGER", "city": "TEXT", "fare": "REAL", "tip": "REAL", "rate": "REAL",
             "day": "TEXT", "due": "TEXT", "at": "TEXT", "ok": "INTEGER", "n": "INTEGER"}

    def __init__(self, chance: random.Random) -> None:
        self.chance = chance
        names = ["Boston", "Bost", "boston", "O'Hare", "Zürich", 'the "Hub"', "one, two",
                 "line\nfeed", " blank", "007", "Ünder"]
        self.names = [*names, *(f"{chance.choice(names)}{chance.choice(' -x')}{n}"
                                for n in range(20))]

    def field(self, column: str) -> str:
        """Returns a field that a column may have, or one near such a field."""
        chance = self.chance
        if column == "city":
            name = chance.choice(self.names)
            return name if chance.random() < .6 else name[:chance.randrange(len(name) + 1)] or "A"
        if column in ("day", "due"):
            year, month = chance.randrange(22, 26), chance.randrange(1, 13)
            return f"20{year}-{month:02}-{chance.randrange(1, 29):02}"
        if column == "at":
            day = f"2024-0{chance.randrange(1, 4)}-{chance.randrange(1, 29):02}"
            return f"{day}T{chance.randrange(24):02}:{chance.choice('0135')}0:07"
        if column == "ok":
            return chance.choice(("true", "false"))
        if column in ("fare", "tip"):
            return f"{chance.randrange(-300, 300) / 100:.2f}".replace("-0.00", "0.00")
        if column == "rate":
            number = f"{chance.randrange(-200, 200) / chance.choice((1, 10, 100)):.2f}"
            return number.rstrip("0").rstrip(".")
        return str(chance.randrange(-20, 20))

    def rows(self, count: int) -> list[list[str]]:
        """Returns rows, of which the first column numbers them."""
        def field(column: str) -> str:
            found = self.field(column)
            return "" if self.chance.random() < .12 else "0" if found == "-0" else found

        return [[str(number), *map(field, list(self.TYPES)[1:])] for number in range(count)]

    def literal(self, column: str) -> str:
        """Returns a literal to compare a column with, whether a row has it or not."""
        chance = self.chance
        if chance.random() < .06:
            return "NULL"
        if column == "ok":
            return chance.choice(("TRUE", "FALSE", "1", "0"))
        field = self.field(column)
        if self.TYPES[column] == "TEXT":
            if column == "day" and chance.random() < .2:
                field += " 12:30:00"
            if column == "at" and chance.random() < .2:
                field = field[:10]
            return "'" + field.replace("'", "''") + "'"
        more = chance.choice(("5", "05", "0", "001"))
        return field if chance.random() < .6 else f"{field}{'' if '.' in field else '.'}{more}"

    def predicate(self) -> str:
        chance = self.chance
        column = chance.choice(list(self.TYPES)[1:])
        sign, negated = chance.choice(COMPARE), chance.choice(("", "NOT "))
        first, second, third = (self.literal(column) for _ in range(3))
        other = {"fare": "tip", "tip": "fare", "day": "due", "due": "day"}.get(column, column)
        if chance.random() < .04:
            return chance.choice(("ok", "NOT ok", "ok IS NOT TRUE"))
        return chance.choice([f"{column} {sign} {first}"] * 3 + [
            f"{first} {sign} {column}", f"{column} {negated}BETWEEN {first} AND {second}",
            f"{column} {negated}IN ({first}, {second}, {third})", f"{column} {negated}IN ({first})",
            f"{column} IS {negated}NULL", f"{column} {sign} {other}",
            f"{column} {negated}IN ({first}, {other}, {second})",
            f"{first} {negated}IN ({column}, {second}, {other})",
            f"{first} {negated}BETWEEN {column} AND {second}",
            f"{column} {negated}BETWEEN {other} AND {second}", f"{first} {sign} {second}"])

    def condition(self, depth: int) -> str:
        """Returns a condition whose parts are nested to this depth."""
        if depth == 0 or self.chance.random() < .2:
            return self.predicate()
        first, second = (self.condition(depth - 1) for _ in range(2))
        truth = f"{self.chance.choice(('', 'NOT '))}{self.chance.choice(('TRUE', 'FALSE', 'NULL'))}"
        return self.chance.choice((
            f"NOT ({first})", f"({first}) IS {truth}", f"({first}) OR ({second})",
            f"({first}) AND ({second})", f"{self.predicate()} OR ({second})"))


class Spellings:
    """Rows of a number, a text, a date, a UTC time and a boolean, each or null, in many spellings,
    and conditions over them."""

    def __init__(self, chance: random.Random) -> None:
        self.chance = chance

    def rows(self, count: int) -> tuple[list[list[Any]], list[list[str]]]:
        """Returns rows as SQLite has them, numbered, and their fields."""
        chance, rows, fields = self.chance, [], []
        for number in range(count):
            pairs = [self.number(), self.text(), self.day(), self.time(), self.truth()]
            words = [chance.choice(each) for each in (("", "NA", "null", "-"), ("",),
                                                      ("", "NULL"), ("", "N/A"), ("", "null"))]
            nulls = [chance.random() < .1 for _ in pairs]
            rows.append([number, *(None if null else value
                                   for null, (value, _) in zip(nulls, pairs))])
            fields.append([str(number), *(word if null else field for null, word, (_, field)
                                          in zip(nulls, words, pairs))])
        return rows, fields

    def number(self) -> tuple[float, str]:
        chance = self.chance
        value = decimal.Decimal(chance.randrange(-4000, 4000)).scaleb(-chance.randrange(0, 4))
        plain = f"{value:f}"
        return float(value), chance.choice((plain, plain if plain[0] == "-" else f"+{plain}",
                                            f"{plain}{'0' if '.' in plain else '.0'}"))

    def text(self) -> tuple[str, str]:
        return (self.chance.choice(("DE", "NA", "-", "NULL", "Ünder", "de", "N/A", "O'Hare")),) * 2

    def day(self) -> tuple[str, str]:
        day = datetime.date(2024, 1, 1) + datetime.timedelta(self.chance.randrange(400))
        return day.isoformat(), f"{day.day}.{day.month:02}.{day.year}"

    def time(self) -> tuple[str, str]:
        chance = self.chance
        at = datetime.datetime(2024, 1, 1) + datetime.timedelta(
            seconds=chance.randrange(10 ** 7), milliseconds=chance.randrange(0, 1000, 125))
        offset = chance.choice((0, 60, -330))
        zone = chance.choice(("Z", "+00:00")) if not offset \
            else f"{'-' if offset < 0 else '+'}{abs(offset) // 60:02}:{abs(offset) % 60:02}"
        local = at + datetime.timedelta(minutes=offset)
        return at.isoformat("T", "milliseconds") + "Z", \
            local.isoformat(chance.choice("T "), "milliseconds") + zone

    def truth(self) -> tuple[int, str]:
        truth = self.chance.random() < .5
        return int(truth), self.chance.choice(("true", "True", "TRUE") if truth
                                              else ("false", "False", "FALSE"))

    def condition(self, depth: int) -> tuple[str, ...]:
        """Returns a condition for ask and for SQLite."""
        chance = self.chance
        if depth:
            pairs = zip(self.condition(depth - 1), self.condition(depth - 1))
            form = chance.choice(("({}) AND ({})", "({}) OR ({})", "NOT ({}) OR ({})"))
            return tuple(form.format(*each) for each in pairs)
        at = datetime.datetime(2024, 1, 1) + datetime.timedelta(seconds=chance.randrange(10 ** 7))
        plain = at.isoformat("T", "milliseconds") + "Z"
        literals = {
            "num": [(text, text) for text in (str(chance.randrange(-40, 40)), "0.0005",
                                              f"{chance.randrange(-4000, 4000) / 1000:.4f}")],
            "land": [(text, text) for text in ("'DE'", "'NA'", "'D'", "'e'", "'NULL'",
                                               "'O''Hare'")],
            "day": [(f"'{at.day}.{at.month}.{at.year}'", f"'{at.date()}'"),
                    (f"'{at.date()}'", f"'{at.date()}'")],
            "at": [(f"'{(at + datetime.timedelta(hours=2)).isoformat(' ')}+02:00'", f"'{plain}'"),
                   (f"'{plain}'", f"'{plain}'")],
            "ok": [("TRUE", "1"), ("FALSE", "0")]}
        column = chance.choice(list(literals))
        three = [chance.choice(literals[column]) for _ in range(3)]
        negated = chance.choice(("", "NOT "))
        form = chance.choice((f"{column} {chance.choice(COMPARE)} {{}}",
                              f"{column} {negated}IN ({{}}, {{}})",
                              f"{column} {negated}BETWEEN {{}} AND {{}}",
                              f"{column} IS {negated}NULL"))
        return tuple(form.format(*each) for each in zip(*three))

"""Statements of SQLite's whole grammar of SELECT, drawn over tables of all kinds of columns, for
sqlite3 and for the package; and statements of which some tokens were changed. All of it depends
only on the seed."""
from __future__ import annotations

import datetime
import random
import re
from typing import Any, Iterator, NamedTuple, Sequence

# the columns of each table: their kinds, by name
TABLES = {"t": {"id": "whole", "k": "whole", "w": "wide", "d": "decimal", "g": "long", "f": "float",
                "s": "text", "b": "truth", "y": "date", "a": "time", "z": "zoned"},
          "u": {"k": "whole", "n": "whole", "d": "decimal", "s": "text", "y": "date", "b": "truth"},
          "left": {"id": "whole", "end": "whole", "s": "text", "filter": "float"}}
TYPES = {"whole": "INTEGER", "wide": "INTEGER", "truth": "INTEGER", "decimal": "REAL",
         "float": "REAL", "long": "INTEGER"}
TEXTS = ("a", "b", "B", "ab", "é", "O'Hare", "a,b", 'q"q', "10%", "x_y", "zoo", "Zoo", "1st")
FLOATS = (.1, 2.5, 1e-7, 1e10, -3.75, .5, 1 / 3)
COMPARE = ("=", "<>", "<", ">", "<=", ">=", "==", "!=", "IS", "IS NOT")
# rows that make each column of its kind
FIRST = {"id": "1", "k": "3", "w": "4611686018427387904", "d": "12.50", "g": "1234567890123456.78",
         "f": "1e10", "s": "x", "b": "true", "y": "2024-02-01", "a": "2024-02-01 12:30:00",
         "z": "2024-02-01T12:30:00Z", "n": "5", "end": "4", "filter": "2.5e-7"}
SECOND = {**FIRST, "id": "2", "w": "-4611686018427387903", "f": "0.1", "b": "false", "g": "-1.05",
          "d": "-0.25", "filter": "1e10"}
LONG = 100
# so many rows of a query are joined
MOST_JOINED = 40
# what a name in a statement may be that SQLite doesn't reserve
NAMES = ("x", "left", "right", "end", "filter", "over", "window", "key", "a b", "first", "row",
         "natural", "cross", "if", "date", "rows", "no", "é")
JOINS = ("JOIN", "INNER JOIN", "LEFT JOIN", "LEFT OUTER JOIN", "CROSS JOIN", ",")
NEWER = ("RIGHT JOIN", "FULL JOIN", "FULL OUTER JOIN")


class Pair(NamedTuple):
    """A statement, and the one for sqlite3, which has decimals of many digits as integers, and
    whose sums of decimals are fractions."""

    ours: str
    theirs: str


def pair(sql: str) -> Pair:
    """Returns both statements: what differs is between braces, with a bar in its middle."""
    return Pair(re.sub(r"\{(.*?)\|.*?\}", r"\1", sql), re.sub(r"\{.*?\|(.*?)\}", r"\1", sql))


class Source(NamedTuple):
    """What FROM names: its name, and its columns with their kinds."""

    name: str
    columns: Sequence[tuple[str, str]]


class Rows:
    """The rows of the tables."""

    def __init__(self, seed: int) -> None:
        self.chance = random.Random(f"rows {seed}")
        self.tables = {name: list(self.rows(name)) for name in TABLES}

    def rows(self, table: str) -> Iterator[list[Any]]:
        """Yields the fields of a table's rows."""
        names = TABLES[table]
        for first in (FIRST, SECOND):
            yield [first[name] for name in names]
        for number in range(3, self.chance.choice((8, 30, 60))):
            yield [str(number) if name == "id" else
                   "" if self.chance.random() < .12 else self.field(kind)
                   for name, kind in names.items()]

    def field(self, kind: str) -> str:
        """Returns a field of a kind."""
        chance = self.chance
        if kind == "whole":
            return str(chance.randrange(-2, 9))
        if kind == "wide":
            return str(chance.choice((chance.randrange(-1 << 62, 1 << 62), (1 << 53) + 1,
                                      chance.randrange(5))))
        if kind == "decimal":
            return f"{chance.randrange(-300, 2000) / 100:.2f}"
        if kind == "long":
            number = chance.randrange(10 ** 15, 9 * 10 ** 17) if chance.random() < .6 else \
                123456789012345678 + chance.randrange(3)
            return f"{number // LONG}.{number % LONG:02}"
        if kind == "float":
            return repr(chance.choice(FLOATS))
        if kind == "truth":
            return chance.choice(("true", "false"))
        if kind == "text":
            return chance.choice(TEXTS)
        day = datetime.datetime(2024, 2, 27) + datetime.timedelta(seconds=chance.randrange(400_000))
        if kind == "date":
            return f"{day:%Y-%m-%d}"
        return f"{day:%Y-%m-%d %H:%M:%S}" if kind == "time" else f"{day:%Y-%m-%dT%H:%M:%SZ}"

    def values(self, table: str) -> Iterator[list[Any]]:
        """Yields the values of a table's rows for sqlite3."""
        kinds = list(TABLES[table].values())
        for row in self.tables[table]:
            yield [None if field == "" else value_of(kind, field)
                   for kind, field in zip(kinds, row)]


def value_of(kind: str, field: str) -> Any:
    """Returns SQLite's value of a field."""
    if kind in ("whole", "wide"):
        return int(field)
    if kind == "long":
        return int(field.replace(".", ""))
    if kind in ("decimal", "float"):
        return float(field)
    if kind == "truth":
        return int(field == "true")
    return field.replace("T", " ").removesuffix("Z") if kind in ("time", "zoned") else field


class Selects:
    """Draws statements. `are_new` says that SQLite has what came with version 3.39."""

    def __init__(self, chance: random.Random, are_new: bool = True) -> None:
        self.chance, self.are_new = chance, are_new
        self.sources: list[Source] = []
        self.commons: list[Source] = []

    def some(self, *forms: Any) -> Any:
        return self.chance.choice(forms)

    def is_drawn(self, share: float) -> bool:
        return self.chance.random() < share

    def statement(self) -> Pair:
        """Returns a statement."""
        self.sources, self.commons = [], []
        head = self.with_queries() if self.is_drawn(.15) else ""
        sql, kinds = self.select(2)
        if self.is_drawn(.15):
            operator = self.some("UNION", "UNION ALL", "EXCEPT", "INTERSECT")
            other, _ = self.select(1, kinds)
            sql = f"{sql} {operator} {other}"
        # the text of a fraction isn't in the order of numbers
        if "sum" not in kinds and self.is_drawn(.6):
            terms = self.chance.sample(range(1, len(kinds) + 1), len(kinds))
            order = ", ".join(f"{place}{self.some('', '', ' DESC', ' ASC')}"
                              f"{self.some('', '', ' NULLS LAST', ' NULLS FIRST')}"
                              for place in terms)
            sql += f" ORDER BY {order}"
            sql += self.some("", "", " LIMIT 5", " LIMIT 3 OFFSET 2", " LIMIT 1, 4", " LIMIT -1")
        return pair(self.spaced(head + sql) + self.some("", "", ";", " -- end"))

    def spaced(self, sql: str) -> str:
        """Returns a statement with other spaces and comments between some words."""
        sql = sql.replace(" WHERE ", self.some(" WHERE ", " where ", "\n/* c ' */ WHERE "))
        return sql.replace(" FROM ", self.some(" FROM ", "\nfrom\t", " FROM -- it's\n"))

    def with_queries(self) -> str:
        """Returns a WITH."""
        found, parts = list[Source](), list[str]()
        for name in self.chance.sample(("c1", "c2", "key"), self.some(1, 1, 2)):
            sql, kinds = self.select(1)
            columns = [f"m{place}" for place in range(len(kinds))]
            hint = self.some("", "", " MATERIALIZED", " NOT MATERIALIZED") if self.are_new else ""
            parts.append(f"{name}({', '.join(columns)}) AS{hint} ({sql}{self.first(kinds)})")
            found.append(Source(name, list(zip(columns, kinds))))
        if self.is_drawn(.2):
            parts.append("r(i) AS (SELECT 1 UNION ALL SELECT i + 1 FROM r WHERE i < 4)")
            found.append(Source("r", [("i", "number")]))
        self.commons = found
        return f"WITH {'RECURSIVE ' if found[-1].name == 'r' else ''}{', '.join(parts)} "

    def select(self, depth: int, kinds: Sequence[str] = ()) -> tuple[str, list[str]]:
        """Returns a SELECT, and the kinds of its columns, which may be given."""
        outer = self.sources
        tables = self.from_clause(depth)
        form = "rows" if kinds else self.some("rows", "rows", "groups", "totals", "windows",
                                              "distinct", "values")
        if form == "values" and depth < 2:
            self.sources = outer
            return self.values()
        where = f" WHERE {self.condition(depth)}" if self.is_drawn(.6) else ""
        if form == "groups":
            found = self.groups(depth)
        elif form == "totals":
            found = self.items([self.aggregate(depth) for _ in range(self.some(1, 2, 3))]), "", ""
        elif form == "windows":
            found = self.windows()
        else:
            wanted = list(kinds) or [self.kind() for _ in range(self.some(1, 2, 3))]
            items = [(self.value(kind, depth - 1), kind) for kind in wanted]
            found = self.items(items), "", ""
        items, tail, named = found
        self.sources = outer
        quantifier = "DISTINCT " if form == "distinct" else self.some("", "", "", "ALL ") \
            if form == "rows" else ""
        listed = ", ".join(text for text, _ in items)
        return f"SELECT {quantifier}{listed} FROM {tables}{where}{tail}{named}", \
            [kind for _, kind in items]

    def values(self) -> tuple[str, list[str]]:
        """Returns a VALUES."""
        rows = ", ".join(f"({self.chance.randrange(5)}, {self.literal('text')})"
                         for _ in range(self.some(1, 2, 3)))
        return f"SELECT * FROM (VALUES {rows})", ["number", "text"]

    def items(self, found: Sequence[tuple[str, str]]) -> list[tuple[str, str]]:
        """Returns items, of which some have an alias."""
        return [(f"{text}{self.alias() if self.is_drawn(.3) else ''}", kind)
                for text, kind in found]

    def alias(self) -> str:
        """Returns an alias."""
        name = self.chance.choice(NAMES)
        return f" AS {self.quoted(name)}"

    def quoted(self, name: str, is_qualified: bool = True) -> str:
        """Returns a name, in quotes if it needs them."""
        forms = ['"{}"', "[{}]", "`{}`"]
        if name.isidentifier() and is_qualified:
            forms += ["{}"] * 3
        return str(self.chance.choice(forms)).format(name)

    def from_clause(self, depth: int) -> str:
        """Returns what FROM names, and notes it."""
        text, source = self.source(depth, "t1")
        self.sources = [source]
        for place in range(2, self.some(2, 2, 2, 3, 3, 4)):
            other, more = self.source(depth, f"t{place}")
            joins = [*JOINS, *NEWER] if self.are_new else JOINS
            join = self.chance.choice(joins)
            shared = [name for name, kind in more.columns
                      if (name, kind) in self.sources[0].columns and kind in ("whole", "text")]
            self.sources.append(more)
            if shared and len(self.sources) == 2 and join != "," and self.is_drawn(.3):
                on = f" USING ({self.chance.choice(shared)})"
            else:
                on = "" if join == "," else f" ON {self.joined(more)}"
            text += f"{'' if join == ',' else ' '}{join} {other}{on}"
        return text

    def joined(self, other: Source) -> str:
        """Returns a condition that joins a source to those before it."""
        before = [(source, column) for source in self.sources[:-1] for column in source.columns]
        pairs = [(source, name, column) for source, (name, kind) in before
                 for column, other_kind in other.columns if kind == other_kind != "long"]
        if not pairs:
            return "1"
        source, name, column = self.chance.choice(pairs)
        return f"{source.name}.{self.quoted(name)} = {other.name}.{self.quoted(column)}"

    def source(self, depth: int, name: str) -> tuple[str, Source]:
        """Returns a table, a query of WITH or one in brackets, with an alias."""
        joint = self.some(" ", " AS ")
        if self.commons and self.is_drawn(.5):
            common = self.chance.choice(self.commons)
            return f"{common.name}{joint}{name}", Source(name, common.columns)
        if depth > 0 and self.is_drawn(.2):
            outer, self.sources = self.sources, []
            sql, kinds = self.select(depth - 1)
            self.sources = outer
            columns = [f"q{place}" for place in range(len(kinds))]
            head = f"WITH v({', '.join(columns)}) AS ({sql}) SELECT * FROM v{self.first(kinds)}"
            return f"({head}){joint}{name}", Source(name, list(zip(columns, kinds)))
        table = self.chance.choice(("t", "t", "t", "u", "left"))
        spelled = self.some(self.quoted(table), f"main.{self.quoted(table)}")
        return f"{spelled}{joint}{name}", Source(name, list(TABLES[table].items()))

    def first(self, kinds: Sequence[str]) -> str:
        """Returns an order and a limit of a query that others join: so no product of rows is
        long."""
        places = ", ".join(str(place) for place in range(1, len(kinds) + 1))
        return f" ORDER BY {places} LIMIT {MOST_JOINED}"

    def column(self, *kinds: str) -> tuple[str, str] | None:
        """Returns a column of one of these kinds, and its kind."""
        found = [(source, name, kind) for source in self.sources for name, kind in source.columns
                 if kind in kinds or not kinds]
        if not found:
            return None
        source, name, kind = self.chance.choice(found)
        return f"{source.name}.{self.quoted(name)}", kind

    def kind(self) -> str:
        found = self.column()
        kind = found[1] if found else "number"
        return "number" if self.is_drawn(.2) and kind != "long" else kind

    def value(self, kind: str, depth: int) -> str:
        """Returns an expression of a kind."""
        if kind == "number":
            return self.number(depth)
        found = self.column(kind)
        if not found:
            return self.literal(kind)
        column = found[0]
        if kind == "text" and depth > 0 and self.is_drawn(.3):
            return str(self.some(
                f"upper({column})", f"{column} || 'z'", f"substr({column}, 1, 2)",
                f"coalesce({column}, '-')", f"replace({column}, 'a', '')",
                f"CASE {column} WHEN {self.literal(kind)} THEN 'one' ELSE {column} END",
                f"CAST({self.number(0)} AS TEXT)", f"trim({column}) COLLATE NOCASE"))
        if depth > 0 and self.is_drawn(.1):
            return str(self.some(f"CASE WHEN {self.condition(depth - 1)} THEN {column} END",
                                 f"nullif({column}, {self.literal(kind)})") if kind != "long"
                       else column)
        return column

    def number(self, depth: int) -> str:
        """Returns an expression that is a number."""
        found = self.column("whole", "decimal", "float", "truth", "number")
        one = found[0] if found else str(self.chance.randrange(9))
        if depth <= 0:
            return one
        two = self.number(depth - 1)
        return str(self.some(
            one, f"{one} + {two}", f"({one} - {two}) * 2", f"-{one}", f"+{one}", f"{one} / 4",
            f"abs({one})", f"{one} % 3", f"round({one}, 1)", f"coalesce({one}, {two}, 0)",
            f"CASE WHEN {self.condition(depth - 1)} THEN {one} ELSE {two} END", f"~CAST({one} AS "
            "INTEGER)", f"CAST({one} AS INTEGER) & 3 | 4 << 1", f"{one} > {two}", f"{one} IS NULL",
            f"max({one}, {two})", f"iif({one} > 1, 1, {two})", self.of_others(depth)))

    def of_others(self, depth: int) -> str:
        """Returns a number of an expression of another kind, or of a query."""
        text, moment = self.value("text", 0), self.value(self.some("date", "time"), 0)
        return str(self.some(f"length({text})", f"instr({text}, 'a')", f"unicode({text})",
                             f"strftime('%d', {moment}) + 0", f"julianday({moment})",
                             f"CAST({text} AS INTEGER)", self.scalar(depth)))

    def scalar(self, depth: int) -> str:
        """Returns a query that is a value, which may read a column around it."""
        column = self.column("whole")
        where = f" WHERE i.k = {column[0]}" if column and self.is_drawn(.6) else ""
        return f"(SELECT {self.some('count(*)', 'max(i.n)', 'min(i.k)', 'sum(i.n)')} FROM u i" \
               f"{where})"

    def literal(self, kind: str) -> str:
        """Returns a literal of a kind."""
        chance = self.chance
        if kind in ("whole", "number"):
            return str(self.some(chance.randrange(-2, 9), "2.5", "3.0", "0x3", "1e0", "+4"))
        if kind == "wide":
            return str(self.some(chance.randrange(-1 << 62, 1 << 62), (1 << 53) + 1, 4))
        if kind == "decimal":
            return f"{chance.randrange(-300, 2000) / 100:.2f}"
        if kind == "long":
            number = self.some(123456789012345678 + chance.randrange(3), 0, 10 ** 18)
            return f"{{{number // LONG}.{number % LONG:02}|{number}}}"
        if kind == "float":
            return repr(chance.choice(FLOATS))
        if kind == "truth":
            return str(self.some("TRUE", "FALSE", "1", "0"))
        if kind == "text":
            quoted = chance.choice(TEXTS).replace("'", "''")
            return f"'{quoted}'"
        day = f"2024-{self.some('02-27', '02-29', '03-01', '03-05')}"
        return f"'{day}'" if kind == "date" else \
            f"'{day} {self.some('00:00:00', '12:30:00', '23:59:59')}'"

    def condition(self, depth: int) -> str:
        """Returns a condition."""
        if depth > 0 and self.is_drawn(.4):
            one, two = self.condition(depth - 1), self.condition(depth - 1)
            return str(self.some(f"{one} AND {two}", f"({one} OR {two})", f"NOT ({one})",
                                 f"{one} AND ({two})", f"({one}) IS NOT TRUE",
                                 f"NOT ({one} AND {two})", f"({one}) IS NULL"))
        found = self.column()
        if not found:
            return self.number(0)
        column, kind = found
        literal, other, negated = self.literal(kind), self.literal(kind), self.some("", "", "NOT ")
        forms = [f"{column} {self.chance.choice(COMPARE)} {literal}",
                 f"{literal} {self.some('<', '=', '>=')} {column}",
                 f"{column} {negated}BETWEEN {literal} AND {other}",
                 f"{column} {negated}IN ({literal}, {other}, NULL)",
                 f"{column} {negated}IN ({literal}, {other})",
                 f"{column} {self.some('IS NULL', 'IS NOT NULL', 'ISNULL', 'NOTNULL', 'NOT NULL')}"]
        if self.are_new:
            forms.append(f"{column} IS {negated}DISTINCT FROM {literal}")
        if kind == "text":
            forms += [f"{column} {negated}LIKE {self.pattern()}",
                      f"{column} {negated}GLOB '{self.some('*a*', 'B*', '[aZ]*', '?')}'",
                      f"{column} = {literal} COLLATE NOCASE"]
        if kind in ("whole", "text", "date", "decimal", "truth") and depth > 0:
            forms += self.of_queries(column, kind, negated)
        if kind in ("whole", "float", "decimal", "number"):
            forms.append(f"{self.number(depth)} {self.some('<', '>=')} {self.number(0)}")
        return str(self.chance.choice(forms))

    def pattern(self) -> str:
        return str(self.some("'a%'", "'%o%'", "'_'", "'%''%'", "'10!%' ESCAPE '!'", "'ZOO'"))

    def of_queries(self, column: str, kind: str, negated: str) -> list[str]:
        """Returns conditions with queries over another table, or the table itself."""
        table = self.some(*[each for each in ("t", "u") if kind in TABLES[each].values()])
        name = self.some(*[name for name, each in TABLES[table].items() if each == kind])
        where = self.some("", f" WHERE i.{name} <> {self.literal(kind)}")
        return [f"{column} {negated}IN (SELECT i.{name} FROM {table} AS i{where})",
                f"{negated}EXISTS (SELECT 1 FROM {table} AS i WHERE i.{name} = {column})",
                f"{column} >= (SELECT min(i.{name}) FROM {table} i{where})",
                f"({column}, 1) = ({self.literal(kind)}, 1)",
                f"CASE WHEN {column} IS NULL THEN 0 ELSE {column} = {self.literal(kind)} END"]

    def aggregate(self, depth: int) -> tuple[str, str]:
        """Returns an aggregate, and its kind."""
        found, only = self.column(), ""
        if self.is_drawn(.2):
            only = f" FILTER (WHERE {self.condition(depth - 1)})"
        if not found or self.is_drawn(.2):
            return f"{self.some('COUNT(*)', 'count( * )', 'COUNT(1)')}{only}", "number"
        column, kind = found
        if kind == "sum":
            # sqlite3 gets a text
            return f"COUNT({column}){only}", "number"
        forms = [(f"COUNT({self.some('', 'DISTINCT ')}{column}){only}", "number"),
                 (f"{self.some('MIN', 'max')}({column}){only}", kind)]
        if kind in ("whole", "float", "truth"):
            forms += [(f"SUM({column}){only}", "number"), (f"avg({column}){only}", "number"),
                      (f"{{total(|coalesce(exact_total(}}{column}){only}{{|, 0.0)}}", "number"),
                      (f"sum({self.some('DISTINCT ', '')}{column}) + 1", "number")]
        if kind == "decimal" and depth > 1:
            forms += [(f"{{sum|exact_sum}}({column}){only}", "sum"),
                      (f"avg({column}){only}", "number")] * 2
        if kind == "long" and depth > 1:
            forms.append((f"{{SUM|long_sum}}({column}){only}", "sum"))
        if kind in ("whole", "decimal", "truth") and depth > 0:
            only = self.condition(0)
            word, of = ("{sum|exact_sum}", "sum") if kind == "decimal" else ("sum", "number")
            other = self.some("NULL", "1")
            forms += [(f"{word}(CASE WHEN {only} THEN {column} ELSE 0 END)", of),
                      (f"{word}(iif({only}, {column}, {other}))", of),
                      (f"avg(iif({only}, {column}, {other}))", "number"),
                      (f"{{sum|exact_sum}}(iif({only}, {column}, {self.some('2.5', '-3.')}))",
                       "sum"),
                      (f"{word}(CASE {column} WHEN {self.literal(kind)} THEN 1 ELSE {column} END)",
                       of)]
        return self.chance.choice(forms)

    def groups(self, depth: int) -> tuple[list[tuple[str, str]], str, str]:
        """Returns the items of a SELECT with groups, and its GROUP BY and HAVING."""
        keys = list[tuple[str, str]]()
        for _ in range(self.some(1, 1, 2)):
            kind = self.kind()
            keys.append((self.value(kind, depth - 1 if self.is_drawn(.4) else 0), kind))
        made = [self.aggregate(depth) for _ in range(self.some(0, 1, 2))]
        having = self.some("", "", "", " HAVING count(*) > 1",
                           f" HAVING {keys[0][0]} IS NOT NULL")
        named = [str(place) if self.is_drawn(.2) else key
                 for place, (key, _) in enumerate(keys, 1)]
        return self.items([*keys, *made]), f" GROUP BY {', '.join(named)}{having}", ""

    def windows(self) -> tuple[list[tuple[str, str]], str, str]:
        """Returns the items of a SELECT with windows, and its clause WINDOW."""
        every = [f"{source.name}.{self.quoted(name)}" for source in self.sources
                 for name, kind in source.columns if kind != "long"]
        part = self.column("whole", "text", "truth", "date")
        part_by = f"PARTITION BY {part[0]} " if part and self.is_drawn(.7) else ""
        order = f"ORDER BY {', '.join(every)}"
        frame = self.some("", "", " ROWS BETWEEN 1 PRECEDING AND CURRENT ROW",
                          " ROWS 2 PRECEDING",
                          " GROUPS BETWEEN UNBOUNDED PRECEDING AND 1 FOLLOWING",
                          " RANGE UNBOUNDED PRECEDING EXCLUDE NO OTHERS")
        number = self.number(0)
        function = self.some("count(*)", f"sum({number})", f"max({number})", "rank()",
                             "row_number()", f"lag({number})", "ntile(3)", f"first_value({number})",
                             f"avg({number}) FILTER (WHERE {number} > 1)")
        if "FILTER" in function:
            frame = frame.replace(" EXCLUDE NO OTHERS", "")
        window = f"{part_by}{order}{frame}"
        first = self.kind()
        items = [(self.value(first, 0), first)]
        if self.is_drawn(.3):
            return self.items([*items, (f"{function} OVER w", "number")]), "", \
                f" WINDOW w AS ({window})"
        return self.items([*items, (f"{function} OVER ({window})", "number")]), "", ""


WORDS = ("SELECT FROM WHERE AND OR NOT IN IS NULL LIKE BETWEEN CASE WHEN THEN ELSE END AS ON USING "
         "JOIN LEFT RIGHT FULL CROSS NATURAL OUTER INNER GROUP BY ORDER HAVING LIMIT OFFSET UNION "
         "ALL EXCEPT INTERSECT DISTINCT WITH VALUES WINDOW OVER FILTER PARTITION ROWS RANGE EXISTS "
         "CAST COLLATE ISNULL NOTNULL GLOB MATCH REGEXP ESCAPE ASC DESC NULLS FIRST LAST RECURSIVE "
         "INDEXED ROW CURRENT KEY IF DATE REPLACE UNBOUNDED EXCLUDE TIES PLAN QUERY TABLE SET TO "
         "( ) , . * + - / % = < > <= >= <> != == || -> ->> & | << >> ~ ; 1 2.5 'x' a b \"q\" [r] "
         "`s` x'00' ? t u id count 0x1F 1e3 12ab ' \" rowid sqlite_master").split()


def mutated(words: Sequence[str], chance: random.Random) -> str:
    """Returns a statement of these tokens, of which one or two were left out, replaced, added or
    exchanged."""
    found = list(words)
    for _ in range(chance.choice((1, 1, 1, 2))):
        place, way = chance.randrange(len(found)), chance.randrange(4)
        word = chance.choice((chance.choice(WORDS), chance.choice(found)))
        if way == 0 and len(found) > 1:
            del found[place]
        elif way == 1:
            found[place] = word
        elif way == 2:
            found.insert(place, word)
        else:
            other = chance.randrange(len(found))
            found[place], found[other] = found[other], found[place]
    return " ".join(found)

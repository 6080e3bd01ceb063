#!/usr/bin/env python3
"""Checks a program file: says whether its certificate shows that its program selects exactly the
rows on which the condition of a statement is TRUE, over every table of a schema.

    python3 verify/check.py SCHEMA SQL FILE

It prints `accepted`, or the number and the place of the first error. It follows docs/FORMATS.md,
and docs/SQL.md for the grammar of statements; docs/FAULTS.md says what numbers mean. What follows
a section of a page begins with its name. It needs Python 3.9 or later, and nothing of bw."""
from __future__ import annotations

import os
import pathlib
import re
import sys
from dataclasses import dataclass
from typing import Any, Callable, Optional, Sequence, TypeVar, Union


class Fault(Exception):
    """The first error: its number, and its place, such as `line 4`, if it has one."""


def forms(text: str) -> dict[tuple[str, int], list[str]]:
    """Returns forms of lines by their first word and how many others they have. Of these * is any
    word, A|B is A or B, R a register, # a number, 1 and 255 numbers up to that, - a number or `-`,
    and +- a signed number."""
    found = [form.split() for form in text.split("/")]
    return {(form[0], len(form) - 1): form[1:] for form in found}


NUMBERS = {"R": (0, 63), "#": (0, 2 ** 64 - 1), "-": (0, 2 ** 64 - 1), "1": (0, 1), "255": (0, 255),
           "+-": (-2 ** 63, 2 ** 63 - 1)}
SCHEMA = forms("TABLE * / COLUMN * +- +- / COLUMN * +- +- NOT NULL")
PROGRAM = forms("LOAD R * # / NULLS R * / FILL R 1 / AND R R R / OR R R R / XOR R R R / NOT R R /"
                "BYTELT R * # 255 / BYTEEQ R * # 255 / SKIP R # / RESULT R")
CERTIFICATE = forms(
    "NODE # # # # / CHAIN # LT|EQ * # # # # - / CHAIN # LT2|EQ2 * * # # - /"
    "ROW # AND|OR|XOR|DIFF # # # S / ROW # AND|OR|XOR|DIFF # # # V # # # /"
    "CMP - - # # / CMP2 - - - # # # / FIXED / NULLTEST # / AND # # / OR # # / NOT / IS # /"
    "IS # # / LOAD # / FILL / OP # / BYTE - / SKIP / JOIN # / END #")
SECTIONS, OPS = {"NODE": 0, "CHAIN": 1, "ROW": 2, "END": 4}, ("AND", "OR", "XOR", "DIFF")
NONE, AGGREGATES = -1, ("COUNT", "SUM", "MIN", "MAX")
RESERVED = ("AND BETWEEN COUNT FALSE FROM IN IS MAX MIN NOT NULL OR SELECT SUM TRUE UNKNOWN "
            "WHERE").split()
TOKEN = re.compile(r"(?:[ \t\r\n]|--[^\n]*)*([A-Z_][A-Z0-9_]*|[0-9]+|<>|<=|>=|.|\Z)", re.DOTALL)
OTHER = {"AND": "OR", "OR": "AND", "<": ">", ">": "<", "<=": ">=", ">=": "<=", "=": "=", "<>": "<>"}
# the word of a comparison's chain, what is added to the literal, and whether it is the opposite
CHAINS = {"<": ("LT", 0, False), ">=": ("LT", 0, True), "<=": ("LT", 1, False),
          ">": ("LT", 1, True), "=": ("EQ", 0, False), "<>": ("EQ", 0, True)}
Operand = Union["Column", int, None]
T = TypeVar("T")


def value_of(kind: str, word: str) -> Union[int, str, None]:
    """Lines: returns what a word means in a form's place, or None if it doesn't fit there."""
    if kind not in NUMBERS:
        return word if kind == "*" else word.upper() if word.upper() in kind.split("|") else None
    least, most = NUMBERS[kind]
    found = re.fullmatch(("[rR]" if kind == "R" else "-?" if least else "") + "([0-9]+)", word)
    if not found:
        return NONE if kind == "-" == word else None
    value = int(found[1].lstrip("0")[:21] or "0") * (-1 if word[0] == "-" else 1)
    return value if least <= value <= most else None


@dataclass(frozen=True)
class Line:
    """Lines: a line's number, its first word in capitals, and its other words, or their values."""

    number: int
    key: str = ""
    values: Sequence[Any] = ()

    def need(self, is_right: bool, error: int) -> None:
        """Raises an error at the line, unless it is right."""
        if not is_right:
            raise Fault(error, f"line {self.number}")

    def read(self, known: dict[tuple[str, int], list[str]], error: int, of_register: int) -> Line:
        """Returns the line with values, if it has one of the known forms."""
        form = known.get((self.key, len(self.values)), ["\n"])
        found = [value_of(kind, word) for kind, word in zip(form, [*self.values, ""])]
        self.need(all(value is not None or kind == "R" for kind, value in zip(form, found)), error)
        self.need(None not in found, of_register)
        return Line(self.number, self.key, found)


def lines_of(data: bytes) -> tuple[list[Line], Line]:
    """Lines: returns those with words that are no comments, and the line past the last of all."""
    texts = data.decode("latin-1").split("\n")  # in Latin-1 a character is a byte
    texts = texts if texts[-1] else texts[:-1]
    split = [re.findall("[^ \t]+", text[:-1] if text.endswith("\r") else text) for text in texts]
    return [Line(number, words[0].upper(), words[1:]) for number, words in enumerate(split, 1)
            if words and words[0][0] != "#"], Line(1 + len(texts))


@dataclass(frozen=True)
class Column:
    """Codes and variables: bit b is variable `last` - b, and the null variable `last` - width."""

    name: str
    lo: int
    hi: int
    nullable: bool
    width: int
    last: int


class Schema:
    """Schema text: its table, its columns by names in capitals, and the last variable of all."""

    def __init__(self, data: bytes) -> None:
        if len(data) > 65_536:
            raise Fault(106)
        self.columns: dict[str, Column] = {}
        self.last = NONE
        lines, end = lines_of(data)
        end.need(bool(lines), 101)
        for at, line in enumerate(lines):
            name, lo, hi, *more = [*line.read(SCHEMA, 101, 101).values, 0, 0][:5]
            line.need((line.key == "TABLE") == (at == 0), 101)
            line.need(at <= 64, 105)
            line.need(bool(re.fullmatch("[A-Za-z_][A-Za-z0-9_]{0,62}", name)) and
                      name.upper() not in RESERVED, 102)
            line.need(name.upper() not in self.columns, 104)
            line.need(0 <= hi - lo < 2 ** 63, 103)
            if at:
                is_nullable, width = "NOT" not in more, max(1, (hi - lo).bit_length())
                self.last += is_nullable + width
                self.columns[name.upper()] = Column(name, lo, hi, is_nullable, width, self.last)
        self.table = lines[0].values[0].upper()
        end.need(bool(self.columns), 105)


@dataclass(frozen=True)
class Condition:
    """Grammar: a comparison, whose word is its sign; IS NULL, whose word is NULL; AND or OR of two
    or more parts; NOT, TRUE, FALSE or UNKNOWN of a part; or, without a word, no WHERE."""

    word: str
    parts: Sequence[Condition] = ()
    operands: Sequence[Operand] = ()


class Statement:
    """Grammar; Words, numbers and comments: reads a statement from the left, up to its first
    error. `items` are columns without a word, or aggregates; COUNT(*) has no column."""

    def __init__(self, schema: Schema, data: bytes) -> None:
        if len(data) > 65_536:
            raise Fault(407, "byte 65536")
        self.columns, text = schema.columns, data.upper().decode("latin-1")
        self.rest = ((found[1], found.start(1)) for found in TOKEN.finditer(text))
        self.token, self.at = next(self.rest)
        self.expect("SELECT")
        self.is_total = self.token in AGGREGATES
        self.items: list[tuple[str, Optional[Column]]] = self.some(self.item, ",") \
            if not self.accept("*") else [("", column) for column in schema.columns.values()]
        self.expect("FROM")
        self.name({schema.table: None}, 403)
        self.condition = self.joined("OR", 0) if self.accept("WHERE") else Condition("")
        self.accept(";")
        self.expect("")

    def accept(self, *tokens: str) -> str:
        """Steps over one of some words and signs, and returns it, or returns nothing."""
        found = self.token if self.token in tokens else ""
        self.token, self.at = next(self.rest) if found else (self.token, self.at)
        return found

    def expect(self, *tokens: str) -> str:
        if self.token not in tokens:
            is_none = re.match("[^A-Z0-9_(),*;+=<>-]", self.token)
            raise Fault(401 if is_none else 402, f"byte {self.at}")
        return self.accept(*tokens)

    def some(self, read: Callable[[], T], between: str) -> list[T]:
        found = [read()]
        while self.accept(between):
            found.append(read())
        return found

    def name(self, known: dict[str, T], error: int) -> T:
        """Steps over a name that must be known. Returns what it names."""
        if not re.match("[A-Z_]", self.token) or self.token in RESERVED:
            self.expect()
        if self.token not in known:
            raise Fault(error, f"byte {self.at}")
        return known[self.accept(self.token)]

    def item(self) -> tuple[str, Optional[Column]]:
        at, word = self.at, self.accept(*AGGREGATES)
        column = None if word else self.name(self.columns, 404)
        if bool(word) != self.is_total:
            raise Fault(406, f"byte {at}")
        if word:
            self.expect("(")
            column = None if word == "COUNT" and self.accept("*") else self.name(self.columns, 404)
            self.expect(")")
        return word, column

    def joined(self, word: str, depth: int) -> Condition:
        parts = self.some(lambda: self.factor(depth) if word == "AND" else
                          self.joined("AND", depth), word)
        return Condition(word, parts) if parts[1:] else parts[0]

    def factor(self, depth: int) -> Condition:
        begun = list[str]()
        for token in ("NOT", "("):
            if self.token == token and depth + len(begun) == 100:
                raise Fault(408, f"byte {self.at}")
            begun += [token] if self.accept(token) else []
        found = self.joined("OR", depth + len(begun)) if "(" in begun else self.predicate()
        if "(" in begun:
            self.expect(")")
        if self.accept("IS"):
            is_opposite = self.accept("NOT")
            found = Condition(self.expect("TRUE", "FALSE", "UNKNOWN"), [found])
            found = Condition("NOT", [found]) if is_opposite else found
        return Condition("NOT", [found]) if "NOT" in begun else found

    def predicate(self) -> Condition:
        """Reads a predicate; BETWEEN and IN as the comparisons that they stand for."""
        first = self.operand()
        if self.token in CHAINS:
            return Condition(self.accept(*CHAINS), (), [first, self.operand()])
        is_test, is_not = self.accept("IS"), self.accept("NOT")
        word = self.expect(*(["NULL"] if is_test else ["BETWEEN", "IN"]))
        parts = [Condition("NULL", (), [first])]
        if word == "IN":
            self.expect("(")
            parts = [Condition("=", (), [first, each]) for each in self.some(self.operand, ",")]
            self.expect(")")
        elif word == "BETWEEN":
            low, _, high = self.operand(), self.expect("AND"), self.operand()
            parts = [Condition(">=", (), [first, low]), Condition("<=", (), [first, high])]
        found = Condition("OR" if word == "IN" else "AND", parts) if parts[1:] else parts[0]
        return Condition("NOT", [found]) if is_not else found

    def operand(self) -> Operand:
        at, sign = self.at, self.accept("+", "-", "NULL")
        if sign == "NULL":
            return None
        if not re.match("[0-9]", self.token):
            return self.name({}, 402) if sign else self.name(self.columns, 404)
        value = value_of("+-", sign.strip("+") + self.token)
        if not isinstance(value, int):
            raise Fault(405, f"byte {at}")
        self.accept(self.token)
        return value


class Program:
    """Program text: its instructions, with columns in place of their names, and its result."""

    def __init__(self, schema: Schema, lines: list[Line], end: Line) -> None:
        self.instructions, self.result = list[Line](), NONE
        for line in lines:
            at, key = len(self.instructions), line.key
            line.need(key == "RESULT" or at < 4096 or self.result != NONE, 505)
            line.need(self.result == NONE, 501)
            r, *more = line.read(PROGRAM, 501, 502).values
            if key in ("LOAD", "NULLS", "BYTELT", "BYTEEQ"):
                more[0] = schema.columns.get(more[0])
                line.need(more[0] is not None and (key == "NULLS" or more[1] < (
                    more[0].width if key == "LOAD" else (more[0].width + 7) // 8)), 503)
                line.need(key != "NULLS" or more[0].nullable, 507)
            line.need(key != "SKIP" or more[0] > at, 504)
            self.result = r if key == "RESULT" else NONE
            self.instructions += [Line(line.number, key, [r, *more])] * (key != "RESULT")
        end.need(self.result != NONE, 506)
        for line in self.instructions:
            line.need(line.key != "SKIP" or line.values[1] <= len(self.instructions), 504)


class Certificate:
    """Certificate text: reads one, then checks it from the top, up to its first error. `line` is
    the last that was checked, and `error` the number for what is wrong with it. `known` are the
    nodes of registers; `skips` has those at each skip to a target, with its register's node."""

    def __init__(self, schema: Schema, lines: list[Line], end: Line) -> None:
        self.schema, self.nodes, self.line, self.error = schema, [(-1, 0, 0), (-1, 1, 1)], end, 605
        self.chains, self.rows = list[tuple[Any, int]](), list[tuple[tuple[str, int, int], int]]()
        self.known, self.skips = dict[int, int](), dict[int, list[tuple[dict[int, int], int]]]()
        self.lines, section = list[Line](), 0
        for line in lines:
            size = len(line.values)
            keep = {("KEEP", size): ["R"] + ["#"] * (size - 1)} if size > 2 and size % 2 else {}
            self.lines.append(line.read(keep if line.key == "KEEP" else CERTIFICATE, 605, 605))
            line.need(section <= SECTIONS.get(line.key, 3) and section < 4, 605)
            section = SECTIONS.get(line.key, 3)
        end.need(section == 4, 605)
        self.lines.reverse()

    def check(self, condition: Condition, program: Program) -> None:
        """Checks the lines of a program that selects where a condition is TRUE; End."""
        sections: list[Any] = [("NODE", self.nodes, 65_536, 601, self.is_node),
                               ("CHAIN", self.chains, 65_536, 603, self.is_chain),
                               ("ROW", self.rows, 1_048_576, 602, self.is_row)]
        for key, stated, limit, error, is_right in sections:
            while self.lines[-1].key == key:
                n, *values = self.next(key, error)
                self.line.need(len(stated) < limit, 604)
                self.need(n == len(stated) and is_right(*values))
        true = self.pair(condition)[0]
        for at, made in enumerate(program.instructions):
            self.join(at)
            self.instruction(made)
        self.join(len(program.instructions))
        i, = self.next("END", 610)
        self.line.need(program.result in self.known, 609)
        self.need(self.cited(i, "XOR", self.known[program.result], true) == 0)

    def next(self, key: str, error: int) -> Sequence[Any]:
        """Goes to the next line, which must have a first word. Returns its values."""
        self.line, self.error = self.lines[-1], error
        self.need(self.line.key == key)
        return self.lines.pop().values

    def need(self, is_right: bool) -> None:
        self.line.need(is_right, self.error)

    def cited(self, i: int, *wanted: object) -> int:
        """Returns the node of chain i, or what row i yields, if it is of what is wanted."""
        facts: Sequence[tuple[Any, int]] = self.rows if wanted[0] in OPS else self.chains
        self.need(0 <= i < len(facts) and facts[i][0] == wanted)
        return facts[i][1]

    def is_node(self, v: int, low: int, high: int) -> bool:
        """Nodes."""
        self.nodes.append((v, low, high))
        return v <= self.schema.last and max(low, high) < len(self.nodes) - 1

    def child(self, node: int, v: int, side: int) -> int:
        """Returns a node's child on a side, or the node if it tests another variable."""
        return self.nodes[node][1 + side] if self.nodes[node][0] == v else node

    def is_chain(self, word: str, *given: Any) -> bool:
        """Chains over one column, whose bound is as a second column; Chains over two columns."""
        names = given[:1 + len(word[2:])]
        columns = tuple(each for name in names if (each := self.schema.columns.get(name)))
        start, size, bound, node, prev = [0, given[2], 0, *given[3:]] if word[2:] else given[1:]
        if len(columns) < len(names) or node >= len(self.nodes) or columns[0] in columns[1:] or \
                start + size > max(column.width for column in columns) or bound >> size:
            return False
        self.chains.append(((word, columns, start, size, bound), node))
        if size == 0:
            return bool(prev == NONE and node == (word[:2] == "EQ"))
        bit, top = start + size - 1, bound >> (size - 1)
        e = self.cited(prev, word, columns, start, size - 1, bound - (top << (size - 1)))
        v, w = [*(each.last - bit if bit < each.width else -2 for each in columns), -2][:2]
        return all(self.child(self.child(node, v, a), w, b) ==
                   (e if a == b else int(word[:2] == "LT" and a < b))
                   for a in ((0, 1) if v >= 0 else (0,)) for b in ((0, 1) if w >= 0 else (top,)))

    def is_row(self, op: str, a: int, b: int, c: int, _: str, *split: int) -> bool:
        """Product rows."""
        if max(a, b, c) >= len(self.nodes):
            return False
        self.rows.append(((op, a, b), c))
        if not split:
            return (True, c) in {
                "AND": [(0 in (a, b), 0), (a in (1, b), b), (b == 1, a)],
                "OR": [(1 in (a, b), 1), (a in (0, b), b), (b == 0, a)],
                "XOR": [(a == b, 0), (a == 0, b), (b == 0, a)],
                "DIFF": [(a in (0, b) or b == 1, 0), (b == 0, a)]}[op]
        v, *parts = split
        wanted = [[self.child(node, v, side) for node in (a, b, c)] for side in (0, 1)]
        return v <= self.schema.last and max(parts) < len(self.rows) - 1 and all(
            self.cited(i, op, a, b) == c for i, (a, b, c) in zip(parts, wanted))

    def nulls(self, i: int, column: Column) -> tuple[int, int]:
        """Returns the nodes that are 1 where a column is null, and where it isn't."""
        self.need(column.nullable or i == NONE)
        if not column.nullable:
            return 0, 1
        z = self.rows[i][0][2] if 0 <= i < len(self.rows) else 0
        self.need(self.nodes[z] == (column.last - column.width, 0, 1))
        return z, self.cited(i, "DIFF", 1, z)

    def pair(self, condition: Condition) -> tuple[int, int]:
        """Condition lines: returns the nodes where a condition is TRUE, and where it is FALSE."""
        word, parts, (x, y) = condition.word, condition.parts, (*condition.operands, None, None)[:2]
        if word in CHAINS:
            return self.compared(word, x, y)
        if not parts:
            if isinstance(x, Column) and x.nullable:
                return self.nulls(self.next("NULLTEST", 606)[0], x)
            self.next("FIXED", 606)
            return int(x is None), int(x is not None)
        t, f = self.pair(parts[0])
        for part in parts[1:]:
            t2, f2 = self.pair(part)
            i, j = self.next(word, 606)
            t, f = self.cited(i, word, t, t2), self.cited(j, OTHER[word], f, f2)
        if word in OTHER:
            return t, f
        numbers = self.next("NOT" if word == "NOT" else "IS", 606)
        if word == "NOT":
            return f, t
        self.need(len(numbers) == 1 + (word == "UNKNOWN"))
        k = t if word == "TRUE" else f if word == "FALSE" else self.cited(numbers[0], "OR", t, f)
        u = self.cited(numbers[-1], "DIFF", 1, k)
        return (u, k) if word == "UNKNOWN" else (k, u)

    def compared(self, sign: str, x: Operand, y: Operand) -> tuple[int, int]:
        """Condition lines: returns the pair of a comparison."""
        if not isinstance(x, Column):
            x, y, sign = y, x, OTHER[sign]
        word, more, is_not = CHAINS[sign]
        if not isinstance(x, Column) or y is None:
            self.next("FIXED", 606)
            if not isinstance(x, int) or not isinstance(y, int):
                return 0, 0
            is_true = is_not != (x < y + more if word == "LT" else x == y)
            return int(is_true), int(not is_true)
        chain, i, *others = self.next("CMP2" if isinstance(y, Column) else "CMP", 606)
        m = self.nulls(i, x)[1]
        if isinstance(y, int):
            k, wanted = y - x.lo + more, [word, (x,), 0, x.width, y - x.lo + more]
            fixed = 0 if k < (word == "LT") else int(word == "LT") if k >> x.width else NONE
        else:
            m = self.cited(others[1], "AND", m, self.nulls(others[0], y)[1])
            is_not = is_not != bool(more)
            wanted = [word + "2", (y, x) if more else (x, y), 0, max(x.width, y.width), 0]
            fixed = int(word == "EQ") if x == y else NONE
            self.need(x.lo == y.lo)
        self.need(fixed == NONE or chain == NONE)
        e = self.cited(chain, *wanted) if fixed == NONE else fixed
        pair = self.cited(others[-2], "AND", m, e), self.cited(others[-1], "DIFF", m, e)
        return pair[::-1] if is_not else pair

    def instruction(self, made: Line) -> None:
        """Instruction lines."""
        key = {"NULL": "LOAD", "LOAD": "LOAD", "FILL": "FILL", "BYTE": "BYTE", "SKIP": "SKIP"}.get(
            made.key[:4], "OP")
        given, (to, *more) = self.next(key, 607), made.values
        reads = more if key == "OP" else [to] if key == "SKIP" else []
        self.line.need(all(register in self.known for register in reads), 609)
        nodes = [self.known[register] for register in reads]
        if key == "SKIP":
            self.skips.setdefault(more[0], []).append((dict(self.known), nodes[0]))
        elif key == "FILL":
            self.known[to] = more[0]
        elif key == "OP":
            op = ["DIFF", 1] if made.key == "NOT" else [made.key]
            self.known[to] = self.cited(given[0], *op, *nodes)
        elif key == "LOAD":
            v = more[0].last - (more[1] if made.key == "LOAD" else more[0].width)
            self.need((v, 0, 1) in self.nodes[given[0]:given[0] + 1])
            self.known[to] = given[0]
        else:
            (column, s, k), word = more, made.key[4:]
            length = min(8, column.width - 8 * s)
            self.need(k >> length == 0 or given[0] == NONE)
            self.known[to] = int(word == "LT") if k >> length else \
                self.cited(given[0], word, (column,), 8 * s, length, k)

    def join(self, at: int) -> None:
        """Joins."""
        skips, after = self.skips.get(at, []), dict[int, int]()
        if skips:
            self.need(self.next("JOIN", 608) == [at])
        while skips and self.lines[-1].key == "KEEP":
            r, h, x, *pairs = self.next("KEEP", 608)
            self.need(r > max(after, default=NONE) and len(pairs) == 2 * len(skips) and
                      all(r in known for known in (self.known, *(each for each, _ in skips))))
            self.need(self.cited(x, "XOR", self.known[r], h) == 0)
            for (known, q), i, j in zip(skips, pairs[::2], pairs[1::2]):
                self.need(self.cited(j, "DIFF", self.cited(i, "XOR", known[r], h), q) == 0)
            after[r] = h
        self.known = after if skips else self.known


def check(schema: Schema, condition: Condition, data: bytes) -> None:
    """Program file."""
    if len(data) > 67_108_864:
        raise Fault(508)
    lines, end = lines_of(data.upper())
    mark = next((line for line in lines if line.key == "CERTIFICATE" and not line.values), end)
    program = Program(schema, [line for line in lines if line.number < mark.number], mark)
    Certificate(schema, [line for line in lines if line.number > mark.number], end).check(
        condition, program)


def main() -> None:
    if len(sys.argv) != 4:
        sys.exit(__doc__)
    try:
        schema = Schema(pathlib.Path(sys.argv[1]).read_bytes())
        statement = Statement(schema, os.fsencode(sys.argv[2]))
        check(schema, statement.condition, pathlib.Path(sys.argv[3]).read_bytes())
        print("accepted")
    except Fault as fault:
        sys.exit(" at ".join(map(str, fault.args)))


if __name__ == "__main__":
    main()

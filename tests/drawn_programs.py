"""What is drawn for verify/: schemas and statements over them, CSVs in every spelling, changed
programs, and texts of which something was changed. All of it depends only on the seed."""
from __future__ import annotations

import random
import re
from typing import Callable

from tests import drawn
from tests.drawn import COMPARE, Bounds

# what the range of a column is drawn from, and its minimum
RANGES = (0, 1, 2, 7, 10, 255, 256, 1000, 70_000, 2 ** 32 - 1, 2 ** 41, 2 ** 63 - 1)
LEASTS = (0, 0, 0, -10, 1, -2 ** 40, -2 ** 63)
# near these numbers rows have values
NEAR = (-300, -10, -1, 0, 1, 7, 255, 65_535)
# words and signs for changed statements, and words for changed program files
TOKENS = ("AND OR NOT IN IS NULL BETWEEN TRUE UNKNOWN ( ) , * ; + - = <> < <= . ! ' -- 0 7 a b t "
          "zz SELECT FROM WHERE COUNT SUM _x 99999999999999999999 -9223372036854775808").split()
WORDS = ("- S V AND OR XOR DIFF LT EQ LT2 r1 r64 0 1 a CERTIFICATE END # NOT FIXED SKIP JOIN LOAD "
         "KEEP RESULT NULL NaN").split()
CHARACTERS = " \t\r\x0b\x00#-0123456789aAbBrRxé\xdf\n,"
LIMITS = (0, 1, 2, 63, 64, 255, 256, 4096, 2 ** 64 - 1, 2 ** 64, 10 ** 30)


class Statements:
    """A drawn schema, and statements over it."""

    def __init__(self, chance: random.Random, most: int = 5) -> None:
        self.chance, self.columns = chance, dict[str, Bounds]()
        for name in "abcdefgh"[:chance.randint(1, most)]:
            low, size = chance.choice(LEASTS), chance.choice(RANGES[:chance.choice((6, 9, 12))])
            self.columns[name] = (low, min(low + size, 2 ** 63 - 1), chance.random() < .5)

    def schema(self) -> str:
        lines = [f"COLUMN {name} {low} {high}{'' if is_nullable else ' NOT NULL'}"
                 for name, (low, high, is_nullable) in self.columns.items()]
        return "\n".join(["TABLE t", *lines, ""])

    def literal(self, name: str) -> str:
        """Returns a number in a column's range or near it, or NULL."""
        chance, (low, high, _) = self.chance, self.columns[name]
        value = chance.choice((low, high, (low + high) // 2, chance.randint(low, high)))
        value += chance.choice((0, 0, 0, 1, -1, 2, 300))
        return "NULL" if chance.random() < .04 else str(max(-2 ** 63, min(2 ** 63 - 1, value)))

    def predicate(self) -> str:
        chance, name = self.chance, self.chance.choice(list(self.columns))
        negated, sign = chance.choice(("", "", "NOT ")), chance.choice(COMPARE)
        alike = [other for other, bounds in self.columns.items()
                 if bounds[0] == self.columns[name][0]]
        one, two, *more = [self.literal(name) for _ in range(chance.choice((2, 3, 9)))]
        listed = [one, *more, *(chance.sample(alike, 1) if chance.random() < .2 else [])]
        return chance.choice([f"{name} {sign} {one}"] * 4 + [
            f"{one} {sign} {name}", f"{name} IS {negated}NULL", f"{one} IS {negated}NULL",
            f"{name} {negated}BETWEEN {one} AND {two}", f"{one} {sign} {two}",
            f"{name} {negated}IN ({', '.join(listed)})", f"{name} {sign} {chance.choice(alike)}",
            f"{name} {sign} {chance.choice(alike)}",
            f"{one} {negated}BETWEEN {name} AND {chance.choice(alike)}"])

    def condition(self, depth: int) -> str:
        chance, form = self.chance, self.chance.random()
        if not depth or chance.random() < .25:
            return self.predicate()
        if form < .15:
            return f"NOT ({self.condition(depth - 1)})"
        if form < .3:
            truth = chance.choice(("TRUE", "FALSE", "UNKNOWN"))
            return f"({self.condition(depth - 1)}) IS {chance.choice(('', 'NOT '))}{truth}"
        parts = [self.condition(depth - 1) for _ in range(chance.choice((2, 2, 3)))]
        word = chance.choice((" AND ", " OR "))
        return word.join(f"({part})" if chance.random() < .8 else part for part in parts)

    def where(self) -> str:
        return f" WHERE {self.condition(self.chance.choice((0, 1, 2, 3)))}" \
            if self.chance.random() < .95 else ""

    def statement(self) -> str:
        """Returns a statement for rows or totals."""
        chance, names = self.chance, list(self.columns)
        totals = [f"{word}({name})" for word in ("COUNT", "SUM", "MIN", "MAX") for name in names]
        items = chance.choice((["*"], chance.choices(names, k=chance.randint(1, 4)),
                               chance.choices([*totals, "COUNT(*)"], k=chance.randint(1, 4))))
        return f"SELECT {', '.join(items)} FROM t{self.where()}"

    def field(self, value: int | str) -> str:
        """Returns a field of a CSV in some spelling."""
        form, text = self.chance.randrange(30), str(value)
        if text == "NULL":
            return self.chance.choice(("", "NULL", "null", " ", "Null", '""', '" nULL "'))
        sign, digits = ("-", text[1:]) if text[0] == "-" else ("", text)
        return {0: f"{sign}00{digits}", 1: f"{sign or '+'}{digits}", 2: f'"{text}"',
                3: f" {text}\t", 4: f'"{text}" ', 5: f'"{sign}"{digits}'}.get(form, text)

    def csv(self, count: int) -> str:
        """Returns a CSV."""
        chance, heading = self.chance, ",".join(self.columns)
        rows = drawn.whole_rows(chance, self.columns, NEAR, count)
        lines = [chance.choice((heading, heading.upper(), heading.replace(",", " ,"))),
                 *(",".join(map(self.field, row)) for row in rows)]
        end = chance.choice(("\n", "\n", "\r\n", "\r"))
        return chance.choice(("", "", "", "\xef\xbb\xbf", "\n")) + "".join(
            (line or "NULL") + end * chance.choice((1, 1, 1, 1, 1, 2)) for line in lines)


def mutated_statement(sql: str, chance: random.Random) -> str:
    """Returns a statement of which words, signs or characters were changed."""
    words = re.findall(r"[A-Za-z_]+|\d+|<>|<=|>=|\s|.", sql)
    for _ in range(chance.choice((1, 1, 2))):
        at, other = chance.randrange(len(words)), chance.randrange(len(words))
        form = chance.randrange(6)
        if form < 2:
            words[at] = ("", chance.choice(TOKENS))[form]
        elif form < 4:
            words.insert(at, (words[other], f" {chance.choice(TOKENS)} ")[form - 2])
        elif form == 4:
            space = chance.choice(("\n", "\t", "--x\n", "--x\r", ""))
            words[at] = words[at].swapcase().replace(" ", space)
        else:
            words[at], words[other] = words[other], words[at]
    # what begins with - would be an option
    return re.sub("^-", " -", "".join(words))


def mutated_csv(text: str, chance: random.Random) -> str:
    """Returns a CSV of which some characters were changed, doubled or left out."""
    for _ in range(chance.choice((1, 1, 2))):
        at = chance.randrange(len(text))
        new = chance.choice((*'",\r\n 0-+9aN\t\x00', '""', "\xef\xbb\xbf", text[at] * 2, "", ""))
        text = text[:at] + new + text[at + chance.randrange(2):]
    return text


Words = list[list[str]]


def moved(program: Words, at: int, by: int, is_behind: bool) -> Words:
    """Returns a program whose skips to places behind a line lead further on, as do those to the
    line, if they are to come behind what is added there."""
    return [[word, x[0], str(int(x[1]) + by * (int(x[1]) >= at + (not is_behind)))]
            if word == "SKIP" else [word, *x] for word, *x in program]


def changed(program: Words, chance: random.Random) -> Words:
    """Returns a program of which an instruction was changed, left out or added, or made of others:
    often it selects the same rows."""
    at, form = chance.randrange(len(program)), chance.randrange(5)
    word, *words = program[at]
    rest = program[at + 1:]
    if form == 0 and word in ("AND", "OR", "XOR"):
        return [*program[:at], [word, words[0], words[2], words[1]], *rest]
    if form == 1 and word == "SKIP":
        cut = moved(program, at, -1, False)
        return [*cut[:at], *cut[at + 1:]]
    if form == 2 and word in ("AND", "OR"):
        more = moved(program, at, 3, False)
        opposite = [["NOT", "r61", words[1]], ["NOT", "r62", words[2]],
                    ["OR" if word == "AND" else "AND", words[0], "r61", "r62"],
                    ["NOT", words[0], words[0]]]
        return [*more[:at], *opposite, *more[at + 1:]]
    more = moved(program, at, 1, chance.random() < .5)
    new = chance.choice((["FILL", f"r{chance.randrange(58, 64)}", chance.choice("01")],
                         ["NOT", "r59", words[-1] if word in ("AND", "OR") else words[0]],
                         more[at] if word != "RESULT" else ["FILL", "r58", "1"]))
    return [*more[:at], new, *more[at:]]


Lines = list[str]


def swap(lines: Lines, at: int, chance: random.Random) -> None:
    other = min(len(lines) - 1, at + chance.choice((1, 1, 5)))
    lines[at], lines[other] = lines[other], lines[at]


def renumber(lines: Lines, at: int, chance: random.Random) -> None:
    """Changes a number of a line."""
    found = list(re.finditer("[0-9]+", lines[at]))
    if found:
        place = chance.choice(found)
        value = int(place[0])
        near = chance.choice((value - 1, value + 1, value + 1, value // 2, chance.choice(LIMITS)))
        lines[at] = lines[at][:place.start()] + chance.choice(("", "", "", "00")) + \
            str(max(0, near)) + lines[at][place.end():]


def reword(lines: Lines, at: int, chance: random.Random) -> None:
    """Changes a word of a line to another one, of the same file or of any."""
    words = lines[at].split() or [""]
    words[chance.randrange(len(words))] = chance.choice(
        [*WORDS, "", *chance.choice(lines).split(), *chance.choice(lines).split()])
    lines[at] = " ".join(words)


def change_byte(lines: Lines, at: int, chance: random.Random) -> None:
    place = chance.randrange(len(lines[at]) + 1)
    lines[at] = lines[at][:place] + chance.choice(CHARACTERS) + \
        lines[at][place + chance.randrange(2):]


def lay_out(lines: Lines, at: int, chance: random.Random) -> None:
    """Changes spaces, capitals or the number of words of a line."""
    line = lines[at]
    lines[at] = chance.choice((line.rpartition(" ")[0], f"{line} 0", line.lower(), f"{line}\r",
                               line.replace(" ", " \t "), f"# {line}", f" {line} ", f"\n{line}"))


def state_again(lines: Lines, at: int, chance: random.Random) -> None:
    """States a node, a chain or a row a second time, which is right."""
    key = chance.choice(("NODE", "CHAIN", "ROW"))
    places = [place for place, line in enumerate(lines) if line.startswith(f"{key} ")]
    if places:
        _, number, rest = lines[places[-1]].split(" ", 2)
        if number.isdigit():
            lines.insert(places[-1] + 1, f"{key} {int(number) + 1} {rest}")


def delete(lines: Lines, at: int, chance: random.Random) -> None:
    del lines[at]


def double(lines: Lines, at: int, chance: random.Random) -> None:
    lines.insert(at, lines[at])


CHANGES: tuple[Callable[[Lines, int, random.Random], None], ...] = (
    delete, double, swap, renumber, renumber, reword, change_byte, lay_out, state_again)


def mutated(text: str, chance: random.Random) -> bytes:
    """Returns a schema, or a program file, of which some lines, words, numbers or bytes were
    changed, or the end was cut off."""
    lines = text.splitlines()
    for _ in range(chance.choice((1, 1, 1, 2, 3))):
        if lines:
            chance.choice(CHANGES)(lines, chance.randrange(len(lines)), chance)
    data = "".join(f"{line}\n" for line in lines).encode("latin-1")
    return data[:chance.randrange(len(data) + 1)] if chance.random() < .05 else data

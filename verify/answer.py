#!/usr/bin/env python3
"""Answers a statement over a CSV, row by row, by SQL-92's definitions.

    python3 verify/answer.py SCHEMA CSV SQL

It prints the answer as CSV, or the number and the place of the first error. Nothing in it knows of
codes, segments or scan programs. docs/SQL.md says what statements mean, and docs/CSV.md what a CSV
is; schemas and statements are read by check.py, which follows their rules."""
from __future__ import annotations

import operator
import os
import pathlib
import re
import sys
from typing import Callable, Iterator, Optional

from check import Column, Condition, Fault, Operand, Schema, Statement

Row = dict[str, Optional[int]]
FALSE, UNKNOWN, TRUE = 0, 1, 2
COMPARE: dict[str, Callable[[int, int], bool]] = {
    "=": operator.eq, "<>": operator.ne, "<": operator.lt, ">": operator.gt, "<=": operator.le,
    ">=": operator.ge}
MARK = "\xef\xbb\xbf"
# a field in quotes, what follows the second quote, or else a field
FIELD = re.compile(r'"([^"]*(?:""[^"]*)*)"?([^,\r\n]*)|([^,\r\n]*)')


def records(text: str) -> Iterator[list[str]]:
    """Records; Spaces and quotes: yields the fields of each record."""
    at = 0
    while at < len(text):
        fields = list[str]()
        if text[at] not in "\r\n":
            while not fields or text[at:at + 1] == ",":
                found = FIELD.match(text, at + len(fields[:1]))
                assert found
                quoted, more, plain = found.groups()
                field = plain if quoted is None else quoted.replace('""', '"') + more
                fields.append(field.strip(" \t"))
                at = found.end()
            yield fields
        at += 1


def is_null(field: str) -> bool:
    """Null."""
    return field.upper() in ("", "NULL")


def value_of(column: Column, field: str, place: str) -> Optional[int]:
    """Numbers; Null: returns the value of a field."""
    if is_null(field):
        if not column.nullable:
            raise Fault(206, place)
        return None
    found = re.fullmatch("([+-]?)([0-9]+)", field)
    if not found:
        raise Fault(204, place)
    value = int((found[1] + (found[2].lstrip("0") or "0"))[:22])
    if not column.lo <= value <= column.hi:
        raise Fault(205, place)
    return value


def rows_of(schema: Schema, data: bytes) -> Iterator[Row]:
    """The heading; Records; The first error: yields the rows of a CSV."""
    if len(data) > 1_073_741_824:
        raise Fault(208)
    text = data.decode("latin-1")
    found = records(text[len(MARK):] if text.startswith(MARK) else text)
    heading = next(found, None)
    if heading is None:
        raise Fault(201, "record 0")
    if [name.lower() for name in heading] != [name.lower() for name in schema.columns]:
        raise Fault(202, "record 0")
    for number, fields in enumerate(found, 1):
        place = f"record {number}"
        if len(fields) != len(schema.columns):
            raise Fault(203, place)
        if number > 16_777_216:
            raise Fault(207, place)
        yield {column.name: value_of(column, field, place)
               for column, field in zip(schema.columns.values(), fields)}


def operand_of(operand: Operand, row: Row) -> Optional[int]:
    return row[operand.name] if isinstance(operand, Column) else operand


def truth_of(condition: Condition, row: Row) -> int:
    """Comparisons; Truth in three values; IS: returns the truth of a condition on a row."""
    word = condition.word
    operands = [operand_of(operand, row) for operand in condition.operands]
    if word in COMPARE:
        left, right = operands
        return UNKNOWN if left is None or right is None else \
            TRUE if COMPARE[word](left, right) else FALSE
    if word == "NULL":
        return TRUE if operands[0] is None else FALSE
    truths = [truth_of(part, row) for part in condition.parts]
    if word in ("AND", "OR"):
        return min(truths) if word == "AND" else max(truths)
    if word == "NOT":
        return TRUE - truths[0]
    wanted = {"TRUE": TRUE, "FALSE": FALSE, "UNKNOWN": UNKNOWN}
    return TRUE if not word or truths[0] == wanted[word] else FALSE


def total_of(word: str, column: Optional[Column], rows: list[Row]) -> Optional[int]:
    """Totals: returns an aggregate of the rows that are selected."""
    if column is None:
        return len(rows)
    values = [value for row in rows if (value := row[column.name]) is not None]
    if word == "COUNT":
        return len(values)
    if not values:
        return None
    return sum(values) if word == "SUM" else min(values) if word == "MIN" else max(values)


def heading_of(item: tuple[str, Optional[Column]]) -> str:
    """Columns; Totals: returns an item's heading."""
    word, column = item
    name = column.name if column else "*"
    return f"{word}({name})" if word else name


def line_of(values: list[Optional[int]]) -> str:
    return ",".join("NULL" if value is None else str(value) for value in values) + "\n"


def answer(schema: Schema, statement: Statement, data: bytes) -> str:
    """Columns; Totals: returns the text of a statement's answer."""
    rows = [row for row in rows_of(schema, data) if truth_of(statement.condition, row) == TRUE]
    lines = [",".join(map(heading_of, statement.items)) + "\n"]
    if statement.items[0][0]:
        lines.append(line_of([total_of(word, column, rows) for word, column in statement.items]))
    else:
        lines += [line_of([row[column.name] for _, column in statement.items if column])
                  for row in rows]
    return "".join(lines)


def main() -> None:
    if len(sys.argv) != 4:
        sys.exit(__doc__)
    try:
        schema = Schema(pathlib.Path(sys.argv[1]).read_bytes())
        statement = Statement(schema, os.fsencode(sys.argv[3]))
        sys.stdout.write(answer(schema, statement, pathlib.Path(sys.argv[2]).read_bytes()))
    except Fault as fault:
        sys.exit(" at ".join(map(str, fault.args)))


if __name__ == "__main__":
    main()

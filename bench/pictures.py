#!/usr/bin/env python3
"""Draws the tables of docs/BENCHMARKS.md that have a picture below them, as SVG.

    bench/pictures.py            writes the pictures beside the page
    bench/pictures.py --check    names those that differ from their tables"""
from __future__ import annotations

import math
import pathlib
import re
import sys
from typing import Dict, Iterable, List, Optional, Sequence, Tuple

DOCS = pathlib.Path(__file__).resolve().parent.parent / "docs"
PAGE = DOCS / "BENCHMARKS.md"
# a picture of dots: its title
DOTS = {"benchmarks.svg": "Whole processes over ten million rows",
        "sessions.svg": "A statement over ten million rows",
        "groups.svg": "A question of whole SQL"}
LINES = {"selectivity.svg": "A statement of a session over five million rows"}
BLUE, PALE, DARK, GREY, RED = "#1b6ca8", "#6aaed6", "#444444", "#999999", "#b03a48"
ORANGE, GREEN, PURPLE = "#c77c2e", "#8fae5d", "#7a4fa3"
COLOURS = {
    "bw": BLUE, "bw, planes": BLUE, "session, planes": BLUE, "count, planes": BLUE,
    "bw, slices": PALE, "bw, 4 shards": PALE, "session, slices": PALE, "count, slices": PALE,
    "C, planes": DARK, "C, slices": GREY, "sum, planes": DARK, "sum, slices": GREY,
    "bw query, planes": RED, "sqlite3": ORANGE, "count, sqlite3": ORANGE, "sum, sqlite3": RED,
    "mawk over CSV": GREEN, "numpy": GREEN, "pandas": GREEN, "ClickHouse": PURPLE}
# the width of a plot, the height of a dot's line and of the legend's, and the width of a letter
WIDE, LINE, KEY, LETTER = 520, 12, 18, 7
# a table's cell of words, and its cells of figures
Row = Tuple[str, List[str]]


def text(x: float, y: float, words: str, more: str = "") -> str:
    """Returns a text at a place."""
    words = words.replace("&", "&amp;").replace("<", "&lt;").replace(">", "&gt;").replace("`", "")
    return f'<text x="{x:.1f}" y="{y:.1f}"{more}>{words}</text>'


def whole(width: float, height: float, parts: Iterable[str]) -> str:
    """Returns a picture of its parts on white."""
    head = (f'<svg xmlns="http://www.w3.org/2000/svg" width="{width:.0f}" height="{height:.0f}" '
            'font-family="sans-serif" font-size="12">')
    return "\n".join([head, '<rect width="100%" height="100%" fill="white"/>', *parts, "</svg>\n"])


def legend(names: Sequence[str], y: float, width: float) -> Tuple[List[str], float]:
    """Returns a dot of its colour for each name, in lines that fit a width, and the place below."""
    out, x = list[str](), 16.0
    for name in names:
        needed = 30 + LETTER * len(name)
        if x + needed > width:
            x, y = 16.0, y + KEY
        out.append(dot(x, y - 4, name))
        out.append(text(x + 9, y, name))
        x += needed
    return out, y + KEY


def dot(x: float, y: float, name: str) -> str:
    """Returns a dot of a name's colour."""
    return f'<circle cx="{x:.1f}" cy="{y:.1f}" r="4.5" fill="{COLOURS[name]}"/>'


def steps(low: float, high: float) -> List[float]:
    """Returns the numbers 1, 2 and 5, times a power of ten, that enclose two numbers, and those
    between them."""
    found = [part * 10.0 ** power for power in range(-6, 7) for part in (1, 2, 5)]
    first = max(step for step in found if step <= low)
    last = min(step for step in found if step >= high)
    return [step for step in found if first <= step <= last]


def place(value: float, left: float, ticks: Sequence[float]) -> float:
    """Returns where a value is on an axis that begins at the left."""
    low, high = math.log10(ticks[0]), math.log10(ticks[-1])
    return left + WIDE * (math.log10(value) - low) / (high - low)


def axis(ticks: Sequence[float], left: float, top: float, bottom: float) -> List[str]:
    """Returns the lines of a logarithmic axis, with their numbers above and below."""
    out = list[str]()
    for tick in ticks:
        x = place(tick, left, ticks)
        colour = "#bbbbbb" if math.log10(tick).is_integer() else "#e4e4e4"
        out.append(f'<line x1="{x:.1f}" y1="{top:.0f}" x2="{x:.1f}" y2="{bottom:.0f}" '
                   f'stroke="{colour}"/>')
        out += [text(x, y, f"{tick:,g}", ' text-anchor="middle" fill="#555555" font-size="11"')
                for y in (top - 5, bottom + 14)]
    return out


def dots(title: str, unit: str, names: Sequence[str], rows: Sequence[Row]) -> str:
    """Returns a dot for each figure, those of a row one below another, on one logarithmic axis."""
    every = [value for value in (number_in(cell) for _, row in rows for cell in row) if value]
    ticks, left = steps(min(every), max(every)), 30 + LETTER * max(len(label) for label, _ in rows)
    width = left + WIDE + 70
    keys, top = legend(names, 42, width)
    y, marks = top + 40, list[str]()
    for label, row in rows:
        known = [(name, cell) for name, cell in zip(names, row) if number_in(cell)]
        marks.append(text(left - 16, y + (len(known) - 1) * LINE / 2, label, ' text-anchor="end"'))
        for name, cell in known:
            x = place(number_in(cell) or 1, left, ticks)
            marks.append(dot(x, y - 4, name))
            marks.append(text(x + 8, y, cell, ' font-size="10"'))
            y += LINE
        marks.append(f'<line x1="10" y1="{y:.0f}" x2="{left + WIDE}" y2="{y:.0f}" '
                     'stroke="#e4e4e4"/>')
        y += LINE * 1.5
    bottom = y - LINE * 1.5
    return whole(width, bottom + 24, [
        text(10, 20, title, ' font-size="14"'), *keys,
        text(left, top + 4, f"{unit}, on a logarithmic axis", ' fill="#555555"'),
        *axis(ticks, left, top + 24, bottom), *marks])


def lines(title: str, axes: Tuple[str, str], names: Sequence[str], rows: Sequence[Row]) -> str:
    """Returns a line for each name, over a logarithmic axis of x and one of y."""
    left, wide, high = 70, 600, 300
    xs = [float(label) for label, _ in rows]
    every = [value for value in (number_in(cell) for _, row in rows for cell in row) if value]
    low, most = math.floor(math.log10(min(every))), math.ceil(math.log10(max(every)))
    keys, top = legend(names, 42, left + wide)
    top += 20

    def at(x: float, y: float) -> Tuple[float, float]:
        share = math.log10(x / xs[0]) / math.log10(xs[-1] / xs[0])
        return left + wide * share, top + high * (most - math.log10(y)) / (most - low)
    out = [text(10, 20, title, ' font-size="14"'), *keys]
    for power in range(low, most + 1):
        _, y = at(xs[0], 10.0 ** power)
        out.append(f'<line x1="{left}" y1="{y:.1f}" x2="{left + wide}" y2="{y:.1f}" '
                   'stroke="#dddddd"/>')
        out.append(text(left - 6, y + 4, f"{10.0 ** power:g}", ' text-anchor="end"'))
    out += [text(at(x, 1)[0], top + high + 18, f"{x:g}", ' text-anchor="middle"') for x in xs]
    out.append(text(left + wide / 2, top + high + 38, axes[0], ' text-anchor="middle"'))
    out.append(text(left, top - 8, axes[1], ' fill="#555555"'))
    for column, name in enumerate(names):
        values = [number_in(row[column]) for _, row in rows]
        found = [at(x, value) for x, value in zip(xs, values) if value]
        points = " ".join(f"{x:.1f},{y:.1f}" for x, y in found)
        out.append(f'<polyline points="{points}" fill="none" stroke-width="2" '
                   f'stroke="{COLOURS[name]}"/>')
        out += [dot(x, y, name) for x, y in found]
    return whole(left + wide + 30, top + high + 50, out)


def number_in(cell: str) -> Optional[float]:
    """Returns the number in a cell, if there is one."""
    return float(cell.replace(",", "")) if re.match(r"[\d.]", cell) else None


def tables() -> Dict[str, List[List[str]]]:
    """Returns the cells of the table above each picture of the page, row by row."""
    found, last = dict[str, List[List[str]]](), list[List[str]]()
    is_within = False
    for line in PAGE.read_text(encoding="utf-8").splitlines():
        if line.startswith("|"):
            last = last if is_within else []
            last.append([cell.strip() for cell in line[1:-1].split("|")])
        is_within = line.startswith("|")
        for name in re.findall(r"!\[[^]]*\]\((\w+\.svg)\)", line):
            found[name] = last
    return found


def drawn() -> Dict[str, str]:
    """Returns the pictures, by their names."""
    made = dict[str, str]()
    for name, (head, _, *cells) in tables().items():
        rows = [(row[0].replace("`", ""), row[1:]) for row in cells]
        if name in DOTS:
            made[name] = dots(DOTS[name], "milliseconds", head[1:], rows)
        else:
            axes = ("share of rows selected, logarithmic", "nanoseconds a row, logarithmic")
            made[name] = lines(LINES[name], axes, head[1:], rows)
    return made


def main() -> int:
    """Does what the arguments say. Returns the status."""
    wrong = 0
    for name, picture in drawn().items():
        if "--check" not in sys.argv:
            (DOCS / name).write_text(picture, encoding="ascii")
        elif (DOCS / name).read_text(encoding="utf-8") != picture:
            print(f"docs/{name} isn't that of its table: run bench/pictures.py", file=sys.stderr)
            wrong = 1
    return wrong


if __name__ == "__main__":
    sys.exit(main())

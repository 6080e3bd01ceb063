"""Draws a scan program as what runs, as SVG: `scripts/draw SCHEMA SQL [PROGRAM]`. verify/check.py
reads and checks the files, so that only accepted programs are drawn."""
from __future__ import annotations

import os
import pathlib
import subprocess
import sys
from dataclasses import dataclass
from typing import Optional
from xml.sax.saxutils import escape

ROOT = pathlib.Path(__file__).resolve().parent.parent
sys.path.insert(0, str(ROOT / "verify"))
import answer  # noqa: E402
import check  # noqa: E402

# how many nodes a diagram has at most, and how long the words are beside an instruction, and above
MOST, LONGEST, TITLE = 8, 46, 104
# the places of the first line and of its instruction, the least place of the words beside it, how
# far from these arcs begin, and sizes
TOP, TEXT, READS, ARCS, LINE, WIDE, LAYER = 64, 52, 236, 324, 24, 860, 46
BLUE, GREY = "#1b6ca8", "#555555"
LANES = 512
SIGNS = {"LT": "<", "EQ": "="}


class Traced(check.Certificate):
    """A certificate with the node of the register that each instruction changed."""

    def __init__(self, schema: check.Schema, lines: list[check.Line], end: check.Line) -> None:
        super().__init__(schema, lines, end)
        self.changed = list[Optional[int]]()

    def instruction(self, made: check.Line) -> None:
        super().instruction(made)
        self.changed.append(None if made.key == "SKIP" else self.known[made.values[0]])


@dataclass(frozen=True)
class Skip:
    """How many segments came to a skip, and how many took it."""

    reached: int
    taken: int


@dataclass(frozen=True)
class Drawn:
    """A program with its certificate, and how its skips went over a table, if there is one."""

    schema: check.Schema
    sql: str
    program: check.Program
    certificate: Traced
    skips: dict[int, Skip]


class Refused(Exception):
    """Why nothing is drawn."""


def output_of(*words: str) -> bytes:
    """Returns what bw prints."""
    done = subprocess.run([os.environ.get("BW") or str(ROOT / "bw"), *words], check=False,
                          stdout=subprocess.PIPE, stderr=subprocess.PIPE)
    if done.returncode:
        raise Refused(done.stderr.decode("utf-8", "replace").strip())
    return done.stdout


def read(schema_path: str, sql: str, path: Optional[str], table: Optional[str]) -> Drawn:
    """Returns what is drawn: a program file, or the planned program."""
    try:
        return accepted(schema_path, sql, path, table)
    except check.Fault as fault:
        raise Refused(" at ".join(map(str, fault.args))) from fault


def accepted(schema_path: str, sql: str, path: Optional[str], table: Optional[str]) -> Drawn:
    """Returns what is drawn, if the checker accepts it."""
    schema = check.Schema(pathlib.Path(schema_path).read_bytes())
    condition = check.Statement(schema, os.fsencode(sql)).condition
    data = pathlib.Path(path).read_bytes() if path else output_of("plan", schema_path, sql)
    lines, end = check.lines_of(data.upper())
    mark = next((line for line in lines if line.key == "CERTIFICATE" and not line.values), end)
    program = check.Program(schema, [line for line in lines if line.number < mark.number], mark)
    certificate = Traced(schema, [line for line in lines if line.number > mark.number], end)
    certificate.check(condition, program)
    rows = list(answer.rows_of(schema, output_of("dump", table))) if table else []
    return Drawn(schema, sql, program, certificate, run(program, rows) if table else {})


def run(program: check.Program, rows: list[answer.Row]) -> dict[int, Skip]:
    """Program text: runs a program over all segments. Returns how its skips went. A register is a
    number that has a bit for each of the 512 rows; missing rows have code 0."""
    counts = {at: [0, 0] for at, made in enumerate(program.instructions) if made.key == "SKIP"}
    for first in range(0, len(rows), LANES):
        registers, at, lanes = [0] * 64, 0, rows[first:first + LANES]
        while at < len(program.instructions):
            made, at = program.instructions[at], at + 1
            to, *more = made.values
            if made.key != "SKIP":
                registers[to] = changed(made, registers, lanes)
                continue
            counts[at - 1][0] += 1
            if registers[to] == 0:
                counts[at - 1][1] += 1
                at = more[0]
    return {at: Skip(reached, taken) for at, (reached, taken) in counts.items()}


def changed(made: check.Line, registers: list[int], rows: list[answer.Row]) -> int:
    """Returns the register that an instruction changes."""
    everywhere, more = (1 << LANES) - 1, list(made.values[1:])
    if made.key in ("AND", "OR", "XOR"):
        x, y = registers[int(more[0])], registers[int(more[1])]
        return x & y if made.key == "AND" else x | y if made.key == "OR" else x ^ y
    if made.key == "NOT":
        return everywhere ^ registers[int(more[0])]
    if made.key == "FILL":
        return everywhere if more[0] else 0
    column, *numbers = more
    values = [row[column.name] for row in rows] + [column.lo] * (LANES - len(rows))
    codes = [0 if value is None else value - column.lo for value in values]
    if made.key == "NULLS":
        bits = [value is None for value in values]
    elif made.key == "LOAD":
        bits = [bool(code >> numbers[0] & 1) for code in codes]
    else:
        parts = [code >> 8 * numbers[0] & 255 for code in codes]
        bits = [part < numbers[1] if made.key == "BYTELT" else part == numbers[1]
                for part in parts]
    return sum(1 << lane for lane, bit in enumerate(bits) if bit)


def text_of(made: check.Line) -> str:
    """Returns an instruction as it is written."""
    return " ".join([made.key, *(
        value.name if isinstance(value, check.Column) else
        f"r{value}" if place == 0 or made.key in ("AND", "OR", "XOR", "NOT") else str(value)
        for place, value in enumerate(made.values))])


def joined(key: str, parts: list[str]) -> str:
    """Returns words for what a register becomes of others, unless they are too long."""
    marks = {"AND": [" or ", " xor "], "OR": [" and ", " xor "],
             "NOT": [" or ", " xor ", " and "]}.get(key, [""])
    found = [f"({part})" if any(mark in part for mark in marks) else part for part in parts]
    whole = f"not {found[0]}" if key == "NOT" else f" {key.lower()} ".join(found)
    return whole if all(parts) and len(whole) <= LONGEST else ""


def words_of(made: check.Line, known: dict[int, str]) -> str:
    """Returns what an instruction reads, or what it makes of what others have read."""
    to, *more = made.values
    if made.key == "RESULT":
        return "the rows that are selected"
    if made.key == "FILL":
        return "every row" if more[0] else "no row"
    if made.key == "SKIP":
        return f"if r{to} is 0 in all rows"
    if made.key in ("LOAD", "NULLS"):
        return f"bit {more[1]} of {more[0].name}" if more[1:] else f"{more[0].name} is null"
    if made.key.startswith("BYTE"):
        column, part, number = more
        sign, has_null = SIGNS[made.key[4:]], number > 0 if made.key == "BYTELT" else number == 0
        also = " or null" * (column.nullable and has_null)
        return f"{column.name} {sign} {column.lo + number}{also}" if column.width <= 8 else \
            f"byte {part} of {column.name} {sign} {number}"
    return joined(made.key, [known.get(register, "") for register in more])


def label(x: float, y: float, words: str, more: str = "") -> str:
    return f'<text x="{x:g}" y="{y:g}"{more}>{escape(words)}</text>'


def arrow(points: str, color: str, is_dashed: bool) -> str:
    dashes = ' stroke-dasharray="5 3"' * is_dashed
    return f'<path d="{points}" fill="none" stroke="{color}"{dashes} ' \
           f'marker-end="url(#{"skip" if color == BLUE else "edge"})"/>'


def place_beside(made: list[check.Line]) -> int:
    """Returns where the words beside instructions begin."""
    return max([READS, *(TEXT + 8 * len(text_of(each)) + 16 for each in made)])


def lines_of_program(made: list[check.Line]) -> tuple[list[str], list[str]]:
    """Returns the elements of instructions and the result, and the words beside each."""
    found, told, known = list[str](), list[str](), dict[int, str]()
    beside = place_beside(made)
    for at, each in enumerate(made):
        told.append(words_of(each, known))
        if each.key != "SKIP":
            known[each.values[0]] = told[-1]
        y, number = TOP + LINE * at, str(at) if at + 1 < len(made) else ""
        found += [label(20, y, number, f' font-family="monospace" fill="{GREY}"'),
                  label(TEXT, y, text_of(each), ' font-family="monospace"'),
                  label(beside, y, told[-1], f' fill="{GREY}"')]
    return found, told


def arcs(made: list[check.Line], skips: dict[int, Skip]) -> list[str]:
    """Returns the elements of skips: arcs to their targets, and how many segments take them."""
    found, spans = list[str](), {at: each.values[1] - at for at, each in enumerate(made)
                                 if each.key == "SKIP"}
    widest, x = max(spans.values(), default=0), place_beside(made) + ARCS
    size = min(12.0, 200 / max(1, widest))
    for at, span in spans.items():
        start, end, out = TOP + LINE * at - 4, TOP + LINE * (at + span) - 4, x + size * span
        found.append(arrow(f"M {x} {start} C {out:g} {start} {out:g} {end} {x} {end}", BLUE, True))
        if at in skips:
            words = f"taken by {skips[at].taken:,} of {skips[at].reached:,} segments"
            found.append(label(x + .75 * size * widest + 14, start + 8, words,
                               f' font-size="11" fill="{BLUE}"'))
    return found


def layers_of(nodes: list[tuple[int, int, int]], root: int) -> list[list[int]]:
    """Returns the nodes below a root in layers: each is below all that lead to it."""
    depth, left = {root: 0}, [root]
    while left:
        node = left.pop()
        for child in nodes[node][1:]:
            if child > 1 and depth.get(child, -1) <= depth[node]:
                depth[child] = depth[node] + 1
                left.append(child)
    return [sorted(node for node, own in depth.items() if own == layer)
            for layer in range(max(depth.values()) + 1)]


def is_small(nodes: list[tuple[int, int, int]], root: int) -> bool:
    """Returns whether a diagram has nodes, and not too many."""
    seen, left = set[int](), [root]
    while left and len(seen) <= MOST:
        node = left.pop()
        if node > 1 and node not in seen:
            seen.add(node)
            left += nodes[node][1:]
    return 0 < len(seen) <= MOST


def names_of(schema: check.Schema) -> dict[int, str]:
    """Returns the column and bit of each variable."""
    found = dict[int, str]()
    for column in schema.columns.values():
        found.update({column.last - bit: f"{column.name} {bit}" for bit in range(column.width)})
        if column.nullable:
            found[column.last - column.width] = f"{column.name} null"
    return found


@dataclass(frozen=True)
class Diagram:
    """The nodes below one, in layers, with the names of variables and a title."""

    nodes: list[tuple[int, int, int]]
    layers: list[list[int]]
    names: dict[int, str]
    title: str

    @property
    def step(self) -> float:
        """Returns how far apart nodes of a layer are."""
        return max(8 * len(self.names[self.nodes[node][0]]) + 56
                   for layer in self.layers for node in layer)

    @property
    def width(self) -> float:
        return max(self.step * max(map(len, self.layers)) + 16, 7 * len(self.title) + 28)

    @property
    def height(self) -> float:
        return 50 + LAYER * len(self.layers)

    def elements(self, left: float, top: float) -> list[str]:
        """Returns the elements of the diagram at a place."""
        middle = left + self.width / 2
        places = {node: (middle + self.step * (place - (len(layer) - 1) / 2),
                         top + 40 + LAYER * depth)
                  for depth, layer in enumerate(self.layers) for place, node in enumerate(layer)}
        found = [label(middle, top + 8, self.title, ' text-anchor="middle"')]
        for node, (x, y) in places.items():
            name = self.names[self.nodes[node][0]]
            for side, child in enumerate(self.nodes[node][1:]):
                out = x + (side * 2 - 1) * (4 * len(name) + 18)
                to_x, to_y = places.get(child, (out, y + 32))
                found.append(arrow(f"M {x:g} {y + 11:g} L {to_x:g} {to_y - 13:g}", GREY, side == 0))
                if child < 2:
                    found += leaf(to_x, to_y - 12, child)
            found += [f'<rect x="{x - 4 * len(name) - 4:g}" y="{y - 11:g}" rx="11" width="'
                      f'{8 * len(name) + 8}" height="22" fill="white" stroke="{GREY}"/>',
                      label(x, y + 4, name, ' text-anchor="middle" font-size="11"')]
        return found


def leaf(x: float, y: float, value: int) -> list[str]:
    """Returns the elements of a square 0 or 1."""
    return [f'<rect x="{x - 8:g}" y="{y:g}" width="16" height="16" stroke="{GREY}" '
            f'fill="{"#cfe3f2" if value else "white"}"/>',
            label(x, y + 12, str(value), ' text-anchor="middle" font-size="11"')]


def small_diagrams(drawn: Drawn, told: list[str]) -> list[Diagram]:
    """Returns the small diagrams of registers that have read something, and of the result."""
    nodes, found = drawn.certificate.nodes, list[Diagram]()
    titles = {at: f"{at}: {told[at]}" for at, made in enumerate(drawn.program.instructions)
              if made.key in ("LOAD", "NULLS", "BYTELT", "BYTEEQ")}
    asked = [(drawn.certificate.changed[at], title) for at, title in titles.items()]
    for root, title in [*asked, (drawn.certificate.known[drawn.program.result], "the result")]:
        if root is not None and is_small(nodes, root):
            found.append(Diagram(nodes, layers_of(nodes, root), names_of(drawn.schema), title))
    return found


def placed(diagrams: list[Diagram], top: float) -> tuple[list[str], float]:
    """Returns the elements of diagrams, side by side in as many rows as they need, and their
    end."""
    found, left, high = list[str](), 10.0, 0.0
    for each in diagrams:
        if left > 10 and left + each.width > WIDE:
            left, top, high = 10.0, top + high, 0.0
        found += each.elements(left, top)
        left, high = left + each.width, max(high, each.height)
    return found, top + high


def picture(drawn: Drawn) -> str:
    """Returns the text of the picture."""
    made = [*drawn.program.instructions, check.Line(0, "RESULT", [drawn.program.result])]
    program, told = lines_of_program(made)
    below, end = placed(small_diagrams(drawn, told), TOP + LINE * len(made) + 10)
    words = "An oval tests a bit of a column's code: the full arrow is for 1, the dashed one for " \
            "0." if below else ""
    wide = WIDE + place_beside(made) - READS
    title = drawn.sql if len(drawn.sql) <= TITLE else f"{drawn.sql[:TITLE - 1]}…"
    heads = "".join(f'<marker id="{name}" markerWidth="8" markerHeight="8" refX="7" refY="4" '
                    f'orient="auto"><path d="M0,0 L8,4 L0,8 z" fill="{color}"/></marker>'
                    for name, color in (("skip", BLUE), ("edge", GREY)))
    return "\n".join([
        f'<svg xmlns="http://www.w3.org/2000/svg" width="{wide}" height="{end + 30:g}" '
        'font-family="sans-serif" font-size="13">', f"<defs>{heads}</defs>",
        '<rect width="100%" height="100%" fill="white"/>',
        label(20, 28, title, ' font-weight="bold"'), *program, *arcs(made, drawn.skips), *below,
        label(20, end + 16, words, f' font-size="11" fill="{GREY}"'), "</svg>", ""])

"""The public surface of the libraries, which docs/surface.txt lists and docs/planned_surface.txt
fixes in part."""
from __future__ import annotations

import difflib
import re
import sys
from dataclasses import dataclass
from pathlib import Path
from typing import Iterator

from tests.rattle_items import Crate

ROOT = Path(__file__).resolve().parent.parent
sys.path.insert(0, str(ROOT / "scripts"))
from crates import libraries  # noqa: E402

LISTED, PLANNED = "docs/surface.txt", "docs/planned_surface.txt"
TESTS = re.compile(r"bw_conformance_\w+")
PROGRAMS = ("bw", "bench")
HEADER = """\
# The public items of each library: a declaration, what it derives, its fields or variants, its
# conditions (`requires`, and `ghost` of a type), and the labels of what it ensures, `_` for one
# that has none. `scripts/surface --write` writes this file; ./check compares it with the sources.
"""
CRATE = re.compile(r"\[(\w+)\]")
# lines of an item that aren't planned: what it ensures is in docs/promises.txt
UNPLANNED = ("  ensures ", "  derives ")


@dataclass(frozen=True)
class Comparison:
    """How many items were compared, and a message for each that is wrong."""
    compared: int
    wrong: list[str]


def surface_text() -> str:
    """Returns the text of docs/surface.txt, by the sources."""
    return HEADER + "".join(f"\n[{crate.name}]\n" + "".join(
        "\n" + "".join(f"{line}\n" for line in item.lines()) for item in crate.public_items())
        for crate in all_libraries())


def clauses_text() -> str:
    """Returns every clause of a public item in full, in a line, to compare two trees."""
    return "".join(f"{crate.name}::{item.name} {clause.line()}\n" for crate in all_libraries()
                   for item in crate.public_items() for clause in item.clauses)


def all_libraries() -> Iterator[Crate]:
    """Returns the libraries, in the order of crates.txt."""
    for name in libraries():
        if name not in PROGRAMS and not TESTS.fullmatch(name):
            yield Crate(ROOT / "crates" / name)


def items_by_crate(text: str) -> dict[str, list[str]]:
    """Returns the items of a text such as docs/surface.txt: the lines of each, by crate."""
    found: dict[str, list[str]] = {}
    for block in re.split(r"\n\n+", re.sub(r"^#.*\n", "", text, flags=re.MULTILINE).strip("\n")):
        crate = CRATE.fullmatch(block)
        if crate:
            found[crate.group(1)] = []
        else:
            list(found.values())[-1].append(block)
    return found


def planned_part(item: str) -> str:
    """Returns an item without the lines that aren't planned."""
    kept, is_kept = [], True
    for line in item.split("\n"):
        if not line.startswith("      "):
            is_kept = not line.startswith(UNPLANNED)
        kept += [line] if is_kept else []
    return "\n".join(kept)


def compare_with_sources() -> Comparison:
    """Compares docs/surface.txt with the sources."""
    listed, real = read(ROOT / LISTED), surface_text()
    lines = difflib.unified_diff(listed.splitlines(), real.splitlines(), LISTED, "the sources",
                                 n=2, lineterm="")
    wrong = ["\n".join([f"{LISTED} isn't what the sources have:", *lines])] * (listed != real)
    return Comparison(sum(map(len, items_by_crate(real).values())), wrong)


def compare_with_plan() -> Comparison:
    """Looks for each item of docs/planned_surface.txt in docs/surface.txt."""
    planned = items_by_crate(read(ROOT / PLANNED))
    listed = {crate: {planned_part(item) for item in items}
              for crate, items in items_by_crate(read(ROOT / LISTED)).items()}
    wrong = [f"{PLANNED}: {LISTED} has no such item of {crate}:\n{item}"
             for crate, items in planned.items() for item in items
             if item not in listed.get(crate, set())]
    return Comparison(sum(map(len, planned.values())), wrong)


def compare_all() -> list[Comparison]:
    """Compares docs/surface.txt with the sources, and the planned surface with it."""
    return [compare_with_sources(), compare_with_plan()]


def read(path: Path) -> str:
    """Returns the text of a file."""
    return path.read_text(encoding="utf-8")

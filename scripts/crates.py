"""The parts that prove and mutants share: the crates, the libraries that each uses, and working
directories in which crates are proved side by side. `rt` locks a crate and all libraries below it
while it works there. A working directory has hard links to the crate's files and to its libraries
as they were built, so that no process waits for another."""
from __future__ import annotations

import os
import pathlib
import shutil

ROOT = pathlib.Path(__file__).resolve().parent.parent
PARTS = ("src", "specs", "proofs")


def named_libraries() -> dict[str, list[str]]:
    """Returns the libraries that each crate names, those of the kit too."""
    lines = (line.split("#")[0]
             for line in (ROOT / "crates.txt").read_text(encoding="utf-8").splitlines())
    return {name: rest.split() for name, found, rest in (line.partition(":") for line in lines)
            if found}


def libraries() -> dict[str, list[str]]:
    """Returns the libraries of the repository that each crate names."""
    named = named_libraries()
    return {name: [each for each in below if each in named] for name, below in named.items()}


def below(name: str, named: dict[str, list[str]]) -> set[str]:
    """Returns a crate and all libraries that it uses, directly or not."""
    found = {name}
    for each in named[name]:
        found |= below(each, named)
    return found


def cost(name: str) -> int:
    """Returns the rough cost of checking a crate: its number of lines."""
    files = (path for part in PARTS for path in (ROOT / "crates" / name / part).rglob("*.*"))
    return sum(path.read_bytes().count(b"\n") for path in files)


def link(source: str | pathlib.Path, target: str | pathlib.Path) -> None:
    """Gives a file a second name, or copies it if that is impossible."""
    try:
        os.link(source, target)
    except OSError:
        shutil.copy2(source, target)


def furnish(room: pathlib.Path, name: str, named: dict[str, list[str]]) -> None:
    """Fills a folder with what is needed to prove a crate there."""
    crates = sorted(below(name, named))
    listed = dict(line.split(":", 1)
                  for line in (ROOT / "crates.txt").read_text(encoding="utf-8").splitlines()
                  if ":" in line)
    (room / "crates.txt").write_text("".join(f"{each}:{listed[each]}\n" for each in crates),
                                     encoding="utf-8")
    for each in crates:
        for part in (*PARTS, *["out/rlib"] * (each != name)):
            if (ROOT / "crates" / each / part).is_dir():
                shutil.copytree(ROOT / "crates" / each / part, room / "crates" / each / part,
                                copy_function=link)

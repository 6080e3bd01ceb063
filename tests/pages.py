"""Tests of the calls on pages: each call is a test, which runs it and compares what it prints.

A page is Markdown. Its calls are in fences marked `sh`, which are run whole, and end at the first
line that fails; a fence marked `text` right below has the output, in which `...` stands for any
lines. In the denser form of cases, blocks are indented by four spaces: sh runs a line that begins
with `$ `, which lines that begin with `> ` continue; the other lines are its output. Calls and
outputs without a paragraph between them are a block. `cases/README.md` describes tables too."""
from __future__ import annotations

import difflib
import hashlib
import pathlib
import re
import shlex
import shutil
import subprocess
import sys
from typing import Any, NamedTuple

from tests import support
from tests.support import BW, ROOT, Done

# the exit status of an error, by the first digit of its number
STATUS = {"1": 3, "2": 3, "3": 3, "4": 3, "5": 3, "6": 4, "7": 5, "8": 6}


class Call(NamedTuple):
    """A command and the lines that it prints, with its section, block and line of the page. The
    block is 0 if the command is of a table."""

    section: str
    block: int
    line: int
    command: str
    prints: list[str]


def quoted(cell: str, before: str) -> str:
    """Returns a cell for a command, after this text of the command: within its single quotes, or in
    quotes of its own."""
    return cell.replace("'", "'\\''") if before.count("'") % 2 else shlex.quote(cell)


def command_of(template: str, given: list[str]) -> str:
    """Returns a table's command for a row: `…` is replaced by the first cell that the command gets,
    and `…2` by the second."""
    return re.sub(r"…(\d?)", lambda place: quoted(given[int(place.group(1) or 1) - 1],
                                                  template[:place.start()]), template)


def cells_of(line: str) -> list[str]:
    """Returns the cells of a table's line."""
    return [cell.strip().replace("\\|", "|") for cell in re.split(r"(?<!\\)\|", line)[1:-1]]


def plain(cell: str) -> str:
    """Returns a cell without the backticks around it."""
    return cell[1:-1] if re.fullmatch("`[^`]*`", cell) else cell


def lines_in(cell: str) -> list[str]:
    """Returns the lines of output in a cell, which strokes separate; the line of an error begins
    with its number."""
    parts = re.fullmatch(r"(.*?) ?(\(status \d+\))?", cell)
    assert parts
    text, status = parts.groups()
    found = [] if text in ("", "nothing") else plain(text).split("/")
    found = [f"bw: {line}" if re.match(r"[1-8]\d\d [a-z]", line) else line for line in found]
    return found + ([status] if status else [])


class Reader:
    """Reads the calls of a page. A table's first cell has the commands that are run for each row. A
    column `prints` has the output of each, a column `why` is for the reader, and the commands get
    the others."""

    def __init__(self, page: pathlib.Path) -> None:
        self.calls: list[Call] = []
        self.section, self.block, self.is_within = "", 0, False
        # the mark of the fence that the line is in, and whether a block of fences goes on
        self.fence, self.goes_on = "", False
        self.table: tuple[list[str], list[str]] | None = None
        for number, line in enumerate(page.read_text(encoding="utf-8").splitlines(), 1):
            if self.fence or line.startswith("```"):
                self.read_fence(number, line)
                continue
            self.goes_on = self.goes_on and not line
            if line.startswith("##"):
                self.section = line.lstrip("# ")
            self.read_block(number, line)
            self.read_table(number, line)

    def read_fence(self, number: int, line: str) -> None:
        """Reads a line of a fence, or one that begins or ends it."""
        if not self.fence:
            self.fence = line
            if line == "```sh":
                self.block += not self.goes_on
                self.goes_on = True
                self.calls.append(Call(self.section, self.block, number, "set -e", []))
            elif line != "```text":
                self.goes_on = False
        elif line == "```":
            self.fence = ""
        elif self.fence == "```sh":
            self.calls[-1] = self.calls[-1]._replace(command=f"{self.calls[-1].command}\n{line}")
        elif self.fence == "```text" and self.goes_on:
            self.calls[-1].prints.append(line)

    def read_block(self, number: int, line: str) -> None:
        """Reads a line that may be one of a block."""
        if line.startswith("    $ "):
            self.block += not self.is_within
            self.calls.append(Call(self.section, self.block, number, line[6:], []))
        elif line.startswith("    > ") and self.is_within and not self.calls[-1].prints:
            self.calls[-1] = self.calls[-1]._replace(
                command=f"{self.calls[-1].command}\n{line[6:]}")
        elif line.startswith("    ") and self.is_within:
            self.calls[-1].prints.append(line[4:])
        self.is_within = line.startswith("    ") and (self.is_within or line[4:6] == "$ ")

    def read_table(self, number: int, line: str) -> None:
        """Reads a line that may be one of a table."""
        if not line.startswith("|"):
            self.table = None
        elif self.table is None:
            heads = cells_of(line)
            self.table = heads, re.findall("`([^`]+)`", heads[0]) if "…" in heads[0] else []
        elif not re.fullmatch(r"[|: -]+", line) and self.table[1]:
            heads, commands = self.table
            cells = [plain(cell) for cell in cells_of(line)]
            if len(cells) != len(heads) or "prints" not in heads:
                raise ValueError(f"line {number}: a row has a cell for each column, one of which "
                                 "is headed `prints`")
            given = [cell for head, cell in zip(heads, cells) if head not in ("prints", "why")]
            prints = lines_in(cells[heads.index("prints")])
            self.calls += [Call(self.section, 0, number, command_of(command, given), prints)
                           for command in commands]


def calls_of(page: pathlib.Path) -> list[Call]:
    """Returns the calls of a page, in its order."""
    return Reader(page).calls


def status_of(printed: list[str]) -> int:
    """Returns the status that printed lines show: that of the error among them, or 0."""
    faults = [line for line in printed if re.match(r"bw: [1-8]\d\d ", line)]
    return STATUS[faults[0][4]] if faults else 0


def printed_by(done: Done) -> list[str]:
    """Returns what a call printed, first on standard output and then on standard error, and its
    status if the output doesn't show it."""
    printed = done.out.splitlines() + done.err.splitlines()
    return printed + ([] if done.status == status_of(printed) else [f"(status {done.status})"])


def is_as_wanted(wanted: list[str], printed: list[str]) -> bool:
    """Returns whether these lines were printed, where `...` stands for any lines."""
    pattern = "".join(r"(.*\n)*" if line == "..." else re.escape(line) + "\n" for line in wanted)
    return re.fullmatch(pattern, "".join(f"{line}\n" for line in printed)) is not None


def on_wrong_stream(done: Done) -> list[str]:
    """Returns the lines that are on the wrong stream. Results and the version belong on standard
    output; errors with what explains them, `--stats` lines and messages on wrong arguments on
    standard error."""
    def is_for_errors(line: str) -> bool:
        return done.status == 2 or bool(re.match(r"bw: \d{3} |served ", line))

    return [line for line in done.out.splitlines() if is_for_errors(line)] + \
        [line for line in done.err.splitlines() if not line.startswith("    ")
         and not is_for_errors(line)]


def with_pandas() -> str | None:
    """Returns a python3 that has pandas: the one on the PATH, or the system's."""
    test = "import importlib.util as i, sys; sys.exit(not i.find_spec('pandas'))"
    for python in filter(None, [shutil.which("python3"), shutil.which("/usr/bin/python3")]):
        if support.run([python, "-c", test]).status == 0:
            return python
    return None


# sections that need a program that may be missing: its name in their calls, how to find it, and its
# Debian package
NEEDS = {"pandas": ("python3", with_pandas, "python3-pandas"),
         "R": ("Rscript", lambda: shutil.which("Rscript"), "r-base-core"),
         "The sqlite3 shell": ("sqlite3", lambda: shutil.which("sqlite3"), "sqlite3")}


def furnish(folder: pathlib.Path) -> None:
    """Gives a folder examples, cases, scripts and verify, and `bin`, which has bw beside the
    Python programs."""
    (folder / "bin").mkdir()
    (folder / "bin" / "bw").symlink_to(BW)
    for name in support.TOOLS:
        # the module site, of no use here, takes longer to start than a small question
        support.write_script(folder / "bin" / name, shlex.join(
            ["exec", sys.executable, "-S", str(support.PYTHON / "bin" / name)]) + ' "$@"')
    for name in ("examples", "cases", "scripts", "verify"):
        (folder / name).symlink_to(ROOT / name)


def functions_of(calls: list[Call]) -> str:
    """Returns the functions of a shell that calls define, each in one line. Later calls know them,
    as in a reader's shell."""
    return "".join(f"{found.group()}\n" for call in calls
                   for found in re.finditer(r"^\w+\(\) \{ .* \}$", call.command, re.MULTILINE))


def script_of(calls: list[Call], told: pathlib.Path) -> str:
    """Returns a script that runs calls one after another, and writes to a folder what each prints
    and its status."""
    lines = []
    for number, call in enumerate(calls):
        path = shlex.quote(str(told / str(number)))
        command = functions_of(calls[:number]) + call.command
        lines.append(f"(eval {shlex.quote(command)}) </dev/null >{path}.out 2>{path}.err\n"
                     f"echo $? >{path}.status")
    return "\n".join(lines) + "\n"


def run_calls(calls: list[Call], folder: pathlib.Path, told: pathlib.Path) -> list[Done | None]:
    """Runs calls in a folder. Returns what each left, or None for those that didn't end."""
    (told / "script").write_text(script_of(calls, told), encoding="utf-8")
    support.sh(f". {shlex.quote(str(told / 'script'))}", folder, seconds=300)
    found: list[Done | None] = []
    for number in range(len(calls)):
        path = told / str(number)
        found.append(Done(int(path.with_suffix(".status").read_text() or 0),
                          *(support.text_of(path.with_suffix(end).read_bytes())
                            for end in (".out", ".err")))
                     if path.with_suffix(".status").exists() else None)
    return found


def difference(page: str, call: Call, done: Done | None, by_blocks: bool) -> str:
    """Returns how what a call left differs from its page; nothing if it doesn't."""
    at = f"{page}:{call.line}\n$ {call.command[:2000]}\n"
    if done is None:
        return f"{at}it didn't end, or not within 300 seconds"
    printed = printed_by(done)
    if by_blocks and re.search(r"bw [^|]*\|[^|]", call.command):
        # the status is that of the last command of the line
        printed = done.out.splitlines() + done.err.splitlines()
    if not is_as_wanted(call.prints, printed):
        return at + "\n".join(difflib.unified_diff(call.prints, printed, "wanted", "came",
                                                   lineterm=""))
    if not by_blocks and "2>" not in call.command and on_wrong_stream(done):
        return f"{at}prints this on the other stream: {on_wrong_stream(done)}"
    return ""


# whether tables were restored, by their bytes: many sections begin with the same ones
RESTORED: dict[bytes, bool] = {}


def is_restored(table: pathlib.Path) -> bool:
    """Returns whether a table file, or one by columns, is the same after it was dumped and loaded
    again, in the same layout and with the schema that `bw info` prints. A table of version 2 that
    doesn't need it is restored as one of version 1. What `bw dump` rejects is left out."""
    before = table.read_bytes()
    mark = hashlib.sha256(before).digest()
    if mark not in RESTORED:
        told, dumped = (subprocess.run([BW, word, table], stdin=subprocess.DEVNULL, check=False,
                                       stdout=subprocess.PIPE, stderr=subprocess.PIPE)
                        for word in ("info", "dump"))
        RESTORED[mark] = bool(told.returncode or dumped.returncode) or \
            is_loaded_again(table, before, told.stdout, dumped.stdout)
    return RESTORED[mark]


def is_loaded_again(table: pathlib.Path, before: bytes, told: bytes, dumped: bytes) -> bool:
    """Returns whether a schema and rows are loaded as a table of these bytes."""
    schema, rows, again = table.parent / "again.schema", table.parent / "again.csv", \
        table.parent / "again"
    schema.write_bytes(told)
    rows.write_bytes(dumped)
    done = support.bw("load", *["--columnar"] * (before[:8] == b"BWBYCOLS"), "--layout",
                      ["planes", "slices"][before[9]], schema, rows, again)
    after = again.read_bytes() if done.status == 0 else b""
    return after == before or before[8] != 1 and after == before[:8] + b"\1" + before[9:]


def not_restored(folder: pathlib.Path) -> list[str]:
    """Returns the table files of a folder that aren't restored."""
    return [table.name for table in filter(pathlib.Path.is_file, sorted(folder.glob("*.bw")))
            if not is_restored(table)]


class Page(support.TestCase):
    """The calls of a page, `class Name(Page, page="docs/PAGE.md")`. Those of a section run one
    after another in a new folder, which begins as the calls before the first section left theirs;
    with `by_blocks`, those of each block do. The first test of a section runs all of its calls."""

    page = ""
    by_blocks = False
    rooms: dict[Any, list[Call]]
    done: dict[Any, dict[int, Done | None]]
    lost: dict[Any, list[str]]
    beginning: pathlib.Path | None

    def __init_subclass__(cls, page: str, by_blocks: bool = False) -> None:
        cls.page, cls.by_blocks, cls.rooms, cls.beginning = page, by_blocks, {}, None
        cls.done, cls.lost = {}, {}
        for call in calls_of(ROOT / page):
            room = call.block if by_blocks else call.section
            cls.rooms.setdefault(room, []).append(call)
            cls.add_test(room, len(cls.rooms[room]) - 1, call)

    @classmethod
    def add_test(cls, room: Any, place: int, call: Call) -> None:
        """Makes a test of a call."""
        def test(self: Page) -> None:
            self.check(room, place, call)

        test.__doc__ = f"{cls.page}:{call.line}"
        name = f"test_{support.slug(call.section or 'beginning')}_"
        number = sum(each.startswith(name) for each in vars(cls)) + 1
        setattr(cls, f"{name}{number:03}", test)

    def tool_of(self, section: Any) -> tuple[str, str] | None:
        """Returns the name and path of what a section needs. Skips the test if it isn't here."""
        if section not in NEEDS:
            return None
        name, find, package = NEEDS[section]
        path = find()
        if not path:
            self.skipTest(f"{self.page}, {section}: install {package}")
        return name, path

    def folder_of(self, room: Any) -> pathlib.Path:
        """Returns a new folder for the calls of a section or a block."""
        folder = self.new_class_folder() / "folder" if room == "" else self.new_folder() / "folder"
        if room != "" and "" in self.rooms:
            self.run_room("")
            assert self.beginning
            shutil.copytree(self.beginning, folder, symlinks=True)
        else:
            folder.mkdir()
            furnish(folder)
        if room == "":
            type(self).beginning = folder
        return folder

    def run_room(self, room: Any) -> None:
        """Runs the calls of a section or a block, once."""
        if room in self.done:
            return
        needed, folder, told = self.tool_of(room), self.folder_of(room), self.new_folder()
        if needed:
            (folder / "bin" / needed[0]).unlink(missing_ok=True)
            support.write_script(folder / "bin" / needed[0], f'exec "{needed[1]}" "$@"')
        self.done[room] = dict(enumerate(run_calls(self.rooms[room], folder, told)))
        self.lost[room] = not_restored(folder)

    def check(self, room: Any, place: int, call: Call) -> None:
        """Compares what a call printed with the page."""
        self.run_room(room)
        wrong = difference(self.page, call, self.done[room][place], self.by_blocks)
        self.assertFalse(wrong, wrong)

    def test_tables_come_back_from_their_dumps(self) -> None:
        """The table files of a section are the same after a dump and a load."""
        for room in self.rooms:
            if room not in NEEDS:
                self.run_room(room)
                self.assertEqual(self.lost[room], [], room)

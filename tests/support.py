"""What the tests share: the program, folders, calls of programs, tests made of a list, and tables
that are loaded."""
from __future__ import annotations

import argparse
import compileall
import contextlib
import functools
import gc
import importlib
import io
import os
import pathlib
import random
import re
import runpy
import shutil
import signal
import subprocess
import sys
import tempfile
import time
import traceback
import unittest
import warnings
from typing import Any, Callable, Iterable, NamedTuple, Sequence, TypeVar

import bwtools
from bwtools._cli import import_
from bwtools._csv.file import Source
from bwtools._errors import Refused
from bwtools._inference.options import add_options, parsed
from bwtools._types import kinds
from bwtools._types.dictionary import SortedList
from bwtools.loader import importing
from bwtools.loader.table import Table, write_numbers

ROOT = pathlib.Path(__file__).resolve().parent.parent
PYTHON = ROOT / "python"
# the Python programs, and the module of each
TOOLS = {"bw-ask": "ask", "bw-from-numbers": "from_numbers", "bw-import": "import_",
         "bw-shards": "shards", "bw-to-numbers": "to_numbers"}
# what programs import once they need it
LATER = ("argparse", "csv", "decimal", "difflib", "fractions", "hashlib", "json", "shlex", "shutil",
         "sqlite3", "subprocess", "threading", "unicodedata")
# how many seconds a call may take
LONGEST = 120
# whether tests that draw their cases draw all of them: ./check --whole
IS_WHOLE = bool(os.environ.get("WHOLE"))

# if standard input is closed, no other file may get its number
try:
    os.fstat(0)
except OSError:
    os.open(os.devnull, os.O_RDONLY)


@functools.lru_cache(None)
def program() -> pathlib.Path:
    """Returns the program to test: that of the environment variable BW, else the one that ./bw
    runs."""
    path = os.environ.get("BW") or subprocess.run(
        [ROOT / "bw", "--where"], stdout=subprocess.PIPE, text=True, check=True).stdout.strip()
    found = pathlib.Path(path).resolve()
    if not os.access(found, os.X_OK) or found.is_dir():
        raise OSError(f"{found} is not a program")
    return found


# the Python programs look there
BW = program()
os.environ["BW"] = str(BW)


class Done(NamedTuple):
    """What a call left: its status, its output and its errors."""

    status: int
    out: str
    err: str


def text_of(data: bytes) -> str:
    return data.decode("utf-8", "replace")


def run(words: Sequence[Any], given: bytes | str = b"", cwd: Any = None, **names: str) -> Done:
    """Runs a command, with these variables in its environment."""
    done = subprocess.run(list(map(str, words)), cwd=cwd, timeout=LONGEST, check=False,
                          input=given.encode() if isinstance(given, str) else given,
                          stdout=subprocess.PIPE, stderr=subprocess.PIPE,
                          env={**os.environ, **names})
    return Done(done.returncode, text_of(done.stdout), text_of(done.stderr))


def bw(*words: Any, given: bytes | str = b"", cwd: Any = None) -> Done:
    """Runs bw."""
    return run([BW, *words], given, cwd)


def sh(command: str, folder: pathlib.Path, seconds: int = LONGEST, **names: str) -> Done:
    """Runs a command by sh in a folder, whose `bin` is on the PATH."""
    path = f"{folder / 'bin'}:{os.environ.get('PATH', os.defpath)}"
    done = subprocess.run(["timeout", str(seconds), "sh", "-c", command], cwd=folder,
                          env={**os.environ, **names, "PATH": path, "LC_ALL": "C"},
                          stdin=subprocess.DEVNULL, stdout=subprocess.PIPE,
                          stderr=subprocess.PIPE, check=False)
    more = f"no end within {seconds} seconds\n" if done.returncode == 124 else ""
    return Done(done.returncode, text_of(done.stdout), text_of(done.stderr) + more)


@functools.lru_cache(None)
def import_package() -> None:
    """Imports all of bwtools, and has it import and ask a table, so that it compiles most patterns
    here and not in each forked program. Bytecode that is missing is written first, if it can be,
    for programs that are started and for the next run."""
    for folder in (PYTHON / "bwtools", ROOT / "tests"):
        if os.access(folder, os.W_OK):
            # all at once if there is none, by all processors
            compileall.compile_dir(folder, quiet=2, workers=int((folder / "__pycache__").exists()))
    for path in sorted((PYTHON / "bwtools").rglob("*.py")):
        name = ".".join(path.relative_to(PYTHON).with_suffix("").parts)
        importlib.import_module(name.removesuffix(".__init__"))
    for name in LATER:
        importlib.import_module(name)
    import_parser().format_usage()
    with tempfile.TemporaryDirectory() as name:
        table = imported(pathlib.Path(name, "t"), "a,b,c,d,e,f\n1,1.5,2024-05-01,12:30,true,x\n"
                                                  "-2,,2024-05-02,12:31,false,1e5\n")
        with bwtools.connect(table) as connection:
            for sql in ("SELECT * FROM t WHERE a = 1 OR f = 'x'", "SELECT upper(f) FROM t"):
                list(connection._database.answer(sql).fields())
    # the programs, which are short, turn it off
    gc.enable()
    # what forks share stays shared
    gc.freeze()


class Running:
    """A Python program, or a script of this path, in a fork of this process, which saves the start
    of another Python. Its files are a program's own: input of these bytes, or an open file of this
    number. Errors may be written to the same file as output."""

    def __init__(self, name: str | pathlib.Path, *words: Any, given: bytes | str | int = b"",
                 cwd: Any = None, names: dict[str, str] | None = None,
                 is_mixed: bool = False) -> None:
        import_package()
        self.files = [tempfile.TemporaryFile() for _ in range(3)]
        places = [file.fileno() for file in self.files]
        if isinstance(given, int):
            places[0] = given
        else:
            self.files[0].write(given.encode() if isinstance(given, str) else given)
            self.files[0].seek(0)
        if is_mixed:
            places[2] = places[1]

        def run_here() -> Any:
            for number, place in enumerate(places):
                os.dup2(place, number)
            return run_tool(name, list(map(str, words)), cwd, names or {})

        self.process = in_fork(run_here)

    def until(self, path: pathlib.Path) -> None:
        """Waits until there is a file, or the program has ended."""
        while not path.exists() and not os.waitid(
                os.P_PID, self.process, os.WEXITED | os.WNOWAIT | os.WNOHANG):
            time.sleep(.002)

    def done(self) -> Done:
        """Waits for the end. Returns what the program left."""
        status = os.waitstatus_to_exitcode(os.waitpid(self.process, 0)[1])
        told = []
        for file in self.files:
            file.seek(0)
            told.append(text_of(file.read()))
            file.close()
        return Done(status, *told[1:])


def tool(name: str | pathlib.Path, *words: Any, given: bytes | str = b"", cwd: Any = None,
         **names: str) -> Done:
    """Runs a Python program, or a script, in a fork of this process."""
    return Running(name, *words, given=given, cwd=cwd, names=names).done()


def in_fork(act: Callable[[], Any]) -> int:
    """Begins a function in a fork of this process, whose number it returns. That ends with the
    status that the function returns, or 0, or with 1 if it raises something: never does it go on
    with the tests."""
    process = os.fork()
    if not process:
        status: Any = 1
        try:
            status = act() or 0
        except BaseException:
            traceback.print_exc()
        finally:
            os._exit(status if isinstance(status, int) else 1)
    return process


def run_tool(name: str | pathlib.Path, words: list[str], cwd: Any,
             names: dict[str, str]) -> Any:
    """Runs a Python program or a script, in a process of its own. Returns its status."""
    # nohup, or a shell's &, makes a program ignore them
    signal.signal(signal.SIGINT, signal.default_int_handler)
    for number in (signal.SIGHUP, signal.SIGTERM):
        signal.signal(number, signal.SIG_DFL)
    signal.alarm(LONGEST)
    # unittest shows it, and Python doesn't
    warnings.simplefilter("ignore", ResourceWarning)
    gc.disable()
    os.chdir(cwd or os.getcwd())
    os.environ.update(names)
    sys.argv = [str(name), *words]
    sys.stdin = open(0, encoding="utf-8", closefd=False)
    sys.stdout = open(1, "w", encoding="utf-8", closefd=False)
    sys.stderr = open(2, "w", 1, "utf-8", "backslashreplace", closefd=False)
    status: Any = 1
    try:
        if isinstance(name, pathlib.Path):
            sys.path.insert(0, str(name.parent))
            runpy.run_path(str(name), run_name="__main__")
            status = 0
        else:
            status = importlib.import_module(f"bwtools._cli.{TOOLS[name]}").main()
    except SystemExit as ended:
        status = ended.code
        if isinstance(status, str):
            print(status, file=sys.stderr)
    except BaseException:
        traceback.print_exc()
    for file in (sys.stdout, sys.stderr):
        with contextlib.suppress(OSError):
            file.flush()
    return status


def content(folder: pathlib.Path) -> dict[str, bytes]:
    """Returns the files in a folder and below, hidden ones as well, without symlinks."""
    return {str(path.relative_to(folder)): path.read_bytes() for path in folder.rglob("*")
            if path.is_file() and not path.is_symlink()}


def copy_python(folder: pathlib.Path) -> None:
    """Copies the Python programs, with what was compiled of them, so that they can be changed."""
    shutil.copytree(PYTHON, folder)
    for path in [folder, *folder.rglob("*")]:
        path.chmod(path.stat().st_mode | 0o200)


def write_script(path: pathlib.Path, text: str) -> pathlib.Path:
    """Writes a program in shell."""
    path.write_text(f"#!/bin/sh\n{text}\n", encoding="utf-8")
    path.chmod(0o755)
    return path


class TestCase(unittest.TestCase):
    """A test whose differences are shown as a whole."""

    maxDiff = None

    def new_folder(self) -> pathlib.Path:
        """Makes a folder that is removed after the test."""
        folder = tempfile.TemporaryDirectory(prefix="bw test ")
        self.addCleanup(folder.cleanup)
        return pathlib.Path(folder.name)

    @classmethod
    def new_class_folder(cls) -> pathlib.Path:
        """Makes a folder that is removed after the tests of the class."""
        folder = tempfile.TemporaryDirectory(prefix="bw test ")
        cls.addClassCleanup(folder.cleanup)
        return pathlib.Path(folder.name)


def slug(text: str) -> str:
    """Returns a text as a part of a name."""
    return re.sub(r"\W+", "_", text.lower()).strip("_")


def each(cases: Iterable[Any]) -> Callable[[type], type]:
    """Makes a test of each case: a class's `check` gets its value, or its values, of which the
    first is its name."""
    def decorate(cls: type) -> type:
        for number, case in enumerate(cases, 1):
            def test(self: Any, case: Any = case) -> None:
                self.check(*case if isinstance(case, tuple) else [case])

            test.__doc__ = str(case[0] if isinstance(case, tuple) else case)
            name = f"test_{slug(test.__doc__)[:60] or number}"
            setattr(cls, name if not hasattr(cls, name) else f"{name}_{number}", test)
        return cls
    return decorate


class Import:
    """A small file as it is imported: its kinds, its report, its numbers and its fields as they
    come back; or why it is refused."""

    def __init__(self, data: str | bytes, *words: str) -> None:
        self.refusal, self.report = "", ""
        try:
            in_file(data if isinstance(data, bytes) else data.encode(),
                    lambda path: self.read(path, options(*words)))
        except Refused as refused:
            self.refusal = str(refused).partition(": ")[2]

    def read(self, path: str, given: argparse.Namespace) -> None:
        """Imports a file."""
        table = Table(path, given, pathlib.Path(path).parent)
        with contextlib.redirect_stdout(io.StringIO()) as out:
            table.report()
        self.report, self.columns = out.getvalue(), table.columns
        self.kinds = [column.kind.name for column in table.columns]
        columns = columns_in(table)
        self.numbers = [[int(number) for number in column if number not in ("", "NULL")]
                        for column in columns]
        self.rows = [",".join(row) for row in zip(*map(self.back, range(len(columns)), columns))]

    def back(self, place: int, column: Sequence[str]) -> list[str]:
        """Returns the fields of a column of numbers."""
        rest = iter(self.columns[place].kind.spell(self.numbers[place]))
        return ["" if number in ("", "NULL") else next(rest) for number in column]

    def greatest(self, place: int) -> str:
        """Returns MAX of a column, as it is printed."""
        return self.columns[place].kind.text(max(self.numbers[place]))


@functools.lru_cache(64)
def options(*words: str) -> argparse.Namespace:
    """Returns the options that arguments of the command line give."""
    parser = argparse.ArgumentParser()
    add_options(parser)
    return parsed(parser, words)


def sample(few: int, whole: int, is_whole: bool = IS_WHOLE) -> int:
    """Returns how many cases a test draws: few, the first ones of its seed, or the whole."""
    if not 0 < few <= whole:
        raise ValueError(f"{few} isn't a sample of {whole}")
    return whole if is_whole else few


Case = TypeVar("Case")


def sample_of(cases: Sequence[Case], few: int, seed: int, is_whole: bool = IS_WHOLE) -> list[Case]:
    """Returns as many cases as `sample`, drawn by a seed, in their order."""
    count = sample(few, len(cases), is_whole)
    return [cases[at] for at in sorted(random.Random(seed).sample(range(len(cases)), count))]


Made = TypeVar("Made")


def in_file(data: bytes, work: Callable[[str], Made]) -> Made:
    """Returns what a function returns for the path of a file of these bytes."""
    with tempfile.TemporaryDirectory(prefix="bw test ") as name:
        path = pathlib.Path(name, "in.csv")
        path.write_bytes(data)
        return work(str(path))


def source_of(data: bytes, *words: str) -> Source:
    """Returns a source of these bytes, whose file is open though it is deleted."""
    return in_file(data, lambda path: Source(path, options(*words)))


def table_of(data: bytes, *words: str) -> Table:
    """Returns the table of a file of these bytes."""
    return in_file(data, lambda path: Table(path, options(*words), pathlib.Path(path).parent))


def columns_in(table: Table) -> list[list[str]]:
    """Returns the columns of numbers of a table."""
    path = table.folder / "numbers.csv"
    write_numbers(table, table.folder, path)
    rows = [line.split(",") for line in path.read_text(encoding="ascii").splitlines()[1:]]
    return [list(column) for column in zip(*rows)] or [[] for _ in table.columns]


def numbers_of(data: bytes, *words: str) -> list[list[str]]:
    """Returns the columns of numbers of a file of these bytes."""
    return in_file(data, lambda path: columns_in(Table(path, options(*words),
                                                       pathlib.Path(path).parent)))


def texts(*values: str) -> kinds.Texts:
    """Returns the kind of a column of these texts."""
    return kinds.Texts(SortedList(values))


def described(column: Any) -> tuple[Any, ...]:
    """Returns what the store keeps of a column."""
    return (column.name, column.heading, column.kind.name, column.kind.settings(),
            list(column.nulls), list(column.ends), column.why,
            None if column.kind.listed is None else list(column.kind.listed))


@functools.lru_cache(None)
def import_parser() -> argparse.ArgumentParser:
    """Returns what reads the arguments of bw-import: making it takes as long as a small import."""
    return import_.parser_of()


def imported(path: pathlib.Path, data: str, *words: str) -> pathlib.Path:
    """Imports a CSV of these characters as the table file, or the folder, of a path, which it
    returns."""
    raw = path.with_name(f"{path.name}.csv")
    raw.write_bytes(data.encode())
    given = import_parser().parse_args([str(raw), str(path), *words])
    with contextlib.redirect_stdout(io.StringIO()), warnings.catch_warnings():
        warnings.simplefilter("ignore", ResourceWarning)
        importing.import_file(given, given.table, given.shards is not None)
    return path


class Imported(TestCase):
    """Tests over tables in a folder: `tables` has the CSV of each, and the options of its import,
    by the name of its file."""

    tables: dict[str, tuple[str, ...]] = {}
    folder: pathlib.Path
    # the folder of some tables, which the classes of a module that inherit them share
    made: dict[int, pathlib.Path] = {}

    @classmethod
    def setUpClass(cls) -> None:
        if id(cls.tables) not in Imported.made:
            folder = tempfile.TemporaryDirectory(prefix="bw test ")
            unittest.addModuleCleanup(folder.cleanup)
            unittest.addModuleCleanup(Imported.made.pop, id(cls.tables))
            Imported.made[id(cls.tables)] = pathlib.Path(folder.name)
            for name, words in cls.tables.items():
                imported(pathlib.Path(folder.name, name), *words)
        cls.folder = Imported.made[id(cls.tables)]

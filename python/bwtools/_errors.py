"""What messages are made of, how programs end, and the failures of bw and of the system."""
from __future__ import annotations

import contextlib
import errno
import os
import signal
import sys
from typing import Any, Callable, NoReturn, Sequence

from ._identifiers import is_name, name_like


# What messages are made of: the refusal, counts, and texts of the input.


class Refused(Exception):
    """An input that is rejected, and why."""


def counted(number: int, thing: str) -> str:
    """Returns a number of things, such as `1 row` or `2,000 rows`."""
    return f"{number:,} {thing}{'' if number == 1 else 's'}"


def shown(text: str) -> str:
    """Returns a text for a message: its first characters, in quotes and printable."""
    return repr(text if len(text) <= 40 else text[:37] + "...")


# What the programs share as commands: the program that they call, and how they end.


class Ended(Exception):
    """A program that ended with a status other than 0."""

    def __init__(self, status: int) -> None:
        super().__init__(status)
        self.status = status


def program() -> str:
    """Returns the program bw: that of the environment variable BW, else the one that pip installed
    with the package, else the one on the PATH, else the one that the package came with."""
    found = os.environ.get("BW") or installed_program() or on_path("bw") or own_program()
    if not found:
        raise Refused("no program bw on the PATH: set BW=FILE to its path")
    return found


def whole_path() -> str:
    """Returns the program bw as a path that holds in any working directory."""
    found = program()
    return os.path.abspath(found if os.sep in found else on_path(found) or found)


def on_path(name: str) -> str | None:
    """Returns the program of a name on the PATH, or None."""
    paths = [os.path.join(folder, name) for folder in os.get_exec_path()]
    return next((path for path in paths if is_program(path)), None)


def installed_program() -> str | None:
    """Returns the program that pip installed with the package, or None: that of the environment,
    whether or not it is activated, or of the folder of `pip install --target`. Elsewhere the
    package is in a folder `python`."""
    folder = os.path.dirname(os.path.dirname(os.path.realpath(__file__)))
    tops = (os.path.dirname(os.path.dirname(os.path.dirname(folder))), folder)
    paths = [os.path.join(top, "bin", "bw") for top in tops if os.path.basename(folder) != "python"]
    return next((path for path in paths if is_program(path)), None)


def own_program() -> str | None:
    """Returns the program that the package came with, or None: that of a checkout's dist/, if it
    runs here, else one beside the package's folder, else one that ./install put there."""
    top = os.path.dirname(os.path.dirname(os.path.dirname(os.path.realpath(__file__))))
    shipped = os.path.join(top, "dist", "bw")
    if is_program(shipped) and runs(shipped):
        return shipped
    installed = os.path.join(os.path.dirname(os.path.dirname(top)), "bin", "bw")
    return next((path for path in (os.path.join(top, "bw"), installed) if is_program(path)), None)


def runs(path: str) -> bool:
    """Returns whether a program runs here."""
    # subprocess takes longer to import than a small question
    actions = [(os.POSIX_SPAWN_OPEN, number, os.devnull, os.O_RDWR, 0) for number in range(3)]
    process = os.posix_spawn(path, [path, "--version"], os.environ, file_actions=actions)
    return os.waitstatus_to_exitcode(os.waitpid(process, 0)[1]) == 0


def is_program(path: str) -> bool:
    return os.path.isfile(path) and os.access(path, os.X_OK)


def own_name() -> str:
    """Returns the name by which a program was called, such as bw-ask."""
    return os.path.basename(sys.argv[0])


def call(words: Sequence[Any]) -> None:
    """Runs a command of bw to its end. If it fails, passes on its error, and raises Ended with its
    status."""
    import subprocess
    # a file past the system's limit is then an error of writing, and no signal
    status = subprocess.run([program(), *map(str, words)], stdin=subprocess.DEVNULL,
                            stdout=subprocess.PIPE, restore_signals=False,
                            check=False).returncode
    if status:
        print(f"bw {words[0]} ended with status {status}", file=sys.stderr)
        raise Ended(status if status > 0 else 128 - status)


def table_name(name: str | None, out: str | None) -> str:
    """Returns the name of the table to load: the given one, else that of the file or folder to
    write, made valid."""
    name = name or name_like(os.path.basename(os.path.normpath(out or "t")).removesuffix(".bw"))
    if not is_name(name):
        raise Refused(f"--table: {shown(name)} is not a valid name: use letters, digits and _, and "
                      "no reserved word of SQL")
    return name


def stop(number: int, _: object) -> NoReturn:
    """Exits as an interrupt does, so that unfinished files are removed."""
    raise SystemExit(128 + number)


def write_utf8() -> None:
    """Has standard output written as UTF-8, with line feeds as they are."""
    # `status_of` opened it as a text file
    getattr(sys.stdout, "reconfigure")(encoding="utf-8", errors="strict", newline="")


def drop_output() -> None:
    """Flushes standard output, then redirects it to /dev/null, so that Python reports no error at
    its end."""
    with contextlib.suppress(OSError):
        sys.stdout.flush()
    with contextlib.suppress(OSError):
        os.dup2(os.open(os.devnull, os.O_WRONLY), sys.stdout.fileno())


def rejections() -> tuple[type[Exception], ...]:
    """Returns what is raised for an input that is rejected: by csv, if it was imported."""
    own = getattr(sys.modules.get("csv"), "Error", Refused)
    return Refused, UnicodeError, own


def hold_standard_files() -> None:
    """Opens /dev/null in place of each standard file that is closed, or another file would get its
    number, by which bw couldn't read it."""
    for number in range(3):
        try:
            os.fstat(number)
        except OSError:
            # it gets the least free number
            os.open(os.devnull, os.O_RDWR)


def status_of(name: str, work: Callable[[], int | None]) -> int:
    """Does a program's work. Returns its status: 3 if the input was rejected, 5 if I/O failed, 6 if
    memory was refused."""
    hold_standard_files()
    for number in (signal.SIGTERM, signal.SIGHUP):
        if signal.getsignal(number) == signal.SIG_DFL:
            signal.signal(number, stop)
    if not sys.stderr:
        # or `print` would put messages among the answers
        sys.stderr = open(os.devnull, "w", encoding="utf-8")
    if not sys.stdout:
        print(f"{name}: standard output is closed", file=sys.stderr)
        return 5
    # with PYTHONUNBUFFERED Python's own has no buffer, and silently drops what the system doesn't
    # write at once
    sys.stdout = open(sys.stdout.fileno(), "w", encoding=sys.stdout.encoding,
                      errors="backslashreplace", closefd=False)
    try:
        status = work() or 0
        sys.stdout.flush()
        return status
    except rejections() as refused:
        print(f"{name}: {refused}", file=sys.stderr)
        return 3
    except Ended as ended:
        return ended.status
    except KeyboardInterrupt:
        return 130
    except BrokenPipeError:
        drop_output()
        return 5
    except Exception as error:
        # it imports this module
        if not is_failure(error):
            raise
        drop_output()
        return failure_of(error).report()


# The failure of bw, or of the system: nothing is wrong with the statement.

# the statuses of bw: of an input that is rejected, of a file that can't be read or written, and of
# refused memory
INPUT, FILES, MEMORY = 3, 5, 6
# how error 701 begins
UNREAD = "bw: 701 "
MEMORIES = ("out of memory", "can't start new thread", "failed to map segment",
            "cannot allocate memory", "Cannot allocate memory",
            # of Python, which reads a module
            "error return without exception set")

# what SQLite reports of a disk, or of the folder of its temporary files
DISKS = ("database or disk is full", "disk I/O error", "unable to open database file")


class Failed(Exception):
    """Why bw can't answer, what it printed before, and the status to exit with."""

    def __init__(self, why: str, told: str = "", status: int = FILES) -> None:
        super().__init__(why)
        self.told, self.status = told, status

    def report(self) -> int:
        """Prints it on standard error. Returns the status."""
        print(self.told, end="", file=sys.stderr)
        if str(self):
            print(f"{own_name()}: {self}", file=sys.stderr)
        return self.status

    def is_unread(self) -> bool:
        """Returns whether it is an input that bw couldn't read, or that changed meanwhile."""
        return UNREAD in f"{self.told}{self}"

    def of(self, name: str) -> Failed:
        """Returns the failure with the name of what it is about."""
        return Failed(f"{name}: {self.told.strip() or str(self)}", status=self.status)


def failure_of(error: BaseException) -> Failed:
    """Returns the failure that an exception of Python, of the system or of SQLite is: refused
    memory, or a file that can't be read or written."""
    if isinstance(error, Failed):
        return error
    if isinstance(error, OSError):
        where = f"{error.filename}: " if error.filename else ""
        is_memory = error.errno == errno.ENOMEM
        return Failed(f"{where}{error.strerror or error}", status=MEMORY if is_memory else FILES)
    if is_of_memory(error):
        return Failed("out of memory", status=MEMORY)
    return Failed(f"SQLite reports: {error}")


def is_of_memory(error: BaseException) -> bool:
    """Returns whether an exception reports refused memory. SQLite, a thread and an import do it in
    words alone."""
    told = isinstance(error, (RuntimeError, ImportError, SystemError)) or \
        type(error).__module__ == "sqlite3"
    return isinstance(error, MemoryError) or told and any(each in str(error) for each in MEMORIES)


def is_of_system(error: BaseException) -> bool:
    """Returns whether an exception of SQLite is none of its statement."""
    return is_of_memory(error) or any(each in str(error) for each in DISKS)


def is_failure(error: BaseException) -> bool:
    """Returns whether an exception is a failure, and no mistake of this package."""
    return isinstance(error, (Failed, OSError)) or is_of_memory(error) or \
        type(error).__module__ == "sqlite3"

"""The tests of the project, for unittest and pytest. `support` has what they share, `pages` makes
tests of the calls on pages, `drawn` draws conditions, statements and tables, and `package` tests
the functions of python/bwtools. CONTRIBUTING.md says how to run them."""
import contextlib
import importlib
import os
import pathlib
import sys

sys.dont_write_bytecode = True
sys.path.insert(0, str(pathlib.Path(__file__).resolve().parent.parent / "python"))


# a file system in memory, and how many bytes must be free there
MEMORY, ROOM = "/dev/shm", 1 << 30


def choose_folder() -> None:
    """Has temporary files made in memory, if there is room, programs can run there, and TMPDIR
    names no other folder: a disk takes an eighth longer."""
    with contextlib.suppress(OSError):
        found = os.statvfs(MEMORY)
        if os.access(MEMORY, os.W_OK | os.X_OK) and not found.f_flag & os.ST_NOEXEC and \
                found.f_bavail * found.f_frsize >= ROOM:
            os.environ.setdefault("TMPDIR", MEMORY)


def prepare() -> None:
    """Chooses where temporary files are, and imports what all modules use, in a process whose forks
    run them. If that fails, each of them says so."""
    choose_folder()
    with contextlib.suppress(Exception):
        importlib.import_module("tests.support").import_package()

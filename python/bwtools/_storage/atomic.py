"""Moves files to their places: all of them, or none; and a table file and its columns file so that
no moment leaves two that don't belong together."""
from __future__ import annotations

import contextlib
import ctypes
import fcntl
import os
import pathlib
import re
import shutil
import signal
import stat
import tempfile
from typing import Any, Callable, Iterable, Iterator

from .._errors import Refused

PREFIX, MADE = ".bw-part-", re.compile(r"\.bw-part-[a-z0-9_]{8}")
# of renameat2
AT_FDCWD, RENAME_EXCHANGE = -100, 2
HELD = (signal.SIGINT, signal.SIGTERM, signal.SIGHUP)


def refuse_target(path: str | os.PathLike[str], sources: Iterable[str | os.PathLike[str]]) -> None:
    """Rejects a target that exists and isn't a regular file, or is one of the files to read."""
    try:
        mode = os.lstat(path).st_mode
    except FileNotFoundError:
        return
    if not stat.S_ISREG(mode):
        what = {stat.S_IFDIR: "a folder", stat.S_IFLNK: "a symlink", stat.S_IFIFO: "a FIFO",
                stat.S_IFSOCK: "a socket"}
        raise Refused(f"{path} can't be overwritten: it is "
                      f"{what.get(stat.S_IFMT(mode), 'a device')}")
    if any(os.path.exists(source) and os.path.samefile(path, source) for source in sources):
        raise Refused(f"{path} can't be overwritten: it is the file to read")


@contextlib.contextmanager
def locked(folder: pathlib.Path) -> Iterator[None]:
    """Holds the lock of a folder, so that imports move their files one after another. Where the
    file system has no locks, it does nothing."""
    with contextlib.ExitStack() as stack:
        with contextlib.suppress(OSError):
            held = os.open(folder, os.O_RDONLY | os.O_DIRECTORY)
            stack.callback(os.close, held)
            fcntl.flock(held, fcntl.LOCK_EX)
        yield


@contextlib.contextmanager
def unbroken() -> Iterator[None]:
    """Holds back the signals that end a program, for as long as files are moved."""
    before = signal.pthread_sigmask(signal.SIG_BLOCK, HELD)
    try:
        yield
    finally:
        signal.pthread_sigmask(signal.SIG_SETMASK, before)


@contextlib.contextmanager
def new_folder(beside: str | os.PathLike[str]) -> Iterator[pathlib.Path]:
    """Makes a folder beside a file to write, which is removed at the end. It is locked meanwhile:
    so a folder without a lock is one that a killed program left, and is removed too."""
    parent = pathlib.Path(beside).parent
    if not parent.is_dir():
        raise Refused(f"{parent} isn't a folder")
    with locked(parent):
        remove_left(parent)
        made = pathlib.Path(tempfile.mkdtemp(dir=parent, prefix=PREFIX))
        held = os.open(made, os.O_RDONLY | os.O_DIRECTORY)
        with contextlib.suppress(OSError):
            fcntl.flock(held, fcntl.LOCK_EX | fcntl.LOCK_NB)
    try:
        yield made
    finally:
        os.close(held)
        shutil.rmtree(made, ignore_errors=True)


def remove_left(parent: pathlib.Path) -> None:
    """Removes the folders that killed programs left."""
    for path in parent.glob(f"{PREFIX}*"):
        if not MADE.fullmatch(path.name):
            continue
        with contextlib.suppress(OSError):
            held = os.open(path, os.O_RDONLY | os.O_DIRECTORY | os.O_NOFOLLOW)
            try:
                fcntl.flock(held, fcntl.LOCK_EX | fcntl.LOCK_NB)
                shutil.rmtree(path, ignore_errors=True)
            finally:
                os.close(held)


def exchange(one: pathlib.Path, other: str | os.PathLike[str]) -> None:
    """Exchanges what is at two paths, at once where the system can."""
    call = getattr(ctypes.CDLL(None, use_errno=True), "renameat2", None)
    names = os.fsencode(one), os.fsencode(other)
    if call is None or call(AT_FDCWD, names[0], AT_FDCWD, names[1], RENAME_EXCHANGE):
        before = one.with_name(f"{one.name}-before")
        os.rename(other, before)
        try:
            os.rename(one, other)
        except OSError:
            os.rename(before, other)
            raise
        os.rename(before, one)


def put_folder(made: pathlib.Path, path: str, refuse: Callable[[str], None]) -> None:
    """Moves a folder to its place, unless what is there is refused. What was there is then where
    the folder was made. The columns file of a table file that was there is removed."""
    columns = pathlib.Path(f"{path}.columns")
    with unbroken(), locked(pathlib.Path(path).parent):
        refuse(path)
        is_file = os.path.isfile(path)
        if os.path.lexists(path):
            exchange(made, path)
        else:
            os.rename(made, path)
        if is_file:
            columns.unlink(missing_ok=True)


def put(folder: pathlib.Path, moves: Iterable[tuple[Any, Any]]) -> None:
    """Moves files of a folder to their places, in this order: all of them, or none. Each moment
    leaves the file that was there, or the new one."""
    done: list[tuple[Any, pathlib.Path | None]] = []
    try:
        with unbroken():
            for number, (made, target) in enumerate(moves):
                old = folder / f"before-{number}" if os.path.lexists(target) else None
                if old:
                    # a file system without links keeps no file that was there before
                    with contextlib.suppress(OSError):
                        os.link(target, old)
                os.replace(made, target)
                done.append((target, old))
            # a reader of a file that was there takes one with as many names, and another time of
            # change, for one that changed
            for _, old in done:
                if old:
                    old.unlink(missing_ok=True)
    except OSError:
        for target, old in done:
            if not old:
                os.unlink(target)
            elif old.exists():
                os.replace(old, target)
        raise

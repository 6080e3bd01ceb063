"""Times calls in turn, and prints tables that say when and where they were measured."""
from __future__ import annotations

import dataclasses
import datetime
import os
import pathlib
import re
import subprocess
import sys
import tempfile
import time
from typing import Callable, Dict, Iterable, Mapping, Optional, Sequence, Tuple, TypeVar, Union

TOP = pathlib.Path(__file__).resolve().parent.parent
T = TypeVar("T")
Word = Union[str, "os.PathLike[str]"]
Words = Sequence[Word]


@dataclasses.dataclass(frozen=True)
class Run:
    """What a call took, in milliseconds, and what it wrote."""

    wall: float
    processor: float
    output: bytes

    def best(self, other: Optional[Run]) -> Run:
        """Returns the lesser times of two runs of a call."""
        if other is None:
            return self
        return Run(min(self.wall, other.wall), min(self.processor, other.processor), self.output)

    @property
    def text(self) -> str:
        """What it wrote, without blanks at both ends."""
        return self.output.decode().strip()


def run(words: Words, keep: bool = True, source: Optional[pathlib.Path] = None) -> Run:
    """Runs a call to its end. What it writes is dropped unless `keep`. Its processor time includes
    that of the processes that it waited for."""
    begun = time.perf_counter()
    with open(source or os.devnull, "rb") as given:
        process = subprocess.Popen(list(words), stdin=given,
                                   stdout=subprocess.PIPE if keep else subprocess.DEVNULL)
    output = process.stdout.read() if process.stdout else b""
    _, status, used = os.wait4(process.pid, 0)
    process.returncode = os.waitstatus_to_exitcode(status)
    wall = time.perf_counter() - begun
    if process.stdout:
        process.stdout.close()
    if process.returncode:
        sys.exit(f"{words[0]} ended with status {process.returncode}")
    return Run(wall * 1000, (used.ru_utime + used.ru_stime) * 1000, output)


def peak_of(words: Words) -> str:
    """Returns the peak memory of a call, in MB. GNU time starts it: what Python starts is charged
    with Python's own memory."""
    with tempfile.NamedTemporaryFile() as told:
        run(["/usr/bin/time", "-f", "%M", "-o", told.name, *words], keep=False)
        return f"{int(told.read()) * 1024 / 1e6:.1f}"


def text_of_call(words: Words) -> str:
    """Runs a call, and returns what it writes, without blanks at both ends."""
    return run(words).text


def run_in_turn(calls: Mapping[str, Words], runs: int, keep: bool = True) -> Dict[str, Run]:
    """Runs calls in turn, each so many times, and returns the best of each."""
    found: Dict[str, Run] = {}
    for _ in range(runs):
        for name, words in calls.items():
            found[name] = run(words, keep).best(found.get(name))
    return found


def least(call: Callable[[], T], runs: int) -> Tuple[float, T]:
    """Returns the least wall time of some calls of a function, in milliseconds, and what the last
    one returned. It stops early after a call of over ten seconds."""
    times = []
    for _ in range(max(runs, 1)):
        begun = time.perf_counter()
        found = call()
        times.append((time.perf_counter() - begun) * 1000)
        if times[-1] > 10_000:
            break
    return min(times), found


def agree(what: str, answers: Sequence[object]) -> None:
    """Exits unless all answers are equal."""
    if any(answer != answers[0] for answer in answers):
        shown = [repr(answer)[:300] for answer in answers]
        sys.exit(f"the answers differ: {what}: {shown}")


def git(*words: str) -> str:
    """Returns what git prints, or nothing where git or the repository is missing."""
    try:
        done = subprocess.run(["git", "-C", str(TOP), *words], capture_output=True, text=True,
                              check=False)
    except OSError:
        return ""
    return done.stdout.strip() if done.returncode == 0 else ""


def provenance() -> str:
    """Returns the date, the commit, the processor and the machine's load in the last minute."""
    told = pathlib.Path("/proc/cpuinfo").read_text(encoding="ascii", errors="replace")
    found = re.search(r"^model name\s*:\s*(.+)$", told, re.M)
    commit = git("rev-parse", "--short=8", "HEAD") or "not known"
    changed = git("status", "--porcelain", "--untracked-files=no")
    return (f"{datetime.date.today()}, commit {commit}"
            f"{', with uncommitted changes' if changed else ''}; "
            f"{found.group(1) if found else 'processor not known'}, "
            f"{len(os.sched_getaffinity(0))} processors, load average {os.getloadavg()[0]:.1f}")


def show(title: str, heads: Sequence[str], rows: Iterable[Sequence[str]]) -> None:
    """Prints a table in Markdown, each row when it is there, with its provenance."""
    print(f"**{title}.** {provenance()}.\n\n|{'|'.join(heads)}|\n|{'-|' * len(heads)}", flush=True)
    for row in rows:
        print(f"|{'|'.join(row)}|", flush=True)
    print(f"\nLoad average at the end of this table: {os.getloadavg()[0]:.1f}.\n", flush=True)

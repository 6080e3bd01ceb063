"""Shows on standard error what a question or an import waits for: only at a terminal, and once it
has taken a second."""
from __future__ import annotations

import contextlib
import os
import sys
import time
from typing import TYPE_CHECKING, Iterator

if TYPE_CHECKING:
    import threading

# after how many seconds the line is shown, and how often it is updated
FIRST, EVERY = 1.0, 0.2


class Waiting:
    """A line of what a question waits for. A thread updates it in place, since bw and SQLite may
    work for long without a word; it is removed at the end."""

    def __init__(self, is_wanted: bool = True) -> None:
        self.what, self.rows, self.begun = "", 0, time.monotonic()
        try:
            self.is_wanted = is_wanted and sys.stderr is not None and os.isatty(sys.stderr.fileno())
        except (OSError, ValueError):
            self.is_wanted = False

    def begin(self, what: str) -> None:
        """Tells what the question waits for from now on."""
        self.what, self.rows = what, 0

    def add(self, rows: int) -> None:
        """Counts rows."""
        self.rows += rows

    @contextlib.contextmanager
    def shown(self, what: str) -> Iterator[None]:
        """Shows the line while a question is worked on. It first waits for `what`."""
        self.begin(what)
        self.begun = time.monotonic()
        if not self.is_wanted:
            yield
            return
        # at a terminal alone, since it takes a millisecond
        import threading
        ended = threading.Event()
        thread = threading.Thread(target=self.update, args=(ended,), daemon=True)
        thread.start()
        try:
            yield
        finally:
            ended.set()
            thread.join()

    def update(self, ended: threading.Event) -> None:
        """Updates the line until the end."""
        if ended.wait(FIRST):
            return
        with contextlib.suppress(OSError, ValueError):
            while True:
                self.write(self.line())
                if ended.wait(EVERY):
                    break
            self.write("")

    def line(self) -> str:
        if self.rows:
            return f"{self.what} {self.rows:,} rows"
        return f"{self.what}, {time.monotonic() - self.begun:.0f} s"

    @staticmethod
    def write(text: str) -> None:
        sys.stderr.write(f"\r{text}\x1b[K")
        sys.stderr.flush()

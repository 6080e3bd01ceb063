"""Asks bw about the rows of a table on the workers of Dask's distributed scheduler, which have the
table files at the same paths. If a worker dies, the scheduler gives its shard to another one. What
it returns is whole: a shard that fails is an exception."""
from __future__ import annotations

import contextlib
import importlib
import importlib.util
import logging
import os
import pickle
import sys
from typing import Any, Callable, Iterator, Sequence

from .. import _errors
from .._errors import Failed, Refused
from .._storage.catalog import Reply, ask_shard, is_of_statement
from .._storage.columns_file import TableFile
from .executor import Part

MISSING = "Dask's distributed isn't installed for {} (python3-distributed of Debian)"
# how long a scheduler, and the first worker, is waited for
SECONDS = 10


class Cluster:
    """Queries shards on the workers of a scheduler, which is joined for the first statement."""

    def __init__(self, scheduler: str) -> None:
        if not is_installed():
            raise Refused(f"--scheduler: {MISSING.format(sys.executable)}")
        self.scheduler, self.owner = scheduler, os.getpid()
        # Dask's client
        self.client: Any = None
        self.stack = contextlib.ExitStack()

    def start(self) -> Any:
        """Joins the cluster, and returns Dask's client."""
        # these load slowly, and aren't needed before
        import cloudpickle
        distributed: Any = importlib.import_module("distributed")
        # workers on other machines don't have this package: its functions are sent to them
        cloudpickle.register_pickle_by_value(sys.modules[__name__.partition(".")[0]])
        logging.getLogger("distributed").setLevel(logging.CRITICAL)
        try:
            client = self.stack.enter_context(distributed.Client(self.scheduler, timeout=SECONDS))
            client.wait_for_workers(1, timeout=SECONDS)
            self.client = client
            return client
        except Exception as error:
            self.stack.close()
            raise Refused(f"the scheduler {self.scheduler} can't be used: {error}") from None

    def replies(self, calls: list[tuple[Any, ...]]) -> Iterator[Reply]:
        """Returns the replies of these calls of ask_shard, in their order. A reply leaves the
        cluster once it is consumed."""
        client = self.start() if self.client is None else self.client
        import cloudpickle

        def asked(packed: bytes) -> Reply:
            return ask_shard(*pickle.loads(packed))

        # Dask would send the types of the package that are among a call's values by name
        futures = [client.submit(asked, cloudpickle.dumps(call), pure=False) for call in calls]
        try:
            while futures:
                yield self.reply(futures[0])
                futures.pop(0).release()
        finally:
            client.cancel(futures)

    def reply(self, future: Any) -> Reply:
        try:
            found: Reply = future.result()
            return found
        except Exception as error:
            # whatever fails in the cluster; Dask tries at most three workers
            what = f"{type(error).__name__}: {error}"
            died = "every worker that tried died"
            told = died if what.startswith("KilledWorker: ") else what
            return 5, f"the cluster returned no result: {told}", b""

    def close(self) -> None:
        """Leaves the cluster, which a fork leaves to its parent."""
        if self.owner == os.getpid():
            self.stack.close()


def is_installed() -> bool:
    """Returns whether this Python has Dask's distributed scheduler."""
    return all(importlib.util.find_spec(name) for name in ("distributed", "cloudpickle"))


class Scheduled:
    """Runs statements by a cluster: each statement on each file by itself."""

    def __init__(self, cluster: Any, files: Sequence[tuple[str, TableFile]], columns: str,
                 options: Sequence[str] = (),
                 tell: Callable[[str], None] = lambda told: None) -> None:
        self.cluster, self.files, self.columns = cluster, files, columns
        self.options, self.tell = options, tell

    def once(self, statement: str) -> list[bytes]:
        return list(self.answers([statement]))

    def totals(self, statements: Sequence[str]) -> list[list[bytes]]:
        answers = list(self.answers(statements))
        count = len(self.files)
        return [answers[place::count] for place in range(count)]

    def rows(self, statement: str) -> list[Part]:
        return list(map(Part, self.answers([statement])))

    def beginnings(self, statement: str, rows: int, skipped: int) -> list[Part]:
        return self.rows(statement)

    def answers(self, statements: Sequence[str]) -> Iterator[bytes]:
        """Yields the result of each statement on each file, statement by statement."""
        program = _errors.whole_path()
        calls = [(program, path, record, self.columns, self.options, statement)
                 for statement in statements for path, record in self.files]
        for call, reply in zip(calls, self.cluster.replies(calls)):
            yield self.answer(call[1], reply)

    def answer(self, path: str, reply: Reply) -> bytes:
        """Returns the result of a reply. Raises what it reports."""
        status, told, answer = reply
        if is_of_statement(reply):
            raise Refused(told.rstrip("\n"))
        lines = "\n".join(f"{path}: {line}" for line in told.splitlines())
        if status:
            raise Failed(lines, status=status)
        self.tell(lines)
        return answer

    def close(self) -> None:
        self.cluster.close()

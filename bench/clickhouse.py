"""Queries ClickHouse, with one thread, over a table in its memory. `bench.py session` times it if
Debian's clickhouse-server is installed. The server runs in its own folder, listens only on
127.0.0.1, and ends with the run."""
import http.client
import pathlib
import shutil
import subprocess
import sys
import tempfile
import time
from typing import Dict, Iterator, Optional, Sequence, Tuple

PORT = 18123
CONFIG = f"""<yandex>
<logger><level>error</level><log>{{folder}}/log</log><errorlog>{{folder}}/errors</errorlog></logger>
<http_port>{PORT}</http_port><listen_host>127.0.0.1</listen_host>
<path>{{folder}}/data/</path><tmp_path>{{folder}}/tmp/</tmp_path>
<users_config>{{folder}}/users.xml</users_config>
<mark_cache_size>5368709120</mark_cache_size>
<default_profile>default</default_profile><default_database>default</default_database>
</yandex>
"""
USERS = """<yandex><profiles><default><max_threads>1</max_threads></default></profiles>
<users><default><password></password><networks><ip>127.0.0.1</ip></networks>
<profile>default</profile><quota>default</quota>
</default></users><quotas><default/></quotas></yandex>
"""
TABLE = "CREATE TABLE m (a UInt8, b Nullable(Int8), c UInt32, d Nullable(UInt32)) ENGINE = Memory"


class Server:
    """A server with one thread, and a connection to it."""

    def __init__(self, folder: pathlib.Path) -> None:
        """Starts a server, whose files are in a folder."""
        program = shutil.which("clickhouse-server") or "/usr/sbin/clickhouse-server"
        self.connection: Optional[http.client.HTTPConnection] = None
        for name, text in (("config.xml", CONFIG), ("users.xml", USERS)):
            (folder / name).write_text(text.format(folder=folder), encoding="ascii")
        words = [program, f"--config-file={folder}/config.xml"]
        self.process = subprocess.Popen(words, stdin=subprocess.DEVNULL, stdout=subprocess.DEVNULL,
                                        stderr=subprocess.DEVNULL)

    def wait(self) -> None:
        """Waits until the server answers."""
        for _ in range(300):
            try:
                self.ask("SELECT 1")
                return
            except OSError:
                self.connection = None
            if self.process.poll() is not None:
                sys.exit(f"clickhouse-server ended with status {self.process.returncode}")
            time.sleep(0.1)
        sys.exit("clickhouse-server doesn't answer")

    def ask(self, statement: str, rows: Optional[Iterator[bytes]] = None) -> str:
        """Returns the server's result as CSV. Rows are sent after the statement, a part at a
        time."""
        if self.connection is None or rows is not None:
            self.connection = http.client.HTTPConnection("127.0.0.1", PORT, timeout=300)
        if rows is None:
            self.connection.request("POST", "/", (statement + " FORMAT CSV").encode())
        else:
            self.connection.request("POST", "/?query=" + statement.replace(" ", "%20"), rows,
                                    encode_chunked=True,
                                    headers={"Transfer-Encoding": "chunked"})
        answer = self.connection.getresponse()
        text = answer.read().decode()
        if answer.status != 200:
            sys.exit(f"clickhouse-server: {text}")
        return text

    def end(self) -> None:
        self.process.terminate()
        self.process.wait()


def lines_of(path: pathlib.Path) -> Iterator[bytes]:
    """Yields the rows of a CSV file without its heading, many at a time, with nulls as ClickHouse
    spells them."""
    with open(path, "rb") as file:
        file.readline()
        while part := file.read(1 << 20):
            # an empty field would be 0 in ClickHouse
            yield (part + file.readline()).replace(b"NULL", b"\\N").replace(b",\n", b",\\N\n")


def in_clickhouse(csv: pathlib.Path, questions: Sequence[Tuple[str, str]], runs: int
                  ) -> Optional[Dict[str, Tuple[float, str]]]:
    """Returns for each question the minimum time of `runs` calls, in milliseconds, and the lines of
    the result. Returns None if ClickHouse isn't installed."""
    if not (shutil.which("clickhouse-server") or
            pathlib.Path("/usr/sbin/clickhouse-server").exists()):
        return None
    with tempfile.TemporaryDirectory(prefix="clickhouse-") as name:
        server, found = Server(pathlib.Path(name)), {}
        try:
            server.wait()
            server.ask("CREATE DATABASE IF NOT EXISTS default")
            server.ask(TABLE, iter(()))
            server.ask("INSERT INTO m FORMAT CSV", lines_of(csv))
            for question, asked in questions:
                times = []
                for _ in range(runs):
                    begun = time.perf_counter()
                    text = server.ask("SELECT " + asked)
                    times.append((time.perf_counter() - begun) * 1000)
                found[question] = min(times), text.replace("\\N", "NULL").strip()
        finally:
            server.end()
    return found

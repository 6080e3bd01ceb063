"""Times bw-import and the tools beside it.

A log of a web server has 11 columns of times, texts, whole numbers and decimals, 165 bytes a row.
The result of 3 columns of all rows is timed beside Python's csv module, which cuts the first 3
fields of each record of the same result. With --beside it times bw-import beside sqlite3's
`.import` on tables of Debian's packages (tor-geoipdb, unicode-data, apt's own lists), on a list of
files, and on made-up ones: processor seconds, and the ratio of their minima. A TABLE is one of
their names. With --columnar it times imports by columns beside those by rows, in their place."""
from __future__ import annotations

import argparse
import csv
import datetime
import pathlib
import random
import sys
from typing import Dict, Iterator, Sequence

import debian
from data import complete
from timing import TOP, Run, Words, peak_of, run, run_in_turn, show

RUNS, ROWS = 3, 300_000
TOOLS = TOP / "python" / "bin"
HEADINGS = "time,host,method,path,status,bytes,seconds,agent,country,user,referrer".split(",")
CUT = """import csv, sys
out = csv.writer(sys.stdout, lineterminator="\\n")
out.writerows(row[:3] for row in csv.reader(sys.stdin))"""


def add_options(parser: argparse.ArgumentParser) -> None:
    """Adds the options of this comparison."""
    parser.add_argument("--beside", action="store_true", help="beside sqlite3's .import")
    parser.add_argument("--columnar", action="store_true", help="imports by columns, by rows")
    parser.add_argument("tables", metavar="TABLE", nargs="*", help="tables for --beside")


def log_rows(count: int) -> Iterator[Sequence[object]]:
    """Yields the rows of a log, the same each time. The country NA is a text, and half of the users
    are null."""
    draw, moment = random.Random(11), datetime.datetime(2024, 5, 1)
    hosts = [".".join(str(draw.randrange(1, 255)) for _ in range(4)) for _ in range(50_000)]
    paths = [
        f"/{draw.choice(['shop', 'blog', 'api/v1', 'img'])}/{draw.randrange(10 ** 6):06}/{place}"
        for place in range(20_000)]
    systems = ["X11; Linux x86_64", "Windows NT 10.0; Win64; x64",
               "Macintosh; Intel Mac OS X 10_15_7"]
    agents = [f"Mozilla/5.0 ({system}) AppleWebKit/537.{minor}, like Gecko" for system in systems
              for minor in range(20)]
    referrers = [""] * 500 + [f"https://www.example.com/search?q={draw.randrange(10 ** 4)}"
                              for _ in range(1500)]
    countries = ["DE", "FR", "US", "NA", "GB", "IN", "BR", "JP", "ZA", ""]
    for _ in range(count):
        moment += datetime.timedelta(milliseconds=draw.randrange(1, 900))
        yield [moment.isoformat(" ", "milliseconds"), draw.choice(hosts),
               draw.choice(["GET", "GET", "GET", "POST", "PUT"]),
               draw.choice(paths), draw.choice([200, 200, 200, 200, 304, 404, 500]),
               int(draw.expovariate(1 / 20_000)),
               round(draw.expovariate(2), 3), draw.choice(agents), draw.choice(countries),
               draw.randrange(10 ** 7) if draw.random() < 0.5 else "", draw.choice(referrers)]


def write_log(path: pathlib.Path, count: int) -> None:
    """Writes the log."""
    with open(path, "w", encoding="ascii", newline="") as file:
        out = csv.writer(file, lineterminator="\n")
        out.writerow(HEADINGS)
        out.writerows(log_rows(count))


def measure(given: argparse.Namespace) -> None:
    """Prints the table."""
    if given.columnar:
        show(f"bw-import by rows and by columns, processor seconds; minimum of {given.runs}",
             ["Table", "by rows", "by columns", "ratio", "peak MB by rows", "by columns"],
             by_columns(given))
        return
    if given.beside:
        show(f"bw-import beside sqlite3's .import, processor seconds; minimum of {given.runs}",
             ["Table", "rows", "sqlite3", "bw-import", "ratio", "bw-import's peak MB"],
             beside(given))
        return
    log = complete(given.folder / f"log-{given.rows}.csv",
                   lambda path: write_log(path, given.rows))
    table, asked = given.folder / f"log-{given.rows}.bw", "SELECT time, host, method FROM t"
    ask: Words = [TOOLS / "bw-ask", table, asked]
    calls: Dict[str, Words] = {
        "`bw-to-numbers`": [TOOLS / "bw-to-numbers", log, given.folder / "log-numbers.csv"],
        "`bw-import`": [TOOLS / "bw-import", "--table", "t", log, table],
        "`bw-ask`, three columns of all rows": ask}
    found: Dict[str, Run] = {}
    for _ in range(given.runs):
        for name, words in calls.items():
            found[name] = run(words, keep=False).best(found.get(name))
        answer = complete(given.folder / f"log-{given.rows}.answer",
                          lambda path: path.write_bytes(run(ask).output))
        name = "Python's csv module cuts that result"
        found[name] = run([sys.executable, "-c", CUT], False, answer).best(found.get(name))
    show(f"A log of {given.rows:,} rows, {log.stat().st_size / 1e6:.0f} MB; minimum of "
         f"{given.runs}", ["Call", "seconds", "rows a second", "peak MB"],
         ([name, f"{each.wall / 1000:.2f}", f"{given.rows / each.wall * 1000:,.0f}",
           peak_of(calls[name]) if name in calls else ""] for name, each in found.items()))


def beside(given: argparse.Namespace) -> Iterator[Sequence[str]]:
    """Yields the line of each table."""
    for name in given.tables or debian.TABLES:
        path = debian.made(given.folder, name)
        if not path:
            yield [name, "isn't installed here", "", "", "", ""]
            continue
        theirs, ours = [], []
        database = given.folder / "beside.db"
        words: Words = [TOOLS / "bw-import", "--table", "t", path, given.folder / "beside.bw"]
        for _ in range(given.runs):
            database.unlink(missing_ok=True)
            theirs.append(run(["sqlite3", database, ".mode csv", f".import '{path}' t"]).processor)
            ours.append(run(words, keep=False).processor)
        with open(path, encoding="utf-8", newline="") as file:
            rows = sum(1 for _ in csv.reader(file)) - 1
        yield [name, f"{rows:,}", f"{min(theirs) / 1000:.2f}", f"{min(ours) / 1000:.2f}",
               f"{min(ours) / min(theirs):.1f}", peak_of(words)]


def by_columns(given: argparse.Namespace) -> Iterator[Sequence[str]]:
    """Yields the line of each table that is imported in both orders."""
    for name in given.tables or debian.TABLES:
        path = debian.made(given.folder, name)
        if not path:
            yield [name, "isn't installed here", "", "", "", ""]
            continue
        calls: Dict[str, Words] = {
            order: [TOOLS / "bw-import", *options, "--table", "t", path, given.folder / "order.bw"]
            for order, options in (("rows", ["--by-rows"]), ("columns", []))}
        found = run_in_turn(calls, given.runs, keep=False)
        rows, columns = (found[order].processor / 1000 for order in calls)
        yield [name, f"{rows:.2f}", f"{columns:.2f}", f"{columns / rows:.2f}",
               *map(peak_of, calls.values())]

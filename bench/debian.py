"""Tables of Debian's packages: each is made as a CSV file, unless it exists."""
import bz2
import csv
import datetime
import os
import pathlib
import random
import subprocess
import time
from typing import Callable, Dict, Iterator, Optional, Sequence

UNICODE, GEOIP = pathlib.Path("/usr/share/unicode"), pathlib.Path("/usr/share/tor/geoip")
FIELDS = ("Package,Version,Installed-Size,Maintainer,Architecture,Depends,Description,Homepage,"
          "Section,Priority,Filename,Size,SHA256,Tag").split(",")
YES = ("no", "yes")
Rows = Iterator[Sequence[object]]


def geoip() -> Rows:
    """Yields ranges of addresses and their countries, of tor-geoipdb."""
    yield "first", "last", "country"
    for line in GEOIP.read_text(encoding="utf-8").splitlines():
        if not line.startswith("#"):
            yield line.split(",")


def unihan() -> Rows:
    """Yields the properties of Han characters, of unicode-data."""
    yield "character", "field", "value"
    for path in sorted(UNICODE.glob("Unihan_*.bz2")):
        with bz2.open(path, "rt", encoding="utf-8") as file:
            for line in file:
                if line.strip() and not line.startswith("#"):
                    yield line.rstrip("\n").split("\t")


def packages() -> Rows:
    """Yields what apt-cache knows of all packages, with their long fields."""
    yield FIELDS
    text = subprocess.run(["apt-cache", "dumpavail"], capture_output=True,
                          check=True).stdout.decode()
    for stanza in filter(None, text.split("\n\n")):
        fields: Dict[str, str] = {}
        name = ""
        for line in stanza.split("\n"):
            if line.startswith(" "):
                fields[name] += f"\n{line}"
            elif ":" in line:
                name, _, value = line.partition(":")
                fields[name] = value.strip()
        yield [fields.get(each, "") for each in FIELDS]


def listing(most: int = 203_000) -> Rows:
    """Yields the files of this system, up to a number of them."""
    yield "mode", "links", "user", "bytes", "changed", "path"
    count = 0
    for top, folders, names in os.walk("/"):
        if top.startswith(("/proc", "/sys", "/dev", "/tmp")):
            folders.clear()
            continue
        for name in names:
            path = os.path.join(top, name)
            try:
                told = os.lstat(path)
                path.encode()
            except (OSError, UnicodeEncodeError):
                continue
            changed = time.strftime("%Y-%m-%d %H:%M:%S", time.gmtime(told.st_mtime))
            yield oct(told.st_mode)[
                2:], told.st_nlink, f"u{told.st_uid}", told.st_size, changed, path
            count += 1
            if count == most:
                return


def fertility() -> Rows:
    """Yields made-up rows in the shape of the data set Fertility of R's package AER."""
    draw = random.Random(1)
    yield "rownames,morekids,gender1,gender2,age,afam,hispanic,other,work".split(",")
    for number in range(1, 254_655):
        genders = [draw.choice(("male", "female")) for _ in range(2)]
        others = [draw.choice(YES) for _ in range(3)]
        yield (number, draw.choice(YES), *genders, draw.randrange(21, 36), *others,
               draw.randrange(53))


def million() -> Rows:
    """Yields a million distinct texts."""
    draw = random.Random(2)
    yield ("name",)
    for number in range(1_000_000):
        yield (f"{draw.choice('abcdefgh')}{draw.randrange(10 ** 11):011}x{number % 10}",)


def measures() -> Rows:
    """Yields a million distinct floats and times."""
    draw, moment = random.Random(5), datetime.datetime(2024, 1, 1)
    yield "number", "moment"
    for _ in range(1_000_000):
        moment += datetime.timedelta(milliseconds=draw.randrange(1, 900))
        yield repr(draw.gauss(0, 1000)), moment.isoformat(" ", "milliseconds")


def whole() -> Rows:
    """Yields two million ids beside whole numbers, a tenth of one column's null."""
    draw = random.Random(6)
    yield "id,a,b,c,d,e".split(",")
    for number in range(2_000_000):
        yield (10 ** 9 + number * 3, draw.randrange(100), draw.randrange(-1000, 1000),
               draw.randrange(10 ** 9), draw.randrange(5),
               draw.randrange(10 ** 6) if draw.random() < .9 else "")


TABLES: Dict[str, Callable[[], Rows]] = {
    "geoip": geoip, "Fertility": fertility, "file listing": listing, "packages": packages,
    "Unihan": unihan, "a million texts": million, "floats and times": measures,
    "whole numbers": whole}


def made(folder: pathlib.Path, name: str) -> Optional[pathlib.Path]:
    """Returns the file of a table, or None if its package isn't installed."""
    path = folder / f"{name.replace(' ', '-')}.csv"
    if not path.exists():
        if name == "geoip" and not GEOIP.exists() or name == "Unihan" and \
                not list(UNICODE.glob("Unihan_*.bz2")):
            return None
        part = path.with_suffix(".part")
        with open(part, "w", encoding="utf-8", newline="") as file:
            csv.writer(file, lineterminator="\n").writerows(TABLES[name]())
        part.rename(path)
    return path

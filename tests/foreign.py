"""Imports CSV files of other projects' tests: python3 -m tests.foreign FOLDER. The first run
fetches packages of Debian into the folder, which must be outside of the repository, by apt-get;
they need some 150 MB. Each file is imported. One that is refused is tried with the options that the
refusal names, and with those that the next refusal names. Prints how many load, by which options,
and which don't; FOLDER/report.txt has what each import reports. Exits with 1 if a field changes
without a note on its column, or if the program fails."""
from __future__ import annotations

import argparse
import collections
import contextlib
import hashlib
import io
import pathlib
import re
import shlex
import shutil
import subprocess
import sys
import tarfile
import tempfile
import traceback
from dataclasses import dataclass, field
from typing import Iterator, Sequence

import tests  # noqa: F401  finds bwtools
from bwtools._csv.dialect import BLANKS
from bwtools._errors import Refused, shown
from bwtools._inference.options import add_options, parsed
from bwtools.loader.table import Table
from tests.support import ROOT, columns_in

SUITES = ("bookworm", "trixie", "sid")
SOURCES = ("pandas miller r-cran-data.table libcommons-csv-java libtext-csv-xs-perl "
           "libtext-csv-perl libopencsv-java datamash r-cran-readxl q-text-as-data r-cran-haven "
           "golang-github-gocarina-gocsv golang-github-jszwec-csvutil seaborn dask gnumeric "
           "r-cran-tidyr r-cran-dplyr php-league-csv haskell-cassava r-cran-readr csvkit "
           "python-agate ruby-csv sqlite-utils rust-csv visidata python-tablib ocaml-csv libcsv "
           "intake node-d3-dsv csv2latex").split()
PROGRAMS = "r-cran-readr r-cran-vroom python3-statsmodels python3-sklearn".split()
ENDS = re.compile(r"\.(csv|tsv|psv|ssv)(\.(gz|bz2|xz|zip|zst))?$", re.IGNORECASE)
# what is written for a null
NULLS = ("", "NULL")
MOST_BYTES, MOST_TRIALS = 1 << 24, 60
# what looks like a number or a date, though a column of it may be one of texts
LOOSE = re.compile(r"[^\w\s]?[A-Za-z$]{0,3}\s?[-+(]?\d[\d.,:/'\s-]*\)?\s?[\w%/.]{0,6}")


def fetch(folder: pathlib.Path) -> None:
    """Downloads packages into a folder, and copies the files to import to its folder `files`."""
    apt, packages = folder / "apt", folder / "packages"
    for each in (apt / "deb-src" / "partial", apt / "deb" / "partial",
                 apt / "cache" / "archives" / "partial", packages):
        each.mkdir(parents=True, exist_ok=True)
    key = "/usr/share/keyrings/debian-archive-keyring.gpg"
    # apt takes versions of sources from binaries, if it knows these
    for kind, suites in (("deb-src", SUITES), ("deb", SUITES[:1])):
        (apt / f"{kind}.list").write_text("".join(
            f"{kind} [signed-by={key}] http://deb.debian.org/debian {suite} main\n"
            for suite in suites))

    def call(kind: str, *words: str) -> bool:
        places = (f"Dir::Etc::SourceList={apt}/{kind}.list", "Dir::Etc::SourceParts=/dev/null",
                  f"Dir::State::Lists={apt}/{kind}", f"Dir::Cache={apt}/cache",
                  "APT::Sandbox::User=root")
        options = [word for place in places for word in ("-o", place)]
        return not subprocess.run(["apt-get", *options, "--quiet=2", *words], cwd=packages,
                                  stdout=subprocess.DEVNULL, stderr=subprocess.DEVNULL,
                                  check=False).returncode

    call("deb-src", "update")
    for name in SOURCES:
        # a mirror may lack some
        if not any(call("deb-src", "source", "--tar-only", "--download-only", f"{name}/{suite}")
                   for suite in SUITES):
            print(f"no source of {name}")
    call("deb", "update")
    for name in PROGRAMS:
        if not call("deb", "download", name):
            print(f"no package {name}")
    for package in sorted(packages.iterdir()):
        unpack(package, folder / "files")


def unpack(package: pathlib.Path, to: pathlib.Path) -> None:
    """Copies the files to import of a package to a folder."""
    stream = io.BytesIO(subprocess.run(["dpkg-deb", "--fsys-tarfile", package], check=True,
                                       stdout=subprocess.PIPE).stdout) \
        if package.suffix == ".deb" else package.open("rb")
    with stream, contextlib.suppress(tarfile.ReadError), tarfile.open(fileobj=stream) as archive:
        for member in archive:
            if member.isfile() and member.size <= MOST_BYTES and ENDS.search(member.name):
                data = archive.extractfile(member)
                assert data
                path = to / package.name.partition("_")[0] / member.name.replace("/", "%")[-200:]
                path.parent.mkdir(parents=True, exist_ok=True)
                path.write_bytes(data.read())


@dataclass
class Outcome:
    """What an import of a file led to: the options, what it reported, which columns lose something
    without a note, and which are texts that look like something else; or why it was refused."""
    words: tuple[str, ...]
    refusal: str = ""
    report: str = ""
    lost: list[str] = field(default_factory=list)
    odd: list[str] = field(default_factory=list)


def import_one(path: pathlib.Path, words: tuple[str, ...]) -> Outcome:
    """Imports a file without loading its numbers."""
    parser = argparse.ArgumentParser(exit_on_error=False)
    add_options(parser)
    try:
        with tempfile.TemporaryDirectory() as folder:
            table = Table(path, parsed(parser, words), pathlib.Path(folder))
            columns = columns_in(table)
    except (Refused, argparse.ArgumentError) as refused:
        return Outcome(words, str(refused))
    with contextlib.redirect_stdout(io.StringIO()) as out:
        table.report()
    found = Outcome(words, "", out.getvalue())
    records = (record for _, record in table.source.text.records() if record)
    rows = list(records)[int(table.source.has_heading):]
    lines = found.report.splitlines()[1:]
    for place, (column, numbers) in enumerate(zip(table.columns, columns)):
        raw = [row[place] if place < len(row) else "" for row in rows]
        spelled = iter(column.kind.spell([int(each) for each in numbers if each not in NULLS]))
        back = ["" if number in NULLS else next(spelled) for number in numbers]
        note = lines[place]
        if any(is_lost(*each, note) for each in zip(raw, back)) or len(raw) != len(back):
            found.lost.append(column.name)
        texts = set(back) - {""}
        if column.kind.name == "texts" and not column.why and len(texts) > 1 and \
                sum(map(bool, map(LOOSE.fullmatch, texts))) * 2 > len(texts):
            found.odd.append(f"{column.name}: {sorted(texts)[:6]}")
    if len(columns) == 1 and any(re.search("[,;|\t]", row[0]) for row in rows):
        found.odd.append(f"one column: {[row[0][:40] for row in rows[:3]]}")
    return found


def is_lost(raw: str, back: str, note: str) -> bool:
    """Returns whether a field comes back as another one, and its column has no note on that."""
    bare = raw.strip(BLANKS)
    if raw == back or not bare and not back:
        return False
    if not back:
        return f"as {shown(bare)}" not in note
    return ("blanks dropped" if bare == back else "") not in note or \
        bare != back and not re.search("spelling changed|rounded|-0.0 in", note)


def alternatives(refusal: str) -> Iterator[tuple[str, ...]]:
    """Yields the options that a refusal names, one or more at a time. Of several columns each has
    its own."""
    parts = refusal.split("\n  ")[1:] or [refusal]
    each = [list(filter(None, map(words_in, re.split(
        r"(?:, or |; | or )(?='?--)", part[part.find("--") - (part.find("'--") >= 0):]))))
        for part in parts if "--" in part]
    for place in range(max(map(len, each), default=0)):
        yield tuple(word for found in each if found
                    for word in found[min(place, len(found) - 1)])


def words_in(text: str) -> tuple[str, ...]:
    """Returns the options at the begin of a text, as a shell has them."""
    lexer = shlex.shlex(text, posix=True, punctuation_chars=False)
    lexer.whitespace_split, lexer.commenters = True, ""
    parser, words = argparse.ArgumentParser(), list[str]()
    add_options(parser)
    known = {name: action for action in parser._actions for name in action.option_strings}
    with contextlib.suppress(ValueError):
        word = lexer.get_token()
        while word and word.startswith("--"):
            name = word.partition("=")[0].rstrip(",;")
            if name not in known:
                break
            words.append(word.rstrip(",;") if word != name else name)
            if known[name].nargs != 0 and "=" not in word:
                value = lexer.get_token() or ""
                value = value[:-1] if len(value) > 1 and value[-1] in ",;" else value
                words.append(re.sub("=N$", "=0", value))
            word = lexer.get_token()
    return tuple(words)


def attempts(path: pathlib.Path) -> list[Outcome]:
    """Returns the import of a file without options and, if it is refused, those that were tried, of
    which the last one loads it if one does."""
    found = list[Outcome]()
    waiting: list[tuple[str, ...]] = [()]
    while waiting and len(found) < MOST_TRIALS and not (found and not found[-1].refusal):
        words = waiting.pop()
        found.append(import_one(path, words))
        if "pipe it, as zstd -dc FILE" in found[-1].refusal and shutil.which("zstd"):
            with tempfile.NamedTemporaryFile() as plain:
                subprocess.run(["zstd", "-dc", path], stdout=plain, check=True)
                found += attempts(pathlib.Path(plain.name))
            found[-1].words = ("zstd", "-dc", *found[-1].words)
        # the options that are named first are tried first, with all that follows
        more = [(*words, *each) for each in alternatives(found[-1].refusal)
                if not set(each) <= set(words)]
        waiting += [each for each in more[::-1] if len(each) < 60]
    return found


def distinct(folder: pathlib.Path) -> Iterator[pathlib.Path]:
    """Yields the files to import, of equal ones the first."""
    seen = set()
    for path in sorted(folder.rglob("*")):
        if path.is_file() and path.stat().st_size:
            key = hashlib.sha256(path.read_bytes()).digest()
            if key not in seen:
                seen.add(key)
                yield path


def main(words: Sequence[str]) -> int:
    parser = argparse.ArgumentParser(description=__doc__)
    parser.add_argument("folder", type=pathlib.Path)
    folder = parser.parse_args(words).folder.resolve()
    if ROOT == folder or ROOT in folder.parents:
        parser.error("the folder must be outside of the repository")
    if not (folder / "files").exists():
        fetch(folder)
    counts, bad = collections.Counter[str](), 0
    with open(folder / "report.txt", "w", encoding="utf-8", errors="replace") as out:
        for path in distinct(folder / "files"):
            name = f"{path.parent.name}/{path.name.rpartition('%')[2]}"
            try:
                tried = attempts(path)
            except Exception:
                bad += 1
                print(f"FAILED {path}\n{traceback.format_exc()}")
                continue
            last = tried[-1]
            how = "refused" if last.refusal else "by an option" if last.words else "at once"
            counts[how] += 1
            bad += len(last.lost)
            out.write(f"=== {path}\n" + "".join(
                f"{shlex.join(each.words)}\n{each.refusal or each.report}\n" for each in tried))
            if last.words and not last.refusal:
                print(f"{name}: {shlex.join(last.words)[:150]}")
            if last.refusal:
                print(f"REFUSED {name}: {tried[0].refusal.partition(path.name)[2][:300]}")
            for what, columns in (("LOST", last.lost), ("ODD", last.odd)):
                if columns:
                    print(f"{what} {name}: {columns}"[:400])
    print(", ".join(f"{count} {how}" for how, count in counts.most_common()))
    return int(bad > 0)


if __name__ == "__main__":
    sys.exit(main(sys.argv[1:]))

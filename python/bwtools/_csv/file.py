"""A CSV file: its bytes, its encoding, its heading and its rows."""
from __future__ import annotations

import argparse
import codecs
import collections
import contextlib
import csv
import errno
import importlib
import io
import itertools
import os
import re
import shutil
import stat
import sys
import tempfile
import zlib
from dataclasses import dataclass
from typing import IO, Any, BinaryIO, Iterable, Iterator, NoReturn, Sequence

from .._errors import Refused, counted, shown
from .._identifiers import MOST_CHARACTERS, MOST_COLUMNS, MOST_ROWS, option
from .._storage.columns_file import Marks
from .._types.number_format import is_number
from . import dialect
from .dialect import NUL, SEPARATORS, Record, Signs
from .reader import Changes, Records, changes_of, reader_of, rewritten, without_runs


# The bytes of a file to read: a regular file, a pipe, or standard input; of a compressed file
# what it holds.

# the first bytes of each form, its name, and the module that opens it
FORMS = ((b"\x1f\x8b\x08", "gzip", "gzip"), (b"BZh", "bzip2", "bz2"),
         (b"\xfd7zXZ\0", "xz", "lzma"))
# what a reader may take for a table, and what to do with it
OTHERS = ((b"PAR1", "a Parquet file: write it as CSV"),
          (b"SQLite format 3\0", "a database: write its table as CSV"),
          (b"\x28\xb5\x2f\xfd", "a zstd file: pipe it, as zstd -dc FILE | bw-import - TABLE.bw"),
          (b"\x04\x22\x4d\x18", "a lz4 file: pipe it, as lz4 -dc FILE | bw-import - TABLE.bw"))
ZIP = b"PK\3\4"
AT_ONCE = 1 << 20


class Positioned(io.RawIOBase):
    """An open file with a position of its own, so that several processes can read it side by
    side."""

    def __init__(self, file: Any) -> None:
        self.file, self.position = file, 0

    def close(self) -> None:
        self.file.close()
        super().close()

    def readable(self) -> bool:
        return True

    def seekable(self) -> bool:
        return True

    def fileno(self) -> int:
        number: int = self.file.fileno()
        return number

    def seek(self, offset: int, whence: int = os.SEEK_SET) -> int:
        bases = {os.SEEK_SET: 0, os.SEEK_CUR: self.position}
        end = os.fstat(self.fileno()).st_size
        self.position = offset + (bases[whence] if whence in bases else end)
        return self.position

    def readinto(self, buffer: Any) -> int:
        found = os.pread(self.fileno(), len(buffer), self.position)
        buffer[:len(found)] = found
        self.position += len(found)
        return len(found)


def name_of(path: str | os.PathLike[str]) -> str:
    """Returns the name of a file to read, for messages."""
    return "standard input" if os.fspath(path) == "-" else os.fspath(path)


def path_of(path: str | os.PathLike[str]) -> str | os.PathLike[str]:
    """Returns the path of a file to read, to compare it with others."""
    return "/dev/stdin" if os.fspath(path) == "-" else path


def open_input(path: str | os.PathLike[str]) -> BinaryIO:
    """Opens a file to read, which can be read more than once: a pipe, and what a compressed file
    holds, are copied to a temporary file. `-` is standard input. Raises Refused for a file of
    another form, or one that is compressed and damaged."""
    if os.fspath(path) != "-":
        file: BinaryIO = open(path, "rb")
    elif sys.stdin is None:
        raise Refused("standard input is closed")
    else:
        file = open(os.dup(sys.stdin.fileno()), "rb")
    if not stat.S_ISREG(os.fstat(file.fileno()).st_mode):
        file = copied(file)
    with contextlib.ExitStack() as stack:
        stack.enter_context(file)
        begin = os.pread(file.fileno(), 16, 0)
        for mark, what in OTHERS:
            if begin.startswith(mark):
                raise Refused(f"{name_of(path)} is {what}")
        if begin.startswith(ZIP):
            return member(file, name_of(path))
        for mark, name, module in FORMS:
            if begin.startswith(mark):
                # a module that a system's Python may lack, and that few files need
                return unpacked(file, name, importlib.import_module(module), name_of(path))
        stack.pop_all()
    return file


def copied(file: IO[bytes]) -> BinaryIO:
    """Returns a temporary file with the rest of a file."""
    with contextlib.ExitStack() as stack, file:
        out: Any = stack.enter_context(tempfile.TemporaryFile())
        shutil.copyfileobj(file, out, AT_ONCE)
        out.flush()
        stack.pop_all()
    found: BinaryIO = out
    return found


def member(file: BinaryIO, path: str) -> BinaryIO:
    """Returns a temporary file with the only file that a zip archive holds."""
    import shlex
    import struct
    import zipfile
    damaged = (zipfile.BadZipFile, zlib.error, struct.error, EOFError, RuntimeError, ValueError)
    try:
        with zipfile.ZipFile(file) as archive:
            names = [name for name in archive.namelist() if not name.endswith("/")]
            if "[Content_Types].xml" in names or "mimetype" in names:
                raise Refused(f"{path} is a spreadsheet: export it as CSV")
            if len(names) != 1:
                one = f", as unzip -p FILE {shlex.quote(names[0])} | bw-import - TABLE.bw" \
                    if names else ""
                raise Refused(f"{path} is a zip archive of {counted(len(names), 'file')}: pipe "
                              f"one{one}")
            with archive.open(names[0]) as text:
                return copied(text)
    except (*damaged, OSError) as error:
        # a damaged archive may have negative places
        if getattr(error, "errno", None) not in (None, errno.EINVAL):
            raise
        raise Refused(f"{path} is a zip archive, or a spreadsheet, and can't be unpacked: "
                      f"{error}") from None


def unpacked(file: BinaryIO, name: str, module: Any, path: str) -> BinaryIO:
    """Returns a temporary file with what a compressed file holds, which a module opens."""
    file.seek(0)
    damaged: tuple[type[Exception], ...] = (
        EOFError, zlib.error, getattr(module, "LZMAError", EOFError))
    try:
        # reading may raise one of these, opening doesn't
        with module.open(file) as text:
            return copied(text)
    except damaged as error:
        raise Refused(f"{path} is not a whole {name} file: {error}") from None
    except OSError as error:
        # gzip and bz2 report a damaged file as one without a number
        if error.errno is not None:
            raise
        raise Refused(f"{path} is not a whole {name} file: {error}") from None


# Which encoding a file may have that isn't of the one that was supposed, shown by what its first
# such line would become.

# UTF-8, of which a byte that isn't is read as one of cp1252; and the name of its error handler
MIXED, HANDLER = "utf-8+cp1252", "bwtools.cp1252"
EASTERN = ("shift_jis", "gb18030", "big5", "euc_jp", "euc_kr")
JAPANESE = ("shift_jis", "euc_jp")
# so many of these are named, and of so many bytes charset-normalizer can tell
MOST, ENOUGH = 3, 256
# the bytes that cp1252 has no character for
NO_CP1252 = bytes((0x81, 0x8d, 0x8f, 0x90, 0x9d))
# so many bytes of lines with other than ASCII are looked at, and so many characters are shown
LOOKED, SHOWN = 1 << 16, 20
HIGH = re.compile(b"[\\x80-\\xff]+")
KANA, HANGUL = re.compile("[\u3041-\u30ff]"), re.compile("[\uac00-\ud7af]")
WIDE = re.compile("[\u3000-\u30ff\u4e00-\u9fff\uac00-\ud7af\uff00-\uffef]")


def as_cp1252(error: UnicodeError) -> tuple[str, int]:
    """Returns the characters of bytes that aren't UTF-8, and where these end."""
    assert isinstance(error, UnicodeDecodeError)
    part = error.object[error.start:error.end]
    return part.decode("latin-1" if any(byte in part for byte in NO_CP1252) else "cp1252"), \
        error.end


codecs.register_error(HANDLER, as_cp1252)


def parts_of(encoding: str) -> tuple[str, str]:
    """Returns the codec and the error handler of an encoding."""
    return ("utf-8-sig", HANDLER) if encoding.lower() == MIXED else (encoding, "strict")


def lines_of(file: Iterable[bytes]) -> Iterator[bytes]:
    """Yields lines that have other bytes than those of ASCII."""
    left = LOOKED
    for line in file:
        if HIGH.search(line):
            yield line
            left -= len(line)
        if left < 0:
            break


def read_by(data: bytes, encoding: str) -> str | None:
    codec, errors = parts_of(encoding)
    try:
        return data.decode(codec, errors)
    except UnicodeError:
        return None


def advice(file: BinaryIO, encoding: str, line: bytes) -> str:
    """Returns the options for encodings that a file may have, and what a line of it becomes with
    each. `encoding` is the one that it hasn't."""
    file.seek(0)
    data = b"".join(lines_of(file))
    names = [name for name in encodings_of(data, encoding, has_no_cp1252(file))
             if read_by(data, name) is not None and read_by(line, name) is not None]
    use = [f"{option('--encoding', name)}, which reads {around(line, name)}" for name in names]
    return f"it may be {names[0]}: use {', or '.join(use)}, or another one"


def encodings_of(data: bytes, encoding: str, has_no: bool) -> list[str]:
    """Returns the names of encodings that some lines may have, the likely ones first."""
    western = "latin-1" if has_no else "cp1252"
    if encoding.startswith("utf-8") and is_mostly_utf8(data):
        return [MIXED]
    return [*eastern(data), western]


def has_no_cp1252(file: BinaryIO) -> bool:
    """Returns whether a file has a byte that cp1252 has no character for."""
    file.seek(0)
    parts = iter(lambda: file.read(1 << 20), b"")
    return any(byte in part for part in parts for byte in NO_CP1252)


def is_mostly_utf8(data: bytes) -> bool:
    """Returns whether most characters beyond ASCII are UTF-8."""
    wrong = data.decode("utf-8", "replace").count("\ufffd")
    return sum(byte >= 0xc2 for byte in data) > 2 * wrong


def eastern(data: bytes) -> list[str]:
    """Returns the encodings of East Asia that some lines may have. Texts of Western languages have
    one byte beyond ASCII at a time."""
    read = {name: text for name in EASTERN if (text := read_by(data, name)) is not None and
            share(WIDE, text) > .5}
    kana = [name for name in read if name in JAPANESE and share(KANA, read[name]) >= .2]
    runs = HIGH.findall(data)
    if not kana and sum(len(run) == 1 for run in runs) * 2 > len(runs):
        return []
    hangul = [name for name in read if name == "euc_kr" and share(HANGUL, read[name]) >= .95]
    # GB 18030 has characters for nearly all bytes, and people use those of GB 2312
    simple = ["gb18030"] if read_by(data, "gb2312") is not None else []
    likely = [best(data), *kana, *hangul, *simple, *EASTERN]
    return [name for name in dict.fromkeys(likely) if name in read][:MOST]


def share(pattern: re.Pattern[str], text: str) -> float:
    """Returns which part of the characters beyond ASCII of a text match a pattern."""
    return len(pattern.findall(text)) / (sum(character > "\x7f" for character in text) or 1)


def best(data: bytes) -> str:
    """Returns the encoding that charset-normalizer finds in many bytes, if it is installed."""
    if len(data) < ENOUGH:
        return ""
    try:
        normalizer = importlib.import_module("charset_normalizer")
    except ImportError:
        return ""
    found = normalizer.from_bytes(data).best()
    name: str = found.encoding if found else ""
    return {"cp932": "shift_jis", "shift_jis_2004": "shift_jis", "gb2312": "gb18030",
            "gbk": "gb18030", "cp949": "euc_kr", "johab": "euc_kr", "big5hkscs": "big5",
            "cp950": "big5"}.get(name, name)


def around(line: bytes, encoding: str) -> str:
    """Returns the first characters beyond ASCII of a line, and some around them, for a message."""
    text = (read_by(line, encoding) or "").rstrip("\r\n")
    first = next((place for place, each in enumerate(text) if each > "\x7f"), 0)
    start = max(0, first - SHOWN // 2)
    return shown(text[start:start + SHOWN])


# The text of a CSV file: its bytes, their encoding, and the signs between and around fields.

MARKS = ((b"\xef\xbb\xbf", "utf-8-sig"), (b"\xff\xfe", "utf-16"), (b"\xfe\xff", "utf-16"))
BYTES_AT_ONCE = 1 << 18
# the characters of the first rows by which the separator is chosen, and of a line after them
SAMPLE, LONGEST = 1 << 16, 1 << 20
SAID = re.compile('"?sep=(.)"?[\r\n]*', re.IGNORECASE)

csv.field_size_limit(MOST_CHARACTERS)
# newer Pythons reject numbers of many digits, unless the limit is set
getattr(sys, "set_int_max_str_digits", int)(0)


class Text:
    """The text of a file, which can be read more than once. `skipped` lines are before the heading.
    A file that is open already is `opened`."""

    def __init__(self, path: str | os.PathLike[str], given: argparse.Namespace,
                 opened: BinaryIO | None = None) -> None:
        self.path = name_of(path)
        self.file = io.BufferedReader(Positioned(opened or open_input(path)), BYTES_AT_ONCE)
        self.encoding, self.errors = parts_of(self.encoding_of(given))
        self.may_have_nul = bool(given.encoding)
        self.skipped = given.skip
        self.signs = Signs(quote=given.quote, escape=given.escape, comment=given.comment)
        said = self.said_separator()
        named = SEPARATORS.get(given.separator, given.separator) or said
        self.is_guessed = not named
        self.signs = self.signs._replace(
            separator=named or self.chosen_separator(given.heading is not False))
        # what a report says of the file
        self.written = self.signs.separator, \
            MIXED if self.errors != "strict" else self.encoding.removesuffix("-sig")
        changes = changes_of(given, self.signs.separator)
        if not changes.are_none:
            self.rewrite(changes)

    def rewrite(self, changes: Changes) -> None:
        """Has the file read as options ask."""
        def records() -> Iterator[Record]:
            return self.records(not changes.is_lenient)

        marks = self.marks()
        file = rewritten(records, self.skipped, changes, self.path)
        if marks.differ(self.marks()):
            raise Refused(f"{self.path}: the file changed while it was read")
        self.file.close()
        self.file = io.BufferedReader(Positioned(file), BYTES_AT_ONCE)
        self.encoding, self.errors, self.signs = "utf-8", "strict", Signs()

    def encoding_of(self, given: argparse.Namespace) -> str:
        """Returns the encoding: the given one, or that of the byte order mark, or UTF-8."""
        begin = self.file.read(1 << 12)
        marked = [name for mark, name in MARKS if begin.startswith(mark)]
        if NUL.encode() in begin and not marked and not given.encoding:
            raise Refused(f"{self.path} has NUL bytes, so it isn't UTF-8 text: {nul_advice(begin)}")
        found: str = given.encoding or (marked or ["utf-8"])[0]
        is_utf8 = found.lower().replace("_", "-") in ("utf-8", "utf8")
        return "utf-8-sig" if is_utf8 else found

    def marks(self) -> Marks:
        """Returns what changes if the file does."""
        return Marks(self.file)

    def decoded(self) -> io.TextIOWrapper:
        self.file.seek(0)
        try:
            text = io.TextIOWrapper(self.file, encoding=self.encoding, errors=self.errors,
                                    newline="")
        except LookupError:
            raise Refused(f"unknown encoding {self.encoding}") from None
        try:
            for _ in range(self.skipped):
                text.readline()
        except UnicodeError:
            self.undecoded()
        return text

    def said_separator(self) -> str | None:
        """Returns the separator that the first line names, as Excel's `sep=;`; the line is then
        skipped."""
        text = self.decoded()
        try:
            found = SAID.fullmatch(text.readline(16))
        except UnicodeError:
            self.undecoded()
        text.detach()
        self.skipped += int(found is not None)
        return found.group(1) if found else None

    def chosen_separator(self, has_heading: bool) -> str:
        """Returns the separator that the first rows show. Raises Refused if they show two."""
        text = self.decoded()
        try:
            first = text.read(SAMPLE)
            first += text.readline(LONGEST)
            is_cut = bool(text.read(1))
        except UnicodeError:
            self.undecoded()
        text.detach()
        found = dialect.chosen(first, self.signs, is_cut, has_heading)
        if isinstance(found, dialect.Tie):
            raise Refused(f"{self.path}: {found.told()}")
        return found

    def undecoded(self) -> NoReturn:
        """Rejects the file at the first line that isn't in the encoding."""
        self.file.seek(0)
        place, wrong, codec = "one of its bytes", b"", self.encoding.removesuffix("-sig")
        if not self.encoding.lower().startswith(("utf-16", "utf-32")):
            for number, line in enumerate(self.file, 1):
                try:
                    line.decode(codec, self.errors)
                except UnicodeError as error:
                    # not every codec names the byte
                    is_named = isinstance(error, UnicodeDecodeError)
                    byte = f", byte {getattr(error, 'start', 0) + 1}" if is_named else ""
                    place, wrong = f"line {number}{byte}", line
                    break
        raise Refused(f"{self.path}: {place} isn't {codec}: "
                      f"{advice(self.file, codec, wrong)}")

    def reader(self, lines: Iterable[str]) -> Records:
        return self.reader_by(lines, self.signs, True)

    def reader_by(self, lines: Iterable[str], signs: Signs, is_strict: bool) -> Records:
        if signs.separator == " ":
            lines = without_runs(lines, signs)
        return reader_of(lines, signs, is_strict)

    def records(self, is_strict: bool = True) -> Iterator[Record]:
        """Yields the records, each with the line at which it begins; an empty line is an empty
        record."""
        try:
            yield from self.records_by(self.signs, is_strict)
        except UnicodeError:
            self.undecoded()
        except dialect.Unreadable as error:
            self.refuse_unreadable(error)

    def refuse_unreadable(self, error: dialect.Unreadable) -> NoReturn:
        """Rejects the file for a record that isn't CSV."""
        if "contains NUL" in str(error):
            # Python before 3.11 reads none
            self.refuse_nul([NUL], error.line)
        if "field limit" in str(error):
            raise Refused(f"{self.path}: line {error.line}, or one after it, has a field of more "
                          f"than {MOST_CHARACTERS:,} characters, or one in quotes that doesn't "
                          "end: use --quote none if fields have no quotation marks around them") \
                from None
        try:
            use = dialect.quote_advice(self.records_by, self.signs, error)
        except UnicodeError:
            self.undecoded()
        raise Refused(f"{self.path}: line {error.line}: {error}{use}") from None

    def records_by(self, signs: Signs, is_strict: bool) -> Iterator[Record]:
        """Yields the records as signs, and whether it is strict, have them read."""
        text, before = self.decoded(), 0
        reader = self.reader_by(text, signs, is_strict)
        try:
            for record in reader:
                yield self.skipped + before + 1, record
                before = reader.line_num
        except csv.Error as error:
            raise dialect.Unreadable(self.skipped + before + 1, error) from None
        finally:
            # the file may be closed by now
            with contextlib.suppress(ValueError):
                text.detach()

    def refuse_nul(self, record: list[str], line: int) -> None:
        """Rejects a record with a NUL, unless the encoding was given."""
        text = "".join(record)
        if NUL in text and not self.may_have_nul:
            line += text.count("\n", 0, text.index(NUL))
            raise Refused(f"{self.path}: line {line} has a NUL, so it isn't text: if it is, name "
                          f"its encoding, such as --encoding {self.encoding.removesuffix('-sig')}")


def nul_advice(begin: bytes) -> str:
    """Returns which encoding a text with NUL bytes may have."""
    odd, even = begin[1::2].count(0), begin[::2].count(0)
    if max(odd, even) > len(begin) // 4:
        name = "utf-16-le" if odd > even else "utf-16-be"
        return f"it may be {name}: use --encoding {name}, or another one"
    return "if it is text, name its encoding by --encoding"


# The CSV file to read: its heading, and its rows where bw doesn't read them.


@dataclass
class RowCounts:
    """How many rows there are, how many empty lines and comments were skipped, and how many short
    rows were filled."""
    rows: int = 0
    empty: int = 0
    filled: int = 0


class Source:
    """The file to read, which can be read more than once; the counts are those of the last time."""

    def __init__(self, path: str | os.PathLike[str], given: argparse.Namespace,
                 most_rows: int = MOST_ROWS, opened: BinaryIO | None = None) -> None:
        self.text = Text(path, given, opened)
        self.most_rows, self.fills = most_rows, given.fill
        self.has_heading = given.heading is not False
        self.counts = RowCounts()
        self.headings = self.read_headings()
        if given.heading is None and dialect.is_padded(self.headings):
            self.refuse_title()

    @property
    def path(self) -> str:
        """The name of the file, for messages."""
        return self.text.path

    @property
    def separator(self) -> str:
        """What separates the fields in the file."""
        return self.text.written[0]

    def read_headings(self) -> list[str]:
        """Returns the headings, or c1, c2 and so on if there are none."""
        first = next((record for _, record in self.text.records() if record), None)
        if first is None:
            raise Refused(f"{self.path}: there is no heading")
        if len(first) > MOST_COLUMNS:
            self.refuse_wide(first)
        return first if self.has_heading else [f"c{place}" for place in range(1, len(first) + 1)]

    def refuse_wide(self, first: Sequence[str]) -> NoReturn:
        """Rejects a first record of too many fields."""
        is_row = not self.has_heading or all(is_number(each.strip()) for each in first)
        use = "" if is_row == (not self.has_heading) else "--no-heading "
        use += option("--columns", "c1,c2" if is_row else ",".join(first[:2]))
        raise Refused(f"{self.path}: {len(first)} columns: a table has at most {MOST_COLUMNS}: use "
                      f"{use}, with the headings to pick")

    def refuse_title(self) -> None:
        """Rejects a file whose first record is a title with empty fields after it."""
        records = (record for record in self.text.records() if record[1])
        above = dialect.padded_title(list(itertools.islice(records, dialect.FIRST)))
        if above:
            raise Refused(f"{self.path}: the first line has {shown(self.headings[0])} and empty "
                          f"fields: use --skip {above} if it is a title, or --heading if it is "
                          "the heading")

    def rows(self) -> Iterator[list[str]]:
        """Yields the rows after the heading. Each must have as many fields as the heading."""
        return (record for _, record in self.numbered_rows())

    def numbered_rows(self) -> Iterator[tuple[int, list[str]]]:
        """Yields the rows after the heading, each with the line at which it begins."""
        self.counts, is_row, width = RowCounts(), not self.has_heading, len(self.headings)
        for line, record in self.text.records():
            if not record:
                self.counts.empty += 1
                continue
            self.text.refuse_nul(record, line)
            if is_row:
                self.counts.rows += 1
                if len(record) != width:
                    self.fill(record)
                if self.counts.rows > self.most_rows:
                    raise Refused(f"{self.path}: line {line}: a table has at most "
                                  f"{self.most_rows:,} rows: use bw-shards for more")
                yield line, record
            is_row = True

    def refuse_odd(self) -> None:
        """Rejects the file at its first record that isn't as it must be, if there is one."""
        collections.deque(self.rows(), 0)

    def fill(self, row: list[str]) -> None:
        """Fills a short row, if that was asked for, and else rejects it, as a long one."""
        missing = len(self.headings) - len(row)
        if missing < 0 or not self.fills:
            self.refuse_ragged()
        row += [""] * missing
        self.counts.filled += 1

    def refuse_ragged(self) -> NoReturn:
        """Rejects the file for its first rows of other numbers of fields than the heading."""
        dialect.refuse(self.text.records, len(self.headings), self.has_heading, self.fills,
                      self.path)

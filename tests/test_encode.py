"""`bw encode`: drawn CSV texts, beside what Python's csv and sorting make of them."""
from __future__ import annotations

import csv
import io
import pathlib
import random
import re
import struct
from collections import Counter
from typing import Any, NamedTuple, Optional

from tests.support import TestCase, bw

SEED = 20261130
TEXTS = 40
NUMBER = re.compile(rb"0|-?[1-9][0-9]*")
PIECES = [b"", b"a", b"b", b"0", b"-1", b"7", b"007", b"+7", b"-0", b"9223372036854775807",
          b"9223372036854775808", b"-9223372036854775808", b" x", b"x ", b"\xc3\xa9", b"\xff",
          b"\x00", b"1.5", b"NULL", b"null", b"A", b"aa", b"Z", b"10"]


class Dialect(NamedTuple):
    """The marks of a text, and the options that name them."""

    separator: bytes = b","
    quote: bytes = b'"'
    comment: Optional[bytes] = None

    def words(self) -> list[str]:
        words = []
        for option, mark, default in (("--separator", self.separator, b","),
                                      ("--quote", self.quote, b'"'),
                                      ("--comment", self.comment, None)):
            if mark is not None and mark != default:
                words += [option, mark.decode("ascii")]
        return words

    def field(self, field: bytes, draw: random.Random, is_only: bool) -> bytes:
        """Spells a field, in quotes where it needs them, and now and then where it doesn't."""
        marks = [self.separator, self.quote, b"\n", b"\r"] + [self.comment or b"\n"]
        needs = any(mark in field for mark in marks) or is_only and not field
        if needs or draw.random() < 0.1:
            return self.quote + field.replace(self.quote, self.quote * 2) + self.quote
        return field


def is_of_numbers(fields: list[bytes]) -> bool:
    """Returns whether a column has numbers, by the rule of FORMATS."""
    filled = [field for field in fields if field]
    if not all(NUMBER.fullmatch(field) for field in filled):
        return False
    numbers = [int(field) for field in filled]
    return not numbers or -2**63 <= min(numbers) and max(numbers) < 2**63 \
        and max(numbers) - min(numbers) < 2**63


class Selection(NamedTuple):
    """The rows and the fields that are encoded, and whether short records are filled."""

    rows: Optional[int] = None
    columns: Optional[list[int]] = None
    is_filled: bool = False

    @classmethod
    def drawn(cls, draw: random.Random, width: int, height: int) -> Selection:
        columns = draw.sample(range(width), draw.randint(1, width))
        return cls(draw.choice([None, None, 0, 1, height, draw.randrange(height + 3)]),
                   draw.choice([None, columns]), draw.random() < 0.4)

    def words(self) -> list[str]:
        return [*([] if self.rows is None else ["--rows", str(self.rows)]),
                *([] if self.columns is None else
                  ["--columns", ",".join(str(place + 1) for place in self.columns)]),
                *(["--fill"] if self.is_filled else [])]

    def of(self, rows: list[list[bytes]], width: int) -> list[list[bytes]]:
        """Returns the fields of the selected rows."""
        filled = [row + [b""] * (width - len(row)) for row in rows[:self.rows]]
        return [[row[place] for place in self.columns or range(width)] for row in filled]


def parse_fields(data: bytes) -> list[Optional[list[tuple[bytes, int]]]]:
    """Returns for each column None, or its distinct fields and how many rows have each."""
    columns, end = parse_columns(data)
    assert end == len(data)
    return columns


def parse_columns(data: bytes) -> tuple[list[Optional[list[tuple[bytes, int]]]], int]:
    """Returns the columns, and where they end."""
    assert data[:8] == b"BWFIELDS"
    at = 16

    def numbers(count: int) -> tuple[int, ...]:
        nonlocal at
        found = struct.unpack_from(f"<{count}Q", data, at)
        at += 8 * count
        return found

    columns: list[Optional[list[tuple[bytes, int]]]] = []
    for _ in range(struct.unpack_from("<Q", data, 8)[0]):
        at += 1
        if data[at - 1] == 0:
            columns.append(None)
            continue
        (count,) = numbers(1)
        counts, lengths, found = numbers(count), numbers(count), []
        for length, times in zip(lengths, counts):
            found.append((data[at:at + length], times))
            at += length
        columns.append(found)
    return columns, at


class Encoded(TestCase):
    """Texts of 0 to 1,100 rows."""

    def test_texts_are_encoded(self) -> None:
        draw, folder = random.Random(SEED), self.new_folder()
        for at in range(TEXTS):
            with self.subTest(seed=SEED, text=at):
                self.compare(folder, draw)

    def drawn_rows(self, draw: random.Random, width: int) -> list[list[bytes]]:
        pools = [draw.sample(PIECES, draw.randint(1, 6)) if draw.random() < 0.6
                 else [str(draw.randrange(-50, 2000)).encode() for _ in range(50)] + [b""]
                 for _ in range(width)]
        extra = [b'q"q', b"s,s;s", b"two\nlines", b"'"]
        for pool in pools:
            if draw.random() < 0.2:
                pool.append(draw.choice(extra))
        return [[draw.choice(pool) for pool in pools]
                for _ in range(draw.choice([0, 1, 3, 40, draw.randrange(1100)]))]

    def compare(self, folder: pathlib.Path, draw: random.Random) -> None:
        """Draws a text, and compares FIELDS and the table with what Python makes of it."""
        dialect = draw.choice([Dialect(), Dialect(b";"), Dialect(b"\t", b"'"),
                               Dialect(b",", b'"', b"#")])
        width = draw.randint(1, 5)
        heading = [f"Column {at}".encode() for at in range(width)]
        rows = self.drawn_rows(draw, width)
        selection = Selection.drawn(draw, width, len(rows))
        if selection.is_filled:
            rows = [row[:draw.randint(1, width)] for row in rows]
        end = draw.choice([b"\n", b"\r\n"])
        lines = [dialect.separator.join(dialect.field(field, draw, len(row) == 1)
                                        for field in row) + end for row in [heading, *rows]]
        if draw.random() < 0.5:
            lines[-1] = lines[-1][:-len(end)]
        rest = self.encode(folder, [*dialect.words(), *selection.words()], lines,
                           selection.of(rows, width), selection.rows)
        if rest is not None and selection.rows is not None:
            others = [lines[0], *([rest] if rest else [])]
            self.encode(folder, [*dialect.words(), *selection._replace(rows=None).words()],
                        others, selection._replace(rows=None).of(rows[selection.rows:], width))

    def encode(self, folder: pathlib.Path, options: list[str], lines: list[bytes],
               rows: list[list[bytes]], limit: Optional[int] = None) -> Optional[bytes]:
        """Compares what a text is encoded as with rows. Returns what is left of it by a limit."""
        text = b"".join(lines)
        (folder / "text.csv").write_bytes(text)
        words = ["encode", *options, "text.csv", "table.bw", "fields"]
        self.assertEqual(bw(*words, cwd=folder), (0, "", ""))
        data = (folder / "fields").read_bytes()
        lists, end = parse_columns(data)
        self.assert_table(folder, rows, lists)
        if limit is None:
            self.assertEqual(end, len(data))
            return None
        (stop,) = struct.unpack("<Q", data[end:])
        wanted = len(b"".join(lines[:limit + 1]))
        if limit + 1 < len(lines) and text[wanted - 2:wanted] == b"\r\n":
            wanted -= 1
        self.assertEqual(stop, wanted)
        return text[stop:]

    def assert_table(self, folder: pathlib.Path, rows: list[list[bytes]],
                     lists: list[Optional[list[tuple[bytes, int]]]]) -> None:
        width = len(lists)
        wanted: list[list[Any]] = []
        for column, found in zip(zip(*rows) if rows else [[]] * width, lists):
            fields = list(column)
            self.assertEqual(found is None, is_of_numbers(fields), fields[:20])
            if found is None:
                wanted.append([field.decode() or "NULL" for field in fields])
                continue
            self.assertEqual(found, sorted(Counter(fields).items()))
            places = {field: place for place, (field, _) in enumerate(found)}
            wanted.append([str(places[field]) for field in fields])
        self.assertEqual(len(wanted), width)
        table = [[f"c{at + 1}" for at in range(width)], *map(list, zip(*wanted))]
        self.assertEqual(bw("dump", "table.bw", cwd=folder).out,
                         "".join(",".join(row) + "\n" for row in table))

    def test_python_reads_the_same_records(self) -> None:
        """Texts of random marks, beside Python's csv, which agrees on them."""
        draw, folder = random.Random(SEED + 1), self.new_folder()
        for _ in range(TEXTS):
            lines = ["a,b\n", '"a",b\n', '"a,""b",c\n', ",\n", '1,"2\n3"\n']
            text = "h,i\n" + "".join(draw.choices(lines, k=draw.randrange(30)))
            (folder / "text.csv").write_text(text, encoding="ascii")
            self.assertEqual(bw("encode", "text.csv", "table.bw", "fields", cwd=folder).status, 0)
            rows = list(csv.reader(io.StringIO(text)))[1:]
            lists = parse_fields((folder / "fields").read_bytes())
            for column, found in zip(zip(*rows), lists):
                if found is not None:
                    counted = sorted(Counter(field.encode() for field in column).items())
                    self.assertEqual(found, counted)

    def test_comments(self) -> None:
        """One without a line feed is a record of one empty field."""
        folder = self.new_folder()
        for text, rows in (("#b\na\n1\n#2\n", ["1"]), ("a\n1\n#2\r3\n4\n", ["1", "4"]),
                           ("a\n1\n#2", ["1", "NULL"]), ("a\n1\n#2\r3", ["1", "NULL"])):
            (folder / "text.csv").write_bytes(text.encode())
            done = bw("encode", "--comment", "#", "text.csv", "t.bw", "fields", cwd=folder)
            self.assertEqual(done, (0, "", ""), text)
            self.assertEqual(bw("dump", "t.bw", cwd=folder).out, "\n".join(["c1", *rows, ""]))
        (folder / "text.csv").write_text("a,b\n1,2\n#", encoding="ascii")
        done = bw("encode", "--comment", "#", "text.csv", "t.bw", "fields", cwd=folder)
        self.assertEqual(done, (3, "", "bw: 203 record length at record 2\n"))

    def test_errors(self) -> None:
        folder = self.new_folder()
        for text, options, error in (
                ("", [], "201 no heading at record 0"),
                ("a,b\n1\n", [], "203 record length at record 1"),
                ("a,b\n1,2\n1,2,3\n", [], "203 record length at record 2"),
                ('a\n"1"2\n', [], "209 csv fault at record 1"),
                ('a\n"1\n', [], "209 csv fault at record 1"),
                ("a,b\n1,2,3\n", ["--fill"], "203 record length at record 1"),
                ("a,b\n1,2\n1\n", ["--rows", "2"], "203 record length at record 2"),
                ('a\n1\n"1\n', ["--rows", "2"], "209 csv fault at record 2"),
                ("a,b\n1,2\n", ["--columns", "1,3"], "105 number of columns at record 0"),
                (",".join(["a"] * 65) + "\n", [], "105 number of columns at record 0")):
            with self.subTest(text=text[:20]):
                (folder / "text.csv").write_text(text, encoding="ascii")
                done = bw("encode", *options, "text.csv", "table.bw", "fields", cwd=folder)
                self.assertEqual(done, (3, "", f"bw: {error}\n"))
                self.assertFalse((folder / "fields").exists() or (folder / "table.bw").exists())
        (folder / "text.csv").write_text('a\n"1"2\n"3\n', encoding="ascii")
        done = bw("encode", "--lenient", "text.csv", "table.bw", "fields", cwd=folder)
        self.assertEqual(done, (0, "", ""))
        for text, options in (("a,b\n1,2\n1\n", ["--rows", "1"]), ('a\n1\n"1\n', ["--rows", "1"]),
                              ("a,b\n1\n", ["--fill"]),
                              (",".join(["a"] * 65) + "\n", ["--columns", "65,1"])):
            (folder / "text.csv").write_text(text, encoding="ascii")
            done = bw("encode", *options, "text.csv", "table.bw", "fields", cwd=folder)
            self.assertEqual(done, (0, "", ""), text[:20])
        before = (folder / "text.csv").read_bytes()
        for files in (["text.csv", "text.csv", "f"], ["text.csv", "t.bw", "text.csv"],
                      ["text.csv", "same", "same"], ["text.csv", "t.bw", "./t.bw"]):
            (folder / "t.bw").write_bytes(b"")
            self.assertEqual(bw("encode", *files, cwd=folder).status, 2, files)
        self.assertEqual((folder / "text.csv").read_bytes(), before)
        for marks in (["--separator", ""], ["--separator", "ab"], ["--quote", ","],
                      ["--escape", '"'], ["--comment", "\n"], ["--separator", "é"]):
            done = bw("encode", *marks, "text.csv", "table.bw", "fields", cwd=folder)
            self.assertEqual(done.status, 2, marks)
        for option, values in (("--columns", ["", "0", "1,1", "1,", "x", "+1", "1 2",
                                              ",".join(map(str, range(1, 66)))]),
                               ("--rows", ["", "-1", "x", "1.0", "16777217", "99999999999"])):
            for value in values:
                done = bw("encode", option, value, "text.csv", "table.bw", "f", cwd=folder)
                self.assertEqual(done.status, 2, (option, value))
                self.assertFalse((folder / "f").exists())

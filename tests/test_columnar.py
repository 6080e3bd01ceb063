"""Files by columns: what is loaded is answered as over a table file; which damage is an error, and
of which statements; what a query reads; and files that change meanwhile."""
from __future__ import annotations

import os
import pathlib
import random
import re
import subprocess
import tempfile
import time
from typing import Callable, Iterator

from tests import drawn, support, test_files
from tests.column_files import LAYOUTS, File, dumped, outcome
from tests.second_checker import Both
from tests.support import bw

COLUMNS = drawn.MIXED
NAMES = list(COLUMNS)
ITEMS = ("COUNT(*)", "COUNT(x), SUM(x)", "MIN(b), MAX(w)", "a, b", "*", "MAX(g), COUNT(*)")
COUNT = "SELECT COUNT(*) FROM t"
# the most bytes that are read of a header; and what may differ by the system's own reads, which is
# less than a block
MOST_HEADER, NOISE = 20_000, 256
FAILED = "bw: 701 read failed (status 5)"


def schema_text() -> str:
    lines = [f"COLUMN {name} {low} {high}{'' if nullable else ' NOT NULL'}\n"
             for name, (low, high, nullable) in COLUMNS.items()]
    return "TABLE t\n" + "".join(lines)


class Loaded(support.TestCase):
    """A drawn table in both orders, over which statements are drawn."""

    def setUp(self) -> None:
        self.folder = self.new_folder()
        self.chance = random.Random(95)
        (self.folder / "t.schema").write_text(schema_text(), encoding="utf-8")

    def load(self, count: int, layout: str) -> tuple[pathlib.Path, pathlib.Path]:
        """Loads drawn rows. Returns the table file, and the file by columns."""
        self.rows = drawn.whole_rows(self.chance, COLUMNS, drawn.NEAR, count)
        text = "".join(",".join(map(str, row)) + "\n" for row in [NAMES, *self.rows])
        (self.folder / "t.csv").write_text(text, encoding="utf-8")
        by_rows, by_columns = self.folder / f"{layout}.bw", self.folder / f"{layout}.columns"
        for options, path in (([], by_rows), (["--columnar"], by_columns)):
            done = bw("load", *options, "--layout", layout, self.folder / "t.schema",
                      self.folder / "t.csv", path)
            self.assertEqual(done, (0, "", ""))
        return by_rows, by_columns

    def program(self, sql: str, text: str = "") -> pathlib.Path:
        """Returns a program file for a statement, of a program or of the planner's."""
        program, words = self.folder / "t.prog", (self.folder / "t.schema", sql)
        program.write_text(text, encoding="utf-8")
        done = bw("certify", *words, program) if text else bw("plan", *words)
        program.write_text(done.out, encoding="utf-8")
        self.assertEqual((done.status, done.err), (0, ""))
        return program


class Answers(Loaded):
    """The same answers, errors and dumps as over a table file."""

    def test_statements(self) -> None:
        conditions = drawn.Conditions(self.chance)
        for count in (0, 1, 511, 512, 513, 1700):
            for layout in LAYOUTS:
                by_rows, by_columns = self.load(count, layout)
                asked = [f"SELECT {self.chance.choice(ITEMS)} FROM t "
                         f"WHERE {conditions.condition(2)}"
                         for _ in range(support.sample(2, 6))]
                for sql in asked:
                    with self.subTest(sql, count=count, layout=layout):
                        self.assertEqual(bw("query", "--stats", by_rows, sql),
                                         bw("query", "--stats", by_columns, sql))
                given = ";\n".join(asked)
                # but for the counts, which are over the segments that ranges leave
                self.assertEqual(bw("session", by_rows, given=given),
                                 bw("session", by_columns, given=given))

    def test_the_bytes_are_those_of_the_page(self) -> None:
        for count in (0, 1, 512, 1100):
            for layout in LAYOUTS:
                by_rows, by_columns = self.load(count, layout)
                data, others = by_columns.read_bytes(), by_rows.read_bytes()
                file = File(data)
                self.assertEqual((file.table, file.rows, file.layout), ("t", count, layout))
                self.assertEqual([each[1:] for each in file.columns], list(COLUMNS.values()))
                self.assertEqual(data[9:file.at], others[9:file.at])
                self.assertEqual(len(data), len(others))
                wanted = [[None if value == "NULL" else value for value in row]
                          for row in self.rows]
                found = [file.values(place) for place in range(len(NAMES))]
                self.assertEqual([list(row) for row in zip(*found)], wanted)
                self.assertEqual(bw("dump", by_columns).out, dumped(data))

    def test_other_commands(self) -> None:
        for layout in LAYOUTS:
            by_rows, by_columns = self.load(700, layout)
            self.assertEqual(bw("dump", by_rows), bw("dump", by_columns))
            said = [re.sub(r"^# (version|bytes) .*$", "", bw("info", path).out, flags=re.M)
                    for path in (by_rows, by_columns)]
            self.assertEqual(*said)
            self.assertIn(f"# bytes {by_columns.stat().st_size}\n", bw("info", by_columns).out)
            text = f"{COUNT};\nSELECT q FROM t;\nSELECT MAX(x) FROM t WHERE b < 0;\n"
            for options in ((), ("--explain",)):
                self.assertEqual(bw("session", *options, by_rows, given=text),
                                 bw("session", *options, by_columns, given=text))
            for sql in ("SELECT q FROM t", "SELECT COUNT(*) FROM u", "SELECT a FROM t WHERE",
                        "SELECT a FROM t WHERE a = b", "SELECT z, z FROM t WHERE a = b OR z < 3"):
                for options in ((), ("--stats",)):
                    self.assertEqual(bw("--explain", "query", *options, by_rows, sql),
                                     bw("--explain", "query", *options, by_columns, sql))

    def test_a_dump_loads_again(self) -> None:
        for layout in LAYOUTS:
            _, by_columns = self.load(1300, layout)
            dump, again = self.folder / "dump.csv", self.folder / "again.columns"
            dump.write_text(bw("dump", by_columns).out, encoding="utf-8")
            schema = self.folder / "info.schema"
            schema.write_text(bw("info", by_columns).out, encoding="utf-8")
            bw("load", "--columnar", "--layout", layout, schema, dump, again)
            self.assertEqual(again.read_bytes(), by_columns.read_bytes())

    def test_program_files(self) -> None:
        by_rows, by_columns = self.load(600, "planes")
        sql = "SELECT SUM(y) FROM t WHERE x < 5000 AND b IS NOT NULL"
        other = "SELECT SUM(y) FROM t WHERE x < 5001 AND b IS NOT NULL"
        words = ("query", "--stats", "--program", self.program(sql))
        for asked in (sql, other):
            for explain in ((), ("--explain",)):
                self.assertEqual(bw(*explain, *words, by_rows, asked),
                                 bw(*explain, *words, by_columns, asked))
        self.assertEqual(bw(*words, by_columns, other).status, 4)
        given = f"{sql};{other}"
        words = ("session", "--stats", *words[2:])
        self.assertEqual(bw(*words, by_rows, given=given), bw(*words, by_columns, given=given))


class Damage(Loaded):
    """Errors by the file's length, its header and its blocks."""

    def damaged(self, path: pathlib.Path, place: int, byte: int) -> bytes:
        """Changes a byte of a file."""
        data = bytearray(path.read_bytes())
        data[place] = byte
        path.write_bytes(data)
        return bytes(data)

    def test_lengths(self) -> None:
        for layout, count in (("planes", 600), ("slices", 1), ("planes", 0)):
            _, path = self.load(count, layout)
            whole = path.read_bytes()
            borders = File(whole).borders()
            self.assertEqual(borders[-1], len(whole))
            ends = sorted({near for border in borders for near in (border - 1, border)
                           if 0 <= near < len(whole)})
            for number, end in enumerate(support.sample_of(ends, -(-len(ends) // 3), 95)):
                path.write_bytes(whole[:end])
                line = f"bw: 305 truncated at byte {end}\n"
                other = ("dump", "session", "info")[number % 3]
                for words in (("query", path, COUNT), (other, path)):
                    with self.subTest(words[0], layout=layout, end=end):
                        self.assertEqual(bw(*words), (3, "", line))
            for more in (b"\0", b"\0" * 64, whole):
                path.write_bytes(whole + more)
                line = f"bw: 309 bytes after the end at byte {len(whole)}\n"
                self.assertEqual(bw("query", path, COUNT), (3, "", line))

    def test_header(self) -> None:
        _, path = self.load(3, "planes")
        whole, column = path.read_bytes(), File(path.read_bytes()).fields[7]
        self.assertEqual(whole[column:column + 2], b"\1a")
        for at, byte, code in ((0, 67, 301), (8, 1, 302), (8, 3, 302), (9, 2, 303), (10, 0, 304),
                               (10, 65, 304), (15, 2, 310), (16, 0, 304), (17, 48, 304),
                               (column + 1, 48, 304), (column + 9, 1, 304),
                               (column + 17, 128, 304), (column + 18, 2, 304), (10, 6, 309),
                               (12, 0, 309), (13, 2, 305), (10, 8, 304)):
            path.write_bytes(whole)
            data = self.damaged(path, at, byte)
            wanted = outcome(data, COUNT)
            self.assertEqual(wanted[:3], str(code), (at, byte))
            for words in (("query", path, COUNT), ("dump", path), ("session", path),
                          ("info", path)):
                self.assertEqual(Both.bw(*words), wanted, (at, byte, words[0]))

    def test_blocks(self) -> None:
        """A row past the last one that isn't zero is an error at its byte, of the statements that
        need its column."""
        for layout in LAYOUTS:
            _, path = self.load(600, layout)
            whole = path.read_bytes()
            file = File(whole)
            for column, name in enumerate(NAMES):
                # the last byte of the column's second block has rows 505 to 512 of 88
                place = file.place(column, 1) + file.sizes[column] - 1
                path.write_bytes(whole)
                data = self.damaged(path, place, 128)
                done = bw("query", path, f"SELECT COUNT({name}) FROM t")
                self.assertEqual(done, (3, "", f"bw: 308 padding at byte {place}\n"))
                other = NAMES[(column + 1) % len(NAMES)]
                for sql in (f"SELECT COUNT({other}) FROM t", COUNT):
                    self.assertEqual(Both.bw("query", path, sql), outcome(data, sql))
                self.assertEqual(bw("dump", path).err, f"bw: 308 padding at byte {place}\n")

    def test_codes(self) -> None:
        """A null with a code, or a code above the maximum, is an error at its block's beginning."""
        for layout in LAYOUTS:
            _, path = self.load(600, layout)
            whole = path.read_bytes()
            file = File(whole)
            for column, (name, (_, _, nullable)) in enumerate(COLUMNS.items()):
                for segment in (0, 1):
                    place, size = file.place(column, segment), file.sizes[column]
                    block = bytearray(whole[place:place + size])
                    block[64 * nullable:] = b"\1" * (size - 64 * nullable)
                    data = whole[:place] + bytes(block) + whole[place + size:]
                    path.write_bytes(data)
                    for sql in (f"SELECT MAX({name}) FROM t", COUNT, "SELECT * FROM t"):
                        self.assertEqual(Both.bw("query", path, sql), outcome(data, sql))

    def test_first_error_is_that_of_the_first_column(self) -> None:
        _, path = self.load(600, "planes")
        file = File(path.read_bytes())
        places = [file.place(column, 1) + size - 1 for column, size in enumerate(file.sizes)]
        for place in places:
            self.damaged(path, place, 128)
        for sql, column in (("SELECT MAX(w) FROM t WHERE x < 5", 1), ("SELECT g, a FROM t", 0),
                            ("SELECT COUNT(*) FROM t WHERE z = y", 2)):
            self.assertEqual(bw("query", path, sql).err,
                             f"bw: 308 padding at byte {places[column]}\n", sql)

    def test_order_of_errors(self) -> None:
        """Header, length, statement, program, columns."""
        _, path = self.load(600, "planes")
        file = File(path.read_bytes())
        bad, sql = self.folder / "bad.prog", "SELECT MAX(a) FROM t WHERE a < 9"
        bad.write_text("LOAD r0 a 9\n", encoding="utf-8")
        self.damaged(path, file.place(0, 1) + file.sizes[0] - 1, 128)
        self.assertEqual(bw("query", path, sql).err[:8], "bw: 308 ")
        words = ("query", "--program", bad, path)
        self.assertEqual(bw(*words, sql).err[:8], "bw: 503 ")
        self.assertEqual(bw(*words, "SELECT q FROM t").err[:8], "bw: 404 ")
        path.write_bytes(path.read_bytes() + b"\0")
        self.assertEqual(bw(*words, "SELECT q FROM t").err[:8], "bw: 309 ")
        self.damaged(path, 9, 7)
        self.assertEqual(bw(*words, "SELECT q FROM t").err[:8], "bw: 303 ")

    def test_columns_of_a_program(self) -> None:
        """What a program loads is read too, whatever becomes of it."""
        by_rows, path = self.load(600, "planes")
        sql = "SELECT MAX(a) FROM t WHERE a < 9"
        program = self.program(sql, "LOAD r60 z 3\nBYTELT r0 a 0 9\nRESULT r0\n")
        words = ("query", "--stats", "--program", program)
        self.assertEqual(bw(*words, path, sql), bw(*words, by_rows, sql))
        file = File(path.read_bytes())
        place = file.place(NAMES.index("z"), 1) + 64
        self.damaged(path, place - 1, 128)
        self.assertEqual(bw("query", path, sql), bw("query", by_rows, sql))
        self.assertEqual(bw(*words, path, sql), (3, "", f"bw: 308 padding at byte {place - 1}\n"))

    def test_session(self) -> None:
        """A damaged column is the error of the statements that name it, and of no other."""
        _, path = self.load(600, "planes")
        file = File(path.read_bytes())
        place = file.place(NAMES.index("z"), 1) + 127
        data = self.damaged(path, place, 128)
        asked = [COUNT, "SELECT MAX(a) FROM t", "SELECT MAX(z) FROM t", "SELECT * FROM t", COUNT]
        done = bw("session", path, given=";".join(asked))
        self.assertIn(f"bw: 308 padding at byte {place}\n", done.err)
        self.assertEqual(done.status, 3)
        answers = re.findall(r"((?:[^\n]+\n)*)\n", done.out)
        self.assertEqual(answers, ["" if "z" in sql or "*" in sql and sql != COUNT
                                   else outcome(data, sql) for sql in asked])
        self.assertEqual(done.err.count("\n"), 2)

    def test_session_of_changed_file(self) -> None:
        """Once the file has changed, a session answers from the columns that it has read."""
        _, path = self.load(600, "planes")
        asked = [f"SELECT MAX({name}) FROM t;" for name in ("a", "z", "a")]
        with subprocess.Popen([support.BW, "session", str(path)], stdin=subprocess.PIPE,
                              stdout=subprocess.PIPE, stderr=subprocess.PIPE,
                              text=True) as session:
            assert session.stdin and session.stdout
            session.stdin.write(asked[0])
            session.stdin.flush()
            first = [session.stdout.readline() for _ in range(3)]
            path.write_bytes(path.read_bytes() + b"\0")
            out, err = session.communicate("".join(asked[1:]))
        self.assertEqual(err, "bw: 701 read failed\n")
        self.assertEqual(out, "\n" + "".join(first))
        self.assertEqual(session.returncode, 5)

    def test_explained(self) -> None:
        _, path = self.load(600, "planes")
        file, whole = File(path.read_bytes()), path.read_bytes()
        place = file.place(0, 1) + file.sizes[0] - 1
        for data, sql in ((whole[:-1], COUNT), (whole + b"x", COUNT),
                          (whole[:8] + b"\1" + whole[9:], COUNT),
                          (whole[:place] + b"\x80" + whole[place + 1:], "SELECT a FROM t")):
            path.write_bytes(data)
            for words in (("query", path, sql), ("dump", path), ("session", path)):
                plain, done = bw(*words, given=sql), bw("--explain", *words, given=sql)
                self.assertEqual(done.err.splitlines()[0] + "\n", plain.err)
                byte = plain.err.split()[-1]
                if words[0] != "session":
                    self.assertIn(f"    byte {byte} of {path}, from 0\n", done.err)
                self.assertNotIn("seems", done.err)


class Others(Loaded):
    """Recoded files, and files that have no places."""

    def test_recode(self) -> None:
        """The first error is that of the schema, the header and the length, the text of numbers,
        and then the columns, in this order; nothing is written."""
        _, path = self.load(600, "planes")
        whole, file = path.read_bytes(), File(path.read_bytes())
        numbers, out = self.folder / "numbers", self.folder / "out.bw"
        schema = self.folder / "t.schema"
        good, text = schema.read_text(encoding="ascii"), "KEEP\n" * len(COLUMNS)
        damaged = bytearray(whole)
        for column in (2, 1):
            place = file.place(column, 1) + file.sizes[column] - 1
            damaged[place] |= 128
        first = outcome(bytes(damaged), "SELECT * FROM t")
        for spelled, data, said, error in (
                ("TABLE", whole[:-1], "", "101 line form at line 1"),
                (good, whole[:-1], "", f"305 truncated at byte {len(whole) - 1}"),
                (good, whole + b"x", "", f"309 bytes after the end at byte {len(whole)}"),
                (good, bytes(damaged), text + "KEEP\n",
                 f"203 record length at line {len(COLUMNS) + 1}"),
                (good, bytes(damaged), text, f"308 padding {first[4:]}")):
            schema.write_text(spelled, encoding="ascii")
            path.write_bytes(data)
            numbers.write_text(said, encoding="ascii")
            with self.subTest(error):
                self.assertEqual(bw("recode", path, schema, numbers, out),
                                 (3, "", f"bw: {error}\n"))
                self.assertFalse(out.exists())

    def test_pipes(self) -> None:
        _, path = self.load(3, "planes")
        for words in (f"query /dev/stdin '{COUNT}'", "dump /dev/stdin", "info /dev/stdin"):
            done = support.sh(f"cat {path.name} | '{support.BW}' {words}", self.folder)
            self.assertEqual((done.status, done.out, done.err), (5, "", "bw: 701 read failed\n"))
        words = f"'{support.BW}' --explain dump /dev/stdin"
        told = support.sh(f"cat {path.name} | {words}", self.folder)
        self.assertIn("/dev/stdin is a pipe; a file by columns is read at places", told.err)

    def test_pipes_of_other_files(self) -> None:
        """A pipe of a table file is read from its first byte on, one of few bytes too."""
        by_rows, _ = self.load(1500, "slices")
        done = support.sh(f"cat {by_rows.name} | '{support.BW}' dump /dev/stdin", self.folder)
        self.assertEqual(done, bw("dump", by_rows))
        for count in range(10):
            done = support.sh(f"head -c {count} {by_rows.name} | '{support.BW}' info /dev/stdin",
                              self.folder)
            self.assertEqual((done.status, done.out), (3, ""))
            self.assertEqual(done.err, f"bw: 305 truncated at byte {count}\n")

    def test_standard_input(self) -> None:
        """A file that is standard input has places."""
        by_rows, path = self.load(700, "planes")
        done = support.sh(f"'{support.BW}' dump /dev/stdin < {path.name}", self.folder)
        self.assertEqual(done, bw("dump", by_rows))

    def test_loads(self) -> None:
        """A refused load leaves OUT as it was."""
        _, path = self.load(3, "planes")
        whole = path.read_bytes()
        (self.folder / "t.csv").write_text(",".join(NAMES) + "\n256,,0,,,0,\n", encoding="ascii")
        done = bw("load", "--columnar", self.folder / "t.schema", self.folder / "t.csv", path)
        self.assertEqual((done.status, done.err), (3, "bw: 205 out of range at record 1\n"))
        self.assertEqual(path.read_bytes(), whole)


class Reading(Loaded):
    """A query reads the header, and the columns that it needs."""

    def read_by(self, *words: object, given: str = "", status: int = 0) -> int:
        """Returns how many bytes a call of bw read, as the system counts them."""
        with tempfile.TemporaryFile() as out, tempfile.TemporaryFile() as source:
            source.write(given.encode())
            source.seek(0)
            process = subprocess.Popen([support.BW, *map(str, words)], stdin=source,
                                       stdout=out, stderr=out)
            os.waitid(os.P_PID, process.pid, os.WEXITED | os.WNOWAIT)
            try:
                counts = pathlib.Path(f"/proc/{process.pid}/io").read_text(encoding="ascii")
            except OSError:
                self.skipTest("bytes that are read: needs /proc/PID/io")
            finally:
                process.wait()
            self.assertEqual(process.returncode, status)
        return int(counts.split()[1])

    def test_bytes_read(self) -> None:
        _, path = self.load(0, "planes")
        start = self.read_by("query", path, COUNT) - path.stat().st_size
        _, path = self.load(5000, "planes")
        file, header = File(path.read_bytes()), self.read_by("query", path, COUNT)
        self.assertLessEqual(header - start, MOST_HEADER + NOISE)
        for sql, needed in (
                ("SELECT MAX(a) FROM t", "a"), ("SELECT a FROM t WHERE b < 3 OR g = 0", "abg"),
                ("SELECT COUNT(*) FROM t WHERE x IN (1, 5) AND NOT z BETWEEN 3 AND 9", "xz"),
                ("SELECT * FROM t", "".join(NAMES)), ("SELECT w, w FROM t WHERE w = 7", "w"),
                ("SELECT COUNT(*) FROM t WHERE 1 = 1", "")):
            wanted = sum(file.sizes[NAMES.index(name)] for name in needed) * file.segments
            with self.subTest(sql):
                self.assertAlmostEqual(self.read_by("query", path, sql) - header, wanted,
                                       delta=NOISE)
        self.assertAlmostEqual(self.read_by("dump", path) - header, file.end - file.at, delta=NOISE)
        self.assertLessEqual(self.read_by("info", path), header + NOISE)

    def test_sessions(self) -> None:
        """A session reads a column once, a damaged one too."""
        _, path = self.load(5000, "planes")
        whole, file = bytearray(path.read_bytes()), File(path.read_bytes())
        size = file.sizes[NAMES.index("z")] * file.segments
        for damage, status in ((0, 0), (128, 3)):
            whole[file.place(NAMES.index("z"), file.segments - 1) + 127] |= damage
            path.write_bytes(whole)
            none, one, many = (self.read_by("session", path, given=COUNT + given, status=state)
                               for given, state in (("", 0), (";SELECT MAX(z) FROM t", status),
                                                    (";SELECT MAX(z) FROM t" * 9, status)))
            self.assertAlmostEqual(one - none, size, delta=NOISE)
            self.assertAlmostEqual(many, one, delta=NOISE)


class Changing(Loaded):
    """Files that change while they are read."""

    def setUp(self) -> None:
        super().setUp()
        try:
            subprocess.run(["true"], preexec_fn=lambda: test_files.ptrace(test_files.TRACE_ME),
                           check=False)
        except subprocess.SubprocessError:
            self.skipTest("files that change: let processes trace their children")

    def aged(self, path: pathlib.Path, data: bytes) -> None:
        path.write_bytes(data)
        os.utime(path, (time.time() - 3600,) * 2)

    def changes(self, path: pathlib.Path, one: bytes, other: bytes
                ) -> Iterator[tuple[str, Callable[[], object], str]]:
        """Yields what may become of a file, and what a call then prints; nothing for the answer."""
        new = self.folder / "new"
        new.write_bytes(other)
        yield "has another table's bytes", lambda: test_files.rewrite(path, other), FAILED
        yield "is written again", lambda: test_files.rewrite(path, one), FAILED
        yield "gets a byte more", lambda: test_files.rewrite(path, b"x", len(one)), FAILED
        yield "is replaced", lambda: os.replace(new, path), ""
        yield "is removed", lambda: os.unlink(path), ""

    def test_calls(self) -> None:
        _, path = self.load(3000, "planes")
        other = path.read_bytes()
        _, path = self.load(3000, "planes")
        one = path.read_bytes()
        self.assertEqual(len(one), len(other))
        sums = "SELECT SUM(x), SUM(w) FROM t"
        # the reads are of the magic, of the header, and of the columns' blocks
        for words, reads in ((("query", path, sums), (2, 3, 4)), (("dump", path), (2, 3, 4)),
                             (("info", path), (2,))):
            self.aged(path, one)
            answer = test_files.bw(*words)
            for read in reads:
                for what, change, wanted in self.changes(path, one, other):
                    self.aged(path, one)
                    came = test_files.bw_meanwhile(path, change, *words, read=read,
                                                   call=test_files.READ_AT)
                    with self.subTest(words[0], what=what, read=read):
                        self.assertEqual(came, wanted or answer)

    def test_explained(self) -> None:
        _, path = self.load(3000, "planes")
        whole = path.read_bytes()
        self.aged(path, whole)
        came = test_files.bw_meanwhile(path, lambda: test_files.rewrite(path, whole), "--explain",
                                       "query", path, "SELECT SUM(x) FROM t", read=3,
                                       call=test_files.READ_AT)
        self.assertEqual(came, f"bw: 701 read failed/    {path} changed while it was read "
                               "(status 5)")

    def test_cut(self) -> None:
        """A file that is cut meanwhile is an error, whichever."""
        _, path = self.load(3000, "planes")
        whole = path.read_bytes()
        for read in (2, 3, 4):
            self.aged(path, whole)
            came = test_files.bw_meanwhile(path, lambda: os.truncate(path, len(whole) // 3), "dump",
                                           path, read=read, call=test_files.READ_AT)
            self.assertRegex(came, r"\Abw: (701|305) .* \(status [35]\)\Z")

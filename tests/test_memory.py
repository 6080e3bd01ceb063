"""Memory: allocations refused, each or a sample, the peak of calls beside a bound, and the stack
that deeply nested conditions need."""
import json
import os
import re
import resource
import shutil
import subprocess
import sys
import unittest
from unittest import mock

from tests import support
from tests.support import BW, ROOT

# what a call may use beside its data: 2 MB were measured, and other systems may count more
SPARE = 8 << 20
# the stack in bytes, in which conditions of 100 nested brackets are run: docs/PROMISES.md names it
STACK = 512 << 10

SQL = "SELECT COUNT(*), SUM(cents) FROM trips WHERE minutes < 8 AND rating IS NOT NULL"
ROWS = "SELECT cents, rating FROM trips WHERE start_station = end_station"
PLAN = ["plan", "trips.schema", SQL]
CALLS = [
    ("version", ["--version"]), ("help", ["query", "--help"]),
    ("direct", ["direct", "trips.schema", "trips.csv", SQL]),
    ("infer", ["infer", "--table", "trips", "trips.csv"]),
    ("load", ["load", "trips.schema", "trips.csv", "OUT"]),
    ("encode", ["encode", "--fill", "--columns", "3,1", "--rows", "900", "trips.csv", "OUT",
                "fields"]),
    ("query", ["query", "--stats", "trips.bw", SQL]),
    ("query of rows", ["query", "trips.bw", ROWS]),
    ("query by a file", ["query", "--program", "trips.prog", "trips.bw", SQL]),
    ("dump", ["dump", "trips.bw"]), ("info", ["info", "trips.bw"]), ("plan", PLAN),
    ("check", ["check", "trips.schema", SQL, "trips.prog"]),
]
# The first is rejected, and the next is scanned by the program of a file, which is then kept for
# the equal condition after it.
STATEMENTS = ["SELECT zz FROM trips", SQL, SQL.replace("SUM", "MAX"), ROWS,
              "SELECT COUNT(*) FROM trips"]
REFUSED = b"bw: 801 out of memory"
# the first twenty allocations are refused, and one in so many of the others
EVERY = 1 if support.IS_WHOLE else 6


class Refusing(support.TestCase):
    """A folder in which calls are run whose allocations are refused."""

    @classmethod
    def setUpClass(cls):
        compiler = shutil.which(os.environ.get("CC", "cc"))
        if not compiler:
            raise unittest.SkipTest("refused allocations: install a C compiler, as gcc")
        cls.folder = cls.new_class_folder()
        # LD_PRELOAD takes no path with a blank
        subprocess.run([compiler, "-O1", "-shared", "-fPIC", "-o", cls.folder / "refusing.so",
                        ROOT / "tests" / "refusing.c", "-ldl"], check=True)
        for end in ("schema", "csv"):
            lines = (ROOT / "examples" / f"trips.{end}").read_bytes().splitlines(True)
            (cls.folder / f"trips.{end}").write_bytes(b"".join(lines[:1200]))
        support.bw("load", "trips.schema", "trips.csv", "trips.bw", cwd=cls.folder)
        (cls.folder / "trips.prog").write_text(support.bw(*PLAN, cwd=cls.folder).out)

    def outcomes(self, words, given=b""):
        """Returns what a call did: its status, output, errors, and OUT; and for each refusal which
        it was, and what it did."""
        out, log = self.folder / "OUT", self.folder / "log"
        out.write_bytes(b"as it was")
        log.write_bytes(b"")
        (self.folder / "given").write_bytes(given)
        paths = [self.folder / name for name in ("given", "out", "err")]
        with paths[0].open("rb") as stdin, paths[1].open("w+b") as stdout, \
                paths[2].open("w+b") as stderr:
            status = subprocess.run([BW, *words], cwd=self.folder, stdin=stdin, stdout=stdout,
                                    stderr=stderr, check=False, timeout=support.LONGEST,
                                    env={**os.environ, "LD_PRELOAD": "./refusing.so",
                                         "LOG": str(log), "OUT": str(out),
                                         "EVERY": str(EVERY)}).returncode
        whole = (status, paths[1].read_bytes(), paths[2].read_bytes(), out.read_bytes())
        data, at, found = log.read_bytes(), 0, []
        while at < len(data):
            end = data.index(b"\n", at)
            number, later, status, *sizes = map(int, data[at:end].split())
            parts, at = [], end + 1
            for size in sizes:
                parts.append(data[at:at + size])
                at += size
            found.append((f"allocation {number}{' and later ones' * later}", (status, *parts)))
        # two of each
        self.assertGreaterEqual(len(found), 40)
        return whole, found


@support.each(CALLS)
class Calls(Refusing):
    """If memory is refused, a call ends with status 6 and the line of error 801, with nothing on
    standard output and OUT unchanged, or does the same as without a refusal."""

    def check(self, _, words):
        whole, found = self.outcomes(words)
        self.assertIn(whole[0], (0, 2))
        wrong = [f"{which}: status {came[0]}, {len(came[1])} bytes out, OUT {came[3][:20]}, "
                 f"{came[2][:120]}"
                 for which, came in found if came != whole and not (
                     (came[0], came[1], came[3]) == (6, b"", b"as it was") and
                     came[2].startswith(REFUSED[:8]))]
        self.assertEqual(wrong, [])
        self.assertTrue(any(came[0] == 6 for _, came in found))


class Compilers(support.TestCase):
    """Without a C compiler it is said what to install."""

    def test_no_compiler(self):
        with mock.patch.dict(os.environ, CC="no-such-compiler"), \
                self.assertRaisesRegex(unittest.SkipTest, "install a C compiler"):
            Calls.setUpClass()


class Sessions(Refusing):
    """In a session each statement gets its whole result or an error, and the next ones go on. Its
    status is that of memory if memory was refused to any statement, although the first one was
    rejected before."""

    def test_session(self):
        whole, found = self.outcomes(["session", "--program", "trips.prog", "trips.bw"],
                                     ";".join(STATEMENTS).encode())
        self.assertEqual(whole[0], 3)
        wanted, told = self.answers(whole), whole[2].splitlines()
        for which, came in found:
            answers, faults = self.answers(came), came[2].splitlines()
            # each answer that is missing has an error, and so has the end of a session that didn't
            # read all statements
            errors = answers.count(b"") + (len(answers) < len(STATEMENTS))
            is_refused = REFUSED in faults
            with self.subTest(which):
                self.assertTrue(all(answer in (b"", right)
                                    for answer, right in zip(answers, wanted)), answers)
                self.assertEqual(len(faults), errors, faults)
                self.assertLessEqual(set(faults), {REFUSED, *told})
                self.assertTrue(is_refused or faults == told, faults)
                self.assertEqual(came[0], 6 if is_refused else whole[0])

    def answers(self, came):
        """Returns the results. One has no empty line, and one follows each."""
        return re.findall(rb"((?:[^\n]+\n)*)\n", came[1])


# runs calls and prints what each did. A process begins with the memory of the one that starts it,
# which is therefore a small one.
MEASURE = """
import json, os, sys
for words in json.load(sys.stdin):
    with open("printed", "wb") as out, open("said", "wb") as err:
        call = os.posix_spawn(words[0], words, os.environ, file_actions=[
            (os.POSIX_SPAWN_DUP2, out.fileno(), 1), (os.POSIX_SPAWN_DUP2, err.fileno(), 2)])
        used = os.wait4(call, 0)[2]
    with open("said", encoding="utf-8") as err:
        print(json.dumps([used.ru_maxrss * 1024, os.path.getsize("printed"), err.read(200)]))
"""


class Peaks(support.TestCase):
    """Peak memory, as the system counts it, is at most the bytes of the files and texts that are in
    memory as a whole, according to docs/BENCHMARKS.md, and SPARE."""

    @classmethod
    def setUpClass(cls):
        cls.folder = cls.new_class_folder()
        (cls.folder / "t.schema").write_text("TABLE t\nCOLUMN a 0 9\nCOLUMN b 0 1000000000\n")
        lines = "".join(f"{i % 10},{i * 9973 % 1000000000}\n" for i in range(4096)).encode()
        commas = b"," * 65536
        cls.sizes = {name: cls.written(name, *parts) for name, parts in {
            "rows": (b"a,b\n", lines, 100), "heading": (b"", commas, 256),
            "record": (b"a,b\n1,2\n", commas, 256), "later": (b"a,b\n\"1\",2\n", commas, 256),
            "quoted": (b"a,b\n1,2\n", b'"",' * 32768, 170),
            "one": (b"a,b\n1,2\n", b"1" * 65536, 256),
            "lines": (b"RESULT r0\nCERTIFICATE\n", b"NOT\n" * 10000, 200)}.items()}

    @classmethod
    def written(cls, name, front, piece, times):
        """Writes a file. Returns how many bytes it has."""
        with (cls.folder / name).open("wb") as file:
            file.write(front)
            for _ in range(times):
                file.write(piece)
        return (cls.folder / name).stat().st_size

    def check(self, *calls):
        """Runs calls, each with the bytes that it may have in memory and its error, or None."""
        words = [["--version"], *(each for each, _, _ in calls)]
        done = support.run([sys.executable, "-S", "-c", MEASURE], cwd=self.folder,
                           given=json.dumps([[str(BW), *each] for each in words]))
        (start, *_), *came = map(json.loads, done.out.splitlines())
        self.assertEqual(len(came), len(calls), done.err)
        for (words, kept, fault), (taken, printed, said) in zip(calls, came):
            with self.subTest(" ".join(words)):
                self.assertEqual(said[:7], f"bw: {fault}" if fault else "")
                self.assertLessEqual(taken, max(start, kept + printed) + SPARE)

    def test_reading_a_csv(self):
        faults = {"rows": None, "heading": 202, "record": 203, "later": 203, "quoted": 203,
                  "one": 203}
        # a load stores the table file too, and a field of 16 MB is copied
        self.check(*((words, self.sizes[text] * (2 if text == "one" else 1)
                      + (1 << 21 if words[0] == "load" and not fault else 0), fault)
                     for text, each in faults.items() for words, fault in (
                         (["load", "t.schema", text, f"{text}.bw"], each),
                         (["direct", "t.schema", text, "SELECT * FROM t"], each),
                         (["infer", text], 102 if text == "heading" else each))))
        self.assertLess((self.folder / "rows.bw").stat().st_size, 1 << 21)

    def test_reading_a_table(self):
        support.bw("load", "t.schema", "rows", "t.bw", cwd=self.folder)
        self.check(*((words, 0, None) for words in (
            ["query", "t.bw", "SELECT COUNT(*) FROM t WHERE a < 5 AND b >= 1000"],
            ["query", "t.bw", "SELECT b FROM t WHERE a = 1"], ["query", "t.bw", "SELECT * FROM t"],
            ["dump", "t.bw"], ["info", "t.bw"],
            ["plan", "t.schema", "SELECT COUNT(*) FROM t WHERE a < 5"])))

    def test_reading_a_certificate(self):
        """A line takes at most four bytes for each byte of its text."""
        self.check((["check", "t.schema", "SELECT COUNT(*) FROM t WHERE a < 5", "lines"],
                    5 * self.sizes["lines"], 605))


# conditions of 100 nested brackets, each nested in another way
OPENED, CLOSED = "(" * 100, ")" * 100
TESTS = "".join(f" {('AND', 'OR')[level % 2]} b = {level}) IS NOT UNKNOWN" for level in range(100))
DEEP = [
    ("brackets", f"{OPENED}a < 8{CLOSED}"), ("nots", "NOT " * 100 + "a < 8"),
    ("nots of brackets", "NOT (" * 50 + "a < 8" + ")" * 50),
    ("tests", f"{OPENED}a < 8" + ") IS NOT UNKNOWN" * 100),
    ("ands", f"{OPENED}a < 8" + "".join(f" AND b = {level}) IS NOT UNKNOWN"
                                        for level in range(100))),
    ("ors", f"{OPENED}a < 8" + "".join(f" OR b = {level}) IS UNKNOWN" for level in range(100))),
    ("a list", f"{OPENED}a IN (1, 5, b, NULL){TESTS}"), ("two columns", f"{OPENED}a < b{TESTS}"),
]


@support.each(DEEP)
class Stacks(support.TestCase):
    """With a stack of STACK bytes, each call ends by itself."""

    def check(self, _, condition):
        sql = f"SELECT COUNT(*), SUM(a) FROM t WHERE {condition}"
        self.folder = self.new_folder()
        (self.folder / "t.schema").write_text("TABLE t\nCOLUMN a 0 255 NOT NULL\nCOLUMN b 0 255\n")
        (self.folder / "t.csv").write_text("a,b\n7,\n0,1\n8,10\n")
        self.ends("load", "t.schema", "t.csv", "t.bw")
        plan = self.ends("plan", "t.schema", sql)
        (self.folder / "p").write_text(plan.stdout)
        self.ends("direct", "t.schema", "t.csv", sql)
        self.ends("query", "--explain", "t.bw", sql)
        self.ends("query", "--explain", "t.bw", f"{sql} zz")
        self.ends("direct", "--explain", "t.schema", "t.csv", f"{sql} AND zz < 1")
        self.ends("session", "--explain", "t.bw", given=f"{sql}; {sql} zz;")
        if not plan.returncode:
            self.ends("check", "t.schema", sql, "p")
            self.ends("query", "--program", "p", "t.bw", sql)

    def ends(self, *words, given=None):
        done = subprocess.run(
            [BW, *words], cwd=self.folder, input=given, check=False, text=True,
            stdout=subprocess.PIPE, stderr=subprocess.PIPE, timeout=support.LONGEST,
            preexec_fn=lambda: resource.setrlimit(resource.RLIMIT_STACK, (STACK, STACK)))
        self.assertIn(done.returncode, (0, 3, 4), words)
        return done

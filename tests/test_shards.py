"""bw-shards as users run it. The results of three shards are compared with those of bw-ask from one
table of the same file, for each kind of statement. A shard that is missing, damaged or of another
load fails the whole query. A load that fails or is interrupted leaves the folder as it was. Shards
are queried by sessions, and by Dask's distributed scheduler if a Python here has it: then a
worker's process is also ended while it queries a shard."""
import concurrent.futures
import csv
import functools
import io
import json
import os
import random
import shutil
import signal
import subprocess
import sys
import time
import unittest

from tests import support
from tests.support import BW, LONGEST, PYTHON, content, tool, write_script

WORDS = ["Bern", "Ulm", "NA", "Zürich", "a \"b\", c", "two\nlines", "", "O'Hare", "-"]
# a stand-in for bw that waits in its first call, and writes the numbers of its parent process and
# of its own
HELD = """#!/bin/sh
if mkdir "{0}/held" 2>/dev/null; then
  echo $PPID $$ > "{0}/held/of"; mv "{0}/held/of" "{0}/held/worker"; exec sleep 60
fi
exec "{1}" "$@"
"""
# a stand-in for bw that knows the number of its call
NUMBERED = """n=1; mkdir -p "{0}.calls"
while ! mkdir "{0}.calls/$n" 2>/dev/null; do n=$((n + 1)); done
"""
# a cluster, beside which a fork runs bw-shards once for each line of a pipe, which has arguments,
# input and environment, and writes the status to another one: Dask is imported once
CLUSTER = """
import json, logging, os, sys, tempfile
from distributed import LocalCluster
sys.path.insert(0, sys.argv[1])
from bwtools._cli import shards

def run_here(words, given, names):
    with open("in", "w") as file:
        file.write(given)
    os.dup2(os.open("in", os.O_RDONLY), 0)
    for place, name in ((1, "out"), (2, "err")):
        os.dup2(os.open(name, os.O_WRONLY | os.O_CREAT | os.O_TRUNC, 0o600), place)
    sys.argv, sys.stdin = ["bw-shards", *words], open(0, closefd=False)
    os.environ.update(names)
    sys.exit(shards.main())

def serve(lines, statuses):
    for line in os.fdopen(lines):
        if not os.fork():
            run_here(*json.loads(line))
        os.write(statuses, b"%d\\n" % os.waitstatus_to_exitcode(os.wait()[1]))

if __name__ == "__main__":
    server = os.fork()
    if not server:
        serve(int(sys.argv[2]), int(sys.argv[3]))
        sys.exit()
    with tempfile.TemporaryDirectory() as folder, LocalCluster(
            n_workers=2, threads_per_worker=1, host="127.0.0.1", scheduler_port=0,
            dashboard_address=None, local_directory=folder,
            silence_logs=logging.CRITICAL) as cluster:
        print(cluster.scheduler_address, flush=True)
        sys.stdin.read()
    os.waitpid(server, 0)
"""

# statements of each kind, without SELECT: with results of rows and of totals, and some that select
# no row
GOOD = [
    "* FROM t", "id FROM t", "city, id FROM t WHERE city = 'Bern'",
    "id FROM t WHERE city > 'N' AND NOT price < 2.5",
    "id, city, city FROM t WHERE city IN ('Ulm', 'two\nlines', 'nowhere') OR city IS NULL",
    "id FROM t WHERE city BETWEEN 'C' AND 'Z'",
    "price, day FROM t WHERE day >= '2024-02-01' AND day < '2024-03-01'",
    "seen FROM t WHERE seen > '2024-01-01T12:00:00Z'",
    "clock FROM t WHERE clock NOT BETWEEN '07:00' AND '19:30'",
    "id FROM t WHERE paid AND price IS NOT NULL",
    "id FROM t WHERE id < 0",
    "id FROM t WHERE (price > 1.255) IS NULL", "never FROM t WHERE id < 3",
    "id FROM t WHERE large = 9007199254740993",
    "COUNT(*) FROM t", "COUNT(*) FROM t WHERE id < 0",
    "COUNT(price), COUNT(never), COUNT(*) FROM t WHERE city <> 'Bern'",
    "SUM(price), SUM(id), SUM(paid), SUM(never), AVG(price) FROM t",
    "SUM(price), MIN(price), MAX(city), COUNT(price) FROM t WHERE id < 0",
    "MIN(price), MAX(price), MIN(large), MAX(large), MIN(never) FROM t",
    "MIN(city), MAX(city), MIN(day), MAX(seen), MIN(clock) FROM t",
    "MIN(paid), MAX(paid), COUNT(*), COUNT(*) FROM t WHERE city = 'Ulm'",
    "SUM(late), MIN(late), MAX(late), COUNT(late) FROM t",
    "SUM(price) FROM t WHERE price < 0 OR late IS NOT NULL", 'MAX("unit price"), MIN(id) FROM t',
]
# what is rejected, or answered by SQLite
BAD = ["id FROM t WHERE city = 5", "SUM(day) FROM t", "id, COUNT(*) FROM t",
       "id FROM t WHERE id = 1 OR",
       "id id FROM t"]
ALL = "* FROM t"


def statements(asked):
    """Returns statements in the form of standard input."""
    return "".join(f"SELECT {each};\n" for each in asked)


@functools.lru_cache(None)
def made_csv():
    """Returns a file of rows of every kind. One column is null in all rows, and one in all but the
    last shard's."""
    chance, out = random.Random(6), io.StringIO(newline="")
    rows = csv.writer(out)
    rows.writerow(["id", "city", "price", "unit price", "day", "seen", "clock", "paid", "large",
                   "never", "late"])
    for number in range(1300):
        row = [chance.choice(WORDS),
               f"{chance.randrange(-500, 5000) / 100:.{chance.randrange(2, 4)}f}",
               chance.choice(("1.5", "2", "1e1")),
               f"2024-0{chance.randrange(1, 5)}-{chance.randrange(10, 29)}",
               f"2024-01-0{chance.randrange(1, 9)}T0{chance.randrange(10)}:00:00Z",
               f"{chance.randrange(24):02}:30",
               chance.choice(("true", "false")), 9007199254740993 + chance.randrange(10 ** 17)]
        row = ["" if chance.random() < .15 else field for field in row]
        rows.writerow([number, *row, "", number if number > 1200 else ""])
    return out.getvalue().encode()


class Shards(support.TestCase):
    """A folder, in which files are loaded as three shards."""

    def load(self, data=None, *options, name="s", **names):
        (self.folder / "t.csv").write_bytes(made_csv() if data is None else data)
        return tool("bw-shards", "load", "--table", "t", "t.csv", name,
                    *(options or ("--rows", "500")), cwd=self.folder, **names)

    def asked(self, statement, *options, name="s", **names):
        return tool("bw-shards", "ask", name, f"SELECT {statement}", *options, cwd=self.folder,
                    **names)

    def assert_refused(self, done, *parts, status=3):
        """Tests that a call printed nothing and was refused with a message that has these parts."""
        self.assertEqual((done.status, done.out), (status, ""), done.err)
        for part in parts:
            self.assertIn(part, done.err)


class Loaded(Shards):
    """Three shards, s, and the table of the same file, t.bw."""

    @classmethod
    def setUpClass(cls):
        cls.folder = cls.new_class_folder()
        cls.made = cls.load(cls)
        cls.one = tool("bw-import", "t.csv", "t.bw", cwd=cls.folder)

    def of_table(self, *words, given=""):
        return tool("bw-ask", "t.bw", *words, given=given, cwd=self.folder)


class Statements(Loaded):
    """Three shards beside one table."""

    def test_reports(self):
        self.assertEqual((self.made.status, self.one.status), (0, 0))
        self.assertEqual(self.made.out.splitlines()[:-1], self.one.out.splitlines()[:-1])
        self.assertRegex(self.made.out,
                         r"s is written, as table t: 3 shards of up to 500 rows\n\Z")
        self.assertEqual(sorted(os.listdir(self.folder / "s")),
                         ["shard-001.bw", "shard-002.bw", "shard-003.bw", "shards.columns"])

    def test_statements(self):
        given = statements(GOOD)
        done = tool("bw-shards", "ask", "s", given=given, cwd=self.folder)
        right = self.of_table(given=given)
        self.assertEqual((done.status, right.status, done.err), (0, 0, ""))
        for each, answer, wanted in zip(GOOD, done.out.split("\n\n"), right.out.split("\n\n")):
            with self.subTest(each):
                self.assertEqual(answer, wanted)
        self.assertEqual(done.out, right.out)
        self.assertEqual(tool("bw-ask", "s", given=given, cwd=self.folder), (0, right.out, ""))

    def test_any_name(self):
        done = tool("bw-ask", "s", "SELECT COUNT(*) FROM any_name", cwd=self.folder)
        self.assertEqual(done.out, "COUNT(*)\n1300\n")

    def test_import_makes_shards(self):
        tool("bw-import", "t.csv", "i", "--shards", "4", "--table", "t", cwd=self.folder)
        self.assertEqual(len(list((self.folder / "i").glob("*.bw"))), 4)
        given = statements(GOOD)
        self.assertEqual(tool("bw-ask", "i", given=given, cwd=self.folder),
                         self.of_table(given=given))

    def test_what_bw_rejects(self):
        for each in BAD:
            with self.subTest(each):
                done, right = self.asked(each), self.of_table(f"SELECT {each}")
                self.assertEqual(done, right._replace(
                    err=right.err.replace("bw-ask: ", "bw-shards: ")))

    def test_a_rejected_statement_has_an_empty_line(self):
        done = tool("bw-shards", "ask", "s", cwd=self.folder, given=(
            "SELECT id FROM t WHERE id = 3; SELECT x FROM t; SELECT id FROM t WHERE id = 4"))
        self.assertEqual(done[:2], (3, "id\n3\n\n\nid\n4\n\n"))
        self.assertIn("there is no column x", done.err)

    def test_show_and_stats(self):
        done = self.asked("id FROM t WHERE price < 1.005 AND id < 9", "--show", "--stats")
        self.assertEqual(done.status, 0)
        self.assertIn("\n  SELECT id FROM t WHERE price < 1005 AND id < 9\n", done.err)
        self.assertEqual(done.err.count("served "), 3)


class Damage(Shards):
    """A shard that can't be queried fails the whole query."""

    def setUp(self):
        self.folder = self.new_folder()
        self.load()
        self.shard = self.folder / "s" / "shard-002.bw"
        self.data, self.right = self.shard.read_bytes(), self.asked(ALL)

    def check_refused(self, told, statement=ALL):
        done = self.asked(statement)
        self.assertIn(done.status, (3, 5))
        self.assertEqual(done.out, "")
        self.assertRegex(done.err, f"\\Abw-shards: s/shard-002.bw:? {told}")

    def test_damage(self):
        foreign, told = "isn't the table that", self.shard.stat()
        tool("bw-shards", "load", "t.csv", "o", "--rows", "499", "--table", "t", cwd=self.folder)
        self.shard.rename(self.folder / "kept")
        self.check_refused("No such file or directory")
        for number, (what, damaged) in enumerate((
                ("cut", self.data[:-64]), ("empty", b""),
                ("a bit", self.data[:-9] + bytes([self.data[-9] ^ 1]) + self.data[-8:]),
                ("of another load", (self.folder / "o" / "shard-002.bw").read_bytes()),
                ("another shard", (self.folder / "s" / "shard-001.bw").read_bytes()))):
            with self.subTest(what):
                self.shard.write_bytes(damaged)
                self.check_refused(foreign, (ALL, "COUNT(*) FROM t")[number % 2])
                self.shard.unlink()
        (self.folder / "kept").rename(self.shard)
        # if size, time and inode are the same, the header is compared, and bw validates the file
        for damaged, why in ((b"X" + self.data[1:], foreign),
                             (self.data[:20] + b"X" + self.data[21:], foreign),
                             (self.data[:-1] + b"\xff", "bw: 30[678] ")):
            self.shard.write_bytes(damaged)
            os.utime(self.shard, ns=(told.st_mtime_ns, told.st_mtime_ns))
            self.check_refused(why)
        self.shard.write_bytes(self.data)
        self.assertEqual((self.asked(ALL), self.right.status), (self.right, 0))

    def test_a_copy(self):
        shutil.copytree(self.folder / "s", self.folder / "c")
        self.assertEqual(self.asked(ALL, name="c")[:2], self.right[:2])

    def test_programs_that_fail(self):
        third = self.folder / "s" / "shard-003.bw"
        bad = write_script(self.folder / "bad",
                           f'cmp -s "$2" "{third}" || exec "{BW}" "$@"\n'
                           'echo "bw: 801 out of memory" >&2; exit 6')
        self.assert_refused(self.asked(ALL, BW=str(bad)), status=6, *[
            "bw-shards: s/shard-003.bw: bw: 801 out of memory\n"])
        write_script(bad, "kill -9 $$")
        self.assert_refused(self.asked(ALL, BW=str(bad)),
                            "shard-001.bw: bw session was ended by signal 9", status=137)
        self.assert_refused(self.asked(ALL, BW=f"{self.folder}/none"), f"{self.folder}/none",
                            status=5)


class Folders(Shards):
    """Which folders are queried, and which are written. Each test has the same files."""

    @classmethod
    def setUpClass(cls):
        cls.folder = cls.new_class_folder()
        cls.load(cls)
        cls.loaded = cls.folder

    def setUp(self):
        self.folder = self.new_folder()
        shutil.copytree(self.loaded / "s", self.folder / "s", copy_function=os.link)
        (self.folder / "t.csv").write_bytes(made_csv())
        (self.folder / "empty").mkdir()

    def test_asking_what_is_no_folder_of_shards(self):
        for name, status, told in (("empty", 3, "empty is not a folder of shards"),
                                   ("none", 5, "none: No such file"),
                                   ("t.csv", 3, "t.csv.columns is missing")):
            with self.subTest(name):
                self.assert_refused(self.asked(ALL, name=name), told, status=status)

    def test_files_that_are_no_columns_files(self):
        for text in ("[]", '{"bw columns": 1, "table": {"name": "t"}, "columns": []}'):
            with self.subTest(text):
                (self.folder / "empty" / "shards.columns").write_text(text)
                self.assert_refused(self.asked(ALL, name="empty"), " a columns file ")
                if text == "[]":
                    self.assert_refused(self.load(name="empty"), "can't be overwritten")
        # of an earlier version: the command that the message names writes it anew
        self.assert_refused(self.asked(ALL, name="empty"), "again, by bw-shards load RAW.csv empty")
        (self.folder / "empty" / "shard-001.bw").write_bytes(b"BWCOLUMN")
        (self.folder / "empty" / "mine").write_bytes(b"")
        self.assert_refused(self.load(name="empty"), "it has mine, which isn't one of its shards")
        (self.folder / "empty" / "mine").unlink()
        self.assertEqual(self.load(name="empty").status, 0)
        self.assertEqual(self.asked(ALL, name="empty").status, 0)

    def test_what_is_not_overwritten(self):
        (self.folder / "s" / "notes").write_text("mine")
        (self.folder / "link").symlink_to("s")
        before = content(self.folder)
        for name, told in (("s", "has notes, which isn't one of its shards"),
                           ("link", "is a symlink"), ("t.csv", "is the file to read"),
                           ("none/s", "isn't a folder")):
            with self.subTest(name):
                self.assert_refused(self.load(name=name), told)
        self.assertEqual(content(self.folder), before)

    def test_what_is_written(self):
        self.assertEqual(self.load(None, "--rows", "5000", name="empty").status, 0)
        self.assertEqual(self.asked("COUNT(*) FROM t", name="empty")[:2], (0, "COUNT(*)\n1300\n"))
        self.assertEqual(self.load(b"a\n1\n2\n3\n", "--rows", "1", "--table", "n").status, 0)
        self.assertEqual(self.asked("a FROM n")[:2], (0, "a\n1\n2\n3\n"))
        self.assertEqual(len(content(self.folder / "s")), 4)

    def test_no_rows(self):
        self.assertEqual(self.load(b"a,b\n").status, 0)
        self.assertEqual([self.asked(each) for each in (ALL, "COUNT(*), SUM(a) FROM t")],
                         [(0, "a,b\n", ""), (0, "COUNT(*),SUM(a)\n0,\n", "")])

    def test_options(self):
        done = self.load(b"a,b\n1,2\n", "--dry-run", name="dry")
        self.assertEqual(done.status, 0)
        self.assertRegex(done.out, r"1 row, separated by ',', in utf-8\n\Z")
        self.assertFalse((self.folder / "dry").exists())
        for number in ("0", "16777217"):
            self.assertEqual(self.load(b"a\n1\n", "--rows", number).status, 3)
        self.assertEqual([name for name in os.listdir(self.folder) if name[0] == "."], [])

    def test_a_symlink_and_paths_from_here(self):
        (self.folder / "by").symlink_to(PYTHON / "bin" / "bw-shards")
        (self.folder / "t.csv").write_bytes(b"a\n1\n")
        done = support.sh("./by load t.csv u && cd u && ../by ask . 'SELECT a FROM t'",
                          self.folder, BW="")
        self.assertEqual(done.status, 0, done.err)
        self.assertRegex(done.out, r"\na\n1\n\Z")


class Loads(Shards):
    """A failed or interrupted load leaves the folder as it was."""

    def program(self, script):
        """Writes a program that runs a script, which knows the number of its call, in place of
        bw."""
        self.slow = self.new_folder() / "slow"
        return str(write_script(self.slow, NUMBERED.format(self.slow)
                                + f'{script}\nexec "{BW}" "$@"'))

    def interrupted(self, number):
        """Returns the status of a load that is interrupted in its second shard."""
        program = self.program('[ $n != 2 ] || { : > "$0.begun"; exec sleep 5; }')
        running = support.Running("bw-shards", "load", "t.csv", "s", "--rows", "500",
                                  cwd=self.folder, names={"BW": program})
        running.until(self.slow.with_name("slow.begun"))
        os.kill(running.process, number)
        return running.done().status

    def check(self, has_before):
        self.folder = self.new_folder()
        if has_before:
            self.load(b"a\n7\n")
        (self.folder / "t.csv").write_bytes(made_csv())
        before, names = content(self.folder), os.listdir(self.folder)
        for number, status in ((signal.SIGINT, 130), (signal.SIGTERM, 143)):
            with self.subTest(number.name):
                self.assertEqual(self.interrupted(number), status)
                self.assertEqual((content(self.folder), os.listdir(self.folder)), (before, names))
        done = self.load(BW=self.program(
            '[ $n != 3 ] || { echo "bw: 702 write failed" >&2; exit 5; }'))
        self.assert_refused(done, "bw: 702", status=5)
        self.assertEqual(content(self.folder), before)
        self.assert_refused(self.load(made_csv() + b"1,2\n"), "line 1")
        self.assertEqual(os.listdir(self.folder), names)
        done = self.load(BW=self.program(
            f'mkdir -p "{self.folder}/s"; : > "{self.folder}/s/mine"'))
        self.assert_refused(done, "can't be overwritten")
        self.assertTrue((self.folder / "s" / "mine").exists())

    def test_the_first_time(self):
        self.check(False)

    def test_over_shards(self):
        self.check(True)


@functools.lru_cache(None)
def python_with_dask():
    """Returns a Python that has Dask's distributed scheduler, or nothing."""
    test = ("import importlib.util as i, sys; "
            "sys.exit(not (i.find_spec('distributed') and i.find_spec('cloudpickle')))")
    for python in dict.fromkeys((sys.executable, "/usr/bin/python3")):
        if os.access(python, os.X_OK) and support.run([python, "-c", test]).status == 0:
            return python
    return None


class Workers(Loaded):
    """Shards that are asked by Dask's workers."""

    @classmethod
    def setUpClass(cls):
        super().setUpClass()
        cls.python = python_with_dask()
        if not cls.python:
            raise unittest.SkipTest("bw-shards by Dask: install python3-distributed")
        (cls.folder / "cluster").write_text(CLUSTER)
        (lines, cls.lines), (cls.statuses, statuses) = os.pipe(), os.pipe()
        # workers are forks of a process that has imported what they need
        cluster = subprocess.Popen(
            [cls.python, "cluster", PYTHON, str(lines), str(statuses)], stdin=subprocess.PIPE,
            stdout=subprocess.PIPE, stderr=subprocess.DEVNULL, text=True, cwd=cls.folder,
            env={**os.environ, "DASK_DISTRIBUTED__WORKER__MULTIPROCESSING_METHOD": "forkserver"},
            pass_fds=[lines, statuses])
        cls.addClassCleanup(cluster.communicate, timeout=LONGEST)
        cls.addClassCleanup(list, map(os.close, (cls.lines, cls.statuses)))
        for number in (lines, statuses):
            os.close(number)
        cls.address = cluster.stdout.readline().strip()

    def by_workers(self, *words, given="", **names):
        """Runs bw-shards, and returns what it left."""
        os.write(self.lines, json.dumps([words, given, names]).encode() + b"\n")
        status = os.read(self.statuses, 99)
        return support.Done(int(status), *((self.folder / name).read_text()
                                           for name in ("out", "err")))

    def test_a_worker_that_dies(self):
        """Its shard is run again."""
        slow = self.folder / "slow"
        slow.write_text(HELD.format(self.folder, BW))
        slow.chmod(0o755)
        with concurrent.futures.ThreadPoolExecutor() as pool:
            running = pool.submit(self.by_workers, "ask", "s", "--scheduler", self.address,
                                  given=statements(GOOD), BW=str(slow))
            told = self.folder / "held" / "worker"
            while not told.exists() and not running.done():
                time.sleep(.02)
            is_held = told.exists()
            for process in told.read_text().split() if is_held else ():
                os.kill(int(process), signal.SIGKILL)
            done = running.result()
        self.assertTrue(is_held)
        # if a worker dies, Dask may print more on standard error
        self.assertEqual(done[:2], self.of_table(given=statements(GOOD))[:2])

    def test_shards_that_fail(self):
        """Each fails the whole query, as a scheduler does that isn't there."""
        for name in ("missing", "damaged"):
            shutil.copytree(self.folder / "s", self.folder / name)
        (self.folder / "missing" / "shard-003.bw").unlink()
        damaged = self.folder / "damaged" / "shard-001.bw"
        damaged.write_bytes(damaged.read_bytes()[:-1] + b"\1")
        count = "SELECT COUNT(*) FROM t"
        for name, address, told, statuses in (
                ("missing", self.address, "missing/shard-003.bw: No such file or directory",
                 (3, 5)),
                ("damaged", self.address, "damaged/shard-001.bw: isn't the table that", (3, 5)),
                ("s", "nothing", "the scheduler nothing can't be used", (3,))):
            with self.subTest(told):
                done = self.by_workers("ask", name, count, "--scheduler", address)
                self.assertIn(done.status, statuses)
                self.assertEqual(done.out, "")
                self.assertIn(told, done.err)

"""bw-import and bw-ask as users run them: a file is imported and asked in two commands, a table and
a columns file that don't belong together are rejected, and whatever fails or is interrupted leaves
nothing behind. `test_columns` has the kinds of columns."""
import contextlib
import csv
import decimal
import gzip
import io
import itertools
import os
import random
import resource
import shutil
import signal
import sqlite3
import subprocess
import sys

from tests import drawn, support
from tests.support import BW, LONGEST, PYTHON, bw, content, tool, write_script

SHOP = b"id,land,price\n1,DE,1.25\n2,NA,2.0\n3,FR,13.5\n4,,9.75\n"
PAIR = ["t.bw", "t.bw.columns", "t.csv"]


class Tools(support.TestCase):
    """A folder, in which files are imported and tables are asked."""

    def setUp(self):
        self.folder = self.new_folder()

    def imported(self, data, *options, name="t", **names):
        """Imports a file of these bytes as NAME.bw."""
        (self.folder / f"{name}.csv").write_bytes(data)
        return tool("bw-import", *options, f"{name}.csv", f"{name}.bw", cwd=self.folder, **names)

    def ask(self, *words, name="t", given=b"", **names):
        return tool("bw-ask", f"{name}.bw", *words, given=given, cwd=self.folder, **names)

    def hidden(self):
        return [name for name in os.listdir(self.folder) if name.startswith(".")]

    def assert_refused(self, done, *parts, status=3):
        """Tests that a call printed nothing and was refused with a message that has these parts."""
        self.assertEqual((done.status, done.out), (status, ""), done.err)
        for part in parts:
            self.assertIn(part, done.err)


# What is tested, a file, the options of import, a statement, and its result
ANSWERS = [
    ("floats as pandas writes them", b"a\n1.25\n2.0\n13.5\n9.75\n", [],
     "SELECT MAX(a), SUM(a) FROM t", "MAX(a),SUM(a)/13.50,26.50/"),
    ("NA among texts is a text", SHOP, [], "SELECT COUNT(*) FROM t WHERE land <> 'DE'",
     "COUNT(*)/2/"),
    ("NA among texts may be asked for", SHOP, [], "SELECT id FROM t WHERE land = 'NA'", "id/2/"),
    ("NA is null by option", SHOP, ["--null", "NA"], "SELECT id FROM t WHERE land IS NULL",
     "id/2/4/"),
    ("NA among numbers is null", b"a,b\n1,x\nNA,y\n", [],
     "SELECT COUNT(a), COUNT(*) FROM t WHERE a IS NULL", "COUNT(a),COUNT(*)/0,1/"),
    ("exponents and signs", b"a\n1e2\n+50\n-0\n.5\n", [], "SELECT a FROM t WHERE a >= 0.5",
     "a/100.0/50.0/0.5/"),
    ("floats", b"a\n9.99e-05\n0.03699\n-1e300\n", [],
     "SELECT MAX(a), MIN(a), COUNT(*) FROM t WHERE a > 0.00009 OR a < -5",
     "MAX(a),MIN(a),COUNT(*)/0.03699,-1e+300,3/"),
    ("blanks after commas",
     b"id, amount, day\n1, 9, 2024-01-01\n2, 10, 2024-02-01\n3, 11, 2024-03-01\n", [],
     "SELECT MAX(amount), COUNT(*) FROM t WHERE day >= '2024-02-01'", "MAX(amount),COUNT(*)/11,2/"),
    ("thousands by points", b"a;b\n1,5;1.234\n2,5;12.500\n", [], "SELECT b FROM t WHERE b > 1234",
     "b/12.500/"),
    ("dollars", b"a\n$9.50\n$10.00\n", [], "SELECT MAX(a), SUM(a) FROM t WHERE a >= '$9.50'",
     "MAX(a),SUM(a)/$10.00,19.50/"),
    ("decimal commas", b"a;b\n1,5;x\n-0,25;y\n", [],
     "SELECT SUM(a), MIN(a) FROM t WHERE a < 1.50001",
     'SUM(a),MIN(a)/1.25,"-0,25"/'),
    ("thousands by the other column's sign", b"a;b\n1,5;1.234\n2,5;12.500\n", [],
     "SELECT a, b FROM t WHERE b = 1234", 'a,b/"1,5",1.234/'),
    ("any name", SHOP, [], "SELECT id FROM shop WHERE id = 2", "id/2/"),
    ("post codes", b"a\n01234\n99999\n", [], "SELECT a FROM t WHERE a < '1'", "a/01234/"),
    ("ranges of texts are by code points", "a\nZ\na\né\n".encode(), [],
     "SELECT a FROM t WHERE a > 'Z'", "a/a/é/"),
    ("least and greatest of every kind",
     b"a,b,c,d,e\nx,2024-05-01,12:30,true,2024-05-01 10:00Z\n"
     b"y,2024-06-01,07:15,false,2024-05-01T11:00+03:00\n",
     [], "SELECT MIN(a), MAX(b), MIN(c), MAX(d), MIN(e) FROM t",
     "MIN(a),MAX(b),MIN(c),MAX(d),MIN(e)/x,2024-06-01,07:15,true,2024-05-01T08:00Z/"),
    ("dates with points", b"a\n31.12.2023\n01.01.2024\n", [],
     "SELECT a FROM t WHERE a >= '2024-01-01' AND a <> '31.12.2024'", "a/01.01.2024/"),
    ("dates by option", b"a\n03/04/2024\n04/03/2024\n", ["--date", "a=%m/%d/%Y"],
     "SELECT a FROM t WHERE a > '2024-03-05'", "a/04/03/2024/"),
    ("milliseconds", b"a\n2024-05-01 10:00:00.250\n2024-05-01 10:00:00.500\n", [],
     "SELECT a FROM t WHERE a > '2024-05-01 10:00:00.2505'",
     "a/2024-05-01 10:00:00.500/"),
    ("a literal with an offset", b"a\n2024-05-01T10:00:00Z\n2024-05-01T12:00:00Z\n", [],
     "SELECT a FROM t WHERE a >= '2024-05-01T13:00:00+02:00'",
     "a/2024-05-01T12:00:00Z/"),
    ("times of day", b"a\n12:30\n07:15\n", [],
     "SELECT a FROM t WHERE a BETWEEN '07:00:01' AND '12:29:59'", "a/07:15/"),
    ("no heading", b"1,x\n2,y\n", ["--no-heading"], "SELECT c2 FROM t WHERE c1 = 2", "c2/y/"),
    ("Excel's first line", b"sep=;\r\nprice, net;b\r\n1,5;2\r\n", [], 'SELECT "price, net" FROM t',
     '"price, net"/"1,5"/'),
    ("statements", SHOP, [],
     "SELECT id FROM t WHERE id < 2; -- it's; 'one'\nSELECT id\nFROM t WHERE land = 'a;\n\nb'\n\n"
     "\n;;SELECT COUNT(*) FROM t",
     "id/1//id//COUNT(*)/4/"),
]


@support.each(ANSWERS)
class Answers(Tools):
    """Answers over what is imported."""

    def check(self, what, data, options, statement, wanted):
        made = self.imported(data, *options)
        self.assertEqual((made.status, made.err), (0, ""))
        self.assertEqual(sorted(content(self.folder)), PAIR)
        found = self.ask(given=statement)
        # an answer may have strokes of its own, and an empty line follows each
        self.assertEqual((found.status, found.err, found.out.replace("\n", "/")),
                         (0, "", f"{wanted}/"))
        if what != "statements":
            self.assertEqual(self.ask(statement), (0, found.out[:-1], ""))


# What is rejected, a file, the options of import, a statement, or None if the import is rejected,
# and the message
REFUSED = [
    ("a first line of numbers", b"1,x\n2,y\n", [], None,
     "use --no-heading if it is a row, or --heading if it is a heading"),
    ("a first line of dates", b"x,2024-05-01\ny,2024-05-02\n", [], None,
     "the first line has '2024-05-01' above a column of such fields"),
    ("a first line of post codes", b"x,01234\ny,09876\n", [], None, "the first line has '01234'"),
    ("a first line alone", b"1,2\n", [], None, "the first line has '1'"),
    ("a date of two readings", b"a\n01/02/2024\n03/04/2024\n", [], None,
     "'01/02/2024' in line 2 may be read in two ways: use --date a=%d/%m/%Y, or --date "
     "a=%m/%d/%Y, or --text a"),
    ("a date of another format", b"a\n2024-05-01\n31/12/2024\n", ["--date", "a=%m/%d/%Y"], None,
     "'31/12/2024' in line 3 isn't a date in the format %m/%d/%Y, as --date states"),
    ("a format of no date", b"a\n1\n", ["--date", "a=%d"], None,
     "'%d' is not a valid format: use %Y or %y, %m, %b or %B, and %d"),
    ("a number that isn't", b"a,b\n1,1\n2,x\n", ["--number", "b"], None,
     "column 'b': 'x' in line 3 isn't a number, as --number states: use --null b=x"),
    ("a name that isn't", b"a\n1\n", ["--table", "a b"], None,
     "--table: 'a b' is not a valid name"),
    ("a sum of dates", b"a\n2024-05-01\n", [], "SELECT SUM(a) FROM t",
     "a has dates, which can't be summed"),
    ("a number for a text", b"a\n5\nx\ny\n", [], "SELECT a FROM t WHERE a > 4",
     "4 can't be compared with a: a has texts; write such a literal as 'this'"),
    ("a number for a long number", b"a\n5\n99999999999999999999\n", [],
     "SELECT a FROM t WHERE a > 4",
     "a has texts (numbers of more than 64 bits, which --number a rounds"),
    ("a number for a post code", b"a\n01234\n", [], "SELECT a FROM t WHERE a = 1234",
     "'01234' and others have leading zeros, which --number a drops"),
    ("a number for thousands", b"a;b\n1,234;x\n", [], None,
     "'1,234' in line 2 may be 1234 or 1.234: use --thousands ',', or --number a, or --text a"),
    ("one n/a among numbers", b"a\n1\n2\nn/a\n4\n", [], None,
     "'n/a' in line 4 isn't a number, as 3 of 4 fields are: use --null a=n/a, or --text a"),
    ("a text for a number", b"a\n5\n9\n", [], "SELECT a FROM t WHERE a = '5'",
     "'5' can't be compared with a: a has whole numbers from 5 to 9;"),
    ("an empty text", SHOP, [], "SELECT id FROM t WHERE land = ''",
     "'' is null in land: use land IS NULL"),
    ("the second of two statements", SHOP, [],
     "SELECT id FROM t WHERE id = 1;\nSELECT x FROM t; SELECT id FROM t", "there is no column x"),
]


@support.each(REFUSED)
class Refused(Tools):
    """What is rejected."""

    def check(self, what, data, options, statement, told):
        done = self.imported(data, *options)
        if statement is None:
            self.assert_refused(done, told)
            self.assertEqual(sorted(content(self.folder)), ["t.csv"])
        else:
            self.assertEqual(done.status, 0)
            done = self.ask(given=statement)
            self.assertEqual((done.status, done.out),
                             (3, "id\n1\n\n\nid\n1\n2\n3\n4\n\n" if "two" in what else "\n"))
            self.assertIn(told, done.err)


ASKS = "SELECT price FROM t WHERE land = 'DE'"
RIGHT, OTHER = (0, "price\n1.25\n", ""), "belongs to another table than"


class Pairs(Tools):
    """A table and a columns file that belong together, and some that don't."""

    def setUp(self):
        super().setUp()
        self.table, self.columns = self.folder / "t.bw", self.folder / "t.bw.columns"
        self.imported(SHOP)

    def test_a_pair(self):
        self.assertEqual(self.ask(ASKS), RIGHT)
        os.utime(self.table, ns=(0, 0))
        self.assertEqual(self.ask(ASKS), RIGHT)
        self.assertEqual(self.hidden(), [])

    def test_a_copy_and_a_symlink(self):
        shutil.copy(self.table, self.folder / "u.bw")
        shutil.copy(self.columns, self.folder / "u.bw.columns")
        (self.folder / "link.bw").symlink_to(self.table)
        for name in ("u", "link"):
            self.assertEqual(self.ask(ASKS, name=name), RIGHT)

    def test_another_table(self):
        """Other prices and cities, of the same number of bytes."""
        self.imported(SHOP.replace(b"1.25", b"12.5").replace(b"DE", b"AT"), name="v")
        shutil.copy(self.table, self.folder / "u.bw")
        shutil.copy(self.columns, self.folder / "u.bw.columns")
        # the bytes of the file, and then the file
        shutil.copyfile(self.folder / "v.bw", self.folder / "u.bw")
        self.assert_refused(self.ask(ASKS, name="u"), OTHER, "u.bw.columns")
        os.replace(self.folder / "u.bw", self.table)
        self.assert_refused(self.ask(ASKS), OTHER, "t.bw.columns", "t.bw,")
        done = tool("bw-from-numbers", self.columns, given="id\n1\n")
        self.assertEqual(done.status, 3)
        self.assertIn(OTHER, done.err)
        shutil.copy(self.folder / "v.bw.columns", self.columns)
        self.assertEqual(self.ask(ASKS.replace("t W", "v W")), (0, "price\n", ""))
        self.assertEqual(self.imported(SHOP).status, 0)
        self.assertEqual(self.ask(ASKS), RIGHT)

    def test_what_is_no_columns_file_of_a_table(self):
        tool("bw-to-numbers", "t.csv", "t.bw.csv", cwd=self.folder)
        self.assert_refused(self.ask(ASKS), "belongs to no table: bw-to-numbers wrote it")
        self.columns.write_text("[]")
        self.assert_refused(self.ask(ASKS), "is not a columns file")
        self.columns.unlink()
        self.assert_refused(self.ask(ASKS), "t.bw.columns is missing")
        self.assertEqual(self.ask(ASKS, name="none").status, 5)

    def test_a_columns_file_that_is_no_regular_file(self):
        self.columns.unlink()
        os.mkfifo(self.columns)
        self.assert_refused(self.ask(ASKS), "is no regular file")
        self.columns.unlink()
        self.columns.symlink_to("/dev/zero")
        done = self.ask(ASKS)
        self.assert_refused(done, "is no regular file")
        self.assertEqual(done.err.count("\n"), 1)


class Targets(Tools):
    """A target that isn't a regular file isn't overwritten."""

    def setUp(self):
        super().setUp()
        (self.folder / "in.csv").write_bytes(SHOP)
        (self.folder / "kept").write_text("as it was")
        (self.folder / "link").symlink_to("kept")
        (self.folder / "away").symlink_to("nowhere")
        os.mkfifo(self.folder / "fifo")
        (self.folder / "dir").mkdir()
        (self.folder / "in.csv.columns").symlink_to("kept")

    def test_targets(self):
        before = sorted(os.listdir(self.folder))
        for name, what in (("link", "a symlink"), ("away", "a symlink"), ("fifo", "a FIFO"),
                           ("dir", "a folder"), ("/dev/null", "a device"),
                           ("/dev/stdout", "a symlink")):
            for each in ("bw-import", "bw-to-numbers"):
                with self.subTest(name, tool=each):
                    self.assert_refused(tool(each, "in.csv", name, cwd=self.folder),
                                        f"can't be overwritten: it is {what}")
        self.assert_refused(tool("bw-import", "in.csv", "in.csv", cwd=self.folder),
                            "is the file to read")
        self.assertEqual(sorted(os.listdir(self.folder)), before)
        self.assertEqual((self.folder / "kept").read_text(), "as it was")

    def test_a_link_to_the_input(self):
        os.link(self.folder / "in.csv", self.folder / "hard")
        self.assert_refused(tool("bw-import", "in.csv", "hard", cwd=self.folder),
                            "is the file to read")

    def test_no_folder(self):
        done = tool("bw-import", "in.csv", "none/t.bw", cwd=self.folder)
        self.assert_refused(done, "isn't a folder")


class Faults(Tools):
    """A failed or interrupted import leaves everything as it was."""

    def begin(self, script):
        """Begins an import with a program that runs a script in place of bw, and waits until it
        does."""
        program, begun = self.folder / "slow", self.folder / "begun"
        write_script(program, f': > "{begun}"\n{script}')
        running = support.Running("bw-import", "t.csv", "t.bw", cwd=self.folder,
                                  names={"BW": str(program)})
        running.until(begun)
        return running

    def end(self, running, number):
        """Sends a signal to an import. Returns its status and its output."""
        os.kill(running.process, number)
        done = running.done()
        for name in ("slow", "begun"):
            (self.folder / name).unlink()
        return done[:2]

    def test_interrupts(self):
        for has_before in (False, True):
            if has_before:
                self.imported(SHOP)
            else:
                (self.folder / "t.csv").write_bytes(SHOP)
            before = content(self.folder)
            for number, status in ((signal.SIGINT, 130), (signal.SIGTERM, 143),
                                   (signal.SIGHUP, 129)):
                with self.subTest(number.name, has_before=has_before):
                    done = self.end(self.begin("exec sleep 5"), number)
                    self.assertEqual(done, (status, ""))
                    self.assertEqual(content(self.folder), before)
                    self.assertEqual(len(list(self.folder.iterdir())), len(before))

    def test_failures(self):
        self.imported(SHOP)
        before = content(self.folder)
        bad = self.folder.parent / f"{self.folder.name}.sh"
        for name in ("encode", "recode"):
            write_script(bad, f'if [ "$1" = {name} ]; then echo "bw: 702 write failed" >&2; exit 5'
                              f'; fi\nexec "{BW}" "$@"')
            done = self.imported(SHOP, BW=str(bad))
            bad.unlink()
            self.assert_refused(done, "bw: 702 write failed\n", status=5)
        self.assertEqual(self.imported(SHOP, BW=f"{self.folder}/none").status, 5)
        self.assertEqual(content(self.folder), before)
        self.assert_refused(self.imported(SHOP + b"5,6\n"), "line 6")
        self.assertEqual(content(self.folder)["t.bw"], before["t.bw"])
        self.assertEqual(self.hidden(), [])

    def test_a_kill(self):
        """The old pair is left, and the next import removes what is left over."""
        self.imported(SHOP)
        before = content(self.folder)
        status, _ = self.end(self.begin("exec sleep 2"), signal.SIGKILL)
        self.assertEqual(status, -9)
        self.assertEqual({name: data for name, data in content(self.folder).items()
                          if "/" not in name}, before)
        self.assertNotEqual(self.hidden(), [])
        self.assertEqual(self.imported(SHOP, name="u").status, 0)
        self.assertEqual(self.hidden(), [])

    def test_two_imports_at_once(self):
        """One of them wins whole."""
        files = {"one": b"a,b\n1,x\n", "two": b"a,b\n22,y\n33,z\n"}
        for name, data in files.items():
            (self.folder / f"{name}.csv").write_bytes(data)
        for turn in range(2):
            with self.subTest(turn=turn):
                both = [support.Running("bw-import", f"{name}.csv", "t.bw", cwd=self.folder)
                        for name in files]
                self.assertEqual([each.done().status for each in both], [0, 0])
                found = self.ask("SELECT * FROM t")
                self.assertEqual((found.status, found.err), (0, ""))
                self.assertIn(found.out.encode(), files.values())
                self.assertEqual(sorted(os.listdir(self.folder)),
                                 ["one.csv", "t.bw", "t.bw.columns", "two.csv"])


class Names(Tools):
    """Names that begin as options do, standard input, and compressed files."""

    ASKS, ANSWER = "SELECT price FROM t WHERE id = 3", (0, "price\n13.50\n", "")

    def check(self, *words, given=b""):
        (self.folder / "-x.csv").write_bytes(SHOP)
        (self.folder / "x.csv.gz").write_bytes(gzip.compress(SHOP))
        made = tool("bw-import", *words, given=given, cwd=self.folder)
        self.assertEqual((made.status, made.err), (0, ""))
        done = tool("bw-ask", "--", words[-1], self.ASKS, cwd=self.folder)
        self.assertEqual(done, self.ANSWER)

    def test_names_after_two_dashes(self):
        self.check("--", "-x.csv", "-x.bw")

    def test_standard_input(self):
        self.check("-", "s.bw", given=SHOP)

    def test_a_compressed_file(self):
        self.check("x.csv.gz", "z.bw")

    def test_compressed_standard_input(self):
        self.check("-", "y.bw", given=gzip.compress(SHOP))

    def test_pipes(self):
        """They are read by programs of the PATH."""
        (self.folder / "x.csv").write_bytes(SHOP)
        (self.folder / "x.csv.gz").write_bytes(gzip.compress(SHOP))
        for name in ("x.csv", "x.csv.gz") if support.IS_WHOLE else ("x.csv.gz",):
            with self.subTest(name):
                done = support.sh(f"PATH='{PYTHON}/bin':$PATH; cat {name} | bw-import - p.bw && "
                                  f"bw-ask p.bw '{self.ASKS}'", self.folder)
                self.assertEqual((done.status, done.out[-12:], done.err), self.ANSWER)


class Closed(Tools):
    """Standard files that are closed: no other file gets their numbers."""

    WAYS = list(itertools.product((SHOP, b"\xef\xbb\xbf" + SHOP), ((0,), (0, 2), (2,)), (
        ["bw-import", "t.csv", "t.bw"], ["bw-shards", "load", "--rows", "2", "t.csv", "s"])))

    def test_closed(self):
        """The sample has each of the two files, the three sets and the two programs."""
        for data, numbers, words in self.WAYS if support.IS_WHOLE else self.WAYS[::3] + \
                self.WAYS[5:6]:
            with self.subTest(words[0], data=data[:3], numbers=numbers):
                (self.folder / "t.csv").write_bytes(data)
                done = subprocess.run(
                    [sys.executable, "-S", PYTHON / "bin" / words[0], *words[1:]],
                    cwd=self.folder, stdout=subprocess.PIPE, check=False, timeout=LONGEST,
                    preexec_fn=lambda numbers=numbers: list(map(os.close, numbers)))
                self.assertEqual(done.returncode, 0)
                done = tool("bw-ask", words[-1], "SELECT COUNT(*), MAX(id) FROM t",
                            cwd=self.folder)
                self.assertEqual(done, (0, "COUNT(*),MAX(id)\n4,4\n", ""))


class Output(Tools):
    """A result that is partly written fails, whether Python's output has a buffer or not, and a
    pipe may be closed."""

    def setUp(self):
        super().setUp()
        support.imported(self.folder / "t.bw", "a,b\n" + "".join(
            f"{number},some text that is the same\n" for number in range(5000)))

    def check(self, name, *words, given=b"", buffering=("", "1")):
        words = [sys.executable, "-S", PYTHON / "bin" / name, *words]
        for unbuffered in buffering:
            more = {"cwd": self.folder, "env": {**os.environ, "PYTHONUNBUFFERED": unbuffered},
                    "stderr": subprocess.PIPE}
            with self.subTest("a full disk", unbuffered=unbuffered), \
                    open(self.folder / "out", "wb") as out:
                done = subprocess.run(
                    words, input=given, stdout=out, check=False, **more,
                    preexec_fn=lambda: resource.setrlimit(resource.RLIMIT_FSIZE,
                                                          (1 << 16, 1 << 16)))
                self.assertEqual((done.returncode, done.stderr),
                                 (5, f"{name}: File too large\n".encode()))
            with self.subTest("a closed pipe", unbuffered=unbuffered), subprocess.Popen(
                    words, stdin=subprocess.PIPE, stdout=subprocess.PIPE, **more) as process:
                process.stdout.close()
                with contextlib.suppress(BrokenPipeError):
                    process.stdin.write(given)
                    process.stdin.close()
                told = process.stderr.read()
                self.assertEqual((process.wait(LONGEST), told), (5, b""))
            with self.subTest("nowhere", unbuffered=unbuffered):
                done = subprocess.run(words, input=given, check=False, **more,
                                      preexec_fn=lambda: os.close(1))
                self.assertEqual(done.returncode, 5)
                self.assertRegex(done.stderr, rb": standard output is closed\n\Z")

    def test_ask(self):
        self.check("bw-ask", "t.bw", "SELECT * FROM t")

    def test_from_numbers(self):
        numbers = bw("query", self.folder / "t.bw", "SELECT b, a, b, b FROM t").out
        self.check("bw-from-numbers", "t.bw.columns", given=numbers.encode(),
                   buffering=("", "1") if support.IS_WHOLE else ("",))


FIRST, SECOND = "SELECT id FROM t WHERE price > 2", "SELECT COUNT(*), MAX(land) FROM t"
BOTH = "id\n3\n4\n\nCOUNT(*),MAX(land)\n4,NA\n\n"
ENDS = [
    ("for its end", "SELECT id FROM t WHERE", "incomplete input at character 22 of the statement"),
    ("for a column", "SELECT x FROM t",
     "there is no column x at character 7 of the statement: there are id, land, price"),
    ("behind a text with all that ends a statement", "SELECT 'a;\n\n-- b' || x FROM t",
     "there is no column x at character 21 of the statement: there are id, land, price")]


class Asking(Tools):
    """A shop, of which statements are asked."""

    def setUp(self):
        super().setUp()
        support.imported(self.folder / "t.bw", SHOP.decode())

    def program_of(self, script):
        """Writes a program that answers a session as the shell script does, and is bw for
        everything else."""
        return str(write_script(self.folder / "program",
                                f'[ "$1" = session ] || exec "{BW}" "$@"\n{script}'))

    def typed(self, statements, *options):
        """Runs ask at a terminal at which statements are typed. Returns its status, and its output
        and errors in order."""
        ours, theirs = os.openpty()
        running = support.Running("bw-ask", *options, "t.bw", given=theirs, is_mixed=True,
                                  cwd=self.folder)
        os.close(theirs)
        # the last character is the key for the end of input
        os.write(ours, statements.encode() + b"\x04")
        done = running.done()
        os.close(ours)
        return done[:2]


class Statements(Asking):
    """Statements on standard input: one run of bw reads the table once, and answers them one after
    another."""

    def test_one_run_of_bw(self):
        log = self.folder / "log"
        program = self.program_of(f'echo "$@" >> "{log}"\nexec "{BW}" "$@"')
        self.assertEqual(self.ask(given=f"{FIRST}; {SECOND}", BW=program), (0, BOTH, ""))
        self.assertRegex(log.read_text(), r"\Asession /dev/fd/.*\n\Z")

    def test_ends_of_statements(self):
        for given in (f"{FIRST};{SECOND};", f"{FIRST}\n\n;{SECOND}\n\n\n", f"{FIRST};\n\n;{SECOND}",
                      f"{FIRST}\r\n;\r\n{SECOND}\r\n",
                      f"-- it's; 'one'\n{FIRST} -- or; two\n; {SECOND}\n-- end"):
            with self.subTest(given):
                self.assertEqual(self.ask(given=given), (0, BOTH, ""))
        for given in ("", "-- nothing\n\n;;\n"):
            with self.subTest(given):
                self.assertEqual(self.ask(given=given), (0, "", ""))

    def test_stats_and_show(self):
        stats = [self.ask(each, "--stats").err for each in (FIRST, SECOND)]
        done = self.ask("--stats", "--show", given=f"{FIRST}; {SECOND}")
        shown = [f"by statements of bw:\n  {each}\n"
                 for each in ("SELECT id FROM t WHERE price > 200", SECOND)]
        self.assertRegex(stats[0], r"\Aserved ")
        self.assertEqual(done, (0, BOTH, stats[0] + shown[0] + stats[1] + shown[1]))

    def test_refused_statements(self):
        """Each has an empty line."""
        for what, statement, fault in ENDS:
            with self.subTest(what):
                done = self.ask(given=f"{FIRST}; {statement}; {SECOND}")
                self.assertEqual(done, (3, "id\n3\n4\n\n\nCOUNT(*),MAX(land)\n4,NA\n\n",
                                        f"bw-ask: {fault}\n"))
                done = self.typed(f"{FIRST};\n{statement};\n{SECOND};\n")
                self.assertEqual(done, (3, f"id\n3\n4\n\nbw-ask: {fault}\n\nCOUNT(*),MAX(land)\n"
                                           "4,NA\n\n"))

    def test_standard_input_is_closed(self):
        done = subprocess.run(
            [sys.executable, "-S", PYTHON / "bin" / "bw-ask", "t.bw", FIRST], cwd=self.folder,
            stdout=subprocess.PIPE, stderr=subprocess.PIPE, check=False,
            preexec_fn=lambda: os.close(0))
        self.assertEqual((done.returncode, done.stdout, done.stderr), (0, b"id\n3\n4\n", b""))


class Large(Asking):
    """Results and statements that are longer than a pipe's buffer."""

    def setUp(self):
        Tools.setUp(self)
        # of 18 digits, so that few of them are long
        numbers = range(10 ** 17, 10 ** 17 + 12_000)
        rows = "".join(f"{number},text {number % 1000}\n" for number in numbers[:4500])
        support.imported(self.folder / "t.bw", f"a,b\n{rows}")
        many, more = (", ".join(map(str, numbers[::step])) for step in (5, 3))
        self.asked = ["SELECT * FROM t", f"SELECT a FROM t WHERE a < {10 ** 17 + 3}",
                      "SELECT a, b, a FROM t WHERE b <> 'text 7'",
                      f"SELECT a FROM t WHERE a IN ({many})",
                      f"SELECT a FROM t WHERE a IN ({more})", "SELECT b FROM t"]

    def test_large(self):
        found = [self.ask(each, "--stats") for each in self.asked]
        short = [(each, done) for each, done in zip(self.asked, found) if len(each) < 1000]
        done = self.typed("".join(f"{each};\n" for each, _ in short), "--stats")
        right = "\n".join(each.err + each.out for _, each in short)
        self.assertEqual((done[0], done[1].replace("\n\n", "\n")),
                         (0, right.replace("\n\n", "\n")))
        done = self.ask("--stats", given=";\n".join(self.asked[:4]))
        self.assertEqual(done, (0, "".join(f"{each.out}\n" for each in found[:4]),
                                "".join(each.err for each in found[:4])))
        # the second of these is too long for bw
        done = self.ask(given="; ".join(self.asked[place] for place in (0, 4, 5)))
        self.assertEqual(done, (0, "".join(f"{found[place].out}\n" for place in (0, 4, 5)), ""))
        self.assertEqual(found[4].out.count("\n"), 1_501)


# how a session ends by itself, which another one follows, its output, the message, and the status
ENDED = [
    ("before it answers", 'echo "bw: 801 out of memory" >&2; exit 6', "\n\n",
     "bw: 801 out of memory\n" * 2, 6),
    ("without a word", "exit 7", "\n\n",
     "bw-ask: bw session ended with status 7 before a result\n" * 2, 7),
    ("as if all were well", "exit 0", "\n\n",
     "bw-ask: bw session ended with status 0 before a result\n" * 2, 5),
    ("by a signal", "kill -9 $$", "\n\n", "bw-ask: bw session was ended by signal 9\n" * 2, 137),
    ("after an answer",
     'read line; printf "id\\n1\\n\\n"; read line; read line; exit 7', "id\n1\n\n\n",
     "bw-ask: bw session ended with status 7 before a result\n", 7),
    ("in an answer", 'read line; printf "id\\n1\\n"; kill -TERM $$', "\n\n",
     "bw-ask: bw session was ended by signal 15\n" * 2, 143),
    ("with an answer too many", 'read line; printf "id\\n1\\n\\nid\\n2\\n\\n"; cat > /dev/null',
     "\n\n",
     "bw-ask: bw session returned more results than it was sent statements\n" * 2, 5),
    # an empty line is sent after each statement
    ("without a reason for an empty answer",
     'read line; printf "id\\n1\\n\\n"; read line; read line; printf "\\n"; cat > /dev/null',
     "id\n1\n\n\n", "bw-ask: bw session gave no answer and no reason\n", 5)]


@support.each(ENDED)
class Ended(Asking):
    """A session that ends by itself."""

    def check(self, _, script, wanted, told, status):
        done = self.ask(given="SELECT id FROM t; SELECT id FROM t", BW=self.program_of(script))
        self.assertEqual(done, (status, wanted, told))


class Places(Tools):
    """The tools from any folder, with the program of any place."""

    ASKS = "SELECT price FROM t WHERE id = 3"

    def setUp(self):
        super().setUp()
        (self.folder / "bin").mkdir()
        for name in support.TOOLS:
            (self.folder / "bin" / name).symlink_to(PYTHON / "bin" / name)
        (self.folder / "bin" / "bw").symlink_to(BW)
        (self.folder / "t.csv").write_bytes(SHOP)

    def run_in(self, *words, **names):
        return support.run(words, cwd=self.folder, **names)

    def test_a_copy_by_a_bare_python(self):
        """test_install has copies and symlinks that start by themselves."""
        support.copy_python(self.folder / "copy")
        self.imported(SHOP)
        done = self.run_in(sys.executable, "-I", "-S", "copy/bin/bw-ask", "t.bw", self.ASKS)
        self.assertEqual(done, (0, "price\n13.50\n", ""))

    def test_the_program_of_the_path(self):
        done = support.sh("bw-import t.csv u.bw --table u && bw-ask u.bw --show 'SELECT price FROM "
                          "u WHERE id = 3'", self.folder, BW="")
        self.assertEqual((done.status, done.out[-12:]), (0, "price\n13.50\n"))

    def test_no_program(self):
        path = f"{os.path.dirname(sys.executable)}:/usr/bin:/bin"
        if shutil.which("bw", path=path):
            self.skipTest("no program: uninstall bw")
        support.copy_python(self.folder / "copy")
        self.imported(SHOP)
        done = self.run_in("copy/bin/bw-ask", "t.bw", self.ASKS, BW="", PATH=path)
        self.assertEqual(done.status, 3)
        self.assertIn("no program bw on the PATH", done.err)

    def test_a_dry_run(self):
        dry, full = (tool("bw-import", "t.csv", *more, cwd=self.folder)
                     for more in (["--dry-run"], ["t.bw"]))
        self.assertEqual((dry.status, full.status), (0, 0))
        self.assertEqual(full.out[:len(dry.out)], dry.out)
        self.assertEqual(dry.out.count("\n"), full.out.count("\n") - 1)

    def test_a_report_that_nobody_reads(self):
        for name, made in (("bw-import", "head.bw"), ("bw-to-numbers", "head.csv")):
            with self.subTest(name):
                done = support.sh(f"{name} t.csv {made} | true", self.folder)
                self.assertEqual((done.status, done.err), (0, ""))
                for each in (made, f"{made.removesuffix('.csv')}.columns"):
                    self.assertTrue((self.folder / each).exists(), each)

    def test_names_of_tables(self):
        for name, table in (("t.bw", "t"), ("trips.24.bw", "trips_24"), ("2024.bw", "_2024"),
                            ("select.bw", "select_"), ("no", "no")):
            with self.subTest(name):
                made = tool("bw-import", "t.csv", name, cwd=self.folder)
                self.assertIn(f"is written, as table {table}, and", made.out)
                done = tool("bw-ask", name, "SELECT id FROM any_name WHERE id = 3",
                            cwd=self.folder)
                self.assertEqual(done, (0, "id\n3\n", ""))


TOTALS = ("SELECT COUNT(*), COUNT(num), SUM(num), MIN(num), MAX(land), MIN(day), MAX(at), SUM(ok) "
          "FROM t")


@support.each([(f"seed {seed}", seed) for seed in range(support.sample(2, 4))])
class Spellings(Tools):
    """Drawn conditions over drawn rows in drawn spellings select those that SQLite selects."""

    def check(self, _, seed):
        values = drawn.Spellings(random.Random(seed))
        rows, fields = values.rows(300)
        base, out = sqlite3.connect(":memory:"), io.StringIO(newline="")
        self.addCleanup(base.close)
        base.execute("CREATE TABLE t (id INTEGER, num REAL, land TEXT, day TEXT, at TEXT, "
                     "ok INTEGER)")
        base.executemany("INSERT INTO t VALUES (?, ?, ?, ?, ?, ?)", rows)
        csv.writer(out).writerows([["id", "num", "land", "day", "at", "ok"], *fields])
        self.assertEqual(self.imported(out.getvalue().encode()).status, 0)
        conditions = [values.condition(number % 3) for number in range(45)]
        done = self.ask(given="".join(f"SELECT id FROM t WHERE {asked};\n"
                                      for asked, _ in conditions))
        found = [answer.split("\n")[1:] for answer in done.out.rstrip("\n").split("\n\n")]
        self.assertEqual((done.status, len(found)), (0, len(conditions)), done.err)
        for (asked, instead), answer in zip(conditions, found):
            wanted = [str(number) for number, in base.execute(
                f"SELECT id FROM t WHERE {instead} ORDER BY id")]
            with self.subTest(asked):
                self.assertEqual(answer, wanted)
        self.check_totals(rows, fields)

    def check_totals(self, rows, fields):
        done = self.ask(TOTALS)
        self.assertEqual((done.status, done.err), (0, ""))
        record = next(csv.reader([done.out.split("\n")[1]]))
        numbers = [decimal.Decimal(field[1]) for row, field in zip(rows, fields)
                   if row[1] is not None]
        held = [[value for value in column if value is not None] for column in zip(*rows)]
        self.assertEqual([decimal.Decimal(text) for text in (*record[:4], record[7])],
                         [len(rows), len(numbers), sum(numbers), min(numbers), sum(held[5])])
        self.assertEqual(record[4:7], [max(held[2]), ".".join(reversed(min(held[3]).split("-"))),
                                       max(held[4])])

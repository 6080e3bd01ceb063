"""Files that change after they were opened: an error that names the file, never an answer of two
tables; and a file that is replaced by name is answered as it was."""
import contextlib
import importlib.util
import io
import os
import shutil
import signal
import time
from unittest import mock

import bwtools
from bwtools._cli import asking
from bwtools._database import Database
from bwtools._errors import Failed
from bwtools._storage import catalog
from bwtools._storage.catalog import open_catalog

from tests.support import (BW, Imported, Running, TestCase, in_fork, imported, sample, tool,
                           write_script)

ROWS = 60
WORDS = [("plum", "pear", "fig"), ("axe", "saw", "file")]
# a statement of each way that answers
STATEMENTS = {
    "totals": "SELECT COUNT(*), MAX(word) FROM t WHERE word > 'b'",
    "rows": "SELECT n, word FROM t WHERE n < 50",
    "first rows": "SELECT word FROM t LIMIT 3",
    "in order": "SELECT word, n FROM t ORDER BY n DESC LIMIT 5",
    "groups": "SELECT word, COUNT(*), SUM(price) FROM t GROUP BY word",
    "by SQLite": "SELECT upper(word), price * 2 FROM t WHERE n < 9",
    "of floats": "SELECT word, AVG(price) FROM t GROUP BY word HAVING COUNT(*) > 1"}


def raw(words):
    return "n,word,price\n" + "".join(f"{n},{words[n * n % 3]},{n}.5\n" for n in range(ROWS))


def overwrite(path, other):
    """Writes the bytes of another file into one, in its place, and not within the tick of the clock
    in which it was written last."""
    time.sleep(.02)
    data = other.read_bytes()
    with open(path, "r+b") as file:
        file.write(data)
        file.truncate()


class Changes(Imported):
    tables = {"other.bw": (raw(WORDS[1]), "--table", "t")}

    @classmethod
    def setUpClass(cls):
        super().setUpClass()
        cls.other = cls.folder / "other.bw"

    def setUp(self):
        self.folder = self.new_folder()
        imported(self.folder / "t.bw", raw(WORDS[0]), "--table", "t")
        for path in (self.other, self.other.with_name("other.bw.columns")):
            shutil.copy(path, self.folder)
        self.table, self.columns = self.folder / "t.bw", self.folder / "t.bw.columns"

    def connect(self, *paths):
        connection = bwtools.connect(*(paths or [self.table]))
        self.addCleanup(connection.close)
        return connection

    def change(self, path):
        overwrite(path, self.folder / path.name.replace("t.bw", "other.bw"))

    def failing(self, path):
        return self.assertRaisesRegex(bwtools.OperationalError,
                                      f"^{path} changed after it was opened")


class Connections(Changes):
    def test_each_way(self):
        for way, sql in STATEMENTS.items():
            for is_table in (True, False):
                for is_asked in (False, True):
                    self.setUp()
                    connection = self.connect()
                    path = self.table if is_table else self.columns
                    if is_asked:
                        # what was listed and read before doesn't count either
                        connection.execute(sql).fetchall()
                    self.change(path)
                    with self.subTest(way, is_table=is_table, is_asked=is_asked):
                        with self.failing(path):
                            connection.execute(sql)
                        self.assertNotIn("by_sqlite", vars(connection._database))
                        self.assertEqual(connection._database.engines.found, {})
                        with self.failing(path):
                            connection.execute("SELECT 1")

    def test_rows_that_are_fetched_later(self):
        for name in ("t.bw", "t.bw.columns"):
            for act in ("fetchall", "fetchone", "fetchmany", "df", "columns"):
                if act in ("df", "columns") and not importlib.util.find_spec("pandas"):
                    continue
                self.setUp()
                cursor, path = self.connect().execute("SELECT word, n FROM t"), self.folder / name
                self.change(path)
                with self.subTest(act, path=path), self.failing(path):
                    getattr(cursor, act)()

    def test_while_it_answers(self):
        """The program changes the file before it reads it, or, if it answers one statement, once
        it has."""
        before, after = "cp other.bw t.bw; exec {} \"$@\"", "{} \"$@\"; cp other.bw t.bw"
        for way, line in (*((way, before) for way in STATEMENTS), ("totals", after)):
            self.setUp()
            program = write_script(self.folder / "bw",
                                   f"cd '{self.folder}'; sleep .02; {line.format(BW)}")
            connection = self.connect()
            with mock.patch.dict(os.environ, {"BW": str(program)}), \
                    self.subTest(way, line=line), self.failing(self.table):
                connection.execute(STATEMENTS[way])

    def test_a_change_explains_a_failure(self):
        connection = self.connect()
        time.sleep(.02)
        self.table.write_bytes(b"nothing")
        with self.failing(self.table):
            connection.execute("SELECT COUNT(*) FROM t")
        self.setUp()
        connection = self.connect()
        time.sleep(.02)
        self.columns.write_bytes(b"nothing")
        with self.failing(self.columns):
            connection.execute("SELECT upper(word) FROM t")

    def test_what_is_no_change(self):
        """Reading it, and a file that is moved onto its name."""
        connection = self.connect()
        wanted = self.connect().execute("SELECT n, word FROM t").fetchall()
        self.table.read_bytes(), self.columns.read_bytes()
        self.assertEqual(connection.execute("SELECT n, word FROM t").fetchall(), wanted)
        time.sleep(.02)
        for path in (self.table, self.columns):
            os.replace(self.folder / path.name.replace("t.bw", "other.bw"), path)
        for sql in ("SELECT n, word FROM t", "SELECT n + 0, word || '' FROM t"):
            self.assertEqual(connection.execute(sql).fetchall(), wanted)

    def test_names_and_rights(self):
        """They have the time of change that bytes have: the bytes are compared."""
        wanted = self.connect().execute("SELECT n, word FROM t").fetchall()
        for act in (lambda path: path.chmod(0o600), lambda path: path.rename(f"{path}.moved"),
                    lambda path: os.link(path, f"{path}.other"), lambda path: os.utime(
                        path, ns=(1, path.stat().st_mtime_ns))):
            for name in ("t.bw", "t.bw.columns"):
                self.setUp()
                connection = self.connect()
                time.sleep(.02)
                act(self.folder / name)
                for sql in ("SELECT n, word FROM t", "SELECT n + 0, word || '' FROM t"):
                    self.assertEqual(connection.execute(sql).fetchall(), wanted)

    def test_a_time_that_is_set_back(self):
        for name in ("t.bw", "t.bw.columns"):
            self.setUp()
            connection, path = self.connect(), self.folder / name
            told, data = path.stat(), bytearray(path.read_bytes())
            time.sleep(.02)
            at = len(data) - 64 if name == "t.bw" else data.index(b"whole")
            data[at] ^= 1
            with open(path, "r+b") as file:
                file.write(data)
            os.utime(path, ns=(told.st_atime_ns, told.st_mtime_ns))
            with self.subTest(name), self.failing(path):
                connection.execute("SELECT COUNT(*) FROM t")

    def test_a_file_that_is_moved_away_while_bw_reads_it(self):
        """bw takes it for one that changed, and is asked again."""
        wanted = {way: self.connect().execute(sql).fetchall() for way, sql in STATEMENTS.items()}
        program = self.moving()
        for way, sql in STATEMENTS.items():
            (self.folder / "moved").unlink(missing_ok=True)
            connection = self.connect()
            with mock.patch.dict(os.environ, {"BW": str(program)}), self.subTest(way):
                self.assertEqual(connection.execute(sql).fetchall(), wanted[way])
                self.assertTrue((self.folder / "moved").exists())

    def moving(self):
        """Returns a bw that once fails as if its table had changed."""
        return write_script(self.folder / "bw", f"cd '{self.folder}'; [ -e moved ] || {{ touch "
                                                "moved; echo 'bw: 701 read failed' >&2; exit 5; }; "
                                                f"exec {BW} \"$@\"")

    def test_readers_of_a_pair_that_is_replaced_again_and_again(self):
        rights = []
        for words in WORDS:
            imported(self.folder / "r.bw", raw(words))
            with bwtools.connect(self.folder / "r.bw") as connection:
                rights.append(connection.execute("SELECT n, word FROM r").fetchall())

        def replace():
            for turn in range(1 << 20):
                imported(self.folder / "r.bw", raw(WORDS[turn % 2]))

        writer = in_fork(replace)
        try:
            for _ in range(sample(25, 60)):
                with bwtools.connect(self.folder / "r.bw") as connection:
                    self.assertIn(connection.execute("SELECT n, word FROM r").fetchall(), rights)
        finally:
            os.kill(writer, signal.SIGKILL)
            os.waitpid(writer, 0)

    def test_shards(self):
        for name, words in zip(("s", "other"), WORDS):
            imported(self.folder / name, raw(words), "--table", "t", "--shards", "3")
        for file in ("shard-002.bw", "shards.columns"):
            connection = self.connect(self.folder / "s")
            connection.execute("SELECT COUNT(*), MIN(word) FROM s").fetchall()
            overwrite(self.folder / "s" / file, self.folder / "other" / file)
            with self.subTest(file), self.failing(self.folder / "s" / file):
                connection.execute("SELECT COUNT(*), MIN(word) FROM s")
            self.addCleanup(imported, self.folder / "s", raw(WORDS[0]), "--table", "t",
                            "--shards", "3")
            imported(self.folder / "s", raw(WORDS[0]), "--table", "t", "--shards", "3")

    def test_a_shard_that_changes_on_a_worker(self):
        record = open_catalog([("t", str(self.table))]).only.parts[0].record
        program = write_script(self.folder / "bw", f"cd '{self.folder}'; {BW} \"$@\"; sleep .02; "
                                                   "cp other.bw t.bw")
        ask = [str(self.table), record, "columns", [], "SELECT COUNT(*) FROM t"]
        self.assertEqual(catalog.ask_shard(str(BW), *ask), (0, "", b"COUNT(*)\n60\n"))
        self.assertEqual(catalog.ask_shard(str(program), *ask), (5, catalog.CHANGED, b""))
        # the next one finds another table
        self.assertEqual(catalog.ask_shard(str(BW), *ask)[0], 3)
        self.setUp()
        ask[:2] = [str(self.table), open_catalog([("t", str(self.table))]).only.parts[0].record]
        self.assertEqual(catalog.ask_shard(str(self.moving()), *ask), (0, "", b"COUNT(*)\n60\n"))
        self.assertTrue((self.folder / "moved").exists())


class Programs(Changes):
    def test_bw_ask(self):
        for way, sql in STATEMENTS.items():
            self.setUp()
            program = write_script(self.folder / "bw", f"cd '{self.folder}'; sleep .02; "
                                                       f"cp other.bw t.bw; exec {BW} \"$@\"")
            done = tool("bw-ask", "t.bw", sql, cwd=self.folder, BW=str(program))
            with self.subTest(way):
                self.assertEqual((done.status, done.out), (5, ""))
                self.assertRegex(done.err, "\\Abw-ask: t.bw changed after it was opened")

    def test_statements_one_after_another(self):
        program = write_script(self.folder / "bw", f"cd '{self.folder}'; sleep .02; "
                                                   f"cp other.bw t.bw; exec {BW} \"$@\"")
        done = Running("bw-ask", "t.bw", given="SELECT COUNT(*) FROM t;SELECT n FROM t",
                       cwd=self.folder, names={"BW": str(program)}).done()
        self.assertEqual((done.status, done.out), (5, "\n\n"))
        self.assertEqual(done.err.count("t.bw changed after it was opened"), 2)

    def test_bw_from_numbers(self):
        def turn_back(*words, real=None):
            self.change(self.columns)

        with mock.patch("bwtools._cli.from_numbers.turn_back", turn_back):
            done = tool("bw-from-numbers", "t.bw.columns", cwd=self.folder, given="word\n1\n")
        self.assertEqual(done.status, 5)
        self.assertRegex(done.err, "\\Abw-from-numbers: t.bw.columns changed after it was opened")

    def test_verify(self):
        def sum_of(file, real=importlib.import_module("bwtools._storage.catalog").sum_of):
            found = real(file)
            self.change(self.table)
            return found

        with mock.patch("bwtools._storage.catalog.sum_of", sum_of):
            done = tool("bw-import", "--verify", "t.bw", cwd=self.folder)
        self.assertEqual((done.status, done.out), (5, ""))


class Written(Changes):
    """A long answer is written as it comes: all that is written is right."""

    def test_a_file_that_changes_while_an_answer_is_written(self):
        test = self

        class Out(io.StringIO):
            def write(self, text):
                if not self.tell():
                    test.change(test.columns)
                return super().write(text)

        sql, out, right = "SELECT n, word, word || 'x' FROM t", Out(), io.StringIO()
        with Database(open_catalog([("t", str(self.table))])) as database, \
                mock.patch.object(asking, "MOST_HELD", 1), \
                mock.patch("bwtools._result.ROWS_AT_ONCE", 7):
            answer = asking.Asking(database, "csv")
            result = database.answer(sql)
            answer.written(result, right, None)
            with self.assertRaisesRegex(Failed, f"{self.columns} changed after"):
                answer.written(result, out, None)
        self.assertEqual(right.getvalue().count("\n"), ROWS + 1)
        self.assertTrue(out.getvalue() and right.getvalue().startswith(out.getvalue()))
        self.assertLess(len(out.getvalue()), len(right.getvalue()))

    def test_a_short_answer_is_held(self):
        with Database(open_catalog([("t", str(self.table))])) as database:
            result, out = database.answer("SELECT word FROM t"), io.StringIO()
            self.change(self.columns)
            with self.assertRaisesRegex(Failed, "changed after it was opened"):
                asking.Asking(database, "csv").written(result, out, None)
        self.assertEqual(out.getvalue(), "")

    def test_a_file_for_an_answer(self):
        """It is written whole, or not at all."""
        with Database(open_catalog([("t", str(self.table))])) as database:
            answer = asking.Asking(database, "csv")
            answer.once = str(self.folder / "out")
            real = answer.written

            def written(*words):
                self.change(self.columns)
                return real(*words)

            with mock.patch.object(answer, "written", written), self.assertRaises(Failed):
                answer.ask("SELECT word FROM t")
        self.assertEqual([each for each in os.listdir(self.folder) if "out" in each], [])


class Forks(Changes):
    """A connection belongs to its process."""

    def test_a_fork(self):
        connection = self.connect()
        cursor = connection.execute("SELECT n, word FROM t")
        first, wanted = cursor.fetchone(), connection.execute("SELECT n, word FROM t").fetchall()
        uses = [lambda: connection.execute("SELECT n FROM t"), connection.cursor, cursor.fetchone,
                cursor.fetchall, lambda: cursor.fetchmany(2), lambda: cursor.execute("SELECT 1"),
                lambda: next(cursor), lambda: cursor.description, lambda: cursor.rowcount,
                cursor.df, cursor.columns, cursor.close, connection.commit, connection.rollback,
                connection.close]

        def use_all():
            for use in uses:
                with self.assertRaisesRegex(bwtools.ProgrammingError,
                                            f"^process {os.getppid()} opened this connection"):
                    use()
            # what leaves a block has nothing to report
            with contextlib.suppress(KeyError), connection, cursor:
                raise KeyError
            self.assertEqual(self.connect().execute("SELECT n, word FROM t").fetchall(), wanted)

        for _ in range(2):
            self.assertEqual(os.waitpid(in_fork(use_all), 0)[1], 0)
        self.assertEqual([first, *cursor.fetchall()], wanted)
        self.assertEqual(connection.execute("SELECT n, word FROM t").fetchall(), wanted)


class Alone(TestCase):
    def test_a_call_within_a_call(self):
        """As of a signal's handler: it is refused, and the first one goes on."""
        database = Database(open_catalog([]))

        def within():
            with self.assertRaisesRegex(Exception, "another call is under way"):
                database.alone(lambda: 1)
            return 2

        self.assertEqual((database.alone(within), database.alone(lambda: 3)), (2, 3))
        with self.assertRaises(KeyboardInterrupt):
            database.alone(mock.Mock(side_effect=KeyboardInterrupt))
        self.assertEqual((database.alone(lambda: 4), database.calls), (4, {}))

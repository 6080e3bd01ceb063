"""What bw prints below the line of an error, or after a result of the fallback, at a
terminal or with --explain: the place of the error and how to fix it, or why there was no program. A
pipe gets only the error's line, unless there is --explain, before the command or after it."""
import contextlib
import os
import pty
import re
import subprocess
import termios

from tests import pages, support
from tests.support import BW

SCHEMA = "examples/common.schema"
CSV = "examples/common.csv"

TRIPS = "examples/trips.schema"
TRIPS_CSV = "examples/trips.csv"
GROUPS = "ask once for each group, as docs/COOKBOOK.md shows"
JOINS = "a statement reads one table; join the CSV files before loading them"
PATTERNS = ("columns store whole numbers; bw-ask compares texts that bw-import loaded with = and "
            "<, and by IN")
NAMES = "a name is a letter or _, then letters, digits and _, and not a reserved word"
TEXTS = "columns store whole numbers; bw-ask takes texts of a table that bw-import loaded"

LONG = "SELECT a FROM t WHERE " + "a = 1 OR " * 20 + "zz = 1"


def missing(name, instead):
    """Returns the line that names a missing feature of the language."""
    return f"{name} is not in the language: {instead}"


# the arguments of a call; the lines below the error's own line. The call's folder has these files
FILES = {
    "bad.schema": b"TABLE t\nCOLUMN a 0 255 NOTNULL\n",
    "near.schema": b"TABLE t\nCOLUMN price1 0 9\nCOLUMN price2 0 9\n",
    "many.schema": b"TABLE t\n" + b"".join(b"COLUMN column_%d 0 9\n" % number
                                           for number in range(12)),
    "many.csv": b"".join(b"%scolumn_%d" % (b"," if number else b"", number) for number in range(12))
    + b"\n",
    "long_rows.csv": b"a,b\n" + b"1,2\n" * 20000,
    "gaps.csv": b"a,b\n\n\n1,2\n\n300,0\n",
    "other.csv": b"a,c\n1,2\n",
    "cut.bw": b"BWCOLUMN\x01",
    "wrong.prog": b"RESULT r0\nCERTIFICATE\nWRONG\n",
    "wrong_op.prog":
    b"# one\nFILL r0 1\nNOT r1 r0\nRESULT r1\nCERTIFICATE\nROW 0 DIFF 1 0 1 S\nFIXED\nFILL\nLOAD "
    b"0\nEND 0\n",
    "words.csv": b"a,b\n\"1\n\",2\n7,\"n/a\t\x1b\"\n",
    "long.csv": "a,b\n1,{}\n".format("\N{GREEK SMALL LETTER ALPHA}" * 30).encode(),
    "latin.csv": b"a,b\n1,caf\xe9\n",
    "null.csv": b"a,b\nNULL,1\n",
    "ragged.csv": b"a,b\n1,2\n1,2,3\n",
    "open.csv": b"a,b\n1,2\n\n3,\"4\n5,6\n",
    "three.csv": b"a,b,c\n1,2,3\n",
    "semicolon.csv": b"a;b\n1;2\n",
    "tab.csv": b"a\tb\n1\t2\n",
    "wide.csv": "a,b\n1,2\n".encode("utf-16"),
    "packed.csv": b"\x1f\x8b\x08\x00",
    "blank.csv": b"start time,b\n1,2\n",
    "reserved.csv": b"a,Count\n1,2\n",
    "byte.csv": b"a,b%\n1,2\n",
    "digit.csv": b"a,2b\n1,2\n",
    "twice.csv": b"a,b,A\n1,2,3\n",
    "unfit.csv":
    b"day,n,place\n2024-05-01,1,Boston\n2024-05-02,x,Berlin\n7,99999999999999999999,Paris\n",
    "far.csv": b"a,b\n1,-9223372036854775808\n2,1\n",
    "apart.schema": b"TABLE t\nCOLUMN a 0 255 NOT NULL\nCOLUMN b 1 256\n",
    "apart.csv": b"a,b\n1,1\n2,NULL\n3,4\n",
    "alike.schema": b"TABLE t\nCOLUMN a 0 255\nCOLUMN c 0 1048575\n",
    "alike.csv": b"a,c\n1,1\n2,NULL\n3,4\n",
}
CASES = [
    # of two names that are as near, the first
    (["plan", "near.schema", "SELECT price3 FROM t"],
     ["SELECT price3 FROM t", "       ^", "the nearest name is price1"]),
    (["direct", SCHEMA, CSV, "SELECT zz FROM t"],
     ["SELECT zz FROM t", "       ^", "the columns are a, b"]),
    (["direct", SCHEMA, CSV, "SELECT a\nFROM\tt\tWHERE x = 1\nOR a = 2"],
     ["FROM\tt\tWHERE x = 1", "    \t \t      ^", "the columns are a, b"]),
    (["direct", SCHEMA, CSV, "SELECT\ra,\r\n x\r FROM\x1bt\r\n WHERE a = 1"],
     [" x  FROM t ", " ^", "the columns are a, b"]),
    (["direct", TRIPS, TRIPS_CSV, "SELECT SUM(cent) FROM trips"],
     ["SELECT SUM(cent) FROM trips", "           ^", "the nearest name is cents"]),
    (["direct", TRIPS, TRIPS_CSV, "SELECT strat_station FROM trips"],
     ["SELECT strat_station FROM trips", "       ^", "the nearest name is start_station"]),
    (["direct", TRIPS, TRIPS_CSV, "SELECT cents FROM trip"],
     ["SELECT cents FROM trip", " " * 18 + "^", "the table's name is trips"]),
    (["direct", "many.schema", "many.csv", "SELECT z FROM t"],
     ["SELECT z FROM t", "       ^",
      "the columns are column_0, column_1, column_2, column_3, column_4, column_5 and 6 more"]),
    (["direct", SCHEMA, CSV, "SELECT a FROM t WHERE"],
     ["SELECT a FROM t WHERE", " " * 21 + "^", "expected NOT, NULL, a name, a number or ("]),
    (["direct", SCHEMA, CSV, "SELECT a FROM t WHERE a"],
     ["SELECT a FROM t WHERE a", " " * 23 + "^", "expected a comparison, BETWEEN, IN, IS or NOT"]),
    (["direct", SCHEMA, CSV, "SELECT a FROM t GROUP BY a"],
     ["SELECT a FROM t GROUP BY a", " " * 16 + "^", missing("GROUP BY", GROUPS),
      "expected WHERE, ; or the end"]),
    (["direct", SCHEMA, CSV, "SELECT a, COUNT(*) FROM t GROUP BY a"],
     ["SELECT a, COUNT(*) FROM t GROUP BY a", " " * 10 + "^", missing("GROUP BY", GROUPS)]),
    (["direct", SCHEMA, CSV, "SELECT a, COUNT(*) FROM t"],
     ["SELECT a, COUNT(*) FROM t", " " * 10 + "^",
      "select either columns, or COUNT, SUM, MIN and MAX"]),
    (["direct", SCHEMA, CSV, "SELECT AVG(a) FROM t -- not LIKE\nORDER BY a LIMIT 10 OFFSET 5"],
     ["SELECT AVG(a) FROM t -- not LIKE", " " * 7 + "^",
      missing("AVG", "ask for SUM and COUNT, and divide"),
      missing("ORDER BY",
              "rows are in the order of the file; sort the result, as docs/COOKBOOK.md shows"),
      missing("LIMIT", "cut the result, as `head` does")]),
    (["direct", SCHEMA, CSV, "SELECT DISTINCT a FROM t"],
     ["SELECT DISTINCT a FROM t", " " * 7 + "^",
      missing("DISTINCT", "pipe the rows through `sort -u`")]),
    (["direct", SCHEMA, CSV, "SELECT a FROM t JOIN u ON a = b"],
     ["SELECT a FROM t JOIN u ON a = b", " " * 16 + "^", missing("JOIN", JOINS),
      missing("ON", JOINS), "expected WHERE, ; or the end"]),
    (["direct", SCHEMA, CSV, "SELECT a FROM t WHERE b LIKE 'x%'"],
     ["SELECT a FROM t WHERE b LIKE 'x%'", " " * 24 + "^", missing("LIKE", PATTERNS),
      missing("a text in quotes", TEXTS),
      "expected a comparison, BETWEEN, IN, IS or NOT"]),
    (["direct", SCHEMA, CSV, 'SELECT "a" FROM t WHERE b < 5.5'],
     ['SELECT "a" FROM t WHERE b < 5.5', " " * 7 + "^",
      missing("a name in quotation marks",
              "write it bare; bw-ask takes a heading in double quotes"),
      missing("a fraction such as 5.5",
              "numbers are whole; bw-ask takes decimals of a table that bw-import loaded")]),
    (["direct", SCHEMA, CSV, "SELECT a + 1, a * b FROM t WHERE a > -1"],
     ["SELECT a + 1, a * b FROM t WHERE a > -1", " " * 9 + "^",
      missing("arithmetic", "compute before loading, or from the result"), "expected FROM or ,"]),
    (["direct", SCHEMA, CSV, "SELECT t.a FROM t"],
     ["SELECT t.a FROM t", " " * 7 + "^",
      missing("a table's name before a column's", "write the column's name alone")]),
    (["plan", SCHEMA, "SELECT a FROM t WHERE a != 1"],
     ["SELECT a FROM t WHERE a != 1", " " * 24 + "^", missing("!=", "write <>")]),
    (["plan", SCHEMA, "SELECT a FROM t WHERE a == 1"],
     ["SELECT a FROM t WHERE a == 1", " " * 25 + "^", missing("==", "write ="),
      "expected NULL, a name or a number"]),
    (["direct", SCHEMA, CSV, LONG], [LONG[-56:], " " * 50 + "^", "the columns are a, b"]),
    (["direct", SCHEMA, CSV, "SELECT zz FROM t WHERE " + "a = 1 OR " * 20 + "b = 1"],
     [("SELECT zz FROM t WHERE " + "a = 1 OR " * 20)[:74], "       ^", "the columns are a, b"]),
    (["direct", SCHEMA, CSV, "SELECT a FROM t WHERE " + "(" * 101 + "a = 1" + ")" * 101],
     [("SELECT a FROM t WHERE " + "(" * 101)[72:122] + "(a = 1" + ")" * 18, " " * 50 + "^",
      "brackets and NOTs are nested at most 100 deep"]),
    (["direct", "bad.schema", CSV, "SELECT a FROM t"], ["line 2 of bad.schema"]),
    (["direct", SCHEMA, "gaps.csv", "SELECT a FROM t"],
     ['gaps.csv line 6, column a: "300" is not from 0 to 255']),
    (["load", SCHEMA, "words.csv", "new.bw"],
     ['words.csv line 2, column a: "1\\n" is not a whole number']),
    (["load", SCHEMA, "long.csv", "new.bw"],
     ['long.csv line 2, column b: "' + "\N{GREEK SMALL LETTER ALPHA}" * 20
      + '..." is not a whole number']),
    (["load", SCHEMA, "latin.csv", "new.bw"],
     ['latin.csv line 2, column b: "caf\\xe9" is not a whole number']),
    (["load", SCHEMA, "null.csv", "new.bw"],
     ['null.csv line 2, column a: "NULL" is null, but the column is NOT NULL']),
    (["load", SCHEMA, "ragged.csv", "new.bw"], ["ragged.csv line 3: 3 fields: expected 2"]),
    (["load", SCHEMA, "open.csv", "new.bw"],
     ['open.csv line 4, column b: "4\\n5,6\\n" is not a whole number',
      "open.csv line 4: a quotation mark opens a field there, but none closes it"]),
    (["load", SCHEMA, "three.csv", "new.bw"], ["three.csv line 1: 3 headings: expected 2"]),
    (["load", SCHEMA, "semicolon.csv", "new.bw"],
     ['semicolon.csv line 1: heading 1 is "a;b": expected a',
      "semicolon.csv fields seem to be separated by a semicolon: bw-import loads such files"]),
    (["load", SCHEMA, "wide.csv", "new.bw"], ["wide.csv the file is UTF-16: bw-import loads it"]),
    (["load", SCHEMA, "packed.csv", "new.bw"],
     ["packed.csv the file is compressed by gzip: gunzip it"]),
    (["load", SCHEMA, "other.csv", "new.bw"], ['other.csv line 1: heading 2 is "c": expected b']),
    (["infer", "blank.csv"],
     ['blank.csv line 1: heading 1 is "start time": a name must not contain spaces']),
    (["infer", "reserved.csv"],
     ['reserved.csv line 1: heading 2 is "Count": it is a reserved word']),
    (["infer", "byte.csv"], ['byte.csv line 1: heading 2 is "b%": a name must not contain "%"']),
    (["infer", "digit.csv"],
     ['digit.csv line 1: heading 2 is "2b": a name begins with a letter or _']),
    (["infer", "twice.csv"], ['twice.csv line 1: heading 3 is "A", as heading 1 is']),
    (["infer", "tab.csv"],
     ['tab.csv line 1: heading 1 is "a\\tb": a name must not contain "\\t"',
      "tab.csv fields seem to be separated by a tab: bw-import loads such files"]),
    (["infer", "unfit.csv"],
     ['unfit.csv line 2, column day: "2024-05-01" is not a whole number',
      'unfit.csv line 2, column place: "Boston" is not a whole number',
      'unfit.csv line 3, column n: "x" is not a whole number',
      "unfit.csv bw-import loads texts, decimals and dates"]),
    (["infer", "far.csv"], ["far.csv column b: from -9223372036854775808 to 1 is 2^63 or more"]),
    (["load", SCHEMA, "nothing.csv", "new.bw"],
     ["nothing.csv can't be opened or read: No such file or directory (os error 2)"]),
    (["load", SCHEMA, ".", "new.bw"], [". can't be opened or read: Is a directory (os error 21)"]),
    (["load", SCHEMA, CSV, "no/new.bw"],
     ["no/new.bw can't be written: No such file or directory (os error 2)"]),
    (["dump", "cut.bw"], ["byte 9 of cut.bw, from 0"]),
    (["check", SCHEMA, "SELECT a FROM t", "wrong.prog"], ['wrong.prog line 3: "WRONG"']),
    (["check", SCHEMA, "SELECT a FROM t", "wrong_op.prog"],
     ['wrong_op.prog line 9: "LOAD 0"', 'wrong_op.prog expected for instruction 1: "NOT r1 r0"']),
    (["infer", "--table", "select", CSV], ['--table is "select": it is a reserved word', NAMES]),
    (["infer", "--table", "my sales", CSV],
     ['--table is "my sales": a name must not contain spaces', NAMES]),
    (["load", CSV, SCHEMA, "new.bw"],
     [f"{CSV} seems to be a CSV file: expected a schema: bw load [--columnar] "
      "[--layout planes|slices] SCHEMA "
      "CSV OUT"]),
    (["direct", "long_rows.csv", SCHEMA, "SELECT a FROM t"],
     ["long_rows.csv seems to be a CSV file: expected a schema: bw direct SCHEMA CSV SQL"]),
    (["query", CSV, "SELECT a FROM t"],
     [f"{CSV} seems to be a CSV file: expected a table file: bw query [--program FILE] [--stats] "
      "TABLE SQL"]),
    (["info", SCHEMA], [f"{SCHEMA} seems to be a schema: expected a table file: bw info "
                        "[--verify] TABLE"]),
    (["load", SCHEMA, "cut.bw", "new.bw"],
     ["cut.bw seems to be a table file: expected a CSV file: bw load [--columnar] "
      "[--layout planes|slices] "
      "SCHEMA CSV OUT"]),
    (["plan", SCHEMA, "SELECT a FROM t WHERE b = 99999999999999999999"],
     ["SELECT a FROM t WHERE b = 99999999999999999999", " " * 26 + "^",
      "numbers are from -9223372036854775808 to 9223372036854775807"]),
]
# the arguments of a query that has a result, and the message on how its rows were found
ROWS = [
    (["query", "apart.bw", "SELECT a FROM t WHERE a = b"],
     ["the query used the fallback: there is no scan program for a = b",
      "scan programs can compare two columns only if their minimums are equal: a starts at 0, b "
      "at 1"]),
    (["query", "apart.bw",
      "SELECT a FROM t WHERE a < 5 AND NOT (a = 9 OR 7 BETWEEN a AND 8 OR b >= a)"],
     ["the query used the fallback: there is no scan program for b >= a",
      "scan programs can compare two columns only if their minimums are equal: b starts at 1, a "
      "at 0"]),
    (["query", "alike.bw", "SELECT a FROM t WHERE " + " AND ".join(["a < c", "a <> c"] * 200)],
     ["the query used the fallback: there is no scan program for the condition",
      "it takes more instructions or registers than a program may have"]),
    (["query", "alike.bw",
      "SELECT a FROM t WHERE a > 0 OR (" + " AND ".join(["a < c", "a <> c"] * 200) + ")"],
     ["the query used the fallback: there is no scan program for the condition",
      "it takes more instructions or registers than a program may have"]),
    (["query", "apart.bw", "SELECT COUNT(*) FROM t WHERE a < 5"], []),
    (["query", "apart.bw", "SELECT COUNT(*) FROM t"], []),
]

# what may be expected, each with a text of it
EXPECTED = {"SELECT": "SELECT", "*": "*", "COUNT, SUM, MIN, MAX": "COUNT", "FROM": "FROM",
            "WHERE": "WHERE", "a comparison": "<", "BETWEEN": "BETWEEN", "IN": "IN", "IS": "IS",
            "AND": "AND", "OR": "OR", "NOT": "NOT", "NULL": "NULL", "TRUE, FALSE, UNKNOWN": "TRUE",
            "a name": "a", "a number": "0", "(": "(", ")": ")", ",": ",", ";": ";", "the end": ""}
# beginnings of statements, one after each token of the grammar
BEGINNINGS = ["", "SELECT", "SELECT *", "SELECT a", "SELECT a,", "SELECT COUNT", "SELECT COUNT(",
              "SELECT COUNT(*", "SELECT COUNT(*)", "SELECT COUNT(*),", "SELECT MAX(",
              "SELECT MIN(a), SUM(", "SELECT a FROM", "SELECT a FROM t", "SELECT a FROM t;",
              *(f"SELECT a FROM t WHERE {text}" for text in (
                  "", "a", "-1", "+", "a <", "a < -", "a < 1", "NULL IS", "a IS NOT", "a IS NULL",
                  "a NOT", "1 BETWEEN", "a BETWEEN a", "a BETWEEN 1 AND", "a IN", "a IN (",
                  "a IN (1", "a NOT IN (1,", "a IN (1)", "NOT", "(", "NOT (a = 1", "((a = 1)",
                  "(a = 1) IS", "(a = 1) IS NOT", "(a = 1) IS NOT TRUE", "a = 1 AND",
                  "a = 1 AND b = 2", "a = 1 OR b = 2 AND NOT", "(a = 1 OR b = 2) AND (a = 1",
                  "a = 1;"))]


def is_accepted(beginning, text):
    """Returns whether bw goes on with a token after the beginning of a statement, or only has no
    table of this name."""
    error = support.bw("plan", SCHEMA, f"{beginning} {text}", cwd=support.ROOT).err
    found = re.match(r"bw: (\d+) .* at byte (\d+)", error)
    if found is None or not text:
        return found is None
    return int(found[2]) > len(beginning) + 1 or found[1] == "403"


def at_terminal(words, folder):
    """Returns what a call prints on standard error if that is a terminal: at most a few thousand
    bytes, which the terminal stores. It is read after the call, while this process still has the
    call's end of the terminal open. Otherwise Linux may report the terminal's end before the last
    bytes."""
    ours, theirs = pty.openpty()
    subprocess.run([BW, *words], cwd=folder, stdin=subprocess.DEVNULL, stdout=subprocess.DEVNULL,
                   stderr=theirs, check=False, timeout=support.LONGEST)
    os.set_blocking(ours, False)
    text = b""
    with contextlib.suppress(BlockingIOError):
        while True:
            text += os.read(ours, 4096)
    os.close(theirs)
    os.close(ours)
    return text.decode().replace("\r\n", "\n")


class Told(support.TestCase):
    """A folder with the files of the calls."""

    @classmethod
    def setUpClass(cls):
        cls.folder = cls.new_class_folder()
        pages.furnish(cls.folder)
        for name, content in FILES.items():
            (cls.folder / name).write_bytes(content)
        for name in ("apart", "alike"):
            support.bw("load", f"{name}.schema", f"{name}.csv", f"{name}.bw", cwd=cls.folder)

    def compare(self, words, below):
        """Compares what a call prints below its own line in each way. Returns that line."""
        alone = support.bw(*words, cwd=self.folder).err
        wanted = alone + "".join(f"    {line}\n" for line in below)
        self.assertEqual(at_terminal(words, self.folder), wanted)
        for asked in (["--explain", *words], [*words, "--explain"]):
            self.assertEqual(support.bw(*asked, cwd=self.folder).err, wanted)
        return alone


@support.each([(" ".join(words)[-90:], words, below) for words, below in CASES])
class Errors(Told):
    """Below the line of an error."""

    def check(self, _, words, below):
        alone = self.compare(words, below)
        self.assertRegex(alone, r"\Abw: .*\n\Z")


@support.each([(" ".join(words)[-90:], words, below) for words, below in ROWS])
class Rows(Told):
    """After a result of the fallback."""

    def check(self, _, words, below):
        self.assertEqual(self.compare(words, below), "")


@support.each([("input and errors", True, True, "bw> bw> "), ("input", True, False, ""),
               ("errors", False, True, "")])
class Prompts(support.TestCase):
    """A session prompts before the first statement and after each if its input and its standard
    error are a terminal."""

    def check(self, _, by_input, by_errors, wanted):
        folder = self.new_folder()
        support.bw("load", SCHEMA, CSV, folder / "t.bw", cwd=support.ROOT)
        given, errors = b"SELECT COUNT(*) FROM t;", b""
        ours, theirs = pty.openpty()
        with subprocess.Popen([BW, "session", folder / "t.bw"], stdout=subprocess.PIPE,
                              stdin=theirs if by_input else subprocess.PIPE,
                              stderr=theirs if by_errors else subprocess.PIPE) as process:
            if by_input:
                # the terminal doesn't repeat what is typed; twice the end of input ends it
                mode = termios.tcgetattr(theirs)
                mode[3] &= ~termios.ECHO
                termios.tcsetattr(theirs, termios.TCSANOW, mode)
                os.write(ours, given + b"\x04\x04")
            out, told = process.communicate(None if by_input else given, support.LONGEST)
        os.close(theirs)
        # all that was written there, in one piece or in two; then reading fails
        with contextlib.suppress(OSError):
            while part := os.read(ours, 4096):
                errors += part
        os.close(ours)
        self.assertEqual((out, errors.decode() + (told or b"").decode()),
                         (b"COUNT(*)\n5\n\n", wanted))


@support.each([(beginning[-30:], beginning) for beginning in BEGINNINGS])
class Expected(support.TestCase):
    """What is expected at a syntax error is just what bw accepts there."""

    def check(self, _, beginning):
        wrong = "SELECT" if beginning else "FROM"
        line = support.bw("--explain", "plan", SCHEMA, f"{beginning} {wrong}",
                          cwd=support.ROOT).err.splitlines()[-1]
        names = "|".join(map(re.escape, sorted(EXPECTED, key=len, reverse=True)))
        self.assertRegex(line, rf"\A    expected (({names})(, | or |\Z))+\Z")
        found = re.findall(rf"({names})(?:, | or |\Z)", line.removeprefix("    expected "))
        accepted = [name for name, text in EXPECTED.items() if is_accepted(beginning, text)]
        self.assertEqual(sorted(found), sorted(accepted))

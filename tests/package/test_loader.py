"""Files that bw codes: whole or in parts, as they are or with records that are written anew, they
become the same tables; and so do fields that are examined together and one by one."""
import contextlib
import csv
import io
import os
import random
import tempfile
import unittest
from array import array
from unittest import mock

from bwtools._cli import import_
from bwtools._csv.dialect import Signs
from bwtools._errors import Refused
from bwtools._storage import catalog
from bwtools._storage.catalog import Folder
from bwtools.loader import dictionary, encode, importing
from bwtools.loader.dictionary import ByteFile, merge, read_fields

from tests.support import Import, TestCase, bw, described, import_parser, sample, sample_of

FIELDS = ["1", "-5", "0", "1.5", "2.50", "-0.0", "", "NA", "9223372036854775807", "1,5", "x",
          "007", "1e3", "1e-05", "1000.125", "2.000", "2024-05-01 10:00:00",
          "2024-05-01 10:00:00.5", "2024-05-01T10:00", "2024-05-01T10:00Z", "2024-05-01", "10:00",
          "2024-05-01T10:00:00+02:00", "1234.567", "true", " 7", "8\t", "-", "1.234", "12.0",
          "0.1", "99999999999999999999", "x y", " x", "é", "NaN", "555-1234", "1-5", "a\"b",
          "two\nlines", "\r\n", "a;b", "#c", "+7", "$1.50", "12/31/2024"]
WORDS = [(), (), (), ("--keep-spelling",), ("--number", "a"), ("--drop-blanks",),
         ("--keep-blanks",), ("--text", "a"), ("--digits", "a=1"), ("--null", "x"),
         ("--null=-5",), ("--comment", "#"), ("--keep-spelling", "--keep-blanks")]
# all fields stay texts as they are
KEPT = ("--text", "a", "--text", "b", "--text", "c", "--keep-blanks", "--keep-spelling")
# all fields are examined one by one, or as many at a time as may be
ALONE = {"bwtools._inference.fields.MANY": 1 << 40}
TOGETHER = {"bwtools._inference.fields.MANY": 0}
FEW = {"bwtools._inference.fields.MANY": 0, "bwtools._inference.fields.AT_ONCE": 2,
       "bwtools.loader.dictionary.FIELDS_A_BLOCK": 3}


def drawn_fields(draw):
    """Returns fields of a column, of one or a few kinds."""
    if draw.random() < .5:
        return draw.sample(FIELDS, draw.choice([1, 1, 2, 3, 4]))
    kinds = ([str(draw.randrange(-50, 5000)) for _ in range(20)],
             [f"{draw.randrange(-500, 5000) / 100:.2f}" for _ in range(20)],
             [repr(draw.gauss(0, 100)) for _ in range(20)],
             [f"2024-05-{day:02}" for day in range(1, 30)],
             [f"2024-05-01 {hour:02}:30:00" for hour in range(24)],
             ["".join(draw.choices("abcé中", k=3)) for _ in range(20)], ["true", "false"])
    return draw.choice(kinds) + draw.choice([[], [], [""], ["", "NA"], ["-"], ["7"]])


def drawn_text(draw, separator=";"):
    """Returns a CSV of two columns, with its rows."""
    columns = [drawn_fields(draw) for _ in range(2)]
    rows = [[draw.choice(fields) for fields in columns] for _ in range(draw.randrange(1, 25))]
    out = io.StringIO(newline="")
    writer = csv.writer(out, delimiter=separator, lineterminator=draw.choice(["\n", "\r\n"]))
    for row in [["a", "b"], *rows]:
        writer.writerow(row)
        out.write("\n" * (draw.random() < .05))
    return out.getvalue(), rows


@contextlib.contextmanager
def patched(names):
    with contextlib.ExitStack() as stack:
        for name, value in names.items():
            stack.enter_context(mock.patch(name, value))
        yield


def found(data, words, names=()):
    """Returns what a file becomes, or why it is refused."""
    with patched(dict(names)):
        made = Import(data, *words)
    return made.refusal or (made.kinds, made.rows, made.report)


class Together(unittest.TestCase):
    def test_as_one_by_one(self):
        draw, kinds = random.Random(10), set()
        for _ in range(sample(20, 70)):
            words = ("--heading", *draw.choice(WORDS))
            data, _ = drawn_text(draw)
            wanted = found(data, words, ALONE)
            for names in (TOGETHER, FEW):
                self.assertEqual(found(data, words, names), wanted, (data, words, names))
            kinds |= set(wanted[0]) if isinstance(wanted, tuple) else {"refused"}
        self.assertGreaterEqual(kinds, {"whole", "decimals", "floats", "texts", "dates", "times",
                                        "truths", "refused"})

    def test_a_word_of_odd_bytes_is_no_field(self):
        for data in ("a\n1\n", "a\nx\ny\n"):
            self.assertEqual(found(data, ("--null", "\udcff")), found(data, ()))

    def test_fields_come_back(self):
        """With the two options that keep all, each field that isn't null is what it was."""
        draw, count, files = random.Random(11), 0, sample(20, 70)
        for _ in range(files):
            data, rows = drawn_text(draw)
            words = ("--heading", "--keep-spelling", "--keep-blanks")
            made = Import(data, *words)
            if made.refusal:
                continue
            for place in range(2):
                kind, rest = made.columns[place].kind, iter(made.numbers[place])
                nulls = {"", *made.columns[place].nulls}
                for row in rows:
                    if row[place] not in nulls:
                        self.assertEqual(kind.text(next(rest)), row[place], (data, kind.name))
                        count += 1
                self.assertEqual(list(rest), [])
        self.assertGreater(count, 7 * files)

    def test_records_that_are_written_anew(self):
        """Also if bw sees no column of numbers."""
        draw = random.Random(12)

        def anew(source, marked):
            width = len(source.headings)
            return encode.RecordFeed(source, marked, encode.heading_of(width))

        for patch in (mock.patch("bwtools.loader.encode.feed_of", anew),
                      mock.patch("bwtools.loader.table.MARKED", frozenset({0, 1}))):
            for _ in range(sample(8, 30)):
                words = ("--heading", *draw.choice(WORDS))
                data, _ = drawn_text(draw)
                wanted = found(data, words)
                with patch:
                    self.assertEqual(found(data, words), wanted, (data, words))

    def test_what_is_read_here(self):
        """Short rows, escaped signs, and marks of several bytes."""
        draw = random.Random(17)
        for _ in range(sample(5, 20)):
            data, rows = drawn_text(draw, ";")
            rows = [[*row, draw.choice("123")] for row in rows]

            def text(separator, short=False, escape=None, quote='"', comment=""):
                out = io.StringIO(newline="")
                writer = csv.writer(out, delimiter=separator, lineterminator="\r\n",
                                    escapechar=escape, doublequote=not escape, quotechar=quote)
                for row in [["a", "b", "c"], *rows]:
                    out.write(comment)
                    writer.writerow(row[:2] if short and row[2] == "1" else row)
                return out.getvalue()

            for words, other in ((("--fill",), text(";", True)),
                                 (("--escape", "\\"), text(";", escape="\\")),
                                 (("--quote", "é"), text(";", quote="é")),
                                 (("--separator", "§"), text("§")),
                                 (("--comment", "//"), text(";", comment="// no\r\n"))):
                wanted = [[row[0], row[1], "" if words == ("--fill",) and row[2] == "1" else row[2]]
                          for row in rows]
                found = Import(other, "--heading", *KEPT, *words)
                self.assertEqual(found.refusal, "")
                fields = [[found.columns[place].kind.text(number)
                           for number in found.numbers[place]] for place in range(3)]
                self.assertEqual(fields, [[row[place] for row in wanted if row[place]]
                                          for place in range(3)], (other, words))

    def test_other_encodings(self):
        draw = random.Random(13)
        for _ in range(sample(5, 20)):
            words = ("--heading", *draw.choice(WORDS))
            data, _ = drawn_text(draw)
            wanted = found(data, words)
            for name in ("utf-8-sig", "utf-16"):
                other = found(data.encode(name), words)
                self.assertEqual(str(other).replace(name, "utf-8"), str(wanted))


class Parts(TestCase):
    """One table, and shards of the same file."""

    def imported(self, data, out, *words):
        """Returns what an import prints, without the last line, or why it is refused."""
        path = self.folder / "raw.csv"
        path.write_bytes(data.encode())
        given = import_.options.parsed(import_parser(), [
            "--table", "t", *words, str(path), str(self.folder / out)])
        with contextlib.redirect_stdout(io.StringIO()) as told:
            try:
                importing.import_file(given, given.table, given.shards is not None)
            except Refused as refused:
                return str(refused)
        return told.getvalue().splitlines()[:-1]

    def content(self, out):
        """Returns the columns of a table or a folder, the rows of all its files, and how many each
        has."""
        path = self.folder / out
        files = sorted(path.glob("shard-*")) if path.is_dir() else [path]
        rows = [bw("dump", file).out.splitlines()[1:] for file in files]
        opened = Folder(str(path)) if path.is_dir() else catalog.open_pair(path)
        columns = opened.columns if path.is_dir() else opened.store.columns
        found = list(map(described, columns))
        opened.close() if path.is_dir() else opened.__exit__()
        return found, [row for each in rows for row in each], [len(each) for each in rows]

    def both(self, data, shards, *words):
        """Imports a file as a table and as shards. Returns how many rows each of these has, or None
        if it is refused."""
        told = self.imported(data, "one.bw", *words)
        self.assertEqual(self.imported(data, "many", "--shards", str(shards), *words), told, data)
        if isinstance(told, str):
            return None
        one, many = self.content("one.bw"), self.content("many")
        self.assertEqual(many[:2], one[:2], data)
        return many[2]

    def test_drawn(self):
        draw, self.folder, files = random.Random(14), self.new_folder(), sample(8, 30)
        counts = [self.both(drawn_text(draw)[0], draw.choice([1, 2, 3, 7]), "--heading",
                            *draw.choice(WORDS)) for _ in range(files)]
        self.assertGreater(sum(bool(count) for count in counts), files // 2)

    def test_kinds_that_a_part_does_not_show(self):
        """Whole numbers in one part, and anything else in another."""
        self.folder = self.new_folder()
        words_of = {last: [()] for last in (
            "2.5", "x", "", "NA", "9223372036854775807", "-9223372036854775808",
            "99999999999999999999", "2024-05-01", "1e300", " 7", "007", "+7", "true")}
        words_of["8"] = [("--text", "a"), ("--digits", "a=2"), ("--null=-3",)]
        words_of[" 7"] += [("--keep-spelling",), ("--text", "a"), ("--keep-blanks",)]
        pairs = [(last, words) for last, each in words_of.items() for words in each]
        for last, words in sample_of(pairs, 10, 14):
            with self.subTest(last, words=words):
                rows = ["-3,1", "4,2", "5,3", ",4", ",5", ",6", f"{last},7", "8,8", "9,9"]
                self.both("\n".join(["a,b", *rows, ""]), 3, "--heading", *words)

    def test_numbers_of_rows(self):
        self.folder = self.new_folder()
        lines = [f"{place},{place * 3 % 101}" for place in range(10_000)]
        self.assertEqual(self.both("\n".join(["a,b", *lines]), 3), [3334, 3334, 3332])
        lines = [f'{place},"two\n\nlines, {place}"' for place in range(1000)]
        self.assertEqual(self.both("\n\n".join(["a,b", *lines]), 4), [250] * 4)

    def test_more_than_a_table_may_have(self):
        """A file past the limits becomes shards by itself."""
        self.folder = self.new_folder()
        data = "a,b\n" + "".join(f"{place},{place % 7}x\n" for place in range(10_000))
        told = self.imported(data, "one.bw")
        for name, value in (("bwtools.loader.encode.MOST_BYTES", 1 << 16),
                            ("bwtools.loader.encode.encode", self.too_many)):
            with self.subTest(name), mock.patch(name, value), \
                    mock.patch("bwtools.loader.encode.MOST_ROWS", 4_000):
                self.assertEqual(self.imported(data, name[-6:]), told)
            self.assertEqual(self.content(name[-6:])[:2], self.content("one.bw")[:2])
            self.assertGreater(len(self.content(name[-6:])[2]), 2)

    def too_many(self, *given, real=encode.encode):
        coded = real(*given)
        if coded.rows > 4_000:
            raise encode.Rejected(207, "bw: 207 row count")
        return coded


class Words(unittest.TestCase):
    """Whole numbers with something else among them."""

    def test_words_among_whole_numbers(self):
        for data, wanted in (
                ("a,b\n1,-\n2,5\n", (["whole", "whole"], ["1,", "2,5"])),
                ("a,b\n1,1\n2,555-1234\n3,4\n", "'555-1234' in line 3 isn't a number"),
                ("a,b\n1,1\n2,1-5\n3,4\n", "'1-5' in line 3 isn't a number"),
                ("a,b\n1,1\n2,2024-11-11\n3,4\n", "'2024-11-11' in line 3 isn't a number"),
                ("a,b\n1,1\n2,\n", (["whole", "whole"], ["1,1", "2,"])),
                ("a,b\n1,1\n2,99999999999999999999\n", (["whole", "texts"], [
                    "1,1", "2,99999999999999999999"])),
                ("a,b\n1,1\n\n2,3\n", (["whole", "whole"], ["1,1", "2,3"])),
                ("a,b\n1,007\n2,3\n", (["whole", "texts"], ["1,007", "2,3"])),
                ("a,b\n1,NULL\n2,NULL\n", (["whole", "texts"], ["1,NULL", "2,NULL"])),
                ("a,b\n1,-\n2,NA\n", (["whole", "texts"], ["1,-", "2,NA"])),
                ("a,b\n1,\n2,\n", (["whole", "nulls"], ["1,", "2,"])),
                ("a,b\n1, \n2,\n", (["whole", "nulls"], ["1,", "2,"])),
                ("a,b\n1,\t\n2, \n", (["whole", "nulls"], ["1,", "2,"]))):
            with self.subTest(data):
                made = found(data, ())
                if isinstance(wanted, str):
                    self.assertIn(wanted, made)
                else:
                    self.assertEqual(made[:2], wanted)

    def test_words_alone(self):
        self.assertIn("texts: only 'NULL' and similar words", found("a,b\n1,NULL\n2,NULL\n", ())[2])
        for words in (("--null", "x"), ("--null", "b=x"), ("--null", "x", "--keep-blanks")):
            made = found("a,b\n1,x\n2,x\n3,\n", words)
            self.assertEqual(made[:2], (["whole", "nulls"], ["1,", "2,", "3,"]))
            self.assertIn("1 null as nothing, 2 nulls as 'x'", made[2])

    def test_options_for_whole_numbers(self):
        data = "a,b\n20240501,1\n20240502,2\n,3\n"
        for words, kinds, rows in (
                (("--date", "a=%Y%m%d"), "dates", ["20240501", "20240502", ""]),
                (("--text", "a"), "texts", ["20240501", "20240502", ""]),
                (("--digits", "a=1"), "decimals", ["20240501.0", "20240502.0", ""]),
                (("--null", "20240501"), "whole", ["", "20240502", ""]),
                (("--null", "7"), "whole", ["20240501", "20240502", ""])):
            with self.subTest(words):
                made = Import(data, *words)
                self.assertEqual((made.kinds[0], [row.split(",")[0] for row in made.rows]),
                                 (kinds, rows))


class Dictionaries(TestCase):
    def written(self, listed, path):
        """Returns the dictionary of some fields and their counts."""
        path.write_bytes(b"BWFIELDS" + (1).to_bytes(8, "little") + b"\1" +
                         array("Q", [len(listed), *listed.values(), *map(len, listed)]).tobytes() +
                         b"".join(listed))
        found, = read_fields(ByteFile(path))
        return found

    def content(self, found):
        fields = [field for block in found.blocks() for field in block.fields]
        return dict(zip(fields, found.counts))

    def test_merged(self):
        draw, folder = random.Random(15), self.new_folder()
        for turn in range(sample(20, 60)):
            with mock.patch.object(dictionary, "FIELDS_A_BLOCK", draw.choice([1, 2, 5, 100])), \
                    mock.patch.object(dictionary, "BYTES_A_BLOCK", draw.choice([3, 100])):
                listed = []
                for _ in range(draw.randrange(1, 5)):
                    fields = {bytes(draw.choices(b"ab\n\xc3\xff", k=draw.randrange(4)))
                              for _ in range(draw.randrange(9))}
                    listed.append({field: draw.randrange(1, 9) for field in sorted(fields)})
                parts = [self.written(each, folder / f"{turn}-{place}")
                         for place, each in enumerate(listed)]
                self.assertEqual(list(map(self.content, parts)), listed)
                merged, places = merge(parts, ByteFile(
                    folder / "merged", os.O_RDWR | os.O_CREAT | os.O_TRUNC))
                wanted = sorted({field for each in listed for field in each})
                self.assertEqual(self.content(merged), {field: sum(
                    each.get(field, 0) for each in listed) for field in wanted})
                for each, own in zip(listed, places):
                    self.assertEqual([wanted[place] for place in own], list(each))

    def test_ends_of_lines(self):
        for data in (b"", b"a", b"\n", b"\r\n", b"\r", b"\n\r", b"a\r\n\nb\r\r\n"):
            self.assertEqual(dictionary.breaks_in(data),
                             len(io.StringIO(data.decode() + "x", newline="").readlines()) - 1)


class Places(unittest.TestCase):
    """Where records begin."""

    def check(self, data, signs, count):
        """Compares the places after each record with those where csv reads on."""
        with tempfile.TemporaryFile() as file:
            file.write(data)
            file.flush()
            index = encode.Index(file, signs, 0)
            self.assertEqual(index.count, count)
            for number in range(count + 1):
                place = index.place_after(number)
                for part, wanted in ((data[:place], number), (data[place:], count - number)):
                    lines = io.StringIO(part.decode("latin-1"), newline="")
                    read = csv.reader(lines, delimiter=signs.separator, quotechar=signs.quote)
                    rows = [row for row in read if row and not (
                        signs.comment and row[0].startswith(signs.comment))]
                    self.assertEqual(len(rows), wanted, (data, number, place))

    def test_drawn(self):
        draw = random.Random(16)
        for at_once in (16, 1 << 20):
            for every in (1, 3, 1 << 12):
                with mock.patch.object(encode, "BYTES_AT_ONCE", at_once), \
                        mock.patch.object(encode, "EVERY", every):
                    for _ in range(sample(10, 25)):
                        signs = draw.choice([Signs(), Signs(";", "'"), Signs(comment="#")])
                        rows = [[draw.choice(["a", "é", "b\nc", "\r\n", "", signs.quote, "x" * 30])
                                 for _ in range(2)] for _ in range(draw.randrange(9))]
                        out = io.StringIO(newline="")
                        end = draw.choice(["\n", "\r\n"])
                        writer = csv.writer(out, delimiter=signs.separator, quotechar=signs.quote,
                                            lineterminator=end)
                        for row in rows:
                            out.write(draw.choice(["", "", "", end, signs.comment and "#'\"\n"]))
                            writer.writerow(row)
                        self.check(out.getvalue().encode(), signs, len(rows))
                        plain = out.getvalue().replace(signs.quote, "")
                        lines = [line for line in io.StringIO(plain) if line.strip("\r\n")]
                        if not signs.comment and "\r" not in plain.replace("\r\n", ""):
                            self.check(plain.encode(), signs, len(lines))

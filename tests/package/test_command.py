"""What the command line gives."""
import argparse
import unittest

from bwtools import _errors
from bwtools._errors import Refused
from bwtools._inference import options


def parsed(*words):
    parser = argparse.ArgumentParser()
    parser.add_argument("csv")
    parser.add_argument("out", nargs="?")
    options.add_options(parser)
    return options.parsed(parser, words)


class Arguments(unittest.TestCase):
    def test_names_after_two_dashes_are_names(self):
        for words, wanted in ((["--", "-x.csv", "-x.bw"], ("-x.csv", "-x.bw")),
                              (["a", "--", "--fill"], ("a", "--fill")),
                              (["--", "--"], ("--", None)),
                              (["a", "b", "--"], ("a", "b")), (["a", "-"], ("a", "-")),
                              (["--", "-"], ("-", None)), (["a", "--fill", "b"], ("a", "b"))):
            given = parsed(*words)
            with self.subTest(words):
                self.assertEqual((given.csv, given.out, given.fill),
                                 (*wanted, "--fill" in words and "--" not in words))
        given = parsed("--text", "-", "--", "-a")
        self.assertEqual((given.text, given.csv), (["-"], "-a"))

    def test_blanks_of_all_columns_and_of_some(self):
        given = parsed("--keep-blanks", "x.csv", "--drop-blanks=a b", "--drop-blanks==", "x.bw")
        self.assertEqual((given.csv, given.out, given.keep_blanks, given.drop_blanks),
                         ("x.csv", "x.bw", True, False))
        self.assertEqual((given.blanks_dropped, given.blanks_kept), (["a b", "="], []))
        self.assertEqual(parsed("--keep-blanks=", "x").blanks_kept, [""])
        self.assertEqual(parsed("x", "--", "--keep-blanks=a").out, "--keep-blanks=a")

    def test_table_names(self):
        for out, wanted in (("trips.bw", "trips"), ("a/b c.bw", "b_c"), ("2024.bw", "_2024"),
                            ("select.bw", "select_"), ("t.csv", "t_csv"), (None, "t"),
                            ("é%.bw", "e_"),
                            ("%.bw", "_"), ("folder", "folder")):
            self.assertEqual(_errors.table_name(None, out), wanted)
        self.assertEqual(_errors.table_name("u", "trips.bw"), "u")
        with self.assertRaisesRegex(Refused, "'a b' is not a valid name"):
            _errors.table_name("a b", "trips.bw")

"""The tokens of statements, by SQLite's lexical rules."""
import sqlite3
import unittest

from bwtools._errors import Refused
from bwtools._sql.lexer import MOST_TOKENS, quoted_name, text_literal, tokens_of


def texts(sql):
    """Returns the kinds and the texts of a statement's tokens."""
    return [(token.kind, token.text) for token in tokens_of(sql)[:-1]]


class Tokens(unittest.TestCase):
    def test_kinds(self):
        for sql, wanted in [
                ("SELECT a1$", [("word", "SELECT"), ("word", "a1$")]),
                ("élan _x", [("word", "élan"), ("word", "_x")]),
                ('"a""b" [c d] `e``f`', [("quoted", '"a""b"'), ("quoted", "[c d]"),
                                         ("quoted", "`e``f`")]),
                ("'it''s' x'0aF1'", [("text", "'it''s'"), ("blob", "x'0aF1'")]),
                ("1 1.5 .5 1. 1e9 1.5E-3 0x1F",
                 [("number", each) for each in "1 1.5 .5 1. 1e9 1.5E-3 0x1F".split()]),
                ("? ?1 :a @b $c::d(e)",
                 [("parameter", each) for each in "? ?1 :a @b $c::d(e)".split()]),
                ("a<=b<>c!=d==e||f->>g->h<<1", [("word", "a"), ("mark", "<="), ("word", "b"),
                                                ("mark", "<>"),
                                                ("word", "c"), ("mark", "!="), ("word", "d"),
                                                ("mark", "=="),
                                                ("word", "e"), ("mark", "||"), ("word", "f"),
                                                ("mark", "->>"),
                                                ("word", "g"), ("mark", "->"), ("word", "h"),
                                                ("mark", "<<"),
                                                ("number", "1")]),
                ("a-1", [("word", "a"), ("mark", "-"), ("number", "1")]),
                ("a.b", [("word", "a"), ("mark", "."), ("word", "b")]),
                ("", [])]:
            with self.subTest(sql):
                self.assertEqual(texts(sql), wanted)

    def test_blanks_and_comments_are_left_out(self):
        self.assertEqual([token.text
                          for token in tokens_of("a -- b\n/* c 'd */ e\t\f\r\nf /* open")],
                         ["a", "e", "f", ""])
        self.assertEqual(texts("a/**/b-- at the end"), [("word", "a"), ("word", "b")])
        self.assertEqual(texts("a /*"), [("word", "a"), ("mark", "/"), ("mark", "*")])

    def test_places(self):
        self.assertEqual([token.start for token in tokens_of("a  <= 'é' b")], [0, 3, 6, 10, 11])

    def test_names_and_values(self):
        names = [token.name for token in tokens_of('a "b""c" [d"e] `f``g` \'h\' 1')]
        self.assertEqual(names, ["a", 'b"c', 'd"e', "f`g", "", "", ""])
        self.assertEqual([token.key for token in tokens_of("select \"select\" Sum ( '('")],
                         ["SELECT", "", "SUM", "(", "", ""])
        self.assertEqual(tokens_of("'it''s'")[0].value, "it's")

    def test_what_is_no_token_is_refused(self):
        for sql, message in [("SELECT 12ab", "unexpected 12ab at character 7"),
                             ("a!b", "unexpected '!' at character 1"),
                             ("SELECT 'a",
                              "the quote ' at character 7 of the statement isn't closed"),
                             ('"a', 'the quote " at character 0'),
                             ("a [b", r"the quote \[ at character 2"),
                             ("x'0'", "unexpected x'0'"), ("1e", "unexpected 1e"),
                             ("0x10000000000000000", "more than 64 bits"),
                             ("a \0", "a character that isn't text"),
                             ("'\ud800'", "a character that isn't text")]:
            with self.subTest(sql), self.assertRaisesRegex(Refused, message):
                tokens_of(sql)

    def test_letters_of_names(self):
        """Each character of ASCII, and some beyond, begins or continues a name as in SQLite."""
        database = sqlite3.connect(":memory:")
        for character in [*map(chr, range(1, 128)), "\x80", "é", "\uffff", "\U0010ffff"]:
            for name in (f"{character}zz", f"a{character}zz"):
                try:
                    is_name = texts(name) == [("word", name)]
                except Refused:
                    is_name = False
                try:
                    sql = f"SELECT {name} FROM (SELECT 1 AS [{name}])"
                    columns = database.execute(sql).description if "]" not in name else [("",)]
                    column, = columns
                    is_known = column[0] == name
                except sqlite3.Error:
                    is_known = False
                with self.subTest(name):
                    self.assertEqual(is_name, is_known)

    def test_sqlite_agrees(self):
        """Statements are one of SQLite's tokens each: it refuses those that are refused here."""
        database = sqlite3.connect(":memory:")
        for sql in ["12ab", "'a", '"a', "x'0'", "1e", "a!b", "0xg", "1.5x", "é", "1e5", ".5",
                    "0x1F", "x'00'", "[a]"]:
            try:
                tokens_of(sql)
                is_refused = False
            except Refused:
                is_refused = True
            with self.subTest(sql), self.assertRaises(sqlite3.OperationalError) as error:
                database.execute(f"SELECT {sql} FROM FROM")
            self.assertEqual("unrecognized token" in str(error.exception), is_refused,
                             error.exception)

    def test_a_statement_has_so_many_tokens_at_most(self):
        words = ",".join("7" * (MOST_TOKENS // 2))
        self.assertEqual(len(tokens_of(words)), MOST_TOKENS)
        with self.assertRaisesRegex(Refused, "more than 70,000 words and signs: import a long "
                                             "list as a table"):
            tokens_of(f"{words},7,7")

    def test_literals_are_read_back(self):
        for text in ("", "it's", "a\nb", '"', "é"):
            token, _ = tokens_of(text_literal(text))
            self.assertEqual((token.kind, token.value), ("text", text))
            self.assertEqual(tokens_of(quoted_name(text or "`"))[0].name, text or "`")

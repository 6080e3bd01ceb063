"""The tokens of a statement, by SQLite's lexical rules."""
from __future__ import annotations

import re

from .._errors import Refused
from .._types.dictionary import is_unicode

# the kinds of tokens
WORD, QUOTED, TEXT, NUMBER, BLOB, PARAMETER, MARK, END = (
    "word", "quoted", "text", "number", "blob", "parameter", "mark", "end")
# a letter of a name, and a character after it: SQLite counts each one beyond ASCII as a letter. As
# what they aren't, these are fast to compile
LETTER = r"[^\x00-@\[-^`{-\x7f]"
NAME = r"[^\x00-#%-/:-@\[-^`{-\x7f]"
PATTERN = re.compile(rf"""(?P<gap>[ \t\n\f\r\ufeff]+|--[^\n]*|/\*(?:.*?\*/|.+\Z))
    |(?P<blob>[xX]'(?:[0-9A-Fa-f]{{2}})*')
    |(?P<number>(?:0[xX][0-9A-Fa-f]+|(?:[0-9]+(?:\.[0-9]*)?|\.[0-9]+)(?:[eE][+-]?[0-9]+)?)
        (?!{NAME}))
    |(?P<word>(?![xX]'){LETTER}{NAME}*)
    |(?P<text>'(?:[^']|'')*')
    |(?P<quoted>"(?:[^"]|"")*"|`(?:[^`]|``)*`|\[[^\]]*\])
    |(?P<parameter>\?[0-9]*|[:@#]{NAME}+|\${NAME}+(?:::{NAME}*)*(?:\([^)\s]*\))?)
    |(?P<mark>->>|->|\|\||<=|<>|<<|>=|>>|==|!=|[-()+*/%=<>|,&~.;])""", re.VERBOSE | re.DOTALL)

# what looks like a number or a blob, and isn't one
ODD = re.compile(rf"[0-9.]+{NAME}*|[xX]'[^']*'?")

# the longest numeral of digits that is surely within 64 bits
MOST_SHORT = 18
# the words and signs of a statement at most, each of which takes 10 to 80 microseconds: those of a
# list of as many parameters as SQLite takes
MOST_TOKENS = 70_000
# so many characters of a statement are in a message
MOST_SHOWN = 80
TOO_LONG = re.compile("0[xX]0*[1-9A-Fa-f][0-9A-Fa-f]{16}")


class Token:
    """A token: its kind, its text, and the place of its first character in the statement as it was
    written, from 0 on. `key` is its word in upper case if it has no quotes, so that it may be a
    keyword; or an operator or a sign; or an empty text."""
    __slots__ = ("kind", "text", "start", "key")

    def __init__(self, kind: str, text: str, start: int) -> None:
        self.kind, self.text, self.start = kind, text, start
        self.key = text.upper() if kind == WORD else text if kind == MARK else ""

    @property
    def end(self) -> int:
        """The place after its last character."""
        return self.start + len(self.text)

    @property
    def name(self) -> str:
        """The name that a word or a quoted word is, without its quotes; or an empty text."""
        if self.kind == WORD:
            return self.text
        if self.kind != QUOTED:
            return ""
        quote, inner = self.text[0], self.text[1:-1]
        return inner if quote == "[" else inner.replace(quote * 2, quote)

    @property
    def value(self) -> str:
        """The text that a literal in single quotes stands for, or an empty text."""
        return self.text[1:-1].replace("''", "'") if self.kind == TEXT else ""

    def __repr__(self) -> str:
        return f"Token({self.kind!r}, {self.text!r}, {self.start})"


def short(text: str) -> str:
    """Returns a part of a statement for a message: its first characters."""
    return text if len(text) <= MOST_SHOWN else f"{text[:MOST_SHOWN - 3]}..."


def text_literal(value: str) -> str:
    """Returns the literal of a text."""
    quoted = value.replace("'", "''")
    return f"'{quoted}'"


def quoted_name(name: str) -> str:
    """Returns a name in quotes that SQLite never reads as a text, as it does with a word in double
    quotes that it doesn't know."""
    quoted = name.replace("`", "``")
    return f"`{quoted}`"


def tokens_of(sql: str) -> list[Token]:
    """Returns the tokens of a statement without blanks and comments, the last of which is its end.
    Raises Refused for what isn't a token of SQLite, with its place."""
    if "\0" in sql or not is_unicode(sql):
        raise Refused("the statement has a character that isn't text")
    tokens, at = list[Token](), 0
    for found in PATTERN.finditer(sql):
        if found.start() > at:
            break
        kind, text = str(found.lastgroup), found.group()
        if kind == NUMBER and text[:2] in ("0x", "0X") and TOO_LONG.match(text):
            raise Refused(f"{short(text)} at character {at} of the statement has more than 64 bits")
        if kind != "gap":
            tokens.append(Token(kind, text, at))
            if len(tokens) > MOST_TOKENS:
                raise Refused(f"the statement has more than {MOST_TOKENS:,} words and signs: "
                              "import a long list as a table, and use IN (SELECT ...)")
        at += len(text)
    if at < len(sql):
        raise odd(sql, at)
    tokens.append(Token(END, "", len(sql)))
    return tokens


def odd(sql: str, at: int) -> Refused:
    """Returns the refusal of the characters at a place, where no token is."""
    where = f"at character {at} of the statement"
    if sql[at] in "'\"`[":
        return Refused(f"the quote {sql[at]} {where} isn't closed")
    found = ODD.match(sql, at)
    return Refused(f"unexpected {short(found.group()) if found else repr(sql[at])} {where}")


# words that are no name without quotes
RESERVED = frozenset(
    "ADD ALL ALTER AND AS AUTOINCREMENT BETWEEN CASE CHECK COLLATE COMMIT CONSTRAINT CREATE "
    "DEFAULT DEFERRABLE DELETE DISTINCT DROP ELSE ESCAPE EXCEPT EXISTS FOREIGN FROM GROUP HAVING "
    "IN INDEX INSERT INTERSECT INTO IS ISNULL JOIN LIMIT NOT NOTHING NOTNULL NULL ON OR ORDER "
    "PRIMARY REFERENCES RETURNING SELECT SET TABLE THEN TO TRANSACTION UNION UNIQUE UPDATE USING "
    "VALUES WHEN WHERE".split())
# those that are one, but no alias without AS
JOINS = frozenset("LEFT RIGHT FULL INNER OUTER CROSS NATURAL".split())
COMPOUND, QUERY = ("UNION", "INTERSECT", "EXCEPT"), ("SELECT", "WITH", "VALUES")
COMPARE = ("=", "==", "<>", "!=", "<", "<=", ">", ">=")
# the words before a literal of a date or a time
MOMENTS = ("DATE", "TIMESTAMP")

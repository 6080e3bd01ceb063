"""The names of tables and columns, and the limits of a table."""
from __future__ import annotations

import re


# The names of tables and columns.

RESERVED = set("AND BETWEEN COUNT FALSE FROM IN IS MAX MIN NOT NULL OR SELECT SUM TRUE UNKNOWN "
               "WHERE".split())


def is_name(text: str) -> bool:
    return re.fullmatch("[A-Za-z_][A-Za-z0-9_]{0,62}",
                        text) is not None and text.upper() not in RESERVED


def name_like(heading: str) -> str:
    """Returns a valid name that resembles a heading."""
    name = re.sub("[^A-Za-z0-9_]+", "_", ascii_of(heading.strip()))[:63] or "_"
    name = name if re.match("[A-Za-z_]", name) else f"_{name}"[:63]
    return name if is_name(name) else f"{name}_"


def ascii_of(text: str) -> str:
    """Returns a text without accents and without what ASCII doesn't have."""
    if text.isascii():
        return text
    import unicodedata
    return unicodedata.normalize("NFKD", text).encode("ascii", "ignore").decode()


def names_of(headings: list[str]) -> list[str]:
    """Returns a name for each heading: the heading itself, if it is a valid name that no earlier
    column has."""
    names, taken = [""] * len(headings), set()
    for place, heading in enumerate(headings):
        if is_name(heading) and heading.upper() not in taken:
            names[place] = heading
            taken.add(heading.upper())
    for place, heading in enumerate(headings):
        name, number = name_like(heading), 1
        while not names[place]:
            tried = name if number == 1 else f"{name[:63 - len(str(number)) - 1]}_{number}"
            if tried.upper() not in taken:
                names[place] = tried
                taken.add(tried.upper())
            number += 1
    return names


def option(name: str, value: str) -> str:
    """Returns an option as it is typed in a shell."""
    # for messages alone
    import shlex
    quoted = shlex.quote(value)
    # a comma may follow
    quoted = f"'{value}'" if quoted == value and value.endswith(",") else quoted
    return f"{name}{'=' if value.startswith('-') else ' '}{quoted}"


# The limits of one load of bw, and of a field that is imported.

MOST_COLUMNS, MOST_ROWS, MOST_BYTES = 64, 1 << 24, 1 << 30
# the characters of a field
MOST_CHARACTERS = 1 << 20

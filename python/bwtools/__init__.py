"""Answers questions in SQL over tables that bw-import wrote, after PEP 249.

    import bwtools

    with bwtools.connect("trips.bw", stations="stations.bw") as connection:
        cursor = connection.cursor()
        cursor.execute("SELECT city, COUNT(*) n, AVG(amount) FROM trips "
                       "WHERE day >= ? GROUP BY city ORDER BY n DESC LIMIT 3", ["2024-05-01"])
        print([column[0] for column in cursor.description])
        for row in cursor:
            print(row)
        frame = cursor.execute("SELECT day, amount FROM trips").df()

The SQL is that of SQLite. What bw can answer is asked of bw, with its proved scans; the rest SQLite
answers over the columns that bw lists for it. Rows have int, float, str, bool, decimal.Decimal,
datetime.date, datetime.datetime, datetime.time and None. `df` returns a data frame of pandas,
`columns` masked arrays of numpy. The errors of PEP 249 are attributes of this module, and so are
its types. docs/PYTHON.md has more.

Modules whose names begin with a low line, and those of the programs, may change at any time."""
from __future__ import annotations

import importlib
from typing import TYPE_CHECKING, Any

__version__ = "0.3.0"
apilevel, threadsafety, paramstyle = "2.0", 1, "qmark"

# what `help` shows, and `import *` gets: the errors and types are attributes, too
__all__ = ["apilevel", "threadsafety", "paramstyle", "connect"]
OTHERS = ("Connection", "Cursor", "Warning", "Error", "InterfaceError", "DatabaseError",
          "DataError", "OperationalError", "IntegrityError", "InternalError", "ProgrammingError",
          "NotSupportedError", "STRING", "BINARY", "NUMBER", "DATETIME", "ROWID", "Date", "Time",
          "Timestamp", "Binary", "DateFromTicks", "TimeFromTicks", "TimestampFromTicks")

if TYPE_CHECKING:
    from ._dbapi import (  # noqa: F401
        BINARY as BINARY, DATETIME as DATETIME, NUMBER as NUMBER, ROWID as ROWID, STRING as
        STRING, Binary as Binary, Connection as Connection, Cursor as Cursor, DatabaseError as
        DatabaseError, DataError as DataError, Date as Date, DateFromTicks as DateFromTicks, Error
        as Error, IntegrityError as IntegrityError, InterfaceError as InterfaceError,
        InternalError as InternalError, NotSupportedError as NotSupportedError, OperationalError
        as OperationalError, ProgrammingError as ProgrammingError, Time as Time, TimeFromTicks as
        TimeFromTicks, Timestamp as Timestamp, TimestampFromTicks as TimestampFromTicks, Warning
        as Warning, connect as connect)


def __getattr__(name: str) -> Any:
    # when one is used: programs that need none begin sooner
    if name != "connect" and name not in OTHERS:
        raise AttributeError(f"module {__name__!r} has no attribute {name!r}")
    return getattr(importlib.import_module("._dbapi", __name__), name)


def __dir__() -> list[str]:
    return sorted({*globals(), *__all__, *OTHERS})

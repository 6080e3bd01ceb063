"""The known suite of tests for PEP 249, dbapi20.py, if it is here: DBAPI20 names its file, as the
source of Debian's python-mysqldb has it in tests/. bw's tables are read only: what the suite
writes, bw-import writes for it, and a connection to what was written reads it."""
import importlib
import importlib.util
import os
import pathlib
import re
import tempfile
import types
import unittest

import bwtools
from bwtools._database import Database
from bwtools._storage.catalog import open_catalog

from tests.support import imported

FILE = os.environ.get("DBAPI20", "")
WRITE = re.compile(r"(create table|drop table|insert into) (\w+)(?: values \((.*)\))?", re.S)


def suite():
    """Returns the module of the suite, or None."""
    if FILE:
        spec = importlib.util.spec_from_file_location("dbapi20", FILE)
        module = importlib.util.module_from_spec(spec)
        spec.loader.exec_module(module)
        return module
    found = importlib.util.find_spec("dbapi20")
    return importlib.import_module("dbapi20") if found else None


class Cursor(bwtools.Cursor):
    """A cursor that keeps what is written, for the next statement that reads."""

    def execute(self, sql, parameters=()):
        found = WRITE.match(sql)
        if not found:
            self.connection.read_again()
            self._database = self.connection._database
            return super().execute(sql, parameters)
        self._refuse_closed()
        self.answer = None
        action, table, value = found.groups()
        tables = self.connection.tables
        if action == "insert into":
            values = list(parameters) if value == "?" else [None if value == "NULL"
                                                            else value[1:-1]]
            tables[table] += values
        elif action == "create table":
            tables[table] = []
        elif tables.pop(table, None) is None:
            raise bwtools.ProgrammingError(f"there is no table {table}")
        return self

    def executemany(self, sql, seq_of_parameters):
        for parameters in seq_of_parameters:
            self.execute(sql, parameters)
        return self


class Connection(bwtools.Connection):
    """A connection to what was written."""

    def __init__(self, folder, tables):
        self.folder, self.tables = folder, tables
        super().__init__(self.opened())

    def opened(self):
        paths = []
        for name, values in self.tables.items():
            path = pathlib.Path(self.folder) / f"{name}.bw"
            imported(path, "name,x\n" + "".join(f'"{value or ""}",1\n' for value in values),
                     "--text", "name", *(["--null", "name="] if None in values else []))
            paths.append((name, path))
        return Database(open_catalog(paths))

    def read_again(self):
        self._refuse_closed()
        self._database.close()
        self._database = self.opened()

    def cursor(self):
        self._refuse_closed()
        return Cursor(self)


SUITE = suite()


@unittest.skipUnless(SUITE, "dbapi20.py: apt-get source python-mysqldb, and set DBAPI20")
class Suite(SUITE.DatabaseAPI20Test if SUITE else unittest.TestCase):
    def setUp(self):
        folder = tempfile.TemporaryDirectory(prefix="unittests-")
        self.addCleanup(folder.cleanup)
        tables = {}
        names = {name: getattr(bwtools, name) for name in dir(bwtools)}
        self.driver = types.SimpleNamespace(**{
            **names, "connect": lambda: Connection(folder.name, tables)})

    def test_description(self):
        """A column without any value has no type, as none of sqlite3's has: so one gets a value."""
        def written(cursor):
            super(Suite, self).executeDDL1(cursor)
            cursor.execute(f"insert into {self.table_prefix}booze values ('x')")

        self.executeDDL1 = written
        super().test_description()

    def test_nextset(self):
        """A statement has one result."""
        self.assertFalse(hasattr(bwtools.Cursor, "nextset"))

    def test_setoutputsize(self):
        """It does nothing."""
        self._connect().cursor().setoutputsize(1)

"""A folder of shards, whenever an import that replaces it is stopped."""
import contextlib
import os
import pathlib
import signal
import tempfile
import unittest
from unittest import mock

from bwtools._storage import atomic, catalog, columns_file
from bwtools._storage.catalog import FILE, Folder, shard_file
from bwtools._types.base import Column
from bwtools.loader import importing

from tests.support import in_fork, texts


class Folders(unittest.TestCase):
    def setUp(self):
        folder = tempfile.TemporaryDirectory(prefix="unittests-")
        self.addCleanup(folder.cleanup)
        self.folder = pathlib.Path(folder.name)
        self.path = self.folder / "shards"

    def put(self, content, count=2):
        """Puts a folder of shards in place, each of this content, which is a text too."""
        with atomic.new_folder(self.path) as room:
            made = room / "made"
            made.mkdir()
            records = []
            for place in range(count):
                path = shard_file(made, place)
                path.write_text(content)
                records.append(catalog.record_of(path, path.name, 1))
            columns_file.write(made / FILE, [Column("a", "a", texts(content))], "t", records)
            atomic.put_folder(made, str(self.path), importing.refuse_out)

    def found(self):
        """Returns the contents of the shards, and the text of their columns file."""
        with contextlib.closing(Folder(str(self.path))) as folder:
            contents = []
            for place, record in enumerate(folder.shards):
                with open(folder.path_of(place), "rb") as file:
                    self.assertTrue(catalog.is_of(record, file))
                    contents.append(file.read().decode())
            self.assertEqual(folder.foreign_files(), [])
            return contents, list(folder.columns[0].kind.listed)

    def killed(self, content, is_done):
        """Puts a folder in a process that is killed before the folders are exchanged, or after."""
        def exchange(one, other, real=atomic.exchange):
            if is_done:
                real(one, other)
            os.kill(os.getpid(), signal.SIGKILL)

        def put():
            with mock.patch("bwtools._storage.atomic.exchange", exchange):
                self.put(content, 3)

        return os.waitpid(in_fork(put), 0)[1]

    def test_stopped_before_and_after_the_exchange(self):
        for is_done, wanted in ((False, ["old"] * 2), (True, ["new"] * 3)):
            self.put("old")
            with self.subTest(is_done):
                self.assertEqual(self.killed("new", is_done), signal.SIGKILL)
                self.assertEqual(self.found(), (wanted, wanted[:1]))
                self.assertEqual(len(os.listdir(self.folder)), 2)
                # what it left is removed by the next one
                self.put("third")
                self.assertEqual(self.found(), (["third"] * 2, ["third"]))
                self.assertEqual(os.listdir(self.folder), ["shards"])

    def test_stopped_over_a_table_file(self):
        self.path.write_text("a table")
        self.assertEqual(self.killed("new", True), signal.SIGKILL)
        self.assertEqual(self.found(), (["new"] * 3, ["new"]))

    def test_two_at_once(self):
        def put(number):
            for turn in range(10):
                self.put(f"{number} {turn}", number + 1)

        self.put("old")
        for process in [in_fork(lambda number=number: put(number)) for number in range(3)]:
            self.assertEqual(os.waitpid(process, 0)[1], 0)
        contents, listed = self.found()
        self.assertEqual(set(contents), set(listed))
        self.assertEqual(os.listdir(self.folder), ["shards"])

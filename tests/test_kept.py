"""Files that programs of earlier versions wrote, in tests/kept: table files and program files are
read as they were meant, and columns files are refused with what to do. docs/COMPATIBILITY.md
promises this. Each version's folder was written by its dist/bw, of git's commits 89cd20f3 (0.1.0),
d2b393b1 (0.2.0) and 20b7b62e (0.3.0), and by its Python programs."""
import gzip
import shutil

from tests import support
from tests.support import ROOT

KEPT = ROOT / "tests" / "kept"
VERSIONS = sorted(folder.name for folder in KEPT.iterdir() if folder.is_dir())
COUNT = "SELECT COUNT(*) FROM narrow WHERE small < 3 AND id > 100"


class Kept(support.TestCase):
    """What each version wrote. Tables are narrow and wide, which need versions 1 and 2 of the
    format."""

    def test_versions(self):
        self.assertEqual(VERSIONS, ["0.1.0", "0.2.0", "0.3.0"])

    def test_tables(self):
        for version in VERSIONS:
            for name in ("narrow", "wide"):
                rows = (KEPT / f"{name}.csv").read_text().replace(",,", ",NULL,")
                rows = rows.replace(",\n", ",NULL\n")
                for layout in ("planes", "slices"):
                    with self.subTest(version, name=name, layout=layout):
                        table = KEPT / version / f"{name}.{layout}.bw"
                        self.assertEqual(support.bw("dump", table), (0, rows, ""))
                        told = support.bw("info", table).out.splitlines()
                        self.assertEqual(told[:-5], (KEPT / f"{name}.schema").read_text()
                                         .splitlines())
                        self.assertEqual(told[-2], f"# version {1 + (name == 'wide')}")

    def test_tables_are_written_as_then(self):
        """A load of the same rows writes the same bytes."""
        out = self.new_folder() / "again.bw"
        for name in ("narrow", "wide"):
            for layout in ("planes", "slices"):
                support.bw("load", "--layout", layout, KEPT / f"{name}.schema",
                           KEPT / f"{name}.csv", out)
                for version in VERSIONS:
                    with self.subTest(version, name=name, layout=layout):
                        self.assertEqual(out.read_bytes(),
                                         (KEPT / version / f"{name}.{layout}.bw").read_bytes())

    def test_programs(self):
        wanted = support.bw("direct", KEPT / "narrow.schema", KEPT / "narrow.csv", COUNT).out
        for version in VERSIONS:
            for layout in ("planes", "slices"):
                with self.subTest(version, layout=layout):
                    done = support.bw("query", "--stats", "--program",
                                      KEPT / version / "count.prog",
                                      KEPT / version / f"narrow.{layout}.bw", COUNT)
                    self.assertEqual((done.status, done.out), (0, wanted))
                    self.assertTrue(done.err.startswith("served program segments 2 "), done.err)

    def test_columns_files(self):
        folder = self.new_folder()
        for version, told in (
                ("0.2.0", "is not a columns file that bw-import wrote"),
                ("0.3.0", "is a columns file of version 3, and this program reads version 4: import"
                          " the file again, by bw-import RAW.csv ")):
            with self.subTest(version):
                table, columns = folder / "shop.bw", folder / "shop.bw.columns"
                shutil.copyfile(KEPT / version / "shop.bw", table)
                if version == "0.3.0":
                    columns.write_bytes(gzip.decompress(
                        (KEPT / version / "shop.bw.columns.gz").read_bytes()))
                else:
                    shutil.copyfile(KEPT / version / "shop.bw.columns", columns)
                done = support.tool("bw-ask", table, "SELECT * FROM shop")
                self.assertEqual((done.status, done.out), (3, ""))
                self.assertIn(told, done.err)
                # the table's numbers are read by bw all the same
                self.assertEqual(support.bw("query", table, "SELECT SUM(price) FROM shop").out,
                                 "SUM(price)\n1485\n")
                done = support.tool("bw-import", KEPT / "shop.csv", table)
                self.assertEqual(done.status, 0, done)
                done = support.tool("bw-ask", table, "SELECT SUM(price) FROM shop")
                self.assertEqual(done, (0, "SUM(price)\n14.85\n", ""))

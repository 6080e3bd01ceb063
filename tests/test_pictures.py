"""Pictures of scan programs: that of docs/CERTIFICATES.md, and others that scripts/draw makes; and
those of docs/BENCHMARKS.md, which bench/pictures.py draws."""
import re
import xml.etree.ElementTree

from tests import support
from tests.support import ROOT

STORMS, TRIPS = (ROOT / "examples" / f"{name}.schema" for name in ("storms", "trips"))
SQL = "SELECT COUNT(*) FROM storms WHERE wind >= 64 AND month = 10 AND year = 2012"
OTHERS = [
    (STORMS, "SELECT * FROM storms WHERE gale_miles < 100 OR hurricane_miles IS NULL"),
    (STORMS, "SELECT * FROM storms WHERE gale_miles < hurricane_miles AND year NOT IN (2001, 3)"),
    (STORMS, "SELECT * FROM storms"),
    (TRIPS, "SELECT cents FROM trips WHERE (rating > 3) IS UNKNOWN AND minutes < 8"),
]


class Drawn(support.TestCase):
    """What is drawn."""

    def draw(self, *words):
        return support.tool(ROOT / "scripts" / "draw", *words)

    def test_the_page_has_what_is_drawn(self):
        folder = self.new_folder()
        table, program = folder / "storms.bw", folder / "own.prog"
        support.bw("load", STORMS, ROOT / "examples" / "storms.csv", table)
        own = support.bw("certify", STORMS, SQL, ROOT / "examples" / "year_first.prog")
        program.write_text(own.out)
        done = self.draw("--table", table, STORMS, SQL, program)
        self.assertEqual((done.status, done.err), (0, ""))
        self.assertEqual(done.out, (ROOT / "docs" / "year_first.svg").read_text(encoding="utf-8"))
        # the counts are bw's own
        stats = support.bw("query", "--stats", "--program", program, table, SQL).err
        taken = sum(map(int, re.findall(r"taken by (\d+) of", done.out)))
        self.assertTrue(stats.endswith(f" skips {taken}\n"), stats)

    def test_planned_programs_are_drawn(self):
        for schema, sql in OTHERS:
            with self.subTest(sql):
                done = self.draw(schema, sql)
                self.assertEqual((done.status, done.err), (0, ""))
                xml.etree.ElementTree.fromstring(done.out)
                plan = support.bw("plan", schema, sql).out.partition("CERTIFICATE")[0]
                for line in plan.splitlines():
                    self.assertIn(f">{line}</text>", done.out)

    def test_what_is_rejected_is_not_drawn(self):
        wrong = (STORMS, SQL.replace("2012", "2013"), ROOT / "examples" / "short_trips.prog")
        for words, told in [
                (wrong, r"draw: 503 at line 1\n"), ((STORMS, "SELECT"), r"draw: 402 at byte 6\n"),
                ((STORMS, SQL, "none"), r"draw: none: No such file .*\n"),
                ((STORMS, "SELECT * FROM storms WHERE day < hour"), r"draw: bw: 651 .*\n")]:
            with self.subTest(told):
                done = self.draw(*words)
                self.assertEqual((done.status, done.out), (1, ""))
                self.assertRegex(done.err, rf"\A{told}\Z")

    def test_a_certificate_is_drawn_for_graphviz(self):
        done = self.draw("--all", ROOT / "examples" / "large_a.prog")
        self.assertEqual((done.status, done.err), (0, ""))
        self.assertTrue(done.out.startswith("digraph program {"))


class Figures(support.TestCase):
    """The pictures of figures."""

    def test_each_is_that_of_its_table(self):
        self.assertEqual(support.run([ROOT / "bench" / "pictures.py", "--check"]), (0, "", ""))

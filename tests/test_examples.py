"""The examples: statements in a table of examples/README.md, over the CSV file and over a table
file of each layout."""
import re

from tests import pages, support
from tests.support import ROOT

TABLE = re.compile(r"\| `(SELECT .* FROM (\w+)\b[^`]*)` \| ([^|:]+)")


class Examples(pages.Page, page="cases/examples.md"):
    """What the pages leave out."""


class Answers(support.TestCase):
    """The statements of the table."""

    def test_answers(self):
        page = (ROOT / "examples" / "README.md").read_text(encoding="utf-8")
        folder, found = self.new_folder(), TABLE.findall(page)
        self.assertGreater(len(found), 3)
        for sql, table, wanted in found:
            schema, csv = (ROOT / "examples" / f"{table}.{end}" for end in ("schema", "csv"))
            wanted = [record.replace(" ", "") for record in wanted.strip().split(";")]
            for form in ("direct", "planes", "slices"):
                with self.subTest(sql, form=form):
                    call = ["direct", schema, csv, sql]
                    if form != "direct":
                        out = folder / f"{table}.{form}"
                        if not out.exists():
                            support.bw("load", "--layout", form, schema, csv, out)
                        call = ["query", out, sql]
                    done = support.bw(*call)
                    self.assertEqual((done.status, done.out.splitlines()[1:]), (0, wanted))

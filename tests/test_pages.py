"""What a reader does who tries all pages in one folder: README.md and the pages of its list, in
that order, and then README.md once more. Each call prints what its page has, and what a page has
imported stays an import. The pages of cases/ have tests of their own, section by section."""
import os
import re

from tests import pages, support
from tests.support import BW, ROOT

README = ROOT / "README.md"
# pages whose blocks may be only the beginning of a line of commands
BY_BLOCKS = ("docs/FAULTS.md",)


def in_order():
    """Returns the names of the pages, as README lists them."""
    text = README.read_text(encoding="utf-8").partition("\n## Pages\n")[2]
    return ["README.md", *re.findall(r"\]\(([\w/]+\.md)\)", text.partition("\nNext")[0]),
            "README.md"]


def calls_here(page):
    """Returns the calls of a page, without those that need a program that isn't here."""
    return [call for call in pages.calls_of(ROOT / page)
            if call.section not in pages.NEEDS or pages.NEEDS[call.section][1]()]


class InOneFolder(support.TestCase):
    """All pages, one after another."""

    def test_in_order(self):
        folder, names = self.new_folder() / "folder", in_order()
        folder.mkdir()
        pages.furnish(folder)
        (folder / "bw").symlink_to(BW)
        self.assertGreater(len(names), 15)
        for page in names:
            calls, told = calls_here(page), self.new_folder()
            left = pages.run_calls(calls, folder, told)
            for call, done in zip(calls, left):
                with self.subTest(page, line=call.line):
                    wrong = pages.difference(page, call, done, page in BY_BLOCKS)
                    self.assertFalse(wrong, wrong)
        self.assertEqual(pages.not_restored(folder), [])
        imported = sorted(folder.glob("*.bw.columns"))
        self.assertGreater(len(imported), 5)
        for columns in imported:
            with self.subTest(columns.name):
                done = support.tool("bw-import", "--verify", os.fspath(columns)[:-8])
                self.assertEqual(done.status, 0, done)

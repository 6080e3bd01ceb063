"""Program files: their text, what is planned, and certificates that are found."""
import pathlib
import random
import re
import tempfile

from tests import pages, support, wrong_programs
from tests.support import ROOT

SEED, COUNT = 97, 24
# a condition and what is of note about it; and the instructions, of a table of docs/CERTIFICATES.md
IDIOM = re.compile(r"^\|`([^`]+)`: [^|]+\|((?:`[A-Z]+ [^`|]+`(?:, )?)+)\|$", re.MULTILINE)


class Programs(pages.Page, page="cases/programs.md"):
    """Program files, and answers by them."""


class Plans(pages.Page, page="cases/plans.md"):
    """Planned programs, and what they read."""


class Certify(pages.Page, page="cases/certify.md"):
    """Certificates that are found for programs of other writers."""


class Idioms(support.TestCase):
    """The idioms of docs/CERTIFICATES.md."""

    def test_all_are_certified(self):
        page = (ROOT / "docs" / "CERTIFICATES.md").read_text(encoding="utf-8")
        idioms, path = IDIOM.findall(page), self.new_folder() / "t.prog"
        self.assertGreater(len(idioms), 4)
        for condition, program in idioms:
            with self.subTest(condition):
                lines = [*re.findall("`([^`]+)`", program), "RESULT r0"]
                path.write_text("".join(f"{line}\n" for line in lines), encoding="utf-8")
                done = support.bw("certify", ROOT / "examples" / "storms.schema",
                                  f"SELECT COUNT(*) FROM storms WHERE {condition}", path)
                self.assertEqual((done.status, done.err), (0, ""))


class WrongPrograms(support.TestCase):
    """A sample of what tests.wrong_programs draws."""

    def test_each_is_shown(self):
        with tempfile.TemporaryDirectory() as name:
            asking, kinds = wrong_programs.Asking(pathlib.Path(name)), set()
            for number in range(COUNT):
                wrong = asking.drawn(f"{SEED} {number}")
                if wrong:
                    found, said = asking.judged(wrong, random.Random(f"rows {SEED} {number}"))
                    self.assertFalse(found.startswith("not"), f"{found}\n{wrong}\n{said}")
                    kinds.add(found)
        self.assertGreater(len(kinds), 1)

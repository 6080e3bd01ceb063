"""Errors: each has a section on docs/FAULTS.md, whose calls print it."""
import re

from tests import pages, support

PAGE, CASES = "docs/FAULTS.md", "cases/errors.md"
# the error that no known call returns
UNSEEN = "209"


class Faults(pages.Page, page=PAGE, by_blocks=True):
    """The calls of the page."""

    def test_each_block_prints_the_error_of_its_section(self):
        for calls in self.rooms.values():
            section = calls[0].section
            if re.match(r"\d", section):
                with self.subTest(section, line=calls[0].line):
                    lines = [line for call in calls for line in call.prints]
                    self.assertTrue(any(line.startswith(f"bw: {section}") for line in lines))


class Errors(pages.Page, page=CASES):
    """Errors that the page leaves out."""


class Numbers(support.TestCase):
    """The numbers of errors."""

    def test_sections_are_the_errors_of_the_source(self):
        source = (support.ROOT / "crates/bw_model/src/fault.rt").read_text(encoding="utf-8")
        numbers = dict(re.findall(r"pub const (\w+): u16 = (\d+);", source))
        words = {numbers[name]: words
                 for name, words in re.findall(r'code::(\w+) => "([^"]*)"', source)}
        page = (support.ROOT / PAGE).read_text(encoding="utf-8")
        sections = dict(re.findall(r"^### (\d+) (.*)$", page, re.MULTILINE))
        self.assertTrue(words)
        self.assertEqual(sections, words)

    def test_each_error_is_printed_by_a_call(self):
        calls = [call for page in (PAGE, CASES) for call in pages.calls_of(support.ROOT / page)]
        seen = {call.section for call in calls
                if any(line == f"bw: {call.section}" or line.startswith(f"bw: {call.section} ")
                       for line in call.prints)}
        page = (support.ROOT / PAGE).read_text(encoding="utf-8")
        for number, words in re.findall(r"^### (\d+) (.*)$", page, re.MULTILINE):
            if number != UNSEEN:
                with self.subTest(number):
                    self.assertIn(f"{number} {words}", seen)

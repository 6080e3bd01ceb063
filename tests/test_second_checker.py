"""The second checker and the evaluator of verify/: their page, their size and what they import, and
a sample of what tests.second_checker compares with bw."""
import ast
import functools
import pathlib
import sys
import tempfile

from tests import second_checker, support
from tests.support import ROOT

SEED = 97
# how many lines a file may have, and which of ours it may import
LIMITS = {"check": (500, set()), "answer": (300, {"check"})}


@functools.lru_cache(None)
def counts():
    """Returns the compared programs, mutants and answers of a sample, by their kind."""
    found = {}
    with tempfile.TemporaryDirectory() as name:
        both = second_checker.Both(pathlib.Path(name))
        for each in (*second_checker.compare_programs(both, SEED, 8, 80),
                     *second_checker.compare_answers(both, SEED, support.sample(36, 60))):
            found.setdefault(each.kind, []).append(each)
    return found


class Sample(support.TestCase):
    """A few of each kind."""

    def check_same(self, *kinds):
        for kind in kinds:
            for each in counts()[kind]:
                self.assertEqual(each.ours, each.theirs, each.asked)

    def test_programs(self):
        self.check_same("planned", "certified")
        self.assertEqual({each.ours for each in counts()["planned"]}, {"accepted"})

    def test_mutants(self):
        self.check_same("mutant")
        self.assertGreater(len({each.counted for each in counts()["mutant"]}), 6)

    def test_answers(self):
        self.check_same("answer", "statement", "schema", "CSV", "load")


class Files(support.TestCase):
    """What a stranger reads."""

    def test_lines_and_imports(self):
        for name, (most, ours) in LIMITS.items():
            text = (ROOT / "verify" / f"{name}.py").read_text(encoding="utf-8")
            with self.subTest(name):
                self.assertLessEqual(text.count("\n"), most)
                imported = {each.module if isinstance(each, ast.ImportFrom) else alias.name
                            for each in ast.walk(ast.parse(text))
                            if isinstance(each, (ast.Import, ast.ImportFrom))
                            for alias in each.names}
                if sys.version_info >= (3, 10):
                    self.assertEqual(imported - set(sys.stdlib_module_names), ours)

    def test_functions_are_short(self):
        for name in LIMITS:
            tree = ast.parse((ROOT / "verify" / f"{name}.py").read_text(encoding="utf-8"))
            long = [each.name for each in ast.walk(tree) if isinstance(each, ast.FunctionDef)
                    and each.end_lineno - each.lineno >= 40]
            self.assertEqual(long, [], name)

    def test_the_page_has_their_lines(self):
        page = (ROOT / "docs" / "VERIFY.md").read_text(encoding="utf-8")
        for name in LIMITS:
            lines = (ROOT / "verify" / f"{name}.py").read_text(encoding="utf-8").count("\n")
            self.assertIn(f"|`verify/{name}.py`|{lines}|", page)

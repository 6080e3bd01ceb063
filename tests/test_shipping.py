"""The test command, the comparison of dist/ with the tree, and the wait for another call that
proves, in a small tree with stand-ins for the program and for the kit's command rt."""
import fcntl
import os
import re
import shutil
import subprocess
import sys
import threading

from tests import support
from tests.support import ROOT

LABEL, LOGIC = "rattle-kit-1", "0123456789abcdef"
SAME, OTHER = f"{LABEL} logic {LOGIC}", f"rattle-kit-2 logic {LOGIC}"
ODD = f"{LABEL} logic fedcba9876543210"
# the stand-in for `rt ci`: one crate is proved, and VERDICT decides on the other
GATE = """printf '== bw_text\\nnoise\\nrt: bw_text proved\\n== bw\\nan open goal\\n'
printf 'rt: bw %s\\nrt: bw ran\\n' "$VERDICT"
mkdir -p crates/bw/out && cp dist/bw crates/bw/out/bw
[ "$VERDICT" = proved ]"""
# the tests of the small tree
TESTS = """import os
import unittest


class Small(unittest.TestCase):
    def test_passes(self):
        print("a line")
        self.assertEqual(os.environ.get("WHOLE"), os.environ.get("WANTED"))

    def test_is_skipped(self):
        self.skipTest("something: install it")

    def test_fails(self):
        self.assertNotIn("FAIL", os.environ)
"""


class Trees(support.TestCase):
    """A tree of one source and a program that only prints its version."""

    def setUp(self):
        self.folder = self.new_folder()
        for name in ("scripts", "dist", "tests", "tools", "crates/bw/src"):
            (self.folder / name).mkdir(parents=True)
        scripts = filter(os.path.isfile, (ROOT / "scripts").iterdir())
        for path in [ROOT / "bw", ROOT / "check", *scripts]:
            shutil.copy2(path, self.folder / path.relative_to(ROOT))
        (self.folder / "crates.txt").write_text("bw:\n")
        (self.folder / "crates" / "bw" / "src" / "main.rt").write_text("fn main() {}\n")
        self.write_changelog("1.2.3")
        self.shipped = support.write_script(self.folder / "dist" / "bw",
                                            f"echo 'bw 1.2.3'; echo 'Rattle logic {LOGIC}'")
        self.record = {
            "program": self.printed("sha256sum", self.shipped).split()[0],
            "sources": self.printed(self.folder / "scripts" / "sources", "--sum").strip(),
            "logic": LOGIC, "built": f"by {LABEL}"}
        self.write_record(self.record)

    @staticmethod
    def printed(*words):
        return subprocess.run(words, stdout=subprocess.PIPE, text=True, check=True).stdout

    def write_changelog(self, version):
        (self.folder / "CHANGELOG.md").write_text(f"# Changelog\n\n## {version} (2026-01-02)\n")

    def write_record(self, record):
        (self.folder / "dist" / "RECORD").write_text(
            "".join(f"{name} {value}\n" for name, value in record.items()))

    def run_in(self, *words, kit=None, gate=GATE, is_fork=False, **names):
        """Runs a command in the tree, or a script of Python in a fork of this process. Returns its
        status and its lines. If `kit` is given, a stand-in for rt prints it as its version, and
        else does `gate`."""
        tools = self.folder / "tools"
        shutil.rmtree(tools)
        tools.mkdir()
        if kit:
            support.write_script(tools / "rt",
                                 f'[ "$*" != version ] || {{ echo "{kit}"; exit; }}\n{gate}')
        # the module site, of no use here, takes longer to start than a small test
        support.write_script(tools / "python3", f'exec "{sys.executable}" -S "$@"')
        names = {"PATH": f"{tools}:/usr/bin:/bin", **names}
        if is_fork:
            run = support.Running(self.folder / words[0], *words[1:], names=names, is_mixed=True,
                                  cwd=self.folder).done()
            return run.status, run.out.splitlines()
        done = subprocess.run(words, cwd=self.folder, stdin=subprocess.DEVNULL, text=True,
                              stdout=subprocess.PIPE, stderr=subprocess.STDOUT, check=False,
                              env=names)
        return done.returncode, done.stdout.splitlines()


class Elsewhere(Trees):
    """What ./bw says where the shipped program can't run, as on an older system."""

    def test_an_older_system(self):
        old = "echo 'libc.so.6: version `GLIBC_2.34'\"'\"' not found' >&2; exit 1"
        support.write_script(self.shipped, old)
        program = self.printed("sha256sum", self.shipped).split()[0]
        self.write_record({**self.record, "program": program})
        for words in (["query", "t.bw", "SELECT * FROM t"], ["--where"]):
            status, lines = self.run_in("./bw", *words)
            self.assertEqual((status, len(lines)), (2, 1), lines)
            self.assertRegex(lines[0], r"\Abw: dist/bw needs Linux with glibc 2\.34 or later on a "
                                       r"processor of x86-64-v2; this is Linux \S+ glibc [\d.]+\Z")


class Shipped(Trees):
    """The comparison of dist/ for kits of the recorded and of other labels and logics, and for
    programs of other bytes."""

    def check(self, status, line, *words, kit):
        """Tests the status, and a line or the beginning of one."""
        came, lines = self.run_in("scripts/ship", "--check", *words, kit=kit, is_fork=True)
        self.assertEqual(came, status, lines)
        self.assertTrue(any(each.startswith(line) for each in lines), lines)

    def test_the_record(self):
        self.check(0, "logic: ok", kit=SAME)
        self.check(0, "logic: ok", kit=OTHER)
        self.check(1, "logic: the kit's logic is fedcba9876543210", kit=ODD)
        self.check(1, "logic: the kit's logic is unknown", kit=None)
        for name, why in (("sources", "sources: dist/RECORD is of other sources"),
                          ("program", "sum: dist/bw isn't the program of dist/RECORD")):
            self.write_record({**self.record, name: "0" * 64})
            self.check(1, why, kit=SAME)

    def test_a_program(self):
        built = self.folder / "built"
        shutil.copy2(self.shipped, built)
        for kit in (SAME, OTHER):
            self.check(0, "program: ok", built, kit=kit)
        self.check(1, "version: --version says", built, kit=ODD)
        with open(built, "a", encoding="utf-8") as program:
            program.write("# by another compiler\n")
        self.check(1, "program: dist/bw isn't", built, kit=SAME)
        self.check(0, f"skipped: program: dist/bw was built by {LABEL}, here rattle-kit-2: not "
                      "compared", built, kit=OTHER)
        self.check(1, "program: there is no built program", "nothing", kit=SAME)
        self.write_changelog("1.2.4")
        self.check(1, "version: --version says", self.shipped, kit=SAME)

    def test_which_program_runs(self):
        """Nothing is proved to find it."""
        told = self.run_in("./bw", "--where", kit=SAME)
        self.assertEqual(told, (0, [str(self.shipped)]))
        self.write_record({**self.record, "sources": "0" * 64})
        status, lines = self.run_in("./bw", "--where", kit=SAME)
        self.assertEqual((status, lines[0]),
                         (1, "bw: the sources aren't those of a shipped program"))
        self.assertRegex(lines[1], r"\Abw: these sources aren't built: ./bw --prove ")


class Check(Trees):
    """The test command."""

    def setUp(self):
        super().setUp()
        (self.folder / "tests" / "__init__.py").write_text("def prepare():\n    pass\n")
        (self.folder / "tests" / "test_small.py").write_text(TESTS)
        support.write_script(self.folder / "bw", 'echo "$PWD/dist/bw"')

    def test_tests(self):
        status, lines = self.run_in("./check")
        self.assertEqual((status, lines[-1]), (0, "2 passed, 0 failed, 1 skipped"), lines)
        self.assertIn("skipped: something: install it", lines)
        self.assertNotIn("a line", lines)
        status, lines = self.run_in("./check", FAIL="1")
        self.assertEqual((status, lines[-2:]), (1, ["FAILED: test_small",
                                                    "1 passed, 1 failed, 1 skipped"]))
        self.assertTrue(any("test_fails" in line for line in lines), lines)

    def test_names(self):
        for words, wanted in (("test_small.Small.test_passes", "1 passed, 0 failed"),
                              ("tests/test_small.py", "2 passed, 0 failed, 1 skipped"),
                              ("-k passes", "1 passed, 0 failed"),
                              ("test_none", "0 passed, 1 failed")):
            with self.subTest(words):
                status, lines = self.run_in("./check", *words.split(" "))
                self.assertEqual((status, lines[-1]), (int("none" in words), wanted), lines)

    def test_the_whole_and_times(self):
        status, lines = self.run_in("./check", "--whole", "--times", WANTED="1")
        self.assertEqual((status, lines[-1]), (0, "2 passed, 0 failed, 1 skipped"), lines)
        for line in (r" +[0-9.]+ s of processors, of which", r" +[0-9.]+   test_small",
                     r" +[0-9.]+   test_small\.Small\.test_passes"):
            self.assertTrue(any(re.fullmatch(line, each) for each in lines), lines)

    def test_a_module_without_tests(self):
        (self.folder / "tests" / "test_empty.py").write_text("")
        status, lines = self.run_in("./check")
        self.assertEqual((status, lines[-2:]), (1, ["FAILED: test_empty",
                                                    "2 passed, 1 failed, 1 skipped"]))
        self.assertIn("FAILED test_empty", lines)

    def test_a_module_that_ends_its_process(self):
        (self.folder / "tests" / "test_ends.py").write_text("import os\nos._exit(0)\n")
        status, lines = self.run_in("./check", RT_JOBS="1")
        self.assertEqual(status, 1)
        self.assertTrue(any(line.startswith("test_ends: its process ended") for line in lines),
                        lines)

    def test_wrong_arguments(self):
        for words in (["--quick"], ["--proof", "--all"], ["--proof", "test_small"]):
            with self.subTest(words):
                status, lines = self.run_in("./check", *words, is_fork=True)
                self.assertEqual(status, 2)
                self.assertRegex(lines[0], r"\Ausage: ./check ")
        for word in ("--proof", "--all"):
            with self.subTest(word):
                status, lines = self.run_in("./check", word, is_fork=True)
                self.assertEqual((status, len(lines)), (2, 1))
                self.assertIn("Rattle kit", lines[0])

    def test_the_gate(self):
        status, lines = self.run_in("./check", "--proof", kit=SAME, VERDICT="proved")
        self.assertEqual((status, lines[-1]), (0, "5 passed, 0 failed, 1 skipped"), lines)
        self.assertIn("rt: bw proved", lines)
        self.assertNotIn("noise", lines)
        self.assertIn("noise", (self.folder / "out" / "proof.log").read_text())
        self.assertTrue(any(line.startswith("   in all ") for line in lines))
        status, lines = self.run_in("./check", "--proof", kit=SAME, VERDICT="NOT PROVED")
        self.assertEqual((status, lines[-2:]), (1, ["FAILED: scripts/gate",
                                                    "4 passed, 1 failed, 1 skipped"]))
        self.assertIn("an open goal", lines)
        self.assertNotIn("noise", lines)


class Samples(support.TestCase):
    """What tests draw of their cases: never nothing, always the same, and the whole on demand."""

    def test_counts(self):
        self.assertEqual((support.sample(3, 9, False), support.sample(3, 9, True)), (3, 9))
        for few, whole in ((0, 9), (-1, 9), (10, 9)):
            for is_whole in (False, True):
                with self.assertRaises(ValueError):
                    support.sample(few, whole, is_whole)

    def test_cases(self):
        cases = list("abcdefghij")
        found = support.sample_of(cases, 4, 1, False)
        self.assertEqual((len(found), found), (4, sorted(found)))
        self.assertEqual(found, support.sample_of(cases, 4, 1, False))
        self.assertNotEqual(found, support.sample_of(cases, 4, 2, False))
        self.assertEqual(support.sample_of(cases, 4, 1, True), cases)
        with self.assertRaises(ValueError):
            support.sample_of([], 1, 1)

    def test_the_environment_decides(self):
        for names, wanted in (({"WHOLE": ""}, "3"), ({"WHOLE": "1"}, "9")):
            code = "from tests.support import sample; print(sample(3, 9))"
            done = support.run([sys.executable, "-c", code], cwd=ROOT, **names)
            self.assertEqual((done.out, done.err), (f"{wanted}\n", ""))


class Prove(Trees):
    """A call of scripts/prove waits for another one in the same tree."""

    def test_prove(self):
        gate = "mkdir -p out && cp ../../dist/bw out/bw"
        (self.folder / "out").mkdir()
        held = os.open(self.folder / "out", os.O_RDONLY)
        fcntl.flock(held, fcntl.LOCK_EX)
        threading.Timer(2, os.close, [held]).start()
        status, lines = self.run_in("scripts/prove", kit=SAME, gate=gate)
        self.assertEqual((status, lines[0]),
                         (0, "bw: waiting for another call that proves and builds here"))
        self.assertIn("bw: 1 of 1 crates: bw", lines[-1])
        status, lines = self.run_in("scripts/prove", kit=SAME, gate=gate)
        self.assertEqual(status, 0)
        self.assertFalse(any("waiting" in line for line in lines), lines)

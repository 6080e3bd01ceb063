"""The Python of the tree by ruff or flake8 and by the grammar of Python 3.9, type hints by mypy,
shell by shellcheck, each if it is installed; and lemmas and definitions that nothing names.
`.flake8` has the rules that are disabled."""
import ast
import collections
import functools
import hashlib
import os
import pathlib
import re
import shutil
import subprocess

from tests import support
from tests.support import ROOT

# as .flake8 has them
RULES = ["--select", "E,F,W", "--ignore", "E402", "--line-length", "100"]
# installed packages take longer to read than the tree, and nothing here needs their types
STRICT = ["--strict", "--python-version", "3.9", "--ignore-missing-imports", "--no-error-summary",
          "--explicit-package-bases", "--no-site-packages", "--cache-dir"]
# what is typed beside the package
TYPED = [f"tests/{name}.py" for name in ("support", "pages", "drawn", "drawn_numbers", "reference",
                                       "drawn_select", "selects", "drawn_programs",
                                       "second_checker", "column_files", "wrong_programs",
                                       "ranges")]
TYPED += ["verify/check.py", "verify/answer.py", "scripts/pictures.py", "scripts/wheel",
          "bench/pictures.py"]
WORD = re.compile(r"[^\s(){}\[\],;.:λ@]+")
# a definition or lemma at the margin: its name, and the block that it belongs to
HEAD = re.compile(r"^(?:(?:pub|abbrev|unfoldable|opaque) )*([^\s(){}\[\],;.:]+) :(?: (.*))?$")
BLOCK = ("pub", "record", "data", "module")


@functools.lru_cache(None)
def sources():
    """Returns the files of Python and of shell that git knows, or, without git, all that are here,
    by language."""
    try:
        listed = subprocess.run(["git", "-c", "safe.directory=*", "ls-files", "-z"], cwd=ROOT,
                                stdout=subprocess.PIPE, stderr=subprocess.PIPE, text=True,
                                check=True).stdout
    except (OSError, subprocess.CalledProcessError):
        listed = "\0".join(str(path.relative_to(ROOT)) for path in ROOT.rglob("*"))
    names = listed.split("\0")
    found = collections.defaultdict(list)
    for name in filter(None, names):
        path = ROOT / name
        if not path.is_file() or path.is_symlink():
            continue
        with open(path, "rb") as file:
            first = file.readline(64)
        if name.endswith(".py") or first.startswith(b"#!") and b"python" in first:
            found["Python"].append(name)
        elif name.endswith(".sh") or re.match(rb"#!\S*[ /](?:ba)?sh\b", first):
            found["shell"].append(name)
    return found


class Kept:
    """The files that a slow check found faultless here, by their sums in out/: it checks only those
    that changed since, or all in the whole."""

    def __init__(self, name, paths, rules=b""):
        self.path = ROOT / "out" / name
        rules += pathlib.Path(__file__).read_bytes()
        self.sums = {each: hashlib.sha256(rules + (ROOT / each).read_bytes()).hexdigest()
                     for each in paths}
        self.is_first = not self.path.exists()
        known = set() if self.is_first or support.IS_WHOLE else \
            set(self.path.read_text("ascii").split())
        self.left = [each for each, found in self.sums.items() if found not in known]

    def keep(self):
        """Notes that all are faultless."""
        if self.left and os.access(self.path.parent, os.W_OK):
            self.path.write_text("\n".join(self.sums.values()), "ascii")


class Sources(support.TestCase):
    """What the tools say of the sources: nothing."""

    def say_nothing(self, words):
        done = support.run(words, cwd=ROOT)
        self.assertEqual((done.status, done.out + done.err), (0, ""))

    def test_python(self):
        if shutil.which("ruff"):
            self.say_nothing(["ruff", "check", "--quiet", "--no-cache", "--output-format",
                              "concise", *RULES, *sources()["Python"]])
        elif shutil.which("flake8"):
            self.check_by_flake8(shutil.which("flake8"))
        else:
            self.skipTest("Python: install ruff or flake8")

    def check_by_flake8(self, program):
        """Checks the files that changed. If none was checked here before, it checks a sample, which
        the content of the files draws."""
        kept = Kept("flake8", sources()["Python"], f"{program} {os.stat(program).st_mtime_ns}"
                    .encode() + (ROOT / ".flake8").read_bytes())
        left = kept.left
        if kept.is_first and not support.IS_WHOLE:
            left = [name for name in left if int(kept.sums[name], 16) % 6 == 0]
            self.assertGreater(len(left), 10)
        if left:
            self.say_nothing([program, *left])
        kept.keep()

    def test_python_is_that_of_3_9(self):
        self.assertGreater(len(sources()["Python"]), 100)
        kept, faultless = Kept("parsed", sources()["Python"]), 0
        for name in kept.left:
            with self.subTest(name):
                text = (ROOT / name).read_text(encoding="utf-8")
                ast.parse(text, name, feature_version=(3, 9))
                long = [number for number, line in enumerate(text.split("\n"), 1)
                        if len(line) > 100]
                self.assertEqual(long, [], "lines of more than 100 characters")
                faultless += 1
        if faultless == len(kept.left):
            kept.keep()

    def test_types(self):
        if not shutil.which("mypy"):
            self.skipTest("type hints: install mypy")
        kept = ROOT / "out" if os.access(ROOT / "out", os.W_OK) else None
        done = support.run(["mypy", *STRICT, kept / "mypy" if kept else os.devnull,
                            "python/bwtools", *TYPED], cwd=ROOT,
                           MYPYPATH=f"{support.PYTHON}:{ROOT / 'verify'}")
        self.assertEqual((done.status, done.out + done.err), (0, ""))

    def test_shell(self):
        if not shutil.which("shellcheck"):
            self.skipTest("shell: install shellcheck")
        # SC2016: text in single quotes is for another program. SC2069: only standard error is
        # wanted
        self.say_nothing(["shellcheck", "-x", "-f", "gcc", "-e", "SC2016,SC2069",
                          *sources()["shell"]])


def is_cited_by_name(path):
    """Returns whether the definitions of a file must be named elsewhere: those of specs, and lemmas
    outside the folders of functions. The prover finds answers and invariants by their place."""
    parts = path.relative_to(ROOT).parts
    return parts[2] == "specs" or (parts[2] == "proofs" and len(parts) == 4)


def names_in(line):
    """Returns what a line of logic defines, if anything, and the names that it uses. The name at
    the start of an equation isn't a use."""
    if line.startswith(("--", "use ")):
        return None, []
    head = HEAD.match(line)
    if head:
        return head.group(1), WORD.findall(head.group(2) or "")
    words = WORD.findall(line)
    is_equation = words and not line[0].isspace() and words[0] not in BLOCK
    return None, words[1:] if is_equation else words


class Logic(support.TestCase):
    """Definitions of specs and lemmas of proofs."""

    def test_each_is_named_somewhere(self):
        defined, cited = [], set()
        paths = sorted(path for ending in ("src/**/*.rt", "specs/**/*.antt", "proofs/**/*.antt")
                       for path in ROOT.glob(f"crates/*/{ending}"))
        # one that is new or gone changes the rules of all
        kept = Kept("logic", paths, " ".join(map(str, paths)).encode())
        if not kept.left:
            return
        for path in paths:
            if path.suffix == ".rt":
                cited.update(WORD.findall(path.read_text(encoding="utf-8")))
                continue
            is_needed = is_cited_by_name(path)
            for line in path.read_text(encoding="utf-8").split("\n"):
                name, words = names_in(line)
                cited.update(words)
                if name and name != "_" and is_needed:
                    defined.append((str(path.relative_to(ROOT)), name))
        self.assertGreater(len(defined), 1000)
        self.assertEqual([each for each in defined if each[1] not in cited], [])
        kept.keep()

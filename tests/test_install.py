"""./install as users run it, in empty folders. From the tree and from the packed tar it installs a
program, tools and pages that work with nothing else on the PATH; it rejects what isn't its own, and
removes only what it wrote. The man pages and the completions must name the commands and options of
the program's help. The tools must work from a copy of their folder and by a symlink."""
import functools
import hashlib
import importlib.util
import json
import os
import pathlib
import re
import shutil
import signal
import subprocess
import sys
import time
import zipfile

import bwtools

from tests import support
from tests.support import BW, LONGEST, PYTHON, ROOT, TOOLS, copy_python

# the options of every command
SHARED = {"--explain", "--help"}

# setuptools before 71 makes packages by wheel
HAS_TOOLS = """
from importlib.metadata import version
at = int(version('setuptools').split('.')[0])
assert at >= 61 and version('pip')
if at < 71: version('wheel')
"""
HOOK = "import sys; from setuptools import build_meta; build_meta.build_wheel(sys.argv[1])"


# only the system is on the PATH
PLAIN = {"PATH": f"{pathlib.Path(sys.executable).parent}:/usr/bin:/bin", "HOME": "/nonexistent",
         "LC_ALL": "C.UTF-8"}


def run(words, cwd=None, **names):
    """Runs a command with only the system on its PATH."""
    done = subprocess.run(list(map(str, words)), stdin=subprocess.DEVNULL, check=False, text=True,
                          stdout=subprocess.PIPE, stderr=subprocess.PIPE, timeout=LONGEST,
                          env={**PLAIN, **names}, cwd=cwd)
    return support.Done(done.returncode, done.stdout, done.stderr)


def content(folder):
    """Returns what is in a folder and below: the bytes and modes of files, and the texts of
    symlinks."""
    found = {}
    for path in folder.rglob("*"):
        below = str(path.relative_to(folder))
        found[below] = os.readlink(path) if path.is_symlink() else path.is_dir() or \
            (path.read_bytes(), path.stat().st_mode)
    return found


class Installed(support.TestCase):
    """A folder to install in."""

    def setUp(self):
        self.folder = self.new_folder()

    def install(self, *words, top=ROOT, is_started=False, **names):
        """Runs ./install of a tree: in a fork of this process, or as a user starts it. The packed
        tar has its own program."""
        given = {"BW": "" if (top / "bw").is_file() and top != ROOT else str(BW), **names}
        if is_started:
            return run([top / "install", *words], **given)
        return support.tool(top / "install", *words, **{**PLAIN, **given})

    def assert_works(self, place, **names):
        """Tests that the tools of a folder work."""
        (self.folder / "t.csv").write_text("city,fare\nBern,2.50\nGraz,12.05\n")
        made = run([place / "bw-import", self.folder / "t.csv", self.folder / "t.bw"], **names)
        self.assertEqual(made.status, 0, made)
        done = run([place / "bw-ask", self.folder / "t.bw",
                    "SELECT fare FROM t WHERE city = 'Graz'"], **names)
        self.assertEqual(done, (0, "fare\n12.05\n", ""))

    def check_installs(self, top):
        """Installs from a folder into an empty one, installs again, and uninstalls."""
        prefix = self.folder / "a prefix"
        done = self.install(prefix, top=top, is_started=True)
        self.assertEqual((done.status, done.err), (0, ""))
        self.assertIn(f"export PATH='{prefix}/bin':", done.out)
        kept, package = content(prefix), prefix / "share" / "bw" / "python" / "bwtools"
        self.assertEqual(run([prefix / "bin" / "bw", "--version"]), run([BW, "--version"]))
        self.assert_works(prefix / "bin")
        done = run([prefix / "bin" / "bw-ask", "--help"])
        self.assertRegex(done.out, r"\Ausage: bw-ask ")
        for path in package.rglob("*.py"):
            self.assertTrue(os.path.isfile(importlib.util.cache_from_source(path)), path)
        self.assertEqual(sorted(os.listdir(prefix / "bin")), ["bw", *TOOLS])
        again = self.install(prefix, top=top, PATH=f"{os.environ['PATH']}:{prefix}/bin")
        self.assertEqual((again.status, content(prefix)), (0, kept))
        self.assertNotIn("PATH", again.out)
        (package / "__pycache__" / "_errors.cpython-39.pyc").write_bytes(b"of another Python")
        gone = self.install("--uninstall", prefix, top=top)
        self.assertEqual((gone.status, content(prefix)), (0, {}), gone)


def copy_tree(folder):
    """Copies what ./install needs, with one module, so that it compiles no more."""
    for path in [ROOT / "install", ROOT / "LICENSE", *(ROOT / "docs").glob("bw*.1"),
                 PYTHON / "bwtools" / "__init__.py", PYTHON / "bwtools" / "py.typed",
                 *(PYTHON / "bin").glob("bw-*"), *(PYTHON / "completions").iterdir()]:
        target = folder / path.relative_to(ROOT)
        target.parent.mkdir(parents=True, exist_ok=True)
        shutil.copy2(path, target)
        target.chmod(target.stat().st_mode | 0o200)
    return folder


class Install(Installed):
    """What is installed, replaced and removed."""

    def test_from_the_tree(self):
        self.check_installs(ROOT)

    def test_from_the_tar(self):
        if not (ROOT / "dist" / "bw").exists():
            self.skipTest("the packed tar: dist/bw isn't there")
        if not shutil.which("xz"):
            self.skipTest("the packed tar: install xz-utils")
        for name in ("bw.tar.xz", "two.tar.xz"):
            # in a hurry
            done = run([ROOT / "scripts" / "ship", "--pack", self.folder / name], XZ_OPT="-0")
            self.assertEqual(done.status, 0, done)
        self.assertEqual(*((self.folder / name).read_bytes()
                           for name in ("bw.tar.xz", "two.tar.xz")))
        run(["tar", "-C", self.folder, "-xf", self.folder / "bw.tar.xz"])
        top, = [each for each in self.folder.iterdir() if each.is_dir()]
        self.assert_works(top / "python" / "bin")
        prefix = self.folder / "from the tar"
        self.assertEqual(self.install(prefix, top=top, is_started=True).status, 0)
        self.assertEqual(run([prefix / "bin" / "bw", "--version"]), run([BW, "--version"]))

    def test_foreign_files_are_not_overwritten(self):
        tree = copy_tree(self.folder / "tree")
        prefix = self.folder / "p"
        (prefix / "bin").mkdir(parents=True)
        (prefix / "bin" / "bw-ask").write_text("mine")
        before = content(prefix)
        done = self.install(prefix, top=tree)
        self.assertEqual(done.status, 3)
        self.assertIn(str(prefix / "bin" / "bw-ask"), done.err)
        self.assertEqual(self.install("--uninstall", prefix, top=tree).status, 3)
        self.assertEqual(content(prefix), before)

    def test_changed_files_are_kept(self):
        tree = copy_tree(self.folder / "tree")
        prefix = self.folder / "p"
        (prefix / "bin").mkdir(parents=True)
        (prefix / "bin" / "other").write_text("mine")
        self.install(prefix, top=tree)
        (prefix / "share/bw/python/bin/bw-ask").write_text("changed")
        done = self.install(prefix, top=tree)
        self.assertEqual(done.status, 3)
        self.assertIn("bw-ask", done.err)
        done = self.install("--uninstall", prefix, top=tree)
        self.assertEqual(done.status, 0)
        self.assertIn("bw-ask", done.out)
        left = {name for name, each in content(prefix).items() if each is not True}
        self.assertEqual(left, {"bin/other", "share/bw/python/bin/bw-ask"})

    def test_what_is_no_place_or_program(self):
        tree = copy_tree(self.folder / "tree")
        for name, target in (("a symlink", "other"), ("a broken symlink", "nowhere")):
            with self.subTest(name):
                place = self.folder / name
                (place / "bin").mkdir(parents=True)
                (place / "bin" / "bw").symlink_to(target)
                self.assertEqual(self.install(place, top=tree).status, 3)
                self.assertEqual(os.readlink(place / "bin" / "bw"), target)
        done = run([tree / "install", self.folder / "q"], BW=str(self.folder / "none"))
        self.assertEqual(done.status, 3)
        self.assertIn("is not a program", done.err)
        self.assertFalse((self.folder / "q").exists())
        (self.folder / "foreign").write_bytes(b"\x7fELF of another system")
        done = run([tree / "install", self.folder / "q"], BW=str(self.folder / "foreign"))
        self.assertEqual((done.status, done.err.count("\n")), (3, 1))
        self.assertIn("doesn't run here: it needs Linux with glibc 2.34 or later", done.err)
        self.assertFalse((self.folder / "q").exists())
        (self.folder / "file").write_text("mine")
        self.assertEqual(self.install(self.folder / "file", top=tree).status, 5)
        self.assertEqual((self.folder / "file").read_text(), "mine")

    def outside(self):
        """Makes a folder beside PREFIX with a file and a symlink, and returns it with the marks
        that a list may have of them."""
        outside = self.folder / "outside"
        (outside / "__pycache__").mkdir(parents=True)
        (outside / "mine").write_text("mine")
        (outside / "mine.py").write_text("mine")
        (outside / "__pycache__" / "mine.cpython-39.pyc").write_text("mine")
        (outside / "link").symlink_to("mine")
        found = f"sha256 {hashlib.sha256(b'mine').hexdigest()}"
        return outside, {"mine": [found], "mine.py": [found], "link": ["link mine"]}

    def forge(self, prefix, files, folders=()):
        """Adds files and folders to the list of what was installed."""
        path = prefix / "share" / "bw" / "installed.json"
        said = json.loads(path.read_text())
        said["files"].update(files)
        said["folders"].extend(folders)
        path.write_text(json.dumps(said))

    def test_lists_that_name_what_is_outside(self):
        tree, (outside, marks) = copy_tree(self.folder / "tree"), self.outside()
        before = content(outside)
        for number, start in enumerate(("../outside/", f"{outside}/", "bin/../../outside/",
                                        "./../outside/", "")):
            prefix = self.folder / f"p{number}"
            self.install(prefix, top=tree)
            self.forge(prefix, {f"{start}{name}": each for name, each in marks.items()} if start
                       else {}, [] if start else ["../outside/empty", "../outside/__pycache__"])
            installed = content(prefix)
            for words in (["--uninstall", prefix], [prefix]):
                with self.subTest(start, words=words):
                    done = self.install(*words, top=tree)
                    self.assertEqual((done.status, content(prefix)), (3, installed), done)
                    self.assertIn("is not a list that install wrote", done.err)
        self.assertEqual(content(outside), before)

    def test_symlinks_that_lead_out(self):
        """In the tree of PREFIX, below which the list names files."""
        tree, (outside, marks) = copy_tree(self.folder / "tree"), self.outside()
        before, prefix = content(outside), self.folder / "p"
        self.install(prefix, top=tree)
        (prefix / "out").symlink_to(outside)
        self.forge(prefix, {f"out/{name}": each for name, each in marks.items()},
                   ["out/__pycache__", "out"])
        self.assertEqual(self.install(prefix, top=tree).status, 0)
        self.forge(prefix, {f"out/{name}": each for name, each in marks.items()}, ["out"])
        done = self.install("--uninstall", prefix, top=tree)
        self.assertEqual((done.status, content(outside)), (0, before))
        self.assertIn(f"{prefix}/out/mine", done.out)
        self.assertEqual(content(prefix), {"out": str(outside)})

    def test_folders_that_are_symlinks(self):
        tree, (outside, _) = copy_tree(self.folder / "tree"), self.outside()
        before = content(outside)
        for number, name in enumerate(("bin", "share", "share/bw", "share/bw/python",
                                       "share/bw/python/bwtools", "share/man/man1",
                                       "share/bw/python/bwtools/__pycache__")):
            prefix = self.folder / f"p{number}"
            (prefix / name).parent.mkdir(parents=True)
            (prefix / name).symlink_to(outside)
            made = content(prefix)
            done = self.install(prefix, top=tree)
            with self.subTest(name):
                self.assertEqual((done.status, content(outside), content(prefix)),
                                 (3, before, made), done)
        prefix = self.folder / "whole"
        self.install(prefix, top=tree)
        (prefix / "share" / "bw" / "python" / "bwtools" / "__pycache__").rename(outside / "cache")
        (prefix / "share" / "bw" / "python" / "bwtools" / "__pycache__").symlink_to(
            outside / "cache")
        before = content(outside)
        self.assertEqual(self.install("--uninstall", prefix, top=tree).status, 0)
        self.assertEqual(content(outside), before)

    def test_the_default(self):
        tree = copy_tree(self.folder / "tree")
        self.assertEqual(self.install(top=tree, HOME=str(self.folder / "home")).status, 0)
        self.assertTrue((self.folder / "home/.local/bin/bw-import").exists())

    def test_an_older_install_is_replaced(self):
        older, newer = (copy_tree(self.folder / name) for name in ("older", "newer"))
        prefix, fresh = self.folder / "p", self.folder / "r"
        for name in ("bw-old", "bw-ask"):
            (older / "python" / "bin" / name).write_text("#!/bin/sh\n")
        self.install(prefix, top=older)
        self.assertTrue((prefix / "bin" / "bw-old").is_symlink())
        for place in (prefix, fresh):
            self.assertEqual(self.install(place, top=newer).status, 0)
        self.assertFalse(os.path.lexists(prefix / "bin" / "bw-old"))
        found, wanted = ({name: each for name, each in content(place).items()
                          if not name.endswith((".json", ".pyc"))} for place in (prefix, fresh))
        self.assertEqual(found, wanted)

    def test_a_broken_off_install_is_taken_up(self):
        for is_repeated in (True, False):
            broken = self.folder / str(is_repeated)
            begun = broken / "share" / "bw" / "installed.json"
            with subprocess.Popen([sys.executable, "-S", ROOT / "install", broken],
                                  env={**os.environ, "BW": str(BW)}, stdout=subprocess.DEVNULL,
                                  stderr=subprocess.DEVNULL) as process:
                while not begun.exists() and process.poll() is None:
                    time.sleep(.001)
                process.send_signal(signal.SIGKILL)
            with self.subTest(is_repeated=is_repeated):
                self.assertEqual(process.returncode, -signal.SIGKILL)
                if is_repeated:
                    self.assertEqual(self.install(broken).status, 0)
                self.assertEqual(self.install("--uninstall", broken).status, 0)
                # a file that was begun stays in its folder
                left = {name for name, each in content(broken).items()
                        if is_repeated or each is not True}
                self.assertEqual({name for name in left if not name.endswith(".part")}, set())


class Copies(Installed):
    """The tools from a copy of their folder and by symlinks, with the program of BW, of the PATH or
    of dist/."""

    def setUp(self):
        super().setUp()
        copy_python(self.folder / "copied")
        self.ask = [self.folder / "copied" / "bin" / "bw-ask", self.folder / "t.bw",
                    "SELECT fare FROM t"]

    def test_a_copy_and_symlinks(self):
        self.assert_works(self.folder / "copied" / "bin", BW=str(BW))
        (self.folder / "links").mkdir()
        for name in TOOLS:
            (self.folder / "links" / name).symlink_to(self.folder / "copied" / "bin" / name)
        self.assert_works(self.folder / "links", BW=str(BW))
        done = run(self.ask)
        self.assertEqual(done.status, 3)
        self.assertIn("BW=FILE", done.err)

    def test_a_checkout(self):
        """The shipped program is taken, unless it doesn't run here."""
        (self.folder / "dist").mkdir()
        shutil.copy2(BW, self.folder / "dist" / "bw")
        support.write_script(self.folder / "bw", "echo proving >&2\nexit 1")
        self.assert_works(self.folder / "copied" / "bin")
        (self.folder / "dist" / "bw").unlink()
        support.write_script(self.folder / "dist" / "bw", "exit 1")
        done = run(self.ask)
        self.assertEqual((done.status, done.out), (1, ""))
        self.assertIn("proving", done.err)


def pip_of(python):
    """Returns a Python and the file by which its pip, 22.3 or later, runs in another Python, or
    None if it has none."""
    test = "import pip; assert pip.__version__ >= '22.3'; print(pip.__path__[0])"
    done = run([python, "-c", test]) if os.path.exists(python) else None
    return done and done.status == 0 and (python, f"{done.out.strip()}/__pip-runner__.py") or None


class Pip(Installed):
    """pip installs the wheel that scripts/wheel packs, and its programs work with nothing else."""

    def pack(self, name, umask=0o022):
        """Packs a wheel in a folder, and returns its path."""
        done = subprocess.run([sys.executable, ROOT / "scripts" / "wheel", self.folder / name],
                              check=False, text=True, stdout=subprocess.PIPE,
                              stderr=subprocess.PIPE, umask=umask)
        if done.returncode == 3:
            self.skipTest(f"the wheel: {done.stderr.rpartition(': ')[2].strip()}")
        self.assertEqual((done.returncode, done.stderr), (0, ""))
        return pathlib.Path(done.stdout.strip())

    def test_the_wheel(self):
        wheel = self.pack("one")
        self.assertRegex(wheel.name, r"\Abwtools-[\d.]+-py3-none-manylinux_2_34_x86_64\.whl\Z")
        self.assertEqual(wheel.read_bytes(), self.pack("two", 0o077).read_bytes())
        with zipfile.ZipFile(wheel) as parts:
            told = parts.read(next(name for name in parts.namelist() if "METADATA" in name))
        for line in (b"Provides-Extra: pandas", b"Provides-Extra: dask", b"bw-import fares.csv"):
            self.assertIn(line, told)
        python, pip = next(filter(None, map(pip_of, (sys.executable, "/usr/bin/python3"))),
                           (None, None))
        if not python:
            self.skipTest("the wheel: install python3-pip, 22.3 or later")
        venv = self.folder / "venv"
        # the second is what pip --python does, in one process
        for words in ([python, "-m", "venv", "--without-pip", venv],
                      [venv / "bin" / "python", pip, "install", "--no-index", "--no-compile",
                       "--quiet", wheel]):
            done = run(words, HOME=str(self.folder))
            self.assertEqual(done.status, 0, done)
        self.assertLessEqual({"bw", *TOOLS}, set(os.listdir(venv / "bin")))
        self.assertEqual((venv / "bin" / "bw").read_bytes(), BW.read_bytes())
        self.assertTrue((venv / "share" / "man" / "man1" / "bw.1").exists())
        self.check_environment(venv)

    def check_environment(self, venv):
        """Tests that the programs of an environment work, activated or not, with the program that
        came with them and not another one of the PATH."""
        support.write_script(self.folder / "bw", "echo another bw >&2\nexit 1")
        path = f"{self.folder}:/usr/bin:/bin"
        self.assert_works(venv / "bin", PATH=path)
        done = run([venv / "bin" / "python", "-c", "import bwtools; print(bwtools.connect('t.bw')"
                    ".execute('SELECT SUM(fare) FROM t').fetchone())"], self.folder, PATH=path)
        self.assertEqual(done, (0, "(Decimal('14.55'),)\n", ""))
        activated = f". '{venv}/bin/activate'; bw --version; bw-ask --version"
        self.assertEqual(run(["sh", "-c", activated]).out,
                         f"{run([BW, '--version']).out}bw-ask {bwtools.__version__}\n")

    def test_the_tree(self):
        """The package is installed without a program, too: that of the PATH works. pip itself,
        which asks setuptools three times, is in the whole alone."""
        python = next((each for each in dict.fromkeys((sys.executable, "/usr/bin/python3"))
                       if os.path.exists(each) and run([each, "-c", HAS_TOOLS]).status == 0), None)
        if not python:
            self.skipTest("pip: install setuptools, and wheel")
        copy_python(self.folder / "python")
        target = self.folder / "to"
        if support.IS_WHOLE:
            done = run([python, "-m", "pip", "install", "--no-build-isolation", "--no-index",
                        "--no-deps", "--no-compile", "--quiet", "--target", target,
                        self.folder / "python"], HOME=str(self.folder))
            self.assertEqual(done.status, 0, done)
        else:
            self.install_by_hook(python, target)
        self.assertEqual(sorted(os.listdir(target / "bin")), [*TOOLS])
        self.assert_works(target / "bin", BW=str(BW), PYTHONPATH=str(target))

    def install_by_hook(self, python, target):
        """Builds the package by what pip calls, and installs it as pip does."""
        done = run([python, "-c", HOOK, target], self.folder / "python", HOME=str(self.folder))
        self.assertEqual(done.status, 0, done)
        wheel, = target.glob("*.whl")
        with zipfile.ZipFile(wheel) as parts:
            parts.extractall(target)
        told, = target.glob("*.dist-info/entry_points.txt")
        (target / "bin").mkdir()
        for name, module in re.findall(r"^(\S+) = (\S+):main$", told.read_text(), re.M):
            path = target / "bin" / name
            path.write_text(f"#!{python}\nimport sys\nfrom {module} import main\n"
                            "sys.exit(main())\n")
            path.chmod(0o755)


@functools.lru_cache(None)
def help_of(*words):
    """Returns the commands and the options that help names."""
    told = "".join(run([BW, *words, "--help"])[1:])
    commands = re.findall(r"^  ([a-z]+) ", told.partition("Commands:")[2].partition("Options:")[0],
                          re.M)
    options = told.partition("Options:")[2].partition("\n\n")[0]
    return commands, set(re.findall(r"--[a-z]+", options))


class ManPages(support.TestCase):
    """The man pages name the version and the same commands and options as help."""

    def test_bw(self):
        page = (ROOT / "docs" / "bw.1").read_text(encoding="utf-8").replace(r"\-", "-")
        commands, everywhere = help_of()
        section, _, rest = page.partition(".SH COMMANDS")[2].partition(".SH OPTIONS")
        named = {re.match(r"\\fB([a-z]+)", part)[1]: set(re.findall("--[a-z]+", part)) | SHARED
                 for part in re.split(r"^\.TP\n(?=\\fB[a-z])", section, flags=re.M)[1:]}
        self.assertTrue(commands)
        self.assertEqual(named, {each: help_of(each)[1] for each in commands})
        self.assertEqual(set(re.findall("--[a-z]+", rest.partition(".SH")[0])), everywhere)
        version = run([BW, "--version"]).out.split("\n")[0]
        self.assertIn(f'"{version}"', page.split("\n")[0])

    def test_python_programs(self):
        done = run([sys.executable, ROOT / "scripts" / "manpages", "--check"])
        self.assertEqual(done, (0, "", ""))
        self.assertEqual(sorted(page.stem for page in (ROOT / "docs").glob("bw-*.1")), [*TOOLS])

    def test_man_warns_of_nothing(self):
        if not shutil.which("groff"):
            self.skipTest("the man page: install groff")
        for page in (ROOT / "docs").glob("bw*.1"):
            with self.subTest(page.name):
                done = run(["groff", "-man", "-Tutf8", "-ww", "-z", page])
                self.assertEqual(done, (0, "", ""))


def completed_by_bash(*words):
    """Returns what bash's completion offers for the last of these words."""
    name = "bw" if words[0] == "bw" else "bw_python"
    script = (f'. "$1"; shift; COMP_WORDS=("$@"); COMP_CWORD=$(($# - 1)); _{name}; '
              'printf "%s\\n" "${COMPREPLY[@]}"')
    file = "bw.bash" if words[0] == "bw" else "bw-ask.bash"
    done = run(["bash", "-c", script, "bash", PYTHON / "completions" / file, *words])
    return set(done.out.split("\n")) - {""} if done.status == 0 else done


class Completions(support.TestCase):
    """The completions offer file names and the same commands and options as help."""

    def test_bash(self):
        commands, everywhere = help_of()
        for command in commands:
            self.assertEqual(completed_by_bash("bw", command, "--"), help_of(command)[1], command)
        self.assertEqual(completed_by_bash("bw", ""), {*commands, *everywhere})
        self.assertEqual(completed_by_bash("bw", "que"), {"query"})
        self.assertEqual(completed_by_bash("bw", "load", "--layout", ""), {"planes", "slices"})
        table = self.new_folder() / "some table.bw"
        table.touch()
        self.assertEqual(completed_by_bash("bw", "query", str(table)[:-9]), {str(table)})

    def test_python_programs(self):
        for words in ([name] for name in TOOLS if name != "bw-shards"):
            # before Python 3.10 they are called optional arguments
            told = re.split("\n(?:options|optional arguments):",
                            support.tool(words[0], "--help").out)[-1]
            options = set(re.findall(r"^  (?:-h, )?(--[a-z-]+)", told, re.M))
            self.assertGreaterEqual(options, {"--help", "--version"})
            self.assertEqual(completed_by_bash(*words, "--"), options, words)
            line = re.search(rf"^ +{words[0]}\) _arguments (.*)$",
                             (PYTHON / "completions" / "_bw-ask").read_text(encoding="utf-8"),
                             re.M)[1]
            self.assertEqual(set(re.findall(r"'\*?(--[a-z-]+)\[", line)), options, words)
        self.assertEqual(completed_by_bash("bw-shards", "a"), {"ask"})
        self.assertIn("--scheduler", completed_by_bash("bw-shards", "ask", "--s"))
        self.assertEqual(completed_by_bash("bw-ask", "--format", "v"), {"vertical"})
        self.assertEqual(completed_by_bash("bw-import", "--date", "x"), set())
        table = self.new_folder() / "some table.bw"
        table.touch()
        self.assertEqual(completed_by_bash("bw-ask", str(table)[:-9]), {str(table)})

    def test_each_program_has_a_version(self):
        for name in TOOLS:
            done = support.tool(name, "--version")
            self.assertEqual((done.status, done.out), (0, f"{name} {bwtools.__version__}\n"))

    def test_zsh(self):
        text = (PYTHON / "completions" / "_bw").read_text(encoding="utf-8")
        commands, _ = help_of()
        self.assertEqual(sorted(re.findall(r"^    '([a-z]+):", text, re.M)), sorted(commands))
        for command in commands:
            line = next((line for line in text.split("\n")
                         if re.match(rf"    [a-z|]*\b{command}\b[a-z|]*\) ", line)), "")
            self.assertTrue(line, command)
            self.assertEqual(set(re.findall(r"--[a-z]+", line)) | SHARED, help_of(command)[1],
                             command)

    def test_zsh_reads_its_completion(self):
        if not shutil.which("zsh"):
            self.skipTest("the completion of zsh: install zsh")
        for name in ("_bw", "_bw-ask"):
            self.assertEqual(run(["zsh", "-n", PYTHON / "completions" / name]), (0, "", ""))

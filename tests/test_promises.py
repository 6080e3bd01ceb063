"""docs/PROMISES.md and docs/promises.txt beside each other and beside the tree, README.md's
figures, and the links and places of all pages.

The page has groups, `## NAME`, and in each group promises, `### NAME`. A promise is sentences. They
name some of the calls that guarantee it, `bw_crate::path::call`, and some clauses of a call,
"`bw_crate::path::call`: `clause`, `clause`". Instead, its last words may be `Tests alone.` or `The
check itself.`

The data file has the same promises in the same order, `[NAME]`, and below each name a line for each
clause that guarantees it,

    bw_crate::path::call clause: bw_crate/mutant, bw_crate/other_mutant

with the mutants that the prover rejects for that clause, if there are any: edits in
crates/NAME/must-fail, which the gate tries, or in crates/NAME/mutants, which scripts/mutants tries.
Without a label, a line names all clauses of the call that no other line names. Instead of clauses,
a promise may have the line `tests: tests/NAME.py, tests/NAME.py`, or `the check itself`. Lines that
begin with `#` are comments."""
import functools
import re

from tests import support
from tests.support import ROOT

PAGE, DATA = ROOT / "docs" / "PROMISES.md", ROOT / "docs" / "promises.txt"
MOST = 90
LONGEST = 300
HEAD = re.compile(r"^\s*(?:pub(?:\([a-z]+\))? )?(?:final )?(?:const )?fn (\w+)")
BLOCK = re.compile(r"^(?:pub )?(?:unsafe )?(impl|trait)\b(.*)$")
MARK = re.compile(r'(?://|--).*|"(?:\\.|[^"\\])*"|[][(){};]')
TOLD = re.compile(r"\b(ensures|requires)\*?(?:\s+(\w+))?\s*$")
CLAUSE = re.compile(r"^(bw\w*)::(\w+(?:::\w+)*)(?: (\w+))?(?:: (\S.*))?$")
EDIT = re.compile(r"^(bw\w*)/(\w+)$")
# a call that the page names, with the clauses after it
CARRIER = re.compile(r"`(bw\w*)::(\w+(?:::\w+)*)`(?:: ((?:`\w+`(?:, )?)+))?")
WORD, STRING = re.compile(r"\w+"), re.compile(r'b?"(?:\\.|[^"\\])*"')
CALL = re.compile(r"\b(\w+)\s*(?:::<[^>]*>)?\(")
BOUND = re.compile(r"(?:\blet|\bfor|\|)\s*(?:mut )?(\w+)")
# calls of std that only edits make
STD = {"from_be_bytes", "is_none_or", "last_mut", "map_err", "reverse", "simd_le", "simd_ne",
       "to_ascii_uppercase", "wrapping_sub"}
THEOREM = ROOT / "docs" / "THEOREM.md"
# a piece of a source, with its file, and a file with its number of lines
QUOTE = re.compile(r"^```\w+ (crates/\S+)\n(.*?)^```$", re.MULTILINE | re.DOTALL)
COUNTED = re.compile(r"^\| `(bw\w*/specs/\w+\.antt)` \| (\d+) \|", re.MULTILINE)
README, BENCHMARKS = ROOT / "README.md", ROOT / "docs" / "BENCHMARKS.md"
# README's columns of times, and the columns of docs/BENCHMARKS.md that they are taken from
TIMES = {"bw": "bw, planes, ms", "C, tuned by hand": "tuned C, planes, ms",
         "SQLite, no index": "sqlite3"}
# how many words README and all pages together may have
WORDS, ALL_WORDS = 950, 33_000


def owner(line):
    """Returns the types or traits of a block at the margin."""
    found = BLOCK.match(line)
    if not found:
        return None
    rest = re.sub(r"^<[^>]*>", "", found.group(2)).strip()
    names = rest.split(" for ") if " for " in rest else [rest]
    return [re.match(r"\W*(\w+)", name).group(1) for name in names]


def labels_of(text):
    """Returns the labels of the clauses of the function with which a text begins, '' for a clause
    without one: up to the function's body, or the semicolon in its place. A clause is a block after
    `ensures` or `requires`; any other block is the body."""
    labels, depth, last = set(), 0, 0
    for mark in MARK.finditer(text):
        sign = mark.group()
        if sign == "{" and depth == 0:
            told = TOLD.search(text, last, mark.start())
            if not told:
                break
            if told.group(1) == "ensures":
                labels.add(told.group(2) or "")
        elif sign == ";" and depth == 0:
            break
        depth += (sign in "([{") - (sign in ")]}")
        if sign == "}" and depth == 0:
            last = mark.end()
    return labels


@functools.lru_cache(None)
def contracts(crate):
    """Returns the clause labels of each function, by its name and by owner and name. Also returns
    the names that the library exports and the methods of what it exports, with their labels."""
    found, exported = {}, []
    top = (ROOT / "crates" / crate / "src" / "lib.rt").read_text(encoding="utf-8") \
        if crate != "bw" else ""
    names = {name for used in re.findall(r"pub use ([^;]+);", top)
             for name in re.findall(r"\w+", used)}
    names.update(re.findall(r"^pub (?:struct|enum|trait|(?:final )?(?:const )?fn) (\w+)", top,
                            re.MULTILINE))
    for path in sorted((ROOT / "crates" / crate / "src").rglob("*.rt")):
        lines = path.read_text(encoding="utf-8").splitlines()
        owners, in_trait, in_tests = [], False, path.name == "tests.rt"
        for at, line in enumerate(lines):
            in_tests |= line.startswith("mod tests {")
            if line and not line[0].isspace():
                in_trait = bool(re.match(r"(pub )?trait ", line)) or in_trait and \
                    not line.startswith("}")
                owners = owner(line) or ([] if line.startswith("}") else owners)
            head = HEAD.match(line)
            if not head or in_tests:
                continue
            labels = labels_of("\n".join(lines[at:]))
            called = [head.group(1)] + [f"{each}::{head.group(1)}" for each in owners]
            for name in called:
                found.setdefault(name, set()).update(labels)
            is_out = line.lstrip().startswith("pub ") or in_trait
            if is_out and (names & set(owners) if owners else head.group(1) in names):
                exported += [(called, label) for label in sorted(labels)]
    return found, exported


@functools.cache
def words_of_sources():
    """Returns every word of the sources, and the calls of std that only edits make."""
    texts = (path.read_text(encoding="utf-8") for path in ROOT.glob("crates/*/src/**/*.rt"))
    return STD.union(*(WORD.findall(text) for text in texts))


def gone(text):
    """Returns a call in an edit's new text that is neither in the sources nor bound in the text, if
    there is one."""
    text = STRING.sub("", text)
    called = set(CALL.findall(text)) - set(BOUND.findall(text)) - words_of_sources()
    return min(called, default=None)


def arguments_from(text, start):
    """Returns the arguments, or parameters, that stand in a text from a place on, up to the bracket
    that closes; None if none closes. A comma between the bars of a closure counts as one between
    arguments."""
    found, depth = [""], 0
    for sign in text[start:]:
        if sign in ")]}" and depth == 0:
            return [each for each in found if each.strip()]
        depth += (sign in "([{") - (sign in ")]}")
        if sign == "," and depth == 0:
            found.append("")
        else:
            found[-1] += sign
    return None


@functools.cache
def functions_of(crate):
    """Returns of each function that a crate's sources define how many arguments its calls have,
    without `self`."""
    found = {}
    for path in sorted((ROOT / "crates" / crate / "src").rglob("*.rt")):
        text = re.sub(r"//.*", "", path.read_text(encoding="utf-8"))
        for head in re.finditer(r"\bfn (\w+)\s*(?:<[^()]*>)?\(", text):
            given = arguments_from(re.sub(r"<[^<>()]*>", "", text[head.end():]), 0) or []
            own = [each for each in given
                   if not re.fullmatch(r"\s*(?:&(?:'\w+ )?)?(?:mut )?self\s*", each)]
            found.setdefault(head.group(1), set()).add(len(own))
    return found


def misfit(crate, text):
    """Returns a call in an edit's new text with another number of arguments than the function of
    its crate has, if there is one. Methods and functions of types are left out, since other types
    have some of the same names."""
    text = re.sub(r"::<[^<>()]*>", "", re.sub(r"b?'(?:\\.|[^\\'])'", "0", STRING.sub('""', text)))
    for call in re.finditer(r"(?<![.:\w])(\w+)\(", text):
        counts, given = functions_of(crate).get(call.group(1)), arguments_from(text, call.end())
        if counts and given is not None and "fn " not in text[:call.start()][-3:] and \
                len(given) not in counts:
            wanted = " or ".join(map(str, sorted(counts)))
            return f"{call.group(1)} with {len(given)} arguments of {wanted}"
    return None


def why_not(edit):
    """Returns why an edit can't be applied to its crate, if it can't: each `old:` text must occur
    once in its file, after the edit's earlier pairs, the calls of a `new:` text must exist, and
    no text has two lines."""
    texts, path, old, pairs = {}, None, None, 0
    for line in edit.read_text(encoding="utf-8").split("\n"):
        if line.startswith("file: "):
            path = edit.parent.parent / line[6:].strip()
            if not path.is_file():
                return f"there is no {line[6:]}"
            texts.setdefault(path, path.read_text(encoding="utf-8"))
        elif line.startswith("old: "):
            old = line[5:]
        elif line.startswith("new:"):
            if path is None or not old:
                return "a `new:` has no `file:` or no `old:` before it"
            if texts[path].count(old) != 1:
                return f"an `old:` text stands {texts[path].count(old)} times in {path.name}"
            if gone(line[4:]):
                return f"a `new:` text calls {gone(line[4:])}, which is gone"
            if misfit(edit.parent.parent.name, line[4:]):
                return f"a `new:` text calls {misfit(edit.parent.parent.name, line[4:])}"
            texts[path] = texts[path].replace(old, line[4:].removeprefix(" "))
            old, pairs = None, pairs + 1
        elif line:
            return f"nothing reads its line `{line.strip()}`"
    return None if pairs else "it changes nothing"


def anchor(heading):
    """Returns the name by which a link leads to a heading."""
    return re.sub(r"[^\w\- ]", "", heading.lower()).replace(" ", "-")


def amiss(text):
    """Returns what is wrong with the page's form, whatever the tree has: its headings, links and
    long lines."""
    wrong, groups, led = [], [], {}
    page = list(enumerate(text.splitlines(), 1))
    for number, line in page:
        mark, _, name = line.partition(" ")
        if mark == "##":
            groups.append([number, name, 0])
        elif mark == "###" and groups:
            groups[-1][2] += 1
        elif mark.startswith("#") and (mark, number) != ("#", 3):
            wrong.append(
                f"line {number}: a heading that is no group's, and no promise's in a group")
        if mark.startswith("#"):
            led.setdefault(anchor(name), []).append(number)
        if len(line) > LONGEST:
            wrong.append(f"line {number}: {len(line)} characters, and a line has {LONGEST} at most")
    wrong += [f"line {number}: {name} has no promise" for number, name, promises in groups
              if not promises]
    wrong += [f"lines {numbers}: the same heading" for numbers in led.values() if len(numbers) > 1]
    return len(groups), wrong


def tables(page):
    """Returns the column heads and the cells of each row of a page's tables."""
    head, found = None, []
    for line in page.splitlines() + [""]:
        cells = [cell.strip() for cell in re.split(r"(?<!\\)\|", line)[1:-1]]
        if not line.startswith("|"):
            head = None
        elif head is None:
            head = cells
        elif not re.fullmatch(r"[|: -]+", line):
            found.append((head, cells))
    return found


def amiss_in_figures(readme, benchmarks):
    """Returns how many of README's figures were compared, and a message for each wrong one."""
    wrong, measured, ratios = [], {}, []
    for head, cells in tables(benchmarks):
        if head[0].startswith("Question") and set(head) & set(TIMES.values()):
            measured.setdefault(cells[0], {}).update(zip(head, cells))
        ratios += [float(cell) for name, cell in zip(head, cells) if name == "bw / tuned C"]
    rows = [dict(zip(head, cells)) for head, cells in tables(readme) if head[0] == "Query"]
    for row in rows:
        found = measured.get(row["Query"], {})
        wrong += [f"{row['Query']}: {name} {row.get(name)}, and docs/BENCHMARKS.md has "
                  f"{found.get(theirs)}"
                  for name, theirs in TIMES.items() if theirs not in found or
                  row.get(name) != found[theirs]]
    said = re.findall(r"(\d\.\d\d) to (\d\.\d\d) times", readme)
    wanted = [(f"{min(ratios):.2f}", f"{max(ratios):.2f}")] if ratios else []
    wrong += [] if said == wanted \
        else [f"bw takes {said} times as long as tuned C, and docs/BENCHMARKS.md has {wanted}"]
    wrong += [] if rows else ["there is no table of queries"]
    return len(rows) * len(TIMES) + 1, wrong


def all_pages():
    """Returns the pages that document the project, without the lists of cases."""
    return [ROOT / name for name in ("README.md", "CONTRIBUTING.md", "CHANGELOG.md", "SECURITY.md",
                                     "examples/README.md", "cases/README.md",
                                     "bench/TRIED.md")] + sorted((ROOT / "docs").glob("*.md"))


@functools.cache
def anchors_of(page):
    """Returns the names by which links lead to a page's headings."""
    return {anchor(line.lstrip("# ")) for line in page.read_text(encoding="utf-8").splitlines()
            if re.match("#+ ", line)}


def dangling(page):
    """Returns how many links of a page to others of its tree were followed, and a message for each
    that leads nowhere."""
    found = [link for link in re.findall(r"\]\(([^)\s]+)\)", page.read_text(encoding="utf-8"))
             if "://" not in link]
    wrong = []
    for link in found:
        name, _, heading = link.partition("#")
        to = page.parent / name if name else page
        if not to.is_file():
            wrong.append(f"the link {link} leads nowhere")
        elif heading and heading not in anchors_of(to):
            wrong.append(f"the link {link} leads to no heading")
    return len(found), wrong


def promises_of_page(text):
    """Returns the page's promises: for each its line, its name and its sentences."""
    found, is_within = [], False
    for number, line in enumerate(text.splitlines(), 1):
        if line.startswith("#"):
            is_within = line.startswith("### ")
            if is_within:
                found.append({"line": number, "name": line[4:], "text": ""})
        elif line == "---":
            is_within = False
        elif is_within:
            found[-1]["text"] += line + "\n"
    return found


def promises_of_data(text):
    """Returns the promises of the data file: the lines of each, with their numbers, by its name;
    and what is wrong with their order."""
    found, wrong = {}, []
    for number, line in enumerate(text.splitlines(), 1):
        name = re.fullmatch(r"\[(.+)\]", line)
        if name and name.group(1) in found:
            wrong.append(f"line {number}: {name.group(1)} a second time")
        elif name:
            found[name.group(1)] = []
        elif line and not line.startswith("#"):
            if found:
                list(found.values())[-1].append((number, line))
            else:
                wrong.append(f"line {number}: a clause of no promise")
    return found, wrong


def amiss_in_sentences(promise, lines):
    """Returns what is wrong with the page's sentences on a promise, given the data file's lines for
    it."""
    at = f"line {promise['line']}: {promise['name']}"
    text = promise["text"].strip()
    if not text:
        return [f"{at} has no sentence"]
    texts = [line for _, line in lines]
    if not texts:
        return [f"{at}: nothing carries it in docs/promises.txt"]
    clauses = {(found.group(1), found.group(2), found.group(3))
               for found in map(CLAUSE.match, texts) if found}
    wrong, is_carried = [], False
    for crate, path, labels in CARRIER.findall(text):
        is_carried = True
        for label in re.findall(r"\w+", labels) or [None]:
            if not any((crate, path) == each[:2] and label in (None, each[2]) for each in clauses):
                wrong.append(
                    f"{at}: docs/promises.txt doesn't name {crate}::{path} {label or ''}".rstrip())
    for said, line in (("Tests alone.", "tests: "), ("The check itself.", "the check itself")):
        is_said, is_there = text.endswith(said), any(each.startswith(line) for each in texts)
        is_carried |= is_said and is_there
        if is_said != is_there:
            wrong.append(f"{at}: the page and docs/promises.txt differ about `{said}`")
    return wrong if is_carried else wrong + [f"{at} names no call that carries it"]


def groups_of(readme):
    """Returns README's list of pages, each with its group, in order."""
    found = re.findall(r"^- \*\*(\w+):\*\* (\[.*)$", readme.partition("\n## Pages\n")[2],
                       re.MULTILINE)
    return [(ROOT / link, group) for group, links in found
            for link in re.findall(r"\]\(([^)]*\.md)\)", links)]


def amiss_in_order(readme):
    """Returns what is wrong with the order of the pages. Each begins with its place in README's
    list, and ends with a link to the page after it; README ends with one to the first page, and the
    last page with one to README."""
    pages = groups_of(readme)
    wrong = [(page.relative_to(ROOT), "README.md's list of pages doesn't have it")
             for page in all_pages() if page not in [README, *(page for page, _ in pages)]]
    after = [README, *(page for page, _ in pages), README]
    for at, (page, group) in enumerate([(README, ""), *pages]):
        lines = page.read_text(encoding="utf-8").splitlines()
        begins = re.fullmatch(r"\[bw\]\(([^)]+)\) › (\w+) › \S.*", lines[0])
        if group and not (begins and begins.group(2) == group and
                          (page.parent / begins.group(1)).resolve() == README):
            wrong.append((page.relative_to(ROOT),
                          f"the first line isn't that of a page of the group {group}"))
        ends = re.fullmatch(r"Next: \[[^]]+\]\(([^)]+)\)", lines[-1])
        if not ends or (page.parent / ends.group(1)).resolve() != after[at + 1]:
            wrong.append((page.relative_to(ROOT),
                          f"the last line doesn't lead to {after[at + 1].relative_to(ROOT)}"))
    return len(pages) + 1, wrong


def amiss_in_quotes(text):
    """Returns how many pieces of sources and numbers of lines a page has, and what is wrong with
    them."""
    quotes, counts = QUOTE.findall(text), COUNTED.findall(text)
    texts = {name: (ROOT / name).read_text(encoding="utf-8") for name, _ in quotes
             if (ROOT / name).is_file()}
    wrong = [f"{name} has no piece that begins with `{piece.splitlines()[0].strip()}`"
             for name, piece in quotes if piece not in texts.get(name, "")]
    lines = {name: (ROOT / "crates" / name).read_text(encoding="utf-8").count("\n")
             for name, _ in counts}
    wrong += [f"{name} has {lines[name]} lines" for name, count in counts
              if int(count) != lines[name]]
    if f"They are {sum(lines.values())} of " not in text:
        wrong.append(f"the files have {sum(lines.values())} lines together")
    return len(quotes) + len(counts), wrong


def with_labels(data):
    """Returns the promises of the data file with a line for each clause: one without a label
    becomes a line for each label of its call that no other line has."""
    named = {}
    for found in (CLAUSE.match(line) for lines in data.values() for _, line in lines):
        if found and found[3]:
            named.setdefault((found[1], found[2]), set()).add(found[3])
    whole = {name: [] for name in data}
    for name, lines in data.items():
        for number, line in lines:
            found = CLAUSE.match(line)
            others = found and not found[3] and not found[4] and \
                contracts(found[1])[0].get(found[2], set()) - named.get((found[1], found[2]), set())
            whole[name] += [(number, f"{line} {label}".rstrip())
                            for label in sorted(others or {""})]
    return whole


@functools.lru_cache(None)
def page_and_data():
    """Returns the promises of the page, and those of the data file, clause by clause."""
    return promises_of_page(PAGE.read_text(encoding="utf-8")), \
        with_labels(promises_of_data(DATA.read_text(encoding="utf-8"))[0])


def lines_of_clauses():
    """Yields the lines of the data file that name a clause, with their numbers."""
    for lines in page_and_data()[1].values():
        yield from ((number, line) for number, line in lines
                    if line != "the check itself" and not line.startswith("tests: "))


def mutants():
    """Returns the edits that the gate tries, and the others."""
    return [sorted(ROOT.glob(f"crates/*/{folder}/*.edit")) for folder in ("must-fail", "mutants")]


class Promises(support.TestCase):
    """The page and the data file."""

    def test_form_of_the_page(self):
        groups, wrong = amiss(PAGE.read_text(encoding="utf-8"))
        self.assertEqual(wrong, [])
        self.assertGreater(groups, 5)

    def test_sentences(self):
        sections, data = page_and_data()
        self.assertEqual([each for promise in sections for each in
                          amiss_in_sentences(promise, data.get(promise["name"], []))], [])

    def test_page_and_data_have_the_same_promises(self):
        sections, data = page_and_data()
        self.assertEqual(list(data), [promise["name"] for promise in sections])
        self.assertEqual(promises_of_data(DATA.read_text(encoding="utf-8"))[1], [])

    def test_named_tests_are_there(self):
        for lines in page_and_data()[1].values():
            for number, line in lines:
                for name in line[7:].split(", ") if line.startswith("tests: ") else ():
                    with self.subTest(name, line=number):
                        self.assertRegex(name, r"\Atests/test_\w+\.py\Z")
                        self.assertTrue((ROOT / name).is_file())

    def test_named_clauses_are_there(self):
        for number, line in lines_of_clauses():
            with self.subTest(line, line=number):
                found = CLAUSE.match(line)
                self.assertTrue(found, "no call, clause and mutants")
                crate, path, label, edits = found.groups()
                known = contracts(crate)[0]
                self.assertIn(path, known)
                if label or known[path]:
                    self.assertIn(label or "", known[path])
                for edit in edits.split(", ") if edits else ():
                    self.assertRegex(edit.strip(), EDIT)

    def test_each_clause_of_a_library_is_named(self):
        named = {(found[1], found[2], found[3] or "")
                 for found in (CLAUSE.match(line) for _, line in lines_of_clauses()) if found}
        wrong = [f"{crate}::{called[-1]} {label}".rstrip()
                 for crate in sorted(path.name for path in (ROOT / "crates").iterdir()
                                     if re.match(r"bw_(?!conformance)", path.name))
                 for called, label in contracts(crate)[1]
                 if not any((crate, name, label) in named for name in called)]
        self.assertEqual(wrong, [])


class Mutants(support.TestCase):
    """The edits that the prover must reject."""

    def test_each_is_named_once(self):
        named = [edit.strip() for _, line in lines_of_clauses()
                 for edit in ((CLAUSE.match(line) or [""] * 5)[4] or "").split(", ") if edit]
        there = [f"{edit.parent.parent.name}/{edit.stem}" for edits in mutants() for edit in edits]
        self.assertEqual(sorted(named), sorted(there))

    def test_each_applies(self):
        for edit in (edit for edits in mutants() for edit in edits):
            with self.subTest(edit.relative_to(ROOT)):
                self.assertIsNone(why_not(edit))

    def test_the_gate_has_time_for_must_fail(self):
        self.assertLessEqual(len(mutants()[0]), MOST)


class Pages(support.TestCase):
    """Figures, quotes, links and places."""

    def test_figures_of_readme(self):
        wrong = amiss_in_figures(README.read_text(encoding="utf-8"),
                                 BENCHMARKS.read_text(encoding="utf-8"))[1]
        self.assertEqual(wrong, [])

    def test_lengths(self):
        words = {page: len(page.read_text(encoding="utf-8").split()) for page in all_pages()}
        self.assertLessEqual(words[README], WORDS)
        self.assertLessEqual(sum(words.values()), ALL_WORDS)

    def test_quotes_of_theorem(self):
        quotes, wrong = amiss_in_quotes(THEOREM.read_text(encoding="utf-8"))
        self.assertEqual(wrong, [])
        self.assertGreater(quotes, 5)

    def test_order(self):
        self.assertEqual(amiss_in_order(README.read_text(encoding="utf-8"))[1], [])

    def test_links(self):
        for page in all_pages():
            with self.subTest(page.relative_to(ROOT)):
                self.assertEqual(dangling(page)[1], [])

    def test_named_files_are_there(self):
        """A command or a file of the tree that a page names in backticks."""
        for page in all_pages():
            text = page.read_text(encoding="utf-8")
            if page.name not in ("CHANGELOG.md", "TRIED.md"):
                for name in re.findall(r"`((?:scripts|tests|bench|cases|examples)/[\w./-]+)", text):
                    with self.subTest(name, page=page.relative_to(ROOT)):
                        self.assertTrue((ROOT / name).exists())

    def test_each_page_of_cases_has_a_class(self):
        text = "".join(path.read_text(encoding="utf-8")
                       for path in (ROOT / "tests").glob("test_*.py"))
        for page in (ROOT / "cases").glob("*.md"):
            with self.subTest(page.name):
                self.assertIn(f"cases/{page.name}", text)

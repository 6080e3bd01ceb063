"""Which modules a small question imports: they take most of its time. A module is added here only
with a reason. docs/DECISIONS.md has the rule."""
import pathlib
import subprocess
import sys

import bwtools
from tests.support import Imported

ROOT = pathlib.Path(bwtools.__file__).parent.parent
PROGRAM = """
import sys
sys.path.insert(0, sys.argv.pop(1))
before = set(sys.modules)
from bwtools._cli import ask
status = ask.main()
print(*sorted(set(sys.modules) - before), file=sys.stderr)
sys.exit(status)
"""
OWN = set("""
    _aggregation _cli _cli.ask _cli.asking _cli.options _database _engine
    _engine.executor _engine.process _errors _identifiers _output _progress _result
    _sql _sql.lexer _sql.literals _sql.parser _sql.plan _sql.prepare _sql.pushdown
    _sql.resolve _sql.syntax _sql.validate _storage _storage.catalog
    _storage.columns_file _types _types.base _types.dictionary _types.kinds""".split())
# what takes long to import, and what nobody needs who counts
SLOW = set("argparse csv dataclasses decimal distributed fractions gettext hashlib inspect json "
           "locale numpy pandas pathlib random shutil statistics subprocess tempfile threading "
           "unicodedata".split())


class Start(Imported):
    tables = {"t.bw": ("id,word,price,day\n1,one,2.50,2024-05-01\n2,two,,2024-05-02\n",),
              "plain.bw": ("id,word\n1,one\n2,two\n3,two\n",)}

    def modules(self, table, sql):
        """Returns the modules that a question imports, and its answer."""
        words = [sys.executable, "-I", "-S", "-c", PROGRAM, ROOT, self.folder / table, sql]
        done = subprocess.run(words, capture_output=True, text=True, check=False)
        self.assertEqual(done.returncode, 0, done.stderr)
        return set(done.stderr.split()), done.stdout

    def test_a_count_imports_what_it_needs_alone(self):
        found, answer = self.modules("plain.bw", "SELECT COUNT(*) FROM plain WHERE word = 'two'")
        self.assertEqual(answer, "COUNT(*)\n2\n")
        own = {name.partition(".")[2] for name in found if name.startswith("bwtools.")}
        self.assertEqual(own, OWN)
        self.assertEqual(found & SLOW, set())

    def test_groups_rows_and_other_kinds_import_no_dataclasses(self):
        for sql in ("SELECT COUNT(*), SUM(price), MAX(day) FROM t WHERE day > '2024-05-01'",
                    "SELECT word, AVG(price) FROM t GROUP BY word ORDER BY 2",
                    "SELECT * FROM t WHERE price = 2.5"):
            with self.subTest(sql):
                found, _ = self.modules("t.bw", sql)
                self.assertEqual(found & {"dataclasses", "inspect", "argparse"}, set())

"""The layers of the package: a module imports none above it."""
import ast
import pathlib
import unittest

import bwtools

ROOT = pathlib.Path(bwtools.__file__).parent
# bottom first; those of one line don't import each other; a line that begins with + continues one
LAYERS = """
    __init__ _cli.__init__ _identifiers _progress _types.number_format loader.dictionary
    _errors _types.base
    _csv.dialect _engine.process _storage.atomic _types.dictionary _types.numbers
     +_types.temporal
    _csv.reader _engine.executor _inference.options _sql.lexer _types.kinds
    _inference.fields _result _storage.columns_file
    _aggregation _csv.file _dataframes _output _storage.catalog
    _cli.shell _engine.cluster _inference.ambiguity _sql.syntax loader.encode
    _inference.detectors _sql.literals _sql.parser _sql.resolve
    _inference.infer _sql.prepare _sql.pushdown _sql.validate
    _sql.groups loader.table
    _sql.plan loader.importing
    _cli.options _sql.by_sqlite
    _cli.from_numbers _cli.import_ _cli.to_numbers _database
    _cli.asking _dbapi
    _cli.ask _cli.shards""".replace("\n     +", " ").split("\n")[1:]
PLACES = {name: place for place, line in enumerate(LAYERS) for name in line.split()}
# modules without code of their own
EMPTY = ("_csv.__init__", "_engine.__init__", "_inference.__init__", "_sql.__init__",
         "_storage.__init__", "_types.__init__", "loader.__init__")


def is_for_types(node):
    return isinstance(node, ast.If) and getattr(node.test, "id", "") == "TYPE_CHECKING"


def nodes_of(tree):
    """Yields the nodes of a module without what only a checker of types reads."""
    for node in ast.iter_child_nodes(tree):
        if not is_for_types(node):
            yield node
            yield from nodes_of(node)


def imported(path):
    """Yields the modules of the package that one imports, also in functions."""
    package = path.relative_to(ROOT).parts[:-1]
    for node in nodes_of(ast.parse(path.read_text(encoding="utf-8"))):
        if isinstance(node, ast.ImportFrom) and node.level:
            base = ".".join([*package[:len(package) - node.level + 1],
                             *filter(None, [node.module])])
            for alias in node.names:
                found = f"{base}.{alias.name}".strip(".")
                if (ROOT / f"{found.replace('.', '/')}.py").exists():
                    yield found
                elif (ROOT / f"{base.replace('.', '/')}.py").exists():
                    yield base
                else:
                    of = found if (ROOT / found.replace(".", "/")).is_dir() else base
                    yield f"{of}.__init__".strip(".")


class Layers(unittest.TestCase):
    def test_no_module_imports_one_above_it(self):
        count = 0
        for path in sorted(ROOT.rglob("*.py")):
            name = ".".join(path.relative_to(ROOT).with_suffix("").parts)
            if name in EMPTY:
                continue
            with self.subTest(name):
                self.assertIn(name, PLACES, "has no layer")
                for other in imported(path):
                    self.assertLess(PLACES.get(other, -1), PLACES[name],
                                    f"imports {other}, which isn't below it")
                    self.assertTrue(other in PLACES or other in EMPTY, f"{other} has no layer")
                    count += 1
        self.assertGreater(count, 200)

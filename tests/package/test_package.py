"""The package as a whole."""
import importlib
import inspect
import pkgutil
import unittest

import bwtools


def functions():
    """Yields every function and method of the package, by name, without those that named tuples
    get."""
    for found in pkgutil.walk_packages(bwtools.__path__, "bwtools."):
        module = importlib.import_module(found.name)
        owners = [module, *(each for each in vars(module).values() if inspect.isclass(each) and
                            each.__module__ == module.__name__)]
        for owner in owners:
            for name, each in vars(owner).items():
                if inspect.isfunction(each) and each.__code__.co_filename == module.__file__:
                    yield f"{module.__name__}: {each.__qualname__}", each


class Package(unittest.TestCase):
    def test_every_function_has_type_hints(self):
        count = 0
        for name, function in functions():
            wanted = {each for each in inspect.signature(function).parameters
                      if each not in ("self", "cls")} | {"return"}
            with self.subTest(name):
                self.assertEqual(wanted - function.__annotations__.keys(), set())
            count += 1
        self.assertGreater(count, 150)

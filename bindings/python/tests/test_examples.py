"""Examples, a part of test_sicklespan.py: each call has one, and what it shows is so."""

import contextlib
import doctest
import importlib
import importlib.util
import inspect
import os
import pkgutil
import tempfile
import unittest
from unittest import mock

import sicklespan

# Methods that others call, NumPy and notebooks.
CALLED = ("__array__", "_repr_svg_", "_repr_png_")
# What an example needs, by the end of its name.
NEEDED = {"to_pil": "PIL", "__array__": "numpy"}


@contextlib.contextmanager
def empty_folder():
    before = os.getcwd()
    with tempfile.TemporaryDirectory() as folder:
        os.chdir(folder)
        try:
            yield folder
        finally:
            os.chdir(before)


def modules():
    yield sicklespan
    for it in pkgutil.iter_modules(sicklespan.__path__, "sicklespan."):
        yield importlib.import_module(it.name)


def calls():
    """Each public function, property and method, by its name."""
    for module in [it for it in modules() if hasattr(it, "__all__")]:
        for name in module.__all__:
            it = getattr(module, name)
            if inspect.isfunction(it):
                yield name, it
            elif inspect.isclass(it) and not issubclass(it, Exception):
                yield name, it
                yield from ((f"{name}.{part}", method) for part, method in vars(it).items()
                            if (part[0] != "_" or part in CALLED)
                            and (inspect.isfunction(method) or isinstance(method, property)))


class Examples(unittest.TestCase):
    def test_each_call_has_one(self):
        found = dict(calls())
        self.assertGreater(len(found), 35)
        for name, it in found.items():
            with self.subTest(name):
                self.assertIn(">>>", inspect.getdoc(it) or "")

    def test_examples(self):
        ran, runner = 0, doctest.DocTestRunner(verbose=False)
        for module in modules():
            for it in doctest.DocTestFinder().find(module, globs={"sicklespan": sicklespan}):
                needed = NEEDED.get(it.name.rpartition(".")[2])
                if not it.examples or needed and importlib.util.find_spec(needed) is None:
                    continue
                said = []
                with self.subTest(it.name), empty_folder(), \
                        mock.patch("webbrowser.open", lambda address: True):
                    failed = runner.run(it, out=said.append).failed
                    self.assertEqual(failed, 0, "".join(said))
                ran += 1
        self.assertGreater(ran, 35)

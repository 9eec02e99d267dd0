"""What the documents show is what comes: docstrings, the README and the examples."""

import doctest
import importlib
import importlib.util
import os
import pathlib
import pkgutil
import re
import subprocess
import sys
import tempfile
import unittest

import rizhavaan

PACKAGE = pathlib.Path(__file__).resolve().parent.parent
OPTIONAL = ("networkx", "numpy", "pandas")


def missing(source):
    """The modules that a text needs and that are not installed."""
    needed = [module for module in OPTIONAL if f"import {module}" in source or f"to_{module}(" in source]
    return [module for module in needed if importlib.util.find_spec(module) is None]


def load_tests(loader, tests, pattern):
    finder = doctest.DocTestFinder()
    names = [name for _, name, _ in pkgutil.iter_modules(rizhavaan.__path__) if not name.startswith("lib")]
    for module in [rizhavaan, *(importlib.import_module(f"rizhavaan.{name}") for name in names)]:
        for test in finder.find(module, extraglobs={"Hang": rizhavaan.Hang, "Pattern": rizhavaan.Pattern}):
            lacks = missing(test.docstring or "")
            if lacks:
                tests.addTest(skipped(f"the examples of {test.name}: not installed: {', '.join(lacks)}"))
            elif test.examples:
                tests.addTest(doctest.DocTestCase(test))
    return tests


def skipped(reason):
    class Skipped(unittest.TestCase):
        @unittest.skip(reason)
        def test_documented(self):
            pass

    return Skipped("test_documented")


class Documents(unittest.TestCase):
    def test_every_docstring_has_its_examples_run(self):
        """The classes that a user begins with show how."""
        for name in ("Hang", "Pattern", "Places", "Refused", "InputError"):
            self.assertIn(">>>", getattr(rizhavaan, name).__doc__)

    def test_every_public_thing_is_documented(self):
        for name in rizhavaan.__all__:
            documented = getattr(rizhavaan, name)
            self.assertTrue(documented.__doc__, name)
            for attribute, value in vars(documented).items() if isinstance(documented, type) else ():
                if not attribute.startswith("_") and isinstance(value, (classmethod, property)) and value is not None:
                    function = value.__func__ if isinstance(value, classmethod) else value.fget
                    self.assertIn("return", function.__annotations__, f"{name}.{attribute}")

    def test_readme(self):
        failed, tried = doctest.testfile(str(PACKAGE / "README.md"), module_relative=False)
        self.assertGreaterEqual(tried, 4)
        self.assertEqual(failed, 0)

    @unittest.skipIf(missing("import networkx"), "not installed: networkx")
    def test_the_five_lines_that_matter(self):
        readme = (PACKAGE / "README.md").read_text(encoding="utf-8")
        code = re.search(r"```python\n(.*?)```", readme, re.DOTALL).group(1)
        self.assertEqual(len(code.splitlines()), 5)
        self.assertEqual(self.run_code("-c", code), "45 Place(_0=0, _1=1, _2=2)\n")

    def run_code(self, *arguments):
        paths = os.pathsep.join([str(pathlib.Path(rizhavaan.__file__).parents[1]), os.environ.get("PYTHONPATH", "")])
        with tempfile.TemporaryDirectory() as folder:
            environment = {**os.environ, "PYTHONPATH": paths}
            command = [sys.executable, "-B", *arguments]
            run = subprocess.run(command, cwd=folder, env=environment, stdout=subprocess.PIPE, stderr=subprocess.PIPE)
        self.assertEqual(run.stderr.decode(), "")
        return run.stdout.decode()

    @unittest.skipIf(missing("import networkx"), "not installed: networkx")
    def test_the_karate_club(self):
        said = self.run_code(str(PACKAGE / "examples" / "karate.py"))
        self.assertIn("members in this place: [", said)

    def test_the_stage_rig(self):
        said = self.run_code(str(PACKAGE / "examples" / "stage_rig.py"))
        self.assertIn("two-lapsed: expected 0, found 1.", said)
        self.assertIn("gone: Place(truss='front-truss', left='motor-2', right='motor-3')", said)
        self.assertIn("new: Place(truss='front-truss', left='motor-2', right='motor 4 (spare)')", said)


class Missing(unittest.TestCase):
    def said(self, library):
        """What an import says where the library is another file."""
        path = str(pathlib.Path(rizhavaan.__file__).parents[1])
        environment = {**os.environ, "RIZHAVAAN_PYTHON_LIBRARY": library, "PYTHONPATH": path}
        command = [sys.executable, "-B", "-c", "import rizhavaan"]
        return subprocess.run(command, env=environment, stdout=subprocess.PIPE, stderr=subprocess.PIPE).stderr.decode()

    def test_no_library(self):
        """A package without its library says what to do."""
        said = self.said("/nowhere/lib.so")
        self.assertIn("ImportError: rizhavaan: the shared library /nowhere/lib.so is missing", said)
        self.assertIn("pip install ./bindings/python", said)

    def test_a_file_that_is_no_library(self):
        said = self.said(__file__)
        self.assertIn("ImportError: rizhavaan: the shared library", said)
        self.assertIn("does not load", said)


if __name__ == "__main__":
    unittest.main()

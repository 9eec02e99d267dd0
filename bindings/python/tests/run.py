"""Runs every test over the package that PYTHONPATH names, not over the one beside this folder, which has no library."""

import pathlib
import sys
import unittest

# Behind all else.
sys.path.append(str(pathlib.Path(__file__).resolve().parent.parent))

import rizhavaan  # noqa: E402

if __name__ == "__main__":
    print(f"rizhavaan {rizhavaan.__version__} at {pathlib.Path(rizhavaan.__file__).parent}")
    names = sys.argv[1:] or [f"tests.{path.stem}" for path in sorted(pathlib.Path(__file__).parent.glob("test_*.py"))]
    tests = unittest.defaultTestLoader.loadTestsFromNames(names)
    result = unittest.TextTestRunner().run(tests)
    for test, reason in result.skipped:
        print(f"skipped: {test.id()}: {reason}")
    sys.exit(not result.wasSuccessful())

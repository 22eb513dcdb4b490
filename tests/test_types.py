#!/usr/bin/env python3
"""The types of the Python package and of the examples, by mypy in strict mode, if it is installed."""
import importlib.util
import os
import shutil
import subprocess
import sys
import unittest

from support.program import TOP

PACKAGE = TOP / "bindings/python"

# How many seconds mypy may take without a cache.
PATIENCE = 600


def command():
    """Return the words that run mypy, of this Python or on PATH. Return none if it is missing."""
    if importlib.util.find_spec("mypy"):
        return [sys.executable, "-m", "mypy"]
    found = shutil.which("mypy")
    return [found] if found else []


@unittest.skipUnless(command(), "no mypy")
class Types(unittest.TestCase):
    """Each function has types, and they fit together."""

    def expect_clean(self, *names, path):
        """Assert that mypy finds nothing in files or folders. Their imports are in the folders of a path."""
        words = ["--strict", "--cache-dir", os.devnull, "--no-error-summary"]
        environment = {**os.environ, "MYPYPATH": os.pathsep.join(map(str, path))}
        environment.pop("PYTHONPATH", None)
        done = subprocess.run(
            [*command(), *words, *map(str, names)], cwd=TOP, env=environment, capture_output=True, text=True,
            timeout=PATIENCE,
        )
        self.assertEqual((done.returncode, done.stdout, done.stderr), (0, "", ""))

    def test_package(self):
        self.expect_clean(PACKAGE / "vollikash", path=[])

    def test_examples(self):
        for folder in ("notes", "sync"):
            with self.subTest(folder):
                files = sorted((TOP / "examples" / folder).glob("*.py"))
                programs = [file for file in files if not file.name.startswith("test_")]
                self.expect_clean(*programs, path=[PACKAGE, TOP / "examples" / folder])


if __name__ == "__main__":
    unittest.main()

#!/usr/bin/env python3
"""Tests of the example that looks into a changeset of SQLite from C, inverts it and lets SQLite apply it.

It is skipped where there is no sqlite3.h, or no libsqlite3 with the session extension. The library for C has to be built.

usage: examples/inspect/test_inspect.py
"""
import pathlib
import subprocess
import sys
import tempfile
import unittest

HERE = pathlib.Path(__file__).resolve().parent
C = HERE.parents[1] / "bindings/c"
SESSION = ["-DSQLITE_ENABLE_SESSION", "-DSQLITE_ENABLE_PREUPDATE_HOOK"]

# How many seconds a run may take.
PATIENCE = 60

PRINTED = """\
The table:
  id 1, name bolt, stock 50
  id 2, name nut, stock 80
The changes:
  parts update: 1 . 50 -> . . 45
  parts delete: 2 'nut' 80 -> . . .
  parts insert: . . . -> 3 'hinge' NULL
The table after them:
  id 1, name bolt, stock 45
  id 3, name hinge, stock NULL
The inverse:
  parts update: 1 . 45 -> . . 50
  parts insert: . . . -> 2 'nut' 80
  parts delete: 3 'hinge' NULL -> . . .
The table after that:
  id 1, name bolt, stock 50
  id 2, name nut, stock 80
"""


def compiled(folder, source, *words):
    """What the compiler prints, or None if it has made the program."""
    flags = ["-std=c11", "-Wall", "-Wextra", "-Werror", *SESSION, f"-I{C}"]
    words = ["cc", *flags, str(source), *words, "-lsqlite3", "-o", f"{folder}/main"]
    ran = subprocess.run(words, capture_output=True, text=True, timeout=PATIENCE, check=False)
    return ran.stderr if ran.returncode else None


def has_sessions(folder):
    """Return whether a program can call SQLite's session extension."""
    source = pathlib.Path(folder, "probe.c")
    source.write_text("#include <sqlite3.h>\nint main(void) { return sqlite3changeset_finalize(0); }\n")
    return compiled(folder, source) is None


class Inspect(unittest.TestCase):
    """What the example prints."""

    def check(self, *flags):
        with tempfile.TemporaryDirectory() as folder:
            if not has_sessions(folder):
                self.skipTest("there is no sqlite3.h, or no libsqlite3 with the session extension")
            self.assertIsNone(compiled(folder, HERE / "main.c", str(C / "out/libvollikash.a"), *flags))
            ran = subprocess.run([f"{folder}/main"], capture_output=True, text=True, timeout=PATIENCE, check=False)
            self.assertEqual((ran.stdout, ran.stderr, ran.returncode), (PRINTED, "", 0))

    def test_output(self):
        self.check()

    def test_sanitized(self):
        self.check("-g", "-fsanitize=address,undefined", "-fno-sanitize-recover=all")


if __name__ == "__main__":
    sys.exit(unittest.main())

#!/usr/bin/env python3
"""Tests of the example that asks the program `changeset-calls` from C. The program has to be built.

usage: examples/calls/test_client.py
"""
import os
import pathlib
import subprocess
import sys
import tempfile
import unittest

HERE = pathlib.Path(__file__).resolve().parent
TOP = HERE.parents[1]
PROGRAM = os.environ.get("VOLLIKASH_CALLS", str(TOP / "crates/changeset_calls/out/changeset_calls"))

# How many seconds a run may take.
PATIENCE = 60

PRINTED = """\
declare
  done
begin
  done
insert
  done
insert
  done
insert
  done
insert
  refused with 33: table notes, key 3
commit
  done
rows
  row 1 call the plumber
  row 2 buy milk
  and more
rows
  row 3 water the plants
  and no more
apply
  refused with 41: table notes, key 2, detail 1
apply
  written 0, ignored 0
  conflict DATA omitted: table notes, key 2
apply
  written 1, ignored 0
  conflict DATA replaced: table notes, key 2
get
  row 2 buy rye bread
get
  no row
"""

# What is printed of a second run on the same store.
AGAIN = (
    PRINTED.replace("declare\n  done", "declare\n  refused with 30: table notes")
    .replace(3 * "insert\n  done\n", "".join(f"insert\n  refused with 33: table notes, key {id}\n" for id in (1, 2, 3)))
    .replace("row 2 buy milk", "row 2 buy rye bread")
)


class Client(unittest.TestCase):
    """What the example prints."""

    def check(self, *flags):
        with tempfile.TemporaryDirectory() as folder:
            words = ["cc", "-std=c11", "-Wall", "-Wextra", "-Werror", "-pedantic", *flags]
            made = subprocess.run(
                [*words, str(HERE / "client.c"), "-o", f"{folder}/client"],
                capture_output=True, text=True, timeout=PATIENCE, check=False,
            )
            self.assertEqual((made.returncode, made.stderr), (0, ""))
            for printed in (PRINTED, AGAIN):
                ran = subprocess.run(
                    [f"{folder}/client", PROGRAM, f"{folder}/store"],
                    capture_output=True, text=True, timeout=PATIENCE, check=False,
                )
                self.assertEqual((ran.stdout, ran.stderr, ran.returncode), (printed, "", 0))

    def test_output(self):
        self.check()

    def test_sanitized(self):
        self.check("-g", "-fsanitize=address,undefined", "-fno-sanitize-recover=all")


if __name__ == "__main__":
    if not os.path.isfile(PROGRAM):
        sys.exit(f"no program at {PROGRAM}: build it by `rt run` in crates/changeset_calls")
    sys.exit(unittest.main())

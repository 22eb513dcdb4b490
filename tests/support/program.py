"""The program that is tested: `VOLLIKASH_PROGRAM`, or the one of the repository."""
import os
import pathlib
import sys
import unittest

TESTS = pathlib.Path(__file__).resolve().parent.parent
TOP = TESTS.parent
PROGRAM = pathlib.Path(os.environ.get("VOLLIKASH_PROGRAM", TOP / "crates/changeset/out/changeset")).resolve()

# How many seconds a run may take.
PATIENCE = 120

# Whether a suite tries all of its cases, which takes minutes, or those that the gate tries.
TRIES_ALL = os.environ.get("VOLLIKASH_TRIES") == "all"


def put_vollikash(folder):
    """Puts the command `vollikash` of the repository into a folder. Returns the variables that it
    needs.
    """
    script = pathlib.Path(folder, "vollikash")
    script.write_text(f'#!/bin/sh\nexec "{sys.executable}" -m vollikash "$@"\n')
    script.chmod(0o755)
    return {"PYTHONPATH": str(TOP / "bindings/python"), "VOLLIKASH_PROGRAM": str(PROGRAM)}


def main():
    """Runs the suite that is the main module."""
    if not PROGRAM.is_file():
        sys.exit(f"no program at {PROGRAM}: build it by `rt run` in crates/changeset")
    unittest.main()

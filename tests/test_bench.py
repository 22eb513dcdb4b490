#!/usr/bin/env python3
"""A quick run of `bench/run`, and how it puts what it measures into a document.

The run is skipped without the program, the C library, or SQLite's library with its session
extension.
"""
import os
import pathlib
import re
import subprocess
import sys
import tempfile
import unittest

from support import library
from support.program import PATIENCE, PROGRAM, TOP

LIBRARY = pathlib.Path(os.environ.get("VOLLIKASH_LIBRARY") or TOP / "bindings/c/out/libvollikash.so")

# A row of the table: the ratios of 1000 and 10,000 entries, that of the memory, and the name.
ROW = re.compile(r"\| [0-9.]+ [0-9.]+ \| [0-9.]* \| `(\w+ ?\w+)` \| ([^|]+) \| 1000 to 10000 \| ")


def why_not():
    """Return why `bench/run` cannot measure, or an empty text."""
    if sys.version_info < (3, 9):
        return "Python before 3.9"
    for path in (PROGRAM, LIBRARY):
        if not path.is_file():
            return f"no {path.name}"
    with tempfile.TemporaryDirectory() as folder:
        return library.Library(folder).why


def bench(*words):
    """Run `bench/run`."""
    environment = {**os.environ, "VOLLIKASH_PROGRAM": str(PROGRAM)}
    return subprocess.run(
        [sys.executable, str(TOP / "bench/run"), *words],
        env=environment, capture_output=True, text=True, timeout=PATIENCE,
    )


@unittest.skipIf(sys.version_info < (3, 9), "Python before 3.9")
class Bench(unittest.TestCase):
    """What `bench/run` prints and refuses."""

    def test_inverts_are_measured(self):
        why = why_not()
        if why:
            self.skipTest(why)
        done = bench("--quick", "--only", "invert")
        self.assertEqual(done.returncode, 0, done.stderr)
        rows = ROW.findall(done.stdout)
        self.assertEqual({name for name, _ in rows}, {"vollikash_invert", "changeset invert"})
        self.assertEqual(len(rows), 12)
        self.assertIn("Ratios over 1:\n\n- ", done.stdout)
        self.assertRegex(done.stdout, "- Machine: .+\n- Versions: Vollikash .+ SQLite 3")

    def test_unknown_operation_is_refused(self):
        done = bench("--only", "inver")
        self.assertEqual((done.returncode, done.stdout), (2, ""))

    def test_part_is_not_written(self):
        done = bench("--write", "--quick")
        self.assertEqual((done.returncode, done.stdout), (2, ""))

    def test_document_has_the_markers(self):
        sys.path.insert(0, str(TOP / "bench"))
        try:
            import report
        finally:
            sys.path.remove(str(TOP / "bench"))
        document = (TOP / "docs/PERFORMANCE.md").read_text()
        placed = report.placed(document, "printed\n")
        before, after = document.split(report.BEGIN)[0], document.split(report.END)[1]
        self.assertEqual(placed, f"{before}{report.BEGIN}\n\nprinted\n\n{report.END}{after}")
        self.assertEqual(report.placed(placed, "printed\n"), placed)


if __name__ == "__main__":
    unittest.main()

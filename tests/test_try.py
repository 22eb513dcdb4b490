#!/usr/bin/env python3
"""The first command of README on a fresh machine: `examples/try`, which takes two minutes."""
import shutil
import subprocess
import unittest

from support.program import TOP, main


class Try(unittest.TestCase):
    """The program runs without its proofs."""

    @unittest.skipUnless(shutil.which("rt"), "no rt")
    def test_try(self):
        done = subprocess.run([TOP / "examples/try"], capture_output=True, text=True, timeout=900)
        self.assertEqual(done.stdout.splitlines()[-1:], ["The inverse is the one that SQLite made."], done.stderr)


if __name__ == "__main__":
    main()

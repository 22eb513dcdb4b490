#!/usr/bin/env python3
"""Ten seconds of `tests/fuzz`: made-up changesets, damaged files and scripts, compared with the
model and SQLite's library; and made-up calls, compared with the model.

`VOLLIKASH_SECONDS` sets another time, and `VOLLIKASH_CASES` another number of cases of calls.
"""
import os
import tempfile
import unittest

from support import call_fuzzing, fuzzing, library
from support.calls import CALLS_PROGRAM
from support.program import main

# The cases of calls.
SEED, CASES = 1, int(os.environ.get("VOLLIKASH_CASES", "40"))


class Fuzz(unittest.TestCase):
    """The program, the model and SQLite's library answer the same."""

    def test_cases(self):
        words = fuzzing.arguments().parse_args(["--seconds", os.environ.get("VOLLIKASH_SECONDS", "10")])
        is_good, beside = fuzzing.run_for(words)
        self.assertTrue(is_good)
        self.assertTrue(beside.asked or not beside.is_there)

    @unittest.skipUnless(CALLS_PROGRAM.exists(), "the program changeset-calls is not built")
    def test_calls(self):
        """Each call has the answer of the model, byte by byte, and the store has its tables."""
        for number in range(CASES):
            with self.subTest(number=number):
                call_fuzzing.compare(SEED, number)
        print(call_fuzzing.summary())

    def test_model_answers_the_table_of_cases(self):
        self.assertEqual(fuzzing.table_difference(), "")

    def test_library_is_there(self):
        with tempfile.TemporaryDirectory() as folder:
            beside = library.Library(folder)
            if not beside.is_there:
                self.skipTest(beside.why)


if __name__ == "__main__":
    main()

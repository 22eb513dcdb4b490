#!/usr/bin/env python3
"""Out of memory: one allocation of a run is refused, then the next, and so on (`refuse.c`).

A line of a script is answered as with memory, or by `error 60 NoMemory` as if it were not there;
on a store in memory `error 38 StoreFault` may take its place. A command is done, or prints that
line and leaves its files. A run of the gate tries some allocations of each script and command. With
`VOLLIKASH_TRIES=all` each is tried, for minutes.
"""
import random
import tempfile
import unittest

from support.call_trials import RUNS, HostCalls
from support.calls import CALLS_PROGRAM
from support.program import TOP, TRIES_ALL, main
from support.trials import (
    CALLS, COMMANDS, SCRIPTS, Calls, Command, MemoryScript, Script, build_shim,
)

# How many of the first allocations of a run are tried in the gate, and how many of the others.
FIRST, OTHERS = 40, 60


def tried(count):
    """Which of this many allocations are refused."""
    if TRIES_ALL or count <= FIRST + OTHERS:
        return range(1, count + 1)
    return [*range(1, FIRST + 1), *sorted(random.Random(count).sample(range(FIRST + 1, count + 1), OTHERS))]


class MemoryTest(unittest.TestCase):
    """Runs to which one allocation is refused."""

    @classmethod
    def setUpClass(cls):
        folder = tempfile.TemporaryDirectory()
        cls.addClassCleanup(folder.cleanup)
        cls.shim = build_shim(folder.name)

    def expect_ends(self, trial):
        """Refuses one allocation after another, and asserts that each run ends in a way in which it
        may.
        """
        ends = trial.ends()
        count = trial.count(self.shim)
        self.assertGreater(count, 0)
        refusals = 0
        for at in tried(count):
            ended, was_refused = trial.refused(self.shim, at)
            self.assertTrue(was_refused)
            self.assertIn(ended, ends, f"allocation {at} of {count}")
            refusals += ended != ends[0]
        self.assertGreater(refusals, 0)

    def test_scripts(self):
        """Each line is answered as with memory, or refused and passed over."""
        for what, lines in SCRIPTS.items():
            with self.subTest(what):
                self.expect_ends(Script(lines))

    def test_scripts_in_memory(self):
        """The same on a store in memory, which may refuse a line by StoreFault too."""
        lines = SCRIPTS["a session whose key changes"]
        self.expect_ends(MemoryScript(lines))

    def test_commands(self):
        """Each command is carried out, or leaves its files."""
        for words in COMMANDS:
            with self.subTest(" ".join(words)):
                self.expect_ends(Command(words))

    @unittest.skipUnless(CALLS.exists(), "the program of the calls is not built")
    def test_calls(self):
        """Each call that no line makes answers as with memory, or NoMemory, and leaves what was
        there.
        """
        self.expect_ends(Calls((TOP / "crates/calls/args").read_text().split()))

    @unittest.skipUnless(CALLS_PROGRAM.exists(), "the program changeset-calls is not built")
    def test_calls_of_a_host(self):
        """Each call is answered as with memory, or refused and passed over, or its transaction has
        ended.
        """
        for what, asked in RUNS.items():
            with self.subTest(what):
                self.expect_ends(HostCalls(asked))


if __name__ == "__main__":
    main()

#!/usr/bin/env python3
"""Failing files: one call on a file fails, is interrupted, moves one byte, or ends the process, or a
disk stops at one.

`refuse.c` lets one call of a run fail, then the next, and so on. A script ends as its printed lines
say, and the store has the tables that go with them, read by SQLite and by the program. A command is
done, or reports a fault and leaves its files, OUT above all. `support/shell.py` says which tables
lines make. A run of the gate tries some of the calls of each kind. With `VOLLIKASH_TRIES=all` each
is tried, for minutes.
"""
import errno
import random
import tempfile
import unittest

from support.call_trials import RUNS, FaultyCalls
from support.calls import CALLS_PROGRAM
from support.faults import ANSWERS, ONE_BYTE, STORE_SCRIPTS, FileCommand, MarkedScript
from support.program import TRIES_ALL, main
from support.trials import COMMANDS, build_shim

# How many of the first calls of a kind are tried in the gate, and how many of the others.
FIRST, OTHERS = 2, 2


def tried(count):
    """Which of this many calls are refused."""
    if TRIES_ALL or count <= FIRST + OTHERS:
        return range(1, count + 1)
    return [*range(1, FIRST + 1), *sorted(random.Random(count).sample(range(FIRST + 1, count + 1), OTHERS))]


class DescriptorTest(unittest.TestCase):
    """Runs to which one call on a file is refused."""

    points = 0

    @classmethod
    def setUpClass(cls):
        folder = tempfile.TemporaryDirectory()
        cls.addClassCleanup(folder.cleanup)
        cls.shim = build_shim(folder.name)

    @classmethod
    def tearDownClass(cls):
        print(f"{cls.points} calls refused")

    def expect_ends(self, trial):
        """Refuses one call after another, and asserts that each run ends in a way in which it may.
        """
        normal = trial.once()
        self.assertEqual(trial.why_not(normal, normal, "", ONE_BYTE), "")
        for call, answers in ANSWERS.items():
            count = trial.count(self.shim, call)
            for answer in answers:
                for at in tried(count):
                    ended, was_refused = trial.refused(self.shim, at, call, answer)
                    DescriptorTest.points += was_refused
                    with self.subTest(call=call, at=at, of=count, answer=errno.errorcode.get(answer, answer)):
                        self.assertTrue(was_refused)
                        self.assertEqual(trial.why_not(ended, normal, call, answer), "", ended)

    def test_scripts(self):
        """Each line is answered, or refused with StoreFault, and the store is as the answers say.
        """
        for what, lines in STORE_SCRIPTS.items():
            with self.subTest(what):
                self.expect_ends(MarkedScript(lines))

    @unittest.skipUnless(CALLS_PROGRAM.exists(), "the program changeset-calls is not built")
    def test_calls(self):
        """Each call is answered, or refused with 38, which may end its transaction, and the store is as
        the answers say.
        """
        for what, asked in RUNS.items():
            with self.subTest(what):
                self.expect_ends(FaultyCalls(asked))

    def test_commands(self):
        """Each command succeeds, or reports an error and leaves its files."""
        for words in COMMANDS:
            with self.subTest(" ".join(words)):
                self.expect_ends(FileCommand(words))


if __name__ == "__main__":
    main()

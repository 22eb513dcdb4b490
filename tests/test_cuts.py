#!/usr/bin/env python3
"""What a power cut, or the end of the process, leaves at each point of a run.

`record.c` records what a run writes, syncs, creates, renames, removes and prints. At each point the
test makes the files that may be there: all writes, as after the end of the process; or the synced
ones with any part of the later ones, also writes of which only some sectors of 512 bytes are there.
SQLite has to find each such store whole, with the tables before or after the line that ran. The
program opens it and goes on, and is cut again while it opens it. OUT is the old file or the new
one. A run of the gate tries some of these files. With `VOLLIKASH_TRIES=all` all are tried, for
minutes.
"""
import tempfile
import unittest

from support.call_trials import RUNS, call_run
from support.calls import CALLS_PROGRAM
from support.faults import STORE_SCRIPTS
from support.power import (
    APPLIES, LARGE_APPLY, LONG_SCRIPT, Disk, Recording, apply_run, counts, found_by, script_run, tried,
)
from support.program import TRIES_ALL, main
from support.stores import FORMER
from support.trials import COMMANDS, build_shim

# How many files of each run are tried in the gate, how many of these are opened by the program,
# too, and of how many of these the opening is recorded and cut again; and the same of runs whose
# files have megabytes.
SHARES, LONG_SHARES = (150, 40, 1), (16, 4, 0)
if TRIES_ALL:
    # All but those of megabytes.
    SHARES, LONG_SHARES = (1_000_000, 1_000_000, 4), (300, 300, 0)


class CutTest(unittest.TestCase):
    """Runs that are cut."""

    @classmethod
    def setUpClass(cls):
        folder = tempfile.TemporaryDirectory()
        cls.addClassCleanup(folder.cleanup)
        cls.shim = build_shim(folder.name, "record")

    @classmethod
    def tearDownClass(cls):
        print("{runs} runs, {points} points, {files} files, {opened} opened by the program".format(**counts))

    def record(self, files, words, stdin, program=None):
        """Records a run, whose files have to be those that its record makes."""
        recording = Recording(self.shim, files, words, stdin, program)
        disk = Disk(recording)
        for event in recording.events:
            disk.take(event)
        self.assertTrue(disk.files([(change, None) for change in disk.pending]) == recording.left, "another record")
        return recording

    def expect_store(self, runs, most, opened, again):
        """Asserts that what is left of a run that is cut is a store with the tables of a line. It
        is one of these.
        """
        recording = self.record(runs[0].files, runs[0].words, runs[0].stdin, runs[0].program)
        found = [run for run in runs if run.story.printed() == recording.ended[1]]
        self.assertTrue(found, "the model answers otherwise")
        kept = []
        for files, printed, told, share in tried(recording, most):
            with self.subTest(told):
                self.assertEqual(found[0].why_not(files, printed, share < opened), "")
            if share < again:
                kept.append((told, found[0].again(files, printed)))
        for told, others in kept:
            with self.subTest("again " + told):
                self.expect_store(others, most, opened, 0)

    def test_scripts(self):
        """After each cut the tables are those from before the line that ran, or from after it."""
        for what, lines in STORE_SCRIPTS.items():
            with self.subTest(what):
                self.expect_store([script_run(lines)], *SHARES)

    @unittest.skipUnless(CALLS_PROGRAM.exists(), "the program changeset-calls is not built")
    def test_calls(self):
        """After each cut the tables are those that were committed before the call that ran, or those
        that it committed.
        """
        for what, asked in RUNS.items():
            with self.subTest(what):
                self.expect_store([call_run(asked)], *SHARES)

    def test_long_runs(self):
        """The same of a log that is copied back between lines, and of an apply that is written
        before it ends.
        """
        for run in (script_run(LONG_SCRIPT), apply_run(LARGE_APPLY)):
            with self.subTest(run.words):
                self.expect_store([run], *LONG_SHARES)

    def test_applies(self):
        """Behind each cut the apply stands, or nothing of it does."""
        for words in [*COMMANDS, *APPLIES]:
            if "apply" in words:
                with self.subTest(" ".join(words)):
                    self.expect_store([apply_run(words)], *SHARES)

    def test_stores_of_the_former_version(self):
        """Behind each cut the store is as it was, or in this version, and the apply stands or does
        not.
        """
        for words in APPLIES:
            with self.subTest(" ".join(words)):
                self.expect_store([apply_run(words, FORMER)], *SHARES)

    def test_files_that_are_written(self):
        """Behind each cut OUT is the old file or the new one, and the other files are as they were.
        """
        for words in COMMANDS:
            if "out" in words:
                files = found_by(words)
                recording = self.record(files, words, b"")
                new = {**files, "out": recording.left["out"]}
                for left, _, told, _ in tried(recording, SHARES[0]):
                    with self.subTest(" ".join(words), told=told):
                        self.assertIn({name: left.get(name) for name in files}, (files, new))


if __name__ == "__main__":
    main()

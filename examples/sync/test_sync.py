#!/usr/bin/env python3
"""Tests of the example that keeps two SQLite databases and a store the same: what it prints, and what it leaves.

usage: examples/sync/test_sync.py [PROGRAM], where PROGRAM is the `changeset-calls` that is built
"""
import contextlib
import os
import pathlib
import sqlite3
import subprocess
import sys
import tempfile
import unittest
import unittest.mock

HERE = pathlib.Path(__file__).resolve().parent
ROOT = HERE.parents[1]
sys.path.insert(0, str(ROOT / "bindings/python"))

import sync  # noqa: E402
import vollikash  # noqa: E402

PROGRAM = ROOT / "crates/changeset_calls/out/changeset_calls"

# How many seconds a run may take.
PATIENCE = 300

PRINTED = """\
1. The shop's database makes three rows. SQLite records them.
   shop    1 bolt 50  2 nut 80  3 hinge 4
   office  nothing
   hub     nothing
   The three are not the same.

   The changeset of it, 89 bytes, is applied by the hub, which carries out 3
   entries, and by SQLite to the office's database.
   shop    1 bolt 50  2 nut 80  3 hinge 4
   office  1 bolt 50  2 nut 80  3 hinge 4
   hub     1 bolt 50  2 nut 80  3 hinge 4
   The three are the same.

2. The hub changes a row and deletes another, in a session.
   Its net changeset, 70 bytes, is applied by SQLite to the shop's and the office's database.
   shop    1 bolt 45  2 nut 80
   office  1 bolt 45  2 nut 80
   hub     1 bolt 45  2 nut 80
   The three are the same.

3. The shop sells 10 bolts and gets a new part. Meanwhile the hub has counted the bolts, and found 48.
   shop    1 bolt 35  2 nut 80  4 latch 7
   office  1 bolt 45  2 nut 80
   hub     1 bolt 48  2 nut 80
   The three are not the same.

4. The shop's changeset is applied by the hub, with no word about conflicts.
   Refused, Abort: a conflict of the kind data in table 'stock', key (1,): the row differs from the one that was changed there.
   Nothing of it is carried out, the new part neither.
   shop    1 bolt 35  2 nut 80  4 latch 7
   office  1 bolt 45  2 nut 80
   hub     1 bolt 48  2 nut 80
   The three are not the same.

5. The hub's count is to stand: what differs is left as it is, and the rest is carried out.
   Conflict data, omit: the row differs from the one that was changed there.
   Entries that the hub carries out: 1.
   shop    1 bolt 35  2 nut 80  4 latch 7
   office  1 bolt 45  2 nut 80
   hub     1 bolt 48  2 nut 80  4 latch 7
   The three are not the same.

6. The hub's session has told all of that as one net changeset. The office applies it, and the shop is to.
   The shop refuses it, data: the row differs from the one that was changed there.
   shop    1 bolt 35  2 nut 80  4 latch 7
   office  1 bolt 48  2 nut 80  4 latch 7
   hub     1 bolt 48  2 nut 80  4 latch 7
   The three are not the same.

7. The shop applies it once more, and is to take the hub's rows.
   Conflict data, replace: the row differs from the one that was changed there.
   Conflict conflict, replace: a row with this key is here.
   shop    1 bolt 48  2 nut 80  4 latch 7
   office  1 bolt 48  2 nut 80  4 latch 7
   hub     1 bolt 48  2 nut 80  4 latch 7
   The three are the same.

8. What was settled is undone: the hub reverts its changeset in a session, and the others apply that one's.
   shop    1 bolt 45  2 nut 80
   office  1 bolt 45  2 nut 80
   hub     1 bolt 45  2 nut 80
   The three are the same.

"""


class Sync(unittest.TestCase):
    """The example in a folder of its own."""

    def setUp(self):
        folder = tempfile.TemporaryDirectory()
        self.addCleanup(folder.cleanup)
        self.folder = pathlib.Path(folder.name)

    def needs_library(self):
        """Skips a test where SQLite's library with its session extension is not there."""
        try:
            sync.sqlite.Database(":memory:").close()
        except sync.sqlite.SqliteError as error:
            self.skipTest(str(error))

    def run_example(self, *words, **changed):
        """Runs the example, and answers its exit status and what it prints to both streams."""
        environment = {**os.environ, "PYTHONPATH": str(ROOT / "bindings/python"), **changed}
        command = [sys.executable, str(HERE / "sync.py"), *words]
        done = subprocess.run(
            command, cwd=self.folder, env=environment, timeout=PATIENCE, capture_output=True, text=True, check=False
        )
        return done.returncode, done.stdout, done.stderr

    def test_what_it_prints(self):
        self.needs_library()
        self.maxDiff = None
        self.assertEqual(self.run_example("kept"), (0, PRINTED, ""))
        self.assertEqual(self.run_example("kept"), (1, "", "sync.py: kept/shop.db is there already\n"))
        rows = [(1, "bolt", 45), (2, "nut", 80)]
        for name in ("shop.db", "office.db"):
            with contextlib.closing(sqlite3.connect(self.folder / "kept" / name)) as base:
                self.assertEqual(base.execute("PRAGMA integrity_check").fetchone(), ("ok",))
                self.assertEqual(base.execute("SELECT * FROM stock ORDER BY part").fetchall(), rows)
        with vollikash.open(self.folder / "kept/hub.db") as store:
            self.assertEqual(list(store.rows("stock")), rows)

    def test_no_library(self):
        """Without SQLite's library it says so."""
        missing = sync.sqlite.SqliteError("there is no SQLite library")
        with unittest.mock.patch.object(sync.sqlite, "_library", side_effect=missing):
            with self.assertRaisesRegex(SystemExit, "^sync.py: there is no SQLite library$"):
                sync.main([str(self.folder / "new")])

    def test_no_program(self):
        self.needs_library()
        status, _, reported = self.run_example(VOLLIKASH_CALLS=str(self.folder / "nothing"))
        self.assertEqual(status, 1)
        self.assertRegex(reported, r"^sync\.py: .*nothing does not run: .*\n$")


if __name__ == "__main__":
    if sys.argv[1:2] and not sys.argv[1].startswith("-"):
        PROGRAM = pathlib.Path(sys.argv.pop(1)).resolve()
    os.environ["VOLLIKASH_CALLS"] = str(PROGRAM)
    unittest.main()

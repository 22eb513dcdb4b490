#!/usr/bin/env python3
"""Calls on a store, answered by the program `changeset-calls` as docs/CALLS.md says.

The program has to be built first (`rt run` in crates/changeset_calls).
"""
import os
import pathlib
import subprocess
import tempfile
import unittest

from support.calls import (
    CALLS_PROGRAM, CHANGESET, CONFLICTS, DONE, FLAG, LIMITS, MOST_BYTES, NAMES, NUMBER, PATIENCE, REFUSED, REPORT, ROW,
    ROWS, SCHEMA, UNREAD, call, columns, count, frame, main, row, run, run_bytes, sized, text,
)
from support.documents import blocks_of
from support.program import TOP
from support.stores import read_store

TABLE = text("t")
DECLARE = call("declare", TABLE, columns(("a", 1), ("b", 2)))
COUNT = call("count", TABLE)
INSERT_FILE = b"T\x02\x01\x00t\x00\x12\x00\x03\x01p\x03\x01q"
INSERT_ENTRY = b"\x12\x00\x03\x01m\x03\x01q"
UPDATE_FILE = b"T\x02\x01\x00t\x00\x17\x00\x03\x01k\x03\x01y\x00\x03\x01z"
ABORT, OMIT = b"\x02\x02\x02\x02", b"\x00\x00\x00\x00"


def insert(*values):
    return call("insert", TABLE, row(values))


def refused(code, table=None, column=None, key=None, detail=None):
    return (REFUSED, code, table, column, key, detail)


# Calls that make a store with two rows.
START = [DECLARE, insert("k", "x"), insert("m", "y")]

# Calls on that store, each with its answer.
EXCHANGES = [
    (call("tables"), (NAMES, ["t"])),
    (call("schema", TABLE), (SCHEMA, [("a", 3), ("b", 2)])),
    (call("get", TABLE, row(["k"])), (ROW, ("k", "x"))),
    (call("rows", TABLE, b"\x01", row(["k"]), count(5)), (ROWS, [("m", "y")], False)),
    (COUNT, (NUMBER, 2)),
    (insert("k", "z"), refused(33, "t", None, ("k",))),
    (call("update", TABLE, row(["k"]), row(["k", "z"])), (DONE,)),
    (call("delete", TABLE, row(["m"])), (DONE,)),
    (call("put", TABLE, row(["k", None])), refused(39, "t", "b")),
    (call("apply", sized(INSERT_FILE), b"\x00", ABORT), (REPORT, 1, 0, [], [])),
]


class CallsTest(unittest.TestCase):
    """Calls that are answered."""

    def setUp(self):
        folder = tempfile.TemporaryDirectory()
        self.addCleanup(folder.cleanup)
        self.store = pathlib.Path(folder.name, "store")

    def rows(self):
        return read_store(str(self.store))["t"].rows

    def expect(self, exchanges, status=0, store=None):
        """Asserts that calls have these answers."""
        asked, answered = zip(*exchanges)
        self.assertEqual(run(store or self.store, asked), (status, list(answered)))

    def test_document(self):
        """The frames of docs/CALLS.md are answered as it says, and its call reads three rows after 7."""
        exchange, called = [text for tag, text in blocks_of(TOP / "docs/CALLS.md") if tag == "text"]
        asked, told = map(bytes.fromhex, exchange.splitlines())
        declared = call("declare", text("notes"), columns(("a", 1)))
        ended = run_bytes(self.store, frame(declared) + asked)
        self.assertEqual((ended.returncode, ended.stdout, ended.stderr), (0, frame(b"\x00") + told, b""))
        inserted = [call("insert", text("notes"), row([key])) for key in (11, 7, 9, 1, 8, 10)]
        self.expect([
            *((insertion, (DONE,)) for insertion in inserted),
            (bytes.fromhex(called), (ROWS, [(8,), (9,), (10,)], True)),
        ])

    def test_calls(self):
        """Each call has its answer, also on a store in memory."""
        exchanges = [*((asked, (DONE,)) for asked in START), *EXCHANGES]
        self.expect(exchanges)
        self.assertEqual(self.rows(), [("k", "z"), ("p", "q")])
        self.expect(exchanges, store=":memory:")

    def test_session(self):
        """A session notes what is committed, and is undone."""
        made = (CHANGESET, b"T\x02\x01\x00t\x00\x12\x00\x03\x01p\x03\x01q\x12\x00\x03\x01r\x03\x01s")
        self.expect([
            *((asked, (DONE,)) for asked in START),
            (call("undo"), refused(64)),
            (call("open_session"), (DONE,)),
            (call("open_session"), refused(65)),
            (call("attach", TABLE), (DONE,)),
            (call("attach", TABLE), refused(50, "t")),
            (call("attach", text("u")), refused(31, "u")),
            (call("is_empty"), (FLAG, True)),
            (call("apply", sized(INSERT_FILE), b"\x00", ABORT), (REPORT, 1, 0, [], [])),
            (call("begin"), (DONE,)),
            (insert("n", "o"), (DONE,)),
            (call("changeset"), refused(95)),
            (call("roll_back"), (DONE,)),
            (call("begin"), (DONE,)),
            (insert("r", "s"), (DONE,)),
            (insert("r", "s"), refused(33, "t", None, ("r",))),
            (call("commit"), (DONE,)),
            (call("changeset"), made),
            (call("undo"), (REPORT, 2, 0, [], [])),
            (COUNT, (NUMBER, 2)),
            (call("is_empty"), (FLAG, False)),
            (call("close_session"), (DONE,)),
            (call("close_session"), refused(64)),
            (call("limits"), (LIMITS, 1, MOST_BYTES)),
        ])

    def test_transactions(self):
        """What a transaction wrote is there after its commit, and nothing of one that is cut off."""
        self.expect([
            *((asked, (DONE,)) for asked in START),
            (call("begin"), (DONE,)),
            (call("begin"), refused(95)),
            (insert("n", "o"), (DONE,)),
            (COUNT, (NUMBER, 3)),
            (call("commit"), (DONE,)),
            (call("commit"), refused(96)),
            (call("begin"), (DONE,)),
            (insert("r", "s"), (DONE,)),
        ])
        self.assertEqual(self.rows(), [("k", "x"), ("m", "y"), ("n", "o")])
        for torn in (b"\x00", b"\x00\x00\x00\x05\x01"):
            ended = run_bytes(self.store, b"".join(map(frame, [call("begin"), insert("r", "s")])) + torn)
            self.assertEqual((ended.returncode, ended.stdout), (1, 2 * frame(b"\x00")))
            self.assertEqual(len(self.rows()), 3)

    def test_choices(self):
        """Each conflict that a rehearsal finds has its choice, unless the rows have changed since."""
        conflicts = sized(UPDATE_FILE + INSERT_ENTRY), b"\x00"
        found = [(0, 1, "t", ("k",), ("k", "x")), (1, 3, "t", ("m",), ("m", "y"))]
        spelled = [
            bytes([*bytes(7), at, kind]) + TABLE + row(key) + b"\x01" + row(now) for at, kind, _, key, now in found
        ]
        chosen = call("apply_chosen", *conflicts, count(2), spelled[0], b"\x01", spelled[1], b"\x00")
        self.expect([
            *((asked, (DONE,)) for asked in START),
            (call("rehearse", *conflicts), (CONFLICTS, found)),
            (call("apply", *conflicts, ABORT), refused(41, "t", None, ("k",), 1)),
            (call("apply_chosen", *conflicts, count(1), spelled[0], b"\x01"), refused(99)),
            (chosen, (REPORT, 1, 0, [], [(1, 1, "t", ("k",)), (3, 0, "t", ("m",))])),
            (chosen, refused(99)),
            (call("apply", *conflicts, OMIT), (REPORT, 0, 0, [], [(1, 0, "t", ("k",)), (3, 0, "t", ("m",))])),
            (call("revert", sized(INSERT_FILE)), refused(41, "t", None, ("p",), 2)),
        ])
        self.assertEqual(self.rows(), [("k", "z"), ("m", "y")])

    def test_other_stores(self):
        """Each call on what is no store is refused for that reason."""
        asked = [COUNT, call("begin"), call("open_session"), call("limits")]
        self.store.write_bytes(b"no database\n" * 100)
        self.expect([(one, refused(38, detail=26)) for one in asked], status=1)
        self.expect([(one, refused(38, detail=10)) for one in asked], status=1, store=self.store.parent / "none/store")

    def expect_unwritten(self, stdout):
        """Asserts that no call is carried out after the first answer that cannot be written."""
        with tempfile.TemporaryDirectory() as folder:
            ended = subprocess.run(
                [str(CALLS_PROGRAM), f"{folder}/store"], input=b"".join(map(frame, START)), stdout=stdout,
                stderr=subprocess.PIPE, timeout=PATIENCE, check=False,
            )
            self.assertEqual((ended.returncode, ended.stderr), (1, b""))
            self.assertEqual(read_store(f"{folder}/store")["t"].rows, [])

    def test_output_that_nobody_reads(self):
        reading, writing = os.pipe()
        os.close(reading)
        with os.fdopen(writing, "wb") as pipe:
            self.expect_unwritten(pipe)

    @unittest.skipUnless(os.path.exists("/dev/full"), "no /dev/full")
    def test_output_that_is_full(self):
        with open("/dev/full", "wb") as full:
            self.expect_unwritten(full)

    def test_closed_streams(self):
        """The store is not written to where a standard stream would be."""
        whole = {"t": [("k", "x"), ("m", "y")]}
        for closed, tables in (("<&-", {}), ("<&- >&-", {}), (">&-", {"t": []}), ("2>&-", whole)):
            with self.subTest(closed), tempfile.TemporaryDirectory() as folder:
                subprocess.run(
                    ["sh", "-c", f"exec \"$0\" store {closed}", str(CALLS_PROGRAM)], input=b"".join(map(frame, START)),
                    cwd=folder, stdout=subprocess.DEVNULL, timeout=PATIENCE, check=False,
                )
                self.assertEqual({name: it.rows for name, it in read_store(f"{folder}/store").items()}, tables)

    def test_usage(self):
        """Without one word there is a text on standard error."""
        ended = subprocess.run([str(CALLS_PROGRAM)], capture_output=True, timeout=PATIENCE, check=False)
        self.assertEqual((ended.returncode, ended.stdout), (2, b""))
        self.assertEqual(ended.stderr, b"usage: changeset-calls STORE\n")

    def test_lengths(self):
        """A call that is too long is skipped, and the longest one is read."""
        for size, told in ((MOST_BYTES + 1, refused(94)), (MOST_BYTES, (UNREAD, 92, 1))):
            asked = [call("tables") + bytes(size - 1), call("tables")]
            self.expect(list(zip(asked, [told, (NAMES, [])])), store=":memory:")

    def test_claims(self):
        """A count that claims more than there is."""
        claimed = call("insert", TABLE) + b"\x87\xff\xff\xff\x7f"
        self.expect([(claimed, (UNREAD, 1, len(claimed)))], store=":memory:")


if __name__ == "__main__":
    main()

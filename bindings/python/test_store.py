#!/usr/bin/env python3
"""Tests of stores and sessions from Python, by the program that is built.

usage: bindings/python/test_store.py [PROGRAM], where PROGRAM is `changeset-calls`
"""
import concurrent.futures
import contextlib
import copy
import gc
import itertools
import math
import os
import pathlib
import pickle
import random
import shutil
import signal
import sqlite3
import subprocess
import sys
import tempfile
import textwrap
import threading
import time
import unittest
import unittest.mock
import warnings

import transports
import vollikash
from transports import InProcess, interrupted
from vollikash import _calls, _files, _memory
from vollikash import (
    UNDEFINED, Busy, ChangesetError, Code, ConflictError, Interrupted, ProgramError, StoreError, StoreFault,
)

HERE = pathlib.Path(__file__).resolve().parent
PROGRAM = HERE.parents[1] / "crates/changeset_calls/out/changeset_calls"

# The INSERT of (1, 'x') into the table t, whose first column is its key.
FILE = bytes.fromhex("5402010074001200010000000000000001030178")

# The INSERT of (1, None) into the table n, and the UPDATE of its row (1, 'x') to that.
NULL_INSERT = bytes.fromhex("540201006e00" "1200" "010000000000000001" "05")
NULL_UPDATE = bytes.fromhex("540201006e00" "1700" "010000000000000001" "030178" "00" "05")

# The answer that a disk is full, and how many of its bytes are before the detail.
FULL = b"\x0b" + (38).to_bytes(8, "big") + b"\0\0\0\1" + (13).to_bytes(8, "big")
BEFORE_DETAIL = len(FULL) - 8

# What no row holds.
UNFIT = (1.5, math.nan, "\ud800", 1 << 63, -(1 << 63) - 1, True, [1], object(), UNDEFINED)

# A program that has the calls of its standard input carried out by the one that is built, and those
# of some numbers after a time.
SLOW = """
import os, subprocess, sys, time
with subprocess.Popen([{program!r}, *sys.argv[1:]], stdin=subprocess.PIPE) as process:
    stdin = sys.stdin.buffer
    while True:
        header = stdin.read(4)
        if not header:
            break
        frame = stdin.read(int.from_bytes(header, "big"))
        if frame[0] in ({numbers}):
            time.sleep({seconds})
        process.stdin.write(header + frame)
        process.stdin.flush()
    process.stdin.close()
"""

# A program that answers that it has the version that is expected, and then something else.
ANSWERING = """
import os, sys
stdin = sys.stdin.buffer
def read():
    header = stdin.read(4)
    if not header:
        sys.exit()
    return stdin.read(int.from_bytes(header, "big"))
def write(content):
    os.write(1, len(content).to_bytes(4, "big") + content)
read()
write(bytes.fromhex("0a00000000000000010000000004000000"))
{rest}
"""


def store_with_table(path, **given):
    """A store with a table t of two columns, of which the first is its key."""
    store = vollikash.open(path, **given)
    store.create("t", ["a", "b"], key=["a"])
    return store


def store_with_rule(path, *rows):
    """A store with these rows in a table n. Its first column is the key, its second is NOT NULL."""
    store = vollikash.open(path)
    store.create("n", ["a", "b"], key=["a"], refuses=["b"])
    for row in rows:
        store.insert("n", *row)
    return store


def number_of(store):
    """The number of a store's process."""
    return store._server._process.pid


def is_running(process):
    """Whether a process is there, and has not ended."""
    try:
        return pathlib.Path(f"/proc/{process}/stat").read_text().rsplit(")", 1)[1].split()[0] != "Z"
    except FileNotFoundError:
        return False


def pickled(error):
    """An error after it was sent to another process."""
    return pickle.loads(pickle.dumps(error))


class Folder(transports.Folder):
    """A folder for each test, with programs that it runs."""

    def program(self, text):
        """Makes a program of these lines of Python the one that is run, in place of `changeset-calls`."""
        path = self.folder / "program"
        path.write_text(f"#!{sys.executable}\n{textwrap.dedent(text)}")
        path.chmod(0o755)
        before = os.environ["VOLLIKASH_CALLS"]
        os.environ["VOLLIKASH_CALLS"] = str(path)
        self.addCleanup(os.environ.__setitem__, "VOLLIKASH_CALLS", before)

    def slow(self, seconds, *numbers):
        """Makes a program the one that is run which takes its time for calls of these numbers."""
        named = "".join(f"{number}, " for number in numbers)
        self.program(SLOW.format(program=str(PROGRAM), seconds=seconds, numbers=named))

    def answering(self, rest):
        """Makes a program the one that is run which answers what these lines write."""
        self.program(ANSWERING.format(rest=textwrap.dedent(rest)))

    def expect_ended(self, process):
        """Asserts that a program has ended."""
        for _ in range(100):
            if not is_running(process):
                return
            time.sleep(0.05)
        self.fail("the program still runs")

    @contextlib.contextmanager
    def unasked(self, store):
        """Asserts that nothing is sent in the block."""
        with unittest.mock.patch.object(store._server, "ask", side_effect=AssertionError("it is sent")):
            yield

    def run_python(self, text, *words, variables=(), **options):
        """What a Python program prints."""
        environment = {**os.environ, "PYTHONPATH": str(HERE), **dict(variables)}
        command = [sys.executable, "-c", textwrap.dedent(text), *map(str, words)]
        return subprocess.run(
            command, env=environment, stdout=subprocess.PIPE, text=True, check=True, timeout=120, **options
        ).stdout


class Stores(Folder):
    """What a store answers."""

    def test_transport(self):
        with vollikash.open(self.new()) as store:
            self.assertIs(type(store._server), self.transport)

    def test_rows(self):
        with store_with_table(self.new()) as store:
            store.insert("t", 2, "two")
            store.insert("t", -(1 << 63), None)
            store.insert("t", (1 << 63) - 1, b"\x00\xff")
            store.update("t", {"a": 3, "b": ""}, where={"a": 2})
            self.assertEqual(store.count("t"), 3)
            store.delete("t", where={"a": (1 << 63) - 1})
            store.put("t", 3, "put")
            store.put("t", 4, bytearray(b"new"))
            self.assertEqual(list(store.rows("t")), [(3, "put"), (4, b"new"), (-(1 << 63), None)])
            self.assertEqual((store.count("t"), store.get("t", 4), store.get("t", 5)), (3, (4, b"new"), None))

    def test_names(self):
        """A name is any text."""
        for name in ("select", 'a"; DELETE', "t'", "-- x", " ", "\u00fc\U0001f600", "a\nb", "x" * 1000):
            with self.subTest(name), vollikash.open(self.new()) as store:
                store.create(name, [name, "b"], key=[name])
                with store.session(name) as session:
                    store.insert(name, 1, 2)
                    store.update(name, {"b": 3}, where={name: 1})
                    self.assertEqual(list(store.rows(name)), [(1, 3)])
                    self.assertFalse(session.is_empty())
                self.assertEqual((store.tables(), store.schema(name).key), ([name], (name,)))

    def test_each_plane(self):
        """Texts of each plane of Unicode, and every character of the first one."""
        texts = ["".join(map(chr, range(start, start + 64))) for start in range(0x10000, 0x110000, 0x8000)]
        for start in range(0, 0x10000, 256):
            codes = (code for code in range(start, start + 256) if not 0xD800 <= code < 0xE000)
            texts.append("".join(map(chr, codes)))
        with store_with_table(self.new()) as store:
            for key, text in enumerate(texts):
                store.insert("t", key, text)
            self.assertEqual([row[1] for row in store.rows("t")], texts)

    def test_values_that_no_row_holds(self):
        """Each is refused before anything is sent."""
        with store_with_table(self.new()) as store, self.unasked(store):
            for value in UNFIT:
                after = (value,) if isinstance(value, list) else value
                for call in (
                    lambda: store.insert("t", 1, value), lambda: store.put("t", value, 1),
                    lambda: store.get("t", value), lambda: store.rows("t", after=after),
                    lambda: store.update("t", {"b": value}, where={"a": 1}),
                    lambda: store.update("t", {"b": 1}, where={"a": value}),
                    lambda: store.delete("t", where={"a": value}),
                ):
                    with self.subTest(repr(value)[:20]), self.assertRaisesRegex(ValueError, "^table 't', "):
                        call()
            with self.assertRaisesRegex(ValueError, "table 't', column 2: UNDEFINED, and not an int"):
                store.insert("t", 1, UNDEFINED)
            with self.assertRaisesRegex(ValueError, "table 't', key value 1: a float, and not an int"):
                store.get("t", 1.0)
            with self.assertRaisesRegex(ValueError, "table 't', column 'b': an int of more than 64 bits"):
                store.update("t", {"b": 1 << 64}, where={"a": 1})

    def test_arguments_that_are_wrong(self):
        """Each is refused before anything is sent."""
        with store_with_table(self.new()) as store, self.unasked(store):
            for name in ("\ud800", 7, None, ["t"], b"t"):
                for call in (
                    lambda: store.create(name, ["a"], key=["a"]), lambda: store.session("t", name),
                    lambda: store.create("u", ["a", name], key=["a"]), lambda: store.rows(name),
                    lambda: store.insert(name, 1), lambda: store.get(name, 1), lambda: store.count(name),
                    lambda: store.schema(name), lambda: store.put(name, 1), lambda: store.delete(name, {"a": 1}),
                ):
                    with self.subTest(repr(name)), self.assertRaises(ValueError):
                        call()
                if not isinstance(name, list):
                    for call in (
                        lambda: store.delete("t", where={name: 1}),
                        lambda: store.update("t", {name: 1}, where={"a": 1}),
                    ):
                        with self.subTest(repr(name)), self.assertRaises(ValueError):
                            call()
            for call in (
                lambda: store.update("t", {}, where={"a": 1}), lambda: store.update("t", {"b": 1}, where={}),
                lambda: store.delete("t", {}), lambda: store.apply(FILE, conflict="replaced"),
                lambda: store.rows("t", limit=-1), lambda: store.rows("t", limit=1.5),
            ):
                with self.assertRaises(ValueError):
                    call()

    def test_refusals(self):
        """A refusal has its class, its code and what it is about, and the store goes on."""
        with store_with_table(self.new()) as store:
            store.insert("t", 1, "z")
            for call, kind, code, about in (
                (lambda: store.insert("t", 1, 2), vollikash.KeyTaken, Code.KEY_TAKEN, ("t", None, (1,))),
                (lambda: store.insert("u", 1, 2), vollikash.NoTable, Code.NO_TABLE, ("u", None, None)),
                (lambda: store.rows("u"), vollikash.NoTable, Code.NO_TABLE, ("u", None, None)),
                (lambda: store.count("u"), vollikash.NoTable, Code.NO_TABLE, ("u", None, None)),
                (lambda: store.insert("t", 1), vollikash.RowWidth, Code.ROW_WIDTH, ("t", None, None)),
                (lambda: store.get("t", 1, 2), vollikash.RowWidth, Code.ROW_WIDTH, ("t", None, None)),
                (lambda: store.insert("t"), vollikash.RowWidth, Code.ROW_WIDTH, ("t", None, None)),
                (lambda: store.insert("t", None, 1), vollikash.NullInKey, Code.NULL_IN_KEY, ("t", "a", None)),
                (lambda: store.get("t", None), vollikash.NullInKey, Code.NULL_IN_KEY, ("t", "a", None)),
                (lambda: store.delete("t", {"a": 9}), vollikash.NoRow, Code.NO_ROW, ("t", None, (9,))),
                (lambda: store.update("t", {"b": 1}, {"a": 9}), vollikash.NoRow, Code.NO_ROW, ("t", None, (9,))),
                (lambda: store.delete("t", {"b": 9}), vollikash.UnknownColumn, Code.UNKNOWN_COLUMN, ("t", None, None)),
                (lambda: store.delete("t", {"c": 9}), vollikash.UnknownColumn, Code.UNKNOWN_COLUMN, ("t", "c", None)),
                (lambda: store.update("t", {"z": 1}, {"a": 1}), vollikash.UnknownColumn, Code.UNKNOWN_COLUMN,
                 ("t", "z", None)),
                (lambda: store.create("t", ["a"], ["a"]), vollikash.TableExists, Code.TABLE_EXISTS, ("t", None, None)),
                (lambda: store.create("u", ["a", "a"], ["a"]), vollikash.BadSchema, Code.BAD_SCHEMA,
                 ("u", None, None)),
                (lambda: store.create("", ["a"], ["a"]), vollikash.BadSchema, Code.BAD_SCHEMA, ("", None, None)),
            ):
                with self.subTest(kind.__name__, about=about), self.assertRaises(StoreError) as caught:
                    call()
                for error in (caught.exception, pickled(caught.exception)):
                    self.assertEqual((type(error), error.code, error.name), (kind, code, kind.__name__))
                    self.assertEqual((error.table, error.column, error.key), about)
                    self.assertEqual((error.detail, error.row), (None, None))
                    self.assertRegex(str(error), f"^{error.name}: .*$")
                    for part in filter(None, about):
                        self.assertIn(repr(part), str(error))
            self.assertEqual(list(store.rows("t")), [(1, "z")])

    def test_texts_of_errors(self):
        """They are short and on one line, whatever a name and a key are."""
        long, key = "n\n\u202e" * 99, ("k" * 999, b"\0" * 999, 7)
        with vollikash.open(self.new()) as store:
            store.create(long, [long, "b", "c"], key=[long, "b", "c"])
            store.insert(long, *key)
            for call in (
                lambda: store.insert(long, *key), lambda: store.create(long, ["a"], ["a"]),
                lambda: store.insert(long, None, 1, 1), lambda: store.delete(long, {long: 1, "b": 2, "c": 3}),
                lambda: store.delete(long, {long * 2: 1}), lambda: store.delete(long, {long: 1}),
            ):
                with self.assertRaises(StoreError) as caught:
                    call()
                text = str(caught.exception)
                self.assertLess(len(text), 600, text)
                self.assertTrue(text.isprintable(), text)

    def test_each_class(self):
        """Each error can be sent to another process, and has a sentence."""
        classes = [it for it in vars(vollikash).values() if isinstance(it, type) and issubclass(it, StoreError)]
        self.assertGreater(len(classes), 22)
        for kind in classes:
            for code in (Code.ABORT, Code.MISUSE):
                error = kind(code, "t", "c", (1, "x"), 1)
                error.row = 7
                again = pickled(error)
                self.assertEqual((type(again), str(again), vars(again)), (kind, str(error), vars(error)))
                self.assertEqual(copy.copy(error).row, 7)
        for error in (ProgramError("why", "said"), Interrupted(True), Interrupted(None)):
            again = pickled(error)
            self.assertEqual((type(again), str(again), vars(again)), (type(error), str(error), vars(error)))

    def test_declarations(self):
        """What makes no table is refused before anything is sent."""
        with vollikash.open(self.new()) as store:
            for columns, key, refuses, why in (
                ([], [], (), "columns is empty: a table has at least one column"),
                ([], ["a"], (), "columns is empty"),
                (["a"], [], (), "key is empty: a table has at least one key column"),
                (["a"], iter([]), (), "key is empty"),
                (["a"], ["b"], (), "key has 'b', which is no column's name"),
                (["a"], ["a", "b"], (), "key has 'b', which is no column's name"),
                (["a"], ["a"], ["b"], "refuses has 'b', which is no column's name"),
                (["number"], "number", (), "key is a collection of names, and not the one name"),
                ("ab", ["a"], (), "columns is a collection of names"),
                (["a"], ["a"], "a", "refuses is a collection of names"),
            ):
                with self.subTest(why), self.unasked(store), self.assertRaisesRegex(ValueError, why):
                    store.create("u", columns, key, refuses, exist_ok=True)
            self.assertEqual(store.tables(), [])

    def test_applies(self):
        with store_with_table(self.new()) as store:
            store.insert("t", 1, "z")
            with self.assertRaises(ConflictError) as caught:
                store.apply(FILE)
            error = pickled(caught.exception)
            self.assertEqual((error.code, error.name, error.kind, error.table), (41, "Abort", "conflict", "t"))
            self.assertEqual((error.key, error.detail), ((1,), 3))
            self.assertEqual(str(error), "Abort: a conflict of the kind conflict in table 't', key (1,)")
            report = store.apply(bytearray(FILE), conflict="replace")
            self.assertEqual(report, ([("conflict", "replace", "t", (1,))], [], 1, 0))
            again = store.apply(FILE, ignore_noop=True)
            self.assertEqual((again.conflicts, again.applied, again.ignored), ([], 0, 1))
            self.assertEqual(store.revert(FILE).applied, 1)
            with self.assertRaises(ConflictError) as caught:
                store.revert(FILE)
            self.assertEqual((caught.exception.kind, caught.exception.key), ("notfound", (1,)))
            self.assertEqual(store.apply(FILE.replace(b"t", b"u")).skipped, ["u"])
            for call in (store.apply, store.revert, lambda file: store.apply(file, on_conflict=lambda _: "omit")):
                with self.assertRaises(ChangesetError) as damaged:
                    call(FILE[:-1])
                error = damaged.exception
                self.assertEqual((error.name, error.which, error.place), ("Truncated", 1, len(FILE) - 1))
            self.assertEqual(list(store.rows("t")), [])

    def test_wider_tables(self):
        with vollikash.open(self.new()) as store:
            store.create("t", ["a", "b", "c"], key=["a"])
            with self.assertRaises(vollikash.Wider) as caught:
                store.apply(FILE)
            self.assertEqual((caught.exception.code, caught.exception.detail), (Code.WIDER, 0))
            self.assertRegex(str(caught.exception), "^Wider: .* the table at index 0 of the changeset$")

    def test_sessions(self):
        with store_with_table(self.new()) as store:
            with store.session("t") as session:
                self.assertTrue(session.is_empty())
                store.insert("t", 1, "x")
                self.assertEqual(session.changeset(), FILE)
                with self.assertRaises(vollikash.SessionOpen):
                    store.session("t")
                with self.assertRaises(vollikash.AlreadyAttached):
                    session.attach("t")
                self.assertEqual(session.undo().applied, 1)
                self.assertEqual(list(store.rows("t")), [])
            for call in (session.undo, session.changeset, session.is_empty, lambda: session.attach("t")):
                with self.assertRaises(vollikash.NoSession):
                    call()
            with self.assertRaises(vollikash.NoTable):
                store.session("t", "nowhere")
            store.session().close()

    def test_threads_of_sessions(self):
        """A session belongs to the thread that has opened it."""
        with store_with_table(self.new()) as store, concurrent.futures.ThreadPoolExecutor(1) as pool:
            with store.session("t") as session:
                for call in (session.is_empty, session.changeset, session.undo, session.close,
                             lambda: session.attach("t")):
                    with self.assertRaisesRegex(RuntimeError, "the thread that has opened it"):
                        pool.submit(call).result()
                pool.submit(store.insert, "t", 1, "x").result()
                self.assertEqual(session.changeset(), FILE)

    def test_no_copies(self):
        """A store and a session cannot be copied, and say what they are."""
        path = self.new()
        with store_with_table(path) as store, store.session("t") as session:
            for thing in (store, session):
                for call in (copy.copy, copy.deepcopy, pickle.dumps):
                    with self.assertRaisesRegex(TypeError, "cannot be copied or pickled"):
                        call(thing)
            shown = f"<vollikash.Store {str(path)!r}, open>"
            self.assertEqual((repr(store), repr(session)), (shown, f"<vollikash.Session of {shown}, open>"))
        self.assertEqual(repr(store), shown.replace("open", "closed"))
        self.assertIn("closed>, closed>", repr(session))


class Pages(Folder):
    """Rows that are read some at a time."""

    def test_pages(self):
        """Each row comes once, whatever the size of a page is."""
        with store_with_table(self.new()) as store:
            rows = [(key, f"row {key}") for key in range(20)]
            store.insert_many("t", rows)
            for size in (1, 3, 19, 20, 21):
                with unittest.mock.patch("vollikash._store._PAGE", size):
                    self.assertEqual(list(store.rows("t")), rows)
                    for limit in (0, 1, 2, 3, 19, 20, 99):
                        self.assertEqual(list(store.rows("t", limit=limit)), rows[:limit])
                    self.assertEqual(list(store.rows("t", after=4)), rows[5:])
                    self.assertEqual(list(store.rows("t", after=(4,), limit=7)), rows[5:12])
                    self.assertEqual(list(store.rows("t", after=19)), [])
                    self.assertEqual(list(store.rows("t", 7, 1)), rows[8:9])

    def test_keys_of_several_columns(self):
        with vollikash.open(self.new()) as store, unittest.mock.patch("vollikash._store._PAGE", 2):
            store.create("u", ["a", "b", "c"], key=["a", "c"])
            rows = [(a, "x", c) for a in ("", "b", b"1") for c in (0, 1, -1)]
            store.insert_many("u", rows)
            found = list(store.rows("u"))
            self.assertEqual(set(found), set(rows))
            for place, row in enumerate(found):
                self.assertEqual(list(store.rows("u", after=(row[0], row[2]))), found[place + 1:])
            with self.assertRaises(vollikash.RowWidth):
                store.rows("u", after="b")

    def test_edits_meanwhile(self):
        """An iterator goes on after the last row that it has returned."""
        with store_with_table(self.new()) as store, unittest.mock.patch("vollikash._store._PAGE", 4):
            store.insert_many("t", [(key, "x") for key in range(10)])
            seen = []
            for key, value in store.rows("t"):
                seen.append((key, value))
                store.delete("t", where={"a": key})
                if key == 3:
                    store.update("t", {"b": "y"}, where={"a": 5})
                    store.insert("t", 10, "new")
            self.assertEqual([row[0] for row in seen], list(range(11)))
            self.assertEqual((seen[5], seen[10], store.count("t")), ((5, "y"), (10, "new"), 0))

    def test_closed_stores(self):
        """An iterator of a closed store raises an error at the end of its page."""
        for size in (4, 100):
            with unittest.mock.patch("vollikash._store._PAGE", size):
                store = store_with_table(self.new())
                store.insert_many("t", [(key, "x") for key in range(10)])
                unused, begun = store.rows("t"), store.rows("t")
                next(begun)
                store.close()
                for rows in (unused, begun):
                    with self.assertRaisesRegex(ProgramError, "the store is closed"):
                        list(rows)

    def test_order(self):
        """It is that of the bytes of keys."""
        with store_with_table(self.new()) as store:
            for key in (1, -1, "b", "aa", b"\0", 256):
                store.insert("t", key, None)
            self.assertEqual([row[0] for row in store.rows("t")], [1, 256, -1, "b", "aa", b"\0"])


class Rules(Folder):
    """Columns that refuse None."""

    def expect_refused(self, call, number, name):
        """Asserts that a call is refused."""
        with self.subTest(name), self.assertRaises(getattr(vollikash, name)) as caught:
            call()
        error = pickled(caught.exception)
        self.assertEqual((error.code, error.name, error.detail), (number, name, None))

    def expect_conflict(self, rows, file, number, kind, **choices):
        """Asserts that a conflict ends an apply to these rows, which stay."""
        with self.subTest(rows=rows, **choices), store_with_rule(self.new(), *rows) as store:
            with self.assertRaises(ConflictError) as caught:
                store.apply(file, **choices)
            error = pickled(caught.exception)
            told = error.code, error.name, error.kind, error.table, error.key
            self.assertEqual(told, (number, {41: "Abort", 42: "Misuse"}[number], kind, "n", (1,)))
            self.assertEqual(list(store.rows("n")), rows)

    def expect_left(self, rows, file, conflicts, **choices):
        """Asserts that an apply to these rows meets these conflicts of n, and that the rows stay."""
        with self.subTest(rows=rows, **choices), store_with_rule(self.new(), *rows) as store:
            report = store.apply(file, **choices)
            self.assertEqual(report, ([(*met, "n", (1,)) for met in conflicts], [], 0, 0))
            self.assertEqual(list(store.rows("n")), rows)

    def test_lines(self):
        """None is refused before a key that is taken, and behind a row that is missing."""
        with store_with_rule(self.new(), (1, "x"), (2, "y")) as store:
            for call, number, name in (
                (lambda: store.insert("n", 3, None), 39, "NotNull"),
                (lambda: store.insert("n", 1, None), 39, "NotNull"),
                (lambda: store.insert("n", None, None), 36, "NullInKey"),
                (lambda: store.insert("n", 3), 35, "RowWidth"),
                (lambda: store.update("n", {"b": None}, where={"a": 1}), 39, "NotNull"),
                (lambda: store.update("n", {"a": 2, "b": None}, where={"a": 1}), 39, "NotNull"),
                (lambda: store.update("n", {"b": None}, where={"a": 3}), 34, "NoRow"),
            ):
                self.expect_refused(call, number, name)
            self.assertEqual(list(store.rows("n")), [(1, "x"), (2, "y")])
            store.update("n", {"b": b""}, where={"a": 1})
            store.insert("n", 3, "")
            self.assertEqual(list(store.rows("n")), [(1, b""), (2, "y"), (3, "")])

    def test_columns(self):
        """They are named in any order and by any collection; the key may be among them, and the others take None."""
        for refuses in (["d", "a"], ("a", "d", "a"), {"a", "b", "d"}, {"d": 1, "a": 2}.keys(), frozenset(["d", "a"])):
            with self.subTest(refuses=refuses), vollikash.open(self.new()) as store:
                store.create("t", ["a", "b", "c", "d"], key=["b"], refuses=refuses)
                store.insert("t", 1, 2, None, 4)
                self.expect_refused(lambda: store.insert("t", None, 3, 3, 4), 39, "NotNull")
                self.expect_refused(lambda: store.insert("t", 1, 3, 3, None), 39, "NotNull")
                self.assertEqual(list(store.rows("t")), [(1, 2, None, 4)])
        with vollikash.open(self.new()) as store:
            store.create("t", ["a", 'not "null'], key=["a"], refuses=['not "null'])
            self.expect_refused(lambda: store.insert("t", 1, None), 39, "NotNull")
            store.create("u", ["a", "b"], key=["a"], refuses=[])
            store.insert("u", 1, None)

    def test_names_that_are_no_columns(self):
        """Each is told before anything is sent."""
        with vollikash.open(self.new()) as store:
            for refuses in (["c"], ["a", "B"], ["b", ""], ["ab"], [None], ["n"], [7]):
                with self.subTest(refuses=refuses), self.assertRaises(ValueError):
                    store.create("n", ["a", "b"], key=["a"], refuses=refuses)
            self.expect_refused(lambda: store.rows("n"), 31, "NoTable")
            store.create("n", ["a", "b"], key=["a"], refuses=["b", "b"])

    def test_conflicts(self):
        for rows, file in (([], NULL_INSERT), ([(1, "x")], NULL_UPDATE)):
            self.expect_conflict(rows, file, 41, "constraint")
            self.expect_conflict(rows, file, 41, "constraint", data="replace", conflict="replace", notfound="omit")
            self.expect_conflict(rows, file, 41, "constraint", ignore_noop=True)
            self.expect_conflict(rows, file, 42, "constraint", constraint="replace")
            self.expect_left(rows, file, [("constraint", "omit")], constraint="omit")
            self.expect_left(rows, file, [("constraint", "omit")], constraint="omit", ignore_noop=True)

    def test_rows_that_are_replaced(self):
        """The second conflict stands behind the first one, and the row stays."""
        for kind, file in (("conflict", NULL_INSERT), ("data", NULL_UPDATE)):
            rows = [(1, "z"), (2, "y")]
            self.expect_conflict(rows, file, 41, kind, constraint="omit")
            self.expect_conflict(rows, file, 41, "constraint", **{kind: "replace"})
            self.expect_conflict(rows, file, 42, "constraint", constraint="replace", **{kind: "replace"})
            self.expect_left(rows, file, [(kind, "omit")], constraint="replace", **{kind: "omit"})
            met = [(kind, "replace"), ("constraint", "omit")]
            self.expect_left(rows, file, met, constraint="omit", **{kind: "replace"})
        self.expect_left([], NULL_UPDATE, [("notfound", "omit")], notfound="omit", constraint="omit")

    def test_choices_that_are_none(self):
        with store_with_rule(self.new()) as store:
            for choice in ("ignore", "Omit", "", None):
                with self.subTest(choice), self.assertRaises(ValueError):
                    store.apply(NULL_INSERT, constraint=choice)
            self.assertEqual(list(store.rows("n")), [])

    def test_a_file(self):
        """The store that is opened again has the rule."""
        path = self.folder / "rules.db"
        with store_with_rule(path, (1, "x")):
            pass
        for _ in range(2):
            with vollikash.open(path) as store:
                self.expect_refused(lambda: store.insert("n", 2, None), 39, "NotNull")
                with self.assertRaises(ConflictError):
                    store.apply(NULL_UPDATE)
                self.assertEqual(list(store.rows("n")), [(1, "x")])
        with sqlite3.connect(path) as base:
            query = "SELECT keyb, rowb FROM rec WHERE tab = '' ORDER BY keyb"
            self.assertEqual(base.execute(query).fetchall(), [(b"", b"\x02"), (b"n", b"\x02\x01\x01a\x02\x01b")])
        base.close()

    def test_sessions(self):
        """What is left of an apply is neither told nor undone."""
        with store_with_rule(self.new(), (1, "z"), (2, "y")) as store, store.session("n") as session:
            self.assertEqual(store.apply(NULL_INSERT, conflict="replace", constraint="omit").applied, 0)
            self.assertTrue(session.is_empty())
            self.assertEqual(session.changeset(), b"")
            self.expect_refused(lambda: store.update("n", {"b": None}, where={"a": 2}), 39, "NotNull")
            store.update("n", {"b": "w"}, where={"a": 2})
            store.delete("n", where={"a": 1})
            changes = session.changeset()
            self.assertEqual(session.undo(), ([], [], 2, 0))
            self.assertEqual(list(store.rows("n")), [(1, "z"), (2, "y")])
            self.assertEqual((store.apply(changes).applied, store.revert(changes).applied), (2, 2))
            self.assertEqual(list(store.rows("n")), [(1, "z"), (2, "y")])

    def test_from_store_to_store(self):
        """A session's changeset of a table without NOT NULL is applied to one with it.

        The rows that this refuses are left out.
        """
        with vollikash.open(self.new()) as source, store_with_rule(self.new()) as target:
            source.create("n", ["a", "b"], key=["a"])
            with source.session("n") as session:
                for key, value in ((1, "x"), (2, None), (3, b""), (4, None)):
                    source.insert("n", key, value)
                changes = session.changeset()
            with self.assertRaises(ConflictError) as caught:
                target.apply(changes)
            self.assertEqual(caught.exception.kind, "constraint")
            self.assertEqual(list(target.rows("n")), [])
            report = target.apply(changes, constraint="omit")
            omitted = [("constraint", "omit", "n", key) for key in ((2,), (4,))]
            self.assertEqual(report, (omitted, [], 2, 0))
            self.assertEqual(list(target.rows("n")), [(1, "x"), (3, b"")])
            again = target.apply(changes, constraint="omit", ignore_noop=True)
            self.assertEqual(again, (omitted, [], 0, 2))


class Files(Folder):
    """Stores in files."""

    def test_a_file(self):
        path = self.folder / "notes.db"
        with store_with_table(path) as store:
            store.insert("t", 1, "x")
            with self.assertRaises(Busy):
                vollikash.open(path, busy_timeout=0)
        for given in (str(path), os.fsencode(path)):
            with vollikash.open(given) as store:
                self.assertEqual(list(store.rows("t")), [(1, "x")])
        with sqlite3.connect(path) as base:
            self.assertEqual(base.execute("PRAGMA integrity_check").fetchone(), ("ok",))
        base.close()

    def test_names(self):
        """Each name that is UTF-8 is that of a file, also one like an option or like that of a store in memory."""
        before = os.getcwd()
        os.chdir(self.folder)
        self.addCleanup(os.chdir, before)
        names = ("--help", "-", "./:memory:", "é\n'\"", b"bytes", "file:x?mode=ro", os.fsdecode("\u00fc".encode()))
        for name in names:
            with self.subTest(name):
                store_with_table(name).close()
                self.assertTrue(os.path.exists(name))
                with vollikash.open(name) as store:
                    self.assertEqual(store.tables(), ["t"])
        for name in (":memory:", b":memory:", pathlib.Path(":memory:")):
            store_with_table(name).close()
        files = {os.path.basename(os.fsencode(name)) for name in names}
        self.assertEqual({name for name in os.listdir(b".") if not name.endswith(b"-wal")}, files)

    def test_paths_that_are_none(self):
        """They are refused before anything starts."""
        folder = os.path.join(os.fsencode(self.folder), b"\xff")
        os.mkdir(folder)
        before = os.getcwd()
        self.addCleanup(os.chdir, before)
        with unittest.mock.patch("vollikash._store.Process", side_effect=AssertionError("it starts")):
            for path in (b"\xff", "\udcff", "a\0b", b"a\0b", "", b"", "\ud800", os.path.join(folder, b"a.db")):
                with self.subTest(path=path), self.assertRaises(ValueError):
                    vollikash.open(path)
            os.chdir(folder)
            with self.assertRaisesRegex(ValueError, "the path 'a.db' is not UTF-8"):
                vollikash.open("a.db")
            with self.assertRaisesRegex(AssertionError, "it starts"):
                vollikash.open(self.new())
            vollikash.open(":memory:").close()
            for given in ({"timeout": 0}, {"timeout": -1}, {"timeout": math.nan}, {"busy_timeout": -1}):
                for path in (self.new(), ":memory:"):
                    with self.subTest(path=path, **given), self.assertRaises(ValueError):
                        vollikash.open(path, **given)
        self.assertEqual(os.listdir(folder), [])

    def test_waiting(self):
        """A file that is in use is tried again, until the time is over."""
        path = self.folder / "a.db"
        store = store_with_table(path)
        timer = threading.Timer(0.5, store.close)
        timer.start()
        with vollikash.open(path, busy_timeout=60) as again:
            self.assertEqual(again.tables(), ["t"])
            timer.join()
            started = time.monotonic()
            with self.assertRaises(Busy) as caught:
                vollikash.open(path, busy_timeout=0.4)
            self.assertGreater(time.monotonic() - started, 0.2)
        error = pickled(caught.exception)
        self.assertEqual((error.code, error.name, error.detail, error.cause), (38, "StoreFault", 5, "busy"))
        self.assertEqual(str(error), f"StoreFault: {str(path)!r} is in use by another program or connection")


class Causes(Folder):
    """What a StoreFault comes from."""

    def expect(self, cause, detail, why, call, *arguments):
        """Assert that a call is a StoreFault of this cause, and that its text says why."""
        with self.subTest(cause, why=why), self.assertRaises(StoreFault) as caught:
            call(*arguments)
        for error in (caught.exception, pickled(caught.exception)):
            self.assertEqual((error.code, error.name, error.detail), (38, "StoreFault", detail))
            self.assertEqual((error.cause, error.why), (cause, why))
            self.assertEqual(str(error), f"StoreFault: {why}")

    def test_paths(self):
        folder, path = str(self.folder), str(self.folder / "file")
        self.expect("path", 10, f"{folder!r} is a folder", vollikash.open, folder)
        missing = self.folder / "missing"
        self.expect("path", 10, f"there is no folder {str(missing)!r}", vollikash.open, missing / "a.db")
        os.mkfifo(path)
        self.expect("path", 10, f"{path!r} is not a plain file", vollikash.open, path)
        long = str(self.folder / ("n" * 300))
        self.expect("path", 10, f"{long!r}: File name too long", vollikash.open, long)
        self.assertEqual(os.listdir(folder), ["file"])

    def refusing(self, detail):
        """Makes a program the one that is run which cannot open a store for this reason."""
        self.program(f"""\
            import os, sys
            sys.stdin.buffer.read(5)
            content = bytes.fromhex("0b0000000000000026000000") + b"\\1" + ({detail}).to_bytes(8, "big")
            os.write(1, len(content).to_bytes(4, "big") + content)
            sys.stdin.buffer.read()
        """)

    def test_rights(self):
        """The rights of this process are asked for, whatever they are."""
        path = str(self.folder / "text")
        pathlib.Path(path).write_text("text")
        self.refusing(10)
        for refused, why in (
            ((path, os.R_OK), f"{path!r} cannot be read"), ((path, os.W_OK), f"{path!r} cannot be written"),
            ((os.path.realpath(self.folder), os.W_OK | os.X_OK), "no file can be made in the folder "),
        ):
            def access(*asked, refused=refused):
                return asked != refused

            why += repr(refused[0]) if why.endswith(" ") else ""
            with unittest.mock.patch.object(os, "access", access):
                self.expect("permission", 10, why, vollikash.open, path)

    def test_details(self):
        """What the program says is the cause, and another reason is looked for."""
        path = str(self.folder / "a.db")
        for detail, cause, why in (
            (13, "full", "the disk is full"),
            (26, "not_a_database", f"{path!r} is not a SQLite database that can be a store"),
            (1, "other", f"{path!r} cannot be read or written as a store"),
            (10, "other", f"{path!r} cannot be read or written as a store"),
        ):
            self.refusing(detail)
            self.expect(cause, detail, why, vollikash.open, path)
        self.refusing(5)
        with self.assertRaises(Busy):
            vollikash.open(path, busy_timeout=0)

    def test_content(self):
        path = self.folder / "text"
        path.write_text("This is no database.\n" * 99)
        why = f"{str(path)!r} is not a SQLite database that can be a store"
        self.expect("not_a_database", 26, why, vollikash.open, path)
        self.assertEqual(path.read_text(), "This is no database.\n" * 99)
        other = self.folder / "other.db"
        with contextlib.closing(sqlite3.connect(other)) as base:
            base.execute("PRAGMA auto_vacuum = FULL")
            base.execute("CREATE TABLE x(a)")
            base.commit()
        before = other.read_bytes()
        why = f"{str(other)!r} is not a SQLite database that can be a store"
        self.expect("not_a_database", 26, why, vollikash.open, other)
        self.assertEqual(other.read_bytes(), before)

    def test_holders(self):
        """Another connection of this process, or of another one, has the file."""
        path = str(self.folder / "held.db")
        with contextlib.closing(sqlite3.connect(path)) as base:
            base.execute("CREATE TABLE x(a)")
            base.execute("BEGIN EXCLUSIVE")
            for _ in range(2):
                with self.assertRaises(Busy):
                    vollikash.open(path, busy_timeout=0)
            base.rollback()
            base.execute("PRAGMA journal_mode = WAL")
            base.execute("SELECT * FROM x").fetchall()
            with self.assertRaises(Busy):
                vollikash.open(path, busy_timeout=0)
        link = self.folder / "link.db"
        link.symlink_to(self.folder / "store.db")
        with store_with_table(self.folder / "store.db"), self.assertRaises(Busy):
            vollikash.open(link, busy_timeout=0)

    def test_journals(self):
        """What a program has left that stopped."""
        path = self.folder / "base.db"
        with contextlib.closing(sqlite3.connect(path)) as base:
            base.execute("PRAGMA cache_size = 1")
            base.execute("CREATE TABLE x(a)")
            base.executemany("INSERT INTO x VALUES(?)", [(b"1" * 999,)] * 99)
            base.commit()
            base.execute("UPDATE x SET a = 2")
            content, journal = path.read_bytes(), pathlib.Path(f"{path}-journal").read_bytes()
        copied = str(self.folder / "copy.db")
        left = pathlib.Path(os.path.realpath(copied) + "-journal")
        pathlib.Path(copied).write_bytes(content)
        left.write_bytes(journal)
        why = f"{str(left)!r} is there: open {copied!r} once with SQLite"
        self.expect("journal", 10, why, vollikash.open, copied)
        self.assertEqual(left.read_bytes(), journal)
        with contextlib.closing(sqlite3.connect(copied)) as base:
            self.assertEqual(base.execute("SELECT count(*) FROM x").fetchone(), (99,))
        vollikash.open(copied).close()

    def test_damaged_stores(self):
        with sqlite3.connect(self.folder / "other") as base:
            base.execute("CREATE TABLE rec(tab, keyb, rowb)")
            base.execute("INSERT INTO rec VALUES('', 7, 'x')")
        base.close()
        with self.assertRaises(vollikash.DamagedStore) as caught:
            vollikash.open(self.folder / "other")
        self.assertEqual((caught.exception.code, caught.exception.detail), (37, None))


class Programs(Folder):
    """Programs that are not there, end or hang, and what is left of them."""

    def test_no_program(self):
        with unittest.mock.patch.dict(os.environ, VOLLIKASH_CALLS=str(self.folder / "nothing")):
            with self.assertRaisesRegex(ProgramError, "does not run: No such file"):
                vollikash.open(self.new())
        with unittest.mock.patch.dict(os.environ, PATH=str(self.folder)), \
                unittest.mock.patch("pathlib.Path.exists", return_value=False):
            del os.environ["VOLLIKASH_CALLS"]
            with self.assertRaisesRegex(ProgramError, "there is no changeset-calls program: VOLLIKASH_CALLS"):
                vollikash.open(self.new())

    def test_one_that_ends(self):
        self.program("raise SystemExit(3)")
        with self.assertRaisesRegex(ProgramError, "the program has ended: exit status 3"):
            vollikash.open(self.new())
        self.program("import sys; sys.exit('no\\nmore')")
        with self.assertRaisesRegex(ProgramError, "the program has ended: no\nmore$") as caught:
            vollikash.open(self.new())
        self.assertEqual(caught.exception.said, "no\nmore\n")

    def test_one_that_hangs(self):
        self.program("import time; time.sleep(1000)")
        started = time.monotonic()
        with self.assertRaisesRegex(ProgramError, "has not answered in 0.3 seconds"):
            vollikash.open(self.new(), timeout=0.3)
        self.slow(1000, 7)
        store = store_with_table(self.new(), timeout=1)
        with self.assertRaisesRegex(ProgramError, "has not answered in 1 seconds"):
            store.insert("t", 1, 2)
        with self.assertRaisesRegex(ProgramError, "the store is closed"):
            store.tables()
        self.assertLess(time.monotonic() - started, 60)

    def test_no_timeout(self):
        self.slow(0.3, 7)
        with store_with_table(self.new(), timeout=None) as store:
            store.insert("t", 1, "x")
            self.assertEqual(list(store.rows("t")), [(1, "x")])

    def test_one_that_is_killed(self):
        store = store_with_table(self.new())
        os.kill(number_of(store), 9)
        for _ in range(2):
            with self.assertRaises(ProgramError):
                store.insert("t", 1, 2)
        store.close()

    def test_programs_that_stopped(self):
        """What a killed program has left is read by the next one, without its transaction."""
        path = self.folder / "store"
        store = store_with_table(path)
        store.insert("t", 1, "x")
        with self.assertRaises(ProgramError), store.transaction():
            store.insert("t", 2, "y")
            os.kill(number_of(store), 9)
        store.close()
        with vollikash.open(path) as store:
            self.assertEqual(list(store.rows("t")), [(1, "x")])

    def test_another_version(self):
        self.program("""\
            import os, sys
            sys.stdin.buffer.read(5)
            content = bytes.fromhex("0a" + "00" * 7 + "02" + "00" * 8)
            os.write(1, len(content).to_bytes(4, "big") + content)
        """)
        with self.assertRaisesRegex(ProgramError, "the program has version 2 of the calls, and not 1"):
            vollikash.open(self.new())

    def test_malformed_answers(self):
        """Each is an error, and the store is closed."""
        done, none, refused, conflict = "00", "0300", "0b" + "00" * 7, "0101740001" + "01010000000000000001"
        for call, answers in (
            (lambda store: store.insert("t", 1), (
                "", "01", "0000", "ff", none, refused + "2400000000", "0c" + "00" * 16, refused + "6200000000",
                refused + "2100000000", refused + "1f0101ff000000", refused + "1f0101740000",
                refused + "4301017400000000", refused + "29" + conflict + "01" + "00" * 7 + "09",
            )),
            (lambda store: store.get("t", 1), (
                done, "0302", "03010102", "030101010000", "03010106", "0301010301ff", "030101030161ff", "030100",
            )),
            (lambda store: store.rows("t"), (
                done, "0400", "040002", "04010101", "0401010500ff", "04ffffffffff0000", "04020105020505" + "00",
            )),
            (lambda store: store.tables(), (done, "0101", "010101ff")),
            (lambda store: store.schema("t"), (done, "0201", "0201016104")),
            (lambda store: store.count("t"), (done, "0500", "05" + "00" * 9)),
            (lambda store: store.revert(b""), (
                done, "06", "06" + "00" * 17, "06" + "00" * 16 + "000100", "06" + "00" * 16 + "00010104",
            )),
            (lambda store: store.apply(b"", on_conflict=lambda _: "omit"), ("0701", "0701" + "00" * 9)),
            (lambda store: store.session(), ("0901",)),
        ):
            for answer in answers:
                self.answering(f"""\
                    read()
                    if {answer!r}.startswith("07"):
                        write(bytes(1))
                        read()
                    write(bytes.fromhex({answer!r}))
                    stdin.read()
                """)
                with self.subTest(answer), vollikash.open(self.new()) as store:
                    for _ in range(2):
                        with self.assertRaises(ProgramError) as caught:
                            call(store)
                        self.assertIsInstance(caught.exception, vollikash.Error)

    def test_answers_that_come_in_parts(self):
        """An answer is read as it comes, and one that is too long is an error."""
        self.answering("""\
            import time
            text = b"x" * 300_000
            size = bytes([0x80 | len(text) >> 14, 0x80 | len(text) >> 7 & 0x7f, len(text) & 0x7f])
            content = b"\\3\\1\\1\\3" + size + text
            frame = len(content).to_bytes(4, "big") + content
            read()
            for at in (0, 1, 3, 4, 5, 9, 70_000):
                end = {0: 1, 1: 3, 3: 4, 4: 5, 5: 9, 9: 70_000, 70_000: len(frame)}[at]
                piece = frame[at:end]
                while piece:
                    piece = piece[os.write(1, piece):]
                time.sleep(0.05)
            read()
            os.write(1, bytes.fromhex("00000001000000000100"))
            stdin.read()
        """)
        with vollikash.open(self.new()) as store:
            self.assertEqual(store.get("t", 1), ("x" * 300_000,))
            with self.assertRaisesRegex(ProgramError, "the program answered more than one call"):
                store.insert("t", 1)
            with self.assertRaisesRegex(ProgramError, "the store is closed"):
                store.insert("t", 1)

    def test_what_a_program_says(self):
        """It is read, so that the program goes on, and the end of it is in the error."""
        self.answering("""\
            for number in range(20):
                read()
                os.write(2, b"word " * 50_000)
                write(bytes(1))
            os.write(2, b"last words")
        """)
        with vollikash.open(self.new()) as store:
            for _ in range(20):
                store.insert("t", 1)
            with self.assertRaisesRegex(ProgramError, "last words$") as caught:
                store.insert("t", 1)
            self.assertRegex(caught.exception.said, "^[word ]{6000,10000}last words$")
        self.answering("""\
            os.close(2)
            while True:
                read()
                write(bytes(1))
        """)
        with vollikash.open(self.new()) as store:
            for _ in range(20):
                store.insert("t", 1)

    def test_what_is_left(self):
        """Nothing runs after a store is closed, or that nobody has, or at the end of the process."""
        store = store_with_table(self.new())
        process = number_of(store)
        store.close()
        store.close()
        self.expect_ended(process)
        store = store_with_table(self.folder / "left.db")
        process = number_of(store)
        with self.assertWarnsRegex(ResourceWarning, "<vollikash.Store '.*', open> was not closed"):
            del store
            gc.collect()
        self.expect_ended(process)
        vollikash.open(self.folder / "left.db", busy_timeout=0).close()
        printed = self.run_python("""
            import sys, vollikash
            store = vollikash.open(sys.argv[1])
            print(store._server._process.pid)
        """, self.new())
        self.expect_ended(int(printed))

    def test_files_that_are_opened_later(self):
        """No call of a store that nobody closed is written into one, at the end of the process."""
        self.run_python("""
            import atexit, os, vollikash
            def late():
                files = [open(f"late{number}", "wb", buffering=0) for number in range(8)]
                try:
                    store.put("t", 77)
                except vollikash.ProgramError as error:
                    assert str(error) == "the store is closed", error
                else:
                    raise AssertionError("the store is open")
                os._exit(any(os.fstat(file.fileno()).st_size for file in files))
            atexit.register(late)
            store = vollikash.open("a.db")
            store.create("t", ["a"], key=["a"])
        """, cwd=self.folder)

    def test_calls_of_a_closed_store(self):
        store = store_with_table(self.new())
        rows, session = store.rows("t"), store.session("t")
        store.close()
        with warnings.catch_warnings():
            warnings.simplefilter("error")
            for call in (
                store.tables, lambda: store.schema("t"), lambda: store.rows("t"), store.session, lambda: list(rows),
                lambda: store.insert("t", 1, 2), lambda: store.insert_many("t", [(1, 2)]), lambda: store.get("t", 1),
                lambda: store.put("t", 1, 2), lambda: store.count("t"), lambda: store.apply(FILE), session.undo,
                lambda: store.apply(FILE, on_conflict=lambda _: "omit"), lambda: store.revert(FILE), session.close,
                lambda: store.update("t", {"b": 1}, {"a": 1}), lambda: store.delete("t", {"a": 1}),
                store.transaction().__enter__, lambda: store.create("u", ["a"], ["a"]),
            ):
                with self.assertRaisesRegex(ProgramError, "the store is closed"):
                    call()
            store.close()

    def test_an_exception(self):
        with self.assertRaises(KeyError):
            with store_with_table(self.new()) as store, store.session("t"):
                process = number_of(store)
                raise KeyError
        self.expect_ended(process)


class Interrupts(Folder):
    """Ctrl-C, and other signals whose handlers raise an exception."""

    def setUp(self):
        super().setUp()
        before = signal.signal(signal.SIGINT, signal.default_int_handler)
        self.addCleanup(signal.signal, signal.SIGINT, before)

    @contextlib.contextmanager
    def pressing(self, *times):
        """Has Ctrl-C pressed after each of some times."""
        timers = [threading.Timer(it, os.kill, (os.getpid(), signal.SIGINT)) for it in times]
        for timer in timers:
            timer.start()
        try:
            yield
        finally:
            for timer in timers:
                timer.cancel()
                timer.join()

    def test_calls(self):
        """A call is done or refused, and the exception says which. The store goes on."""
        self.slow(1, 7)
        with store_with_table(self.new()) as store:
            for is_done in (True, False):
                with self.assertRaises(KeyboardInterrupt) as caught, self.pressing(0.3):
                    store.insert("t", 1, "x")
                self.assertIsInstance(caught.exception, Interrupted)
                self.assertIs(caught.exception.is_done, is_done)
                self.assertIs(type(caught.exception.__cause__), KeyboardInterrupt)
                self.assertEqual(list(store.rows("t")), [(1, "x")])

    def test_a_second_one(self):
        """It ends the program."""
        self.slow(1000, 7)
        store = store_with_table(self.new())
        with self.assertRaises(Interrupted) as caught, self.pressing(0.3, 0.8):
            store.insert("t", 1, "x")
        self.assertIsNone(caught.exception.is_done)
        with self.assertRaisesRegex(ProgramError, "the store is closed"):
            store.tables()

    def test_transactions(self):
        """If a call of a block is interrupted, the block is rolled back. An interrupted commit says
        whether it is done.
        """
        self.slow(1, 7, 12)
        with store_with_table(self.new()) as store:
            with self.assertRaises(Interrupted) as caught, store.transaction(), self.pressing(0.3):
                store.insert("t", 1, "x")
            self.assertIs(caught.exception.is_done, False)
            self.assertEqual(list(store.rows("t")), [])
            with store.transaction():
                with self.assertRaises(Interrupted) as caught, self.pressing(0.3):
                    store.insert_many("t", ((key, time.sleep(0.01)) for key in range(200)))
                self.assertIs(caught.exception.is_done, False)
                self.assertEqual(store.count("t"), 0)
            with self.assertRaises(Interrupted) as caught, self.pressing(1.5):
                with store.transaction():
                    store.insert("t", 1, "x")
            self.assertTrue(caught.exception.is_done)
            self.assertEqual(list(store.rows("t")), [(1, "x")])

    def test_calls_of_several_parts(self):
        """They are done or not as a whole."""
        for number, call in (
            (2, lambda store: store.update("t", {"b": "y"}, {"a": 1})),
            (4, lambda store: store.update("t", {"b": "y"}, {"a": 1})),
            (2, lambda store: store.delete("t", {"a": 1})), (11, lambda store: store.insert_many("t", [(2, "y")])),
            (7, lambda store: store.insert_many("t", [(2, "y")])),
            (16, lambda store: store.apply(b"", on_conflict=print)),
        ):
            with self.subTest(number=number):
                self.slow(1, number)
                with store_with_table(self.new()) as store:
                    store.put("t", 1, "x")
                    with self.assertRaises(Interrupted) as caught, self.pressing(0.3):
                        call(store)
                    self.assertIs(caught.exception.is_done, False)
                    self.assertEqual(list(store.rows("t")), [(1, "x")])
                    with store.transaction():
                        self.assertEqual(list(store.rows("t")), [(1, "x")])

    def test_other_exceptions(self):
        """They are raised after the answer, too."""

        def late(*_):
            raise TimeoutError("late")

        self.slow(1, 7)
        before = signal.signal(signal.SIGALRM, late)
        self.addCleanup(signal.signal, signal.SIGALRM, before)
        with store_with_table(self.new()) as store:
            signal.setitimer(signal.ITIMER_REAL, 0.3)
            with self.assertRaisesRegex(TimeoutError, "late"):
                store.insert("t", 1, "x")
            self.assertEqual(list(store.rows("t")), [(1, "x")])

    @contextlib.contextmanager
    def alarm(self, seconds):
        """Has the handler of a signal raise TimeoutError after some time, if the block still runs."""

        def late(*_):
            raise TimeoutError

        before = signal.signal(signal.SIGALRM, late)
        signal.setitimer(signal.ITIMER_REAL, seconds)
        try:
            yield
        finally:
            signal.setitimer(signal.ITIMER_REAL, 0)
            signal.signal(signal.SIGALRM, before)

    def moments(self, path, count, longest, call):
        """Makes a call for each of some numbers, with an exception of a signal at any moment. Yields
        the number and an open store.
        """
        chance, store = random.Random(1), store_with_table(path)
        for number in range(count):
            with contextlib.suppress(ProgramError, TimeoutError, ValueError):
                with self.alarm(chance.random() * longest):
                    call(store, number)
            if store._server.is_open:
                with contextlib.suppress(ProgramError):
                    store.tables()
            if not store._server.is_open:
                store = vollikash.open(path)
            yield number, store
        store.close()

    def test_calls_at_any_moment(self):
        """A call is done or not, and an answer is its own."""

        def row(number):
            return bytes([number % 251]) * 200_000

        held = None
        for number, store in self.moments(
            self.folder / "calls", 150, 0.003, lambda store, number: store.put("t", 1, row(number))
        ):
            found = store.get("t", 1)
            self.assertIn(found, (held, (1, row(number))))
            held = found

    def test_blocks_at_any_moment(self):
        """A block that has failed leaves nothing, and no transaction is open after it."""

        def fail(store, number):
            with store.transaction():
                store.insert("t", number, "x")
                raise ValueError

        for _, store in self.moments(self.folder / "blocks", 300, 0.001, fail):
            with store.transaction():
                self.assertEqual(store.count("t"), 0)

    def test_sessions_at_any_moment(self):
        """A session is closed after its block."""

        def record(store, number):
            with store.session("t"):
                store.put("t", 1, number)

        for _, store in self.moments(self.folder / "sessions", 300, 0.001, record):
            with store.session("t") as session:
                self.assertTrue(session.is_empty())

    def test_undo(self):
        """The stack has what the rows have, also if the call was interrupted."""
        self.slow(1, 14, 17)
        with store_with_table(self.new()) as store:
            stack = store.undo_stack("t")
            with stack.action("fill"):
                store.insert("t", 1, "x")
            for call, rows, done in ((stack.undo, [], []), (stack.redo, [(1, "x")], ["fill"])):
                with self.assertRaises(Interrupted) as caught, self.pressing(0.3):
                    call()
                self.assertTrue(caught.exception.is_done)
                self.assertEqual((list(store.rows("t")), stack.done), (rows, done))
            with self.assertRaises(RuntimeError), store.transaction():
                stack.undo()

    def test_handlers(self):
        """One that returns changes nothing. One that calls the store gets an error."""
        seen = []
        self.slow(0.5, 7)
        with store_with_table(self.new()) as store:
            signal.signal(signal.SIGINT, lambda *_: seen.append(1))
            with self.pressing(0.2):
                store.insert("t", 1, "x")
            self.assertEqual(seen, [1])
            signal.signal(signal.SIGINT, lambda *_: store.tables())
            with self.pressing(0.2), self.assertRaisesRegex(RuntimeError, "another call of the store waits"):
                store.insert("t", 2, "x")
            self.assertEqual(store.count("t"), 2)
            signal.signal(signal.SIGINT, lambda *_: store.close())
            with self.pressing(0.2), self.assertRaisesRegex(ProgramError, "the store is closed"):
                store.insert("t", 3, "x")

    def test_many(self):
        """Whenever Ctrl-C comes, no answer is taken for that of another call."""
        self.answering("""\
            number = 0
            while True:
                read()
                number += 1
                write(b"\\5" + number.to_bytes(8, "big"))
        """)
        store = vollikash.open(self.new())
        self.addCleanup(store.close)

        ended = []

        def press():
            for _ in range(40):
                time.sleep(0.05)
                os.kill(os.getpid(), signal.SIGINT)
            time.sleep(0.05)
            ended.append(True)

        # The number of the last answer, and how many calls were at least and at most made after it.
        last = caught = least = most = 0
        presser = threading.Thread(target=press)
        presser.start()
        # Whether a thread runs is not known if an exception comes while it is asked.
        while not ended:
            try:
                if not store._server.is_open:
                    time.sleep(0.01)
                    continue
                number = store.count("t")
                self.assertTrue(last + least < number <= last + most + 1, (last, least, most, number))
                last, least, most = number, 0, 0
            except KeyboardInterrupt as error:
                caught += 1
                is_done = getattr(error, "is_done", None)
                least, most = least + (is_done is True), most + (is_done is not False)
        presser.join()
        self.assertGreater(caught, 0)


class Forks(Folder):
    """Processes that are forked off."""

    def test_children(self):
        """A child has no store, and its end does not end the program of its parent."""
        printed = self.run_python("""
            import os, sys, vollikash
            store = vollikash.open(sys.argv[1])
            store.create("t", ["a"], key=["a"])
            for number in range(2):
                process = os.fork()
                if process == 0:
                    for call in (store.tables, lambda: store.insert("t", 1), lambda: store.insert_many("t", [(1,)])):
                        try:
                            call()
                        except vollikash.ProgramError as error:
                            print(error, flush=True)
                    store.close()
                    sys.exit(0)
                os.waitpid(process, 0)
                store.insert("t", number)
            print(list(store.rows("t")))
            store.close()
        """, self.folder / "a.db")
        refusal = "the store belongs to the process that has forked this one\n"
        self.assertEqual(printed, 6 * refusal + "[(0,), (1,)]\n")

    def test_pipes(self):
        """A child does not keep the program running."""
        printed = self.run_python("""
            import os, sys, time, vollikash
            store = vollikash.open(sys.argv[1])
            reader, writer = os.pipe()
            process = os.fork()
            if process == 0:
                os.close(writer)
                os.read(reader, 1)
                os._exit(0)
            number = store._server._process.pid
            started = time.monotonic()
            store.close()
            print(time.monotonic() - started < 20, os.path.exists(f"/proc/{number}"))
            os.write(writer, b"x")
            os.waitpid(process, 0)
        """, self.folder / "a.db")
        self.assertEqual(printed, "True False\n")

    def test_locks(self):
        """A child does not wait for a transaction of another thread of its parent."""
        printed = self.run_python("""
            import os, sys, threading, vollikash
            store = vollikash.open(sys.argv[1])
            store.create("t", ["a"], key=["a"])
            begun, ended = threading.Event(), threading.Event()
            def work():
                with store.transaction():
                    store.insert("t", 1)
                    begun.set()
                    ended.wait()
            thread = threading.Thread(target=work)
            thread.start()
            begun.wait()
            process = os.fork()
            if process == 0:
                try:
                    store.tables()
                except vollikash.ProgramError:
                    os._exit(7)
                os._exit(1)
            print(os.waitpid(process, 0)[1] >> 8)
            ended.set()
            thread.join()
            print(list(store.rows("t")))
            store.close()
        """, self.folder / "a.db")
        self.assertEqual(printed, "7\n[(1,)]\n")


class Loads(Folder):
    """Many calls, and long ones."""

    def test_threads(self):
        with store_with_table(self.new()) as store, concurrent.futures.ThreadPoolExecutor(8) as pool:
            list(pool.map(lambda key: store.insert("t", key, f"row {key}"), range(1000)))
            self.assertEqual(list(store.rows("t")), [(key, f"row {key}") for key in range(1000)])

    def test_many_rows(self):
        with store_with_table(self.new()) as store, store.session("t") as session:
            for key in range(3000):
                store.insert("t", key, "x")
            store.insert_many("t", [(key, "x") for key in range(3000, 20_000)])
            rows = list(store.rows("t"))
            self.assertEqual((len(rows), rows[-1]), (20_000, (19_999, "x")))
            self.assertEqual(len(session.changeset()), len(FILE) * 20_000 - 6 * 19_999)

    def test_long_values(self):
        long = b"\x07" * 9_000_000
        with store_with_table(self.new()) as store:
            store.insert("t", 1, long)
            store.update("t", {"b": long[1:]}, where={"a": 1})
            store.insert("t", long, "x" * 9_000_000)
            self.assertEqual(list(store.rows("t")), [(1, long[1:]), (long, "x" * 9_000_000)])
            store.delete("t", where={"a": long})
            self.assertEqual(store.get("t", 1), (1, long[1:]))

    def test_longest_call(self):
        """A longer one is refused by the program, and the store goes on."""
        most = 67108864 - len(b"\x07\x01t\x02") - 9 - len(b"\x04\xa0\x80\x80\x00")
        with store_with_table(self.new()) as store:
            self.assertEqual(len(_calls.row_call(_calls.INSERT, "t", (2, bytes(most)))), 67108864 + 4)
            for call in (
                lambda: store.insert("t", 2, bytes(most + 1)), lambda: store.apply(bytes(most + 99)),
                lambda: store.insert_many("t", [(2, "x"), (3, bytes(most + 1))]),
            ):
                with self.assertRaises(vollikash.FrameTooLong) as caught:
                    call()
                self.assertEqual((caught.exception.code, caught.exception.name), (94, "FrameTooLong"))
            self.assertEqual((caught.exception.row, store.count("t")), (2, 0))


class Memory(unittest.TestCase):
    """Stores in memory, in this process."""

    def setUp(self):
        self.store = vollikash.from_bytes()
        self.addCleanup(self.store.close)
        self.store.create("t", ["a", "b"], key=["a"])

    def test_open(self):
        """The path of a store in memory makes a new one, and no program runs."""
        with unittest.mock.patch.dict(os.environ, VOLLIKASH_CALLS="/nowhere"):
            for path in (":memory:", b":memory:", pathlib.Path(":memory:")):
                for given in ({}, {"timeout": None}, {"timeout": 1e-9, "busy_timeout": 0}):
                    with self.subTest(path=path, **given), vollikash.open(path, **given) as store:
                        self.assertEqual((repr(store), store.tables()), ("<vollikash.Store ':memory:', open>", []))
                        store.create("u", ["a"], key=["a"])
                        with vollikash.from_bytes(store.to_bytes()) as saved:
                            self.assertEqual(saved.tables(), ["u"])

    def test_memory_that_runs_out(self):
        """A file in memory is full if memory runs out."""
        content = bytearray(FULL)

        def make(held, call, length, answered):
            answered._obj.value = len(content)

        def answer(held, out, size, written):
            out.raw = bytes(content)

        library = unittest.mock.Mock(vollikash_store_call=make, vollikash_store_answer=answer)
        with unittest.mock.patch("vollikash._memory._library", return_value=library):
            self.assertEqual(self.store._server.ask(_calls.TABLES), _calls.MEMORY_REFUSED)
            for call in (self.store.tables, lambda: self.store.insert("t", 1, "x")):
                with self.assertRaises(MemoryError):
                    call()
            with self.assertRaisesRegex(MemoryError, "^row 1: "):
                self.store._expect_done(self.ahead_of(_calls.TABLES))
            content[BEFORE_DETAIL:] = (10).to_bytes(8, "big")
            with self.assertRaises(StoreFault) as caught:
                self.store.tables()
        self.assertEqual((caught.exception.detail, self.store.tables()), (10, ["t"]))

    def ahead_of(self, *calls):
        """What has made these calls."""
        ahead = self.store._server.ahead()
        ahead.send(calls)
        return ahead

    def test_answers_are_not_copied(self):
        """No byte of an answer is copied to see whether it is that a disk is full."""

        class Answer(bytes):
            def __getitem__(self, place):
                raise AssertionError("a part is copied")

        full = Answer(len(FULL).to_bytes(4, "big") + FULL)
        for answer, is_full in ((full, True), (Answer(1 << 20), False), (Answer(b"".join((full, b"x"))), False)):
            self.assertIs(_calls.is_full(answer), is_full)

    def test_calls(self):
        self.store.insert("t", 1, "x")
        self.store.put("t", 2, b"y")
        self.store.update("t", {"b": None}, where={"a": 2})
        self.assertEqual(self.store.get("t", 2), (2, None))
        with self.assertRaises(vollikash.KeyTaken) as caught:
            self.store.insert("t", 1, "y")
        self.assertEqual((caught.exception.table, caught.exception.key), ("t", (1,)))
        self.store.apply(FILE, conflict="replace")
        self.store.delete("t", {"a": 2})
        self.assertEqual(list(self.store.rows("t")), [(1, "x")])
        self.assertEqual(self.store.tables(), ["t"])

    def test_many_rows(self):
        """A row that is refused takes back those before it, and rows are read in pages."""
        self.store.insert_many("t", ((key, "x") for key in range(2000)))
        for is_own in (True, False):
            with contextlib.nullcontext() if is_own else self.store.transaction():
                with self.assertRaises(vollikash.KeyTaken) as caught:
                    self.store.insert_many("t", [(5000, "y"), (7, "y"), (5001, "y")])
                self.assertEqual(caught.exception.row, 2)
                self.assertEqual(self.store.count("t"), 2000)
        self.assertEqual(sum(1 for _ in self.store.rows("t")), 2000)

    def test_decided_conflict_and_session(self):
        self.store.insert("t", 1, "y")
        with self.store.session("t") as session:
            report = self.store.apply(FILE, on_conflict=lambda conflict: "replace")
            self.assertEqual(report.conflicts[0].key, (1,))
            self.assertFalse(session.is_empty())
            self.store.to_bytes()
            session.undo()
        self.assertEqual(self.store.get("t", 1), (1, "y"))

    def test_bytes(self):
        """The bytes are a database file, which SQLite and another store read."""
        self.store.insert("t", 1, "x")
        data = self.store.to_bytes()
        self.assertEqual(self.store.to_bytes(), data)
        self.store.insert("t", 2, "y")
        with tempfile.TemporaryDirectory() as folder:
            path = pathlib.Path(folder) / "store"
            path.write_bytes(data)
            with contextlib.closing(sqlite3.connect(path)) as base:
                self.assertEqual(base.execute("PRAGMA integrity_check").fetchone(), ("ok",))
            with vollikash.open(path) as store:
                self.assertEqual(list(store.rows("t")), [(1, "x")])
                with self.assertRaises(ValueError):
                    store.to_bytes()
            with vollikash.from_bytes(bytearray(path.read_bytes())) as store:
                self.assertEqual(list(store.rows("t")), [(1, "x")])
        self.assertEqual(self.store.count("t"), 2)

    def test_transaction_is_not_saved(self):
        with self.store.transaction():
            self.store.insert("t", 1, "x")
            with self.assertRaises(vollikash.TransactionOpen):
                self.store.to_bytes()
        self.assertEqual(self.store.count("t"), 1)
        with self.assertRaises(ZeroDivisionError), self.store.transaction():
            self.store.insert("t", 2, "x")
            raise ZeroDivisionError
        self.assertEqual(self.store.count("t"), 1)

    def test_refused_bytes(self):
        with tempfile.TemporaryDirectory() as folder:
            path = pathlib.Path(folder) / "store"
            with contextlib.closing(sqlite3.connect(path)) as base:
                base.execute("CREATE TABLE rec(a)")
            with self.assertRaises(vollikash.DamagedStore):
                vollikash.from_bytes(path.read_bytes())
        with self.assertRaises(StoreFault):
            vollikash.from_bytes(b"no database")
        with self.assertRaises(TypeError):
            vollikash.from_bytes("text")

    def test_longest_call(self):
        """A call has no limit, since there is no frame."""
        text = "x" * 70_000_000
        self.store.insert("t", 1, text)
        self.assertEqual(self.store.get("t", 1), (1, text))

    def test_another_thread_closes(self):
        with concurrent.futures.ThreadPoolExecutor(1) as pool:
            pool.submit(self.store.insert, "t", 1, "x").result()
            self.assertEqual(self.store.count("t"), 1)
            pool.submit(self.store.close).result()
        with self.assertRaises(ProgramError):
            self.store.tables()

    def test_closed(self):
        self.store.close()
        self.store.close()
        for call in (self.store.tables, self.store.to_bytes):
            with self.assertRaises(ProgramError):
                call()
        store = vollikash.from_bytes()
        with self.assertWarns(ResourceWarning):
            del store

    def test_interrupted_transactions(self):
        """Ctrl-C at random moments of a block: it is committed or rolled back, and the store stays."""
        def interrupt(number, frame):
            raise KeyboardInterrupt

        before = signal.signal(signal.SIGALRM, interrupt)
        self.addCleanup(signal.signal, signal.SIGALRM, before)
        chance = random.Random(3)
        for key in range(600):
            try:
                signal.setitimer(signal.ITIMER_REAL, chance.uniform(1e-6, 3e-4))
                with contextlib.suppress(StoreError), self.store.transaction():
                    self.store.insert("t", 2 * key, "x")
                    if key % 3 == 0:
                        self.store.insert_many("t", [(2 * key + 1, "x"), (0, "taken")])
                    self.store.insert("t", 2 * key + 1, "x")
                signal.setitimer(signal.ITIMER_REAL, 0)
            except KeyboardInterrupt:
                pass
            found = [self.store.get("t", 2 * key + half) is not None for half in range(2)]
            self.assertEqual(found[0], found[1])
        self.store.to_bytes()

    def test_interrupts_between_lines(self):
        """After Ctrl-C at any line of a call the store goes on, also while the exception is kept."""
        errors = []
        for number in itertools.count():
            errors.append(interrupted(lambda: self.store.put("t", number, "x"), _memory.Memory.ask, number))
            self.store.put("t", number, "y")
            with self.assertRaises(ZeroDivisionError), self.store.transaction():
                errors.append(interrupted(self.store.tables, _memory.Memory.ask, number))
                self.store.put("t", number, "z")
                raise ZeroDivisionError
            self.assertEqual(self.store.get("t", number), (number, "y"))
            if errors[-1] is None:
                break
        self.assertGreater(number, 12)

    def test_fork(self):
        """A child has no store, also if another thread was in a call."""
        child = os.fork()
        if child == 0:
            try:
                self.store.tables()
            except ProgramError:
                os._exit(0)
            os._exit(1)
        self.assertEqual(os.waitpid(child, 0)[1], 0)
        self.assertEqual(self.store.tables(), ["t"])

    def test_interrupts(self):
        """Ctrl-C at random moments: the error says whether the row is there."""
        def interrupt(number, frame):
            raise KeyboardInterrupt

        before = signal.signal(signal.SIGALRM, interrupt)
        self.addCleanup(signal.signal, signal.SIGALRM, before)
        chance, told = random.Random(7), 0
        for key in range(400):
            is_done = None
            try:
                signal.setitimer(signal.ITIMER_REAL, chance.uniform(1e-6, 6e-5))
                self.store.insert("t", key, "x")
                signal.setitimer(signal.ITIMER_REAL, 0)
            except Interrupted as error:
                is_done, told = error.is_done, told + 1
            except KeyboardInterrupt:
                pass
            signal.setitimer(signal.ITIMER_REAL, 0)
            if is_done is not None:
                self.assertEqual(self.store.get("t", key) is not None, is_done)
        self.assertGreater(told, 0)


class Installed(Folder):
    """The package where a part is missing."""

    def run_copy(self, text, **variables):
        """What a Python program prints that has the package and the library, and no program."""
        package = self.folder / "site/vollikash"
        shutil.copytree(HERE / "vollikash", package, ignore=shutil.ignore_patterns("__pycache__"))
        shutil.copy(os.environ.get("VOLLIKASH_LIBRARY") or _files._find(), package / "libvollikash.so")
        environment = {name: value for name, value in os.environ.items() if not name.startswith("VOLLIKASH_")}
        environment.update(PATH=str(self.folder), PYTHONPATH=str(package.parent), **variables)
        command = [sys.executable, "-c", textwrap.dedent(text)]
        return subprocess.run(
            command, cwd=self.folder, env=environment, stdout=subprocess.PIPE, text=True, check=True, timeout=120
        ).stdout

    def test_no_program(self):
        """A store in memory has all its calls. One in a file is an error, and no file is made."""
        printed = self.run_copy("""
            import contextlib, vollikash
            with vollikash.open(":memory:") as store:
                store.create("t", ["a", "b"], key=["a"])
                with store.transaction():
                    store.insert_many("t", [(1, "x"), (2, "y")])
                with contextlib.suppress(KeyError), store.transaction():
                    store.delete("t", where={"a": 1})
                    raise KeyError
                with store.session("t") as session:
                    store.update("t", {"b": "z"}, where={"a": 2})
                    file = session.changeset()
                    print(vollikash.sql(file), session.undo().applied)
                saved = store.to_bytes()
            with vollikash.from_bytes(saved) as store:
                print(list(store.rows("t")), store.apply(file).applied, store.get("t", 2))
            try:
                vollikash.open("file.db")
            except vollikash.ProgramError as error:
                print(error)
        """)
        self.assertEqual(printed, """\
UPDATE "t" SET c2='z' WHERE c1=2 AND c2='y';
 1
[(1, 'x'), (2, 'y')] 1 (2, 'z')
there is no changeset-calls program: VOLLIKASH_CALLS can name one
""")
        self.assertEqual(os.listdir(self.folder), ["site"])

    def test_no_library(self):
        """A store in memory is an error that names the library, also if it is another one."""
        for name, why in (("nowhere.so", "No such file or directory"), ("libc.so.6", "undefined symbol")):
            with self.subTest(name):
                printed = self.run_python("""
                    import vollikash
                    store = lambda: vollikash.open(":memory:")
                    for call in (store, vollikash.from_bytes, lambda: vollikash.check(b"")):
                        try:
                            call()
                        except OSError as error:
                            print(error)
                """, variables={"VOLLIKASH_LIBRARY": name})
                self.assertEqual(len(printed.splitlines()), 3, printed)
                for line in printed.splitlines():
                    self.assertRegex(line, rf"^the C library cannot be loaded \(.*{name}: .*{why}.*\): VOLLI")


class StoresInProcess(InProcess, Stores):
    """The same calls, in this process."""


class PagesInProcess(InProcess, Pages):
    """The same reads of many rows, in this process."""


class RulesInProcess(InProcess, Rules):
    """The same refusals of NULL, in this process."""


class LoadsInProcess(InProcess, Loads):
    """The same loads, in this process."""

    test_longest_call = None


if __name__ == "__main__":
    if sys.argv[1:2] and not sys.argv[1].startswith("-"):
        PROGRAM = pathlib.Path(sys.argv.pop(1)).resolve()
    os.environ["VOLLIKASH_CALLS"] = str(PROGRAM)
    unittest.main()

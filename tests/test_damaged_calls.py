#!/usr/bin/env python3
"""Damaged calls: each byte of each call set to each other value, and the bytes of the length of its
frame.

A model that shares no code with the program (`support/service.py`) says what each is answered, byte
by byte, and which rows the table has then. A length may claim up to 4 GiB: the program takes no
memory for what is not sent. The program has to be built first (`rt run` in crates/changeset_calls).
"""
import os
import pathlib
import shutil
import subprocess
import tempfile
import threading
import unittest

from support.calls import (
    CALLS_PROGRAM, PATIENCE, call, columns, count, frame, frames, main, row, run_bytes, sized, text,
)
from support.model import shown_tables
from support.program import TRIES_ALL
from support.service import Service, answers_to, served
from support.stores import UNDEFINED, header, insert, read_store, update
from support.trials import shown_tables as shown_store

TABLE, KEY = text("t"), row(["k"])
ROWS = call("rows", TABLE, b"\x00", count(9))
CONFLICTING = header("t", 1, 0) + update(("k", "y"), (UNDEFINED, "z")) + insert("p", "q")

# Calls that make a store with two rows.
START = [
    call("declare", TABLE, columns(("a", 1), ("b", 2))), call("insert", TABLE, row(["k", "x"])),
    call("insert", TABLE, row(["m", b"y"])),
]

# The conflict of the changeset, as its rehearsal answers it.
FOUND = answers_to([*START, call("rehearse", sized(CONFLICTING), b"\x00")])[-1][1:]

# Calls on that store, in a transaction.
CALLS = [
    call("schema", TABLE), call("get", TABLE, KEY), call("rows", TABLE, b"\x01", KEY, count(5)),
    call("insert", TABLE, row([7, None])), call("update", TABLE, KEY, row(["n", "z"])), call("delete", TABLE, KEY),
    call("put", TABLE, row(["k", b"\x00"])), call("declare", text("u"), columns(("a", 1), ("b", 0))),
    call("apply", sized(CONFLICTING), b"\x00", b"\x01\x02\x02\x02"),
    call("apply_chosen", sized(CONFLICTING), b"\x01", FOUND, b"\x01"),
]

# Calls outside a transaction.
SESSION_CALLS = [call("open_session"), call("attach", TABLE), call("changeset"), call("undo")]

# How many bytes of memory a run may take for what is claimed.
ROOM = 16 << 20

# The values of a byte of a length.
VALUES = range(256) if TRIES_ALL else (0, 1, 4, 5, 0x7F, 0x80, 0xFF)


def damaged(content, values=range(256)):
    """The content with each byte set to each other value."""
    for place, byte in enumerate(content):
        for other in values:
            if other != byte:
                yield content[:place] + bytes([other]) + content[place + 1:]


class DamageTest(unittest.TestCase):
    """Calls and frames in which a byte is changed."""

    def setUp(self):
        folder = tempfile.TemporaryDirectory()
        self.addCleanup(folder.cleanup)
        self.store = pathlib.Path(folder.name, "store")

    def expect_left(self, service):
        """Asserts that the store has the tables of the model, and opens."""
        self.assertEqual(shown_store(read_store(self.store)), shown_tables(service.committed()))

    def expect_answers(self, asked):
        """Asserts that calls are answered as by the model, and leave its tables."""
        service = Service()
        wanted = list(map(service.answer, asked))
        ended = run_bytes(self.store, b"".join(map(frame, asked)))
        answers, rest = frames(ended.stdout)
        self.assertEqual((ended.returncode, len(answers), rest, ended.stderr), (0, len(asked), b"", b""))
        for place, pair in enumerate(zip(answers, wanted)):
            if pair[0] != pair[1]:
                self.fail(f"{asked[place].hex()} is answered {pair[0].hex()}, and not {pair[1].hex()}")
        self.expect_left(service)

    def test_each_byte(self):
        """Each call, with each byte set to each other value, in a transaction that is rolled back."""
        for content in CALLS:
            with self.subTest(content.hex()):
                self.store = self.store.with_name(content.hex())
                asked = list(START)
                for other in damaged(content):
                    asked += [call("begin"), other, ROWS, call("roll_back")]
                self.expect_answers(asked)

    def test_each_byte_of_a_session(self):
        """The same of calls on a session."""
        asked = [*START, *SESSION_CALLS[:2]]
        for content in SESSION_CALLS:
            for other in damaged(content):
                asked += [other, call("put", TABLE, row(["k", len(asked)])), call("changeset")]
        self.expect_answers(asked)

    def test_each_cut(self):
        """Each call, cut at each byte."""
        self.expect_answers(START + [content[:end] for content in CALLS for end in range(len(content))])

    def run_measured(self, stdin):
        """Runs the program: its exit status, what it writes, and how many bytes of memory it takes."""
        with tempfile.TemporaryFile() as source, tempfile.TemporaryFile() as written:
            source.write(stdin)
            source.seek(0)
            child = subprocess.Popen([str(CALLS_PROGRAM), str(self.store)], stdin=source, stdout=written)
            timer = threading.Timer(PATIENCE, child.kill)
            timer.start()
            _, status, used = os.wait4(child.pid, 0)
            timer.cancel()
            child.returncode = -os.WTERMSIG(status) if os.WIFSIGNALED(status) else os.WEXITSTATUS(status)
            written.seek(0)
            return child.returncode, written.read(), used.ru_maxrss << 10

    def test_lengths(self):
        """Each frame, with each byte of its length set to another value, before the input ends."""
        self.assertEqual(run_bytes(self.store, b"".join(map(frame, START))).returncode, 0)
        made = self.store.with_name("made")
        shutil.copy(self.store, made)
        least = self.run_measured(b"")[2]
        for content in CALLS:
            for length in damaged(frame(content)[:4], VALUES):
                with self.subTest(length=length.hex(), content=content.hex()):
                    shutil.copy(made, self.store)
                    service = Service()
                    list(map(service.answer, START))
                    status, written, used = self.run_measured(length + content)
                    self.assertEqual((written, status), served(service, length + content))
                    self.assertLess(used, least + ROOM)
                    self.expect_left(service)


if __name__ == "__main__":
    main()

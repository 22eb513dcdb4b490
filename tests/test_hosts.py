#!/usr/bin/env python3
"""Hosts that die, and programs `changeset-calls` that are killed or find a store in use.

After a kill the store has the tables that were committed before the call that ran, or those that it
committed. If the host dies, the program ends at once, and the store can be opened again. The program
has to be built first (`rt run` in crates/changeset_calls).
"""
import contextlib
import pathlib
import random
import sqlite3
import subprocess
import sys
import tempfile
import time
import unittest

from support.call_fuzzing import made_calls
from support.call_trials import DECLARE, CallStory, insert
from support.calls import CALLS_PROGRAM, REFUSED, Host, answer, call, count, frame, main, row, run, text
from support.power import files_of, found_by_sqlite, tables_of

# How often a program is killed, and a host.
KILLS = 20

# How many seconds the store may be in use after its host died.
CLOSING = 2

# The number of SQLITE_BUSY.
BUSY = 5

# A host that sends the calls of its standard input, and writes each answer, a line each.
HOST = """
import subprocess, sys
child = subprocess.Popen(sys.argv[1:], stdin=subprocess.PIPE, stdout=subprocess.PIPE, bufsize=0)
for line in sys.stdin:
    content = bytes.fromhex(line)
    child.stdin.write(len(content).to_bytes(4, "big") + content)
    length, content = int.from_bytes(child.stdout.read(4), "big"), b""
    while len(content) < length:
        content += child.stdout.read(length - len(content))
    print(content.hex(), flush=True)
"""


def probes(service):
    """Calls that show the tables of a store, and write to it."""
    shown = [call("rows", text(name.decode()), b"\x00", count(1000)) for name in service.tables]
    named = text("made after")
    made = [call("declare", named, b"\x01\x01a\x01"), call("begin"), call("insert", named, row([1])), call("commit")]
    return [call("tables"), *shown, *made, call("rows", named, b"\x00", count(9))]


class HostTest(unittest.TestCase):
    """Programs that are killed, and hosts that die."""

    def setUp(self):
        folder = tempfile.TemporaryDirectory()
        self.addCleanup(folder.cleanup)
        self.folder = pathlib.Path(folder.name)
        self.store = self.folder / "store"

    def clear(self):
        """Removes the store and its log."""
        for path in self.folder.iterdir():
            path.unlink()

    def expect_left(self, services):
        """Asserts that the store has the tables of one of these models, and that the program opens it
        and goes on.
        """
        tables = found_by_sqlite(files_of(self.folder))
        found = [service.reopened() for service in services if tables_of(service) == tables]
        self.assertTrue(found, f"SQLite finds {tables!r:.2000}")
        asked = probes(found[0])
        self.assertEqual(run(self.store, asked), (0, [answer(found[0].answer(content)) for content in asked]))

    def test_program_that_is_killed(self):
        """The store has what was answered, or one call more."""
        asked = made_calls("killed", 0)[0]
        story, chance = CallStory(asked), random.Random(KILLS)
        whole = b"".join(story.answers)
        for number in range(KILLS):
            with self.subTest(number=number), tempfile.TemporaryFile() as source:
                self.clear()
                source.write(b"".join(map(frame, asked)))
                source.seek(0)
                words = [str(CALLS_PROGRAM), str(self.store)]
                with subprocess.Popen(words, stdin=source, stdout=subprocess.PIPE) as child:
                    written = child.stdout.read(chance.randrange(len(whole)))
                    child.kill()
                    written += child.stdout.read()
                self.assertTrue(whole.startswith(written))
                self.expect_left(story.may_stand(len(written)))

    def closes(self):
        """Whether the store can be written by others soon."""
        end = time.monotonic() + CLOSING
        while time.monotonic() < end:
            with contextlib.closing(sqlite3.connect(self.store, isolation_level=None, timeout=0)) as base:
                with contextlib.suppress(sqlite3.OperationalError):
                    base.execute("BEGIN IMMEDIATE")
                    return True
            time.sleep(0.01)
        return False

    def test_host_that_dies(self):
        """Another program can open the store, which has what was answered, or the call that was sent.
        """
        asked = made_calls("host", 0)[0]
        story, chance = CallStory(asked), random.Random(KILLS)
        for number in range(KILLS):
            place = chance.randrange(1, len(asked))
            with self.subTest(number=number, place=place):
                self.clear()
                words = [sys.executable, "-c", HOST, str(CALLS_PROGRAM), str(self.store)]
                pipes = {"stdin": subprocess.PIPE, "stdout": subprocess.PIPE, "text": True, "bufsize": 1}
                with subprocess.Popen(words, **pipes) as host:
                    for content, wanted in zip(asked[:place], story.answers):
                        print(content.hex(), file=host.stdin, flush=True)
                        self.assertEqual(host.stdout.readline(), wanted[4:].hex() + "\n")
                    if number % 2:
                        print(asked[place].hex(), file=host.stdin, flush=True)
                    host.kill()
                self.assertTrue(self.closes())
                self.expect_left(story.shells[place:place + 1 + number % 2])

    def test_store_in_use(self):
        """Another program is refused, and changes nothing."""
        with Host(self.store) as host:
            self.assertEqual(host.ask(DECLARE), (0,))
            for before in ([], [call("begin"), insert(1, "x")]):
                for content in before:
                    self.assertEqual(host.ask(content), (0,))
                asked = [DECLARE, call("begin"), insert(2, "y"), call("commit"), call("tables")]
                self.assertEqual(run(self.store, asked), (1, len(asked) * [(REFUSED, 38, None, None, None, BUSY)]))
            self.assertEqual(host.ask(call("commit")), (0,))
        self.assertEqual(run(self.store, [call("count", text("t"))]), (0, [(5, 1)]))


if __name__ == "__main__":
    main()

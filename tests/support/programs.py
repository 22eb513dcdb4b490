"""Tests that run the program in a folder, and the changesets and stores that they take."""
import contextlib
import os
import pathlib
import select
import subprocess
import tempfile
import time
import unittest

from support.program import PATIENCE, PROGRAM
from support.samples import N, T
from support.stores import UNDEFINED, Table, header, insert, read_store, update, write_store

# A key column with the value 1.
KEY = b"\x01\x00\x00\x00\x00\x00\x00\x00\x01"

# So many inserts, and their file.
MANY = 20_000
MANY_INSERTS = T + b"".join(insert(key, "x") for key in range(MANY))
WIDER_INSERT = header("t", 1, 0, 0) + insert(1, None, None)

# An update to a row that the table n refuses.
NULL_UPDATE = N + update((1, "x"), (UNDEFINED, None))

DAMAGED_STORE = "error 37 DamagedStore\n"

NEEDS_FULL = unittest.skipUnless(os.path.exists("/dev/full"), "no /dev/full")


def tables_of(*rows, columns=("a", "b"), keys=(True, False), name="t"):
    """A table with these rows. Its first column is the key by default."""
    return {name: Table(columns, keys, list(rows))}


def refusing(*rows):
    """The table n with these rows, whose second column refuses NULL."""
    return {"n": Table(("a", "b"), (True, False), list(rows), (True, True))}


class ProgramTest(unittest.TestCase):
    """A test that runs the program in a folder of its own."""

    def setUp(self):
        folder = tempfile.TemporaryDirectory()
        self.addCleanup(folder.cleanup)
        self.folder = pathlib.Path(folder.name)

    @contextlib.contextmanager
    def case(self, **what):
        """One case of a table of them, in a folder of its own."""
        with self.subTest(**what), tempfile.TemporaryDirectory() as folder:
            self.folder = pathlib.Path(folder)
            yield

    def make(self, name, content):
        """Makes a file of these bytes."""
        (self.folder / name).write_bytes(content)

    def bytes_of(self, name):
        """The bytes of a file."""
        return (self.folder / name).read_bytes()

    def run_program(self, *words, stdin=b"", stdout=subprocess.PIPE):
        """Runs the program, and answers its exit status and what it prints to both streams."""
        source = {"stdin": stdin} if isinstance(stdin, int) else {"input": stdin}
        done = subprocess.run(
            [PROGRAM, *words], cwd=self.folder, stdout=stdout, stderr=subprocess.PIPE, timeout=PATIENCE, **source
        )
        return done.returncode, (done.stdout or b"").decode(), done.stderr.decode()

    def run_lines(self, lines):
        """Runs lines as a script, and answers its exit status and what it prints to both streams.
        """
        return self.run_program(stdin="".join(line + "\n" for line in lines).encode())

    def run_full(self, *words, stdin=b""):
        """Runs the program with a standard output that takes nothing."""
        with open("/dev/full", "wb") as full:
            return self.run_program(*words, stdin=stdin, stdout=full)

    def run_closed(self, *words, stdin=b""):
        """Runs the program with a standard output that nobody reads any more."""
        reading, writing = os.pipe()
        os.close(reading)
        with os.fdopen(writing, "wb") as pipe:
            return self.run_program(*words, stdin=stdin, stdout=pipe)

    def run_cut(self, *words, blocks=0):
        """Runs the program where no file is written beyond so many blocks of 512 bytes, as on a disk
        that is full, and answers as `run_program` does.
        """
        limit = f"ulimit -f {blocks}; trap '' XFSZ; exec \"$0\" \"$@\""
        done = subprocess.run(
            ["sh", "-c", limit, PROGRAM, *words], cwd=self.folder, capture_output=True, timeout=PATIENCE
        )
        return done.returncode, done.stdout.decode(), done.stderr.decode()

    @contextlib.contextmanager
    def dialogue(self, *words):
        """The program, before its script is written."""
        pipes = {"stdin": subprocess.PIPE, "stdout": subprocess.PIPE, "stderr": subprocess.PIPE}
        with subprocess.Popen([PROGRAM, *words], cwd=self.folder, bufsize=0, **pipes) as child:
            try:
                yield child
            finally:
                child.kill()

    def expect_answer(self, child, text, answer):
        """Writes a part of the script, and asserts that this is read before more is written."""
        child.stdin.write(text.encode())
        end, read, wanted = time.monotonic() + PATIENCE, b"", answer.encode()
        while len(read) < len(wanted):
            ready, _, _ = select.select([child.stdout], [], [], max(0, end - time.monotonic()))
            piece = os.read(child.stdout.fileno(), len(wanted) - len(read)) if ready else b""
            if not piece:
                break
            read += piece
        self.assertEqual(read, wanted, text)

    def expect(self, words, status, printed="", reported=""):
        """Runs the program, and asserts its exit status and what it prints to both streams."""
        self.assertEqual(self.run_program(*words), (status, printed, reported), words)

    def expect_files(self, *names):
        """Asserts which files there are."""
        self.assertEqual(sorted(os.listdir(self.folder)), sorted(names))


# The kinds of conflicts, as words say what is done about them.
KINDS = ("data", "notfound", "conflict", "constraint")

# The commands, and how many arguments each has.
COMMANDS = {"apply": 1, "concat": 2, "dump": 0, "invert": 1, "shell": 0, "sql": 0}


class StoreTest(ProgramTest):
    """A test with changesets that are applied to a store."""

    def run_shell(self, lines, store="store"):
        """Runs lines on the store in a file."""
        return self.run_program(store, "shell", stdin="".join(line + "\n" for line in lines).encode())

    def write(self, tables, **how):
        """Has SQLite write the store."""
        write_store(self.folder / "store", tables, **how)

    def read(self):
        """The tables of the store, as SQLite reads it."""
        return read_store(self.folder / "store")

    def read_alone(self):
        """The tables of the file alone: the log alongside it has nothing more."""
        (self.folder / "store-wal").unlink(missing_ok=True)
        self.assertIn("store", os.listdir(self.folder))
        return self.read()

    def apply(self, changeset):
        """Applies a changeset to the store."""
        self.make("a.cs", changeset)
        return self.run_program("a.cs", "apply", "store")

    def expect_applied(self, changeset, printed):
        """Applies a changeset, which succeeds with this report."""
        self.assertEqual(self.apply(changeset), (0, printed, ""))

    def expect_refused(self, changeset, line):
        """Applies a changeset, which is refused with this line, and leaves the store."""
        before = self.read()
        self.assertEqual(self.apply(changeset), (1, "", line))
        self.assertEqual(self.read(), before)

"""Scripts, commands and calls that run again and again while one allocation or one call of each run
is refused (`refuse.c`).
"""
import contextlib
import os
import pathlib
import sqlite3
import subprocess
import tempfile

from support.program import PATIENCE, PROGRAM, TESTS, TOP
from support.samples import CREATE, CREATE_N, DELETE, INSERT, NULL_INSERT, STORE_FAULT, UPDATE
from support.stores import Table, delete, header, insert, read_store, write_store

# The program of calls that no line makes, which prints a line for each of its words.
CALLS = TOP / "crates/calls/out/calls"

NO_MEMORY = "error 60 NoMemory\n"

# Those that take no memory.
WITHOUT_MEMORY = {"claim"}

# What names the descriptor to which a file that is loaded in front of the library writes.
DESCRIPTORS = ("REFUSE_MARK", "RECORD_TO")

TWO_TABLES = INSERT + insert(2, None) + header("w", 0, 1) + delete(None, 5) + insert("blob", b"\x00\xff")

# Scripts, by what they show.
SCRIPTS = {
    "an update that is applied and reverted": [
        CREATE, "INSERT INTO t VALUES(1, 'x');", f".load u {UPDATE.hex()}", ".apply u", "SELECT * FROM t;", ".revert u",
        "SELECT * FROM t;",
    ],
    "joins": [
        f".load i {INSERT.hex()}", f".load d {DELETE.hex()}", f".load u {UPDATE.hex()}", ".concat i u a", ".hex a",
        ".concat d i b", ".hex b", ".invert u v", ".concat u v c", ".hex c", ".concat i i i", ".dump i",
        f".load w {(header('t', 1) + insert(5)).hex()}", ".concat i w x", ".hex x",
    ],
    "a session whose key changes": [
        CREATE, "INSERT INTO t VALUES(1, 'x');", ".session open", ".session attach t", "UPDATE t SET a=2 WHERE a=1;",
        ".session changeset c", ".dump c", "INSERT INTO t VALUES(3, 'z');", "UPDATE t SET a=3 WHERE a=2;",
        ".session changeset d", ".dump d", ".session isempty",
    ],
    "conflicts in a session": [
        CREATE, "INSERT INTO t VALUES(1, 'z');", ".session open", ".session attach t", "INSERT INTO t VALUES(2, 'w');",
        f".load a {INSERT.hex()}", ".apply a conflict=replace", ".apply a", "INSERT INTO t VALUES(2, 'v');",
        "SELECT * FROM t;", ".session undo", "SELECT * FROM t;", ".session changeset c", ".hex c",
        CREATE_N, "INSERT INTO n VALUES(1, 'x');", ".session attach n", f".load a {NULL_INSERT.hex()}",
        ".apply a conflict=replace constraint=omit", ".apply a conflict=replace", "SELECT * FROM n;", ".session undo",
    ],
    "a line of each form": [
        "-- nothing", "", CREATE, 'CREATE TABLE "a b"(c, "d ""e", PRIMARY KEY("d ""e", c));',
        "INSERT INTO t VALUES(1, X'00ff');", "INSERT INTO \"a b\" VALUES('x''y', NULL);", "DELETE FROM t WHERE a=9;",
        "UPDATE t SET b=NULL, a=7 WHERE a=1;", "SELECT * FROM t;", 'SELECT * FROM "a b";', ".load e",
        CREATE_N, "INSERT INTO n VALUES(1, NULL);", f".load n {NULL_INSERT.hex()}", ".apply n constraint=omit",
        f".load f {TWO_TABLES.hex()}", ".invert f g", ".dump g", ".hex g", ".concat f g h", ".hex h", ".apply f",
        ".apply f data=omit notfound=omit conflict=replace", ".revert f", ".session open", ".session attach t",
        ".session attach t", ".session attach nowhere", "INSERT INTO t VALUES(8, 'eight');", "DELETE FROM t WHERE a=7;",
        ".session isempty", ".session changeset s", ".dump s", ".session undo", ".session close", ".session undo",
        "no line", ".load f 54", ".invert f f", "SELECT * FROM t;",
    ],
}

# The files of commands.
FILES = {"two": TWO_TABLES, "insert": INSERT, "update": UPDATE, "broken": TWO_TABLES[:-1], "out": b"as it was"}

# Commands, by their words; `out` is what they write.
COMMANDS = [
    ["two", "invert", "out"], ["two", "dump"], ["two", "sql"], ["insert", "concat", "update", "out"],
    ["two", "concat", "two", "out"], ["broken", "invert", "out"], ["broken", "dump"], ["insert", "apply", "store"],
    ["--data", "replace", "--conflict=omit", "--constraint", "omit", "two", "apply", "store"],
    ["broken", "apply", "store"], ["--help"], ["two", "nothing"],
]

# The store that they find.
STORE = {"t": Table(("a", "b"), (True, False), [(1, "z"), (3, None)])}


def build_shim(folder, name="refuse"):
    """Builds what refuses, or another file of C that is loaded in front of the library."""
    shim = os.path.join(folder, f"{name}.so")
    subprocess.run(["cc", "-shared", "-fPIC", "-O2", "-o", shim, TESTS / f"{name}.c", "-ldl"], check=True)
    return shim


def run(folder, words, stdin, loading=None, program=None):
    """Runs a program in a folder: its exit status, and what it prints to both streams."""
    loading = loading or {}
    done = subprocess.run(
        [program or PROGRAM, *words], cwd=folder, input=stdin, capture_output=True, timeout=PATIENCE,
        env={**os.environ, **loading}, pass_fds=[int(loading[name]) for name in DESCRIPTORS if name in loading],
    )
    return done.returncode, done.stdout.decode(errors="surrogateescape"), done.stderr.decode()


class Trial:
    """Something that a program does in a folder, and the ways in which it may end."""

    # The program, where it is not the one that is tested.
    program = None

    def __init__(self, words, stdin=b""):
        self.words = words
        self.stdin = stdin

    def prepare(self, folder):
        """Makes the files that it finds."""

    def left(self, folder):
        """What it leaves."""

    def once(self, refusing=None):
        """How it ends, in a new folder: its exit status, what it prints, and what it leaves."""
        with tempfile.TemporaryDirectory() as folder:
            self.prepare(folder)
            return run(folder, self.words, self.stdin, refusing, self.program), self.left(folder)

    def refused(self, shim, at, call="malloc", answer=0):
        """How it ends where this allocation, or this call, is refused with an answer, and whether
        one was.
        """
        reading, writing = os.pipe()
        try:
            refusing = {
                "LD_PRELOAD": shim, "REFUSE_CALL": call, "REFUSE_AT": str(at), "REFUSE_WITH": str(answer),
                "REFUSE_MARK": str(writing),
            }
            ended = self.once(refusing)
        finally:
            os.close(writing)
        with os.fdopen(reading, "rb") as mark:
            return ended, mark.read() != b""

    def count(self, shim, call="malloc"):
        """How many allocations it makes, or how many of a call."""
        most = 1
        while self.refused(shim, most, call)[1]:
            most *= 2
        least = most // 2
        while least + 1 < most:
            middle = (least + most) // 2
            if self.refused(shim, middle, call)[1]:
                least = middle
            else:
                most = middle
        return least


class Script(Trial):
    """Lines that are run on a store in a new file."""

    # The store, and how a line is answered for which there is no memory.
    store = "store"
    refusals = (NO_MEMORY,)

    def __init__(self, lines):
        super().__init__([self.store, "shell"], "".join(line + "\n" for line in lines).encode())
        self.lines = lines

    def left(self, folder):
        """The tables of the store: none where it is not yet one."""
        store = os.path.join(folder, "store")
        return shown_tables(read_store(store)) if is_store(store) else {}

    def ends(self):
        """All ways in which it may end: as with memory, or with one line refused, or with none
        read.
        """
        ends, script = [self.once()], type(self)
        for place in range(len(self.lines)):
            before = script(self.lines[:place]).once()[0][1]
            (_, printed, reported), left = script(self.lines[:place] + self.lines[place + 1:]).once()
            for refusal in self.refusals:
                ends.append(((1, before + refusal + printed[len(before):], reported), left))
        ends += (((1, "", refusal), {}) for refusal in self.refusals)
        return ends


class MemoryScript(Script):
    """Lines that are run on a store in memory, whose files may find no memory as they grow."""

    store = ":memory:"
    refusals = (NO_MEMORY, STORE_FAULT)


class Command(Trial):
    """A command on files."""

    def prepare(self, folder):
        """Makes its files, and the store."""
        for name, content in FILES.items():
            pathlib.Path(folder, name).write_bytes(content)
        write_store(os.path.join(folder, "store"), STORE)

    def left(self, folder):
        """The files, and the tables of the store."""
        names = sorted(name for name in os.listdir(folder) if not name.startswith("store"))
        return [(name, pathlib.Path(folder, name).read_bytes()) for name in names], shown_tables(
            read_store(os.path.join(folder, "store"))
        )

    def ends(self):
        """Both ways in which it may end: as with memory, or refused."""
        with tempfile.TemporaryDirectory() as folder:
            self.prepare(folder)
            return [self.once(), ((1, "", NO_MEMORY), self.left(folder))]


class Calls(Trial):
    """Calls that no line makes."""

    program = CALLS

    def ends(self):
        """All ways in which they may end: as with memory, or with one refused, which leaves what
        was there, or with none made.
        """
        ends = [self.once()]
        for place, word in enumerate(self.words):
            if word in WITHOUT_MEMORY:
                continue
            before = Calls(self.words[:place]).once()[0][1]
            (status, printed, reported), left = Calls(self.words[:place] + self.words[place + 1:]).once()
            ends.append(((status, before + "NoMemory\n" + printed[len(before):], reported), left))
        return [*ends, ((1, "", "Error: Kind(OutOfMemory)\n"), None)]


def is_store(path):
    """Whether a file has the records of a store."""
    if not os.path.exists(path):
        return False
    with contextlib.closing(sqlite3.connect(path)) as base:
        return base.execute("SELECT count(*) FROM sqlite_master WHERE name = 'rec'").fetchone() == (1,)


def shown_tables(tables):
    """Tables, as they are compared."""
    return {
        name: (table.columns, table.keys, tuple(table.refuses or table.keys), table.rows)
        for name, table in tables.items()
    }

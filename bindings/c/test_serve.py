#!/usr/bin/env python3
"""Tests of stores by the library: the calls on them, by the shared library; runs of calls by `serve.c`, next to the
program changeset-calls; and typed calls, by `typed.c`.

usage: bindings/c/test_serve.py, behind `make`; `make check` runs it
"""
import contextlib
import ctypes
import os
import pathlib
import re
import resource
import sqlite3
import subprocess
import sys
import tempfile
import unittest

HERE = pathlib.Path(__file__).resolve().parent
TESTS = HERE.parents[1] / "tests"
sys.path.insert(0, str(TESTS))

from support.calls import (  # noqa: E402
    CALLS_PROGRAM, CHANGESET, DONE, FLAG, NUMBER, REFUSED, REPORT, ROW, ROWS, answer, call, columns,
    count, frame, frames, row, sized, text,
)
from support.program import PROGRAM  # noqa: E402

SERVE, SANITIZED, REFUSING = (HERE / "out" / name for name in ("serve", "serve-sanitized", "serve-refusing"))

OK, DAMAGED_STORE, STORE_FAULT, NO_ROOM, NOT_OPEN, TRANSACTION_OPEN = 0, 37, 38, 80, 83, 95

TABLE = text("t")
DECLARE = call("declare", TABLE, columns(("a", 1), ("b", 0)))
ALL = call("rows", TABLE, b"\x00", count(100))
CHANGES = (
    b"T\x02\x01\x00t\x00\x12\x00\x01\0\0\0\0\0\0\0\x09\x03\x01q"
    b"\x17\x00\x01\0\0\0\0\0\0\0\x01\x03\x01x\x00\x03\x01z"
)


def insert(key, value):
    return call("insert", TABLE, row([key, value]))


# Calls of every kind. The last two refuse.
SCRIPT = [
    DECLARE, insert(1, "x"), call("open_session"), call("attach", TABLE), insert(2, "y"),
    call("update", TABLE, row([2]), row([2, "yy"])), call("put", TABLE, row([3, None])),
    call("delete", TABLE, row([3])),
    call("apply", sized(CHANGES), b"\x00", b"\x02\x02\x02\x02"), call("changeset"), ALL, call("count", TABLE),
    call("undo"), call("is_empty"), ALL, call("close_session"), call("tables"), call("schema", TABLE),
    call("get", TABLE, row([1])), call("begin"), insert(5, "five"), call("commit"), call("begin"), insert(6, "six"),
    call("roll_back"), ALL, insert(1, "again"), call("commit"),
]


class Fault(ctypes.Structure):
    _fields_ = [("code", ctypes.c_int), ("file", ctypes.c_int), ("place", ctypes.c_size_t)]


class Handle(ctypes.Structure):
    _fields_ = [("at", ctypes.c_void_p)]


LIBRARY = ctypes.CDLL(str(HERE / "out/libvollikash.so"))
for name in ("open", "call", "answer", "save"):
    getattr(LIBRARY, f"vollikash_store_{name}").argtypes = (
        ctypes.c_void_p, ctypes.c_char_p, ctypes.c_size_t, ctypes.c_void_p
    )
LIBRARY.vollikash_store_close.argtypes = (ctypes.c_void_p,)


class Store:
    """A store by the library. What it returns is a code, or a code and bytes."""

    def __init__(self):
        self.handle = Handle()
        self.at = ctypes.byref(self.handle)

    def open(self, file=b""):
        fault = Fault(1, 2, 3)
        code = LIBRARY.vollikash_store_open(self.at, file, len(file), ctypes.byref(fault))
        assert (fault.code, fault.file, fault.place) == (code, 0, 0), "the report is another one"
        return code

    def call(self, content):
        """A call, and its answer."""
        answered = ctypes.c_size_t(99)
        code = LIBRARY.vollikash_store_call(self.at, content, len(content), ctypes.byref(answered))
        if code:
            assert answered.value == 0, "a call that is not answered has an answer"
            return code, b""
        return self.taken(LIBRARY.vollikash_store_answer, answered.value)

    def taken(self, take, room):
        """What an answer or a save puts into a buffer, of whose bytes others stay."""
        out, written = ctypes.create_string_buffer(b"\xa5" * (room + 3), room + 3), ctypes.c_size_t(99)
        code = take(self.at, out, room, ctypes.byref(written))
        made = written.value if code == OK else 0
        assert out.raw[made:] == b"\xa5" * (room + 3 - made), "a byte is touched"
        return code, out.raw[:made] if code == OK else written.value

    def save(self):
        """The bytes of the store's file."""
        code, needed = self.taken(LIBRARY.vollikash_store_save, 0)
        return self.taken(LIBRARY.vollikash_store_save, needed) if code == NO_ROOM else (code, needed)

    def close(self):
        LIBRARY.vollikash_store_close(self.at)


def answers(program, script, path=":memory:"):
    """What a program answers to calls."""
    ran = subprocess.run([program, path], input=b"".join(map(frame, script)), capture_output=True, check=False)
    if ran.returncode:
        raise AssertionError(f"{program}: {ran.returncode}: {ran.stderr.decode()}")
    return [answer(it) for it in frames(ran.stdout)[0]]


def file_of_rows(rows):
    """The bytes of a store's file with so many rows."""
    store = Store()
    store.open()
    for one in (DECLARE, *(insert(key, f"row {key}") for key in range(rows))):
        store.call(one)
    _, made = store.save()
    store.close()
    return made


class Stores(unittest.TestCase):
    """Stores by the shared library."""

    def setUp(self):
        self.store = Store()
        self.addCleanup(self.store.close)

    def ask(self, content):
        code, given = self.store.call(content)
        self.assertEqual(code, OK)
        return answer(given)

    def test_calls(self):
        self.assertEqual(self.store.open(), OK)
        self.assertEqual(self.store.taken(LIBRARY.vollikash_store_answer, 5), (OK, b""))
        self.assertEqual(self.ask(DECLARE), (DONE,))
        self.assertEqual(self.ask(insert(1, "x")), (DONE,))
        self.assertEqual(self.ask(insert(1, "y")), (REFUSED, 33, "t", None, (1,), None))
        self.assertEqual(self.ask(ALL), (ROWS, [(1, "x")], False))

    def test_answer_is_kept(self):
        self.store.open()
        self.ask(DECLARE)
        self.ask(insert(1, "x"))
        self.ask(call("count", TABLE))
        self.assertEqual(self.store.taken(LIBRARY.vollikash_store_answer, 3), (NO_ROOM, 9))
        for _ in range(2):
            code, given = self.store.taken(LIBRARY.vollikash_store_answer, 9)
            self.assertEqual((code, answer(given)), (OK, (NUMBER, 1)))

    def test_not_open(self):
        for _ in range(2):
            self.assertEqual(self.store.call(ALL), (NOT_OPEN, b""))
            self.assertEqual(self.store.taken(LIBRARY.vollikash_store_answer, 5), (NOT_OPEN, 0))
            self.assertEqual(self.store.save(), (NOT_OPEN, 0))
            self.store.close()
            self.assertIsNone(self.store.handle.at)
            self.store.open()
            self.store.close()

    def test_saved_store_is_read_by_sqlite_and_the_program(self):
        self.store.open()
        self.ask(DECLARE)
        self.ask(insert(1, "x"))
        code, made = self.store.save()
        self.assertEqual(code, OK)
        self.assertEqual(self.store.save(), (OK, made))
        self.ask(insert(2, "y"))
        with tempfile.TemporaryDirectory() as folder:
            path = pathlib.Path(folder) / "store"
            path.write_bytes(made)
            with contextlib.closing(sqlite3.connect(path)) as base:
                self.assertEqual(base.execute("PRAGMA integrity_check").fetchone(), ("ok",))
                self.assertEqual(base.execute("SELECT count(*) FROM rec WHERE tab = 't'").fetchone(), (1,))
            line = b"SELECT * FROM t;\n"
            ran = subprocess.run([PROGRAM, path, "shell"], input=line, capture_output=True, check=False)
            self.assertEqual(ran.stdout, b"1|'x'\n")
        self.assertEqual(self.ask(ALL), (ROWS, [(1, "x"), (2, "y")], False))

    def test_store_of_the_program_is_opened(self):
        with tempfile.TemporaryDirectory() as folder:
            path = pathlib.Path(folder) / "store"
            lines = b"CREATE TABLE t(a, b, PRIMARY KEY(a));\nINSERT INTO t VALUES(1, 'x');\n"
            subprocess.run([PROGRAM, path, "shell"], input=lines, check=True, capture_output=True)
            self.assertEqual(self.store.open(path.read_bytes()), OK)
        self.assertEqual(self.ask(ALL), (ROWS, [(1, "x")], False))

    def test_what_was_open_stays_if_a_file_is_refused(self):
        self.store.open()
        self.ask(DECLARE)
        self.ask(insert(1, "x"))
        with tempfile.TemporaryDirectory() as folder:
            path = pathlib.Path(folder) / "store"
            with contextlib.closing(sqlite3.connect(path)) as base:
                base.execute("CREATE TABLE rec(other)")
            damaged = path.read_bytes()
        self.assertEqual(self.store.open(damaged), DAMAGED_STORE)
        self.assertEqual(self.store.open(b"no database"), STORE_FAULT)
        self.assertEqual(self.ask(ALL), (ROWS, [(1, "x")], False))
        self.assertEqual(self.store.open(), OK)
        self.assertEqual(self.ask(call("tables"))[1], [])

    def test_session_outlives_a_save(self):
        self.store.open()
        for one in (DECLARE, call("open_session"), call("attach", TABLE), insert(1, "x")):
            self.ask(one)
        self.assertEqual(self.store.save()[0], OK)
        self.ask(insert(2, "y"))
        self.assertEqual(self.ask(call("is_empty")), (FLAG, False))
        self.assertEqual(self.ask(call("undo"))[:2], (REPORT, 2))
        self.assertEqual(self.ask(ALL), (ROWS, [], False))
        self.assertEqual(self.ask(call("changeset")), (CHANGESET, b""))

    def test_transaction_is_not_saved(self):
        self.store.open()
        self.ask(DECLARE)
        self.ask(call("begin"))
        self.ask(insert(1, "x"))
        self.assertEqual(self.store.save(), (TRANSACTION_OPEN, 0))
        self.assertEqual(self.ask(call("get", TABLE, row([1]))), (ROW, (1, "x")))
        self.ask(call("commit"))
        self.assertEqual(self.store.save()[0], OK)
        self.assertEqual(self.ask(call("count", TABLE)), (NUMBER, 1))

    def test_nothing_leaks(self):
        """A store that is opened and closed again and again takes no more memory."""
        made = file_of_rows(200)
        most = []
        for turn in range(60):
            self.assertEqual(self.store.open(made), OK)
            for key in range(20):
                self.ask(insert(1000 + key, "x" * 100))
            self.store.save()
            if turn % 2:
                self.store.close()
            most.append(resource.getrusage(resource.RUSAGE_SELF).ru_maxrss)
        self.assertLess(most[-1] - most[9], 1024)


class Served(unittest.TestCase):
    """Calls that are served."""

    def setUp(self):
        folder = tempfile.TemporaryDirectory()
        self.addCleanup(folder.cleanup)
        self.path = pathlib.Path(folder.name) / "store"

    def test_other_tables_are_saved(self):
        with contextlib.closing(sqlite3.connect(self.path)) as base:
            base.executescript("CREATE TABLE other(a); INSERT INTO other VALUES(7)")
        self.assertEqual(answers(SERVE, [DECLARE, insert(1, "x")], self.path), [(DONE,)] * 2)
        self.assertEqual(answers(SERVE, [ALL], self.path), [(ROWS, [(1, "x")], False)])
        with contextlib.closing(sqlite3.connect(self.path)) as base:
            self.assertEqual(base.execute("SELECT * FROM other").fetchall(), [(7,)])

    def test_stack_of_a_deep_schema(self):
        """The schema has the deepest expressions that are read, and others that are too deep. The stack has 2 MiB."""
        with contextlib.closing(sqlite3.connect(self.path)) as base:
            for terms in (*range(280, 300), 990):
                base.execute(f"CREATE TABLE t{terms}(a, CHECK(a{'+1' * terms} > 0))")
        ran = subprocess.run(
            [SERVE, self.path], input=frame(DECLARE), capture_output=True, check=False,
            preexec_fn=lambda: resource.setrlimit(resource.RLIMIT_STACK, (2 << 20, 2 << 20)),
        )
        self.assertEqual((ran.returncode, ran.stderr), (0, b""))

    def test_answers_are_those_of_the_program(self):
        wanted = answers(CALLS_PROGRAM, SCRIPT)
        for serve in (SERVE, SANITIZED):
            self.assertEqual(answers(serve, SCRIPT), wanted)

    def test_refused_memory_changes_nothing(self):
        """Each allocation of each call is refused, and the call made again."""
        self.assertEqual(answers(REFUSING, SCRIPT), answers(SERVE, SCRIPT))

    def test_stores_of_several_threads(self):
        """Each thread has its own, under the thread sanitizer."""
        self.assertEqual(subprocess.run([HERE / "out/threads"], check=False).returncode, 0)

    def test_calls_from_a_seed(self):
        for serve in (SERVE, SANITIZED):
            ran = subprocess.run(
                [TESTS / "fuzz-calls", "--seconds", "2", "--seed", "11"], capture_output=True, text=True, check=False,
                env={**os.environ, "VOLLIKASH_CALLS": str(serve)},
            )
            self.assertEqual(ran.returncode, 0, ran.stdout + ran.stderr)


class Typed(unittest.TestCase):
    """The typed calls of vollikash_store.h."""

    def test_calls(self):
        """Next to what they answer, sanitizers look for undefined behaviour, and memory is refused."""
        for program, *words in (["typed"], ["typed-sanitized"], ["typed-refusing"], ["typed-short", "short"]):
            with self.subTest(program):
                ran = subprocess.run([HERE / "out" / program, *words], capture_output=True, text=True, check=False)
                self.assertEqual((ran.returncode, ran.stderr), (0, ""))

    def test_header_alone(self):
        """The header is C99 and C++11, without a warning."""
        for compiler, standard, suffix in (("cc", "c99", "c"), ("c++", "c++11", "cc")):
            source = f'#include "{HERE / "vollikash_store.h"}"\nint main(void) {{ return VOLLIKASH_INT(0).length != 0; }}\n'
            with self.subTest(standard), tempfile.TemporaryDirectory() as folder:
                path = pathlib.Path(folder) / f"main.{suffix}"
                path.write_text(source)
                flags = ["-Wall", "-Wextra", "-Werror", "-pedantic", f"-std={standard}"]
                subprocess.run([compiler, *flags, path, "-o", f"{folder}/main"], check=True)
                subprocess.run([f"{folder}/main"], check=True)

    def test_numbers(self):
        """Each error has its name and number in the documents, and its sentence."""
        header, source = (HERE / "vollikash_store.h").read_text(), (HERE / "vollikash_store.c").read_text()
        documents = "".join((HERE.parents[1] / "docs" / name).read_text() for name in ("ERRORS.md", "CALLS.md"))
        enum = re.search(r"^enum vollikash_store_code \{(.*?)^\};", header, re.M | re.S)[1]
        numbers = re.findall(r"^    VOLLIKASH_([A-Z_]+) = (\d+),? +/\*", enum, re.M)
        self.assertGreater(len(numbers), 18)
        for name, number in numbers:
            title = "".join(word.capitalize() for word in name.split("_"))
            self.assertRegex(documents, rf"\b{number} (\| )?{title}\b")
            said = re.search(rf'{{VOLLIKASH_{name}, "(.*)"}}', source)
            self.assertLess(len(said[1]), 80)
        classes = dict(re.findall(r"case VOLLIKASH_([A-Z_]+):\n        return (\d+);", header))
        listed = dict(re.findall(r"^\| (\d+) \| \w+[^|]*\| (\d+) \|", documents, re.M))
        self.assertEqual(len(classes), 4)
        for name, number in numbers:
            self.assertEqual(classes.get(name, "1"), listed.get(number, "1"), name)


if __name__ == "__main__":
    unittest.main()

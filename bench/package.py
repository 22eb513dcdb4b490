#!/usr/bin/env python3
"""Does one thing by the Python package, or by SQLite: Python's sqlite3, or its iterator by ctypes.

usage: bench/package.py ours|sqlite WHAT PATH [ROWS]

PATH is a changeset or its JSON, or else a store and a database. Each row is inserted in a
transaction of its own, but for `insert_in_transaction` and `insert_many`.
"""

from __future__ import annotations

import collections
import contextlib
import io
import pathlib
import sqlite3
import sys
from collections.abc import Callable, Iterable, Iterator

TOP = pathlib.Path(__file__).resolve().parent.parent
sys.path[:0] = [str(TOP / "bindings/python"), str(TOP / "tests")]

import vollikash  # noqa: E402
from support import iterator  # noqa: E402


def exhaust(items: Iterable[object]) -> None:
    """Go through items, and keep none."""
    collections.deque(items, maxlen=0)


def rows(count: int) -> Iterator[tuple[int, str]]:
    """Yield rows to insert."""
    return ((key, f"row {key}") for key in range(count))


def build(path: pathlib.Path, count: int) -> None:
    """Build a changeset of the changes of another one."""
    builder = vollikash.Builder()
    for change in vollikash.changes(path.read_bytes()):
        builder.add(change)
    builder.to_bytes()


def write_json(path: pathlib.Path, count: int) -> None:
    """Write a changeset as JSON into memory."""
    vollikash.write_json(path.read_bytes(), io.StringIO())


def insert(path: pathlib.Path, count: int) -> None:
    """Insert rows into a new table of a store."""
    with vollikash.open(path) as store:
        store.create("t", ["a", "b"], key=["a"])
        for row in rows(count):
            store.insert("t", *row)


def insert_in_session(path: pathlib.Path, count: int) -> None:
    """Insert rows while a session records them."""
    with vollikash.open(path) as store:
        store.create("t", ["a", "b"], key=["a"])
        with store.session("t"):
            for row in rows(count):
                store.insert("t", *row)


def insert_in_transaction(path: pathlib.Path, count: int) -> None:
    """Insert rows one by one in one transaction."""
    with vollikash.open(path) as store:
        store.create("t", ["a", "b"], key=["a"])
        with store.transaction():
            for row in rows(count):
                store.insert("t", *row)


def insert_many(path: pathlib.Path, count: int) -> None:
    """Insert all rows by one call."""
    with vollikash.open(path) as store:
        store.create("t", ["a", "b"], key=["a"])
        store.insert_many("t", rows(count))


def read_rows(path: pathlib.Path, count: int) -> None:
    """Read all rows of a store."""
    with vollikash.open(path) as store:
        exhaust(store.rows("t"))


def get(path: pathlib.Path, count: int) -> None:
    """Read each row of a store by its key."""
    with vollikash.open(path) as store:
        for key in range(count):
            store.get("t", key)


def in_process(path: pathlib.Path) -> vollikash.Store:
    """Open the store of a file in this process, or a new one."""
    return vollikash.from_bytes(path.read_bytes() if path.exists() else b"")


def insert_in_process(path: pathlib.Path, count: int) -> None:
    """Insert rows into a new table of a store in this process."""
    with in_process(path) as store:
        store.create("t", ["a", "b"], key=["a"])
        for row in rows(count):
            store.insert("t", *row)


def read_rows_in_process(path: pathlib.Path, count: int) -> None:
    """Read all rows of a store in this process."""
    with in_process(path) as store:
        exhaust(store.rows("t"))


def get_in_process(path: pathlib.Path, count: int) -> None:
    """Read each row of a store in this process by its key."""
    with in_process(path) as store:
        for key in range(count):
            store.get("t", key)


def edit_in_process(path: pathlib.Path, count: int) -> None:
    """Fill stores of ten rows in this process, edit and undo them."""
    for _ in range(count // 10):
        with in_process(path) as store:
            store.create("t", ["a", "b"], key=["a"])
            store.insert_many("t", rows(10))
            with store.session("t") as session:
                store.update("t", {"b": "row"}, where={"a": 3})
                session.undo()


@contextlib.contextmanager
def database(path: pathlib.Path) -> Iterator[sqlite3.Connection]:
    """Open a database in which each statement is a transaction."""
    with contextlib.closing(sqlite3.connect(path, isolation_level=None)) as base:
        base.execute("PRAGMA journal_mode = WAL")
        base.execute("CREATE TABLE IF NOT EXISTS t(a PRIMARY KEY, b)")
        yield base


def sqlite_insert(path: pathlib.Path, count: int) -> None:
    """Insert the same rows into a database."""
    with database(path) as base:
        for row in rows(count):
            base.execute("INSERT INTO t VALUES(?, ?)", row)


def sqlite_insert_in_memory(path: pathlib.Path, count: int) -> None:
    """Insert the same rows into a database in memory."""
    sqlite_insert(pathlib.Path(":memory:"), count)


def sqlite_insert_in_transaction(path: pathlib.Path, count: int) -> None:
    """Insert them one by one in one transaction."""
    with database(path) as base:
        base.execute("BEGIN")
        for row in rows(count):
            base.execute("INSERT INTO t VALUES(?, ?)", row)
        base.execute("COMMIT")


def sqlite_insert_many(path: pathlib.Path, count: int) -> None:
    """Insert all of them by one call."""
    with database(path) as base:
        base.execute("BEGIN")
        base.executemany("INSERT INTO t VALUES(?, ?)", rows(count))
        base.execute("COMMIT")


def sqlite_rows(path: pathlib.Path, count: int) -> None:
    """Read all rows of a database."""
    with database(path) as base:
        exhaust(base.execute("SELECT * FROM t"))


def sqlite_get(path: pathlib.Path, count: int) -> None:
    """Read each row of a database by its key."""
    with database(path) as base:
        for key in range(count):
            base.execute("SELECT * FROM t WHERE c0 = ?", (key,)).fetchone()


WORKS: dict[tuple[str, str], Callable[[pathlib.Path, int], None]] = {
    ("ours", "changes"): lambda path, count: exhaust(vollikash.changes(path.read_bytes())),
    ("sqlite", "changes"): lambda path, count: exhaust(
        iterator.Iterator(iterator.library(), path.read_bytes())
    ),
    ("ours", "Builder"): build,
    ("ours", "write_json"): write_json,
    ("ours", "read_json"): lambda path, count: exhaust(vollikash.read_json(path.open())),
    ("ours", "insert"): insert,
    ("ours", "insert_in_session"): insert_in_session,
    ("ours", "insert_in_transaction"): insert_in_transaction,
    ("ours", "insert_many"): insert_many,
    ("ours", "rows"): read_rows,
    ("ours", "get"): get,
    ("ours", "insert_in_process"): insert_in_process,
    ("ours", "rows_in_process"): read_rows_in_process,
    ("ours", "get_in_process"): get_in_process,
    ("ours", "edit_in_process"): edit_in_process,
    ("sqlite", "insert"): sqlite_insert,
    ("sqlite", "insert_in_memory"): sqlite_insert_in_memory,
    ("sqlite", "insert_in_transaction"): sqlite_insert_in_transaction,
    ("sqlite", "insert_many"): sqlite_insert_many,
    ("sqlite", "rows"): sqlite_rows,
    ("sqlite", "get"): sqlite_get,
}

if __name__ == "__main__":
    WORKS[sys.argv[1], sys.argv[2]](pathlib.Path(sys.argv[3]), int((sys.argv[4:] or ["0"])[0]))

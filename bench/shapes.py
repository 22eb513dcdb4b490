"""The files that the bench reads: changesets, stores, databases of SQLite, scripts and JSON.

Each is made from a shape and a number of entries or rows.
"""

from __future__ import annotations

import contextlib
import itertools
import os
import pathlib
import random
import sqlite3
import struct
import sys
import traceback
from collections.abc import Callable, Iterable, Iterator
from typing import NamedTuple, Union

TOP = pathlib.Path(__file__).resolve().parent.parent
sys.path[:0] = [str(TOP / "bindings/python"), str(TOP / "tests")]

from support import stores  # noqa: E402

COUNTS = (1_000, 10_000, 100_000, 1_000_000)


class Shape(NamedTuple):
    """What the entries of a file are like. The first column is the key."""

    name: str
    counts: tuple[int, ...] = COUNTS
    columns: int = 2
    in_each: int = 0  # the rows of each table, or 0 for one table
    text: Union[str, bytes] = "hello"
    # A third of the entries are INSERTs, a third DELETEs and a third UPDATEs. Else all are INSERTs.
    is_mix: bool = True
    # The second file has UPDATEs and DELETEs of half of the keys of the first, by turns.
    is_changed: bool = False
    # The most entries that are applied: SQLite takes the square of the time to make more tables.
    most_applied: int = 1_000_000
    order: str = ""  # of the keys: in order, "shuffled" or "crafted"
    many: Callable[[int], int] = int  # the files among which so many entries are divided


MIX, TEN, WIDE, LONG = "one table", "tables of ten", "rows of a hundred", "texts of 1 kB"
INSERTS, SHUFFLED, BLOB, CRAFTED = "INSERTs only", "shuffled keys", "one blob", "crafted keys"
CHANGED = "INSERTs, then changes of them"
FILES_OF_TEN, TEN_FILES = "files of ten", "ten files"

SHAPES = (
    Shape(MIX),
    Shape(INSERTS, is_mix=False),
    Shape(SHUFFLED, order="shuffled"),
    Shape(CHANGED, is_mix=False, is_changed=True, order="shuffled"),
    Shape(TEN, in_each=10, most_applied=100_000),
    Shape(WIDE, COUNTS[:3], columns=100),
    Shape(LONG, COUNTS[:3], text="a" * 999 + "b"),
    Shape(BLOB, (1,), text=bytes(100_000_000), is_mix=False),
    Shape(CRAFTED, (2_500, 5_000), order="crafted"),
    Shape(FILES_OF_TEN, COUNTS[:3], many=lambda count: count // 10),
    Shape(TEN_FILES, many=lambda count: 10),
)


def keys_from(shape: Shape, first: int, count: int) -> list[int]:
    """Return so many keys. Crafted ones fall into one bucket of a concatenation (`cs_file_scan`)."""
    if shape.order == "crafted":
        buckets = count // 30 * 30 + 31
        return [key * buckets for key in range(count)]
    keys = list(range(first, first + count))
    if shape.order == "shuffled":
        random.Random(1).shuffle(keys)
    return keys


def tables(shape: Shape, count: int) -> Iterator[tuple[str, Iterable[int]]]:
    """Yield the name of each table with the keys of its entries or rows."""
    if not shape.in_each:
        yield "t", keys_from(shape, 0, count)
    for number in range(count // shape.in_each if shape.in_each else 0):
        yield f"t{number}", range(shape.in_each)


def others(shape: Shape) -> tuple[Union[int, str], ...]:
    """Return the values of a row after the key and the text."""
    return tuple(number if number % 2 else "hello" for number in range(shape.columns - 2))


def entry_of(shape: Shape) -> Callable[[int, int], bytes]:
    """Return what makes an entry, by the number of its operation and its key."""
    row: bytes = stores.record((shape.text, *others(shape)))
    left_out = bytes(shape.columns - 2)
    unchanged: bytes = stores.field(shape.text) + left_out
    changed: bytes = b"\x00" + stores.field(shape.text[::-1]) + left_out

    def entry(operation: int, key: int) -> bytes:
        number: bytes = stores.field(key)
        which = operation % 3
        if which < 2:
            return (b"\x12\x00", b"\x09\x00")[which] + number + row
        return b"\x17\x00" + number + unchanged + changed

    return entry


def first_file(shape: Shape, count: int) -> Iterator[bytes]:
    """Yield the parts of a changeset."""
    entry = entry_of(shape)
    for name, keys in tables(shape, count):
        yield stores.header(name, 1, *[0] * (shape.columns - 1))
        yield from (entry(key if shape.is_mix else 0, key) for key in keys)


def second_file(shape: Shape, count: int) -> Iterator[bytes]:
    """Yield the parts of a second one. In a mix half of its keys are in the first one too, in each
    pair of operations. In changes all are. Else none is.
    """
    entry = entry_of(shape)
    for number, (name, keys) in enumerate(tables(shape, count)):
        if shape.in_each:
            keys = range(shape.in_each // 2, shape.in_each // 2 + shape.in_each)
        elif shape.is_changed:
            keys = keys_from(shape, 0, count // 2)
        else:
            keys = keys_from(shape, count // 2 if shape.is_mix else count, count)
        yield stores.header(name, 1, *[0] * (shape.columns - 1))
        if shape.is_mix:
            yield from (entry(number + key // 3, key) for key in keys)
        else:
            yield from (entry(1 + key % 2 if shape.is_changed else 0, key) for key in keys)


def many_files(shape: Shape, count: int) -> Iterator[bytes]:
    """Yield files. Half of the keys of each are in the one before it too."""
    entry, files = entry_of(shape), shape.many(count)
    size = count // files
    for number in range(files):
        keys = range(number * size // 2, number * size // 2 + size)
        entries = (entry(number + key // 3, key) for key in keys)
        yield b"".join((stores.header("t", 1, 0), *entries))


def lengths(shape: Shape, count: int) -> Iterator[bytes]:
    """Yield the length of each of these files, as C has it."""
    yield from (struct.pack("N", len(file)) for file in many_files(shape, count))


def rows(shape: Shape, keys: Iterable[int], is_before: bool) -> Iterator[int]:
    """Yield the keys of all rows, or of those before the first file is applied."""
    yield from (key for key in keys if not is_before or shape.is_mix and key % 3 != 0)


def records(shape: Shape, count: int, is_before: bool) -> Iterator[tuple[str, bytes, bytes]]:
    """Yield the records of a store."""
    columns = [f"c{number}" for number in range(shape.columns)]
    declared = stores.declaration(stores.Table(columns, [True] + [False] * (shape.columns - 1), []))
    row = stores.record((shape.text, *others(shape)))
    yield stores.VERSION
    for name, keys in tables(shape, count):
        yield "", name.encode(), declared
        for key in rows(shape, keys, is_before):
            yield name, stores.field(key), stores.field(key) + row


def write_store(path: pathlib.Path, shape: Shape, count: int, is_before: bool) -> None:
    """Have SQLite write a store."""
    with contextlib.closing(sqlite3.connect(path)) as base:
        base.execute(stores.RECORDS)
        base.executemany("INSERT INTO rec VALUES(?1, ?2, ?3)", records(shape, count, is_before))
        base.commit()


def write_base(path: pathlib.Path, shape: Shape, count: int, is_before: bool) -> None:
    """Write an ordinary database with the same tables. It has a log, as a store has."""
    columns = ", ".join(f"c{number}" for number in range(1, shape.columns))
    marks = ", ".join("?" * shape.columns)
    with contextlib.closing(sqlite3.connect(path)) as base:
        base.execute(LOG)
        for name, keys in tables(shape, count):
            base.execute(f"CREATE TABLE {name}(c0 PRIMARY KEY, {columns})")
            made = ((key, shape.text, *others(shape)) for key in rows(shape, keys, is_before))
            base.executemany(f"INSERT INTO {name} VALUES({marks})", made)
        base.commit()


def edits(shape: Shape, count: int) -> Iterator[str]:
    """Yield SQL lines. In a mix two in four insert a row, one updates the first, one deletes the
    second.
    """
    if not shape.is_mix:
        yield from (f"INSERT INTO t VALUES({key}, 'hello');" for key in range(count))
        return
    for key in range(0, count // 2, 2):
        yield f"INSERT INTO t VALUES({key}, 'hello');"
        yield f"INSERT INTO t VALUES({key + 1}, 'hello');"
        yield f"UPDATE t SET b='world' WHERE a={key};"
        yield f"DELETE FROM t WHERE a={key + 1};"


LOG = "PRAGMA journal_mode = WAL"
CREATED = "CREATE TABLE t(a, b, PRIMARY KEY(a));"


def script(shape: Shape, count: int, ending: tuple[str, ...]) -> Iterator[bytes]:
    """Yield the lines of a script, in a session if it has an ending."""
    opening = [".session open", ".session attach t"] if ending else []
    lines = itertools.chain((CREATED, *opening), edits(shape, count), ending)
    yield from (line.encode() + b"\n" for line in lines)


def questions(shape: Shape, count: int, base: str, ending: tuple[str, ...]) -> Iterator[bytes]:
    """Yield the same lines as tests/sqlite.c reads them."""
    yield b"open x%s\n" % base.encode().hex().encode()
    yield from (b"do x%s\n" % line.encode().hex().encode() for line in (LOG, CREATED))
    yield b"session\n" if ending else b""
    yield from (b"do x%s\n" % line.encode().hex().encode() for line in edits(shape, count))
    yield from (line.encode() + b"\n" for line in ending)


def write_json(path: pathlib.Path, shape: Shape, count: int) -> None:
    """Write the first file as JSON."""
    import vollikash  # The library has to be built only for what needs it.

    with path.open("w") as stream:
        vollikash.write_json(b"".join(first_file(shape, count)), stream)


# The parts of each file that is made of parts. Paths of the scripts are in the folder of the bench.
PARTS: dict[str, Callable[[Shape, int], Iterable[bytes]]] = {
    "none": lambda shape, count: [],
    "file": first_file,
    "more": second_file,
    "files": many_files,
    "lengths": lengths,
    "lines": lambda shape, count: script(shape, count, ()),
    "session": lambda shape, count: script(shape, count, (".session changeset c",)),
    "undo": lambda shape, count: script(shape, count, (".session changeset c", ".session undo")),
    "asked": lambda shape, count: questions(shape, count, "base", ()),
    "asked_session": lambda shape, count: questions(shape, count, "base", ("changeset",)),
    "memory": lambda shape, count: questions(shape, count, ":memory:", ()),
    "memory_session": lambda shape, count: questions(shape, count, ":memory:", ("changeset",)),
}


# The names of all that is made. A state is a store, and a database too unless it is "opened".
STATES = ("before", "full", "opened")
MADE = {*PARTS, *STATES, "json"}


def make(name: str, shape: Shape, count: int) -> None:
    """Make a file in the current folder, or the store and the database of a state."""
    if name in STATES:
        for write, kind in ((write_store, "store"), (write_base, "base")):
            path = pathlib.Path(f"{name}.{kind}")
            path.unlink(missing_ok=True)
            if (name, kind) != ("opened", "base"):
                write(path, shape, count, name == "before")
    elif name == "json":
        write_json(pathlib.Path(name), shape, count)
    else:
        with open(name, "wb") as file:
            file.writelines(PARTS[name](shape, count))


def make_apart(names: Iterable[str], shape: Shape, count: int) -> None:
    """Make files in a process of its own, whose memory is not that of this one."""
    child = os.fork()
    if child != 0:
        if os.waitpid(child, 0)[1] != 0:
            sys.exit(f"bench/run: no files of {count} for {shape.name}")
        return
    status = 1
    try:
        for name in names:
            make(name, shape, count)
        status = 0
    except Exception:
        traceback.print_exc()
    finally:
        os._exit(status)

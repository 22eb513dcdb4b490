#!/usr/bin/env python3
"""Changesets between stores and ordinary SQLite databases, in both directions.

SQLite's library records, inverts and applies, by `sqlite.c`. If it is not there with its session
extension, these tests are skipped. Stores are those of `vollikash.open`, in memory. Keys are
numbered by `vollikash.number_keys`. The libraries have to be built first.
"""
import pathlib
import random
import sys
import tempfile
import unittest

from support import library
from support.program import TOP, main

sys.path.insert(0, str(TOP / "bindings/python"))

import vollikash  # noqa: E402

# Tables of one to three columns in the key: a name, the columns, and those of the key in column
# order.
TABLES = (
    ("t", ("a", "b"), ("a",)),
    ("last of three", ("a", "b", "c"), ("c",)),
    ("u", ("a", "b", "c"), ("a", "b")),
    ('a "quoted" name', ("a", "b", "c", "d"), ("b", "d")),
    ("v", ("a", "b", "c"), ("a", "b", "c")),
    ("w", ("a", "order", "c", "d", "e"), ("a", "c", "e")),
)

# Values that differ, also in their types alone; the few of keys meet each other.
KEYS = (0, 1, -1, "1", "", b"", b"1", "é'x", 1 << 40)
VALUES = (*KEYS, None, -(1 << 63), (1 << 63) - 1, "\U0001f600", b"\x00\xff" * 40, "long " * 30)

# How many seeds of each table are tried, with how many rows before, and how many edits.
SEEDS, ROWS, EDITS = 6, 12, 20


class Table:
    """A table of a store and of a database, and the rows that both have, by their keys."""

    def __init__(self, name, columns, key, refuses=(), values=VALUES):
        self.name, self.columns, self.key = name, columns, key
        self.refuses, self.values = refuses, values
        self.rows = {}

    def key_of(self, row):
        """The values of the key."""
        return tuple(value for column, value in zip(self.columns, row) if column in self.key)

    def conditions(self, row):
        """The key columns with their values."""
        return dict(zip(self.key, self.key_of(row)))

    def pick_row(self, maker):
        """A row that may stand there."""
        return tuple(maker.choice(KEYS if column in self.key else self.values) for column in self.columns)

    def edits(self, maker, count):
        """This many edits, as methods and arguments of a store. Each of them succeeds."""
        while count > 0:
            row, other = self.pick_row(maker), maker.choice([*self.rows.values(), None])
            if other is None and self.key_of(row) not in self.rows:
                yield "insert", row
            elif other is not None and maker.random() < 0.3:
                del self.rows[self.key_of(other)]
                yield "delete", self.conditions(other)
                row = None
            elif other is not None and self.key_of(row) in (self.key_of(other), *self.free(row)):
                del self.rows[self.key_of(other)]
                yield "update", dict(zip(self.columns, row)), self.conditions(other)
            else:
                continue
            if row is not None:
                self.rows[self.key_of(row)] = row
            count -= 1

    def free(self, row):
        """The key of a row, if none has it."""
        return [key for key in [self.key_of(row)] if key not in self.rows]


def spelled_name(name):
    """A name, as SQL has it."""
    return '"' + name.replace('"', '""') + '"'


def spelled(value):
    """A value, as SQL has it."""
    if isinstance(value, str):
        return "'" + value.replace("'", "''") + "'"
    if isinstance(value, bytes):
        return f"X'{value.hex()}'"
    return "NULL" if value is None else str(value)


def statement(name, method, *arguments):
    """The edit of a table, as SQL."""
    def assigned(values, between):
        return between.join(f"{spelled_name(column)}={spelled(value)}" for column, value in values.items())

    table = spelled_name(name)
    if method == "insert":
        return f"INSERT INTO {table} VALUES({', '.join(map(spelled, arguments[0]))})"
    if method == "delete":
        return f"DELETE FROM {table} WHERE {assigned(arguments[0], ' AND ')}"
    return f"UPDATE {table} SET {assigned(arguments[0], ', ')} WHERE {assigned(arguments[1], ' AND ')}"


def listed(row):
    """A row, as `sqlite.c` lists it."""
    def shown(value):
        if value is None:
            return b",n"
        if isinstance(value, int):
            return b",i%d" % value
        kind, content = (b",t", value.encode()) if isinstance(value, str) else (b",b", value)
        return kind + content.hex().encode()

    return b"".join(map(shown, row))


class Base:
    """An ordinary SQLite database in a file."""

    def __init__(self, asked, path):
        self.asked, self.path = asked, path

    def ask(self, *questions):
        """What SQLite's library answers, with the database open."""
        lines = [f"open x{bytes(self.path).hex()}", *questions]
        return [line.decode() for line in self.asked.answers([line.encode() for line in lines])[1:len(lines)]]

    def run(self, *statements):
        """Runs SQL, a statement at a time."""
        told = self.ask("do x" + "BEGIN".encode().hex(), *map(self.question, statements), self.question("COMMIT"))
        if set(told) != {"0"}:
            raise AssertionError(f"SQLite answers {told}")

    @staticmethod
    def question(text):
        """What asks for SQL to be run."""
        return f"do x{text.encode().hex()}"

    def record(self, *statements):
        """Runs SQL, and answers the changeset that SQLite's session records of it."""
        *told, made = self.ask("session", *map(self.question, statements), "changeset")
        if set(told) != {"0"} or not made.startswith("0 "):
            raise AssertionError(f"SQLite answers {told} and {made}")
        return bytes.fromhex(made[2:])

    def invert(self, file):
        """SQLite's inverse of a changeset."""
        (made,) = self.ask(f"invert x{file.hex()}")
        return bytes.fromhex(made[2:])

    def apply(self, file, choices="aaaa"):
        """Has SQLite apply a changeset, where each conflict ends that unless said otherwise: its
        result code, and the conflicts.
        """
        (told,) = self.ask(f"apply {choices} x{file.hex()}")
        return told

    def rows(self, name):
        """The rows of a table, as they are listed."""
        (told,) = self.ask("list x" + f"SELECT * FROM {spelled_name(name)}".encode().hex())
        return sorted(told.encode().split(b";")[1:])


class Exchange(unittest.TestCase):
    """Changesets of a store are applied by SQLite, and those of SQLite by a store."""

    APPLIED = "0 "

    @classmethod
    def setUpClass(cls):
        folder = tempfile.TemporaryDirectory()
        cls.addClassCleanup(folder.cleanup)
        cls.folder = pathlib.Path(folder.name)
        cls.library = library.Library(folder.name)

    def setUp(self):
        if not self.library.is_there:
            self.skipTest(f"SQLite's library with its session extension is not there: {self.library.why}")

    def sides(self, table, order, edits):
        """A store and a database with a table, whose key the database declares in this order, and
        the rows that edits make.
        """
        path = self.folder / "base.db"
        path.unlink(missing_ok=True)
        store, base = vollikash.open(":memory:"), Base(self.library, path)
        self.addCleanup(store.close)
        store.create(table.name, table.columns, table.key, table.refuses)
        columns = ", ".join(spelled_name(name) + " NOT NULL" * (name in table.refuses) for name in table.columns)
        key = ", ".join(map(spelled_name, order))
        base.run(f"CREATE TABLE {spelled_name(table.name)}({columns}, PRIMARY KEY({key}))",
                 *(statement(table.name, *edit) for edit in edits))
        for edit in edits:
            self.write(store, table, edit)
        self.assert_same(store, base, table)
        return store, base

    @staticmethod
    def write(store, table, edit):
        """Makes an edit of a store."""
        method, *arguments = edit
        getattr(store, method)(table.name, *(arguments[0] if method == "insert" else arguments))

    def assert_same(self, store, base, table):
        """Both have the same rows, and answers these."""
        rows = sorted(map(listed, store.rows(table.name)))
        self.assertEqual(base.rows(table.name), rows)
        return rows

    def each_case(self):
        """Each table and seed: a store and a database with the same rows, and edits of these."""
        for words in TABLES:
            for seed in range(SEEDS):
                with self.subTest(table=words[0], seed=seed):
                    maker, table = random.Random(f"{words} {seed}"), Table(*words)
                    store, base = self.sides(table, table.key, list(table.edits(maker, ROWS)))
                    yield table, store, base, list(table.edits(maker, EDITS))
                    store.close()

    def test_what_sessions_here_give(self):
        for table, store, base, edits in self.each_case():
            before = self.assert_same(store, base, table)
            with store.session(table.name) as session:
                for edit in edits:
                    self.write(store, table, edit)
                changes = session.changeset()
            numbered = vollikash.number_keys(changes)
            if len(table.key) > 1 and changes:
                # SQLite passes over the table, whose flags are not its own, and says nothing.
                self.assertNotEqual(numbered, changes)
                self.assertEqual(base.apply(changes), self.APPLIED)
                self.assertEqual(base.rows(table.name), before)
            else:
                self.assertEqual(numbered, changes)
            self.assertEqual(base.apply(numbered), self.APPLIED)
            self.assert_same(store, base, table)
            # Undone by both, each by its own inverse, which is the same.
            self.assertEqual(base.invert(numbered), vollikash.invert(numbered))
            self.assertEqual(base.apply(vollikash.number_keys(vollikash.invert(changes))), self.APPLIED)
            store.revert(numbered)
            self.assertEqual(self.assert_same(store, base, table), before)

    def test_what_sqlite_records(self):
        for table, store, base, edits in self.each_case():
            before = self.assert_same(store, base, table)
            recorded = base.record(*(statement(table.name, *edit) for edit in edits))
            self.assertEqual(vollikash.number_keys(recorded), recorded)
            with store.session(table.name) as session:
                report = store.apply(recorded)
                self.assertEqual((report.conflicts, report.skipped), ([], []))
                self.assert_same(store, base, table)
                session.undo()
            self.assertEqual(sorted(map(listed, store.rows(table.name))), before)
            store.apply(recorded)
            store.revert(recorded)
            self.assertEqual(base.apply(vollikash.invert(recorded)), self.APPLIED)
            self.assertEqual(self.assert_same(store, base, table), before)

    def test_null_where_it_is_refused(self):
        """A changeset of a table without NOT NULL is applied to one with it. Here and in SQLite the
        same entries have a conflict, which ends the apply or leaves the row. `library.py` has the
        differences for a replaced row.
        """
        conflicts = 0
        for words in TABLES:
            for seed in range(SEEDS):
                with self.subTest(table=words[0], seed=seed):
                    maker = random.Random(f"null {words} {seed}")
                    beside = [name for name in words[1] if name not in words[2]]
                    table = Table(*words, beside[seed % 2:], [value for value in VALUES if value is not None])
                    rows, other = list(table.edits(maker, ROWS)), Table(*words, values=(*VALUES, None, None))
                    self.sides(other, table.key, rows)[0].close()
                    other.rows.update(table.rows)
                    base = Base(self.library, self.folder / "base.db")
                    recorded = base.record(*(statement(table.name, *edit) for edit in other.edits(maker, EDITS)))
                    store, base = self.sides(table, table.key, rows)
                    conflicts += self.expect_same_conflicts(table, store, base, recorded)
                    store.close()
        self.assertGreater(conflicts, 0)

    def expect_same_conflicts(self, table, store, base, recorded):
        """Applies what was recorded to both, which meet as many constraint conflicts, and answers
        how many.
        """
        before = self.assert_same(store, base, table)
        with store.session(table.name) as session:
            conflicts = store.apply(recorded, constraint="omit").conflicts
            session.undo()
        self.assertEqual([it[:3] for it in conflicts], [("constraint", "omit", table.name)] * len(conflicts))
        self.assertEqual(len({it.key for it in conflicts}), len(conflicts))
        if conflicts:
            with self.assertRaisesRegex(vollikash.ConflictError, "^Abort: a conflict of the kind constraint "):
                store.apply(recorded)
            self.assertEqual(base.apply(recorded), f"{library.ABORT} 4")
            self.assertEqual(self.assert_same(store, base, table), before)
        self.assertEqual(store.apply(recorded, constraint="omit").conflicts, conflicts)
        self.assertEqual(base.apply(recorded, "aaao"), self.APPLIED + "4" * len(conflicts))
        self.assert_same(store, base, table)
        return len(conflicts)

    def test_a_key_in_another_order(self):
        """SQLite numbers a key as PRIMARY KEY(..) lists it. What it records is applied here and
        inverted as it is; with its key numbered in column order SQLite passes over it.
        """
        for words in TABLES:
            table = Table(*words)
            if len(table.key) == 1:
                continue
            with self.subTest(table=table.name):
                maker = random.Random(table.name)
                store, base = self.sides(table, table.key[::-1], list(table.edits(maker, ROWS)))
                before = self.assert_same(store, base, table)
                recorded = base.record(*(statement(table.name, *edit) for edit in table.edits(maker, EDITS)))
                store.apply(recorded)
                after = self.assert_same(store, base, table)
                inverse = vollikash.invert(recorded)
                self.assertNotEqual(vollikash.number_keys(inverse), inverse)
                self.assertEqual(base.apply(vollikash.number_keys(inverse)), self.APPLIED)
                self.assertEqual(base.rows(table.name), after)
                self.assertEqual(base.apply(inverse), self.APPLIED)
                self.assertEqual(base.rows(table.name), before)


if __name__ == "__main__":
    main()

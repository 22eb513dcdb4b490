#!/usr/bin/env python3
"""Tests of edits and reads of a store: texts, many rows, transactions, schemas, conflicts, undo and
ordinary databases. The program is the one that is built.

usage: bindings/python/test_edits.py [PROGRAM], where PROGRAM is `changeset-calls`
"""
import asyncio
import contextlib
import enum
import itertools
import os
import pathlib
import random
import sqlite3
import sys
import threading
import unittest
import unittest.mock

import transports
import vollikash
from transports import InProcess, interrupted
from vollikash import UNDEFINED, ChangesetError, ConflictError, Schema, StoreError

HERE = pathlib.Path(__file__).resolve().parent
PROGRAM = HERE.parents[1] / "crates/changeset_calls/out/changeset_calls"
sys.path.insert(0, str(HERE.parents[1] / "tests"))

from support import model, reader, stores  # noqa: E402
from support.making import Maker  # noqa: E402

# Tables of a store: the columns, those of the key, and those outside it that refuse None.
SCHEMAS = {
    "t": Schema(("a", "b"), ("a",), ()),
    "u": Schema(("a", "b", "c"), ("a", "c"), ("b",)),
    "k": Schema(("a",), ("a",), ()),
}

# The few values of made-up edits.
VALUES = (0, 1, -1, "x", "x\n", "\n", "1", b"1", None)

# How many seeds are tried, and how many edits of each.
SEEDS, EDITS = 25, 40


def made_up_edit(chance):
    """A method of a store, a table and arguments, which may be refused."""
    table = chance.choice(list(SCHEMAS))
    schema = SCHEMAS[table]
    row = dict(zip(schema.columns, (chance.choice(VALUES) for _ in schema.columns)))
    where = {name: chance.choice(VALUES[:6]) for name in schema.key}
    if chance.random() < 0.03:
        where = chance.choice(({"a": 1, "z": 1}, {"b": 1}, {**where, schema.key[0]: None}))
    method = chance.choice(("insert", "insert", "insert", "update", "update", "delete"))
    if method == "insert":
        values = tuple(row.values())
        return method, table, *(values if chance.random() < 0.95 else values[:-1])
    if method == "delete":
        return method, table, where
    names = chance.sample(schema.columns, chance.randint(1, len(schema.columns)))
    values = {name: row[name] for name in names}
    return method, table, values if chance.random() < 0.97 else {"z": "\n"}, where


def made(store, edit):
    """Makes an edit. Returns the name of the error for which it is refused, or none."""
    method, *arguments = edit
    try:
        getattr(store, method)(*arguments)
    except StoreError as error:
        return error.name
    return None


def rows_of(store):
    """The rows of each table, in no order."""
    return {table: set(store.rows(table)) for table in SCHEMAS}


class Folder(transports.Folder):
    """A folder for each test, with stores."""

    def store(self, path=None):
        """An open store with the tables, which is a new one without a path."""
        store = vollikash.open(path or self.new())
        self.addCleanup(store.close)
        for name, schema in SCHEMAS.items():
            store.create(name, *schema)
        return store

    def expect(self, name, call, *arguments):
        """Expect that a call is refused by an error of this name."""
        with self.subTest(name, arguments=arguments), self.assertRaises(StoreError) as caught:
            call(*arguments)
        self.assertEqual((caught.exception.name, type(caught.exception).__name__), (name, name))
        return caught.exception


class Texts(Folder):
    """Every text can be stored, edited and read."""

    def test_line_feeds(self):
        with self.store() as store:
            store.insert("t", "a\nb", "\n")
            store.insert("t", 1, "one\ntwo\n\nfour\n")
            store.insert("t", "zero\0", "\0\n\r\t'\"")
            store.update("t", {"b": "\n\n"}, where={"a": 1})
            store.update("t", {"b": 7}, where={"a": "a\nb"})
            store.update("t", {"a": "moved\n"}, where={"a": "zero\0"})
            store.insert("t", "gone\n", None)
            store.delete("t", where={"a": "gone\n"})
            self.assertEqual(
                set(store.rows("t")), {(1, "\n\n"), ("a\nb", 7), ("moved\n", "\0\n\r\t'\"")}
            )
            self.assertEqual(store.get("t", "a\nb"), ("a\nb", 7))

    def test_refusals(self):
        """They come in an order."""
        with self.store() as store:
            store.insert("t", 1, "\n")
            store.insert("u", 1, "\n", 2)
            self.expect("KeyTaken", store.insert, "t", 1, "x\n")
            self.expect("NoTable", store.insert, "v", "\n")
            self.expect("RowWidth", store.insert, "t", "\n")
            self.expect("NullInKey", store.insert, "t", None, "\n")
            self.expect("NotNull", store.insert, "u", 1, None, "\n")
            self.expect("NotNull", store.update, "u", {"b": None, "c": "\n"}, {"a": 1, "c": 2})
            self.expect("NoRow", store.update, "t", {"b": "\n"}, {"a": 2})
            self.expect("NoRow", store.update, "t", {"a": "\n"}, {"a": 2})
            self.expect("NoRow", store.delete, "t", {"a": "\n"})
            self.expect("UnknownColumn", store.update, "t", {"z": "\n"}, {"a": 1})
            self.expect("UnknownColumn", store.update, "t", {"b": "\n"}, {"b": 1})
            self.expect("UnknownColumn", store.delete, "t", {"a": 1, "b": "\n"})
            self.expect("NullInKey", store.update, "t", {"b": "\n"}, {"a": None})
            store.insert("t", 2, 2)
            self.expect("KeyTaken", store.update, "t", {"a": 2, "b": "\n"}, {"a": 1})
            for value in (1.5, True, 1 << 63, "\ud800", [1]):
                with self.subTest(value=value), self.assertRaises(ValueError):
                    store.insert("t", "\n", value)
            self.assertEqual(set(store.rows("t")), {(1, "\n"), (2, 2)})

    def test_session(self):
        """A session records them."""
        with self.store() as store:
            store.insert("t", 1, "before\n")
            with store.session("t") as session:
                store.insert("t", 2, "new\n")
                store.update("t", {"b": "after\n"}, where={"a": 1})
                changes = session.changeset()
                self.assertEqual(
                    [(change.op, change.old, change.new) for change in vollikash.changes(changes)],
                    [("insert", None, (2, "new\n")),
                     ("update", (1, "before\n"), (vollikash.UNDEFINED, "after\n"))],
                )
                session.undo()
            self.assertEqual(list(store.rows("t")), [(1, "before\n")])

    def test_kinds_of_integers(self):
        """An int is its number, whatever its text is."""

        class Number(int, enum.Enum):
            ONE = 1

        with self.store() as store:
            store.insert("t", Number.ONE, Number.ONE)
            store.update("t", {"b": 2}, where={"a": Number.ONE})
            store.insert_many("k", [(Number.ONE,)])
            self.assertEqual([*store.rows("t"), *store.rows("k")], [(1, 2), (1,)])

    def test_names(self):
        """Names of tables and columns may have line feeds."""
        path = self.folder / "store"
        schema = Schema(("\n", "b\n\n"), ("\n",), ("b\n\n",))
        with vollikash.open(path) as store:
            store.create("a\nb", *schema)
            with store.session("a\nb") as session:
                store.insert("a\nb", 1, "x")
                store.update("a\nb", {"b\n\n": "y\n"}, where={"\n": 1})
                self.assertEqual(list(store.rows("a\nb")), [(1, "y\n")])
                changes = session.changeset()
                session.undo()
            self.expect("TableExists", store.create, "a\nb", ["a"], ["a"])
            self.expect("NotNull", store.insert, "a\nb", 2, None)
            report = store.apply(changes)
            self.assertEqual((report.skipped, report.applied), ([], 1))
            with self.assertRaises(ConflictError) as caught:
                store.apply(changes)
            self.assertEqual(caught.exception.table, "a\nb")
            report = store.apply(changes, conflict="omit")
            self.assertEqual([conflict.table for conflict in report.conflicts], ["a\nb"])
            store.delete("a\nb", where={"\n": 1})
        with vollikash.open(path) as store:
            self.assertEqual((store.tables(), store.schema("a\nb")), (["a\nb"], schema))


class Reads(Folder):
    """Tables, schemas and single rows."""

    def test_schemas(self):
        path = self.folder / "store"
        odd = 'a "b"', ("é", "'", 'x"y'), ("'", "é"), ('x"y',)
        with self.store(path) as store:
            store.create(odd[0], odd[1], key=odd[2], refuses=(*odd[3], "'"))
        for target in (path, str(path)):
            with vollikash.open(target) as store:
                self.assertEqual(store.tables(), ['a "b"', "k", "t", "u"])
                for name, schema in SCHEMAS.items():
                    self.assertEqual(store.schema(name), schema)
                self.assertEqual(store.schema(odd[0]), (odd[1], ("é", "'"), ('x"y',)))
                self.expect("NoTable", store.schema, "v")
        with vollikash.open(self.new()) as store:
            self.assertEqual(store.tables(), [])
            store.create("b", ["x"], key=["x"])
            store.create("A", *SCHEMAS["u"])
            self.assertEqual((store.tables(), store.schema("A")), (["A", "b"], SCHEMAS["u"]))

    def test_many_columns(self):
        columns = [f"column {number}" for number in range(300)]
        with vollikash.open(self.folder / "store") as store:
            store.create("n" * 300, columns, key=columns[200:], refuses=columns[:100])
        with vollikash.open(self.folder / "store") as store:
            schema = store.schema("n" * 300)
        self.assertEqual(schema, (tuple(columns), tuple(columns[200:]), tuple(columns[:100])))

    def test_widths(self):
        """Rows of few and of many columns are read."""
        values = (0, -1, 1 << 62, None, b"", b"\0\xff", "", "'", "''", "a\nb", "|", "x|'\n'|", "NULL", "X'00'")
        with vollikash.open(self.new()) as store:
            for width in (1, 2, 63, 64, 65, 66, 130):
                columns = [f"c{place}" for place in range(width)]
                store.create(f"t{width}", columns, key=columns[:1])
                given = itertools.cycle(values)
                rows = {(key, *itertools.islice(given, width - 1)) for key in range(5)}
                store.insert_many(f"t{width}", rows)
                self.assertEqual(set(store.rows(f"t{width}")), rows)

    def test_exist_ok(self):
        with self.store(self.folder / "store") as store:
            store.insert("t", 1, 2)
        with vollikash.open(self.folder / "store") as store:
            for name, schema in SCHEMAS.items():
                store.create(name, *schema, exist_ok=True)
            store.create("u", ["a", "b", "c"], key=["c", "a"], refuses=["b", "a"], exist_ok=True)
            for columns, key, refuses in (
                (("a", "b"), ("a",), ("b",)), (("a", "b"), ("b",), ()), (("a", "c"), ("a",), ()),
                (("b", "a"), ("a",), ()), (("a",), ("a",), ()),
            ):
                with self.subTest(columns=columns), self.assertRaises(StoreError) as caught:
                    store.create("t", columns, key, refuses, exist_ok=True)
                self.assertEqual(caught.exception.name, "TableExists")
            self.expect("TableExists", store.create, "t", ["a", "b"], ["a"])
            store.create("v", ["a"], key=["a"], exist_ok=True)
            self.assertEqual(list(store.rows("t")), [(1, 2)])

    def test_get(self):
        with self.store() as store:
            store.insert("u", 1, "x", b"1")
            store.insert("u", 1, "y", "1")
            self.assertEqual(store.get("u", 1, "1"), (1, "y", "1"))
            self.assertEqual(store.get("u", 1, bytearray(b"1")), (1, "x", b"1"))
            self.assertIsNone(store.get("u", "1", 1))
            self.expect("NoTable", store.get, "v", 1)
            for key in ((1,), (1, 2, 3), ()):
                self.expect("RowWidth", store.get, "u", *key)
            for key in ((1, 1.0), (True, "1")):
                with self.subTest(key=key), self.assertRaises(ValueError):
                    store.get("u", *key)

    def test_other_files(self):
        """A file that is no store is refused as before."""
        for content in (b"", b"text" * 999):
            path = self.folder / "file"
            path.write_bytes(content)
            with contextlib.suppress(StoreError), vollikash.open(path) as store:
                self.assertEqual((content, store.tables()), (b"", []))


class Transactions(Folder):
    """Edits that are carried out together."""

    def test_block(self):
        with self.store() as store:
            store.insert("t", 1, "x")
            with store.transaction():
                store.insert("t", 2, "y\n")
                store.update("t", {"b": "z"}, where={"a": 1})
                store.insert("k", 1)
                self.assertEqual(list(store.rows("t")), [(1, "z"), (2, "y\n")])
                self.assertEqual((store.get("t", 1), store.get("t", 3)), ((1, "z"), None))
            self.assertEqual(list(store.rows("t")), [(1, "z"), (2, "y\n")])
            self.assertEqual(list(store.rows("k")), [(1,)])

    def test_exceptions(self):
        """Nothing of the block is carried out. A refused call leaves the transaction open."""
        with self.store() as store:
            for error in (KeyError, KeyboardInterrupt, SystemExit):
                with self.assertRaises(error), store.transaction():
                    store.insert("t", 1, "x")
                    raise error
            with self.assertRaises(StoreError), store.transaction():
                store.insert("t", 1, "x")
                store.insert("t", 1, "y")
            self.assertEqual(list(store.rows("t")), [])
            store.insert("t", 1, "x")
            with store.transaction():
                store.insert("t", 2, "y")
                self.expect("KeyTaken", store.insert, "t", 2, "z")
                self.expect("NoTable", store.insert, "v", 2, "z")
            self.assertEqual(list(store.rows("t")), [(1, "x"), (2, "y")])

    def test_each_block(self):
        """Edits do in a block what they do one by one."""
        refused = 0
        for seed in range(SEEDS):
            chance = random.Random(seed)
            with self.subTest(seed), self.store() as single, self.store() as block:
                for _ in range(EDITS // 10):
                    edits = [made_up_edit(chance) for _ in range(10)]
                    former, is_kept = rows_of(block), chance.random() < 0.7
                    with contextlib.suppress(KeyError), block.transaction():
                        for edit in edits:
                            wanted = made(single, edit) if is_kept else None
                            found = made(block, edit)
                            refused += found is not None
                            self.assertEqual(found, wanted if is_kept else found)
                        seen = rows_of(block)
                        if not is_kept:
                            raise KeyError
                    self.assertEqual(rows_of(block), seen if is_kept else former)
                    self.assertEqual(rows_of(block), rows_of(single))
        self.assertGreater(refused, SEEDS)

    def test_calls_of_a_block(self):
        """Each but those of sessions is part of the transaction."""
        with self.store() as store:
            with store.session("t") as session:
                store.insert("t", 1, "x")
                file = session.changeset()
            for is_kept in (False, True):
                with contextlib.suppress(KeyError), store.transaction():
                    self.assertEqual(store.revert(file).applied, 1)
                    store.create("v", ["a", "b"], key=["a"], exist_ok=True)
                    store.insert_many("v", [(1, 2), (3, 4)])
                    store.update("v", {"b": 5}, where={"a": 1})
                    store.put("v", 3, 6)
                    self.assertEqual(store.apply(file).applied, 1)
                    report = store.apply(file, on_conflict=lambda conflict: "replace")
                    self.assertEqual(report.conflicts[0].key, (1,))
                    self.assertEqual((store.count("v"), store.get("v", 1)), (2, (1, 5)))
                    self.assertEqual(store.tables(), ["k", "t", "u", "v"])
                    self.assertEqual(list(store.rows("v", after=1)), [(3, 6)])
                    with self.assertRaisesRegex(RuntimeError, "a transaction is open"), store.transaction():
                        self.fail("a block in the block")
                    for call in (lambda: store.session("t"), session.undo, store.undo_stack("t").action().__enter__):
                        with self.assertRaises((vollikash.TransactionOpen, vollikash.NoSession)):
                            call()
                    if not is_kept:
                        raise KeyError
                self.assertEqual(store.tables(), ["k", "t", "u", "v"] if is_kept else ["k", "t", "u"])
            self.assertEqual(list(store.rows("v")), [(1, 5), (3, 6)])

    def test_tables_of_a_block(self):
        """What is known of a table is not kept after a block, nor after a create."""
        with self.store() as store:
            with contextlib.suppress(KeyError), store.transaction():
                self.expect("NoTable", store.delete, "v", {"a": 1})
                store.create("v", ["a"], key=["a"])
                store.insert("v", 1)
                store.delete("v", {"a": 1})
                raise KeyError
            self.expect("NoTable", store.delete, "v", {"a": 1})
            store.create("v", ["b", "a"], key=["b"])
            self.expect("UnknownColumn", store.delete, "v", {"a": 1})

    def test_sessions_of_a_block(self):
        """A session that is open cannot be used in a block."""
        with self.store() as store, store.session("t") as session:
            with store.transaction():
                store.insert("t", 1, "x")
                for call in (
                    session.undo, session.changeset, session.is_empty, session.close, lambda: session.attach("k"),
                ):
                    self.expect("TransactionOpen", call)
            self.assertEqual(session.undo().applied, 1)

    def test_closed_in_a_block(self):
        """The transaction is rolled back."""
        path = self.folder / "store"
        store = self.store(path)
        with self.assertRaisesRegex(vollikash.ProgramError, "the store is closed"), store.transaction():
            store.insert("t", 1, "x")
            store.close()
        with self.assertRaises(KeyError), vollikash.open(path) as store, store.transaction():
            store.insert("t", 1, "x")
            store.close()
            raise KeyError
        with vollikash.open(path) as store:
            self.assertEqual(list(store.rows("t")), [])

    def answering(self, *exchanges):
        """An open store whose program answers so, each the number of a call and an answer."""
        path = self.folder / "program"
        path.write_text(f"""#!{sys.executable}
import os, sys
for number, answer in ((24, "0a00000000000000010000000004000000"), *{exchanges!r}):
    frame = sys.stdin.buffer.read(int.from_bytes(sys.stdin.buffer.read(4), "big"))
    if frame[:1] != bytes([number]):
        sys.exit(f"call {{frame.hex()}}, and not {{number}}")
    content = bytes.fromhex(answer)
    os.write(1, len(content).to_bytes(4, "big") + content)
if sys.stdin.buffer.read():
    sys.exit("another call")
""")
        path.chmod(0o755)
        with unittest.mock.patch.dict(os.environ, VOLLIKASH_CALLS=str(path)):
            store = vollikash.open(self.folder / "store")
        self.addCleanup(store.close)
        return store

    def test_ended_transactions(self):
        """An error can end a transaction, and a roll back is tried again if memory runs out."""

        def refused(number):
            return f"0b{number:016x}00000000"

        store = self.answering(
            (11, "00"), (7, refused(60)), (7, refused(97)), (12, refused(97)), (13, refused(96)), (1, "0100"),
        )
        with self.assertRaises(vollikash.TransactionEnded), store.transaction():
            with self.assertRaises(MemoryError):
                store.insert("t", 1)
            self.expect("TransactionEnded", store.insert, "t", 1)
        self.assertEqual(store.tables(), [])
        store = self.answering((11, "00"), (12, refused(60)), (13, refused(60)), (13, "00"), (1, "0100"))
        with self.assertRaises(MemoryError), store.transaction():
            pass
        self.assertEqual(store.tables(), [])
        store = self.answering((11, "00"), (7, refused(37)), (13, refused(60)), (13, refused(60)), (13, refused(60)))
        with self.assertRaises(vollikash.DamagedStore), store.transaction():
            store.insert("t", 1)
        with self.assertRaisesRegex(vollikash.ProgramError, "the store is closed"):
            store.tables()

    def test_rows_that_are_taken_back(self):
        """If rows of a block cannot be taken back, the transaction is."""
        taken = f"0b{33:016x}01017400010101{1:016x}00"
        done = (7, "00"), (7, taken), (2, "0201016103")
        store = self.answering((11, "00"), *done, (9, "00"), (12, "00"))
        with store.transaction():
            self.assertEqual(self.expect("KeyTaken", store.insert_many, "t", [(1,), (1,)]).row, 2)
        store = self.answering((11, "00"), *done, (9, f"0b{97:016x}00000000"), (13, "00"))
        with self.assertRaises(vollikash.KeyTaken), store.transaction():
            store.insert_many("t", [(1,), (1,)])
        store = self.answering((11, "00"), *done, (9, f"0b{60:016x}00000000"))
        with self.assertRaises(MemoryError), store.transaction():
            store.insert_many("t", [(1,), (1,)])
        with self.assertRaisesRegex(vollikash.ProgramError, "the store is closed"):
            store.tables()

    def test_interrupts_between_lines(self):
        """The store can be written again, also while the exception is kept."""
        file, keys = stores.header("t", 1, 0) + stores.insert(1, "y"), itertools.count(2)
        for call in (
            lambda store: store.insert_many("k", [(next(keys),)]),
            lambda store: store.apply(file, on_conflict=lambda conflict: "omit"),
        ):
            for number in itertools.count():
                with self.store() as store:
                    store.insert("t", 1, "x")
                    errors = [interrupted(lambda: call(store), vollikash.Store._let_read, number)]
                    store.insert("t", 2, "x")
                    with store.transaction():
                        errors.append(interrupted(lambda: call(store), vollikash.Store._let_read, number))
                        store.insert("t", 3, "x")
                    store.insert_many("t", [(4, "x")])
                    self.assertEqual(list(store.rows("t")), [(key, "x") for key in range(1, 5)])
                if not any(errors):
                    break
                self.assertTrue(all(errors))
            self.assertGreater(number, 2)

    def test_session(self):
        with self.store() as store, store.session("t", "k") as session:
            with store.transaction():
                store.insert("t", 1, "x")
                store.insert("k", 2)
            self.assertEqual(vollikash.stat(session.changeset()), {"t": (1, 0, 0), "k": (1, 0, 0)})
            session.undo()
            self.assertEqual(rows_of(store), {"t": set(), "k": set(), "u": set()})

    def test_threads(self):
        """Another thread waits for the end of a block."""
        with self.store() as store:
            with store.transaction():
                other = threading.Thread(target=store.insert, args=("t", 2, "other"))
                other.start()
                other.join(0.2)
                self.assertTrue(other.is_alive())
                store.insert("t", 1, "block")
            other.join(60)
            self.assertEqual(list(store.rows("t")), [(1, "block"), (2, "other")])


    def test_tasks(self):
        """Another task of the thread gets an error at once, and a thread of it waits."""

        async def block(store, begun, going):
            with store.transaction():
                store.insert("t", 1, "block")
                begun.set()
                await going.wait()
                store.insert("t", 2, "block")

        async def other(store, begun, going):
            await begun.wait()
            for call in (
                lambda: store.insert("t", 3, "x"), lambda: store.get("t", 1), lambda: store.insert_many("t", []),
                store.transaction().__enter__, lambda: store.rows("t"), lambda: store.apply(b"", on_conflict=print),
                lambda: store.session("t"), lambda: store.apply(b""),
            ):
                with self.assertRaisesRegex(RuntimeError, "another task has a transaction open"):
                    call()
            with self.assertRaises(asyncio.TimeoutError):
                waiting = asyncio.get_running_loop().run_in_executor(None, store.insert, "t", 4, "thread")
                await asyncio.wait_for(asyncio.shield(waiting), 0.2)
            going.set()
            await waiting
            store.insert("t", 3, "task")

        async def both(store):
            events = asyncio.Event(), asyncio.Event()
            await asyncio.gather(block(store, *events), other(store, *events))

        async def within(store):
            store.insert("t", 5, "loop")

        with self.store() as store:
            asyncio.run(both(store))
            rows = [(1, "block"), (2, "block"), (3, "task"), (4, "thread")]
            self.assertEqual(list(store.rows("t")), rows)
            with store.transaction():
                # A loop that runs in the block is a part of it.
                asyncio.run(within(store))
            self.assertEqual(store.get("t", 5), (5, "loop"))


class Stacks(Folder):
    """Actions that are undone and done again."""

    def test_actions(self):
        with self.store() as store:
            stack = store.undo_stack("t", "k")
            with stack.action("add"):
                store.insert("t", 1, "x\ny")
                store.insert("k", 1)
            with stack.action("change"):
                store.update("t", {"b": 2}, where={"a": 1})
            with stack.action("nothing"):
                store.update("t", {"b": 2}, where={"a": 1})
            self.assertEqual((stack.done, stack.undone), (["add", "change"], []))
            self.assertEqual((stack.undo(), stack.undo()), ("change", "add"))
            self.assertEqual((stack.can_undo, stack.can_redo), (False, True))
            self.assertEqual(rows_of(store), {"t": set(), "k": set(), "u": set()})
            self.assertEqual((stack.redo(), stack.undone), ("add", ["change"]))
            self.assertEqual(rows_of(store), {"t": {(1, "x\ny")}, "k": {(1,)}, "u": set()})
            with stack.action("other"):
                store.insert("t", 2, 2)
            self.assertEqual((stack.done, stack.undone), (["add", "other"], []))
            with self.assertRaises(IndexError):
                stack.redo()
            stack.undo()
            stack.undo()
            with self.assertRaises(IndexError):
                stack.undo()

    def test_exceptions(self):
        """What a block has done is undone. An action that has conflicts stays where it is."""
        with self.store() as store:
            stack = store.undo_stack("t")
            with self.assertRaises(KeyError), stack.action("part"):
                store.insert("t", 1, "x")
                raise KeyError
            self.assertEqual((list(store.rows("t")), stack.done), ([], []))
            with stack.action("add"):
                store.insert("t", 1, "x")
            store.update("t", {"b": "y"}, where={"a": 1})
            with self.assertRaises(ConflictError):
                stack.undo()
            self.assertEqual((stack.done, stack.undone), (["add"], []))
            store.update("t", {"b": "x"}, where={"a": 1})
            stack.undo()
            store.insert("t", 1, "z")
            with self.assertRaises(ConflictError):
                stack.redo()
            self.assertEqual((stack.done, stack.undone), ([], ["add"]))
            self.expect("NoTable", store.undo_stack("v").action("x").__enter__)

    def test_what_is_not_in_an_action(self):
        """An action is not undone in its own block, and has a text as its name."""
        with self.store() as store:
            stack = store.undo_stack("t", path=self.folder / "actions")
            with stack.action("one"):
                store.insert("t", 1, "x")
            for call in (stack.undo, stack.redo):
                with self.assertRaises(RuntimeError), stack.action("two"):
                    store.insert("t", 2, "x")
                    call()
                self.assertEqual((stack.done, stack.undone), (["one"], []))
            with self.assertRaises(ValueError), stack.action(b"two"):
                store.insert("t", 2, "x")
            self.assertEqual(list(store.rows("t")), [(1, "x")])
            self.assertEqual((stack.undo(), list(store.rows("t"))), ("one", []))

    def test_closed_sessions(self):
        """A closed session does nothing to the next one."""
        with self.store() as store:
            with store.session("t") as first:
                pass
            with store.session("t") as second:
                store.insert("t", 1, "x")
                for call in (first.undo, first.changeset, first.is_empty):
                    self.expect("NoSession", call)
                self.expect("NoSession", first.attach, "u")
                first.close()
                self.assertFalse(second.is_empty())
            self.assertEqual(list(store.rows("t")), [(1, "x")])

    def test_conflicts(self):
        """A function decides the conflicts of an undo or a redo, and what it did is undone again."""
        for choice in ("omit", "replace"):
            with self.subTest(choice), self.store() as store:
                store.insert_many("t", [(1, "x"), (2, "x")])
                stack = store.undo_stack("t")
                with stack.action("change"):
                    store.update("t", {"b": "y"}, where={"a": 1})
                    store.update("t", {"b": "y"}, where={"a": 2})
                store.update("t", {"b": "elsewhere"}, where={"a": 2})
                before = list(store.rows("t"))
                for _ in range(2):
                    with self.assertRaises(ConflictError) as caught:
                        stack.undo()
                    self.assertEqual((caught.exception.kind, caught.exception.key), ("data", (2,)))
                    self.assertEqual((stack.done, stack.undone), (["change"], []))
                self.assertEqual(stack.undo(on_conflict=lambda conflict: choice), "change")
                second = {"omit": "elsewhere", "replace": "x"}[choice]
                self.assertEqual(list(store.rows("t")), [(1, "x"), (2, second)])
                self.assertEqual((stack.done, stack.undone), ([], ["change"]))
                self.assertEqual((stack.redo(), list(store.rows("t"))), ("change", before))
                stack.undo()
                store.update("t", {"b": "again"}, where={"a": 1})
                with self.assertRaises(ConflictError) as caught:
                    stack.redo()
                self.assertEqual((caught.exception.table, caught.exception.key), ("t", (1,)))
                stack.redo(on_conflict=lambda conflict: choice)
                self.assertEqual(stack.can_undo, choice == "replace")
                if stack.can_undo:
                    stack.undo()
                self.assertEqual(list(store.rows("t")), [(1, "again"), (2, second)])

    def test_conflicts_that_leave_nothing(self):
        """An action is forgotten if nothing of it is undone. One that is refused remains."""
        with self.store() as store:
            stack = store.undo_stack("t")
            with stack.action("first"):
                store.insert("t", 1, "x")
            with stack.action("second"):
                store.update("t", {"b": "y"}, where={"a": 1})
            store.delete("t", where={"a": 1})
            for choice, error in (("abort", ConflictError), ("replace", ConflictError), ("", ValueError)):
                with self.assertRaises(error):
                    stack.undo(on_conflict=lambda conflict: choice)
                self.assertEqual((stack.done, stack.undone), (["first", "second"], []))
            self.assertEqual(stack.undo(on_conflict=lambda conflict: "omit"), "second")
            self.assertEqual((stack.done, stack.undone), (["first"], []))

    def test_forgetting(self):
        """An action is forgotten, and no row changes."""
        kept = self.folder / "actions"
        with self.store() as store:
            stack = store.undo_stack("t", path=kept)
            for key in range(3):
                with stack.action(str(key)):
                    store.insert("t", key, "x")
            store.update("t", {"b": "y"}, where={"a": 2})
            before = list(store.rows("t"))
            self.assertEqual((stack.forget_undo(), stack.done, stack.undone), ("2", ["0", "1"], []))
            self.assertEqual(list(store.rows("t")), before)
            self.assertEqual((stack.undo(), stack.undo()), ("1", "0"))
            self.assertEqual((stack.forget_redo(), stack.undone), ("0", ["1"]))
            self.assertEqual(store.undo_stack("t", path=kept).undone, ["1"])
            self.assertEqual((stack.redo(), stack.done, stack.undone), ("1", ["1"], []))
            self.assertEqual(list(store.rows("t")), [(1, "x"), (2, "y")])
            with self.assertRaisesRegex(IndexError, "nothing to redo"):
                stack.forget_redo()
            stack.forget_undo()
            with self.assertRaisesRegex(IndexError, "nothing to undo"):
                stack.forget_undo()
            for call in (stack.forget_undo, stack.forget_redo):
                with self.assertRaises(RuntimeError), stack.action():
                    call()

    def test_sessions_that_undo(self):
        """The undo of a session has no conflicts, whatever was written before it."""
        with self.store() as store, store.session("t") as session:
            store.insert("t", 1, "x")
            with store.transaction():
                store.delete("t", where={"a": 1})
                store.insert("t", 1, None)
            store.apply(stores.header("t", 1, 0) + stores.insert(1, "y"), conflict="replace")
            self.assertEqual(session.undo().applied, 1)
            self.assertEqual(list(store.rows("t")), [])

    def test_limit(self):
        with self.store() as store:
            stack = store.undo_stack("t", limit=3)
            for key in range(5):
                with stack.action(str(key)):
                    store.insert("t", key, key)
            self.assertEqual(stack.done, ["2", "3", "4"])
            for limit in (0, -1):
                with self.assertRaises(ValueError):
                    store.undo_stack("t", limit=limit)
            with self.assertRaisesRegex(ValueError, "the names of the tables"):
                store.undo_stack()

    def test_files(self):
        """The actions are kept over a restart."""
        path, kept = self.folder / "store", self.folder / "actions"
        with self.store(path) as store:
            stack = store.undo_stack("t", path=kept)
            for key in range(3):
                with stack.action(f"é {key}"):
                    store.insert("t", key, key)
            stack.undo()
        with vollikash.open(path) as store:
            stack = store.undo_stack("t", path=str(kept))
            self.assertEqual((stack.done, stack.undone), (["é 0", "é 1"], ["é 2"]))
            stack.redo()
            self.assertEqual([stack.undo() for _ in range(3)], ["é 2", "é 1", "é 0"])
            self.assertEqual(list(store.rows("t")), [])
            self.assertEqual(store.undo_stack("t", path=kept).undone, ["é 2", "é 1", "é 0"])
            self.assertEqual(sorted(os.listdir(self.folder))[:2], ["actions", "store"])
            for text in (
                "", "[]", "{}", '{"done": [["x", "00"]], "undone": []}', '{"done": [[1, ""]]}',
                '{"done": [["x", "zz"]], "undone": []}', '{"done": 1, "undone": 1}', "[" * 99999,
            ):
                kept.write_text(text)
                with self.subTest(text[:40]), self.assertRaisesRegex(ValueError, "has no actions"):
                    store.undo_stack("t", path=kept)

    def test_file_of_other_tables(self):
        path = self.folder / "actions"
        with self.store() as store:
            with store.undo_stack("t", "k", path=path).action("one"):
                store.insert("k", 1)
            self.assertEqual(store.undo_stack("k", path=path).done, ["one"])
            with self.assertRaisesRegex(ValueError, "an action is on table 'k'"):
                store.undo_stack("t", "u", path=path)

    def test_changesets_for_sqlite(self):
        with self.store() as store, store.session("u") as session:
            store.insert("u", 1, 2, 3)
            flags = [
                next(vollikash.changes(session.changeset(for_sqlite=is_wanted))).flags
                for is_wanted in (False, True)
            ]
            self.assertEqual(flags, [b"\x01\x00\x01", b"\x01\x00\x02"])


class Asking(model.Applying):
    """The model of an apply, with a choice for each conflict in turn."""

    def __init__(self, tables, chance, noop):
        super().__init__(tables, {b"noop": noop})
        self.chance = chance

    def ask(self, name, kind):
        choice = choose(self.chance, kind.decode())
        self.choices[kind] = choice.encode()
        return super().ask(name, kind)


class Naming(model.Applying):
    """The model of an apply, with the kind, the table and the key of each conflict."""

    def __init__(self, tables, choices):
        super().__init__(tables, choices)
        self.asked, self.key = [], None

    def carry_out(self, name, entry):
        marked = zip(self.tables[name].flags, entry[2][0])
        self.key = tuple(stores.take_value(field, 0)[0] for flag, field in marked if flag)
        super().carry_out(name, entry)

    def ask(self, name, kind):
        self.asked.append((kind.decode(), name.decode(), self.key))
        return super().ask(name, kind)


def choose(chance, kind):
    """A choice that mostly does not end the apply."""
    if chance.random() < 0.05:
        return chance.choice(("abort", "replace"))
    return "omit" if kind in ("notfound", "constraint") else chance.choice(("omit", "replace"))


def values_of(table):
    """The rows of a table of the model, as values."""
    return [tuple(stores.take_value(field, 0)[0] for field in row) for row in table.rows.values()]


class Conflicts(Folder):
    """Conflicts that a function decides."""

    def filled(self, tables):
        """A store with the tables of the model."""
        store = vollikash.open(self.new())
        self.addCleanup(store.close)
        for name, table in tables.items():
            columns = [column.decode() for column in table.columns]
            key = [column for column, flag in zip(columns, table.flags) if flag]
            refuses = [column for column, mark in zip(columns, table.refuses) if mark]
            store.create(name.decode(), columns, key, refuses)
            store.insert_many(name.decode(), values_of(table))
        return store

    def tables(self, maker):
        """Made-up tables of the model, with rows."""
        tables = {}
        for name, flags in maker.tables():
            refuses = [bool(flag) or maker.is_one_in(3) for flag in flags]
            columns = [b"c%d" % place for place in range(len(flags))]
            table = model.Table(columns, list(map(bool, flags)), refuses)
            for row in (tuple(maker.row(flags)) for _ in range(6)):
                if not table.has_null(row):
                    table.rows[table.key(row)] = row
            tables[name] = table
        return tables

    def test_each_file(self):
        """Reports and rows are those of the model, with another choice for each conflict."""
        maker, asked, refused = Maker(random.Random("conflicts")), 0, 0
        for number in range(8 * SEEDS):
            tables = self.tables(maker)
            file = self.file(maker, tables)
            noop = maker.pick((b"report", b"ignore"))
            with self.subTest(number), self.filled(tables) as store:
                wanted = self.wanted(tables, file, random.Random(number), noop)
                chance, conflicts = random.Random(number), []

                def decide(conflict):
                    conflicts.append(conflict)
                    return choose(chance, conflict.kind)

                self.assertEqual(self.told(store, file, decide, noop == b"ignore"), wanted)
                for name, table in tables.items():
                    self.assertEqual(set(store.rows(name.decode())), set(values_of(table)))
                asked += len(conflicts)
                refused += isinstance(wanted, str)
        self.assertGreater(asked, 100)
        self.assertGreater(refused, 5)

    def test_edits_by_the_function(self):
        """They are refused, and the apply with them."""
        with self.store() as store:
            with store.session("t") as session:
                store.insert("t", 1, "x")
                file = session.changeset()
            for call in (
                lambda: store.insert("t", 2, 3), lambda: store.insert_many("t", [(2, 3)]),
                store.transaction().__enter__, lambda: store.apply(file, conflict="replace"),
                lambda: store.session("t"),
            ):
                with self.assertRaisesRegex(RuntimeError, "can only read the store"):
                    store.apply(file, on_conflict=lambda conflict: call())

            def read(conflict):
                self.assertEqual((store.get("t", 1), list(store.rows("t"))), ((1, "x"), [(1, "x")]))
                self.assertEqual((store.count("t"), store.tables()), (1, ["k", "t", "u"]))
                self.assertEqual(store.schema("t"), SCHEMAS["t"])
                return "omit"

            store.apply(file, on_conflict=read)
            store.insert("t", 2, 3)
            self.assertEqual(set(store.rows("t")), {(1, "x"), (2, 3)})

    def file(self, maker, tables):
        """A made-up file for tables. One that has a key twice is left out."""
        while True:
            file = reader.write(maker.changeset_of(tables))
            with contextlib.suppress(reader.Fault):
                reader.Reader(file).groups()
                return file

    def wanted(self, tables, file, chance, noop):
        """What the model reports, as text, or why it refuses."""
        try:
            return Asking(tables, chance, noop).run(reader.Reader(file).groups())
        except model.Refusal as refusal:
            return refusal.line.decode()

    def told(self, store, file, decide, ignore_noop):
        """What the store reports, in the same way."""
        try:
            report = store.apply(file, on_conflict=decide, ignore_noop=ignore_noop)
        except StoreError as error:
            quoted = model.quoted((error.table or "").encode()).decode()
            detail = f"{error.kind} {quoted}" if isinstance(error, ConflictError) else error.detail
            return f"error {error.code:d} {error.name} {'' if detail is None else detail}".rstrip()
        lines = [b"warning 17 skipped " + model.quoted(name.encode()) for name in report.skipped]
        for conflict in report.conflicts:
            kind, choice, table = map(str.encode, conflict[:3])
            parts = model.NUMBERS[kind], kind, choice, model.quoted(table)
            lines.append(b"conflict %d %s %s %s" % parts)
        if report.ignored:
            lines.append(b"ignored %d" % report.ignored)
        return [*lines, b"applied %d" % report.applied]

    def test_rows(self):
        """The rows that are named are those of the model, with a choice for each kind."""
        maker, named, refused = Maker(random.Random("rows")), 0, 0
        for number in range(8 * SEEDS):
            tables = self.tables(maker)
            file, chance = reader.write(maker.changeset_of(tables)), random.Random(number)
            choices = {kind.decode(): choose(chance, kind.decode()) for kind in model.NUMBERS}
            noop = maker.pick((b"report", b"ignore"))
            spelled = {kind.encode(): choice.encode() for kind, choice in choices.items()}
            with self.subTest(number), self.filled(tables) as store:
                wanted, ended = self.ended(Naming(tables, {**spelled, b"noop": noop}), file)
                found = self.found(store.apply, file, ignore_noop=noop == b"ignore", **choices)
                self.assertEqual(found, (wanted[-1:] if ended else wanted, ended))
                for name, table in tables.items():
                    self.assertEqual(set(store.rows(name.decode())), set(values_of(table)))
                named += len(wanted)
                refused += ended is not None
        self.assertGreater(named, 100)
        self.assertGreater(refused, 5)

    def test_reverts(self):
        """The row at which a revert ends is that of the model."""
        maker, refused = Maker(random.Random("reverts")), 0
        for number in range(2 * SEEDS):
            tables = self.tables(maker)
            groups = maker.changeset_of(tables)
            file = reader.write(groups)
            with self.subTest(number), self.filled(tables) as store:
                wanted, ended = self.ended(Naming(tables, model.ABORTS), vollikash.invert(file))
                self.assertEqual(self.found(store.revert, file), (wanted, ended))
                refused += ended is not None
        self.assertGreater(refused, 5)

    def ended(self, applying, file):
        """The conflicts of the model, and the number of the error that ends it, or None."""
        try:
            applying.run(reader.Reader(file).groups())
        except model.Refusal as refusal:
            return applying.asked, int(refusal.line.split()[1])
        return applying.asked, None

    def found(self, call, *arguments, **given):
        """The conflicts of a store, and the number of the error that ends it, or None."""
        try:
            return [(it.kind, it.table, it.key) for it in call(*arguments, **given).conflicts], None
        except ConflictError as error:
            return [(error.kind, error.table, error.key)], error.code
        except StoreError as error:
            return [], error.code

    def test_what_is_asked(self):
        with self.store() as store:
            store.insert_many("t", [(1, "x"), (2, "y")])
            store.insert("u", 1, 2, 3)
            builder = vollikash.Builder()
            builder.table("t", key=[True, False])
            builder.table("u", key=[True, False, True])
            builder.insert("t", 1, "new\n")
            builder.delete("t", 3, "gone")
            builder.update("t", old=(2, "other"), new=(UNDEFINED, "z"))
            builder.update("u", old=(1, 4, 3), new=(UNDEFINED, None, UNDEFINED))
            file, asked = builder.to_bytes(), []
            choices = ["omit", "omit", "replace", "replace", "omit"]

            def decide(conflict):
                change = conflict.change
                asked.append((conflict.kind, change.table, change.key, conflict.current))
                self.assertEqual(store.get("t", 2), (2, "y"))
                return choices[len(asked) - 1]

            report = store.apply(file, on_conflict=decide)
            self.assertEqual(asked, [
                ("conflict", "t", (1,), (1, "x")), ("notfound", "t", (3,), None),
                ("data", "t", (2,), (2, "y")), ("data", "u", (1, 3), (1, 2, 3)),
                ("constraint", "u", (1, 3), (1, 2, 3)),
            ])
            self.assertEqual([conflict.choice for conflict in report.conflicts], choices)
            self.assertEqual((report.applied, list(store.rows("t"))), (1, [(1, "x"), (2, "z")]))

    def test_refusals(self):
        """Nothing is written."""
        with self.store() as store:
            store.insert("t", 1, "x")
            builder = vollikash.Builder()
            builder.table("t", key=[True, False])
            builder.insert("t", 2, "new")
            builder.insert("t", 1, "y")
            file = builder.to_bytes()
            for handler, error in (
                (lambda conflict: "abort", ConflictError), (lambda conflict: None, ValueError),
                (lambda conflict: 1 // 0, ZeroDivisionError), (lambda: "omit", TypeError),
            ):
                with self.assertRaises(error):
                    store.apply(file, on_conflict=handler)
            with self.assertRaises(ValueError):
                store.apply(file, on_conflict=lambda conflict: "omit", data="omit")
            with self.assertRaises(ChangesetError):
                store.apply(file[:-1], on_conflict=lambda conflict: "omit")
            self.assertEqual(list(store.rows("t")), [(1, "x")])

    def test_a_session(self):
        """What is looked for in a session is not recorded."""
        with self.store() as store:
            store.insert_many("t", [(1, "x"), (2, "x")])
            file = stores.header("t", 1, 0) + stores.insert(2, "y")
            with store.session("t") as session:
                report = store.apply(file, conflict="omit")
                self.assertEqual(report, ([("conflict", "omit", "t", (2,))], [], 0, 0))
                with self.assertRaises(ConflictError):
                    store.apply(file, constraint="replace")
                self.assertTrue(session.is_empty())
                store.apply(file, conflict="replace")
                self.assertEqual(len(list(vollikash.changes(session.changeset()))), 1)

    def test_a_block(self):
        """An apply that ends at a conflict leaves the transaction of a block."""
        with self.store() as store:
            file = stores.header("t", 1, 0) + stores.insert(1, "y")
            with store.transaction():
                store.insert("t", 1, "x")
                for given in ({}, {"on_conflict": lambda conflict: "abort"}, {"on_conflict": lambda conflict: 1 // 0}):
                    with self.assertRaises((ConflictError, ZeroDivisionError)):
                        store.apply(file, **given)
                store.insert("t", 2, "z")
            self.assertEqual(list(store.rows("t")), [(1, "x"), (2, "z")])

    def test_second_conflicts(self):
        """One is asked about only if the row of the first is to be replaced."""
        for first, kinds in (("omit", ["data"]), ("replace", ["data", "constraint"])):
            with self.subTest(first), self.store() as store:
                store.insert("u", 1, 2, 3)
                builder = vollikash.Builder()
                builder.table("u", key=[True, False, True])
                builder.update("u", old=(1, 4, 3), new=(UNDEFINED, None, UNDEFINED))
                asked = []

                def decide(conflict):
                    asked.append(conflict.kind)
                    return first if conflict.kind == "data" else "omit"

                report = store.apply(builder.to_bytes(), on_conflict=decide)
                self.assertEqual((asked, [conflict.kind for conflict in report.conflicts]), (kinds, kinds))
                self.assertEqual((report.applied, list(store.rows("u"))), (0, [(1, 2, 3)]))

    def test_without_the_library(self):
        """Conflicts are decided without the C library."""
        with self.store() as store, unittest.mock.patch("vollikash._files._library", side_effect=OSError):
            store.insert("t", 1, "x")
            file = stores.header("t", 1, 0) + stores.insert(1, "y")
            report = store.apply(file, on_conflict=lambda conflict: "replace")
            self.assertEqual((report.applied, store.get("t", 1)), (1, (1, "y")))

    def test_session(self):
        """What was decided is recorded."""
        with self.store() as store, store.session("t") as session:
            file = vollikash.invert(b"".join((stores.header("t", 1, 0), stores.insert(1, "x"))))
            store.apply(file, on_conflict=lambda conflict: "omit")
            self.assertTrue(session.is_empty())
            store.apply(vollikash.invert(file), on_conflict=lambda conflict: "omit")
            self.assertFalse(session.is_empty())


class Exchanges(Folder):
    """Tables of ordinary SQLite databases."""

    def database(self, *texts):
        """An ordinary database in memory, with these statements run."""
        base = sqlite3.connect(":memory:")
        self.addCleanup(base.close)
        base.executescript(";".join(texts))
        return base

    def test_there_and_back(self):
        base = self.database(
            'CREATE TABLE "a ""b"""(x TEXT, y INTEGER NOT NULL, z, PRIMARY KEY(y, x))',
            """INSERT INTO "a ""b\""" VALUES('one' || char(10), 1, x'00ff'), ('', -5, NULL)""",
        )
        with self.store() as store:
            store.load_from(base, 'a "b"')
            self.assertEqual(store.schema('a "b"'), (("x", "y", "z"), ("x", "y"), ()))
            rows = {("one\n", 1, b"\x00\xff"), ("", -5, None)}
            self.assertEqual(set(store.rows('a "b"')), rows)
            other = self.database()
            store.save_to(other, 'a "b"')
            self.assertEqual(set(other.execute('SELECT * FROM "a ""b"""')), rows)
            self.assertFalse(other.in_transaction)
            with self.assertRaises(sqlite3.IntegrityError):
                store.save_to(other, 'a "b"')
            self.expect("KeyTaken", store.load_from, base, 'a "b"')
            self.expect("NoTable", store.save_to, other, "v")

    def test_names_in_another_case(self):
        """SQLite takes names that differ in case alone for one name."""
        base = self.database("CREATE TABLE K(a, b)")
        with self.store() as store:
            store.insert("k", 1)
            with self.assertRaisesRegex(ValueError, "table 'k': the database has 'K'"):
                store.save_to(base, "k")
            store.create("c", ["a", "A"], key=["a"])
            with self.assertRaises(sqlite3.OperationalError):
                store.save_to(base, "c")
        self.assertEqual(base.execute("SELECT count(*) FROM K").fetchone(), (0,))
        self.assertFalse(base.in_transaction)

    def test_refusals(self):
        """A float is refused by row and column, and nothing is made."""
        base = self.database(
            "CREATE TABLE f(a PRIMARY KEY, b, c)", "INSERT INTO f VALUES(1, 1, 1), (2, 2, 2.5)",
            "CREATE TABLE g(a)", "CREATE TABLE n(a PRIMARY KEY)", "INSERT INTO n VALUES(NULL)",
        )
        with self.store() as store:
            with self.assertRaisesRegex(ValueError, "table 'f', row 2, column 'c': a float"):
                store.load_from(base, "f")
            with self.assertRaisesRegex(ValueError, "table 'g': it has no primary key"):
                store.load_from(base, "g")
            with self.assertRaisesRegex(ValueError, "table 'nowhere': the database has no such"):
                store.load_from(base, "nowhere")
            self.expect("NullInKey", store.load_from, base, "n")
            self.assertEqual(store.tables(), ["k", "t", "u"])
            with store.transaction():
                self.assertEqual(self.expect("NullInKey", store.load_from, base, "n").row, 1)
                self.assertEqual(store.count("n"), 0)

    def test_open_transactions(self):
        """A transaction of the database stays open, with what was done before a refusal."""
        base = self.database("CREATE TABLE own(a)")
        with self.store() as store:
            store.insert("k", 1)
            for rows in (1, 1):
                base.execute("INSERT INTO own VALUES(1)")
                with contextlib.suppress(sqlite3.IntegrityError):
                    store.save_to(base, "k")
                self.assertTrue(base.in_transaction)
                self.assertEqual(base.execute("SELECT count(*) FROM k").fetchone(), (rows,))
            base.rollback()
            self.assertEqual(base.execute("SELECT name FROM sqlite_schema").fetchall(), [("own",)])
            self.assertEqual(base.execute("SELECT count(*) FROM own").fetchone(), (0,))

    def test_many_rows(self):
        base = self.database("CREATE TABLE m(a INTEGER PRIMARY KEY, b NOT NULL)")
        rows = [(key, f"row {key}") for key in range(5000)]
        base.executemany("INSERT INTO m VALUES(?, ?)", rows)
        with self.store() as store:
            store.load_from(base, "m")
            other = self.database()
            store.save_to(other, "m")
            self.assertEqual(other.execute("SELECT * FROM m ORDER BY a").fetchall(), rows)


class Sizes(Folder):
    """Many rows, and long changesets."""

    def test_insert_many(self):
        with self.store() as store:
            count = 5000
            store.insert_many("t", ((key, f"row\n{key}") for key in range(count)))
            self.assertEqual(sum(1 for _ in store.rows("t")), count)
            with self.assertRaisesRegex(vollikash.KeyTaken, "^KeyTaken in row 2: .* the key \\(7,\\)$") as caught:
                store.insert_many("t", [(count, 1), (7, 1), (8, 1)])
            self.assertEqual((caught.exception.row, caught.exception.key), (2, (7,)))
            rows = [(key, 1) for key in range(count, 2 * count)]
            with self.assertRaises(vollikash.KeyTaken) as caught:
                store.insert_many("t", [*rows, rows[99]])
            self.assertEqual((caught.exception.row, caught.exception.key), (count + 1, (count + 99,)))
            self.assertEqual(self.expect("RowWidth", store.insert_many, "t", [(count, 1), (count + 1,)]).row, 2)
            self.assertEqual(self.expect("NoTable", store.insert_many, "v", iter(rows)).row, 1)
            self.assertEqual(self.expect("NotNull", store.insert_many, "u", [(1, None, 1)]).row, 1)
            with self.assertRaisesRegex(ValueError, "row 2: table 't', column 2: a float"):
                store.insert_many("t", [(count, 1), (count + 1, 1.5)])
            with self.assertRaisesRegex(ValueError, "row 1: table 't', column 2: UNDEFINED"):
                store.insert_many("t", [(count, UNDEFINED)])
            for row in ({"a": 1, "b": 2}, "ab", b"ab", iter((1, 2))):
                with self.assertRaisesRegex(ValueError, "row 1: .*a row has its values in order, and is no "):
                    store.insert_many("t", [row])
            for given, error in (((1 // (count - key) for key in (0, count)), ZeroDivisionError), (7, TypeError)):
                with self.assertRaises(error):
                    store.insert_many("t", given if error is TypeError else ((count, it) for it in given))
            store.insert_many("t", [])
            self.assertEqual(store.count("t"), count)

    def test_insert_many_in_a_block(self):
        """If a row is refused, none of them is inserted, and the transaction goes on."""
        with self.store() as store:
            store.insert_many("u", [(key, "x", b"\0") for key in range(10)])
            rows = [(key, "y", b"\0") for key in range(10, 700)]
            reused = ["", "", ""]

            def each(*lists):
                for row in itertools.chain(*lists):
                    reused[:] = row
                    yield reused

            with store.transaction():
                store.insert("u", 7000, "x", "")
                for given, error in (
                    ((rows, [(3, "z", b"\0")], rows), vollikash.KeyTaken), ((rows, rows[5:6]), vollikash.KeyTaken),
                    ((rows, [(1, 1)]), vollikash.RowWidth), ((rows, [(1, 1, 1.5)]), ValueError),
                    (([(7001, "", "")], [(1, "", None)], rows), vollikash.NullInKey), ((rows, [7]), TypeError),
                ):
                    with self.assertRaises(error):
                        store.insert_many("u", each(*given))
                    self.assertEqual(store.count("u"), 11)
                store.insert_many("u", each(rows))
            wanted = {(key, "x", b"\0") for key in range(10)} | {(7000, "x", "")} | set(rows)
            self.assertEqual(set(store.rows("u")), wanted)

    def test_rows_of_the_store(self):
        """Rows can come from the store itself, which has those before. Nothing else can be written."""
        with self.store() as store:
            store.insert_many("t", [(key, f"row {key}") for key in range(1200)])
            store.create("c", ["a", "b"], key=["a"])
            store.insert_many("c", store.rows("t"))
            self.assertEqual(list(store.rows("c")), list(store.rows("t")))

            def rows():
                for key in range(2000, 2600):
                    yield key, "new"
                    self.assertEqual(store.count("c"), key - 799)
                    with self.assertRaises(RuntimeError):
                        store.insert("c", key, "other")

            store.insert_many("c", rows())
            self.assertEqual(store.count("c"), 1800)

    def test_long_changesets(self):
        rows = [(key, os.urandom(1 << 20)) for key in range(20)]
        with self.store() as store:
            store.insert_many("t", rows)
            self.assertEqual(list(store.rows("t")), rows)
            builder = vollikash.Builder()
            builder.table("t", key=[True, False])
            for row in rows:
                builder.delete("t", *row)
            deletes = builder.to_bytes()
            with store.session("t") as session:
                self.assertEqual(store.apply(deletes).applied, 20)
                self.assertEqual(session.changeset(), deletes)
            with self.assertRaises(ConflictError) as caught:
                store.apply(deletes)
            error = caught.exception
            self.assertEqual((error.kind, error.table, error.key), ("notfound", "t", (0,)))
            report = store.apply(deletes, on_conflict=lambda conflict: "omit")
            self.assertEqual((len(report.conflicts), report.applied), (20, 0))
            self.assertEqual(store.apply(deletes, ignore_noop=True).ignored, 20)
            self.assertEqual(store.revert(deletes).applied, 20)
            self.assertEqual(list(store.rows("t")), rows)


class TextsInProcess(InProcess, Texts):
    """The same, in this process."""


class ReadsInProcess(InProcess, Reads):
    """The same, in this process."""


class TransactionsInProcess(InProcess, Transactions):
    """The same, in this process, but for what is done by other programs."""

    test_rows_that_are_taken_back = test_ended_transactions = None


class StacksInProcess(InProcess, Stacks):
    """The same, in this process."""


class ConflictsInProcess(InProcess, Conflicts):
    """The same, in this process."""


class ExchangesInProcess(InProcess, Exchanges):
    """The same, in this process."""


class SizesInProcess(InProcess, Sizes):
    """The same, in this process."""


if __name__ == "__main__":
    if sys.argv[1:2] and not sys.argv[1].startswith("-"):
        PROGRAM = pathlib.Path(sys.argv.pop(1)).resolve()
    os.environ["VOLLIKASH_CALLS"] = str(PROGRAM)
    unittest.main()

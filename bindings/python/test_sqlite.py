#!/usr/bin/env python3
"""Tests of ordinary tables from Python, by SQLite's own library. If that is not there with its
session extension, all but one are skipped.

usage: bindings/python/test_sqlite.py [PROGRAM]
"""
import ctypes
import os
import pathlib
import random
import sys
import tempfile
import unittest
import unittest.mock

import vollikash
from vollikash import UNDEFINED, Change, ChangesetError, ConflictError, sqlite
from vollikash.sqlite import Database, SqliteError

HERE = pathlib.Path(__file__).resolve().parent
PROGRAM = HERE.parents[1] / "crates/changeset/out/changeset"

try:
    sqlite._library()
    MISSING = ""
except SqliteError as reason:
    MISSING = str(reason)

# Whether SQLite's library has the flag that ignores no-ops.
IGNORES = not MISSING and sqlite._library().sqlite3_libversion_number() >= 3042000

# The few values of made-up rows, and how many seeds are tried.
VALUES, SEEDS = (0, 1, -1, "x", "1", b"1", "a\nb", None), 60


def opened(*statements):
    """A database in memory, with these statements run."""
    base = Database(":memory:")
    for statement in statements:
        base.execute(statement)
    return base


class Missing(unittest.TestCase):
    """A machine without what this needs."""

    def test_reasons(self):
        def library(result):
            return unittest.mock.patch.object(ctypes, "CDLL", **result)

        for result, why in (
            ({"side_effect": OSError("none")}, "there is no SQLite library: none"),
            ({"return_value": object()}, "has no session extension"),
        ):
            sqlite._library.cache_clear()
            with library(result), self.assertRaisesRegex(SqliteError, why) as caught:
                Database(":memory:")
            self.assertIsInstance(caught.exception, vollikash.Error)
        sqlite._library.cache_clear()


@unittest.skipIf(MISSING, MISSING)
class Databases(unittest.TestCase):
    """Statements and their values."""

    def test_values(self):
        values = (1, -(1 << 63), (1 << 63) - 1, 1.5, "", "é\0\n", b"", b"\0\xff", None)
        with opened("CREATE TABLE t(a, b)") as base:
            for number, value in enumerate(values):
                self.assertEqual(base.execute("INSERT INTO t VALUES(?, ?)", (number, value)), [])
            self.assertEqual(base.execute("SELECT b FROM t ORDER BY a"), [(it,) for it in values])
            self.assertEqual(base.execute("SELECT 1 WHERE 0;  "), [])
            self.assertEqual(base.execute("SELECT 1; -- a comment"), [(1,)])
            self.assertEqual(base.execute("SELECT ?", [bytearray(b"x")]), [(b"x",)])
            self.assertEqual(base.execute(" -- a comment"), [])

    def test_refusals(self):
        with opened("CREATE TABLE t(a PRIMARY KEY)", "INSERT INTO t VALUES(1)") as base:
            for statement, code in (("SELEKT", 1), ("INSERT INTO t VALUES(1)", 19)):
                with self.assertRaises(SqliteError) as caught:
                    base.execute(statement)
                self.assertEqual(caught.exception.code, code)
            for statement, parameters in (
                ("SELECT ?", ()), ("SELECT 1", (1,)), ("SELECT ?", (1 << 63,)), ("SELECT ?", ([],)),
                ("SELECT 1; SELECT 2", ()), ("SELECT 1; SELEKT", ()), ("SELECT :a", {"a": 1}),
                ("SELECT ?", "x"), ("SELECT ?", {1}), ("SELECT 1 WHERE 0\0", ()),
            ):
                with self.subTest(statement), self.assertRaises(ValueError):
                    base.execute(statement, parameters)
            for call in (Database, base.session):
                with self.assertRaises(ValueError):
                    call("a\0b")
            with self.assertRaises(SqliteError):
                Database("nowhere/at/all")
        with self.assertRaises(SqliteError):
            base.execute("SELECT 1")

    def test_a_file(self):
        with tempfile.TemporaryDirectory() as folder:
            path = pathlib.Path(folder) / "é.db"
            with Database(path) as base:
                base.execute("CREATE TABLE t(a PRIMARY KEY)")
                base.execute("INSERT INTO t VALUES('x')")
            with Database(str(path)) as base:
                self.assertEqual(base.execute("SELECT * FROM t"), [("x",)])


@unittest.skipIf(MISSING, MISSING)
class Changesets(unittest.TestCase):
    """What is recorded, and applied."""

    def test_undo(self):
        """Rows are as before after the inverse of what was recorded."""
        rows = [(1, "one", None), (2, "two\nlines", b"\0")]
        with opened("CREATE TABLE t(a INTEGER PRIMARY KEY, b TEXT, c)") as base:
            for row in rows:
                base.execute("INSERT INTO t VALUES(?, ?, ?)", row)
            with base.session("t") as session:
                self.assertTrue(session.is_empty())
                base.execute("UPDATE t SET b = 'uno' WHERE a = 1")
                base.execute("DELETE FROM t WHERE a = 2")
                base.execute("INSERT INTO t VALUES(3, 'three', 3)")
                changes = session.changeset()
                self.assertFalse(session.is_empty())
            after = base.execute("SELECT * FROM t")
            self.assertEqual(vollikash.stat(changes), {"t": (1, 1, 1)})
            base.apply(vollikash.invert(changes))
            self.assertEqual(base.execute("SELECT * FROM t"), rows)
            base.apply(changes)
            self.assertEqual(base.execute("SELECT * FROM t"), after)

    def test_sessions(self):
        with opened("CREATE TABLE t(a PRIMARY KEY)", "CREATE TABLE u(a PRIMARY KEY)") as base:
            one, each = base.session("t"), base.session()
            base.execute("INSERT INTO t VALUES(1)")
            base.execute("INSERT INTO u VALUES(1)")
            self.assertEqual(list(vollikash.stat(one.changeset())), ["t"])
            self.assertEqual(sorted(vollikash.stat(each.changeset())), ["t", "u"])
            one.close()
            one.close()
            with self.assertRaises(SqliteError):
                one.changeset()
        with self.assertRaises(SqliteError):
            each.changeset()

    def test_conflicts(self):
        """Each kind is asked for, with the change and the current row."""
        builder = vollikash.Builder()
        builder.table("t", key=[True, False])
        builder.insert("t", 1, "new")
        builder.update("t", old=(2, "other"), new=(UNDEFINED, "newer"))
        builder.delete("t", 3, None)
        builder.update("t", old=(4, 4), new=(UNDEFINED, None))
        file, asked = builder.to_bytes(), []
        with opened("CREATE TABLE t(a INTEGER PRIMARY KEY, b NOT NULL)") as base:
            for row in ((1, 0.5), (2, "two"), (4, 4)):
                base.execute("INSERT INTO t VALUES(?, ?)", row)
            with self.assertRaises(ConflictError) as caught:
                base.apply(file)
            self.assertEqual((caught.exception.kind, caught.exception.table), ("conflict", "t"))
            self.assertEqual(caught.exception.key, (1,))

            def decide(conflict):
                asked.append((conflict.kind, conflict.change.key, conflict.current))
                return "omit" if conflict.kind in ("notfound", "constraint") else "replace"

            base.apply(file, on_conflict=decide)
            self.assertEqual(asked, [
                ("conflict", (1,), (1, 0.5)), ("data", (2,), (2, "two")), ("notfound", (3,), None),
                ("constraint", (4,), None),
            ])
            self.assertEqual(
                base.execute("SELECT * FROM t"), [(1, "new"), (2, "newer"), (4, 4)]
            )

    def test_refusals(self):
        file = Change("t", "insert", False, None, (1,), b"\x01")
        builder = vollikash.Builder()
        builder.add(file)
        file = builder.to_bytes()
        with opened("CREATE TABLE t(a PRIMARY KEY)", "INSERT INTO t VALUES(1)") as base:
            for handler, error in (
                (lambda conflict: "abort", ConflictError), (lambda conflict: "other", ValueError),
                (lambda conflict: 1 // 0, ZeroDivisionError), (lambda: "omit", TypeError),
            ):
                with self.assertRaises(error):
                    base.apply(file, on_conflict=handler)
            with self.assertRaises(ChangesetError):
                base.apply(file[:-1])
            delete = vollikash.invert(file)
            base.apply(delete)
            with self.assertRaises(ConflictError) as caught:
                base.apply(delete, on_conflict=lambda conflict: "replace")
            self.assertEqual((caught.exception.name, caught.exception.kind), ("Misuse", "notfound"))

    def test_foreign_keys(self):
        with opened(
            "PRAGMA foreign_keys = ON", "CREATE TABLE p(a PRIMARY KEY)", "INSERT INTO p VALUES(1)",
            "CREATE TABLE c(a PRIMARY KEY, b REFERENCES p)", "INSERT INTO c VALUES(1, 1)",
        ) as base:
            builder = vollikash.Builder()
            builder.table("p", key=[True])
            builder.delete("p", 1)
            with self.assertRaises(ConflictError) as caught:
                base.apply(builder.to_bytes())
            self.assertEqual((caught.exception.kind, caught.exception.table), ("foreign_key", None))
            self.assertIsNone(caught.exception.key)
            self.assertEqual(base.execute("SELECT * FROM p"), [(1,)])

    def test_noops(self):
        builder = vollikash.Builder()
        builder.table("t", key=[True])
        builder.insert("t", 1)
        with opened("CREATE TABLE t(a PRIMARY KEY)", "INSERT INTO t VALUES(1)") as base:
            if IGNORES:
                base.apply(builder.to_bytes(), ignore_noop=True)
            else:
                with self.assertRaisesRegex(SqliteError, "3.42"):
                    base.apply(builder.to_bytes(), ignore_noop=True)


@unittest.skipIf(MISSING, MISSING)
class Stores(unittest.TestCase):
    """Stores and ordinary tables ask for the same decisions, and have the same rows."""

    def test_decisions(self):
        self.assertGreater(self.compare(False)[0], SEEDS)

    @unittest.skipUnless(IGNORES, "SQLite ignores no-ops from 3.42 on")
    def test_noops(self):
        """SQLite's flag ignores what a store ignores, and a DELETE whose row differs."""
        asked, ignored = self.compare(True)
        self.assertGreater(min(asked, ignored), SEEDS // 2)

    def compare(self, ignore_noop):
        """Compare decisions and rows. Return how much was asked, and how many changes were ignored."""
        asked_of_all = ignored_of_all = 0
        for seed in range(SEEDS):
            chance = random.Random(seed)
            rows = {(key, chance.choice(VALUES[:5])): (chance.choice(VALUES),) for key in range(4)}
            rows = [key + rest for key, rest in rows.items()]
            file = self.changeset(chance, rows)
            with self.subTest(seed), opened(
                "CREATE TABLE t(a, b, c, PRIMARY KEY(a, b))"
            ) as base, vollikash.open(":memory:") as store:
                store.create("t", ["a", "b", "c"], key=["a", "b"])
                store.insert_many("t", rows)
                for row in rows:
                    base.execute("INSERT INTO t VALUES(?, ?, ?)", row)
                ours, ignored = self.asked(store, file, seed, ignore_noop)
                numbered = vollikash.number_keys(file)
                self.assertEqual(self.asked(base, numbered, seed, ignore_noop)[0], ours)
                self.assertEqual(set(base.execute("SELECT * FROM t")), set(store.rows("t")))
                asked_of_all += len(ours)
                ignored_of_all += ignored
        return asked_of_all, ignored_of_all

    def changeset(self, chance, rows):
        """A made-up changeset. Most of its keys are those of rows."""
        builder = vollikash.Builder()
        builder.table("t", key=[True, True, False])
        for key in chance.sample(range(6), 5):
            row = rows[key] if key < len(rows) else (key, "new", chance.choice(VALUES))
            old = row[:2] + (row[2] if chance.random() < 0.5 else chance.choice(VALUES),)
            new = (UNDEFINED, UNDEFINED, chance.choice(VALUES))
            op = chance.choice(("insert", "update", "delete"))
            if op == "update" and new[2] != old[2]:
                builder.update("t", old=old, new=new)
            elif op != "update":
                getattr(builder, op)("t", *old)
        return builder.to_bytes()

    def asked(self, target, file, seed, ignore_noop):
        """What is asked of a function that decides by chance, and how the apply ends; and how many
        changes a store ignores.
        """
        chance, asked, report = random.Random(seed), [], None

        def decide(conflict):
            change = conflict.change
            if ignore_noop and (conflict.kind, change.op) == ("data", "delete"):
                self.assertIsInstance(target, vollikash.Store)
                return "omit"
            asked.append((conflict.kind, change.op, change.key, change.old, change.new))
            asked.append(conflict.current if conflict.kind in ("data", "conflict") else None)
            choices = ("omit",) if conflict.kind == "notfound" else ("omit", "replace", "replace")
            return "abort" if chance.random() < 0.03 else chance.choice(choices)

        try:
            report = target.apply(file, on_conflict=decide, ignore_noop=ignore_noop)
        except ConflictError as error:
            asked.append((str(error), error.key))
        return asked, report.ignored if report else 0


if __name__ == "__main__":
    if sys.argv[1:2] and not sys.argv[1].startswith("-"):
        PROGRAM = pathlib.Path(sys.argv.pop(1)).resolve()
    os.environ.setdefault("VOLLIKASH_PROGRAM", str(PROGRAM))
    unittest.main()

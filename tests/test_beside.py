#!/usr/bin/env python3
"""Stores next to other tables, indexes, views and triggers of a database.

Python's own sqlite3 makes the databases. The program answers each script as on a store in a file of
its own. SQLite finds each file whole, and everything next to the records as before. A database that
cannot be a store is refused, and stays as it is. The program has to be built first.
"""
import contextlib
import errno
import os
import pathlib
import resource
import sqlite3
import sys
import tempfile
import timeit

from support.faults import DISK, MarkedScript
from support.power import Disk, Recording, Run, Story, files_of, make_files, opened_again, tried
from support.program import PROGRAM, TOP, TRIES_ALL, main
from support.programs import DAMAGED_STORE, StoreTest, tables_of
from support.samples import CREATE, CREATE_N, INSERT, N, STORE_FAULT, T, UPDATE
from support.shell import Shell
from support.stores import (
    FORMER, RECORDS, VERSION, expect_whole, header, insert, read_records, records_of, run_sql,
)
from support.trials import build_shim

sys.path.insert(0, str(TOP / "bindings/python"))

import vollikash  # noqa: E402

os.environ["VOLLIKASH_PROGRAM"] = str(PROGRAM)

# A table of a database, with what belongs to it, and another table. Stores have a table `own`, too.
OWN = "CREATE TABLE own(a INTEGER PRIMARY KEY, b)"
ROWS = "INSERT INTO own(a, b) VALUES(1, 'one'), (2, X'0002'), (3, 3.5), (4, NULL)"
INDEX = "CREATE INDEX own_b ON own(b)"
TRIGGER = "CREATE TRIGGER own_t AFTER INSERT ON own BEGIN DELETE FROM rec; END"
VIEW, VIEW_INSERT = "CREATE VIEW own_v AS SELECT b FROM own", "INSTEAD OF INSERT ON own_v"
CHILD = "CREATE TABLE child(a REFERENCES own ON DELETE CASCADE)"
SELF = OWN.replace("b)", "b REFERENCES own)")
LATE = ["CREATE TABLE late(a, b)", "INSERT INTO late VALUES(1, 2)"]

# One row and two rows of that table, an index that lists rows in another order than BINARY, and one
# without case.
ONE, TWO = "INSERT INTO own VALUES(1, 'a')", "INSERT INTO own VALUES(1, 'a'), (2, 'B')"
DESCENDING, NOCASE = (f"CREATE INDEX own_d ON own(b {how})" for how in ("DESC", "COLLATE NOCASE"))

# A table of many columns, and indexes on so many of them, the last in an order of its own.
COLUMNS = [f"c{number}" for number in range(64)]
WIDE = f"CREATE TABLE own({', '.join(COLUMNS)})"
LONG = {
    (count, how): f"CREATE INDEX own_i ON own({', '.join(COLUMNS[:count])} {how})"
    for count in (21, 22, 23) for how in ("DESC", "COLLATE NOCASE")
}

# A table that has a default in a column that was added to its rows.
ADDED = [OWN, ROWS, "ALTER TABLE own ADD COLUMN c DEFAULT 7"]

# A table with a name that has a word of SQL in it.
PREFERENCES = "CREATE TABLE preferences(k TEXT PRIMARY KEY, v)"

# What is next to a store: texts that are run before it is made, after it, and in part before it.
OTHERS = {
    "a table with an index": [OWN, ROWS, INDEX],
    "indexes of several forms": [
        "CREATE TABLE own(a, b TEXT COLLATE NOCASE, c, UNIQUE(a, b))",
        "INSERT INTO own VALUES(1, 'x', 2), (1, 'Y', 1), (2, 'y', NULL)",
        "CREATE INDEX own_b ON own(b DESC, c)", "CREATE UNIQUE INDEX own_c ON own(c)",
    ],
    "two tables": ["CREATE TABLE aaa(a)", "CREATE TABLE zzz(z)", "INSERT INTO zzz VALUES('z')"],
    "foreign keys": [
        OWN, CHILD, "CREATE TABLE tree(a INTEGER PRIMARY KEY, up REFERENCES tree(a))", ROWS,
        "INSERT INTO child VALUES(2), (NULL), (2)", "INSERT INTO tree VALUES(1, 2), (2, 2)",
    ],
    "statistics": [OWN, ROWS, INDEX, "ANALYZE"],
    "statistics alone": ["ANALYZE"],
    "PRAGMA optimize": [OWN, INDEX, ROWS, "SELECT a FROM own WHERE b = 'one'", "PRAGMA optimize"],
    "VACUUM": [OWN, ROWS, "DELETE FROM own WHERE a = 2", "VACUUM"],
    "REINDEX": [OWN, INDEX, ROWS, "REINDEX"],
    "a table that was dropped": [OWN, ROWS, *LATE, "DROP TABLE own"],
    "WITHOUT ROWID": ["CREATE TABLE own(a TEXT PRIMARY KEY, b) WITHOUT ROWID", ROWS],
    "AUTOINCREMENT": [OWN.replace("KEY", "KEY AUTOINCREMENT"), ROWS, "DELETE FROM own WHERE a > 3"],
    "STRICT": [OWN.replace("b)", "b ANY) STRICT"), ROWS],
    "generated columns": [OWN[:-1] + ", c AS (a), d AS (-a) STORED)", ROWS],
    "CHECK and DEFAULT": [OWN[:-1] + " CHECK(a > 0), c DEFAULT 'x', d DEFAULT CURRENT_TIME)", ROWS],
    "values of each kind": [
        "CREATE TABLE own(a INTEGER, b TEXT, c REAL, d BLOB, e NUMERIC, f)",
        "INSERT INTO own VALUES(1, 2, 3, 4, 5, 6), ('a', 'b', 'c', 'd', 'e', 'f')",
        "INSERT INTO own VALUES(1.5, '', -0.0, zeroblob(20000), 9e999, char(233, 0, 128512))",
        "INSERT INTO own VALUES(1 << 63, X'00ff', 1e-300, NULL, '1e3', hex(zeroblob(9000)))",
    ],
    "a column that was added": [OWN, ROWS, "ALTER TABLE own ADD COLUMN c"],
    "a column that was added with a default, and set": [*ADDED, "UPDATE own SET c = c"],
    "views": [OWN, ROWS, VIEW, "CREATE VIEW one AS SELECT 1", "CREATE VIEW r AS SELECT * FROM rec"],
    "views of several forms": [
        OWN, ROWS, "CREATE VIEW pairs AS SELECT x.a FROM own AS x LEFT JOIN own AS y ON x.a = y.b",
        "CREATE VIEW counts AS WITH w AS (SELECT b FROM own) SELECT count(*) AS c FROM w",
        "CREATE VIEW groups AS SELECT b, max(a) AS m FROM own GROUP BY b HAVING m > 1",
        "CREATE VIEW found AS SELECT a FROM own WHERE b LIKE 'o%' OR a IN (SELECT b FROM own)",
    ],
    "triggers": [OWN, ROWS, INDEX, TRIGGER, TRIGGER.replace("own_t AFTER", "own_u BEFORE")],
    "a trigger and a descending index of one row": [OWN, ONE, DESCENDING, TRIGGER],
    "a trigger and an index without case of one row": [OWN, ONE, NOCASE, TRIGGER],
    "a trigger and two rows in the order of both": [OWN, TWO.replace("B", "b"), NOCASE, TRIGGER],
    "a partial index": [OWN, ROWS, INDEX + " WHERE a > 1"],
    "an index on an expression": [OWN, ROWS, "CREATE INDEX own_e ON own(a + 1)"],
    "a REAL column after the 63rd": [
        WIDE.replace(")", " REAL)"), "INSERT INTO own(c0, c63) VALUES(1, 1), (2, 1.5)",
    ],
    "an index that descends in its 22nd column": [WIDE, LONG[22, "DESC"]],
    "an index without case in its 21st column": [WIDE, LONG[21, "COLLATE NOCASE"]],
    "a word in a name": [PREFERENCES, "INSERT INTO preferences VALUES('k', 'v')"],
    "a word in a trigger": [OWN, ROWS, TRIGGER.replace("DELETE FROM rec", "SELECT 'references'")],
    "similar names": ['CREATE TABLE "Rec2"(rec)', "CREATE TABLE record(a)", "CREATE TABLE rec_(a)"],
    "names in quotes": ['CREATE TABLE "a ""b"""("order"/**/)', 'INSERT INTO "a ""b""" VALUES(1)'],
    "fields of the header": ["PRAGMA user_version = 77", "PRAGMA application_id = 99"],
    "small pages": ["PRAGMA page_size = 512", OWN, ROWS],
    "a log": ["PRAGMA journal_mode = WAL", OWN, ROWS],
    "a journal without a header": ["PRAGMA journal_mode = PERSIST", OWN, ROWS],
    "a journal without a byte": ["PRAGMA journal_mode = TRUNCATE", OWN, ROWS],
    "sixty tables": [f"CREATE TABLE own{number}(a, b)" for number in range(60)],
    "an index on the records": ["CREATE INDEX i ON rec(rowb)"],
    "a unique index on the records": ["CREATE UNIQUE INDEX i ON rec(rowb DESC, keyb, tab)"],
    "statistics of the records": [OWN, ROWS, INDEX, "CREATE INDEX i ON rec(keyb, rowb)", "ANALYZE"],
}

# What a view may not have, and the first SQLite that has it.
VIEWS = {
    "a window": "SELECT sum(a) OVER () AS s FROM own",
    "FILTER": "SELECT count(*) FILTER (WHERE a > 1) AS c FROM own",
    "FULL JOIN": "SELECT x.a FROM own AS x FULL JOIN own AS y ON x.a = y.b",
    "NATURAL JOIN": "SELECT x.a FROM own AS x NATURAL JOIN own AS y",
    "->>": "SELECT b ->> '$.a' AS c FROM own",
    "ESCAPE": "SELECT a FROM own WHERE b LIKE 'o!%' ESCAPE '!'",
    "REGEXP": "SELECT a FROM own WHERE b REGEXP 'o'",
    "a row value": "SELECT a FROM own WHERE (a, b) = (1, 'one')",
    "a bare VALUES": "VALUES(1)",
    "a table function": "SELECT name FROM pragma_table_info('own')",
    "MATERIALIZED": "WITH w AS MATERIALIZED (SELECT a FROM own) SELECT a FROM w",
}
SINCE = {"a view with FULL JOIN": (3, 39), "a view with ->>": (3, 38)}

# Databases that are refused as StoreFault, with the table of records and without it.
REFUSED = {
    **{f"a view with {what}": [OWN, f"CREATE VIEW v AS {text}"] for what, text in VIEWS.items()},
    "a trigger on a view": [OWN, VIEW, TRIGGER.replace("AFTER INSERT ON own", VIEW_INSERT)],
    "a trigger with the name of its table": [OWN, ROWS, TRIGGER.replace("own_t", "own")],
    "a trigger with the name of another table": [*LATE, OWN, TRIGGER.replace("own_t", "Late")],
    "a trigger with the name of a view": [OWN, VIEW, TRIGGER.replace("own_t", "own_v")],
    "a trigger with the name of an index": [OWN, INDEX, TRIGGER.replace("own_t", "own_b")],
    "auto-vacuum": ["PRAGMA auto_vacuum = FULL", OWN, ROWS],
    "incremental auto-vacuum": ["PRAGMA auto_vacuum = INCREMENTAL", OWN, ROWS],
    "UTF-16": ["PRAGMA encoding = 'UTF-16'", OWN, ROWS],
    "a row that breaks a foreign key": [OWN, CHILD, "INSERT INTO child VALUES(7)"],
    "a trigger and a foreign key": [SELF, TRIGGER],
    "a generated column and a foreign key": [SELF[:-1] + ", c AS (a))"],
    "a partial index and a foreign key": [SELF, INDEX + " WHERE a > 1"],
    "an index on an expression and a foreign key": [SELF, "CREATE INDEX own_e ON own(a + 1)"],
    "WITHOUT ROWID and a foreign key": [SELF.replace("INTEGER", "TEXT") + " WITHOUT ROWID"],
    "WITHOUT ROWID and a word in a name": [PREFERENCES + " WITHOUT ROWID"],
    "a trigger and a word in a name": [PREFERENCES, TRIGGER.replace("ON own", "ON preferences")],
    "a trigger and a word in a text": [OWN.replace("b)", "b DEFAULT 'References')"), TRIGGER],
    "a trigger and a word in a comment": [OWN.replace("b)", "b /* REFERENCES own */)"), TRIGGER],
    "a trigger and a row that refers": [OWN, ROWS, CHILD, "INSERT INTO child VALUES(2)", TRIGGER],
    "a trigger and a descending index of two rows": [OWN, TWO, DESCENDING, TRIGGER],
    "a trigger and an index without case of two rows": [OWN, TWO, NOCASE, TRIGGER],
    "a column that was added with a default": ADDED,
    "an index that descends in its 23rd column": [WIDE, LONG[23, "DESC"]],
    "an index without case in its 22nd column": [WIDE, LONG[22, "COLLATE NOCASE"]],
    "an FTS5 table": [OWN, "CREATE VIRTUAL TABLE f USING fts5(a)", "INSERT INTO f VALUES('words')"],
}

# Databases with a row that breaks a constraint of its table.
WRITABLE = "PRAGMA writable_schema = ON"
BROKEN = {
    "CHECK": [
        OWN[:-1] + " CHECK(b > 0))", "PRAGMA ignore_check_constraints = ON",
        "INSERT INTO own VALUES(1, -1)",
    ],
    "NOT NULL": [
        OWN, ROWS, WRITABLE, "UPDATE sqlite_schema SET sql = replace(sql, 'b)', 'b NOT NULL)')",
    ],
    "STRICT": [
        OWN.replace("b)", "b TEXT)"), "INSERT INTO own VALUES(1, X'00')", WRITABLE,
        "UPDATE sqlite_schema SET sql = sql || ' STRICT'",
    ],
}

# A store without tables, and what has the name `rec` and is not the table of records of a store.
RECORD = "INSERT INTO rec VALUES('', X'', X'02')"
STORE = [RECORDS, RECORD]
DAMAGED = {
    "another column": [RECORDS.replace(", PRIMARY", ", more BLOB, PRIMARY")],
    "a column that takes NULL": [RECORDS.replace("rowb BLOB NOT NULL", "rowb BLOB"), RECORD],
    "no STRICT": [RECORDS.replace(" STRICT", ""), RECORD],
    "another key": [RECORDS.replace("KEY(tab, keyb)", "KEY(keyb, tab)"), RECORD],
    "another case": [RECORDS.replace("rec(", "REC("), RECORD],
    "a view": ["CREATE VIEW rec AS SELECT '' AS tab, X'' AS keyb, X'02' AS rowb"],
    "a row of no table": [*STORE, "INSERT INTO rec VALUES('none', X'05', X'05')"],
}
UNREADABLE = {
    "WITHOUT ROWID": [RECORDS + ", WITHOUT ROWID", RECORD],
    "a generated column": [RECORDS.replace(", PRIMARY", ", more BLOB AS (keyb), PRIMARY")],
    "names without case": [*STORE, "CREATE UNIQUE INDEX i ON rec(tab COLLATE NOCASE, keyb)"],
    "a trigger": [*STORE, TRIGGER.replace("ON own", "ON rec")],
    "a partial index": [*STORE, "CREATE INDEX i ON rec(rowb) WHERE tab = 't'"],
    "an index on an expression": [*STORE, "CREATE INDEX i ON rec(length(rowb))"],
    "an index of the name": [OWN, INDEX.replace("own_b", "rec")],
    "a trigger of the name": [OWN, TRIGGER.replace("own_t", "rec")],
}

# The text of the table of records, spelled in other ways.
SPELLED = {
    "without IF NOT EXISTS": RECORDS.replace("IF NOT EXISTS ", ""),
    "blanks": RECORDS.replace(", ", " ,\n\t").replace("(", " ( ").replace(")", " ) "),
    "comments": RECORDS.replace("(", "/* the records */(").replace(", ", ", -- a column\n"),
    "quotes": RECORDS.replace("rec(", "'rec'(").replace("tab", '"tab"').replace("keyb", "[keyb]"),
    "another case of keywords": RECORDS.replace("TEXT", "text").replace("STRICT", "Strict"),
}

# Tables that refer to the records.
REFERS = "CREATE TABLE child(a TEXT, b BLOB, FOREIGN KEY(a, b) REFERENCES rec(tab, keyb))"
REFERRING = {
    "no row": [REFERS],
    "no columns": [REFERS.replace("rec(tab, keyb)", "rec")],
    "another case": [REFERS.replace("rec(", "Rec(")],
    "cascade": [REFERS[:-1] + " ON DELETE CASCADE)"],
    "a row that refers to none": [REFERS, "INSERT INTO child VALUES(NULL, X'01')"],
    "a row": [REFERS, "INSERT INTO child VALUES('', X'')"],
}

# The lines that make a store, read it, edit it, and are refused.
MAKE = [
    CREATE, CREATE_N, "INSERT INTO t VALUES(1, 'x');", "INSERT INTO t VALUES(2, X'00ff');",
    "INSERT INTO n VALUES(1, 'n');",
]
READ = ["SELECT * FROM t;", "SELECT * FROM n;"]
EDIT = [
    "INSERT INTO t VALUES(3, NULL);", "UPDATE t SET a=4, b='four' WHERE a=2;",
    "DELETE FROM t WHERE a=3;", f".load u {UPDATE.hex()}", ".apply u", *READ,
    ".session open", ".session attach t", ".session attach n", "INSERT INTO t VALUES(5, 'five');",
    "UPDATE n SET b=7 WHERE a=1;", "DELETE FROM t WHERE a=4;", ".session changeset c", ".hex c",
    ".session undo", *READ, ".apply c", ".session isempty", ".session close", *READ,
    ".revert c", ".revert u", *READ, ".apply c", "CREATE TABLE own(a, PRIMARY KEY(a));",
    "INSERT INTO own VALUES('in the store');", "CREATE TABLE rec(tab, keyb, PRIMARY KEY(keyb));",
    "INSERT INTO rec VALUES('t', X'00');", "SELECT * FROM own;", "SELECT * FROM rec;",
]
FAIL = [
    "INSERT INTO t VALUES(1, 'x');", "INSERT INTO n VALUES(2, NULL);", "DROP TABLE own;", CREATE,
    f".load i {INSERT.hex()}", ".apply i", "DELETE FROM t WHERE a=99;", "SELECT * FROM aaa;",
]

# A changeset of a row of `t`, of `own`, and of a table that no store has.
CHANGESET = T + insert(6, "six") + header("own", 1) + insert("new") + header("aaa", 1) + insert(1)

# The runs on a store, each with its words, its lines and its exit status. The first makes it.
SHELL, APPLY = ["store", "shell"], ["a.cs", "apply", "store"]
RUNS = (
    (SHELL, MAKE, 0), (SHELL, [], 0), (SHELL, READ, 0), (SHELL, EDIT, 0), (SHELL, FAIL, 1),
    (APPLY, [], 0), (APPLY, [], 1), (["--conflict", "replace", *APPLY], [], 0), (SHELL, READ, 0),
)

# The lines of a run that is cut, and how many files are tried of it, and opened by the program.
CUT_LINES = [
    "INSERT INTO t VALUES(2, X'00ff');", ".session open", ".session attach t",
    "UPDATE t SET b='y' WHERE a=1;", "DELETE FROM t WHERE a=2;", ".session undo",
    "SELECT * FROM t;", f".load a {INSERT.hex()}", ".apply a conflict=replace", ".revert a",
]
CUTS, OPENED = (1_000_000, 1_000_000) if TRIES_ALL else (150, 30)

# How many rows another table has in two stores, and which multiple of what a row costs SQLite's check
# it may cost an opening.
OWN_ROWS, MULTIPLE = {"few": 20_000, "many": 100_000}, 5

# Whether SQLite has FTS5, and what is compared of the header of a file.
with contextlib.closing(sqlite3.connect(":memory:")) as base:
    HAS_FTS5 = ("ENABLE_FTS5",) in base.execute("PRAGMA compile_options").fetchall()
FIELDS = ("user_version", "application_id", "page_size", "encoding", "auto_vacuum")


def run_texts(path, texts):
    """Has SQLite run texts on a file, each in a transaction of its own."""
    with contextlib.closing(sqlite3.connect(path, isolation_level=None)) as base:
        for text in texts:
            base.execute(text).fetchall()


def processor_time():
    """The processor time that this process and those that it ran took, in seconds."""
    used = map(resource.getrusage, (resource.RUSAGE_SELF, resource.RUSAGE_CHILDREN))
    return sum(one.ru_utime + one.ru_stime for one in used)


def rows_of(base, name):
    """The rows of a table as sorted texts, with their rowids if the table has these."""
    quoted = '"' + name.replace('"', '""') + '"'
    try:
        rows = base.execute(f"SELECT rowid, * FROM {quoted}").fetchall()
    except sqlite3.OperationalError:
        rows = base.execute(f"SELECT * FROM {quoted}").fetchall()
    return sorted(map(repr, rows))


def seen(path, without=(), whole=True):
    """What SQLite finds in a file, which has to be whole or not: fields of the header, the entries
    of the schema in their order, and the rows of tables; all without these names.
    """
    with contextlib.closing(sqlite3.connect(path)) as base:
        if whole:
            expect_whole(base)
        fields = [base.execute(f"PRAGMA {field}").fetchone() for field in FIELDS]
        entries = base.execute("SELECT type, name, tbl_name, sql FROM sqlite_schema ORDER BY rowid")
        entries = [entry for entry in entries.fetchall() if entry[1] not in without]
        rows = {name: rows_of(base, name) for kind, name, *_ in entries if kind == "table"}
        return fields, entries, rows


def seen_next(path):
    """What SQLite finds next to the table of records."""
    return seen(path, ("rec", "sqlite_autoindex_rec_1"))


def stop_writing(path):
    """Has SQLite change a table, and leaves the files that a stop before the end of that leaves."""
    journal = path.with_name(path.name + "-journal")
    with contextlib.closing(sqlite3.connect(path, isolation_level=None)) as base:
        for text in ("PRAGMA cache_size = 1", "BEGIN", "UPDATE own SET b = zeroblob(100000)"):
            base.execute(text)
        left = {name: name.read_bytes() for name in (path, journal)}
    for name, content in left.items():
        name.write_bytes(content)


def orders(texts):
    """In each order the texts before a store, and those after it, as an index on it is."""
    yield [], texts
    if " ON rec(" not in "".join(texts):
        yield texts, []
    if len(texts) > 1:
        yield texts[:1], texts[1:]


class NextTest(StoreTest):
    """A test of stores next to other tables."""

    maxDiff = 4000

    @property
    def path(self):
        """The file of the store."""
        return self.folder / "store"

    def write_next(self, before, after, version=VERSION):
        """Has SQLite write a store of one row next to what texts make before and after it."""
        run_texts(self.path, before)
        self.write(tables_of((1, "z")), version=version)
        run_texts(self.path, after)


class Surroundings(NextTest):
    """Stores are made, read, edited and applied to next to other tables."""

    def ends(self, before=(), after=()):
        """How all runs end on a store next to what texts make before and after the first run, and
        the records that each leaves. What is next to the records has to stay.
        """
        self.make("a.cs", CHANGESET)
        run_texts(self.path, before)
        ends = []
        for words, lines, _ in RUNS:
            found = seen_next(self.path)
            ended = self.run_program(*words, stdin="".join(line + "\n" for line in lines).encode())
            (self.folder / "store-wal").unlink(missing_ok=True)
            self.assertEqual(seen_next(self.path), found, (words, lines, ended))
            self.assertNotIn(STORE_FAULT, ended)
            ends.append((ended, read_records(self.path)))
            run_texts(self.path, after if len(ends) == 1 else [])
        return ends

    def test_alone(self):
        """In a file of their own the runs succeed and fail as they are meant to."""
        ends = [ended for ended, _ in self.ends()]
        self.assertEqual([status for status, *_ in ends], [status for *_, status in RUNS], ends)
        self.assertEqual(ends[-1], (0, "1|'x'\n5|'five'\n6|'six'\n1|7\n", ""))

    def test_surroundings(self):
        """In each order the runs end as in a file of their own, with the same records."""
        alone = self.ends()
        for what, texts in OTHERS.items():
            for before, after in orders(texts):
                with self.case(what=what, before=len(before), after=len(after)):
                    self.assertEqual(self.ends(before, after), alone)

    def test_store_of_the_former_version(self):
        """It becomes one of this version, and what is next to it stays."""
        for before, after in orders(OTHERS["statistics"]):
            with self.case(before=len(before)):
                self.write_next(before, after, FORMER)
                found = seen_next(self.path)
                self.assertEqual(self.run_shell(["SELECT * FROM t;"]), (0, "1|'z'\n", ""))
                self.assertEqual(self.read_alone(), tables_of((1, "z")))
                self.assertEqual(seen_next(self.path), found)

    def test_renamed_records(self):
        """Next to records that have another name a new store is made, whatever they are."""
        row, rename = "INSERT INTO rec VALUES('none', X'05', X'05')", "ALTER TABLE rec RENAME TO x"
        alone = self.ends()
        with self.case():
            self.assertEqual(self.ends([*STORE, row, rename]), alone)

    def test_spelled_records(self):
        """The text of the table of records may differ in what SQL does not read."""
        for what, text in SPELLED.items():
            with self.case(what=what):
                run_sql(self.path, text, records=records_of(tables_of((1, "z"))))
                found = seen(self.path)
                lines = ["INSERT INTO t VALUES(2, 'y');", "SELECT * FROM t;"]
                self.assertEqual(self.run_shell(lines), (0, "1|'z'\n2|'y'\n", ""))
                self.assertEqual(self.read_alone(), tables_of((1, "z"), (2, "y")))
                self.assertEqual(seen(self.path)[:2], found[:2])

    def test_equal_rows(self):
        """Another index on the records may refuse one that is equal to another one. It leaves the
        records, and the store goes on.
        """
        self.assertEqual(self.run_shell(MAKE), (0, "", ""))
        run_texts(self.path, ["CREATE UNIQUE INDEX i ON rec(rowb)"])
        found = read_records(self.path)
        equal = "INSERT INTO n VALUES(2, X'00ff');"
        file = N + insert(3, "new") + insert(2, b"\0\xff")
        lines = [
            f".load c {file.hex()}", equal, "UPDATE n SET b='x' WHERE a=1;", ".apply c",
            CREATE.replace("t(", "other("), ".session open", ".session attach n", equal, ".apply c",
            ".session isempty", "INSERT INTO n VALUES(2, 'y');", *READ, "DELETE FROM n WHERE a=2;",
        ]
        printed = STORE_FAULT * 6 + "1\n1|'x'\n2|X'00ff'\n1|'n'\n2|'y'\n"
        self.assertEqual(self.run_shell(lines), (1, printed, ""))
        self.assertEqual(read_records(self.path), found)

    def test_python(self):
        """Edits in a session, undo, an apply and a revert by the Python package, in one of the orders.
        """
        for what, texts in OTHERS.items():
            with self.case(what=what):
                *_, (before, after) = orders(texts)
                self.write_next(before, after)
                found = seen_next(self.path)
                with vollikash.open(self.path) as store:
                    self.use(store)
                self.assertEqual(self.read_alone(), tables_of((1, "z"), (3, None)))
                self.assertEqual(seen_next(self.path), found)

    def use(self, store):
        """Uses a store from Python."""
        with store.session("t") as session:
            store.insert("t", 2, b"\x00\xff")
            store.update("t", {"b": "y"}, where={"a": 1})
            changes = session.changeset()
            self.assertEqual(session.undo().applied, 2)
        self.assertEqual(list(store.rows("t")), [(1, "z")])
        self.assertEqual(store.apply(changes).applied, 2)
        self.assertEqual(list(store.rows("t")), [(1, "y"), (2, b"\x00\xff")])
        self.assertRaises(vollikash.ConflictError, store.apply, changes)
        self.assertEqual(store.revert(changes).applied, 2)
        self.assertRaises(vollikash.KeyTaken, store.insert, "t", 1, "again")
        store.insert("t", 3, None)

    def times_of(self, store):
        """The least processor time of SQLite's check of a file, and the least of an opening."""
        return [min(timeit.repeat(call, timer=processor_time, repeat=5, number=1)) for call in (
            lambda: run_texts(self.folder / store, ["PRAGMA integrity_check"]),
            lambda: self.assertEqual(self.run_shell([], store), (0, "", "")),
        )]

    def test_time_of_opening(self):
        """What each row of another table costs an opening is a small multiple of what it costs
        SQLite's check. What an opening costs without rows does not count.
        """
        for store, rows in OWN_ROWS.items():
            numbers = f"VALUES(1) UNION ALL SELECT i + 1 FROM n LIMIT {rows}"
            texts = f"INSERT INTO own WITH n(i) AS ({numbers}) SELECT i, 'row ' || i FROM n"
            run_texts(self.folder / store, [OWN, texts, INDEX])
            self.assertEqual(self.run_shell(MAKE, store), (0, "", ""))
        few, many = map(self.times_of, OWN_ROWS)
        by_sqlite, by_program = (more - less for less, more in zip(few, many))
        self.assertLess(by_program, MULTIPLE * by_sqlite)


class Refusals(NextTest):
    """Databases that cannot be stores stay as they are."""

    def expect_refusal(self, line, look):
        """Asserts that each way to open the file is refused with a line, and that `look` returns the
        same after each.
        """
        self.make("a.cs", INSERT)
        found, script = look(), "".join(line + "\n" for line in MAKE).encode()
        for words, stdin in ((SHELL, b""), (SHELL, script), (APPLY, b"")):
            self.assertEqual(self.run_program(*words, stdin=stdin), (1, "", line), words)
            self.assertEqual(look(), found, words)
        with self.assertRaises(vollikash.StoreError) as caught:
            vollikash.open(self.path)
        self.assertEqual(f"error {caught.exception.code:d} {caught.exception.name}\n", line)
        self.assertEqual(look(), found)

    def expect_each(self, refused, line, *places, whole=True):
        """Asserts the refusal of each of these, where others are made before it and after it."""
        for what, texts in refused.items():
            for place, (before, after) in enumerate(places):
                with self.case(what=what, place=place):
                    run_texts(self.path, [*before, *texts, *after])
                    self.expect_refusal(line, lambda: seen(self.path, whole=whole))

    def test_what_cannot_be_opened(self):
        """Without the table of records, and before it."""
        refused = {what: texts for what, texts in REFUSED.items() if HAS_FTS5 or "FTS5" not in what}
        for what, since in SINCE.items():
            if sqlite3.sqlite_version_info < since:
                del refused[what]
        self.expect_each(refused, STORE_FAULT, ([], []), ([], STORE))

    def test_rows_that_break_a_constraint(self):
        """Without the table of records, and before it. SQLite reports each row."""
        self.expect_each(BROKEN, STORE_FAULT, ([], []), ([], STORE), whole=False)
        for what, texts in BROKEN.items():
            with self.case(what=what):
                run_texts(self.path, texts)
                self.assertRaises(AssertionError, seen, self.path)

    def test_journal(self):
        """A write that was stopped left pages and a journal. After SQLite has rolled it back, the
        store is opened.
        """
        self.write_next([OWN, ROWS], LATE)
        found = seen(self.path)
        stop_writing(self.path)
        self.expect_refusal(STORE_FAULT, lambda: files_of(self.folder))
        self.assertEqual(seen(self.path), found)
        self.assertEqual(self.run_shell(["SELECT * FROM t;"]), (0, "1|'z'\n", ""))
        self.assertEqual(seen(self.path), found)

    def test_tables_that_refer_to_the_records(self):
        """Without the table of records, after it and before it."""
        self.expect_each(REFERRING, STORE_FAULT, ([], []), (STORE, []), ([], STORE))

    def test_other_records(self):
        """What is not the table of records, alone, and next to a table before it or after it."""
        for refused, line in ((DAMAGED, DAMAGED_STORE), (UNREADABLE, STORE_FAULT)):
            self.expect_each(refused, line, ([], []), (LATE, []), ([], LATE))


class NextScript(MarkedScript):
    """Lines on a store next to other tables. The program finds these files, with a shell's tables.
    """

    def __init__(self, files, shell, lines):
        super().__init__(lines)
        self.files, self.first = files, shell

    def prepare(self, folder):
        """Makes the files."""
        make_files(folder, self.files)
        self.found = seen_next(pathlib.Path(folder, "store"))

    def left(self, folder):
        """The tables of the store, if what is next to them is as it was."""
        tables, found = super().left(folder), seen_next(pathlib.Path(folder, "store"))
        return tables if found == self.found else found


class Stops(NextTest):
    """Disks that stop in runs on a store next to other tables."""

    @classmethod
    def setUpClass(cls):
        folder = tempfile.TemporaryDirectory()
        cls.addClassCleanup(folder.cleanup)
        cls.shim = build_shim(folder.name)

    def expect_stops(self, shell, lines):
        """Asserts what each stop leaves of lines on the store, which has a shell's tables."""
        script = NextScript(files_of(self.folder), shell, lines)
        normal, count = script.once(), script.count(self.shim, DISK)
        self.assertEqual(script.why_not(normal, normal, DISK, 0), "")
        self.assertGreater(count, 20)
        for at in range(1, count + 1):
            with self.case(at=at):
                ended, was_refused = script.refused(self.shim, at, DISK, errno.EIO)
                self.assertTrue(was_refused)
                self.assertEqual(script.why_not(ended, normal, DISK, errno.EIO), "", ended)

    def test_store_between_tables(self):
        """The store is as the answers say, and the other tables are as they were."""
        self.write_next([OWN, ROWS, INDEX], LATE)
        made = Story(Shell(), [CREATE, "INSERT INTO t VALUES(1, 'z');"]).shells[-1]
        self.expect_stops(opened_again(made), CUT_LINES)

    def test_store_that_is_made(self):
        """The same of a run that makes the store."""
        run_texts(self.path, [OWN, ROWS, INDEX, *LATE])
        self.expect_stops(Shell(), [CREATE, "INSERT INTO t VALUES(1, 'z');", *CUT_LINES])


class Cuts(NextTest):
    """Power cuts of runs on a store next to other tables."""

    @classmethod
    def setUpClass(cls):
        folder = tempfile.TemporaryDirectory()
        cls.addClassCleanup(folder.cleanup)
        cls.shim = build_shim(folder.name, "record")

    def expect_cuts(self, made, lines):
        """Asserts what each cut leaves of lines on the store, which other lines make."""
        story = Story(opened_again(Story(Shell(), made).shells[-1]), lines, True)
        script, found, files = MarkedScript(lines), seen_next(self.path), files_of(self.folder)
        run = Run(files, script.words, script.stdin, story)
        recording = Recording(self.shim, files, script.words, script.stdin)
        self.assertEqual(recording.ended, story.ended()[0])
        disk = Disk(recording)
        for event in recording.events:
            disk.take(event)
        self.assertTrue(disk.files([(change, None) for change in disk.pending]) == recording.left)
        for files, printed, told, share in tried(recording, CUTS):
            with self.case(told=told):
                self.assertEqual(run.why_not(files, printed, share < OPENED), "")
                make_files(self.folder, files)
                self.assertEqual(seen_next(self.path), found)

    def test_store_between_tables(self):
        """SQLite finds the records before or after a line, and the other tables as they were."""
        self.write_next([OWN, ROWS, INDEX], LATE)
        self.expect_cuts([CREATE, "INSERT INTO t VALUES(1, 'z');"], CUT_LINES)

    def test_store_that_is_made(self):
        """The same of a run that makes the store."""
        run_texts(self.path, [OWN, ROWS, INDEX, *LATE])
        self.expect_cuts([], [CREATE, "INSERT INTO t VALUES(1, 'z');", *CUT_LINES])


if __name__ == "__main__":
    main()

"""What the bench measures: each kind of row, how it is run, and why it takes more than SQLite's."""

from __future__ import annotations

from typing import NamedTuple

from shapes import (
    BLOB, CHANGED, CRAFTED, FILES_OF_TEN, INSERTS, LONG, MADE, MIX, SHUFFLED, TEN, TEN_FILES, WIDE,
    Shape,
)


class Kind(NamedTuple):
    """A kind of row: a command, SQLite's next to it or none, and the shapes that both are run on.

    They run in the folder of the programs and the files. COUNT is the number of entries or rows,
    and SHAPE is `mix`, `inserts` or `blob`. The file after "<" is their input. A call prints the
    time of itself.
    """

    name: str
    ours: str
    theirs: str
    shapes: tuple[str, ...]
    why: str = ""  # it takes more time than SQLite's
    why_memory: str = ""  # it takes more memory
    most: int = 1_000_000  # entries or rows
    state: str = ""  # of the store and the database: "before" the file is applied, "full", "opened"
    is_call: bool = False

    def is_run(self, shape: Shape, count: int) -> bool:
        """Return whether it is run on so many entries or rows of a shape."""
        most = shape.most_applied if self.state == "before" else self.most
        return shape.name in self.shapes and count <= most

    def commands(self, shape: Shape, count: int) -> list[str]:
        """Return our command for so many entries or rows of a shape, and SQLite's."""
        word = WORDS.get(shape.name, "")
        sides = (self.ours, self.theirs)
        return [side.replace("COUNT", str(count)).replace("SHAPE", word) for side in sides]

    def files(self) -> set[str]:
        """Return the names of the files that have to be made."""
        return {self.state, *self.ours.split(), *self.theirs.split()} & MADE


ALL = (MIX, INSERTS, SHUFFLED, TEN, WIDE, LONG, BLOB)
PAIRS = (*ALL, CHANGED, CRAFTED)
APPLIED = (MIX, INSERTS, TEN, WIDE, LONG, BLOB)
SCRIPTS = (MIX, INSERTS)
LOOKED = (MIX, WIDE)
MANY = 100_000

# The words for shapes that `kit_apply` takes.
WORDS = {MIX: "mix", INSERTS: "inserts", BLOB: "blob"}

# What is done here and not by SQLite.
CHECKS = "the file is checked to its end first, for repeated keys too"
INVERTS = "the file is checked, for repeated keys too; SQLite copies INSERTs unread"
CHECKS_BOTH = "both files are checked to their ends first; crafted keys fall into one bucket"
CHECKS_EACH = "each file is checked to its end first"
INDEXES = "the files stay in memory, and each entry has its offsets and the number of its key"
KEYS = "a number of each key of a table is kept unless they rise, to find repeated ones"
COPIES = "the bytes are made apart, and then copied into the buffer of the caller"
RECORDS = "the file is checked page by page and index by index, and then each record is decoded"
OPENS = "the store is opened first (`opening a store`), and each row is a record of one table"
ON_KIT = OPENS + "; the kit copies a blob five times"
IN_FILES = "the store is in files in memory, with a log, and each row is a record of one table"
IN_MEMORY = "the file and its log are in memory, next to the kit's cache"
STATEMENTS = "the kit's INSERT of the row, and its SELECT for the changeset, have six tenths of it"
NOTED = IN_MEMORY + ", and the session keeps a copy of each key"
MODULES = "the package has more modules than the program for SQLite's library"
SENDS = "each row is a call to the program, another process"
RECORDED = SENDS + "; SQLite's side has no session"
LISTS = "the kit lists the rows of a table as a store is opened, caches pages, and copies rows"
NOTES = "the session keeps a copy of each key; SQLite's side has no session"
OWNED = (
    "each row and each key of the changeset is allocated by itself before its file is written; "
    "the session keeps a copy of each key"
)
UNKNOWN = "no reason is known"


def call(name: str, files: str, shapes: tuple[str, ...], why: str, why_memory: str) -> Kind:
    """Return the kind of a call of the C library, next to SQLite's."""
    ours, theirs = f"./calls 5 {name} out {files}", f"./library 5 {name} other {files}"
    return Kind(f"`vollikash_{name}`", ours, theirs, shapes, why, why_memory, is_call=True)


def command(name: str, words: str, theirs: str, shapes: tuple[str, ...], why: str) -> Kind:
    """Return the kind of a command on files."""
    ours, theirs = f"./changeset file {name}{words}", f"./library 1 {theirs}"
    return Kind(f"`changeset {name}`", ours, theirs, shapes, why, KEYS)


def script(
    name: str, store: str, lines: str, asked: str, why: str = "", why_memory: str = UNKNOWN
) -> Kind:
    """Return the kind of a script of lines."""
    ours, theirs = f"./changeset {store} shell < {lines}", asked and f"./sqlite < {asked}"
    return Kind(f"script{name}", ours, theirs, SCRIPTS, why, why_memory, MANY)


def store(
    call: str, name: str, theirs: str, why: str, why_memory: str = UNKNOWN, state: str = ""
) -> Kind:
    """Return the kind of a call of a store from Python."""
    ours = f"./package ours {call} store COUNT"
    theirs = theirs and f"./package sqlite {theirs} base COUNT"
    return Kind(f"`Store.{name}", ours, theirs, (INSERTS,), why, why_memory, MANY, state)


def recorded(name: str, operation: str) -> Kind:
    """Return the kind of inserts in C in a store in memory, which a session records."""
    made = call(operation, "file", (INSERTS,), STATEMENTS, NOTED)
    return made._replace(name=f"`vollikash_insert` in a session{name}", most=MANY)


def look(name: str, file: str = "file", theirs: str = "") -> Kind:
    """Return the kind of a call on changes from Python."""
    ours = f"./package ours {name} {file}"
    return Kind(f"`{name}`", ours, theirs, LOOKED, UNKNOWN, MODULES, MANY)


APPLY = command("apply", " store", "apply base file", APPLIED, ON_KIT)._replace(
    why_memory=LISTS, state="before"
)

KINDS = (
    call("invert", "file", ALL, INVERTS, COPIES),
    call("concat", "file more", PAIRS, CHECKS_BOTH, COPIES),
    call("concat_many", "files lengths", (FILES_OF_TEN, TEN_FILES), CHECKS_EACH, INDEXES),
    call("check", "file", ALL, CHECKS, KEYS),
    call("next", "file", ALL, UNKNOWN, UNKNOWN),
    command("invert", " out", "invert other file", ALL, INVERTS),
    command("concat", " more out", "concat other file more", PAIRS, CHECKS_BOTH),
    command("dump", "", "dump other file", ALL, CHECKS),
    command("sql", "", "dump other file", ALL, CHECKS),
    APPLY,
    APPLY._replace(
        name="statements of `changeset apply`, on the kit",
        ours="./kit_apply store SHAPE COUNT",
        shapes=(MIX, INSERTS, BLOB),
    ),
    Kind(
        "opening a store",
        "./changeset none apply store",
        "./library 1 integrity store",
        (MIX, TEN, WIDE, LONG),
        RECORDS,
        UNKNOWN,
        state="opened",
    ),
    script("", "store", "lines", "asked", OPENS),
    script(" in memory", ":memory:", "lines", "memory", IN_FILES),
    script(" with a session", "store", "session", "asked_session", OPENS, OWNED),
    script(" with a session, in memory", ":memory:", "session", "memory_session", IN_FILES, OWNED),
    script(" with an undo", "store", "undo", ""),
    script(" with an undo, in memory", ":memory:", "undo", ""),
    store("insert", "insert`", "insert", SENDS),
    store("insert_in_session", "insert` in a session", "insert", RECORDED, NOTES),
    store("insert_in_transaction", "insert` in a transaction", "insert_in_transaction", SENDS),
    store("insert_many", "insert_many`", "insert_many", SENDS),
    store("rows", "rows`", "rows", OPENS + ", which another process reads", LISTS, "full"),
    store("get", "get`", "get", OPENS + ", which another process reads", LISTS, "full"),
    store("insert_in_process", "insert` in process", "insert_in_memory", IN_FILES, IN_MEMORY),
    store("rows_in_process", "rows` in process", "rows", OPENS, LISTS, "full"),
    store("get_in_process", "get` in process", "get", OPENS, LISTS, "full"),
    store("edit_in_process", "update` and undo in process", "", UNKNOWN),
    recorded("", "record"),
    recorded(", all one transaction", "record_as_one"),
    look("changes", theirs="./package sqlite changes file"),
    look("Builder"),
    look("write_json"),
    look("read_json", "json"),
)

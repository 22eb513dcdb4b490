"""Changesets and stores as bytes: what the tests of the program hand it, and what they read back.

A table is its columns' names, for each column whether it is of the key, its rows, tuples of `int`,
`str`, `bytes` and `None`, and for each column whether it refuses NULL: where that is not told,
those of the key do. A store is a file of SQLite with the table of records (`docs/STORE.md`); it is
written and read here by Python's own sqlite3. A changeset is bytes (`docs/FORMAT.md`).
"""
import collections
import contextlib
import sqlite3

Table = collections.namedtuple("Table", "columns keys rows refuses", defaults=[None])

RECORDS = (
    "CREATE TABLE IF NOT EXISTS rec(tab TEXT NOT NULL, keyb BLOB NOT NULL, rowb BLOB NOT NULL, "
    "PRIMARY KEY(tab, keyb)) STRICT"
)

# The record of a store's version, and that of the former one.
VERSION, FORMER = ("", b"", b"\x02"), ("", b"", b"\x01")

# An undefined field of an update.
UNDEFINED = object()


def varint(number):
    """The shortest spelling of a count."""
    digits = [number & 0x7F]
    while number > 0x7F:
        number >>= 7
        digits.append(number & 0x7F | 0x80)
    return bytes(reversed(digits))


def field(value):
    """The bytes of a value, or of none."""
    if value is UNDEFINED:
        return b"\x00"
    if value is None:
        return b"\x05"
    if isinstance(value, int):
        return b"\x01" + value.to_bytes(8, "big", signed=True)
    kind, content = (b"\x03", value.encode()) if isinstance(value, str) else (b"\x04", value)
    return kind + varint(len(content)) + content


def record(values):
    """The bytes of values in a row."""
    return b"".join(map(field, values))


def header(name, *flags):
    """The header of a table in a changeset."""
    return b"T" + varint(len(flags)) + bytes(flags) + name.encode() + b"\x00"


def insert(*row):
    """The entry that inserts a row."""
    return b"\x12\x00" + record(row)


def delete(*row):
    """The entry that deletes a row."""
    return b"\x09\x00" + record(row)


def update(old, new):
    """The entry that updates a row, by its two records."""
    return b"\x17\x00" + record(old) + record(new)


def declaration(table):
    """The bytes that declare a table."""
    parts = [varint(len(table.columns))]
    for name, of_key, mark in zip(table.columns, table.keys, table.refuses or table.keys):
        parts += [bytes([1 if of_key else 2 if mark else 0]), varint(len(name.encode())), name.encode()]
    return b"".join(parts)


def key_of(table, row):
    """The bytes of a row's key."""
    return record(value for value, of_key in zip(row, table.keys) if of_key)


def records_of(tables, version=VERSION):
    """The records of a store, by the definition of the format."""
    records = [version]
    for name, table in tables.items():
        records.append(("", name.encode(), declaration(table)))
        records += [(name, key_of(table, row), record(row)) for row in table.rows]
    return records


def run_sql(path, *texts, records=(), log=False):
    """Has SQLite run texts on the file, and then put records into its table of records."""
    with contextlib.closing(sqlite3.connect(path)) as base:
        if log:
            base.execute("PRAGMA journal_mode = WAL")
        for text in texts:
            base.execute(text)
        for values in records:
            base.execute("INSERT INTO rec VALUES(?1, ?2, ?3)", values)
        base.commit()


def write_store(path, tables, page_size=4096, log=False, version=VERSION):
    """Has SQLite write a store with these tables."""
    run_sql(path, f"PRAGMA page_size = {page_size}", RECORDS, records=records_of(tables, version), log=log)


def expect_whole(base):
    """Asserts that a database passes SQLite's own check."""
    answer = base.execute("PRAGMA integrity_check").fetchall()
    assert answer == [("ok",)], answer


def read_records(path):
    """The records of a file as SQLite reads it, by name and key. The file has to pass SQLite's own
    check.
    """
    with contextlib.closing(sqlite3.connect(path)) as base:
        expect_whole(base)
        return base.execute("SELECT tab, keyb, rowb FROM rec ORDER BY tab, keyb").fetchall()


def take_varint(data, at):
    """The count that is spelled at a place, and the place behind it."""
    number = 0
    while True:
        number = number << 7 | data[at] & 0x7F
        at += 1
        if data[at - 1] < 0x80:
            return number, at


def take_value(data, at):
    """The value that stands at a place, and the place behind it."""
    kind, at = data[at], at + 1
    if kind == 5:
        return None, at
    if kind == 1:
        return int.from_bytes(data[at:at + 8], "big", signed=True), at + 8
    assert kind in (3, 4), kind
    count, at = take_varint(data, at)
    content = data[at:at + count]
    assert len(content) == count, data
    return content.decode() if kind == 3 else content, at + count


def take_record(data, at, count):
    """The fields of a record of so many columns, each a value or UNDEFINED, and the place behind
    them.
    """
    fields = []
    for _ in range(count):
        field, at = (UNDEFINED, at + 1) if data[at] == 0 else take_value(data, at)
        fields.append(field)
    return fields, at


def read_changeset(data):
    """The groups of a changeset: of each the name, the flags and the entries. An entry is the old
    record and the new one, where it has such.
    """
    groups, at = [], 0
    while at < len(data):
        assert data[at] == 0x54, data
        count, at = take_varint(data, at + 1)
        flags, end = data[at:at + count], data.index(0, at + count)
        name, entries, at = data[at + count:end].decode(), [], end + 1
        while at < len(data) and data[at] != 0x54:
            kind, at, old, new = data[at], at + 2, None, None
            if kind != 0x12:
                old, at = take_record(data, at, count)
            if kind != 0x09:
                new, at = take_record(data, at, count)
            entries.append((old, new))
        groups.append((name, flags, entries))
    return groups


def read_row(data):
    """The values of a row."""
    values, at = [], 0
    while at < len(data):
        value, at = take_value(data, at)
        values.append(value)
    return tuple(values)


def read_declaration(data):
    """The table that these bytes declare, which has no rows."""
    count, at = take_varint(data, 0)
    columns, keys, refuses = [], [], []
    for _ in range(count):
        size, start = take_varint(data, at + 1)
        assert data[at] in (0, 1, 2), data
        keys.append(data[at] == 1)
        refuses.append(data[at] != 0)
        columns.append(data[start:start + size].decode())
        at = start + size
    assert at == len(data), data
    return Table(tuple(columns), tuple(keys), [], None if refuses == keys else tuple(refuses))


def read_store(path, version=VERSION):
    """The tables of a store, with their rows by the bytes of their keys. Every record has to be as
    it is defined in this version.
    """
    records = read_records(path)
    tables = {key.decode(): read_declaration(value) for name, key, value in records if name == "" and key}
    for name, _, value in records:
        if name:
            tables[name].rows.append(read_row(value))
    assert sorted(records) == sorted(records_of(tables, version)), records
    return tables


def run_schema(schema, rows):
    """The tables that SQLite has after texts that declare them and insert rows."""
    with contextlib.closing(sqlite3.connect(":memory:")) as base:
        base.executescript(schema)
        base.executescript(rows)
        names = [name for name, in base.execute("SELECT name FROM sqlite_master WHERE type = 'table'")]
        return {name: table_of(base, name) for name in names}


def table_of(base, name):
    """A table of a database of SQLite."""
    columns = base.execute(f"PRAGMA table_info({name})").fetchall()
    table = Table(tuple(c[1] for c in columns), tuple(c[5] > 0 for c in columns), [])
    rows = base.execute(f"SELECT * FROM {name}").fetchall()
    table.rows.extend(sorted(rows, key=lambda row: key_of(table, row)))
    return table


def run_statements(tables, text):
    """The tables that SQLite has after the statements of a text, in which the columns are c1, c2
    and so on.
    """
    with contextlib.closing(sqlite3.connect(":memory:")) as base:
        for name, table in tables.items():
            columns = ["c%d" % (place + 1) for place in range(len(table.columns))]
            keys = [column for column, of_key in zip(columns, table.keys) if of_key]
            base.execute("CREATE TABLE %s(%s, PRIMARY KEY(%s))" % (name, ", ".join(columns), ", ".join(keys)))
            marks = ", ".join("?" for _ in columns)
            base.executemany("INSERT INTO %s VALUES(%s)" % (name, marks), table.rows)
        base.executescript(text)
        return {name: table_of(base, name) for name in tables}


def literal(value):
    """A value as a literal of SQL."""
    if value is None:
        return "NULL"
    if isinstance(value, bytes):
        return "X'" + value.hex() + "'"
    return str(value) if isinstance(value, int) else "'" + value.replace("'", "''") + "'"


def shown_rows(table):
    """The rows of a table as text, a line each."""
    return "".join("|".join(map(literal, row)) + "\n" for row in table.rows)


def shown(tables):
    """Tables as text: the name of each, and its rows."""
    return "".join("table " + literal(name) + "\n" + shown_rows(tables[name]) for name in sorted(tables))


def count_changes(before, after):
    """How many keys have another row, or have one in one of two states of the same tables alone."""
    count = 0
    for name, table in before.items():
        first, second = ({key_of(table, row): row for row in rows} for rows in (table.rows, after[name].rows))
        count += sum(first.get(key) != second.get(key) for key in first.keys() | second.keys())
    return count

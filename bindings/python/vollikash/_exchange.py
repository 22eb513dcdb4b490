"""Tables of ordinary SQLite databases, read and written by a connection of Python's `sqlite3`."""
import contextlib
from typing import TYPE_CHECKING, Iterable, Iterator, List, Tuple

from ._schema import Schema
from ._values import Row, shown

if TYPE_CHECKING:
    import sqlite3


def _quoted(name: str) -> str:
    """Return a name as SQL has it."""
    return '"' + name.replace('"', '""') + '"'


def read_schema(connection: "sqlite3.Connection", table: str) -> Schema:
    """Return the schema of a table. Raise ValueError if it has no primary key."""
    columns = connection.execute(f"PRAGMA table_info({_quoted(table)})").fetchall()
    if not columns:
        raise ValueError(f"table {shown(table)}: the database has no such table")
    key = tuple(name for _, name, _, _, _, place in columns if place)
    if not key:
        raise ValueError(f"table {shown(table)}: it has no primary key")
    refuses = tuple(name for _, name, _, marked, _, place in columns if marked and not place)
    return Schema(tuple(name for _, name, *_ in columns), key, refuses)


def read_rows(
    connection: "sqlite3.Connection", table: str, columns: Tuple[str, ...]
) -> Iterator[Row]:
    """Yield the rows of a table. Raise ValueError for a value that no store has."""
    names = ", ".join(map(_quoted, columns))
    cursor = connection.execute(f"SELECT {names} FROM {_quoted(table)}")
    for number, row in enumerate(cursor, 1):
        for column, value in zip(columns, row):
            if isinstance(value, float):
                where = f"table {shown(table)}, row {number}, column {shown(column)}"
                raise ValueError(f"{where}: a float")
        yield tuple(row)


@contextlib.contextmanager
def _savepoint(connection: "sqlite3.Connection") -> Iterator[None]:
    """Take back what the block does if it fails. A transaction that is open stays open."""
    connection.execute("SAVEPOINT vollikash")
    try:
        yield
    except BaseException:
        # SQLite ends the transaction itself after some errors.
        if connection.in_transaction:
            connection.execute("ROLLBACK TO vollikash")
            connection.execute("RELEASE vollikash")
        raise
    connection.execute("RELEASE vollikash")


def _expect_own_name(connection: "sqlite3.Connection", table: str) -> None:
    """Raise ValueError if the database takes the name for that of another table."""
    asked = "SELECT name FROM sqlite_master WHERE name = ? COLLATE NOCASE AND name <> ?"
    for (other,) in connection.execute(asked, (table, table)):
        raise ValueError(f"table {shown(table)}: the database has {shown(other)}")


def write_rows(
    connection: "sqlite3.Connection", table: str, schema: Schema, rows: Iterable[Row]
) -> None:
    """Write rows into a table, which is made if there is none."""
    marks = {name: " NOT NULL" for name in schema.key + schema.refuses}
    declared: List[str] = [_quoted(name) + marks.get(name, "") for name in schema.columns]
    declared.append(f"PRIMARY KEY({', '.join(map(_quoted, schema.key))})")
    names, places = ", ".join(map(_quoted, schema.columns)), ", ".join("?" * len(schema.columns))
    _expect_own_name(connection, table)
    with _savepoint(connection):
        connection.execute(f"CREATE TABLE IF NOT EXISTS {_quoted(table)}({', '.join(declared)})")
        insert = f"INSERT INTO {_quoted(table)}({names}) VALUES({places})"
        connection.executemany(insert, rows)

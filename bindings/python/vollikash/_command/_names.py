"""The names of columns, which a changeset does not have."""
import contextlib
import os
import pathlib
from typing import TYPE_CHECKING, Dict, Iterator, Optional, Sequence, Tuple

from .._errors import DamagedStore, ProgramError, StoreError
from .._exchange import read_schema
from .._json import numbered
from .._schema import Schema
from .._store import open as open_store
from .._values import shown
from ._messages import Failure, complain, of_store

if TYPE_CHECKING:
    import sqlite3


@contextlib.contextmanager
def _reading(path: str) -> Iterator[None]:
    """Raise `Failure` if the block cannot read a database."""
    import sqlite3

    try:
        yield
    except sqlite3.Error as error:
        why = f"{error}. An SQLite database with the tables of the changeset is expected."
        raise Failure(path, why) from None


def opened(path: str) -> "sqlite3.Connection":
    """Return a connection that reads a database. Raise `Failure`."""
    import sqlite3

    name = pathlib.Path(os.path.abspath(path)).as_uri() + "?mode=ro"
    with _reading(path):
        base = sqlite3.connect(name, uri=True)
        base.execute("PRAGMA schema_version")
    return base


def has_records(path: str) -> bool:
    """Return whether a database has a table `rec`, as a store does. Raise `Failure`."""
    with _reading(path), contextlib.closing(opened(path)) as base:
        return bool(base.execute("SELECT 1 FROM sqlite_master WHERE name = 'rec'").fetchall())


def _stored(path: str) -> Dict[str, Schema]:
    """Return the tables of a store, or none if the database is another one. Raise `Failure`."""
    if not has_records(path):
        return {}
    try:
        with open_store(path) as store:
            return {name: store.schema(name) for name in store.tables()}
    except DamagedStore:
        return {}
    except StoreError as error:
        raise of_store(path, error) from None
    except (ProgramError, ValueError) as error:
        raise Failure(path, str(error)) from None


class Names:
    """The names of columns by the schema of a database, or c1, c2 and so on without one."""

    def __init__(self, path: Optional[str]) -> None:
        self._path = path
        self._known: Dict[Tuple[str, bytes], Sequence[str]] = {}
        # A store has its declarations elsewhere than an ordinary database, and one program opens it.
        self._stored = {} if path is None else _stored(path)
        self._base = None if path is None else opened(path)

    def of(self, table: str, flags: bytes) -> Sequence[str]:
        """Return the names of the columns of a table with these flags."""
        known = self._known.get((table, flags))
        if known is None:
            known = self._known[table, flags] = self._found(table, flags)
        return known

    def _found(self, table: str, flags: bytes) -> Sequence[str]:
        """Return the names that a table has in the database, as far as the changeset has it."""
        names = numbered(table, flags)
        if self._path is None:
            return names
        for schema in (self._ordinary(table), self._stored.get(table)):
            if schema is not None and schema.begins_with(flags):
                return schema.columns[:len(flags)]
        why = f"no table {shown(table)} has the columns and the key that the changeset has"
        complain(Failure(self._path, f"{why}: its columns are shown as c1 to {names[-1]}"))
        return names

    def _ordinary(self, table: str) -> Optional[Schema]:
        """Return the schema of an ordinary table, or None if there is none."""
        if self._base is None or self._path is None:
            return None
        with _reading(self._path), contextlib.suppress(ValueError):
            return read_schema(self._base, table)
        return None

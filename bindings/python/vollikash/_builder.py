"""Making changesets."""
from typing import Dict, Iterable, List, Optional, Sequence, Tuple

from ._changes import Change
from ._encoding import Encoder, Unfit, flags_of, header
from ._files import concat_all
from ._values import Field, Op, Value, shown


class _Table:
    """A table that is declared, and how many changes it has."""

    def __init__(self, name: str, flags: bytes) -> None:
        self.flags = flags
        self.header = header(name, flags)
        self.encoder = Encoder(flags)
        self.count = 0


class Builder:
    """Makes a changeset of changes.

    What cannot be in a changeset raises ValueError, and is not added. A change of a key that has
    one is concatenated with it: the result is that of `concat` of a file for each change. The
    builder of `changes(file)` makes `file`.
    """

    def __init__(self) -> None:
        self._tables: Dict[str, _Table] = {}
        # The table of each change, and its bytes.
        self._changes: List[Tuple[_Table, bytes]] = []

    def table(self, name: str, key: Iterable[int]) -> None:
        """Declare a table. `key` has for each column whether it is of the primary key: a bool, or
        the number that the file is to have.

        A table that is declared already keeps its numbers, and has to have the same key.
        """
        try:
            self._declare(name, flags_of(key))
        except Unfit as error:
            raise ValueError(f"table {shown(str(name))}: {error}") from None

    def _declare(self, name: str, flags: bytes) -> None:
        """Declare a table with these flags."""
        table = self._tables.get(name)
        if table is None:
            self._tables[name] = _Table(name, flags)
        elif list(map(bool, table.flags)) != list(map(bool, flags)):
            raise Unfit("it is declared with other columns or another key")

    def insert(self, table: str, *values: Value, indirect: bool = False) -> None:
        """Add the INSERT of a row, with a value for each column."""
        self._add(table, "insert", indirect, None, values)

    def delete(self, table: str, *values: Value, indirect: bool = False) -> None:
        """Add the DELETE of a row, with a value for each column."""
        self._add(table, "delete", indirect, values, None)

    def update(
        self, table: str, *, old: Sequence[Field], new: Sequence[Field], indirect: bool = False
    ) -> None:
        """Add the UPDATE of a row. Both records have a field for each column.

        `old` has the key and the former values. `new` has the new values, and `UNDEFINED` in key
        columns. Columns that do not change are `UNDEFINED` in both.
        """
        self._add(table, "update", indirect, old, new)

    def add(self, change: Change) -> None:
        """Add a change. A table that is not declared yet is declared by it."""
        table = self._tables.get(change.table)
        if table is None or table.flags != change.flags:
            self.table(change.table, change.flags)
        self._add(change.table, change.op, change.indirect, change.old, change.new)

    def _add(
        self,
        name: str,
        op: Op,
        indirect: bool,
        old: Optional[Sequence[Field]],
        new: Optional[Sequence[Field]],
    ) -> None:
        """Add a change of a table that is declared."""
        table = self._tables.get(name)
        if table is None:
            raise ValueError(f"table {shown(str(name))} is not declared")
        try:
            _, entry = table.encoder.entry(op, indirect, old, new)
        except Unfit as error:
            where = f"table {shown(name)}, change {table.count + 1} ({str(op).upper()})"
            raise ValueError(f"{where}, {error}") from None
        self._changes.append((table, entry))
        table.count += 1

    def to_bytes(self) -> bytes:
        """Return the file of the changes that were added.

        More changes can be added after that.
        """
        return concat_all([table.header + entry for table, entry in self._changes])

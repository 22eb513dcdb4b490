"""Changes as objects."""
import dataclasses
from typing import Any, Iterator, Optional, Tuple

from ._decoding import entries
from ._files import Bytes, as_bytes, check
from ._values import Field, Op, Record


@dataclasses.dataclass(frozen=True)
class Change:
    """A change of one row.

    `flags` has a byte for each column of the table, and is not 0 in columns of the primary key.
    `old` is the record of a "delete" or an "update" before it, and `new` that of an "insert" or an
    "update" after it. Each has a field for each column; the other operations have None there. In an
    "update", `UNDEFINED` is in both records where a column does not change, and in `new` where a
    column is of the key.
    """

    __slots__ = ("table", "op", "indirect", "old", "new", "flags")

    table: str
    op: Op
    indirect: bool
    old: Optional[Record]
    new: Optional[Record]
    flags: bytes

    @property
    def key(self) -> Tuple[Field, ...]:
        """The values of the primary key, in column order."""
        record = self.new if self.old is None else self.old
        return tuple(field for field, flag in zip(record or (), self.flags) if flag)

    def __reduce__(self) -> Tuple[Any, ...]:
        values = (self.table, self.op, self.indirect, self.old, self.new, self.flags)
        return Change, values


def changes(file: Bytes) -> Iterator[Change]:
    """Return an iterator over the changes of a file, in its order. Raises `ChangesetError`."""
    data = as_bytes(file)
    check(data)
    return (
        Change(table.name, op, indirect, old, new, table.flags)
        for table, op, indirect, old, new in entries(data)
    )

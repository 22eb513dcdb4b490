"""The declarations of tables."""
from typing import NamedTuple, Tuple


class Schema(NamedTuple):
    """The columns of a table, those of its key, and those outside it that refuse None, each in the
    order of the columns. `Store.create` takes them.
    """

    columns: Tuple[str, ...]
    key: Tuple[str, ...]
    refuses: Tuple[str, ...]

    def flags(self) -> bytes:
        """Return for each column whether it is of the key, as changesets have it."""
        key = set(self.key)
        return bytes(column in key for column in self.columns)

    def begins_with(self, flags: bytes) -> bool:
        """Return whether the first columns of the table are those of a changeset."""
        marks = self.flags()[:len(flags)]
        return len(marks) == len(flags) and marks == bytes(map(bool, flags))

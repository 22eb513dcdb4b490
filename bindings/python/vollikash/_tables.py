"""The tables of a changeset."""
from typing import Collection, Dict, List, NamedTuple

from ._decoding import Table, entries
from ._files import Bytes, as_bytes, check


class Counts(NamedTuple):
    """How many changes of each operation a table has."""

    inserts: int
    updates: int
    deletes: int


def stat(file: Bytes) -> Dict[str, Counts]:
    """Return the numbers of changes of each table, in the order of the file. Raises
    `ChangesetError`.
    """
    data = as_bytes(file)
    check(data)
    counts: Dict[str, Dict[str, int]] = {}
    for table, op, *_ in entries(data):
        counted = counts.setdefault(table.name, {"insert": 0, "update": 0, "delete": 0})
        counted[op] += 1
    return {name: Counts(*counted.values()) for name, counted in counts.items()}


def select(file: Bytes, tables: Collection[str]) -> bytes:
    """Return the file with only the tables that are named, byte for byte as they are. Raises
    `ChangesetError`.
    """
    if isinstance(tables, str):
        raise TypeError("`tables` is a collection of names, and not one name")
    data, wanted = as_bytes(file), set(tables)
    check(data)
    found: List[Table] = []
    for table, *_ in entries(data):
        if not found or found[-1] is not table:
            found.append(table)
    ends = [table.start for table in found[1:]] + [len(data)]
    return b"".join(
        data[table.start:end] for table, end in zip(found, ends) if table.name in wanted
    )

"""Reading the bytes of a changeset that the library has accepted, and rows of an answer.

docs/FORMAT.md has the format. `entries` is the only reader of accepted files.
"""
import struct
from typing import Iterator, List, NamedTuple, Optional, Tuple

from ._values import UNDEFINED, Field, Op, Record, Row, Value

_TABLE = 0x54
_DELETE, _INSERT = 0x09, 0x12
_UNDEFINED, _INTEGER, _TEXT, _BLOB, _NULL = 0, 1, 3, 4, 5

_integer_at = struct.Struct(">q").unpack_from


class Table(NamedTuple):
    """A table of a file: its name, its flags, and the byte offset of its header."""

    name: str
    flags: bytes
    start: int


# A table, and the operation, the indirect flag, the old record and the new one of a change.
Entry = Tuple[Table, Op, bool, Optional[Record], Optional[Record]]


def varint_at(data: bytes, at: int) -> Tuple[int, int]:
    """Return the number at an offset, and the offset after it."""
    number = 0
    while data[at] > 0x7F:
        number = number << 7 | data[at] & 0x7F
        at += 1
    return number << 7 | data[at], at + 1


def _header(data: bytes, start: int) -> Tuple[Table, int]:
    """Return the table whose header is at an offset, and the offset after the header."""
    count, at = varint_at(data, start + 1)
    end = data.index(0, at + count)
    return Table(data[at + count:end].decode(), data[at:at + count], start), end + 1


def record_at(data: bytes, at: int, count: int) -> Tuple[Record, int]:
    """Return the record of this many columns at an offset, and the offset after it."""
    fields: List[Field] = []
    add = fields.append
    for _ in range(count):
        kind = data[at]
        at += 1
        if kind == _INTEGER:
            add(_integer_at(data, at)[0])
            at += 8
        elif kind == _TEXT or kind == _BLOB:
            size = data[at]
            at += 1
            if size > 0x7F:
                size, at = varint_at(data, at - 1)
            content = data[at:at + size]
            add(content.decode() if kind == _TEXT else content)
            at += size
        else:
            add(None if kind == _NULL else UNDEFINED)
    return tuple(fields), at


def rows_at(data: bytes, at: int, count: int) -> Tuple[List[Row], int]:
    """Return this many rows at an offset, each with its width before it, and the offset after them.

    Bytes that are no rows of one width raise ValueError or IndexError, or the offset is not in the
    bytes.
    """
    if count == 0:
        return [], at
    width, end = varint_at(data, at)
    first, head, columns = data[at], data[at:end], range(width)
    skipped = len(head)
    values: List[Value] = []
    add = values.append
    for _ in range(count):
        if data[at] != first or skipped > 1 and not data.startswith(head, at):
            raise ValueError("rows have different widths")
        at += skipped
        for _ in columns:
            kind = data[at]
            if kind == _INTEGER:
                add(_integer_at(data, at + 1)[0])
                at += 9
            elif kind == _TEXT or kind == _BLOB:
                size = data[at + 1]
                start = at + 2
                if size > 0x7F:
                    size, start = varint_at(data, at + 1)
                at = start + size
                add(data[start:at].decode() if kind == _TEXT else data[start:at])
            elif kind == _NULL:
                add(None)
                at += 1
            else:
                raise ValueError(f"no value of a row has the type {kind}")
    return list(zip(*[iter(values)] * width)), at


def entries(data: bytes) -> Iterator[Entry]:
    """Yield the changes of an accepted file in its order. Those of a table have one `Table`."""
    at, end = 0, len(data)
    while at < end:
        table, at = _header(data, at)
        count = len(table.flags)
        while at < end and data[at] != _TABLE:
            kind, indirect = data[at], data[at + 1] != 0
            record, at = record_at(data, at + 2, count)
            if kind == _INSERT:
                yield table, "insert", indirect, None, record
            elif kind == _DELETE:
                yield table, "delete", indirect, record, None
            else:
                new, at = record_at(data, at, count)
                yield table, "update", indirect, record, new

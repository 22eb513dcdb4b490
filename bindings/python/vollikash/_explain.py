"""What a fault of a file is, for people.

The reader here takes any bytes. It only finds the part of a file that has a place.
"""
import collections
import itertools
from typing import Generator, Iterator, List, NamedTuple, Optional, Tuple

from ._errors import ChangesetError, Code
from ._files import Bytes, as_bytes
from ._values import shown

_TABLE = 0x54
_OPERATIONS = {0x12: "INSERT", 0x09: "DELETE", 0x17: "UPDATE"}

_AGAIN = "Record the changeset again."

# What is wrong, and what can be done.
_SENTENCES = {
    Code.TRUNCATED: "the file ends here. Get the whole file.",
    Code.NOT_TABLE: "no table begins here. Check that the file is a changeset.",
    Code.PATCHSET: "a patchset begins here. Record it with sqlite3session_changeset.",
    Code.BAD_VARINT: f"a count that is above 2147483647 or not in its shortest form. {_AGAIN}",
    Code.COLUMN_COUNT: f"no column, or more than 32767 columns. {_AGAIN}",
    Code.NO_KEY: f"no key column. {_AGAIN}",
    Code.BAD_NAME: f"a name that is empty or not UTF-8. {_AGAIN}",
    Code.DUPLICATE_TABLE: "the file has this table twice. Concatenate files, do not append them.",
    Code.EMPTY_GROUP: f"the table has no change. {_AGAIN}",
    Code.BAD_OP: f"no INSERT, DELETE or UPDATE begins here. {_AGAIN}",
    Code.BAD_FLAG: f"an indirect flag that is neither 0 nor 1. {_AGAIN}",
    Code.BAD_TYPE: f"a value of no known type. {_AGAIN}",
    Code.REAL_VALUE: "a REAL. Vollikash takes integers, texts, blobs and NULL.",
    Code.BAD_TEXT: "a text that is not UTF-8. Keep such values as blobs.",
    Code.UNDEFINED_FIELD: f"an undefined value, in a key or outside an UPDATE. {_AGAIN}",
    Code.UNPAIRED: f"an UPDATE has a value only before or only after it, or a new key. {_AGAIN}",
    Code.NULL_KEY: f"NULL in a key column. {_AGAIN}",
    Code.DUPLICATE_KEY: "the table has a change of this key before. Concatenate files, do not "
    "append them.",
    Code.SCHEMA: "the table has other columns or another key than before. Record both files on "
    "one schema.",
}

# The faults whose place is after the table that they are of, and those in a header that come before
# the name is known.
_AFTER = {Code.EMPTY_GROUP, Code.PATCHSET}
_NAMELESS = {Code.BAD_VARINT, Code.COLUMN_COUNT, Code.BAD_NAME}


class _Part(NamedTuple):
    """A part of a file: where it begins, and what it is of.

    Numbers are one-based. A header is of no change, and an operation of no column. `columns` is the
    number of the table's columns.
    """

    start: int
    number: int
    name: str
    columns: int = 0
    change: int = 0
    operation: str = ""
    column: int = 0

    def where(self) -> List[str]:
        """Return what the part is of, as texts."""
        words = [f"table {shown(self.name) if self.name else self.number}"]
        if self.change:
            words.append(f"change {self.change}" + f" ({self.operation})" * bool(self.operation))
        if self.column:
            words.append(f"column {self.column}")
        return words

    def fields(self) -> Iterator[int]:
        """Yield the column of each field of the change, in its order."""
        for _ in range(2 if self.operation == "UPDATE" else 1):
            yield from range(1, self.columns + 1)


def _count(data: bytes, at: int) -> Tuple[int, int]:
    """Return the count at an offset, and the offset after it."""
    number = 0
    for place in range(at, at + 5):
        number = number << 7 | data[place] & 0x7F
        if data[place] < 0x80:
            return number, place + 1
    raise ValueError("a count has more than five bytes")


def _field_end(data: bytes, at: int) -> int:
    """Return the offset after a field."""
    kind = data[at]
    if kind in (1, 2):
        return at + 9
    if kind in (3, 4):
        size, content = _count(data, at + 1)
        return content + size
    if kind > 5:
        raise ValueError("a field has no known type")
    return at + 1


def _header(data: bytes, at: int, number: int) -> Tuple[_Part, int]:
    """Return the header at an offset, and the offset after it."""
    try:
        count, flags = _count(data, at + 1)
        end = data.index(0, flags + count)
    except (IndexError, ValueError):
        return _Part(at, number, ""), len(data)
    return _Part(at, number, data[flags + count:end].decode(errors="replace"), count), end + 1


def _changes(data: bytes, at: int, table: _Part) -> Generator[_Part, None, int]:
    """Yield the changes of a table, and return the offset after them."""
    change = 0
    while at < len(data) and data[at] != _TABLE:
        change += 1
        operation = _OPERATIONS.get(data[at], "")
        entry = table._replace(start=at, change=change, operation=operation)
        yield entry
        at += 2
        for _ in entry.fields():
            at = _field_end(data, at)
    return at


def _parts(data: bytes) -> Iterator[_Part]:
    """Yield the headers and changes of a file, as far as it can be read."""
    at, number = 0, 0
    try:
        while data[at] == _TABLE:
            number += 1
            table, at = _header(data, at, number)
            yield table
            at = yield from _changes(data, at, table)
    except (IndexError, ValueError):
        # What was yielded last is the part that ends early, or is malformed.
        return


def _column_at(data: bytes, part: _Part, place: int) -> int:
    """Return the column of a change that has a place, or 0 before the first one."""
    at, found = part.start + 2, 0
    try:
        for column in part.fields():
            if at > place:
                break
            found = column
            at = _field_end(data, at)
    except (IndexError, ValueError):
        # The change goes no further.
        pass
    return found


def _part_at(data: bytes, place: int) -> Optional[_Part]:
    """Return the part of a file that has a place."""
    parts = itertools.takewhile(lambda part: part.start <= place, _parts(data))
    last = collections.deque(parts, 1)
    if not last:
        return None
    part = last[0]
    return part._replace(column=_column_at(data, part, place)) if part.change else part


def _part_of(data: bytes, error: ChangesetError) -> Optional[_Part]:
    """Return the part of a file that an error is for."""
    if error.code == Code.SCHEMA:
        headers = (part for part in _parts(data) if not part.change)
        return next((part for part in headers if part.number == error.place + 1), None)
    if error.code in _AFTER:
        part = _part_at(data, error.place - 1)
        return part and part._replace(change=0, column=0)
    part = _part_at(data, error.place)
    is_nameless = part is not None and not part.change and error.code in _NAMELESS
    return part._replace(name="") if part is not None and is_nameless else part


def explain(file: Bytes, error: ChangesetError, name: Optional[str] = None) -> str:
    """Return a sentence that says where and why a file is refused.

    `file` is the file at fault, and `name` its name, if it has one.
    """
    part = _part_of(as_bytes(file), error)
    words = [] if part is None else part.where()
    if error.code != Code.SCHEMA:
        words.append(f"byte {error.place}")
    elif part is not None:
        words.append(f"byte {part.start}")
    parts = [name, ", ".join(words), _SENTENCES.get(error.code, error.name)]
    return ": ".join(filter(None, parts))

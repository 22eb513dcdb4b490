"""Spelling tables, changes and values as the bytes of a changeset, docs/FORMAT.md."""
import struct
from typing import Iterable, List, NoReturn, Optional, Sequence, Tuple

from ._values import UNDEFINED as LEFT_OUT, Field, Op, shown

_MOST_COLUMNS = 32767
_LONGEST = 0x7FFFFFFF

# Fields without content, and the bytes of operations.
UNDEFINED, NULL = b"\x00", b"\x05"
INSERT, DELETE, UPDATE = b"\x12", b"\x09", b"\x17"

_OPERATIONS = {"insert": INSERT, "delete": DELETE, "update": UPDATE}

integer = struct.Struct(">Bq").pack


class Unfit(ValueError):
    """Something that cannot be in a changeset, and the one-based column, if it is in one."""

    def __init__(self, why: str, column: Optional[int] = None) -> None:
        super().__init__(why if column is None else f"column {column}: {why}")


def varint(number: int) -> bytes:
    """Return the bytes of a count."""
    spelled = [number & 0x7F]
    while number > 0x7F:
        number >>= 7
        spelled.append(number & 0x7F | 0x80)
    return bytes(reversed(spelled))


# What begins a short text and a short blob, by its length in bytes.
TEXTS = [b"\x03" + varint(size) for size in range(256)]
BLOBS = [b"\x04" + varint(size) for size in range(256)]


def utf8(text: str) -> bytes:
    """Return the bytes of a text."""
    try:
        return text.encode()
    except UnicodeEncodeError as error:
        raise Unfit(f"a text that is not Unicode: {error.reason}") from None


def sized(starts: Sequence[bytes], content: bytes) -> bytes:
    """Return the bytes of a text or a blob."""
    size = len(content)
    if size < len(starts):
        return starts[size] + content
    if size > _LONGEST:
        raise Unfit(f"{size} bytes. A text or a blob has at most {_LONGEST}")
    return starts[0][:1] + varint(size) + content


def spelled(value: object) -> bytes:
    """Return the bytes of a field. Raise `Unfit` for what cannot be one."""
    if isinstance(value, str):
        return sized(TEXTS, utf8(value))
    if isinstance(value, int) and value is not True and value is not False:
        try:
            return integer(1, value)
        except struct.error:
            raise Unfit("an int of more than 64 bits") from None
    if value is None:
        return NULL
    if value is LEFT_OUT:
        return UNDEFINED
    if isinstance(value, (bytes, bytearray, memoryview)):
        return sized(BLOBS, bytes(value))
    kind = type(value).__name__
    raise Unfit(f"a {kind}, and not an int of 64 bits, str, bytes or None")


def flags_of(key: Iterable[int]) -> bytes:
    """Return the flags of a table's columns: bools, or the numbers that a file has."""
    flags = list(key)
    if not 1 <= len(flags) <= _MOST_COLUMNS:
        raise Unfit(f"{len(flags)} columns. A table has 1 to {_MOST_COLUMNS}")
    for column, flag in enumerate(flags, 1):
        if not isinstance(flag, int) or not 0 <= flag <= 255:
            raise Unfit("a flag is a bool or a number from 0 to 255", column)
    if not any(flags):
        raise Unfit("no key column")
    return bytes(flags)


def header(name: str, flags: bytes) -> bytes:
    """Return the header of a table. Raise `Unfit` for a name that no table has."""
    if not isinstance(name, str):
        raise Unfit(f"a name is a str, and not a {type(name).__name__}")
    if not name or "\0" in name:
        raise Unfit(f"the name {shown(name)} is empty or has a zero character")
    return b"".join((b"T", varint(len(flags)), flags, utf8(name), b"\0"))


class Encoder:
    """Spells the changes of a table with these flags."""

    def __init__(self, flags: bytes) -> None:
        self._count = len(flags)
        self._keys = [place for place, flag in enumerate(flags) if flag]
        self._others = [place for place, flag in enumerate(flags) if not flag]

    def entry(
        self,
        op: Op,
        indirect: bool,
        old: Optional[Sequence[Field]],
        new: Optional[Sequence[Field]],
    ) -> Tuple[bytes, bytes]:
        """Return the bytes of a change's key, and those of the change. Raise `Unfit`."""
        later: List[bytes] = []
        if op == "insert":
            fields = self._row(new, old, "new")
        elif op == "delete":
            fields = self._row(old, new, "old")
        elif op == "update":
            fields, later = self._record(old, "old"), self._record(new, "new")
            self._expect_update(fields, later)
        else:
            raise Unfit(f"the operation {op!r} is not insert, update or delete")
        start = _OPERATIONS[op] + (b"\x01" if indirect else b"\x00")
        return self._key(fields), b"".join((start, *fields, *later))

    def _row(
        self,
        record: Optional[Sequence[Field]],
        other: Optional[Sequence[Field]],
        name: str,
    ) -> List[bytes]:
        """Return the bytes of each field of the one record of an INSERT or a DELETE."""
        fields = self._record(record, name)
        if other is not None:
            raise Unfit(f"it has two records, and not only `{name}`")
        if UNDEFINED in fields:
            raise Unfit("UNDEFINED outside an update", fields.index(UNDEFINED) + 1)
        return fields

    def _key(self, fields: List[bytes]) -> bytes:
        """Return the bytes of the key."""
        key = [fields[place] for place in self._keys]
        if NULL in key:
            raise Unfit("None in a key column", self._keys[key.index(NULL)] + 1)
        return b"".join(key)

    def _record(self, record: Optional[Sequence[Field]], name: str) -> List[bytes]:
        """Return the bytes of each field of a record that is not missing."""
        if record is None:
            raise Unfit(f"`{name}` is missing")
        return self.fields(record)

    def fields(self, record: Sequence[Field]) -> List[bytes]:
        """Return the bytes of each field of a record. Raise `Unfit`."""
        if len(record) != self._count:
            raise Unfit(f"{len(record)} values for {self._count} columns")
        try:
            return list(map(spelled, record))
        except Unfit:
            self._raise_for_column(record)

    def _raise_for_column(self, record: Sequence[Field]) -> NoReturn:
        """Raise `Unfit` for the first value that cannot be in a changeset, with its column."""
        for column, value in enumerate(record, 1):
            try:
                spelled(value)
            except Unfit as error:
                raise Unfit(str(error), column) from None
        raise AssertionError("a value was refused, and is not now")

    def _expect_update(self, old: List[bytes], new: List[bytes]) -> None:
        """Raise `Unfit` if the records are not those of an UPDATE."""
        for place in self._keys:
            if old[place] == UNDEFINED:
                raise Unfit("UNDEFINED in a key column of `old`", place + 1)
            if new[place] != UNDEFINED:
                raise Unfit("a key column of `new` has a value, and not UNDEFINED", place + 1)
        for place in self._others:
            if (old[place] == UNDEFINED) != (new[place] == UNDEFINED):
                raise Unfit("UNDEFINED in only one of `old` and `new`", place + 1)

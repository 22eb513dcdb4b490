"""Changesets as JSON, docs/PYTHON.md.

Both directions keep one change in memory, next to the bytes of the file.
"""
import json
import re
from typing import (
    Any, Callable, Dict, Iterator, List, NoReturn, Optional, Sequence, Set, TextIO, Tuple, Union,
)

from ._decoding import Table, entries
from ._encoding import Encoder, Unfit, flags_of, header
from ._errors import JsonError
from ._files import Bytes, as_bytes, check
from ._values import UNDEFINED, Field, Record, shown

# How many characters of a stream are read at once.
_CHUNK = 1 << 16

# The largest integer that every reader of JSON keeps exactly, as a number.
_EXACT = (1 << 53) - 1

# How many digits an integer of 64 bits has at most, with its sign.
_LONGEST_INTEGER = 20

_text = json.JSONEncoder().encode

# Returns the names of a table's columns, by its name and its flags.
Columns = Callable[[str, bytes], Sequence[str]]


def numbered(table: str, flags: bytes) -> List[str]:
    """Return the names that columns have without a schema: c1, c2 and so on."""
    return [f"c{number}" for number in range(1, len(flags) + 1)]


def _field(value: Field) -> str:
    """Return a defined field as JSON."""
    if isinstance(value, int):
        return str(value) if -_EXACT <= value <= _EXACT else f'{{"integer": "{value}"}}'
    if isinstance(value, str):
        return _text(value)
    return f'{{"blob": "{value.hex()}"}}' if isinstance(value, bytes) else "null"


def _record(record: Record, names: Sequence[str]) -> str:
    """Return the defined fields of a record as JSON, by the names of their columns as JSON."""
    fields = [
        f"{name}: {_field(value)}"
        for name, value in zip(names, record)
        if value is not UNDEFINED
    ]
    return "{" + ", ".join(fields) + "}"


def _start(table: Table, is_first: bool) -> str:
    """Return the JSON of a table up to its changes, and the end of the table before it."""
    end = "\n" if is_first else "\n]},\n"
    flags = ", ".join(map(str, table.flags))
    return f'{end}{{"table": {_text(table.name)}, "flags": [{flags}], "changes": [\n'


def pieces(data: bytes, columns: Columns = numbered) -> Iterator[str]:
    """Yield the JSON of an accepted file in parts, one for each change."""
    last: Optional[Table] = None
    names: List[str] = []
    yield "["
    for table, op, indirect, old, new in entries(data):
        start = ",\n"
        if table is not last:
            names = list(map(_text, columns(table.name, table.flags)))
            start = _start(table, last is None)
        parts = [start, f'{{"op": "{op}"']
        last = table
        if indirect:
            parts.append(', "indirect": true')
        if old is not None:
            parts.append(f', "old": {_record(old, names)}')
        if new is not None:
            parts.append(f', "new": {_record(new, names)}')
        yield "".join(parts) + "}"
    yield "]\n" if last is None else "\n]}\n]\n"


def to_json(file: Bytes) -> str:
    """Return a changeset as JSON. Raises `ChangesetError`."""
    data = as_bytes(file)
    check(data)
    return "".join(pieces(data))


def write_json(file: Bytes, stream: TextIO) -> None:
    """Write a changeset as JSON into a text stream. Raises `ChangesetError`."""
    data = as_bytes(file)
    check(data)
    stream.writelines(pieces(data))


def _integer(digits: str) -> int:
    """Return an integer of a JSON text."""
    if len(digits) > _LONGEST_INTEGER:
        raise ValueError("an integer of more than 64 bits")
    return int(digits)


def _refuse(number: str) -> NoReturn:
    """Raise ValueError for a number that is no integer."""
    raise ValueError("a number that is not an integer")


def _members(pairs: List[Tuple[str, Any]]) -> Dict[str, Any]:
    """Return the members of an object."""
    members = dict(pairs)
    if len(members) < len(pairs):
        seen: Set[str] = set()
        for name, _ in pairs:
            if name in seen:
                raise ValueError(f"the member {shown(name)} is there twice")
            seen.add(name)
    return members


_DECODER = json.JSONDecoder(
    object_pairs_hook=_members, parse_int=_integer, parse_float=_refuse, parse_constant=_refuse
)

# The members of a change.
_MEMBERS = frozenset(("op", "indirect", "old", "new"))

# The objects that are values: their member, what it has to be, and how it is read.
_WRAPPED: Tuple[Tuple[str, "re.Pattern[str]", Callable[[str], Field]], ...] = (
    ("blob", re.compile("(?:[0-9a-fA-F]{2})*"), bytes.fromhex),
    ("integer", re.compile("-?[0-9]{1,19}"), int),
)

# No word or escape of JSON has more characters, and no more are needed to see that an integer is
# followed by an exponent.
_TOKEN, _EXPONENT = 16, 3

_BLANKS = " \t\r\n"
_SPACE = re.compile(f"[{_BLANKS}]*")


class _Text:
    """A JSON text that is read from a stream as it is needed. What was taken of it is dropped."""

    def __init__(self, read: Callable[[int], str], text: str = "") -> None:
        self._read = read
        self._text = text
        self._at = 0
        # Where the last value begins.
        self._start = 0
        # The line of the first character of `_text`, and how many characters are before it there.
        self._line, self._before = 1, 0

    def _read_more(self) -> bool:
        """Read at least as much as there is, so that all work is linear. Return whether there was
        more.
        """
        self._drop()
        more = self._read(max(_CHUNK, len(self._text)))
        if not isinstance(more, str):
            raise TypeError(f"a stream of JSON reads str, and not {type(more).__name__}")
        self._text += more
        return bool(more)

    def _drop(self) -> None:
        """Drop what was taken."""
        lines = self._text.count("\n", 0, self._at)
        newest = self._text.rfind("\n", 0, self._at)
        self._before = self._at - newest - 1 + (0 if lines else self._before)
        self._line += lines
        self._text, self._at, self._start = self._text[self._at:], 0, 0

    def _fail(self, why: str, at: int) -> NoReturn:
        """Raise `JsonError` for an offset in `_text`."""
        self._at = at
        self._drop()
        raise JsonError(why, self._line, self._before + 1)

    def fail(self, why: str) -> NoReturn:
        """Raise `JsonError` for the next character."""
        self._fail(why, self._at)

    def fail_value(self, why: str) -> NoReturn:
        """Raise `JsonError` for the value that was taken last."""
        self._fail(why, self._start)

    def peek(self) -> str:
        """Return the next character that is not blank, or "" at the end."""
        while True:
            following = self._text[self._at:self._at + 1]
            if following in _BLANKS:
                found = _SPACE.match(self._text, self._at)
                self._at = found.end() if found else self._at
                following = self._text[self._at:self._at + 1]
            if following or not self._read_more():
                return following

    def take(self, wanted: str) -> str:
        """Take one of these characters."""
        found = self.peek()
        if not found or found not in wanted:
            self.fail(f"{' or '.join(wanted)} is missing")
        self._at += 1
        return found

    def value(self) -> Any:
        """Take a value."""
        self.peek()
        while True:
            try:
                value, end = _DECODER.raw_decode(self._text, self._at)
            except json.JSONDecodeError as error:
                ahead = error.pos - self._at
                if not self._may_go_on(error) or not self._read_more():
                    self._fail(error.msg, self._at + ahead)
            except RecursionError:
                self.fail("too many values in one another")
            except ValueError as error:
                self.fail(str(error))
            else:
                ahead = end - self._at
                may_go_on = isinstance(value, int) and end + _EXPONENT > len(self._text)
                if not may_go_on or not self._read_more():
                    self._start, self._at = self._at, self._at + ahead
                    return value

    def _may_go_on(self, error: json.JSONDecodeError) -> bool:
        """Return whether an error may be only that the rest of a value was not read."""
        return error.msg.startswith("Unterminated") or error.pos + _TOKEN > len(self._text)

    def items(self, brackets: str) -> Iterator[None]:
        """Go to each item of an array or an object. The caller takes it."""
        self.take(brackets[0])
        if self.peek() == brackets[1]:
            self.take(brackets[1])
            return
        while True:
            yield
            if self.take("," + brackets[1]) != ",":
                return


class _Spelling:
    """Makes the bytes of the changes of a table with these flags."""

    def __init__(self, flags: bytes) -> None:
        self._spell = Encoder(flags).entry
        self._columns = {name: place for place, name in enumerate(numbered("", flags))}
        self._keys: Set[bytes] = set()

    def entry(self, change: Any) -> bytes:
        """Return the bytes of a change. Raise `Unfit`."""
        if not isinstance(change, dict):
            raise Unfit("a change is not an object")
        if not _MEMBERS.issuperset(change):
            raise Unfit(f"a change has no member {shown(min(change.keys() - _MEMBERS))}")
        op, indirect = change.get("op"), change.get("indirect", False)
        if op not in ("insert", "update", "delete"):
            raise Unfit('"op" is not "insert", "update" or "delete"')
        if not isinstance(indirect, bool):
            raise Unfit('"indirect" is not true or false')
        old, new = self._record(change, "old"), self._record(change, "new")
        key, entry = self._spell(op, indirect, old, new)
        if key in self._keys:
            raise Unfit("the table has a change of this key before")
        self._keys.add(key)
        return entry

    def _record(self, change: Dict[str, Any], name: str) -> Optional[List[Field]]:
        """Return a record of a change."""
        if name not in change:
            return None
        members = change[name]
        if not isinstance(members, dict):
            raise Unfit(f'"{name}" is not an object')
        fields: List[Field] = [UNDEFINED] * len(self._columns)
        for column, value in members.items():
            place = self._columns.get(column)
            if place is None:
                raise Unfit(f"{shown(column)} is none of the columns c1 to c{len(fields)}")
            fields[place] = _unwrapped(value, place + 1) if isinstance(value, dict) else value
        return fields


def _unwrapped(members: Dict[str, Any], column: int) -> Field:
    """Return the value of an object with one member."""
    for kind, form, read in _WRAPPED:
        text = members.get(kind)
        if len(members) == 1 and isinstance(text, str) and form.fullmatch(text):
            return read(text)
    raise Unfit('an object that is neither {"blob": HEX} nor {"integer": DIGITS}', column)


class _Reader:
    """Makes a file of a JSON text."""

    def __init__(self, text: _Text) -> None:
        self._text = text
        self._names: Set[str] = set()
        self._parts: List[bytes] = []

    def read(self) -> bytes:
        """Return the file."""
        for _ in self._text.items("[]"):
            self._read_table()
        if self._text.peek():
            self._text.fail("the text goes on after the changeset")
        data = b"".join(self._parts)
        check(data)
        return data

    def _read_table(self) -> None:
        """Read a table. Its changes are kept if its name and its flags are after them."""
        members: Dict[str, Any] = {}
        for _ in self._text.items("{}"):
            name = self._text.value()
            if name not in ("table", "flags", "changes") or name in members:
                self._text.fail_value('a table has "table", "flags" and "changes", each once')
            self._text.take(":")
            if name != "changes":
                members[name] = self._read_member(name)
            elif len(members) == 2:
                members[name] = None
                self._add(members["table"], members["flags"], self._values())
            else:
                members[name] = list(self._values())
        if len(members) < 3:
            self._text.fail('a table lacks "table", "flags" or "changes"')
        if members["changes"] is not None:
            self._add(members["table"], members["flags"], iter(members["changes"]))

    def _read_member(self, name: str) -> Union[str, bytes]:
        """Return the name or the flags of a table."""
        value = self._text.value()
        try:
            if name == "flags":
                if not isinstance(value, list):
                    raise Unfit('"flags" is not an array')
                return flags_of(value)
            header(value, b"")
            if value in self._names:
                raise Unfit(f"{shown(value)} is there before")
        except Unfit as error:
            self._text.fail_value(f"a table: {error}")
        self._names.add(value)
        return str(value)

    def _values(self) -> Iterator[Any]:
        """Yield the changes of a table."""
        for _ in self._text.items("[]"):
            yield self._text.value()

    def _add(self, name: str, flags: bytes, changes: Iterator[Any]) -> None:
        """Add the bytes of a table and its changes."""
        spelling, count = _Spelling(flags), 0
        self._parts.append(header(name, flags))
        for count, change in enumerate(changes, 1):
            try:
                self._parts.append(spelling.entry(change))
            except Unfit as error:
                self._text.fail_value(f"table {shown(name)}, change {count}, {error}")
        if count == 0:
            self._text.fail(f"table {shown(name)} has no change")


def read_json(stream: TextIO) -> bytes:
    """Return the changeset whose JSON a text stream has. Raises `JsonError`."""
    return _Reader(_Text(stream.read)).read()


def from_json(text: str) -> bytes:
    """Return the changeset of a JSON text. Raises `JsonError`."""
    if not isinstance(text, str):
        raise TypeError(f"a JSON text is a str, and not {type(text).__name__}")
    return _Reader(_Text(lambda size: "", text)).read()

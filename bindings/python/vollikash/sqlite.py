"""Ordinary SQLite tables, whose changes are recorded and applied by SQLite's own library.

SQLite changes the tables. The calls of `vollikash` on files look into the changesets, and invert
and concatenate them. The library of the machine is called by ctypes, and has to have the session
extension.
"""
import ctypes
import ctypes.util
import functools
import os
from types import TracebackType
from typing import (
    Any, Callable, Dict, List, Literal, NamedTuple, Optional, Sequence, Tuple, Type, Union, cast,
)

from ._changes import Change
from ._conflicts import CHOICES, Choice
from ._errors import KINDS, Code, ConflictError, Error
from ._files import Bytes, as_bytes, check
from ._values import UNDEFINED, Op, Record, defined

# What ordinary tables hold.
SqliteValue = Union[int, float, str, bytes, None]
SqliteRow = Tuple[SqliteValue, ...]

Kind = Literal["data", "notfound", "conflict", "constraint", "foreign_key"]

_ANSWERS = {"omit": 0, "replace": 1, "abort": 2}

_OK, _ABORT, _ROW, _DONE = 0, 4, 100, 101
_OPERATIONS: Dict[int, Op] = {18: "insert", 9: "delete", 23: "update"}
_INTEGER, _FLOAT, _TEXT, _BLOB = 1, 2, 3, 4
_READ_WRITE_CREATE = 0x2 | 0x4 | 0x10000
_IGNORE_NOOP, _IGNORE_NOOP_SINCE = 0x4, 3042000
_LONGEST = 0x7FFFFFFF
# SQLite copies what is bound.
_COPY = ctypes.c_void_p(-1)

_P, _I = ctypes.c_void_p, ctypes.c_int
_HANDLER = ctypes.CFUNCTYPE(_I, _P, _I, _P)


def _out(kind: Any) -> Any:
    """Return the type of a pointer through which a call returns something."""
    return ctypes.POINTER(kind)


_CALLS = {
    "sqlite3_libversion_number": (_I, ()),
    "sqlite3_open_v2": (_I, (ctypes.c_char_p, _out(_P), _I, ctypes.c_char_p)),
    "sqlite3_close_v2": (_I, (_P,)),
    "sqlite3_errmsg": (ctypes.c_char_p, (_P,)),
    "sqlite3_errcode": (_I, (_P,)),
    "sqlite3_errstr": (ctypes.c_char_p, (_I,)),
    "sqlite3_free": (None, (_P,)),
    "sqlite3_prepare_v2": (_I, (_P, ctypes.c_char_p, _I, _out(_P), _out(_P))),
    "sqlite3_step": (_I, (_P,)),
    "sqlite3_finalize": (_I, (_P,)),
    "sqlite3_bind_int64": (_I, (_P, _I, ctypes.c_int64)),
    "sqlite3_bind_double": (_I, (_P, _I, ctypes.c_double)),
    "sqlite3_bind_text": (_I, (_P, _I, ctypes.c_char_p, _I, _P)),
    "sqlite3_bind_blob": (_I, (_P, _I, ctypes.c_char_p, _I, _P)),
    "sqlite3_bind_parameter_count": (_I, (_P,)),
    "sqlite3_column_count": (_I, (_P,)),
    "sqlite3_column_type": (_I, (_P, _I)),
    "sqlite3_column_int64": (ctypes.c_int64, (_P, _I)),
    "sqlite3_column_double": (ctypes.c_double, (_P, _I)),
    "sqlite3_column_blob": (_P, (_P, _I)),
    "sqlite3_column_bytes": (_I, (_P, _I)),
    "sqlite3_value_type": (_I, (_P,)),
    "sqlite3_value_int64": (ctypes.c_int64, (_P,)),
    "sqlite3_value_double": (ctypes.c_double, (_P,)),
    "sqlite3_value_blob": (_P, (_P,)),
    "sqlite3_value_bytes": (_I, (_P,)),
    "sqlite3session_create": (_I, (_P, ctypes.c_char_p, _out(_P))),
    "sqlite3session_attach": (_I, (_P, ctypes.c_char_p)),
    "sqlite3session_changeset": (_I, (_P, _out(_I), _out(_P))),
    "sqlite3session_isempty": (_I, (_P,)),
    "sqlite3session_delete": (None, (_P,)),
    "sqlite3changeset_apply_v2": (
        _I, (_P, _I, ctypes.c_char_p, _P, _HANDLER, _P, _P, _P, _I)
    ),
    "sqlite3changeset_op": (_I, (_P, _out(ctypes.c_char_p), _out(_I), _out(_I), _out(_I))),
    "sqlite3changeset_pk": (_I, (_P, _out(_out(ctypes.c_ubyte)), _out(_I))),
    "sqlite3changeset_old": (_I, (_P, _I, _out(_P))),
    "sqlite3changeset_new": (_I, (_P, _I, _out(_P))),
    "sqlite3changeset_conflict": (_I, (_P, _I, _out(_P))),
}


class SqliteError(Error):
    """SQLite's library refused a call, is missing, or has no session extension.

    `code` is SQLite's result code, or 0 without one.
    """

    def __init__(self, why: str, code: int = 0) -> None:
        super().__init__(why)
        self.code = code


class PendingConflict(NamedTuple):
    """A conflict that is to be decided: its kind, the change, and the current row of its key.

    A conflict of the kind "foreign_key" is of the whole changeset, and has no change.
    """

    kind: Kind
    change: Optional[Change]
    current: Optional[SqliteRow]


Handler = Callable[[PendingConflict], Choice]


@functools.lru_cache(maxsize=None)
def _library() -> ctypes.CDLL:
    """Return the library, with the types of its calls."""
    try:
        library = ctypes.CDLL(ctypes.util.find_library("sqlite3") or "libsqlite3.so.0")
    except OSError as error:
        raise SqliteError(f"there is no SQLite library: {error}") from None
    for name, (result, arguments) in _CALLS.items():
        try:
            call = getattr(library, name)
        except AttributeError:
            raise SqliteError(f"SQLite's library has no session extension: no {name}") from None
        call.restype, call.argtypes = result, arguments
    return library


def _size(data: bytes) -> int:
    """Return how many bytes there are, as a number that SQLite's calls take."""
    if len(data) > _LONGEST:
        raise SqliteError(f"{len(data)} bytes: SQLite takes at most {_LONGEST}")
    return len(data)


def _value(prefix: str, *where: Any) -> SqliteValue:
    """Return a value, by the calls of SQLite whose names begin so."""

    def call(name: str) -> Any:
        return getattr(_library(), f"{prefix}_{name}")(*where)

    kind = call("type")
    if kind == _INTEGER:
        return int(call("int64"))
    if kind == _FLOAT:
        return float(call("double"))
    if kind not in (_TEXT, _BLOB):
        return None
    start = call("blob")
    content = ctypes.string_at(start, call("bytes")) if start else b""
    return content.decode() if kind == _TEXT else content


def _c_text(what: str, text: str) -> bytes:
    """Return a text as C has it."""
    if "\0" in text:
        raise ValueError(f"{what} has a zero character")
    return text.encode()


def _record(call: Callable[..., int], cursor: int, count: int) -> Tuple[Any, ...]:
    """Return the fields that a call returns for each column of a change."""
    fields: List[Any] = []
    for column in range(count):
        pointer = _P()
        call(cursor, column, ctypes.byref(pointer))
        is_there = pointer.value is not None
        fields.append(_value("sqlite3_value", pointer) if is_there else UNDEFINED)
    return tuple(fields)


def _change(cursor: int) -> Change:
    """Return the change that a cursor is at."""
    library = _library()
    name, count, op, indirect = ctypes.c_char_p(), _I(), _I(), _I()
    library.sqlite3changeset_op(cursor, *map(ctypes.byref, (name, count, op, indirect)))
    flags = ctypes.POINTER(ctypes.c_ubyte)()
    library.sqlite3changeset_pk(cursor, ctypes.byref(flags), None)
    operation = _OPERATIONS[op.value]
    old: Optional[Record] = None
    new: Optional[Record] = None
    if operation != "insert":
        old = _record(library.sqlite3changeset_old, cursor, count.value)
    if operation != "delete":
        new = _record(library.sqlite3changeset_new, cursor, count.value)
    table = (name.value or b"").decode()
    return Change(table, operation, bool(indirect.value), old, new, bytes(flags[:count.value]))


class _Deciding:
    """The conflict handler of one apply. An exception of the caller's function ends the apply."""

    def __init__(self, handler: Optional[Handler]) -> None:
        self._handler = handler
        self.error: Optional[BaseException] = None

    def __call__(self, _: Optional[int], kind: int, cursor: int) -> int:
        """Return SQLite's number for what is to be done about a conflict."""
        try:
            return _ANSWERS[self._choose(kind, cursor)]
        except BaseException as error:
            self.error = error
            return _ANSWERS["abort"]

    def _choose(self, number: int, cursor: int) -> Choice:
        """Return the choice for a conflict. Raise the error that ends the apply."""
        kind = cast(Kind, KINDS[number])
        change = None if kind == "foreign_key" else _change(cursor)
        current: Optional[SqliteRow] = None
        if change is not None and kind in ("data", "conflict"):
            current = _record(_library().sqlite3changeset_conflict, cursor, len(change.flags))
        handler = self._handler
        choice = "abort" if handler is None else handler(PendingConflict(kind, change, current))
        if choice not in CHOICES:
            raise ValueError(f"a choice is one of {', '.join(CHOICES)}, and not {choice!r}")
        is_misuse = choice == "replace" and kind not in ("data", "conflict")
        if choice == "abort" or is_misuse:
            code = Code.MISUSE if is_misuse else Code.ABORT
            if change is None:
                raise ConflictError(code, detail=number)
            raise ConflictError(code, change.table, None, defined(change.key), number)
        return choice


class Database:
    """An ordinary database in a file, or in memory for the path ":memory:".

    One thread uses it at a time. A refused call raises `SqliteError`.
    """

    def __init__(self, path: Union[str, "os.PathLike[str]"]) -> None:
        self._base = _P()
        self._sessions: List["Session"] = []
        name = _c_text("the path", os.fspath(path))
        code = _library().sqlite3_open_v2(name, ctypes.byref(self._base), _READ_WRITE_CREATE, None)
        try:
            self._expect(code)
        except SqliteError:
            self.close()
            raise

    def __enter__(self) -> "Database":
        return self

    def __exit__(
        self,
        kind: Optional[Type[BaseException]],
        error: Optional[BaseException],
        trace: Optional[TracebackType],
    ) -> None:
        self.close()

    def close(self) -> None:
        """Close the database, and its sessions before it."""
        for session in self._sessions[:]:
            session.close()
        base, self._base = self._base, _P()
        _library().sqlite3_close_v2(base)

    def _open(self) -> ctypes.c_void_p:
        """Return the connection."""
        if self._base.value is None:
            raise SqliteError("the database is closed")
        return self._base

    def _expect(self, code: int) -> None:
        """Raise `SqliteError` for a result code that is not SQLITE_OK."""
        if code != _OK:
            library = _library()
            # A call that does not go by the connection leaves no message there.
            is_told = self._base.value is not None and library.sqlite3_errcode(self._base) == code
            said = library.sqlite3_errmsg(self._base) if is_told else library.sqlite3_errstr(code)
            why = (said or b"").decode(errors="replace")
            raise SqliteError(f"SQLite's result code {code}: {why}", code)

    def execute(self, statement: str, parameters: Sequence[SqliteValue] = ()) -> List[SqliteRow]:
        """Run one SQL statement, with a value for each `?`, and return its rows."""
        if isinstance(parameters, (str, bytes)) or not isinstance(parameters, Sequence):
            raise ValueError("the parameters are a sequence, with a value for each `?`")
        query, rest = self._prepared(_c_text("the statement", statement))
        try:
            self._expect_none(rest)
            if query.value is None:
                return []
            self._bind(query, parameters)
            return self._rows(query)
        finally:
            _library().sqlite3_finalize(query)

    def _expect_none(self, text: bytes) -> None:
        """Raise ValueError if a text has a statement."""
        try:
            query, _ = self._prepared(text)
            is_blank = query.value is None
            _library().sqlite3_finalize(query)
        except SqliteError:
            is_blank = False
        if not is_blank:
            raise ValueError("execute runs one statement")

    def _prepared(self, text: bytes) -> Tuple[ctypes.c_void_p, bytes]:
        """Return the first statement of a text, or a null pointer if it has none, and the text
        after it.
        """
        query, rest, given = _P(), _P(), ctypes.create_string_buffer(text)
        self._expect(_library().sqlite3_prepare_v2(
            self._open(), given, -1, ctypes.byref(query), ctypes.byref(rest)
        ))
        return query, ctypes.string_at(rest) if rest.value else b""

    def _bind(self, query: ctypes.c_void_p, parameters: Sequence[SqliteValue]) -> None:
        """Bind the parameters of a statement."""
        library = _library()
        count = library.sqlite3_bind_parameter_count(query)
        if len(parameters) != count:
            raise ValueError(f"{len(parameters)} values for {count} parameters")
        for number, value in enumerate(parameters, 1):
            if isinstance(value, int):
                if not -(1 << 63) <= value < 1 << 63:
                    raise ValueError(f"parameter {number}: an int of more than 64 bits")
                self._expect(library.sqlite3_bind_int64(query, number, value))
            elif isinstance(value, float):
                self._expect(library.sqlite3_bind_double(query, number, value))
            elif isinstance(value, str):
                data = value.encode()
                self._expect(library.sqlite3_bind_text(query, number, data, _size(data), _COPY))
            elif isinstance(value, (bytes, bytearray, memoryview)):
                data = bytes(value)
                self._expect(library.sqlite3_bind_blob(query, number, data, _size(data), _COPY))
            elif value is not None:
                raise ValueError(f"parameter {number}: a {type(value).__name__}")

    def _rows(self, query: ctypes.c_void_p) -> List[SqliteRow]:
        """Run a statement, and return its rows."""
        library, rows = _library(), []
        code = library.sqlite3_step(query)
        columns = range(library.sqlite3_column_count(query))
        while code == _ROW:
            rows.append(tuple(_value("sqlite3_column", query, column) for column in columns))
            code = library.sqlite3_step(query)
        self._expect(_OK if code == _DONE else code)
        return rows

    def session(self, *tables: str) -> "Session":
        """Open a session that records these tables, or all tables that have a primary key."""
        return Session(self, tables)

    def apply(
        self, file: Bytes, *, on_conflict: Optional[Handler] = None, ignore_noop: bool = False
    ) -> None:
        """Apply a changeset in one transaction.

        `on_conflict` is called for each conflict as SQLite has it, and returns "omit", "replace" or
        "abort". Without it, and with "abort", the first conflict raises `ConflictError`, and
        nothing is changed. With `ignore_noop`, from SQLite 3.42 on, a change that has a conflict
        and would change nothing is ignored. Raises `ChangesetError` for what is no changeset.

        SQLite skips a table that it does not have, or has with another key. A changeset of a store
        needs `number_keys` if a key has several columns.
        """
        data, library = as_bytes(file), _library()
        check(data)
        if ignore_noop and library.sqlite3_libversion_number() < _IGNORE_NOOP_SINCE:
            raise SqliteError("SQLite ignores no-ops only from 3.42 on")
        deciding = _Deciding(on_conflict)
        flags = _IGNORE_NOOP if ignore_noop else 0
        code = library.sqlite3changeset_apply_v2(
            self._open(), _size(data), data, None, _HANDLER(deciding), None, None, None, flags
        )
        if deciding.error is not None:
            raise deciding.error
        self._expect(code)


class Session:
    """The changes of tables of a database since it was opened. Made by `Database.session`."""

    def __init__(self, database: Database, tables: Sequence[str]) -> None:
        self._database, self._session = database, _P()
        library = _library()
        code = library.sqlite3session_create(
            database._open(), b"main", ctypes.byref(self._session)
        )
        database._expect(code)
        database._sessions.append(self)
        for table in tables or (None,):
            name = None if table is None else _c_text("the name", table)
            database._expect(library.sqlite3session_attach(self._session, name))

    def __enter__(self) -> "Session":
        return self

    def __exit__(
        self,
        kind: Optional[Type[BaseException]],
        error: Optional[BaseException],
        trace: Optional[TracebackType],
    ) -> None:
        self.close()

    def _open(self) -> ctypes.c_void_p:
        """Return the session."""
        if self._session.value is None:
            raise SqliteError("the session is closed")
        return self._session

    def changeset(self) -> bytes:
        """Return the changeset file of the net changes, as SQLite records it."""
        library, size, made = _library(), _I(), _P()
        self._database._expect(library.sqlite3session_changeset(
            self._open(), ctypes.byref(size), ctypes.byref(made)
        ))
        try:
            return ctypes.string_at(made, size.value) if made.value else b""
        finally:
            library.sqlite3_free(made)

    def is_empty(self) -> bool:
        """Return whether nothing was changed."""
        return bool(_library().sqlite3session_isempty(self._open()))

    def close(self) -> None:
        """Close the session, and change no row."""
        session, self._session = self._session, _P()
        if session.value is not None:
            _library().sqlite3session_delete(session)
            self._database._sessions.remove(self)

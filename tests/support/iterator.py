"""SQLite's own iterator over changesets, by ctypes on the library of the machine."""
import ctypes
import ctypes.util

ROW, DONE = 100, 101
INSERT, DELETE, UPDATE = 18, 9, 23
INTEGER, REAL, TEXT, BLOB, NULL = 1, 2, 3, 4, 5

OPERATIONS = {INSERT: "insert", DELETE: "delete", UPDATE: "update"}

# A column that an UPDATE leaves out, and the value of a field that is a REAL.
UNDEFINED, IS_REAL = object(), object()

_POINTER, _INT = ctypes.c_void_p, ctypes.c_int
_CALLS = {
    "sqlite3changeset_start": (_INT, (ctypes.POINTER(_POINTER), _INT, ctypes.c_char_p)),
    "sqlite3changeset_next": (_INT, (_POINTER,)),
    "sqlite3changeset_op": (
        _INT, (_POINTER, ctypes.POINTER(ctypes.c_char_p), *(ctypes.POINTER(_INT),) * 3)
    ),
    "sqlite3changeset_pk": (
        _INT, (_POINTER, ctypes.POINTER(ctypes.POINTER(ctypes.c_ubyte)), ctypes.POINTER(_INT))
    ),
    "sqlite3changeset_old": (_INT, (_POINTER, _INT, ctypes.POINTER(_POINTER))),
    "sqlite3changeset_new": (_INT, (_POINTER, _INT, ctypes.POINTER(_POINTER))),
    "sqlite3changeset_finalize": (_INT, (_POINTER,)),
    "sqlite3_value_type": (_INT, (_POINTER,)),
    "sqlite3_value_int64": (ctypes.c_int64, (_POINTER,)),
    "sqlite3_value_blob": (_POINTER, (_POINTER,)),
    "sqlite3_value_bytes": (_INT, (_POINTER,)),
}


def library():
    """Return SQLite's library, or None where there is none with the session extension."""
    try:
        found = ctypes.CDLL(ctypes.util.find_library("sqlite3") or "libsqlite3.so.0")
        for name, (result, arguments) in _CALLS.items():
            call = getattr(found, name)
            call.restype, call.argtypes = result, arguments
    except (OSError, AttributeError):
        return None
    return found


class Iterator:
    """The changes of a file as SQLite reads them: the table, the operation, the indirect flag, the
    old record and the new one. A record is a tuple, or None.
    """

    def __init__(self, sqlite, data):
        self._sqlite, self._data = sqlite, data
        # How the iteration has ended, and the flags of the table of the current change.
        self.code, self.flags = None, b""

    def __iter__(self):
        sqlite, cursor = self._sqlite, _POINTER()
        self.code = sqlite.sqlite3changeset_start(ctypes.byref(cursor), len(self._data), self._data)
        if self.code:
            return
        name, count, op, indirect = ctypes.c_char_p(), _INT(), _INT(), _INT()
        parts = [ctypes.byref(part) for part in (name, count, op, indirect)]
        flags = ctypes.POINTER(ctypes.c_ubyte)()
        try:
            while sqlite.sqlite3changeset_next(cursor) == ROW:
                sqlite.sqlite3changeset_op(cursor, *parts)
                sqlite.sqlite3changeset_pk(cursor, ctypes.byref(flags), ctypes.byref(count))
                self.flags = bytes(flags[:count.value])
                old = new = None
                if op.value != INSERT:
                    old = self._record(sqlite.sqlite3changeset_old, cursor, count.value)
                if op.value != DELETE:
                    new = self._record(sqlite.sqlite3changeset_new, cursor, count.value)
                yield name.value, OPERATIONS[op.value], bool(indirect.value), old, new
        finally:
            self.code = sqlite.sqlite3changeset_finalize(cursor)

    def _record(self, call, cursor, count):
        """Return a record of the current change."""
        fields, pointer = [], _POINTER()
        for column in range(count):
            call(cursor, column, ctypes.byref(pointer))
            fields.append(self._value(pointer.value))
        return tuple(fields)

    def _value(self, pointer):
        """Return a value. What is not UTF-8 in a text is lone surrogates."""
        if pointer is None:
            return UNDEFINED
        kind = self._sqlite.sqlite3_value_type(pointer)
        if kind == INTEGER:
            return self._sqlite.sqlite3_value_int64(pointer)
        if kind in (TEXT, BLOB):
            start = self._sqlite.sqlite3_value_blob(pointer)
            content = ctypes.string_at(start, self._sqlite.sqlite3_value_bytes(pointer))
            return content if kind == BLOB else content.decode(errors="surrogateescape")
        return None if kind == NULL else IS_REAL

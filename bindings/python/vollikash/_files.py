"""The calls on files and on stores in memory, by libvollikash.so.

The library is next to this file if it is installed, or where the repository builds it, or where the
system keeps its libraries. The environment variable VOLLIKASH_LIBRARY names another one. The first
call loads it. Only a group and a store keep state. Several threads can call at once, but one at a
time on a group or a store.
"""
import ctypes
import functools
import os
import pathlib
from typing import Callable, NoReturn, Sequence, Union

from ._errors import ChangesetError, Code

Bytes = Union[bytes, bytearray, memoryview]


class _Fault(ctypes.Structure):
    """The report of a call: `struct vollikash_fault`."""

    _fields_ = [("code", ctypes.c_int), ("file", ctypes.c_int), ("place", ctypes.c_size_t)]


_FILE = (ctypes.c_char_p, ctypes.c_size_t)
_LENGTHS = (ctypes.POINTER(ctypes.c_size_t), ctypes.c_size_t)
_OUT = (ctypes.c_char_p, ctypes.c_size_t, ctypes.POINTER(ctypes.c_size_t))
_FAULT = (ctypes.POINTER(_Fault),)


# Bytes without an initial value, for a call to fill in. To zero a large buffer, or to ask for the
# length first, would cost more.
_new_bytes = ctypes.PYFUNCTYPE(ctypes.py_object, ctypes.c_char_p, ctypes.c_ssize_t)(
    ("PyBytes_FromStringAndSize", ctypes.pythonapi)
)


def _find() -> str:
    """Return the name to load the library by."""
    here = pathlib.Path(__file__).resolve().parent
    beside, built = here / "libvollikash.so", here.parents[1] / "c/out/libvollikash.so"
    if beside.exists():
        return str(beside)
    # Only in the repository: next to a copy of this file that path may be writable for anybody.
    if here.match("bindings/python/vollikash") and built.exists():
        return str(built)
    # The loader looks for a name without a slash where the system keeps libraries. It has the major
    # version.
    return "libvollikash.so.1"


def _typed(library: ctypes.CDLL) -> ctypes.CDLL:
    """Return the library, with the types of its calls."""
    library.vollikash_version.argtypes = ()
    library.vollikash_check.argtypes = _FILE + _FAULT
    library.vollikash_concat_many.argtypes = _FILE + _LENGTHS + _OUT + _FAULT
    for name in ("invert", "number_keys", "dump", "sql"):
        getattr(library, f"vollikash_{name}").argtypes = _FILE + _OUT + _FAULT
    for name in ("version", "check", "concat_many", "invert", "number_keys", "dump", "sql"):
        getattr(library, f"vollikash_{name}").restype = ctypes.c_int
    held = (ctypes.c_void_p,)
    library.vollikash_group_add.argtypes = held + _FILE + _FAULT
    library.vollikash_group_limit.argtypes = library.vollikash_group_close.argtypes = held
    library.vollikash_group_limit.restype = ctypes.c_size_t
    library.vollikash_group_close.restype = None
    library.vollikash_group_output.argtypes = held + _OUT + _FAULT
    library.vollikash_store_open.argtypes = held + _FILE + _FAULT
    library.vollikash_store_call.argtypes = held + _FILE + _OUT[2:]
    library.vollikash_store_answer.argtypes = library.vollikash_store_save.argtypes = held + _OUT
    library.vollikash_store_close.argtypes = held
    library.vollikash_store_close.restype = None
    return library


@functools.lru_cache(maxsize=None)
def _library() -> ctypes.CDLL:
    """Return the library. Raise OSError if it cannot be loaded, or is another one."""
    try:
        return _typed(ctypes.CDLL(os.environ.get("VOLLIKASH_LIBRARY") or _find()))
    except (AttributeError, OSError) as error:
        why = f"the C library cannot be loaded ({error}): VOLLIKASH_LIBRARY can name one"
        raise OSError(why) from error


class Held(ctypes.Structure):
    """What the library keeps: `struct vollikash_group` or `struct vollikash_store`."""

    _fields_ = [("at", ctypes.c_void_p)]

    def close(
        self,
        library: Callable[[], ctypes.CDLL] = _library,
        byref: Callable[..., object] = ctypes.byref,
    ) -> None:
        """Free it."""
        # As the interpreter ends, the names of this module may be gone.
        if self.at:
            library().vollikash_store_close(byref(self))

    __del__ = close


def as_bytes(file: Bytes) -> bytes:
    """Return the bytes of a file, which nobody changes while a call reads them."""
    return file if isinstance(file, bytes) else bytes(memoryview(file))


def _raise(fault: _Fault) -> NoReturn:
    """Raise the exception for a fault."""
    if fault.code == Code.NO_MEMORY:
        raise MemoryError("a call of vollikash was refused memory")
    raise ChangesetError(Code(fault.code), fault.file, fault.place)


def _made(call: Callable[..., int], room: int, *given: object) -> bytes:
    """Return what a call makes of its arguments, in a buffer of this length, or of the one that it
    asks for.
    """
    while True:
        out: bytes = _new_bytes(None, room)
        written, fault = ctypes.c_size_t(), _Fault()
        code = call(*given, out, room, ctypes.byref(written), ctypes.byref(fault))
        if code == Code.OK:
            return out[: written.value]
        if code != Code.NO_ROOM:
            _raise(fault)
        room = written.value


def check(file: Bytes) -> None:
    """Raise `ChangesetError` if the bytes are not the file of a changeset."""
    file, fault = as_bytes(file), _Fault()
    if _library().vollikash_check(file, len(file), ctypes.byref(fault)) != Code.OK:
        _raise(fault)


def invert(file: Bytes) -> bytes:
    """Return the file of the inverse changeset. Raises `ChangesetError`."""
    file = as_bytes(file)
    return _made(_library().vollikash_invert, len(file), file, len(file))


def number_keys(file: Bytes) -> bytes:
    """Return the file with the key columns numbered in column order, as SQLite's apply needs them
    for a key of several columns.

    Do not call it on a file that SQLite recorded. Raises `ChangesetError`.
    """
    file = as_bytes(file)
    return _made(_library().vollikash_number_keys, len(file), file, len(file))


def concat_all(files: Sequence[bytes]) -> bytes:
    """Return the file that does what the files do, one after the other. Raises `ChangesetError`."""
    joined, count = b"".join(files), len(files)
    lengths = (ctypes.c_size_t * count)(*map(len, files))
    call = _library().vollikash_concat_many
    return _made(call, len(joined), joined, len(joined), lengths, count)


def concat(*files: Bytes) -> bytes:
    """Return the file that does what the files do, one after the other.

    No file makes an empty changeset. Raises `ChangesetError`.
    """
    return concat_all([as_bytes(file) for file in files])


def add_file(held: Held, file: bytes) -> None:
    """Add a file to those of a group. Raises `ChangesetError`."""
    fault = _Fault()
    add = _library().vollikash_group_add
    if add(ctypes.byref(held), file, len(file), ctypes.byref(fault)) != Code.OK:
        _raise(fault)


def file_of(held: Held) -> bytes:
    """Return the file of the concatenation of the files of a group."""
    given = ctypes.byref(held)
    return _made(_library().vollikash_group_output, _library().vollikash_group_limit(given), given)


def dump(file: Bytes) -> str:
    """Return a line for each table and each change. Raises `ChangesetError`."""
    file = as_bytes(file)
    return _made(_library().vollikash_dump, 8 * len(file) + 256, file, len(file)).decode()


def sql(file: Bytes) -> str:
    """Return a readable SQL statement for each change. Raises `ChangesetError`."""
    file = as_bytes(file)
    return _made(_library().vollikash_sql, 8 * len(file) + 256, file, len(file)).decode()

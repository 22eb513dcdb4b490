"""The files that the command reads and writes. `-` is standard input or output."""
import contextlib
import os
import re
import secrets
import stat
import sys
import tempfile
from typing import (
    IO, BinaryIO, Callable, Iterable, Iterator, List, NamedTuple, Optional, TextIO, Tuple, TypeVar,
)

from .._errors import ChangesetError, Code
from ._messages import Failure, complain, of_changeset
from ._progress import waited
from ._texts import is_terminal

# How many bytes of a page are kept in memory before they are all there.
_KEPT = 1 << 26

# The names of what this process has open.
_DESCRIPTOR = re.compile(r"/dev/(?:fd/(\d+)|std(?:in|out|err))|/proc/self/fd/(\d+)")
_STANDARD = {"/dev/stdin": 0, "/dev/stdout": 1, "/dev/stderr": 2}

_T = TypeVar("_T")


class Input(NamedTuple):
    """A file that was read: its name and its bytes."""

    name: str
    data: bytes


def read_input(name: str) -> Input:
    """Read a changeset file. Raise `Failure`."""
    try:
        if name != "-":
            with open(name, "rb") as file:
                return Input(name, file.read())
        if sys.stdin is None:
            raise Failure(name, "it is closed. A changeset is expected.", Code.INPUT_FAULT)
        return Input(name, sys.stdin.buffer.read())
    except OSError as error:
        why = f"{error.strerror}. A changeset file is expected."
        raise Failure(name, why, Code.INPUT_FAULT) from None


def made(given: Input, call: Callable[[bytes], _T]) -> _T:
    """Return what a call of the library makes of a file. Raise `Failure`."""
    try:
        return waited(given.name, lambda: call(given.data))
    except ChangesetError as error:
        raise of_changeset(given.name, given.data, error) from None
    except MemoryError:
        raise Failure(given.name, "memory ran out", Code.NO_MEMORY) from None


def for_each(names: List[str], do: Callable[[Input], None]) -> int:
    """Do something with each file, and go on if one fails. Return the exit status."""
    status = 0
    for name in names:
        try:
            do(read_input(name))
        except Failure as failure:
            complain(failure)
            status = 1
    return status


def flush() -> None:
    """Write what was printed."""
    if sys.stdout is not None:
        sys.stdout.flush()


def text_output() -> TextIO:
    """Return standard output. Raise `Failure`."""
    if sys.stdout is None:
        raise Failure("standard output", "it is closed", Code.OUTPUT_FAULT)
    return sys.stdout


def write_bytes(out: Optional[str], data: bytes) -> None:
    """Write a changeset into OUT, whole or not at all. Raise `Failure`."""
    if out is None and is_terminal(sys.stdout):
        why = "it is a terminal. Name a file with -o, or use -o - to print the bytes."
        raise Failure("standard output", why, Code.OUTPUT_FAULT)
    write_pieces(out, [data])


def write_pieces(out: Optional[str], pieces: Iterable[bytes]) -> None:
    """Write bytes into OUT once they are all there. Raise `Failure`."""
    name = "standard output" if out in (None, "-") else str(out)
    try:
        if out is None or out == "-":
            flush()
            _spool(pieces, text_output().buffer)
        elif _is_plain(out):
            _replace(os.path.realpath(out), pieces)
        else:
            with _opened(out) as stream:
                _spool(pieces, stream)
    except BrokenPipeError:
        raise
    except OSError as error:
        why = f"{error.strerror}. A path that can be written is expected."
        raise Failure(name, why, Code.OUTPUT_FAULT) from None


def _is_plain(out: str) -> bool:
    """Return whether OUT is a plain file, or will be one."""
    if out.startswith(("/dev/std", "/dev/fd/", "/proc/")):
        return False
    try:
        return stat.S_ISREG(os.stat(out).st_mode)
    except FileNotFoundError:
        return True


def _opened(out: str) -> BinaryIO:
    """Return a pipe, a device, or what a process has open, to append to it."""
    found = _DESCRIPTOR.fullmatch(out)
    if found is None:
        number = os.open(out, os.O_WRONLY | os.O_APPEND | os.O_CLOEXEC)
    else:
        flush()
        number = os.dup(_STANDARD[out] if out in _STANDARD else int(found[1] or found[2]))
    return open(number, "wb", buffering=0)


def _spool(pieces: Iterable[bytes], stream: IO[bytes]) -> None:
    """Write bytes into a stream once they are all there."""
    if isinstance(pieces, list):
        _write_each(pieces, stream)
        return
    with tempfile.SpooledTemporaryFile(_KEPT) as kept:
        kept.writelines(pieces)
        kept.seek(0)
        _write_each(iter(lambda: kept.read(1 << 20), b""), stream)


def _write_each(pieces: Iterable[bytes], stream: IO[bytes]) -> None:
    """Write bytes into a stream that may take a part of them at once."""
    for piece in pieces:
        rest = memoryview(piece)
        while rest:
            rest = rest[stream.write(rest) or 0:]
    stream.flush()


@contextlib.contextmanager
def _new_file(folder: str) -> Iterator[Tuple[str, int]]:
    """Yield the path and the descriptor of a new file in a folder. After the block the path names
    nothing.
    """
    path = os.path.join(folder, f".vollikash-{secrets.token_hex(8)}.new")
    number = os.open(path, os.O_WRONLY | os.O_CREAT | os.O_EXCL | os.O_CLOEXEC, 0o666)
    try:
        yield path, number
    finally:
        os.close(number)
        with contextlib.suppress(FileNotFoundError):
            os.unlink(path)


def _sync_folder(folder: str) -> None:
    """Write the names of a folder's files to the disk."""
    number = os.open(folder, os.O_RDONLY | os.O_DIRECTORY | os.O_CLOEXEC)
    try:
        os.fsync(number)
    finally:
        os.close(number)


def _mode(path: str) -> Optional[int]:
    """Return the permissions of a file, or None if there is none. One that may not be written is
    not replaced: that is OSError.
    """
    try:
        number = os.open(path, os.O_WRONLY | os.O_CLOEXEC)
    except FileNotFoundError:
        return None
    try:
        return stat.S_IMODE(os.fstat(number).st_mode)
    finally:
        os.close(number)


def _replace(path: str, pieces: Iterable[bytes]) -> None:
    """Make the file at a path have these bytes, or leave it as it is."""
    folder, mode = os.path.dirname(path), _mode(path)
    with _new_file(folder) as (new, number):
        with open(number, "wb", closefd=False) as stream:
            _write_each(pieces, stream)
        if mode is not None:
            os.fchmod(number, mode)
        os.fsync(number)
        os.replace(new, path)
    _sync_folder(folder)

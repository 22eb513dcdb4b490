"""A store in memory that answers calls, by libvollikash.so, in this process."""
import ctypes
import os
import struct
import sys
import threading
import weakref
from types import TracebackType
from typing import Iterable, List, Optional, Tuple, Type

from ._calls import DONE, HEADER, MEMORY_REFUSED, ROLL_BACK, is_full, is_refused
from ._errors import Code, Interrupted, ProgramError, refused
from ._files import Held, _Fault, _library
from ._frames import is_run_by

# What a call leaves that was not made.
_NOT_MADE = (1 << 64) - 1

# The detail of StoreFault for a cause that the library does not tell.
_OTHER = 1

# How often a roll back is tried if memory runs out.
_TRIES = 100

# The stores that are open. A forked child has copies of them, which may be in the middle of a call.
_OPEN: "weakref.WeakSet[Memory]" = weakref.WeakSet()

_size = struct.Struct(">I").pack


def _refused(code: int) -> Exception:
    """Return the exception for a number that the library answers."""
    return refused(code, detail=_OTHER if code == Code.STORE_FAULT else None)


class Memory:
    """A store in memory that answers one call after the other.

    `lock` is held by who makes calls.
    """

    def __init__(self, file: bytes) -> None:
        self.lock = threading.RLock()
        self._held = Held()
        self._is_free = self._is_open = True
        self._closed = "the store is closed"
        _OPEN.add(self)
        fault = _Fault()
        given = ctypes.byref(self._held)
        if _library().vollikash_store_open(given, file, len(file), ctypes.byref(fault)) != Code.OK:
            raise _refused(fault.code)

    @property
    def is_open(self) -> bool:
        """Whether the store was not closed."""
        return self._is_open

    def expect_open(self) -> None:
        """Raise `ProgramError` if the store was closed."""
        if not self._is_open:
            raise ProgramError(self._closed)

    def _expect_free(self) -> None:
        """Raise RuntimeError in a handler of a signal that has come within a call."""
        # What makes the call is the second frame.
        if not self._is_free and is_run_by(sys._getframe(2), _ASKING, self):
            raise RuntimeError("another call of the store waits for its answer")

    def ask(self, frame: bytes) -> bytes:
        """Return the answer to a call, both with their frames.

        An exception of a signal is raised after the answer, and a KeyboardInterrupt as
        `Interrupted`.
        """
        self.expect_open()
        self._expect_free()
        answered = ctypes.c_size_t(_NOT_MADE)
        error: Optional[BaseException] = None
        try:
            self._is_free = False
            try:
                self._call(frame, answered)
            except BaseException as caught:
                error = caught
            while True:
                try:
                    answer = self._answer(answered.value)
                    break
                except KeyboardInterrupt as again:
                    error = error or again
        finally:
            self._is_free = True
        if error is None:
            return answer
        if not isinstance(error, KeyboardInterrupt):
            raise error
        raise Interrupted(answered.value != _NOT_MADE and not is_refused(answer)) from error

    def _call(self, frame: bytes, answered: ctypes.c_size_t) -> None:
        """Make a call, whose answer the library keeps."""
        call = frame[HEADER:]
        _library().vollikash_store_call(
            ctypes.byref(self._held), call, len(call), ctypes.byref(answered)
        )

    def _answer(self, size: int) -> bytes:
        """Return the answer that the library keeps, with its frame."""
        if size in (0, _NOT_MADE):
            return MEMORY_REFUSED
        out, written = ctypes.create_string_buffer(size), ctypes.c_size_t()
        _library().vollikash_store_answer(
            ctypes.byref(self._held), out, size, ctypes.byref(written)
        )
        answer = _size(size) + out.raw
        # A file in memory is full if memory runs out.
        return MEMORY_REFUSED if is_full(answer) else answer

    def to_bytes(self) -> bytes:
        """Return the bytes of the store's file."""
        self.expect_open()
        self._expect_free()
        room = 0
        while True:
            out, written = ctypes.create_string_buffer(room), ctypes.c_size_t()
            code = _library().vollikash_store_save(
                ctypes.byref(self._held), out, room, ctypes.byref(written)
            )
            if code == Code.OK:
                return out.raw
            if code != Code.NO_ROOM:
                raise _refused(code)
            room = written.value

    def ahead(self, keeps: bool = False) -> "Direct":
        """Return what makes many calls."""
        return Direct(self, keeps)

    def abandon(self) -> None:
        """Roll back the transaction, if one is open."""
        for _ in range(_TRIES):
            try:
                if self.ask(ROLL_BACK) != MEMORY_REFUSED:
                    return
            except KeyboardInterrupt:
                pass
        self.end()

    def leave(self) -> None:
        """Leave the store to the process that has forked this one. Its memory is not freed."""
        self.lock = threading.RLock()
        self._is_open, self._held.at = False, None
        self._closed = "the store belongs to the process that has forked this one"

    def close(self) -> None:
        """Free the store."""
        if self._is_open:
            self._expect_free()
        self.end()

    def end(self) -> None:
        """Free the store, whatever it does."""
        self._is_open = False
        self._held.close()


class Direct:
    """Calls that are made one after the other, in a `with` block, up to one that is refused."""

    def __init__(self, memory: Memory, keeps: bool) -> None:
        self._memory, self._keeps = memory, keeps
        self._done: List[bytes] = []
        self._others: List[Tuple[int, bytes]] = []

    def __enter__(self) -> "Direct":
        return self

    def __exit__(
        self,
        kind: Optional[Type[BaseException]],
        error: Optional[BaseException],
        trace: Optional[TracebackType],
    ) -> None:
        pass

    def send(self, calls: Iterable[bytes]) -> None:
        """Make calls until one is refused."""
        for number, call in enumerate(calls):
            try:
                answer = self._memory.ask(call)
            except Interrupted as error:
                if error.is_done and self._keeps:
                    self._done.append(call)
                raise
            if answer != DONE:
                self._others.append((number, answer))
                break
            if self._keeps:
                self._done.append(call)

    def others(self) -> List[Tuple[int, bytes]]:
        """Return the answers that are not DONE, each with the number of its call from 0."""
        return self._others

    def done(self) -> List[bytes]:
        """Return the calls that are answered DONE, if they are kept."""
        return self._done


# What makes a call: a handler of a signal that makes one runs above it.
_ASKING = {Memory.ask.__code__}


def _leave_all() -> None:
    """Leave the stores that are open to the process that has forked this one."""
    for memory in list(_OPEN):
        memory.leave()


os.register_at_fork(after_in_child=_leave_all)

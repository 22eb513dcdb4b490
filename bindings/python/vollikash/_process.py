"""A program that runs next to this one, and answers calls in frames.

An exception of a signal, such as KeyboardInterrupt, is raised between two instructions of Python.
So what was written and read is noted in lists by one instruction each, and a call goes on from
there to its answer.
"""
import contextlib
import math
import os
import pathlib
import select
import shutil
import struct
import subprocess
import sys
import threading
import time
import weakref
from types import TracebackType
from typing import Iterable, List, Optional, Sequence, Tuple, Type, Union

from ._calls import DONE, HEADER, is_refused
from ._errors import Interrupted, ProgramError
from ._frames import is_run_by

# How many bytes are read at once, and how many of what a program says are kept.
_MOST, _SAID = 1 << 16, 1 << 13

# How many seconds a program may take to end by itself if nobody waits for that.
_PATIENCE = 1.0

# The most milliseconds that `poll` waits.
_LONGEST = 0x7FFFFFFF

# How many seconds pass between two looks whether a program has ended.
_PAUSE = 0.01

# How many milliseconds a call waits for its answer before it hears what the program says.
_SOON = 10

# How many bytes of calls are sent at once before their answers are read.
_AHEAD = 1 << 14

# How many milliseconds calls wait to be written before answers are read.
_MOMENT = 5

# How many answers are waited for one by one, and the fewest seconds that a program takes for one.
_FEW, _LEAST = 20, 1e-6

_size_at = struct.Struct(">I").unpack_from
_read, _write = os.read, os.write


def find_program(name: str = "changeset-calls", variable: str = "VOLLIKASH_CALLS") -> str:
    """Return a program: the one that a variable names, the file in this folder, the one that the
    repository builds, or the one on PATH.
    """
    named = os.environ.get(variable)
    if named:
        return named
    here = pathlib.Path(__file__).resolve().parent
    crate = name.replace("-", "_")
    built = here.parents[2] / "crates" / crate / "out" / crate
    # Only in the repository: if this file is copied elsewhere, anybody may be able to write to that
    # path.
    for program in (here / name, *([built] if here.match("bindings/python/vollikash") else [])):
        if program.exists():
            return str(program)
    found = shutil.which(name)
    if found is None:
        raise ProgramError(f"there is no {name} program: {variable} can name one")
    return found


def start(words: Sequence[Union[str, bytes]]) -> "subprocess.Popen[bytes]":
    """Start a program, which reads and writes pipes, and gets no Ctrl-C of a terminal."""
    try:
        return subprocess.Popen(
            words, stdin=subprocess.PIPE, stdout=subprocess.PIPE, stderr=subprocess.PIPE, bufsize=0,
            start_new_session=True,
        )
    except OSError as error:
        if error.errno is None:  # the handler of a signal has raised it
            raise
        raise ProgramError(f"{os.fsdecode(words[0])} does not run: {error.strerror}") from error


def _close_pipes(process: "subprocess.Popen[bytes]") -> None:
    """Close the ends of a program's pipes that this process has."""
    for stream in (process.stdin, process.stdout, process.stderr):
        if stream is not None:
            stream.close()


def end(process: "subprocess.Popen[bytes]", *pipes: List[int]) -> None:
    """End a program, whatever it does. Empty the lists of its pipes, whose numbers may be those of
    other files then.
    """
    for numbers in pipes:
        numbers.clear()
    _close_pipes(process)
    try:
        process.wait(_PATIENCE)
    except subprocess.TimeoutExpired:
        pass
    finally:
        if process.returncode is None:
            process.kill()
            process.wait()


def _interruption(error: BaseException, is_done: Optional[bool]) -> BaseException:
    """Return what is raised for an exception of a signal that has come within a call."""
    if not isinstance(error, KeyboardInterrupt):
        return error
    interrupted = Interrupted(is_done)
    interrupted.__cause__ = error
    return interrupted


# The programs that are open. A forked child has copies of their pipes.
_OPEN: "weakref.WeakSet[Process]" = weakref.WeakSet()


class Process:
    """A program that has a store open, and answers one call after the other.

    `lock` is held by who makes calls.
    """

    def __init__(self, path: bytes, timeout: Optional[float]) -> None:
        self.lock = threading.RLock()
        self._timeout = timeout
        self._wait = None if timeout is None else math.ceil(min(timeout * 1000, _LONGEST))
        self._process = start([find_program(), path])
        streams = self._process.stdin, self._process.stdout, self._process.stderr
        self._stdin, self._stdout, self._stderr = (it.fileno() for it in streams if it is not None)
        # The arguments of calls that write and read.
        self._to, self._from, self._most = [self._stdin], [self._stdout], (_MOST,)
        self._ends = weakref.finalize(self, end, self._process, self._to, self._from)
        _OPEN.add(self)
        for number in (self._stdin, self._stdout, self._stderr):
            os.set_blocking(number, False)
        self._answer, self._room = select.poll(), select.poll()
        self._answer.register(self._stdout, select.POLLIN)
        self._room.register(self._stdin, select.POLLOUT)
        self._said = b""
        self._is_heard = self._is_open = self._is_free = True
        self._closed = "the store is closed"
        self._ahead: Optional[Ahead] = None

    @property
    def is_open(self) -> bool:
        """Whether the program was not ended."""
        return self._is_open

    def expect_open(self) -> None:
        """Raise `ProgramError` if the program was ended."""
        if not self._is_open:
            raise ProgramError(self._closed)

    def _expect_free(self) -> None:
        """Raise an error if the program cannot be asked.

        If the exception of a signal has ended a call before its answer, end the program, since the
        next answer would be that of another call.
        """
        self.expect_open()
        if self._is_free:
            return
        # What makes the call is the second frame.
        if is_run_by(sys._getframe(2), _EXCHANGING, self, self._ahead):
            raise RuntimeError("another call of the store waits for its answer")
        # What has sent calls ahead goes on where it was interrupted.
        if self._ahead is None:
            self.end()
            raise ProgramError("a signal has ended a call before its answer: the store is closed")

    def ask(self, frame: bytes) -> bytes:
        """Return the answer to a call, both with their frames.

        An exception of a signal is raised after the answer, and a KeyboardInterrupt as
        `Interrupted`. A second one ends the program.
        """
        if not self._is_free:
            self._expect_free()
        if self._ahead is not None:
            self._ahead.settle()
        sent: List[int] = []
        got: List[bytes] = []
        error: Optional[BaseException] = None
        try:
            # It is free again after the answer, and not if another exception ends this before.
            self._is_free = False
            sent += map(_write, self._to, (frame,))
            if sent == [len(frame)] and self._answer.poll(_SOON):
                got += map(_read, self._from, self._most)
                # A short answer is written at once.
                if got == [DONE] or got and HEADER <= len(got[0]) == HEADER + _size_at(got[0])[0]:
                    self._is_free = True
                    return got[0]
        except (BlockingIOError, BrokenPipeError):
            pass
        except BaseException as caught:
            error = caught
        return self._finish(frame, sent, got, error)

    def _finish(
        self, frame: bytes, sent: List[int], got: List[bytes], error: Optional[BaseException]
    ) -> bytes:
        """Write and read what is left of a call, and return the answer. Raise the exception of a
        signal, if one has come, after it.
        """
        while True:
            if error is not None and not sent:
                self._is_free = self._is_open
                raise _interruption(error, False)
            try:
                answer = self._rest(frame, sent, got)
                self._is_free = True
                break
            except BaseException as again:
                first, error = error, again
                if first is None and not isinstance(again, ProgramError):
                    continue
                self.end()
                raise again if first is None else _interruption(first, None)
        if error is not None:
            raise _interruption(error, not is_refused(answer))
        return answer

    def _rest(self, frame: bytes, sent: List[int], got: List[bytes]) -> bytes:
        """Write and read the rest of a call, and return the answer."""
        unsent, held, whole = memoryview(frame)[sum(sent):], sum(map(len, got)), 0
        while True:
            if held >= HEADER and not whole:
                whole = HEADER + int(_size_at(b"".join(got[:HEADER]))[0])
            if whole and held > whole:
                raise ProgramError("the program answered more than one call")
            if whole and held == whole and not unsent:
                return b"".join(got)
            writes, reads = len(sent), len(got)
            self.turn(unsent, sent, got)
            unsent = unsent[sum(sent[writes:]):]
            held += sum(map(len, got[reads:]))

    def turn(self, unsent: Union[bytes, memoryview], sent: List[int], got: List[bytes]) -> None:
        """Write and read what can be written and read at once, and wait until that is something.

        Raise `ProgramError` if the program does nothing for the time that an answer may take, or
        has ended.
        """
        if not self._ends.alive:
            raise ProgramError(self._closed)
        poll = select.poll()
        poll.register(self._stdout, select.POLLIN)
        if self._is_heard:
            poll.register(self._stderr, select.POLLIN)
        if unsent:
            poll.register(self._stdin, select.POLLOUT)
        ready = [number for number, _ in poll.poll(self._wait)]
        # The handler of a signal can have ended the program meanwhile.
        if not self._ends.alive:
            raise ProgramError(self._closed)
        if not ready:
            raise self._silent()
        if self._stderr in ready:
            self._hear()
        if self._stdout in ready:
            got.extend(map(_read, self._from, self._most))
            if not got[-1]:
                raise self._ended()
        if self._stdin in ready:
            try:
                sent.extend(map(_write, self._to, (unsent,)))
            except BlockingIOError:
                pass
            except BrokenPipeError:
                raise self._ended() from None

    def push(self, unsent: memoryview, sent: List[int]) -> bool:
        """Write what can be written within a moment, and return whether that is something.

        Each answer ends a wait of `turn`, but not this one.
        """
        for wait in (_MOMENT, 0):
            if not self._to:
                raise ProgramError(self._closed)
            try:
                sent.extend(map(_write, self._to, (unsent,)))
                return True
            except BlockingIOError:
                self._room.poll(wait)
            except BrokenPipeError:
                raise self._ended() from None
        return False

    def pull(self, got: List[bytes]) -> None:
        """Read what can be read at once."""
        if not self._from:
            raise ProgramError(self._closed)
        try:
            got.extend(map(_read, self._from, self._most))
        except BlockingIOError:
            return
        if not got[-1]:
            raise self._ended()

    def _hear(self) -> bool:
        """Read what the program says on standard error, and keep the end of it. Return whether it
        has said something.
        """
        try:
            said = _read(self._stderr, _MOST)
        except BlockingIOError:
            return False
        self._said = (self._said + said)[-_SAID:]
        if not said:
            self._is_heard = False
        return bool(said)

    def _text(self) -> str:
        """Return what the program has said last."""
        return self._said.decode(errors="replace")

    def _silent(self) -> ProgramError:
        """Return the error that the program has not answered in time."""
        why = f"the program has not answered in {self._timeout} seconds"
        return ProgramError(why, self._text())

    def _ended(self) -> ProgramError:
        """Return the error that the program has ended, with what it said."""
        deadline = time.monotonic() + _PATIENCE
        while self._process.poll() is None and time.monotonic() < deadline:
            if self._is_heard:
                self._hear()
            time.sleep(_PAUSE)
        while self._is_heard and self._hear():
            pass
        status = self._process.returncode
        if status is None:
            return ProgramError("the program reads and writes no more", self._text())
        why = self._text().strip() or f"exit status {status}"
        return ProgramError(f"the program has ended: {why}", self._text())

    def to_bytes(self) -> bytes:
        """Raise ValueError, since the store has its file."""
        raise ValueError("the store is in a file, and not in memory")

    def occupy(self, is_occupied: bool) -> None:
        """Let nobody make a call, or let calls be made again."""
        self._is_free = self._is_open and not is_occupied

    def ahead(self, keeps: bool = False) -> "Ahead":
        """Return what sends many calls."""
        return Ahead(self, keeps)

    def begin_ahead(self, ahead: "Ahead") -> Optional["Ahead"]:
        """Let calls be sent by something else, and return what has sent them before."""
        self._expect_free()
        before = self._ahead
        if before is not None:
            before.settle()
        self._ahead = ahead
        return before

    def end_ahead(self, before: Optional["Ahead"]) -> None:
        """Let calls be sent again as before."""
        self._ahead = before

    def end(self) -> None:
        """End the program, whatever it does."""
        self._is_open = self._is_free = False
        if self._ends.alive:
            self._process.kill()
        self._ends()

    def abandon(self) -> None:
        """End the program, and with it the transaction."""
        self.end()

    def close(self) -> None:
        """End the program, and wait for that. If a call waits for its answer, end it at once."""
        if not self._is_free:
            self.end()
        is_open, self._is_open, self._is_free = self._is_open, False, False
        got: List[bytes] = []
        try:
            if is_open and self._process.stdin is not None:
                self._process.stdin.close()
                with contextlib.suppress(ProgramError):
                    while not got:
                        self.turn(b"", [], got)
        finally:
            self._ends()

    def leave(self) -> None:
        """Leave the program to the process that has forked this one."""
        self.lock = threading.RLock()
        if self._ends.detach() is not None:
            self._to.clear()
            self._from.clear()
            _close_pipes(self._process)
            # So that nobody waits for the end of what is no child of this process.
            self._process.returncode = 0
        self._is_open = self._is_free = False
        self._closed = "the store belongs to the process that has forked this one"


class Ahead:
    """Calls that are sent before the answers to others are read, in a `with` block. Most are
    answered DONE. After the block each call is answered.

    Each attribute is replaced at once, so that an exception of a signal leaves it whole.
    """

    def __init__(self, process: Process, keeps: bool = False) -> None:
        self._process = process
        # Whether the calls that were sent are kept, and those.
        self._keeps = keeps
        self._kept: List[bytes] = []
        self._before: Optional[Ahead] = None
        # What was sent last, how many bytes of it are written, the number of calls that were sent,
        # and those that are to be sent.
        self._sent: Tuple[bytes, List[int], int, List[bytes]] = (b"", [], 0, [])
        # What was read, the number of answers before that, and the answers other than DONE, each
        # with the number of its call from 0.
        self._got: Tuple[List[bytes], int, List[Tuple[int, bytes]]] = ([], 0, [])

    def __enter__(self) -> "Ahead":
        self._before = self._process.begin_ahead(self)
        return self

    def __exit__(
        self,
        kind: Optional[Type[BaseException]],
        error: Optional[BaseException],
        trace: Optional[TracebackType],
    ) -> None:
        if isinstance(error, ProgramError):
            self._process.end()
        interrupted: Optional[BaseException] = None
        while True:
            try:
                self.settle()
                break
            except BaseException as caught:
                if interrupted is not None or isinstance(caught, ProgramError):
                    self._process.end()
                    raise
                interrupted = caught
        self._process.end_ahead(self._before)
        if interrupted is not None:
            raise interrupted

    def send(self, calls: Iterable[bytes]) -> None:
        """Send calls until one is refused, many at once, and wait for their answers."""
        size = 0
        for call in calls:
            self._sent[3].append(call)
            size += len(call)
            if size >= _AHEAD:
                self._process.expect_open()
                self.settle(waits=False)
                size = 0
            if self._got[2]:
                break
        self.settle()

    def _send(self) -> None:
        """Send the calls that are to be sent."""
        self._write()
        _, _, count, calls = self._sent
        if calls:
            if self._keeps:
                # After an exception of a signal this is done again.
                self._kept[count:] = calls
            self._sent = b"".join(calls), [], count + len(calls), []
            self._write()

    def others(self) -> List[Tuple[int, bytes]]:
        """Return the answers that are not DONE, as far as they are read, each with the number of
        its call from 0.
        """
        return self._got[2]

    def done(self) -> List[bytes]:
        """Return the calls that are answered DONE, of those that are kept."""
        others = {number for number, _ in self._got[2]}
        return [it for number, it in enumerate(self._kept[:self._got[1]]) if number not in others]

    def settle(self, waits: bool = True) -> None:
        """Send the calls that are to be sent, and wait for the answer to each, or read what can be
        read at once.
        """
        if not self._process.is_open:
            return
        self._process.occupy(True)
        self._send()
        if not waits:
            self._process.pull(self._got[0])
        left = self._sent[2] - self._note()
        while waits and left:
            # Otherwise each answer ends a wait.
            if left > _FEW:
                time.sleep(left * _LEAST)
            self._process.turn(b"", [], self._got[0])
            left = self._sent[2] - self._note()
        self._process.occupy(False)

    def _write(self) -> None:
        """Write what is sent, and read answers meanwhile."""
        frames, written, _, _ = self._sent
        while sum(written) < len(frames):
            unsent = memoryview(frames)[sum(written):]
            if not self._process.push(unsent, written):
                self._process.turn(unsent, written, self._got[0])
                self._note()

    def _note(self) -> int:
        """Note the answers that are read whole, and return the number of answers."""
        chunks, number, others = self._got
        data = b"".join(chunks)
        at = len(data) // len(DONE) * len(DONE)
        last = number + at // len(DONE)
        if data[:at] != DONE * (last - number):
            at, last, others = 0, number, others[:]
            while len(data) >= at + HEADER:
                end_at = at + HEADER + int(_size_at(data, at)[0])
                if end_at > len(data):
                    break
                if data[at:end_at] != DONE:
                    others.append((last, data[at:end_at]))
                at, last = end_at, last + 1
        if last > self._sent[2]:
            raise ProgramError("the program answered more than was asked")
        self._got = [data[at:]], last, others
        return last


# What writes and reads: a handler of a signal that makes a call runs above one of these.
_EXCHANGING = {it.__code__ for it in (Process.ask, Process._finish, Ahead.settle)}


def _leave_all() -> None:
    """Leave the programs that are open to the process that has forked this one."""
    for process in list(_OPEN):
        process.leave()


os.register_at_fork(after_in_child=_leave_all)

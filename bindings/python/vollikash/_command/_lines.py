"""A `changeset` program that runs the lines of the shell."""
import os
import re
import threading
import weakref

from .._errors import Code, ProgramError
from .._process import end, find_program, start
from .._store import open as open_store, path_word

REFUSED = re.compile(r"error (?P<number>[0-9]{1,2}) [A-Za-z]+(?: .*)?\n", re.DOTALL)

# How many bytes of lines a program takes, and how many a file may have that is loaded by a line.
# The rest is for other lines.
LONGEST = 16777216
LONGEST_FILE = (LONGEST - 16384) // 2

# What is printed after each answer: bytes that nobody guesses, in a slot that no line names.
_MARK = os.urandom(16).hex()
_SLOT = f"vollikash{os.urandom(8).hex()}"
_ENDING = f"\n.hex {_SLOT}\n"


class LineProgram:
    """A store whose program gets lines. One that cannot be opened raises what `open` raises."""

    def __init__(self, path: str) -> None:
        program = find_program("changeset", "VOLLIKASH_PROGRAM")
        self._process = start([program, path_word(path), "shell"])
        self._ends = weakref.finalize(self, end, self._process)
        self.left = LONGEST
        try:
            self.answer(f".load {_SLOT} {_MARK}")
        except ProgramError as error:
            if REFUSED.fullmatch(error.said):
                # The program of calls says why.
                open_store(path, busy_timeout=0).close()
            raise

    def answer(self, line: str) -> str:
        """Return what the program prints for a line."""
        sent = (line + _ENDING).encode()
        if len(sent) > self.left:
            return f"error {Code.SCRIPT_TOO_LONG:d} {Code.SCRIPT_TOO_LONG.title}\n"
        self.left -= len(sent)
        # What it prints may fill the pipe before it has read the line.
        writer = threading.Thread(target=self._write, args=(sent,), daemon=True)
        writer.start()
        printed, wanted = bytearray(), f"{_MARK}\n".encode()
        while not printed.endswith(wanted):
            got = self._process.stdout and os.read(self._process.stdout.fileno(), 1 << 16)
            if not got:
                raise self._ended()
            printed += got
        writer.join()
        return printed[: -len(wanted)].decode()

    def _write(self, sent: bytes) -> None:
        """Write a line."""
        rest = memoryview(sent)
        try:
            while rest and self._process.stdin:
                rest = rest[self._process.stdin.write(rest) or 0:]
        except OSError:
            # The program has ended, which is seen by what it prints.
            return

    def _ended(self) -> ProgramError:
        """Return the error that the program has ended, with what it said."""
        said = self._process.stderr.read() if self._process.stderr else b""
        text = (said or b"").decode(errors="replace")
        why = text.strip() or f"exit status {self._process.wait()}"
        return ProgramError(f"the program has ended: {why}", text)

    def close(self) -> None:
        """End the program, which has answered each line, and wait for that."""
        if self._ends.alive and self._process.stdin:
            self._process.stdin.close()
            self._process.wait()
        self._ends()

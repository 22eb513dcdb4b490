"""`vollikash shell`: the lines of the shell, and some around them."""
import argparse
import contextlib
import os
import sys
from typing import Callable, Dict, Iterable, Iterator, List

from .._errors import Code, ProgramError, StoreError
from ._lines import LONGEST_FILE, REFUSED, LineProgram
from ._messages import SENTENCES, Failure, of_store
from ._progress import Progress
from ._streams import read_input, text_output, write_pieces
from ._texts import allow_all, escaped_lines, is_terminal

_PROMPT = "vollikash> "

# How many lines the history has, and how many files may be read in one another.
_HISTORY, _DEEPEST = 1000, 16

_HELP = """\
CREATE TABLE t(a, b NOT NULL, PRIMARY KEY(a));   creates a table
INSERT INTO t VALUES(1, 'x');                    inserts a row
UPDATE t SET b='y' WHERE a=1;                    sets columns of the row with this key
DELETE FROM t WHERE a=1;                         deletes the row with this key
SELECT * FROM t;                                 prints all rows

.import FILE SLOT           puts the bytes of a file into a slot
.write SLOT FILE            writes the bytes of a slot into a file
.load SLOT [HEX]            puts the bytes of hexadecimal digits into a slot
.hex SLOT                   prints the bytes of a slot
.dump SLOT                  prints each change of a slot's changeset
.invert FROM INTO           puts the inverse of a changeset into a slot
.concat FIRST SECOND INTO   puts the concatenation of two changesets into a slot
.apply SLOT [data=C] [notfound=C] [conflict=C] [constraint=C] [noop=N]
                            applies a changeset; C is omit, replace or abort, N ignore or report
.revert SLOT                applies the inverse of a changeset

.session open               opens a session, which records attached tables
.session attach t           attaches a table
.session changeset SLOT     puts the changes since then into a slot
.session isempty            prints 1 if nothing was written, and else 0
.session undo               restores the attached tables
.session close              ends the session

.read FILE                  runs the lines of a file
.help                       prints this
.quit                       ends, as the end of input does
"""


class _Shell:
    """Runs lines on a store, and prints what they answer."""

    def __init__(self, program: LineProgram, path: str) -> None:
        self._program, self._path = program, path
        self._is_seen = is_terminal(sys.stdout)
        self._depth = 0
        self.has_failed = False
        self.has_ended = False
        self._own: Dict[str, Callable[[str], None]] = {
            ".help": self._help, ".quit": self._quit, ".read": self._read, ".write": self._write,
            ".import": self._import,
        }

    def run(self, lines: Iterable[bytes]) -> None:
        """Run lines until one of them ends the shell."""
        for line in lines:
            if self.has_ended:
                break
            self._run_line(line.rstrip(b"\n"))

    def _run_line(self, line: bytes) -> None:
        """Run a line, and print its answer."""
        try:
            text = line.decode()
        except UnicodeDecodeError:
            self._print(f"error {Code.LINE_TEXT:d} {Code.LINE_TEXT.title}\n")
            return
        word, _, rest = text.strip().partition(" ")
        own = self._own.get(word)
        try:
            if own is None:
                self._print(self._asked(text))
            else:
                own(rest.strip())
        except Failure as failure:
            self.has_failed = True
            self._say(f"{failure}\n")

    def _asked(self, line: str) -> str:
        """Return what the program prints for a line."""
        with Progress(self._path, self._is_seen):
            return self._program.answer(line)

    def _print(self, answer: str) -> None:
        """Print an answer. On a terminal an error has its reason."""
        refused = REFUSED.fullmatch(answer)
        if refused is None:
            self._say(answer)
            return
        self.has_failed = True
        reason = SENTENCES.get(int(refused["number"])) if self._is_seen else None
        self._say(f"{answer[:-1]}: {reason}\n" if reason else answer)

    def _say(self, text: str) -> None:
        """Print a text. A terminal gets no control characters."""
        output = text_output()
        output.write(escaped_lines(text) if self._is_seen else text)
        output.flush()

    def _words(self, rest: str, form: str, count: int, at_end: bool = False) -> List[str]:
        """Return the words of a line of this form. The name of a file may have blanks."""
        words = rest.rsplit(None, count - 1) if at_end else rest.split(None, count - 1)
        if len(words) != count:
            raise Failure("the shell", f"{form} is expected")
        return words

    def _help(self, rest: str) -> None:
        """Print what lines there are."""
        self._say(_HELP)

    def _quit(self, rest: str) -> None:
        """End the shell."""
        self.has_ended = True

    def _read(self, rest: str) -> None:
        """Run the lines of a file."""
        name, = self._words(rest, ".read FILE", 1)
        if self._depth == _DEEPEST:
            raise Failure(name, f".read is nested more than {_DEEPEST} deep")
        try:
            with open(name, "rb") as file:
                lines = file.readlines()
        except OSError as error:
            why = f"{error.strerror}. A file of lines is expected."
            raise Failure(name, why, Code.INPUT_FAULT) from None
        self._depth += 1
        self.run(lines)
        self._depth -= 1

    def _write(self, rest: str) -> None:
        """Write the bytes of a slot into a file."""
        slot, name = self._words(rest, ".write SLOT FILE", 2)
        answer = self._asked(f".hex {slot}")
        if REFUSED.fullmatch(answer):
            self._print(answer)
        else:
            write_pieces(name, [bytes.fromhex(answer)])

    def _import(self, rest: str) -> None:
        """Put the bytes of a file into a slot."""
        name, slot = self._words(rest, ".import FILE SLOT", 2, at_end=True)
        if name == "-":
            raise Failure(name, "it has the lines. The name of a file is expected.")
        data = read_input(name).data
        if len(data) > LONGEST_FILE:
            why = f"a line takes a file of at most {LONGEST_FILE} bytes. Use `vollikash apply`."
            raise Failure(name, why, Code.SCRIPT_TOO_LONG)
        self._print(self._asked(f".load {slot} {data.hex()}"))


@contextlib.contextmanager
def _history() -> Iterator[None]:
    """Edit lines in the block, with a history that is kept in a file."""
    try:
        import readline
    except ImportError:
        yield
        return
    path = os.path.expanduser("~/.vollikash_history")
    readline.set_history_length(_HISTORY)
    with contextlib.suppress(OSError):
        readline.read_history_file(path)
    try:
        yield
    finally:
        with contextlib.suppress(OSError):
            readline.write_history_file(path)


def _typed(shell: _Shell) -> None:
    """Run the lines that a person types."""
    allow_all(sys.stdin, "surrogateescape")
    print("Type .help for a list of commands.")
    with _history():
        while not shell.has_ended:
            try:
                typed = input(_PROMPT)
            except (EOFError, KeyboardInterrupt) as error:
                print()
                if isinstance(error, KeyboardInterrupt):
                    raise
                return
            # What is pasted may have several lines.
            shell.run(typed.encode(errors="surrogateescape").split(b"\n"))


def shell(arguments: argparse.Namespace) -> int:
    """Run lines on a store. The status is 1 if a line of a script has failed."""
    path = arguments.store
    try:
        with contextlib.closing(LineProgram(path)) as program:
            running = _Shell(program, path)
            if is_terminal(sys.stdin) and is_terminal(sys.stdout):
                _typed(running)
                return 0
            if sys.stdin is not None:
                running.run(sys.stdin.buffer)
            return 1 if running.has_failed else 0
    except StoreError as error:
        raise of_store(path, error) from None
    except (ProgramError, ValueError) as error:
        raise Failure(path, str(error)) from None

"""`vollikash apply`: as `changeset FILE apply STORE`, with reasons in words."""
import argparse
import os
import sys
from typing import Dict, Mapping, Sequence, TextIO, Tuple, cast

from .._conflicts import KINDS, Choice, Conflict, PendingConflict, Report
from .._errors import ChangesetError, Code, ConflictError, Kind, ProgramError, StoreError
from .._files import check
from .._store import Store, open as open_store
from ._messages import CONFLICTS, Failure, complain, of_changeset, of_conflict, of_store, quoted
from ._names import has_records
from ._progress import Progress
from ._show import Lines
from ._streams import Input, made, read_input, text_output
from ._texts import Paint, identifier, is_terminal, literal, literals, title

_KEYS: Mapping[str, Choice] = {"o": "omit", "r": "replace", "a": "abort"}

_SKIPPED = "the store has no such table, or has it with another key or fewer columns"


def _line_of(conflict: Conflict) -> str:
    """Return the line of a conflict that was omitted or replaced."""
    kind, choice, table, key = conflict
    words = f"conflict {KINDS.index(kind) + 1} {kind} {choice} {quoted(table)}"
    return f"{words}: key {literals(key)}: {CONFLICTS[kind]}"


def _print_report(report: Report) -> None:
    """Print the lines that the program prints, with reasons."""
    lines = [f"warning 17 skipped {quoted(table)}: {_SKIPPED}" for table in report.skipped]
    lines += map(_line_of, report.conflicts)
    if report.ignored:
        lines.append(f"ignored {report.ignored}")
    lines.append(f"applied {report.applied}")
    print("\n".join(lines), file=text_output())


class _Questions:
    """Asks on a terminal about each conflict that no option decides."""

    def __init__(self, store: Store, chosen: Mapping[Kind, Choice]) -> None:
        self._store, self._chosen = store, chosen
        self._reader, self._writer = self._terminal()
        self._lines = Lines(self._columns, Paint(self._writer))

    @staticmethod
    def _terminal() -> Tuple[TextIO, TextIO]:
        """Return what is read and written to ask. Raise `Failure` without a terminal."""
        if is_terminal(sys.stdin) and is_terminal(sys.stderr):
            return sys.stdin, sys.stderr
        try:
            return open("/dev/tty", errors="replace"), open("/dev/tty", "w", errors="replace")
        except OSError:
            why = "--interactive needs a terminal. Use --data, --notfound and so on instead"
            raise Failure("vollikash", why) from None

    def __call__(self, conflict: PendingConflict) -> Choice:
        """Return the choice for a conflict."""
        chosen = self._chosen.get(conflict.kind)
        if chosen is not None:
            return chosen
        self._write(f"{conflict.kind}: {CONFLICTS[conflict.kind]}\n")
        self._write(f"  change   {self._lines.line(conflict.change)}\n")
        if conflict.current is not None:
            names = self._columns(conflict.change.table, conflict.change.flags)
            row = [f"{identifier(it[0])}={literal(it[1])}" for it in zip(names, conflict.current)]
            self._write(f"  current  {', '.join(row)}\n")
        return self._asked(conflict.kind in ("data", "conflict"))

    def _columns(self, table: str, flags: bytes) -> Sequence[str]:
        """Return the names of the columns of a table of the store."""
        return self._store.schema(table).columns

    def _write(self, text: str) -> None:
        """Write to the terminal."""
        self._writer.write(text)
        self._writer.flush()

    def _asked(self, may_replace: bool) -> Choice:
        """Ask until there is an answer. The end of input is abort."""
        names = ["omit", "replace", "abort"] if may_replace else ["omit", "abort"]
        while True:
            self._write(f"{', '.join(names)}? ")
            answer = self._reader.readline()
            if not answer:
                self._write("\n")
                return "abort"
            choice = _KEYS.get(answer.strip().lower()[:1])
            if choice in names:
                return cast(Choice, choice)


def _chosen(arguments: argparse.Namespace) -> Dict[Kind, Choice]:
    """Return the choices that options name."""
    named = {kind: getattr(arguments, kind) for kind in KINDS}
    return {kind: choice for kind, choice in named.items() if choice is not None}


def _applied(store: Store, data: bytes, arguments: argparse.Namespace) -> Report:
    """Apply a changeset as the options say."""
    chosen, ignores = _chosen(arguments), arguments.ignore_noop
    if arguments.interactive:
        return store.apply(data, on_conflict=_Questions(store, chosen), ignore_noop=ignores)
    return store.apply(
        data, data=chosen.get("data", "abort"), notfound=chosen.get("notfound", "abort"),
        conflict=chosen.get("conflict", "abort"), constraint=chosen.get("constraint", "abort"),
        ignore_noop=ignores,
    )


def _failure(given: Input, store: str, error: Exception) -> Failure:
    """Return what an error of an apply is, in words."""
    if isinstance(error, ConflictError):
        return of_conflict(given.name, error)
    if isinstance(error, ChangesetError):
        return of_changeset(given.name, given.data, error)
    if isinstance(error, StoreError):
        return of_store(given.name if error.code == Code.WIDER else store, error)
    return Failure(store, str(error))


def _made_by(path: str, is_allowed: bool) -> str:
    """Return what the first opening of a store makes, or an empty text. Raise `Failure` for a new
    store that is not allowed.
    """
    if path == ":memory:":
        return ""
    if not os.path.exists(path):
        if not is_allowed:
            raise Failure(path, "there is no such store. --create makes it")
        return "a new store is made"
    try:
        return "" if has_records(path) else "the database becomes a store, by a table rec"
    except Failure:
        return ""


def apply(arguments: argparse.Namespace) -> int:
    """Apply a changeset to a store, and print the report."""
    given, path = read_input(arguments.file[0]), arguments.store
    made(given, check)  # before a store is made
    new = _made_by(path, arguments.create)
    try:
        with Progress(path, not arguments.interactive):
            # A store takes its time: a second Ctrl-C ends its program.
            with open_store(path, timeout=None) as store:
                report = _applied(store, given.data, arguments)
    except (ProgramError, StoreError, ValueError) as error:
        raise _failure(given, path, error) from None
    except MemoryError:
        raise Failure(path, "memory ran out", Code.NO_MEMORY) from None
    if new:
        complain(f"{title(path)}: {new}")
    _print_report(report)
    return 0

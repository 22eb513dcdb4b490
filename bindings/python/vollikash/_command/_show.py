"""`vollikash show`: each change on a line."""
import argparse
import itertools
import sys
from typing import Iterator, Sequence

from .._changes import Change, changes
from .._files import check
from .._json import Columns, pieces
from .._values import UNDEFINED
from ._names import Names
from ._progress import Progress
from ._streams import Input, for_each, made, text_output
from ._texts import DIM, GREEN, RED, YELLOW, Paint, identifier, is_terminal, literal, title

_COLOURS = {"insert": GREEN, "update": YELLOW, "delete": RED}


class Lines:
    """Makes the line of a change."""

    def __init__(self, columns: Columns, paint: Paint) -> None:
        self._columns, self._paint = columns, paint

    def line(self, change: Change) -> str:
        """Return the line of a change, which is one line whatever its values are."""
        names = list(map(identifier, self._columns(change.table, change.flags)))
        key = [
            f"{name}={literal(field)}"
            for name, field in zip(itertools.compress(names, change.flags), change.key)
        ]
        words = [
            self._paint(_COLOURS[change.op], change.op),
            f"{identifier(change.table)}[{', '.join(key)}]",
            ", ".join(self._others(change, names)),
            self._paint(DIM, "(indirect)") if change.indirect else "",
        ]
        return " ".join(filter(None, words))

    def _others(self, change: Change, names: Sequence[str]) -> Iterator[str]:
        """Yield the other columns, with what was and what is there."""
        old, new = change.old or (), change.new or ()
        for place, (name, flag) in enumerate(zip(names, change.flags)):
            if flag:
                continue
            if change.op == "insert":
                yield f"{name}={self._paint(GREEN, literal(new[place]))}"
            elif change.op == "delete":
                yield f"{name}={self._paint(RED, literal(old[place]))}"
            elif old[place] is not UNDEFINED:
                before = self._paint(RED, literal(old[place]))
                yield f"{name}={before} -> {self._paint(GREEN, literal(new[place]))}"


def _show_json(given: Input, names: Names) -> None:
    """Print a changeset as JSON."""
    made(given, check)
    with Progress(given.name, not is_terminal(sys.stdout)):
        text_output().writelines(pieces(given.data, names.of))


def _show_lines(given: Input, lines: Lines, is_headed: bool) -> None:
    """Print a line for each change."""
    found, output = made(given, changes), text_output()
    if is_headed:
        print(f"==> {title(given.name)} <==", file=output)
    with Progress(given.name, not is_terminal(sys.stdout)) as progress:
        for change in progress.counted(found):
            print(lines.line(change), file=output)


def show(arguments: argparse.Namespace) -> int:
    """Print the changes of files."""
    names = Names(arguments.schema)
    lines = Lines(names.of, Paint(sys.stdout))

    def show_one(given: Input) -> None:
        if arguments.json:
            _show_json(given, names)
        else:
            _show_lines(given, lines, len(arguments.file) > 1)

    return for_each(arguments.file, show_one)

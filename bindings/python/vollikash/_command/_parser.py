"""The words of the command."""
import argparse
import os
from typing import Callable, Optional, Sequence

from .. import __version__
from .._conflicts import CHOICES
from . import _applying, _counts, _making, _page, _shell, _show

_USE = """
FILE is a changeset, and - is standard input or output.
`vollikash COMMAND --help` has the options of a command, and an example.
"""

# The choices for a row that cannot be replaced.
_UNREPLACED = [choice for choice in CHOICES if choice != "replace"]

_Run = Callable[[argparse.Namespace], int]

# The options of `apply`, each with its choices and the conflict that it decides.
_CONFLICTS = {
    "data": (CHOICES, "a row that differs from the old one of an UPDATE or a DELETE"),
    "notfound": (_UNREPLACED, "a row of an UPDATE or a DELETE that does not exist"),
    "conflict": (CHOICES, "a row of an INSERT that exists"),
    "constraint": (_UNREPLACED, "a new row with NULL in a column that refuses it"),
}


class _Words:
    """Makes the parser."""

    def __init__(self) -> None:
        self.parser = argparse.ArgumentParser(
            prog="vollikash", description="Shows, checks, makes and applies changesets of SQLite.",
            epilog=_USE, formatter_class=argparse.RawDescriptionHelpFormatter, allow_abbrev=False,
        )
        self.parser.add_argument("--version", action="version", version=f"vollikash {__version__}")
        self._commands = self.parser.add_subparsers(
            metavar="COMMAND", dest="command", required=True
        )

    def command(self, name: str, does: str, run: _Run, example: str) -> argparse.ArgumentParser:
        """Add a subcommand."""
        command: argparse.ArgumentParser = self._commands.add_parser(
            name, help=does, description=f"{does[0].upper()}{does[1:]}.",
            epilog=f"example:\n  vollikash {example}", allow_abbrev=False,
            formatter_class=argparse.RawDescriptionHelpFormatter,
        )
        command.set_defaults(run=run, file=[])
        return command


def _add_files(command: argparse.ArgumentParser) -> None:
    """Add any number of files."""
    command.add_argument("file", metavar="FILE", nargs="+", help="a changeset file, or -")


def _add_file(command: argparse.ArgumentParser) -> None:
    """Add one file."""
    command.add_argument("file", metavar="FILE", nargs=1, help="a changeset file, or -")


def _add_output(command: argparse.ArgumentParser) -> None:
    """Add the option that names OUT."""
    command.add_argument(
        "-o", "--output", metavar="OUT", help="the file to write, whole or not at all"
    )


def _add_schema(command: argparse.ArgumentParser) -> None:
    """Add the option that names a database."""
    command.add_argument(
        "--schema", metavar="DATABASE", help="a database with the names of the columns"
    )


def _add_looking(words: _Words) -> None:
    """Add the subcommands that look into files."""
    show = words.command(
        "show", "print each change on a line", _show.show, "show --schema app.db edit.cs"
    )
    _add_files(show)
    show.add_argument("--json", action="store_true", help="print JSON; long values are not cut")
    _add_schema(show)
    _add_files(words.command(
        "stat", "count the changes of each table", _counts.stat, "stat monday.cs tuesday.cs"
    ))
    _add_files(words.command(
        "check", "explain the first fault of each file", _counts.check, "check *.cs"
    ))
    html = words.command(
        "html", "make a page of the changes", _page.html,
        "html --schema app.db edit.cs -o edit.html",
    )
    _add_files(html)
    _add_schema(html)
    _add_output(html)


def _add_making(words: _Words) -> None:
    """Add the subcommands that make a changeset."""
    invert = words.command(
        "invert", "make the inverse of a changeset", _making.invert, "invert edit.cs -o undo.cs"
    )
    _add_file(invert)
    concat = words.command(
        "concat", "make one changeset of several", _making.concat,
        "concat monday.cs tuesday.cs -o days.cs",
    )
    _add_files(concat)
    select = words.command(
        "select", "keep some tables of a changeset", _making.select,
        "select edit.cs --table notes tags -o notes.cs",
    )
    select.usage = "%(prog)s [-h] FILE --table T [T ...] [-o OUT]"
    _add_file(select)
    select.add_argument(
        "--table", metavar="T", nargs="+", action="extend", required=True, help="a table to keep"
    )
    number = words.command(
        "number-keys", "number the key columns, as SQLite's apply needs them", _making.number_keys,
        "number-keys made.cs -o numbered.cs",
    )
    _add_file(number)
    for command in (invert, concat, select, number):
        _add_output(command)


def _add_stores(words: _Words) -> None:
    """Add the subcommands on stores."""
    apply = words.command(
        "apply", "apply a changeset to a store", _applying.apply, "apply edit.cs notes.db"
    )
    _add_file(apply)
    apply.add_argument("store", metavar="STORE", help="the file of a store")
    for kind, (choices, which) in _CONFLICTS.items():
        listed = f"{', '.join(choices[:-1])} or abort (default)"
        apply.add_argument(
            f"--{kind}", choices=choices, metavar="C", help=f"{listed}: {which}"
        )
    apply.add_argument("--create", action="store_true", help="make the store if there is none")
    apply.add_argument(
        "--ignore-noop", action="store_true", help="ignore changes that would change nothing"
    )
    apply.add_argument("--interactive", action="store_true", help="ask about each conflict")
    shell = words.command(
        "shell", "run lines on a store", _shell.shell, "shell notes.db"
    )
    shell.add_argument("store", metavar="STORE", help="the file of a store, or :memory:")


def parser() -> argparse.ArgumentParser:
    """Return the parser of the command."""
    words = _Words()
    _add_looking(words)
    _add_making(words)
    _add_stores(words)
    return words.parser


def parsed(words: Optional[Sequence[str]] = None) -> argparse.Namespace:
    """Return the arguments that words are. Misuse ends the process with status 2."""
    whole = parser()
    arguments = whole.parse_args(words)
    if arguments.file.count("-") > 1:
        whole.error("- can be given only once")
    for name in (*arguments.file, getattr(arguments, "store", "-")):
        if not name or "\0" in os.fsdecode(name):
            whole.error("a name is empty")
    if arguments.command == "apply" and arguments.store == "-":
        whole.error("a store cannot be -")
    return arguments

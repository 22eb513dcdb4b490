"""The subcommands that make a changeset: invert, concat, select, number-keys."""
import argparse

from .._errors import ChangesetError
from .._files import concat as concatenated, invert as inverted, number_keys as numbered
from .._tables import select as selected, stat
from .._values import shown
from ._messages import Failure, of_changeset
from ._progress import waited
from ._streams import made, read_input, write_bytes


def invert(arguments: argparse.Namespace) -> int:
    """Write the inverse of a file."""
    write_bytes(arguments.output, made(read_input(arguments.file[0]), inverted))
    return 0


def number_keys(arguments: argparse.Namespace) -> int:
    """Write a file with numbered key columns."""
    write_bytes(arguments.output, made(read_input(arguments.file[0]), numbered))
    return 0


def concat(arguments: argparse.Namespace) -> int:
    """Write the concatenation of files."""
    files = [read_input(name) for name in arguments.file]
    datas = [given.data for given in files]
    what = f"{len(files)} files"
    try:
        data = waited(what, lambda: concatenated(*datas))
    except ChangesetError as error:
        at_fault = files[error.which - 1]
        raise of_changeset(at_fault.name, at_fault.data, error) from None
    write_bytes(arguments.output, data)
    return 0


def select(arguments: argparse.Namespace) -> int:
    """Write a file with only some of its tables."""
    given = read_input(arguments.file[0])
    tables = made(given, stat)
    for name in arguments.table:
        if name not in tables:
            there = ", ".join(map(shown, tables)) or "none"
            raise Failure(given.name, f"it has no table {shown(name)}. Its tables are: {there}")
    write_bytes(arguments.output, made(given, lambda data: selected(data, arguments.table)))
    return 0

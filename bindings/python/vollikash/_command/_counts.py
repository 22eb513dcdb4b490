"""`vollikash stat` and `vollikash check`."""
import argparse
from typing import List, Tuple

from .._files import check as check_file
from .._tables import Counts, stat as counts_of
from ._streams import Input, for_each, made, text_output
from ._texts import identifier, title

_HEAD = ("file", "table", "inserts", "updates", "deletes")

# A file, a table, and three numbers, as texts.
_Row = Tuple[str, ...]


def _total(counts: List[Counts]) -> Counts:
    """Return the sums of numbers of changes."""
    return Counts(*map(sum, zip(*counts))) if counts else Counts(0, 0, 0)


def _aligned(rows: List[_Row]) -> List[str]:
    """Return the lines of rows. Names are at the left of their columns, and numbers at the right.
    """
    widths = [max(map(len, column)) for column in zip(*rows)]
    return [
        "  ".join(
            cell.ljust(width) if place < 2 else cell.rjust(width)
            for place, (cell, width) in enumerate(zip(row, widths))
        )
        for row in rows
    ]


def stat(arguments: argparse.Namespace) -> int:
    """Print the numbers of changes of each table of files."""
    rows: List[_Row] = [_HEAD]
    counts: List[Counts] = []

    def count(given: Input) -> None:
        found = made(given, counts_of)
        for table, counted in found.items():
            rows.append((title(given.name), identifier(table), *map(str, counted)))
        if not found:
            rows.append((title(given.name), "", "0", "0", "0"))
        counts.extend(found.values())

    status = for_each(arguments.file, count)
    rows.append(("total", "", *map(str, _total(counts))))
    print("\n".join(_aligned(rows)), file=text_output())
    return status


def check(arguments: argparse.Namespace) -> int:
    """Print of each file that it is a changeset, or its first fault."""

    def check_one(given: Input) -> None:
        made(given, check_file)
        print(f"{title(given.name)}: ok", file=text_output())

    return for_each(arguments.file, check_one)

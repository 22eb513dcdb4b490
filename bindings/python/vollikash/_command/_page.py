"""`vollikash html`: a page of changes, which loads nothing from elsewhere."""
import argparse
import base64
import hashlib
import html as markup
import itertools
import operator
import os
from typing import Iterator, List, Mapping, Optional, Sequence, Tuple

from .. import __version__
from .._changes import Change, changes
from .._tables import Counts, stat
from .._values import UNDEFINED, Field
from ._names import Names
from ._progress import Progress
from ._streams import Input, made, read_input, write_pieces
from ._template import HEAD_HEIGHT, ROW_HEIGHT, SCRIPT, STYLE
from ._texts import escaped_lines, printable, title

# How many changes are laid out at once.
_ROWS = 100

# Longer texts are scrolled. A column has at most so many characters on a line; how many the column
# of operations has; and how many pixels a character takes.
_LONG, _WIDEST, _OPERATION, _CHARACTER = 1000, 60, 10, 9

# What the heading of a key column has.
_KEY = ' class="key"'

_table = operator.attrgetter("table")

_FILTER = """<form id="filter" hidden>
<label>Table<select id="table"><option value="">all</option></select></label>
<label>Text<input id="text" type="search" autocomplete="off"></label>
<label><input type="checkbox" value="insert" checked> inserts</label>
<label><input type="checkbox" value="update" checked> updates</label>
<label><input type="checkbox" value="delete" checked> deletes</label>
<output id="count"></output>
</form>
"""


def _sum(code: str) -> str:
    """Return the sum by which a policy allows code that is in the page."""
    digest = hashlib.sha256(code.encode()).digest()
    return f"'sha256-{base64.b64encode(digest).decode()}'"


# Nothing is loaded, and only the script of the page runs.
_POLICY = (
    f"default-src 'none'; style-src 'unsafe-inline'; script-src {_sum(SCRIPT)}; "
    "base-uri 'none'; form-action 'none'"
)


def _name(text: str) -> str:
    """Return a name as the page has it."""
    return markup.escape(printable(text))


def _content(field: Field) -> Tuple[str, str]:
    """Return the classes and the text of a defined field."""
    if isinstance(field, str):
        text, kind = markup.escape(escaped_lines(field)), "text"
    elif isinstance(field, bytes):
        text, kind = f"X'{field.hex()}'", ""
    else:
        text, kind = ("NULL", "null") if field is None else (str(field), "")
    return (f"{kind} long" if len(text) > _LONG else kind), text


def _element(tag: str, field: Field) -> str:
    """Return a field as an element."""
    kind, text = _content(field)
    return f'<{tag} class="{kind}">{text}</{tag}>' if kind else f"<{tag}>{text}</{tag}>"


def _cell(field: Field) -> str:
    """Return the cell of a value that has no other one next to it."""
    kind, text = _content(field)
    if kind.endswith("long"):
        return f'<td><div class="{kind}">{text}</div>'
    return f'<td class="{kind}">{text}' if kind else f"<td>{text}"


def _cells(change: Change) -> Iterator[str]:
    """Yield the cells of a change. That of a column that is updated has the old value and the new
    one.
    """
    if change.old is None or change.new is None:
        yield from map(_cell, change.new or change.old or ())
        return
    for before, after in zip(change.old, change.new):
        if before is UNDEFINED:
            yield "<td>"
        elif after is UNDEFINED:
            yield _cell(before)
        else:
            yield f"<td>{_element('del', before)} {_element('ins', after)}"


def _row(change: Change) -> str:
    """Return the row of a change."""
    indirect = "<small>indirect</small>" if change.indirect else ""
    cells = "".join(_cells(change))
    return f'<tr class="{change.op}"><th scope="row">{change.op}{indirect}{cells}</tr>\n'


def _length(field: Field) -> int:
    """Return about how many characters a field has on its longest line, as far as it matters."""
    if isinstance(field, str):
        return max(map(len, field[:_WIDEST].split("\n"))) + 2
    if isinstance(field, bytes):
        return 2 * len(field[:_WIDEST]) + 3
    return 0 if field is UNDEFINED else 4 if field is None else len(str(field))


def _widths(names: Sequence[str], changes: Sequence[Change]) -> List[int]:
    """Return how many characters wide each column of a table is, by its first changes."""
    widths = [len(name) + 5 for name in names]
    for change in changes:
        old, new = change.old or (), change.new or ()
        for place, (before, after) in enumerate(itertools.zip_longest(old, new)):
            fields = [_length(field) for field in (before, after) if field is not None]
            widths[place] = max(widths[place], sum(fields) + 3)
    return [min(width, _WIDEST) for width in widths]


def _counted(count: int, what: str) -> str:
    """Return a number of things in words."""
    return f"{count} {what}{'' if count == 1 else 's'}"


def _summary(counts: Counts) -> str:
    """Return the numbers of changes in words."""
    kinds = zip(counts, ("insert", "update", "delete"))
    return ", ".join(_counted(count, kind) for count, kind in kinds if count)


class _Table:
    """Makes the page of a table, by the changes of its first part."""

    def __init__(self, first: Sequence[Change], names: Sequence[str]) -> None:
        self._name, self._flags = _name(first[0].table), first[0].flags
        self._names = names
        widths = _widths(names, first)
        self._width = _CHARACTER * (_OPERATION + sum(widths))
        columns = "".join(
            f'<col style="width:{100 * width / (_OPERATION + sum(widths)):.2f}%">'
            for width in (_OPERATION, *widths)
        )
        self._columns = f"<colgroup>{columns}</colgroup>"

    def start(self, counts: Counts) -> str:
        """Return the heading of the table, and the names of its columns."""
        heads = "".join(
            f'<th scope="col"{_KEY * bool(flag)}>{_name(name)}'
            for name, flag in zip(self._names, self._flags)
        )
        height = f"contain-intrinsic-height:{HEAD_HEIGHT + ROW_HEIGHT * sum(counts)}px"
        return (
            f'<section data-table="{self._name}" style="{height}">\n'
            f"<h3>{self._name}<small>{_summary(counts)}</small></h3>\n"
            f'<div class="scroll"><div style="min-width:{self._width}px">\n'
            f"<table>{self._columns}<thead><tr><th>{heads}</tr></thead></table>\n"
        )

    def part(self, changes: Sequence[Change]) -> str:
        """Return a part of the table."""
        height = f"contain-intrinsic-height:{ROW_HEIGHT * len(changes)}px"
        rows = "".join(map(_row, changes))
        return (
            f'<div class="part" style="{height}"><table>{self._columns}<tbody>\n{rows}'
            "</tbody></table></div>\n"
        )

    @staticmethod
    def end() -> str:
        """Return the end of the table."""
        return "</div></div>\n</section>\n"


def _parts(changes: Iterator[Change]) -> Iterator[List[Change]]:
    """Yield changes in parts."""
    while True:
        part = list(itertools.islice(changes, _ROWS))
        if not part:
            return
        yield part


def _of_table(
    changes: Iterator[Change], names: Names, counts: Mapping[str, Counts]
) -> Iterator[str]:
    """Yield the page of one table."""
    table: Optional[_Table] = None
    for part in _parts(changes):
        if table is None:
            name, flags = part[0].table, part[0].flags
            table = _Table(part, names.of(name, flags))
            yield table.start(counts[name])
        yield table.part(part)
    yield _Table.end()


def _of_file(given: Input, names: Names) -> Iterator[str]:
    """Yield the page of one file."""
    counts = made(given, stat)
    total = Counts(*map(sum, zip(*counts.values()))) if counts else Counts(0, 0, 0)
    tables = _counted(len(counts), "table")
    detail = f": {_summary(total)}" if counts else ""
    yield f"<section>\n<h2>{markup.escape(title(given.name))}</h2>\n"
    yield f"<p>{_counted(sum(total), 'change')} in {tables}{detail}</p>\n"
    found = made(given, changes)
    with Progress(given.name) as progress:
        for _, group in itertools.groupby(progress.counted(found), _table):
            yield from _of_table(group, names, counts)
    yield "</section>\n"


def _heading(files: List[str]) -> str:
    """Return the title of the page."""
    if len(files) > 1:
        return f"Changes of {len(files)} files"
    return f"Changes of {markup.escape(title(os.path.basename(files[0])))}"


def _pieces(files: List[str], names: Names) -> Iterator[str]:
    """Yield the page."""
    heading = _heading(files)
    yield (
        '<!DOCTYPE html>\n<html lang="en">\n<head>\n<meta charset="utf-8">\n'
        f'<meta http-equiv="Content-Security-Policy" content="{_POLICY}">\n'
        '<meta name="viewport" content="width=device-width, initial-scale=1">\n'
        '<meta name="referrer" content="no-referrer">\n'
        f"<title>{heading}</title>\n<style>{STYLE}</style>\n</head>\n<body>\n"
        f"<header><h1>{heading}</h1></header>\n{_FILTER}<main>\n"
    )
    for name in files:
        yield from _of_file(read_input(name), names)
    yield (
        f"</main>\n<footer>Made by vollikash {__version__}</footer>\n"
        f"<script>{SCRIPT}</script>\n</body>\n</html>\n"
    )


def html(arguments: argparse.Namespace) -> int:
    """Write a page of the changes of files."""
    pieces = _pieces(arguments.file, Names(arguments.schema))
    write_pieces(arguments.output, (piece.encode() for piece in pieces))
    return 0

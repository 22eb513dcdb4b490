"""What has failed, in words. A message begins with the name of the file."""
import sys
from typing import Mapping, Optional

from .._errors import ChangesetError, Code, ConflictError, StoreError, StoreFault
from .._explain import explain
from ._texts import escaped_lines, literals, printable, title

# What an error of a store or of a line is, and what can be done.
SENTENCES: Mapping[int, str] = {
    Code.TABLE_EXISTS: "there is a table with this name. Choose another one.",
    Code.NO_TABLE: "there is no table with this name. Create it.",
    Code.BAD_SCHEMA: "a table has columns with different names, and a key.",
    Code.KEY_TAKEN: "there is a row with this key. Update or delete it.",
    Code.NO_ROW: "there is no row with this key. Insert it.",
    Code.ROW_WIDTH: "a row has one value for each column.",
    Code.NULL_IN_KEY: "a key column is not NULL.",
    Code.DAMAGED_STORE: "it has a table `rec` that is declared otherwise, or invalid records. "
    "Rename a table `rec` of your own, restore a backup, or take another file.",
    Code.STORE_FAULT: "a store, or a path for a new one, is expected. It cannot be opened or "
    "written.",
    Code.NOT_NULL: "a column that refuses NULL has a value.",
    Code.WIDER: "the store's table has more columns. Record the changeset on the wider table.",
    Code.ABORT: "a conflict. Choose omit or replace for its kind.",
    Code.MISUSE: "such a conflict cannot be replaced. Choose omit or abort.",
    Code.SCHEMA: "a table has other columns or another key in the second changeset.",
    Code.ALREADY_ATTACHED: "the session has the table.",
    Code.NO_MEMORY: "memory ran out.",
    Code.SYNTAX: "not understood at this byte of the line. .help lists the commands.",
    Code.EMPTY_SLOT: "nothing was put into the slot. Use .import or .load.",
    Code.SCRIPT_TOO_LONG: "the program has taken all lines that it takes. Start the shell again.",
    Code.NO_SESSION: "no session is open. Use .session open.",
    Code.SESSION_OPEN: "a session is open. Use .session close.",
    Code.BAD_HEX: "hexadecimal digits, two for each byte, are expected.",
    Code.UNKNOWN_COLUMN: "the table has no such column, or the conditions do not name each key "
    "column once.",
    Code.LINE_TEXT: "a line is UTF-8.",
}

# What a conflict is.
CONFLICTS = {
    "data": "the row differs from the old one of the change",
    "notfound": "the row of the change does not exist",
    "conflict": "a row with the key of the change exists",
    "constraint": "a column that refuses NULL would have it",
}


class Failure(Exception):
    """Something failed. `name` is the file's, and `why` says what was expected."""

    def __init__(self, name: str, why: str, code: Optional[Code] = None, detail: str = "") -> None:
        numbered = [f"error {code:d} {code.title} {detail}".rstrip()] if code else []
        super().__init__(": ".join([title(name), *numbered, escaped_lines(why)]))


def complain(what: object) -> None:
    """Print a message on standard error, after what was printed."""
    if sys.stdout is not None:
        sys.stdout.flush()
    if sys.stderr is not None:
        print(what, file=sys.stderr, flush=True)


def of_changeset(name: str, data: bytes, error: ChangesetError) -> Failure:
    """Return the failure of a file that is no changeset."""
    return Failure(name, explain(data, error), error.code, str(error.place))


def of_system(error: OSError) -> Failure:
    """Return the failure of a call of the system. One that names no file was to print."""
    if error.errno is None:
        return Failure("vollikash", str(error))
    if error.filename is None:
        return Failure("standard output", str(error.strerror), Code.OUTPUT_FAULT)
    return Failure(str(error.filename), str(error.strerror))


def quoted(table: str) -> str:
    """Return the name of a table as the program prints it, on one line."""
    return "'" + printable(table).replace("'", "''") + "'"


def of_conflict(name: str, error: ConflictError) -> Failure:
    """Return the failure of an apply that ended at a conflict."""
    words = CONFLICTS.get(error.kind, error.kind)
    why = f"key {literals(error.key or ())}: {words}. Nothing is changed."
    return Failure(name, why, error.code, f"{error.kind} {quoted(error.table or '')}")


def of_store(name: str, error: StoreError) -> Failure:
    """Return the failure of a store."""
    why = error.why if isinstance(error, StoreFault) else SENTENCES.get(error.code, str(error))
    return Failure(name, why, error.code, str(error.detail) if error.code == Code.WIDER else "")

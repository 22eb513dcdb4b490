"""What an apply reports, and conflicts that a function of the caller decides."""
from typing import Callable, List, Literal, NamedTuple, Optional, Sequence, Tuple, get_args

from ._changes import Change
from ._decoding import entries
from ._errors import Code, ConflictError, Kind, ProgramError
from ._values import Key, Row

# What can be done about a conflict, in the order of SQLite's numbers from 0.
Choice = Literal["omit", "replace", "abort"]
CHOICES: Tuple[Choice, ...] = get_args(Choice)

# The kinds of conflicts, in the order of SQLite's numbers from 1.
KINDS: Tuple[Kind, ...] = get_args(Kind)


class Conflict(NamedTuple):
    """A conflict of an apply, the choice for it, and the row: its table, and the values of its key.
    """

    kind: Kind
    choice: Choice
    table: str
    key: Key


class Report(NamedTuple):
    """The report of an apply: conflicts, skipped tables, and the numbers of entries that were
    carried out and ignored.

    If there are no conflicts and no ignored entries, `Store.revert` undoes the apply.
    """

    conflicts: List[Conflict]
    skipped: List[str]
    applied: int
    ignored: int = 0


class PendingConflict(NamedTuple):
    """A conflict that is to be decided: its kind, the change, and the current row of its key."""

    kind: Kind
    change: Change
    current: Optional[Row]


Handler = Callable[[PendingConflict], Choice]


class Found(NamedTuple):
    """A conflict that an apply would have: the zero-based number of its entry in the file, its
    kind, its row, and how an answer has it.
    """

    entry: int
    kind: Kind
    table: str
    key: Key
    current: Optional[Row]
    spelled: bytes


def _checked(found: Found, choice: Choice) -> Choice:
    """Return the choice for a conflict. Raise the error if it ends the apply."""
    if choice not in CHOICES:
        raise ValueError(f"a choice is one of {', '.join(CHOICES)}, and not {choice!r}")
    is_misuse = choice == "replace" and found.kind in ("notfound", "constraint")
    if choice == "abort" or is_misuse:
        code = Code.MISUSE if is_misuse else Code.ABORT
        raise ConflictError(code, found.table, None, found.key, KINDS.index(found.kind) + 1)
    return choice


def decided(conflicts: Sequence[Found], data: bytes, handler: Handler) -> List[Choice]:
    """Return what a function chooses for each conflict of a file that the program has read.

    The second conflict of an entry is asked about only if the row is to be replaced.
    """
    numbered = enumerate(entries(data))
    number, entry = next(numbered, (-1, None))
    choices: List[Choice] = []
    last = -1
    for found in conflicts:
        if found.entry == last and choices[-1] != "replace":
            choices.append("omit")
            continue
        while entry is not None and number < found.entry:
            number, entry = next(numbered, (-1, None))
        if entry is None:
            raise ProgramError(f"the program found a conflict of entry {found.entry}")
        table, op, indirect, old, new = entry
        change = Change(table.name, op, indirect, old, new, table.flags)
        choices.append(_checked(found, handler(PendingConflict(found.kind, change, found.current))))
        last = found.entry
    return choices

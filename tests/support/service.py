"""What a store answers to calls, as bytes: a model that shares no code with the program.

It follows `docs/CALLS.md`. Values, rows and tables are those of `model.py`: a value is the bytes
that it is spelled with, a row a tuple of values, and a table has its rows by the bytes of their
keys.
"""
import copy
import struct

from support import reader
from support.calls import (
    CHANGESET, CONFLICTS, DONE, FLAG, LIMITS, MOST_BYTES, NAMES, NUMBER, NUMBERS, REFUSED, REPORT, ROW, ROWS, SCHEMA,
    UNREAD, count, frame, sized,
)
from support.model import NULL, Applying, Refusal, Session, Table, conflict_of, is_left, judged_all, put
from support.model import NUMBERS as KINDS
from support.shell import MOST_COLUMNS

OMIT, REPLACE, ABORT = range(3)

# The kinds of conflicts that a `replace` does not settle.
NEVER_REPLACED = (KINDS[b"notfound"], KINDS[b"constraint"])

# Marks of a column.
OF_KEY, REFUSES_NULL = 1, 2

# The calls on the session, and those on the transaction.
SESSION_CALLS = ("open_session", "attach", "changeset", "is_empty", "undo", "close_session")
TRANSACTION_CALLS = ("begin", "commit", "roll_back")


# ---- bytes of answers

def listed(parts):
    """The bytes of a list."""
    return count(len(parts)) + b"".join(parts)


def number(whole):
    return struct.pack(">Q", whole)


def optional(part, spelled):
    """The bytes of a part that is spelled so, or of none."""
    return b"\x00" if part is None else b"\x01" + spelled(part)


def yes_or_no(flag):
    return bytes([bool(flag)])


def answer(form, *parts):
    """The bytes of an answer."""
    return bytes([form]) + b"".join(parts)


class Refused(Refusal):
    """Why a call is refused: a code, and what it comes with."""

    def __init__(self, code, table=None, column=None, key=None, detail=None):
        super().__init__(b"error %d" % code)
        self.code = code
        self.parts = optional(table, sized), optional(column, sized), optional(key, listed), optional(detail, number)

    def answer(self):
        return answer(REFUSED, number(self.code), *self.parts)


def refusal(code, **parts):
    """The answer of a call that is refused."""
    return Refused(code, **parts).answer()


# ---- reading calls

class CallReader(reader.Reader):
    """Reads the parts of a call."""

    def byte(self, most, least=0):
        """A byte that is within these bounds."""
        start, byte = self.at, self.take(1)[0]
        if not least <= byte <= most:
            raise reader.Fault(90, start)
        return byte

    def number(self):
        return int.from_bytes(self.take(8), "big")

    def file(self):
        return self.take(self.varint())

    def text(self):
        size = self.varint()
        start, content = self.at, self.take(size)
        if not reader.is_text(content):
            raise reader.Fault(14, start)
        return content

    def value(self):
        if self.here() == reader.UNDEFINED:
            raise reader.Fault(15, self.at)
        return self.field()

    def several(self, part):
        return tuple(part() for _ in range(self.varint()))

    def row(self):
        return self.several(self.value)

    def optional_row(self):
        return self.row() if self.byte(1) else None

    def columns(self):
        return self.several(lambda: (self.text(), self.byte(OF_KEY | REFUSES_NULL)))

    def no_ops(self):
        return self.byte(1)

    def choice(self):
        return self.byte(ABORT)

    def policy(self):
        return tuple(self.choice() for _ in KINDS)

    def found(self):
        """A conflict that was found."""
        return self.number(), self.byte(4, 1), self.text(), self.row(), self.optional_row()

    def choices(self):
        return self.several(lambda: (self.found(), self.choice()))

    def call(self):
        """The name of a call, and its parts."""
        start = self.take(1)[0]
        if start not in CALLS:
            raise reader.Fault(91, 0)
        name, parts = CALLS[start]
        found = [part(self) for part in parts]
        if self.here():
            raise reader.Fault(92, self.at)
        return name, found


PARTS = {
    "schema": (CallReader.text,),
    "declare": (CallReader.text, CallReader.columns),
    "get": (CallReader.text, CallReader.row),
    "rows": (CallReader.text, CallReader.optional_row, CallReader.varint),
    "count": (CallReader.text,),
    "insert": (CallReader.text, CallReader.row),
    "update": (CallReader.text, CallReader.row, CallReader.row),
    "delete": (CallReader.text, CallReader.row),
    "put": (CallReader.text, CallReader.row),
    "apply": (CallReader.file, CallReader.no_ops, CallReader.policy),
    "apply_chosen": (CallReader.file, CallReader.no_ops, CallReader.choices),
    "rehearse": (CallReader.file, CallReader.no_ops),
    "revert": (CallReader.file,),
    "attach": (CallReader.text,),
}
CALLS = {place: (name, PARTS.get(name, ())) for name, place in NUMBERS.items()}


# ---- conflicts

def key_values(table, record):
    """The values of a record in the key columns of a table."""
    return tuple(value for flag, value in zip(table.flags, record) if flag)


class CallApplying(Applying):
    """An apply whose choices are those of a call, by the table, the key and the kind of a conflict."""

    def __init__(self, tables, ignores, chosen):
        super().__init__(tables, {b"noop": b"ignore" if ignores else b"report"})
        self.chosen = chosen
        self.conflicts = []

    def carry_out(self, name, entry):
        self.key = key_values(self.tables[name], entry[2][0])
        super().carry_out(name, entry)

    def ask(self, name, kind):
        kind = KINDS[kind]
        choice = self.chosen(name, self.key, kind)
        if choice == ABORT or choice == REPLACE and kind in NEVER_REPLACED:
            raise Refused(41 if choice == ABORT else 42, table=name, key=self.key, detail=kind)
        self.conflicts.append(bytes([kind, choice]) + sized(name) + listed(self.key))
        return b"omit" if choice == OMIT else b"replace"

    def answer(self):
        """The bytes of the report."""
        skipped = listed([sized(name) for name in self.skipped])
        return answer(REPORT, number(len(self.writes)), number(self.ignored), skipped, listed(self.conflicts))


def rehearsed(tables, groups, ignores):
    """The conflicts that an apply finds: of each the index of its entry, its kind, its table, its key
    and the row of that.
    """
    place = 0
    for judgement, (_, name, entries) in zip(judged_all(tables, groups), groups):
        for entry in entries:
            if judgement == "compatible":
                for kind, key, row in conflicts_of(tables[name], entry, ignores):
                    yield place, KINDS[kind], name, key, row
            place += 1


def conflicts_of(table, entry, ignores):
    """The conflicts that an entry may have, of each its kind, its key and the row of that."""
    key = key_values(table, entry[2][0])
    row = table.rows.get(b"".join(key))
    kind, is_refused = conflict_of(entry, row), entry[0] != reader.DELETE and table.has_null(entry[2][-1])
    if ignores and is_left(entry, row):
        return
    if kind is not None:
        yield kind, key, row
    if is_refused and kind != b"notfound":
        yield b"constraint", key, row


def found_bytes(found):
    """The bytes of a conflict that was found."""
    place, kind, name, key, row = found
    return number(place) + bytes([kind]) + sized(name) + listed(key) + optional(row, listed)


# ---- the store

class Service:
    """A store, with its session and its transaction, that answers calls.

    `tables` are those that calls see, and `before` those from before the open transaction, or none
    where none is open. `writes` is what the transaction has written.
    """

    def __init__(self):
        self.tables = {}
        self.session = None
        self.before = None
        self.writes = []
        self.has_ended = False

    def committed(self):
        """The tables that are there after a crash."""
        return self.tables if self.before is None else self.before

    def reopened(self):
        """The store where it is opened again after a crash."""
        again = Service()
        again.tables = copy.deepcopy(self.committed())
        return again

    def end(self):
        """Ends the transaction without a call that does."""
        self.tables, self.has_ended = self.before, True

    def answer(self, content):
        """The answer to the bytes of a call."""
        try:
            name, parts = CallReader(content).call()
        except reader.Fault as fault:
            return answer(UNREAD, number(fault.number), number(fault.place))
        try:
            self.expect_allowed(name)
            return getattr(self, "call_" + name)(*parts)
        except Refused as refused:
            return refused.answer()
        except Refusal as refused:
            return refusal(40, detail=int(refused.line.split()[-1]))
        except reader.Fault as fault:
            return refusal(fault.number, detail=fault.place)

    def expect_allowed(self, name):
        """Refuses a call for the state of the transaction or of the session."""
        if name in SESSION_CALLS:
            if self.before is not None:
                raise Refused(95)
            if self.session is None and name != "open_session":
                raise Refused(64)
        elif self.has_ended and name not in (*TRANSACTION_CALLS, "limits"):
            raise Refused(97)

    def note(self, writes):
        """Has the session note what was written, after the commit."""
        if self.before is not None:
            self.writes += writes
        elif self.session is not None:
            self.session.note(writes)

    # ---- tables and rows

    def table(self, name):
        if name not in self.tables:
            raise Refused(31, table=name)
        return self.tables[name]

    def key(self, name, table, key):
        """The bytes of a key that a call names."""
        columns = [column for column, flag in zip(table.columns, table.flags) if flag]
        return b"".join(self.checked(name, columns, key))

    def row(self, name, table, row):
        """The bytes of the key of a row that a call brings."""
        self.checked(name, table.columns, row, table.flags)
        for column, refuses, value in zip(table.columns, table.refuses, row):
            if refuses and value == NULL:
                raise Refused(39, table=name, column=column)
        return table.key(row)

    @staticmethod
    def checked(name, columns, values, flags=None):
        """Values that are as many as columns. None of the key is NULL."""
        if len(values) != len(columns):
            raise Refused(35, table=name)
        for place, (column, value) in enumerate(zip(columns, values)):
            if value == NULL and (flags is None or flags[place]):
                raise Refused(36, table=name, column=column)
        return values

    def call_tables(self):
        return answer(NAMES, listed([sized(name) for name in sorted(self.tables)]))

    def call_schema(self, name):
        table = self.table(name)
        marks = [OF_KEY * bool(flag) | REFUSES_NULL * refuses for flag, refuses in zip(table.flags, table.refuses)]
        return answer(SCHEMA, listed([sized(column) + bytes([mark]) for column, mark in zip(table.columns, marks)]))

    def call_declare(self, name, columns):
        names = [column for column, _ in columns]
        flags = [mark & OF_KEY for _, mark in columns]
        is_good = name and b"\0" not in name and b"" not in names and len(set(names)) == len(names) <= MOST_COLUMNS
        if not is_good or not any(flags):
            raise Refused(32, table=name)
        if name in self.tables:
            raise Refused(30, table=name)
        self.tables[name] = Table(names, flags, [bool(mark & REFUSES_NULL) for _, mark in columns])
        return answer(DONE)

    def call_get(self, name, key):
        table = self.table(name)
        row = table.rows.get(self.key(name, table, key))
        return answer(ROW, optional(row, listed))

    def call_rows(self, name, after, limit):
        table = self.table(name)
        least = None if after is None else self.key(name, table, after)
        keys = sorted(key for key in table.rows if least is None or key > least)
        return answer(ROWS, listed([listed(table.rows[key]) for key in keys[:limit]]), yes_or_no(keys[limit:]))

    def call_count(self, name):
        return answer(NUMBER, number(len(self.table(name).rows)))

    def call_insert(self, name, row):
        table = self.table(name)
        return self.write(name, None, self.row(name, table, row), row)

    def call_update(self, name, key, row):
        table = self.table(name)
        old, new = self.key(name, table, key), self.row(name, table, row)
        if old not in table.rows:
            raise Refused(34, table=name, key=key)
        return self.write(name, old, new, row)

    def write(self, name, old, new, row):
        """Puts a row under a key in the place of that of another, or of none."""
        table = self.tables[name]
        if new != old and new in table.rows:
            raise Refused(33, table=name, key=key_values(table, row))
        removed = [] if old is None else [put(self.tables, name, old, None)]
        self.note([*removed, put(self.tables, name, new, row)])
        return answer(DONE)

    def call_delete(self, name, key):
        table = self.table(name)
        old = self.key(name, table, key)
        if old not in table.rows:
            raise Refused(34, table=name, key=key)
        self.note([put(self.tables, name, old, None)])
        return answer(DONE)

    def call_put(self, name, row):
        table = self.table(name)
        self.note([put(self.tables, name, self.row(name, table, row), row)])
        return answer(DONE)

    # ---- transactions

    def call_begin(self):
        if self.before is not None:
            raise Refused(95)
        self.before, self.writes = copy.deepcopy(self.tables), []
        return answer(DONE)

    def close_transaction(self):
        """Closes the transaction. Returns whether it had ended."""
        if self.before is None:
            raise Refused(96)
        had_ended, self.before, self.has_ended = self.has_ended, None, False
        return had_ended

    def call_commit(self):
        if self.close_transaction():
            raise Refused(97)
        self.note(self.writes)
        return answer(DONE)

    def call_roll_back(self):
        before = self.before
        self.close_transaction()
        self.tables = before
        return answer(DONE)

    # ---- changesets

    def carry_out(self, groups, ignores, chosen):
        """Applies groups."""
        applying = CallApplying(self.tables, ignores, chosen)
        applying.run(groups)
        self.note(applying.writes)
        return applying.answer()

    def call_apply(self, file, ignores, policy):
        return self.carry_out(reader.Reader(file).groups(), ignores, lambda name, key, kind: policy[kind - 1])

    def call_apply_chosen(self, file, ignores, choices):
        groups = reader.Reader(file).groups()
        if list(rehearsed(self.tables, groups, ignores)) != [found for found, _ in choices]:
            raise Refused(99)
        chosen = {(name, key, kind): choice for (_, kind, name, key, _), choice in choices}
        return self.carry_out(groups, ignores, lambda *conflict: chosen[conflict])

    def call_rehearse(self, file, ignores):
        found = rehearsed(self.tables, reader.Reader(file).groups(), ignores)
        return answer(CONFLICTS, listed(list(map(found_bytes, found))))

    def call_revert(self, file):
        return self.abort_at_conflicts(reader.inverted(reader.Reader(file).groups()))

    def abort_at_conflicts(self, groups):
        return self.carry_out(groups, False, lambda *_: ABORT)

    # ---- sessions

    def call_open_session(self):
        if self.session is not None:
            raise Refused(65)
        self.session = Session()
        return answer(DONE)

    def call_attach(self, name):
        self.table(name)
        if name in self.session.attached:
            raise Refused(50, table=name)
        self.session.attached[name] = {}
        return answer(DONE)

    def call_changeset(self):
        return answer(CHANGESET, sized(reader.write(self.session.changeset(self.tables))))

    def call_is_empty(self):
        return answer(FLAG, yes_or_no(self.session.is_empty()))

    def call_undo(self):
        return self.abort_at_conflicts(reader.inverted(self.session.changeset(self.tables)))

    def call_close_session(self):
        self.session = None
        return answer(DONE)

    def call_limits(self):
        return answer(LIMITS, number(1), number(MOST_BYTES))


def answers_to(calls):
    """The answers to calls in turn, on a new store."""
    return list(map(Service().answer, calls))


def served(service, stream):
    """What is written for the bytes of a stream, and the exit status."""
    written, at = [], 0
    while at < len(stream):
        size = int.from_bytes(stream[at:at + 4], "big")
        content = stream[at + 4:at + 4 + size]
        if len(stream) - at < 4 or len(content) < size:
            return b"".join(written), 1
        written.append(frame(refusal(94) if size > MOST_BYTES else service.answer(content)))
        at += 4 + size
    return b"".join(written), 0

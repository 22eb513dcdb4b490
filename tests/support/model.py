"""What changesets make, and what they do to tables of rows: a model that shares no code with the
program.

It follows `docs/FORMAT.md`, `docs/COMMAND.md` and `docs/SHELL.md`. A changeset is its groups, as
`reader.py` reads them: of each its flags, its name and its entries. A value is the bytes that it is
spelled with, a row a tuple of values, and a key the bytes of its values.
"""
import collections

from support.reader import DELETE, INSERT, UNDEFINED, UPDATE, inverted

NULL = b"\x05"

# The kinds of conflicts, and the numbers that are printed of them.
NUMBERS = {b"data": 1, b"notfound": 2, b"conflict": 3, b"constraint": 4}

# What is chosen where nothing is said; entries that change nothing are conflicts like others.
ABORTS = {**{kind: b"abort" for kind in NUMBERS}, b"noop": b"report"}

# An entry that is carried out: the table, the key, and the row that stood there, or none.
Write = collections.namedtuple("Write", "table key former")


class Refusal(Exception):
    """Why something is refused: the line that is printed, as bytes without its line feed."""

    def __init__(self, line):
        super().__init__(line.decode(errors="replace"))
        self.line = line


class Table:
    """The columns of a table, for each whether it is of the key and whether it refuses NULL, and
    its rows by their keys.
    """

    def __init__(self, columns, flags, refuses=()):
        self.columns = columns
        self.flags = flags
        self.refuses = [bool(flag or mark) for flag, mark in zip(flags, refuses or flags)]
        self.rows = {}

    def key(self, row):
        """The key of a row."""
        return key_of(self.flags, row)

    def has_null(self, values):
        """Whether a value is NULL in a column that refuses it."""
        return any(mark and value == NULL for mark, value in zip(self.refuses, values))


def key_of(flags, values):
    """The bytes of the values in key columns."""
    return b"".join(value for flag, value in zip(flags, values) if flag)


def have_same_columns(first, second):
    """Whether the flags of two tables mark the same columns."""
    return [flag != 0 for flag in first] == [flag != 0 for flag in second]


# ---- joins

def update_of(flags, indirect, before, after):
    """The UPDATE of the columns that differ, or none where none do."""
    differ = [not flag and old != new for flag, old, new in zip(flags, before, after)]
    if not any(differ):
        return None
    return UPDATE, indirect, [
        [old if flag or changed else UNDEFINED for flag, changed, old in zip(flags, differ, before)],
        [new if changed else UNDEFINED for changed, new in zip(differ, after)],
    ]


def over(fields, others):
    """Fields, and the others where they are not defined."""
    return [other if field == UNDEFINED else field for field, other in zip(fields, others)]


def merged(flags, first, second):
    """What two entries of one key become, or none."""
    (was, _, old), (then, _, new) = first, second
    if (was == DELETE) != (then == INSERT):
        return first
    indirect = min(first[1], second[1])
    if was == DELETE:
        return update_of(flags, indirect, old[0], new[0])
    if was == INSERT:
        return None if then == DELETE else (INSERT, indirect, [over(new[1], old[0])])
    if then == DELETE:
        return DELETE, indirect, [over(old[0], new[0])]
    return update_of(flags, indirect, over(old[0], new[0]), over(new[1], old[1]))


def merged_entries(flags, first, second):
    """The entries of two groups of one table as those of one."""
    later = {key_of(flags, entry[2][0]): entry for entry in second}
    entries = []
    for entry in first:
        other = later.pop(key_of(flags, entry[2][0]), None)
        entries.append(entry if other is None else merged(flags, entry, other))
    return [entry for entry in entries if entry is not None] + list(later.values())


def concatenated(first, second):
    """The groups of the concatenation of two changesets."""
    known = {name: flags for flags, name, _ in first}
    for place, (flags, name, _) in enumerate(second):
        if name in known and not have_same_columns(known[name], flags):
            raise Refusal(b"error 43 Schema %d" % place)
    more = {name: entries for _, name, entries in second}
    groups = [(flags, name, merged_entries(flags, entries, more.get(name, []))) for flags, name, entries in first]
    return [group for group in groups if group[2]] + [group for group in second if group[1] not in known]


# ---- applies

def judged(flags, table):
    """Whether changes of columns with these flags are for a table: `skipped`, `wider` or
    `compatible`.
    """
    if table is None or not have_same_columns(flags, table.flags[:len(flags)]):
        return "skipped"
    return "wider" if len(flags) < len(table.flags) else "compatible"


def judged_all(tables, groups):
    """The judgements of all groups. A wider table is refused."""
    judgements = [judged(flags, tables.get(name)) for flags, name, _ in groups]
    if "wider" in judgements:
        raise Refusal(b"error 40 Wider %d" % judgements.index("wider"))
    return judgements


def conflict_of(entry, row):
    """The kind of the conflict that an entry meets at the row of its key, or none."""
    operation, _, records = entry
    if operation == INSERT:
        return None if row is None else b"conflict"
    if row is None:
        return b"notfound"
    return None if over(records[0], row) == list(row) else b"data"


def row_after(entry, row):
    """What an entry that is carried out leaves of the row of its key."""
    operation, _, records = entry
    if operation == UPDATE:
        return tuple(over(records[1], row))
    return tuple(records[0]) if operation == INSERT else None


def is_left(entry, row):
    """Whether the row of an entry's key, or none, is already what the entry leaves."""
    operation, _, records = entry
    if row is None or operation == DELETE:
        return row is None and operation == DELETE
    return over(records[-1], row) == list(row)


class Applying:
    """An apply to tables: what it writes, which is taken back where it is refused, and what it
    prints.
    """

    def __init__(self, tables, choices):
        self.tables = tables
        self.choices = choices
        self.writes = []
        self.report = []
        self.skipped = []
        self.ignored = 0

    def run(self, groups):
        """Carries the groups out, and answers the lines of the report."""
        judgements = judged_all(self.tables, groups)
        self.skipped = [name for judgement, (_, name, _) in zip(judgements, groups) if judgement == "skipped"]
        self.report += [b"warning 17 skipped " + quoted(name) for name in self.skipped]
        try:
            for judgement, (_, name, entries) in zip(judgements, groups):
                if judgement == "compatible":
                    self.carry_out_all(name, entries)
        except Refusal:
            take_back(self.tables, self.writes)
            raise
        ignored = [b"ignored %d" % self.ignored] if self.ignored else []
        return self.report + ignored + [b"applied %d" % len(self.writes)]

    def carry_out_all(self, name, entries):
        """Carries the entries of a table out."""
        for entry in entries:
            self.carry_out(name, entry)

    def carry_out(self, name, entry):
        """Carries an entry out, or does what is chosen about the conflicts that it meets."""
        table = self.tables[name]
        key = table.key(entry[2][0])
        row = table.rows.get(key)
        is_refused = entry[0] != DELETE and table.has_null(entry[2][-1])
        kind = conflict_of(entry, row) or (b"constraint" if is_refused else None)
        if kind is not None and self.choices[b"noop"] == b"ignore" and is_left(entry, row):
            self.ignored += 1
            return
        while kind is not None:
            if self.ask(name, kind) == b"omit":
                return
            kind = b"constraint" if is_refused else None
        self.writes.append(put(self.tables, name, key, row_after(entry, row)))

    def ask(self, name, kind):
        """What is done about a conflict, unless that ends the call."""
        choice = self.choices[kind]
        if choice == b"abort":
            raise Refusal(b"error 41 Abort %s %s" % (kind, quoted(name)))
        if kind in (b"notfound", b"constraint") and choice == b"replace":
            raise Refusal(b"error 42 Misuse %s %s" % (kind, quoted(name)))
        self.report.append(b"conflict %d %s %s %s" % (NUMBERS[kind], kind, choice, quoted(name)))
        return choice


def put(tables, name, key, row):
    """Puts a row under a key, or removes the row under it. Returns the previous row."""
    rows = tables[name].rows
    former = rows.pop(key, None)
    if row is not None:
        rows[key] = row
    return Write(name, key, former)


def take_back(tables, writes):
    """Gives tables the rows from before writes."""
    for write in reversed(writes):
        put(tables, *write)


# ---- sessions

class Session:
    """The tables that are attached, and of each the keys that were written, with the rows that
    stood there first.
    """

    def __init__(self):
        self.attached = {}

    def note(self, writes):
        """Notes what was written."""
        for name, key, former in writes:
            if name in self.attached:
                self.attached[name].setdefault(key, former)

    def is_empty(self):
        """Whether no row of these tables was written."""
        return not any(self.attached.values())

    def changeset(self, tables):
        """The groups of the net changeset."""
        groups = [
            (bytes(map(bool, tables[name].flags)), name, net_entries(tables[name], firsts))
            for name, firsts in self.attached.items()
        ]
        return [group for group in groups if group[2]]

    def undo(self, tables):
        """Gives the tables back as they were attached, and answers the report."""
        return Applying(tables, ABORTS).run(inverted(self.changeset(tables)))


def net_entries(table, firsts):
    """The entries from the rows that stood first under keys to those that stand there."""
    entries = []
    for key, first in firsts.items():
        now = table.rows.get(key)
        if first is None and now is not None:
            entries.append((INSERT, b"\x00", [list(now)]))
        elif first is not None and now is None:
            entries.append((DELETE, b"\x00", [list(first)]))
        elif first != now:
            entries.append(update_of(table.flags, b"\x00", first, now))
    return entries


# ---- values as Python has them

def python_value(value):
    """A value as Python has it."""
    kind = value[:1]
    if kind == b"\x01":
        return int.from_bytes(value[1:], "big", signed=True)
    if kind == NULL:
        return None
    return content_of(value).decode() if kind == b"\x03" else content_of(value)


def shown_tables(tables):
    """Tables as `refusals.py` compares them: of each the columns, which are of the key, which
    refuse NULL, and the rows by their keys.
    """
    return {
        name.decode(): (
            tuple(column.decode() for column in table.columns), tuple(map(bool, table.flags)), tuple(table.refuses),
            [tuple(map(python_value, table.rows[key])) for key in sorted(table.rows)],
        )
        for name, table in tables.items()
    }


# ---- texts

def quoted(text, quote=b"'"):
    """A text between quotes."""
    return quote + text.replace(quote, 2 * quote) + quote


def content_of(value):
    """The bytes of a text or a blob, which stand behind their count."""
    at = 1
    while value[at] > 0x7F:
        at += 1
    return value[at + 1:]


def literal(value):
    """A value as a literal, and `-` for an undefined field."""
    kind = value[:1]
    if kind == b"\x01":
        return b"%d" % int.from_bytes(value[1:], "big", signed=True)
    if kind == b"\x03":
        return quoted(content_of(value))
    if kind == b"\x04":
        return b"X'%s'" % content_of(value).hex().encode()
    return b"NULL" if kind == NULL else b"-"


def literals(values, between=b","):
    """Values as literals, with something between each two."""
    return between.join(map(literal, values))


def dump_lines(groups):
    """The lines that `dump` prints."""
    for flags, name, entries in groups:
        yield b"table %s columns %d flags %s" % (quoted(name), len(flags), b",".join(b"%d" % flag for flag in flags))
        for operation, (indirect,), records in entries:
            word = {INSERT: b"insert", DELETE: b"delete", UPDATE: b"update"}[operation]
            names = {INSERT: [b"new"], DELETE: [b"old"], UPDATE: [b"old", b"new"]}[operation]
            shown = [b" %s %s" % (name, literals(record)) for name, record in zip(names, records)]
            yield b"%s %d%s" % (word, indirect, b"".join(shown))


def settings(fields, equals_null):
    """What SQL says of each field that is defined, by its column."""
    for place, field in enumerate(fields, 1):
        if field == NULL and equals_null:
            yield b"c%d IS NULL" % place
        elif field != UNDEFINED:
            yield b"c%d=%s" % (place, literal(field))


def sql_lines(groups):
    """The lines that `sql` prints."""
    for flags, name, entries in groups:
        table = quoted(name, b'"')
        for operation, _, records in entries:
            where = b" AND ".join(settings(records[0], True))
            if operation == INSERT:
                yield b"INSERT INTO %s VALUES(%s);" % (table, literals(records[0], b", "))
            elif operation == DELETE:
                yield b"DELETE FROM %s WHERE %s;" % (table, where)
            else:
                key = [old if flag else UNDEFINED for flag, old in zip(flags, records[0])]
                sets = list(settings(records[1], False)) or settings(key, False)
                yield b"UPDATE %s SET %s WHERE %s;" % (table, b", ".join(sets), where)

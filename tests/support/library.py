"""The model next to SQLite's own library: inverses, concatenations, applies and net changesets, by
`sqlite.c`.

Documented differences are counted. Any other one is reported.
"""
import collections
import os
import subprocess

from support import reader
from support.model import (
    NUMBERS, Applying, Refusal, Table, concatenated, conflict_of, content_of, have_same_columns, put, quoted,
)
from support.program import PATIENCE, TESTS


# SQLite's result codes.
OK, ABORT, SCHEMA, MISUSE = 0, 4, 17, 21

# The keywords among the names of made-up tables.
KEYWORDS = (b"SELECT", b"NULL")

# The differences that the documents tell.
ORDER = "joins whose entries of a table SQLite orders otherwise"
JOIN_FLAGS = "joins of a table whose key two files number otherwise, which SQLite refuses: asked with one's flags"
JOIN_CASE = "joins of tables whose names differ in case alone, which are one to SQLite: not asked"
APPLY_FLAGS = "applies whose flags are not SQLite's, which passes over the table then: asked with SQLite's"
APPLY_NOTHING = "applies with updates that modify nothing, which SQLite does not look at: asked without these"
APPLY_WIDER = "applies to a table of more columns, which SQLite applies to: not asked"
APPLY_NOOP = "applies that ignore what changes nothing, which SQLite's library can from 3.42 on: not compared"
APPLY_DELETE = "applies that ignore what changes nothing, and in SQLite a DELETE whose row differs: compared with that"
APPLY_QUOTED = "applies that ignore what changes nothing, with a name in quotes, which SQLite refuses: not asked"
APPLY_CASE = "applies among tables whose names differ in case alone, which are one to SQLite: not asked"
APPLY_LATER = "applies whose constraint conflicts SQLite reports after the others of their table: compared in its order"
APPLY_REMOVED = "applies whose second attempt fails: SQLite has removed the row, which stays here: compared without it"
SESSION_ORDER = "net changesets whose tables and entries SQLite orders otherwise"
SESSION_FLAGS = "net changesets of a table whose key SQLite numbers, and this marks by 1: compared with flags of 1"
SESSION_CASE = "sessions on tables with names that differ in case alone, which are one to SQLite: not asked"
SESSION_ZERO = "sessions with a zero character in a text, at which SQLite ends a statement: not asked"
REFUSED = "files that are refused here, some of which SQLite's library reads, others past their end: not asked"


class Difference(Exception):
    """What the library answers otherwise: lines that say what was asked, and what both answer."""

    def __init__(self, lines, wanted, told):
        super().__init__(f"SQLite's library answers {told!r} and not {wanted!r}")
        self.lines = lines


class Library:
    """SQLite's library, where there is one to compile against, and the counts of what it was asked.
    """

    def __init__(self, folder):
        self.program = os.path.join(folder, "sqlite")
        command = ["cc", "-O2", "-o", self.program, str(TESTS / "sqlite.c"), "-lsqlite3"]
        try:
            built = subprocess.run(command, capture_output=True, text=True, timeout=PATIENCE)
            self.why = built.stderr.strip().split("\n")[-1] if built.returncode else ""
        except OSError as error:
            self.why = str(error)
        self.is_there = not self.why
        self.asked = 0
        self.known = collections.Counter()

    def answers(self, lines):
        """What the library answers to lines."""
        text = b"".join(line + b"\n" for line in lines)
        done = subprocess.run([self.program], input=text, capture_output=True, timeout=PATIENCE)
        return done.stdout.split(b"\n")

    def ask(self, questions):
        """Asks questions, and raises the first difference that the documents do not name."""
        if not self.is_there or not questions:
            return
        asked = [question.lines() for question in questions]
        told = self.answers([line for lines in asked for line in lines])
        for question, lines in zip(questions, asked):
            answers, told = told[:len(lines)], told[len(lines):]
            self.known.update(question.known)
            self.asked += len(lines) > 0
            if lines:
                self.known.update(question.judge(answers))


class Inverse:
    """Whether the inverse of a file is SQLite's, byte by byte."""

    known = ()

    def __init__(self, groups):
        self.groups = groups

    def lines(self):
        """What is asked."""
        return [b"invert x" + hexed(self.groups)]

    def judge(self, told):
        """Compares the answers."""
        wanted = b"0 " + hexed(reader.inverted(self.groups))
        if told != [wanted]:
            raise Difference([b".load a " + hexed(self.groups), b".invert a b", b".hex b"], wanted, told)
        return ()


class Concat:
    """Whether the concatenation of two files is SQLite's."""

    def __init__(self, first, second):
        self.first = first
        self.second = second
        self.known = []

    def lines(self):
        """What is asked."""
        names = [name for _, name, _ in self.first + self.second]
        if differ_in_case(names):
            self.known.append(JOIN_CASE)
            return []
        flags = {name: flags for flags, name, _ in self.first}
        asked = [
            (flags[name] if name in flags and have_same_columns(flags[name], own) else own, name, entries)
            for own, name, entries in self.second
        ]
        if asked != self.second:
            self.known.append(JOIN_FLAGS)
        return [b"concat x%s x%s" % (hexed(self.first), hexed(asked))]

    def judge(self, told):
        """Compares the answers."""
        lines = [b".load a " + hexed(self.first), b".load b " + hexed(self.second), b".concat a b c", b".hex c"]
        try:
            groups = concatenated(self.first, self.second)
        except Refusal:
            if told != [b"%d " % SCHEMA]:
                raise Difference(lines, b"%d " % SCHEMA, told)
            return ()
        wanted = b"0 " + hexed(groups)
        if told == [wanted]:
            return ()
        if in_order(made_groups(told[0])) != in_order(groups):
            raise Difference(lines, wanted, told)
        return (ORDER,)


class PutOff(Exception):
    """An entry has a constraint conflict, and is tried again."""


class LaterApplying(Applying):
    """An apply that reports constraint conflicts as SQLite does, and ignores what it ignores.

    An entry whose new row would break a NOT NULL constraint is postponed. It is tried again after
    the other entries of its table, and its conflict is reported at the third try. Each try of an
    UPDATE of a row that differs reports that conflict first. The row that an INSERT replaces is
    removed at the first try, and remains removed. If no-ops are ignored, so is a DELETE whose row
    differs.
    """

    passes_over = False

    def carry_out(self, name, entry):
        """Carries an entry out, if it is no DELETE that is ignored."""
        row = self.tables[name].rows.get(self.tables[name].key(entry[2][0]))
        is_other = entry[0] == reader.DELETE and conflict_of(entry, row) == b"data"
        if is_other and self.choices[b"noop"] == b"ignore":
            self.passes_over = True
        else:
            super().carry_out(name, entry)

    def carry_out_all(self, name, entries):
        """Carries the entries of a table out, in three rounds."""
        for is_told in (False, False, True):
            self.is_told = is_told
            entries = [entry for entry in entries if self.is_put_off(name, entry)]

    def is_put_off(self, name, entry):
        """Carries an entry out. Returns whether it is postponed."""
        try:
            self.carry_out(name, entry)
        except PutOff:
            if entry[0] == reader.INSERT:
                self.writes.append(put(self.tables, name, self.tables[name].key(entry[2][0]), None))
            return True
        return False

    def ask(self, name, kind):
        """What is done about a conflict."""
        if kind == b"constraint" and not self.is_told:
            raise PutOff
        return super().ask(name, kind)


class Apply:
    """Whether an apply to tables of these rows does what SQLite's does to ordinary tables, with the
    same NOT NULL.

    Both have the same constraint conflicts, choices and tables after them. They differ in when a
    conflict is reported, and in whether the row that an INSERT replaces is there. `LaterApplying`
    is how SQLite does both.
    """

    def __init__(self, tables, groups, choices):
        self.tables = {name: copied(table) for name, table in tables.items()}
        self.groups = groups
        self.choices = choices
        self.known = []
        self.asked = []
        self.script = list(script_of(self.tables, groups, choices))

    def lines(self):
        """What is asked."""
        if differ_in_case([*self.tables, *(name for _, name, _ in self.groups)]):
            self.known.append(APPLY_CASE)
            return []
        if self.has_wider():
            self.known.append(APPLY_WIDER)
            return []
        if self.choices[b"noop"] == b"ignore" and any(map(has_quotes, (name for _, name, _ in self.groups))):
            self.known.append(APPLY_QUOTED)
            return []
        letters = b"".join(self.choices[kind][:1] for kind in NUMBERS)
        lines = [b"new"]
        for name, table in self.tables.items():
            lines += [b"do x" + text.hex().encode() for text in table_texts(name, table)]
        self.asked = self.sqlite_groups()
        asks = b"ignore" if self.choices[b"noop"] == b"ignore" else b"apply"
        lines.append(b"%s %s x%s" % (asks, letters, hexed(self.asked)))
        return lines + [b"list x" + (b"SELECT * FROM " + quoted(name, b'"')).hex().encode() for name in self.tables]

    def has_wider(self):
        """Whether the groups are refused since a table is wider."""
        return any(
            name in self.tables and len(flags) < len(self.tables[name].flags)
            and have_same_columns(flags, self.tables[name].flags[:len(flags)])
            for flags, name, _ in self.groups
        )

    def sqlite_groups(self):
        """The groups, as SQLite is asked: with its flags, and without what it does not look at."""
        groups = reader.numbered(self.groups)
        if groups != self.groups:
            self.known.append(APPLY_FLAGS)
        kept = [(flags, name, [entry for entry in entries if modifies(entry)]) for flags, name, entries in groups]
        if kept != groups:
            self.known.append(APPLY_NOTHING)
        return [group for group in kept if group[2]]

    def judge(self, told):
        """Compares the answers."""
        if b"none" in told:
            return (APPLY_NOOP,)
        answer_here, rows_here, _ = self.ended(Applying)
        answer, rows, passes_over = self.ended(LaterApplying)
        made, told_answer, listed = told[:-len(rows) - 1], told[-len(rows) - 1], told[len(told) - len(rows):]
        lists = [sorted(line.split(b";")[1:]) for line in listed]
        if any(line != b"0" for line in made) or told_answer != answer or lists != rows:
            raise Difference(self.script, (answer, rows), told)
        if passes_over:
            return (APPLY_DELETE,)
        return (APPLY_LATER,) * (answer != answer_here) + (APPLY_REMOVED,) * (rows != rows_here)

    def ended(self, form):
        """How an apply of this form ends, as `sqlite.c` answers it, the rows that it leaves, and
        whether a DELETE was ignored whose row differs.
        """
        tables = {name: copied(table) for name, table in self.tables.items()}
        applying, code, last = form(tables, self.choices), OK, b""
        try:
            applying.run(self.asked)
        except Refusal as refusal:
            number, kind = refusal.line.split(b" ")[1:4:2]
            code, last = ABORT if number == b"41" else MISUSE, b"%d" % NUMBERS[kind]
        met = b"".join(line[9:10] for line in applying.report if line.startswith(b"conflict ")) + last
        rows = [sorted(b"".join(map(shown, row)) for row in table.rows.values()) for table in tables.values()]
        return b"%d %s" % (code, met), rows, getattr(applying, "passes_over", False)


class Recording:
    """Whether the net changeset of lines of edits, behind others, is the one that SQLite's session
    records of them.
    """

    def __init__(self, tables, before, edits, groups):
        self.tables = tables
        self.before = before
        self.edits = edits
        self.groups = groups
        self.known = []

    def lines(self):
        """What is asked."""
        if any(map(differ_in_case, [self.tables, *(table.columns for table in self.tables.values())])):
            self.known.append(SESSION_CASE)
            return []
        if any(b"\0" in line for line in [*self.before, *self.edits]):
            self.known.append(SESSION_ZERO)
            return []
        before, edits = ([b"do x" + line.hex().encode() for line in lines] for lines in (self.before, self.edits))
        return [b"new", *before, b"session", *edits, b"changeset"]

    def judge(self, told):
        """Compares the answers."""
        wanted = b"0 " + hexed(self.groups)
        groups = made_groups(told[-1])
        marked = [(bytes(map(bool, flags)), name, entries) for flags, name, entries in groups]
        is_good = sorted(in_order(marked), key=name_of) == sorted(in_order(self.groups), key=name_of)
        if any(line != b"0" for line in told[:-1]) or not told[-1].startswith(b"0 ") or not is_good:
            raise Difference([*self.before, *self.edits], wanted, told)
        return (SESSION_FLAGS,) * (marked != groups) + (SESSION_ORDER,) * (marked != self.groups)


def has_quotes(name):
    """Whether SQL has a name of a made-up table in quotes."""
    return not name.decode().isidentifier() or name.upper() in KEYWORDS


def made_groups(answer):
    """The groups of the file that an answer has; none where the library refused."""
    return reader.Reader(bytes.fromhex(answer[2:].decode())).groups() if answer.startswith(b"0 ") else []


def name_of(group):
    """The name of a group's table."""
    return group[1]


def hexed(groups):
    """The file of groups, in digits."""
    return reader.write(groups).hex().encode()


def differ_in_case(names):
    """Whether two names differ in the case of ASCII letters alone."""
    names = set(names)
    return len({name.lower() for name in names}) < len(names)


def in_order(groups):
    """Groups with the entries of each by their keys."""
    return [
        (flags, name, sorted(entries, key=lambda entry: [field for flag, field in zip(flags, entry[2][0]) if flag]))
        for flags, name, entries in groups
    ]


def copied(table):
    """A table with the rows that it has now."""
    copy = Table(table.columns, table.flags, table.refuses)
    copy.rows = dict(table.rows)
    return copy


def modifies(entry):
    """Whether an entry is no UPDATE without a new value."""
    return entry[0] != reader.UPDATE or any(field != reader.UNDEFINED for field in entry[2][1])


def sql_value(value):
    """A value in SQL; what a text holds may be a zero character."""
    kind, (shown_kind, text) = value[:1], (shown(value)[1:2], shown(value)[2:])
    if shown_kind == b"i":
        return text
    if shown_kind == b"n":
        return b"NULL"
    return b"CAST(X'%s' AS TEXT)" % text if kind == b"\x03" else b"X'%s'" % text


def create_text(name, table):
    """The SQL that makes a table, in which the columns are c1, c2 and so on."""
    names = [b"c%d" % place for place in range(1, len(table.flags) + 1)]
    keys = b", ".join(column for column, flag in zip(names, table.flags) if flag)
    rules = b", ".join(column + b" NOT NULL" * mark for column, mark in zip(names, table.refuses))
    return b"CREATE TABLE %s(%s, PRIMARY KEY(%s))" % (quoted(name, b'"'), rules, keys)


def table_texts(name, table):
    """The SQL that makes a table with its rows."""
    yield create_text(name, table)
    for row in table.rows.values():
        yield b"INSERT INTO %s VALUES(%s)" % (quoted(name, b'"'), b", ".join(map(sql_value, row)))


def shown(value):
    """A value as `sqlite.c` prints it."""
    kind = value[:1]
    if kind == b"\x01":
        return b",i%d" % int.from_bytes(value[1:], "big", signed=True)
    if kind in (b"\x03", b"\x04"):
        return (b",t" if kind == b"\x03" else b",b") + content_of(value).hex().encode()
    return b",n"


def script_of(tables, groups, choices):
    """Lines that do the same: the rows are put there by a changeset, since a line holds not every
    text.
    """
    for name, table in tables.items():
        yield create_text(name, table) + b";"
        if table.rows:
            rows = [(reader.INSERT, b"\x00", [list(row)]) for row in table.rows.values()]
            yield b".load a " + hexed([(bytes(table.flags), name, rows)])
            yield b".apply a"
    yield b".load a " + hexed(groups)
    yield b".apply a" + b"".join(b" %s=%s" % choice for choice in choices.items())
    yield from (b"SELECT * FROM %s;" % quoted(name, b'"') for name in tables)

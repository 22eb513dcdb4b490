"""The lines of a script, and what each of them prints: a model that shares no code with the
program.

It follows `docs/SHELL.md`, `docs/ERRORS.md`, and `docs/DECISIONS.md`.
"""
import re

from support import reader
from support.model import ABORTS, NULL, Applying, Refusal, Session, Table, concatenated, dump_lines, literals, put

KEYWORDS = frozenset(
    b"CREATE TABLE PRIMARY KEY INSERT INTO VALUES UPDATE SET WHERE AND DELETE FROM SELECT NOT NULL".split()
)

BLANKS = re.compile(rb"[ \t\r]*")
WORDS = re.compile(rb"[^ \t\r]+")
SLOT = re.compile(rb"[A-Za-z0-9_]+")
SETTING = re.compile(
    rb"((?:data|notfound|conflict|constraint)(?==(?:omit|replace|abort)$)|noop(?==(?:report|ignore)$))=([a-z]+)"
)
TOKEN = re.compile(
    rb"(?P<blob>[Xx]'(?:[0-9A-Fa-f]{2})*')|(?P<word>(?![Xx]')[A-Za-z_][A-Za-z0-9_]*)|(?P<sign>[(),;=*])"
    rb'|(?P<integer>-?[0-9]+)(?![A-Za-z0-9_])|"(?P<name>(?:[^"]|"")*)"(?!")|' rb"'(?P<text>(?:[^']|'')*)'(?!')"
)

MOST_COLUMNS = 32767


def syntax(place):
    """A line that does not fit at a place, from 0."""
    return Refusal(b"error 61 Syntax %d" % (place + 1))


class Tokens:
    """The tokens of a line, from a place on."""

    def __init__(self, line, at):
        self.line = line
        self.at = BLANKS.match(line, at).end()

    def next(self):
        """The next token, its kind and what it is; it is not passed."""
        if self.at == len(self.line):
            return "end", b""
        found = TOKEN.match(self.line, self.at)
        if found is None:
            raise syntax(self.at)
        kind, text = found.lastgroup, found.group(found.lastgroup)
        if kind == "word":
            return ("fixed", text.upper()) if text.upper() in KEYWORDS else ("name", text)
        if kind == "sign":
            return "fixed", text
        if kind == "name":
            return "name", text.replace(b'""', b'"')
        return "value", self.spelled(kind, text)

    def spelled(self, kind, text):
        """The bytes of a value."""
        if kind == "integer":
            number = int(text)
            if not -1 << 63 <= number < 1 << 63:
                raise syntax(self.at)
            return b"\x01" + number.to_bytes(8, "big", signed=True)
        content = text.replace(b"''", b"'") if kind == "text" else bytes.fromhex(text[2:-1].decode())
        return (b"\x03" if kind == "text" else b"\x04") + reader.spelled(len(content)) + content

    def skip(self):
        """Passes the next token."""
        end = TOKEN.match(self.line, self.at).end()
        self.at = BLANKS.match(self.line, end).end()

    def take(self, wanted):
        """What the next token is, which has to be of this kind."""
        kind, text = self.next()
        if kind != wanted:
            raise syntax(self.at)
        self.skip()
        return text

    def fixed(self, *texts):
        """Passes these keywords and signs."""
        for text in texts:
            if not self.is_fixed(text):
                raise syntax(self.at)
            self.skip()

    def is_fixed(self, text):
        """Whether the next token is this keyword or sign."""
        return self.next() == ("fixed", text)

    def value(self):
        """A value."""
        if self.is_fixed(b"NULL"):
            self.skip()
            return NULL
        return self.take("value")

    def assignment(self):
        """A column, and its value."""
        column = self.take("name")
        self.fixed(b"=")
        return column, self.value()

    def several(self, read, between):
        """What is read once or more, with a keyword or a sign between each two."""
        found = [read()]
        while self.is_fixed(between):
            self.skip()
            found.append(read())
        return found

    def end(self):
        """Nothing follows."""
        if self.next()[0] != "end":
            raise syntax(self.at)


def statement(tokens):
    """The statement that a line is: the word that it begins with, and its parts."""
    kind, word = tokens.next()
    form = FORMS.get(word) if kind == "fixed" else None
    if form is None:
        raise syntax(tokens.at)
    tokens.skip()
    parts = form(tokens)
    tokens.end()
    return word, parts


def create_form(tokens):
    """What follows CREATE: the table, its columns, which of them refuse NULL, and those of its key.
    """
    tokens.fixed(b"TABLE")
    table = tokens.take("name")
    tokens.fixed(b"(")
    columns, refuses = [], []
    while not columns or not tokens.is_fixed(b"PRIMARY"):
        columns.append(tokens.take("name"))
        refuses.append(tokens.is_fixed(b"NOT"))
        tokens.fixed(*(b"NOT", b"NULL") if refuses[-1] else (), b",")
    tokens.fixed(b"PRIMARY", b"KEY", b"(")
    keys = tokens.several(lambda: tokens.take("name"), b",")
    tokens.fixed(b")", b")", b";")
    return table, columns, refuses, keys


def insert_form(tokens):
    """What follows INSERT: the table, and the values of the row."""
    tokens.fixed(b"INTO")
    table = tokens.take("name")
    tokens.fixed(b"VALUES", b"(")
    values = tokens.several(tokens.value, b",")
    tokens.fixed(b")", b";")
    return table, values


def conditions(tokens):
    """What the columns have to be, and the end of a statement."""
    tokens.fixed(b"WHERE")
    found = tokens.several(tokens.assignment, b"AND")
    tokens.fixed(b";")
    return found


def update_form(tokens):
    """What follows UPDATE: the table, what is set, and the conditions."""
    table = tokens.take("name")
    tokens.fixed(b"SET")
    return table, tokens.several(tokens.assignment, b","), conditions(tokens)


def delete_form(tokens):
    """What follows DELETE: the table, and the conditions."""
    tokens.fixed(b"FROM")
    return tokens.take("name"), conditions(tokens)


def select_form(tokens):
    """What follows SELECT: the table."""
    tokens.fixed(b"*", b"FROM")
    table = tokens.take("name")
    tokens.fixed(b";")
    return (table,)


FORMS = {
    b"CREATE": create_form, b"INSERT": insert_form, b"UPDATE": update_form, b"DELETE": delete_form,
    b"SELECT": select_form,
}


class Words:
    """The words of a line, from a place on."""

    def __init__(self, line, at=0):
        self.line = line
        self.words = [(found.start(), found.group(), found.end()) for found in WORDS.finditer(line, at)]

    def next(self):
        """The next word, where it begins, and where it ends."""
        return self.words[0] if self.words else (len(self.line), None, len(self.line))

    def take(self):
        """Passes a word, and answers it."""
        return self.words.pop(0)[1]

    def slot(self):
        """The name of a slot."""
        start, word, _ = self.next()
        if word is None or not SLOT.fullmatch(word):
            raise syntax(start)
        return self.take()

    def slots(self, count):
        """So many names of slots, and nothing behind them."""
        names = [self.slot() for _ in range(count)]
        self.end()
        return names

    def choices(self):
        """What is chosen about each kind of conflict, and about entries that change nothing."""
        chosen = {}
        while self.words:
            found = SETTING.fullmatch(self.next()[1])
            if found is None or found.group(1) in chosen:
                raise syntax(self.next()[0])
            chosen[found.group(1)] = found.group(2)
            self.take()
        return {**ABORTS, **chosen}

    def end(self):
        """Nothing follows."""
        if self.words:
            raise syntax(self.next()[0])


class Shell:
    """A script's tables, slots and session, and what its lines print."""

    def __init__(self):
        self.tables = {}
        self.contents = {}
        self.session = None
        self.is_refused = False

    def answer(self, line):
        """What a line prints: lines, as bytes without their line feeds. Whether one was refused is
        known afterwards.
        """
        try:
            return list(self.run(line))
        except (Refusal, reader.Fault) as refusal:
            self.is_refused = True
            return [refusal.line if isinstance(refusal, Refusal) else str(refusal).encode()]

    def run(self, line):
        """Runs a line, and answers what it prints, unless it is refused."""
        if not reader.is_text(line):
            raise Refusal(b"error 68 LineText")
        words = Words(line)
        start, first, end = words.next()
        if first is None or first.startswith(b"--"):
            return []
        if not first.startswith(b"."):
            word, parts = statement(Tokens(line, start))
            return getattr(self, word.decode().lower())(*parts) or []
        form = getattr(self, "dot_" + first[1:].decode(errors="replace"), None)
        if form is None:
            raise syntax(start)
        words.take()
        return (form(line, end) if first == b".session" else form(words)) or []

    # ---- tables

    def table(self, name):
        """The table of a name."""
        if name not in self.tables:
            raise Refusal(b"error 31 NoTable")
        return self.tables[name]

    def note(self, writes):
        """Has the session note what was written, where one is open."""
        if self.session is not None:
            self.session.note(writes)

    def create(self, name, columns, refuses, keys):
        """CREATE TABLE."""
        if not set(keys) <= set(columns) or len(set(keys)) < len(keys):
            raise Refusal(b"error 67 UnknownColumn")
        are_good = b"" not in columns and len(set(columns)) == len(columns) <= MOST_COLUMNS
        if not name or b"\0" in name or not are_good:
            raise Refusal(b"error 32 BadSchema")
        if name in self.tables:
            raise Refusal(b"error 30 TableExists")
        self.tables[name] = Table(columns, [int(column in keys) for column in columns], refuses)

    def free_key(self, table, row):
        """The key of a row that is to stand in a table, where none stands there."""
        if len(row) != len(table.columns):
            raise Refusal(b"error 35 RowWidth")
        if any(flag and value == NULL for flag, value in zip(table.flags, row)):
            raise Refusal(b"error 36 NullInKey")
        if table.has_null(row):
            raise Refusal(b"error 39 NotNull")
        return table.key(row)

    def insert(self, name, values):
        """INSERT."""
        table = self.table(name)
        key = self.free_key(table, values)
        if key in table.rows:
            raise Refusal(b"error 33 KeyTaken")
        self.note([put(self.tables, name, key, tuple(values))])

    def key_named(self, table, conditions):
        """The key that conditions name, of a row that is there."""
        named = dict(conditions)
        keys = [column for column, flag in zip(table.columns, table.flags) if flag]
        if set(named) != set(keys) or len(conditions) != len(keys):
            raise Refusal(b"error 67 UnknownColumn")
        if NULL in named.values():
            raise Refusal(b"error 36 NullInKey")
        key = b"".join(named[column] for column in keys)
        if key not in table.rows:
            raise Refusal(b"error 34 NoRow")
        return key

    def update(self, name, sets, conditions):
        """UPDATE: the row is removed, and then put, under its key or another one."""
        table, changed = self.table(name), dict(sets)
        if not set(changed) <= set(table.columns) or len(changed) < len(sets):
            raise Refusal(b"error 67 UnknownColumn")
        key = self.key_named(table, conditions)
        row = tuple(changed.get(column, value) for column, value in zip(table.columns, table.rows[key]))
        new_key = self.free_key(table, row)
        if new_key != key and new_key in table.rows:
            raise Refusal(b"error 33 KeyTaken")
        self.note([put(self.tables, name, key, None), put(self.tables, name, new_key, row)])

    def delete(self, name, conditions):
        """DELETE."""
        table = self.table(name)
        self.note([put(self.tables, name, self.key_named(table, conditions), None)])

    def select(self, name):
        """SELECT: the rows by the bytes of their keys."""
        rows = self.table(name).rows
        return [literals(rows[key], b"|") for key in sorted(rows)]

    # ---- slots

    def content(self, slot):
        """The bytes in a slot."""
        if slot not in self.contents:
            raise Refusal(b"error 62 EmptySlot")
        return self.contents[slot]

    def groups(self, slot):
        """The changeset in a slot."""
        return reader.Reader(self.content(slot)).groups()

    def dot_load(self, words):
        """`.load SLOT [HEX]`"""
        slot = words.slot()
        digits = words.take() if words.words else b""
        words.end()
        if not re.fullmatch(rb"(?:[0-9A-Fa-f]{2})*", digits):
            raise Refusal(b"error 66 BadHex")
        self.contents[slot] = bytes.fromhex(digits.decode())

    def dot_invert(self, words):
        """`.invert FROM INTO`"""
        source, into = words.slots(2)
        self.contents[into] = reader.write(reader.inverted(self.groups(source)))

    def dot_concat(self, words):
        """`.concat FIRST SECOND INTO`: both slots have something before either is read."""
        first, second, into = words.slots(3)
        self.content(first), self.content(second)
        self.contents[into] = reader.write(concatenated(self.groups(first), self.groups(second)))

    def dot_hex(self, words):
        """`.hex SLOT`"""
        return [self.content(*words.slots(1)).hex().encode()]

    def dot_dump(self, words):
        """`.dump SLOT`"""
        return dump_lines(self.groups(*words.slots(1)))

    # ---- applies

    def carry_out(self, groups, choices):
        """Applies groups, and answers the report."""
        applying = Applying(self.tables, choices)
        report = applying.run(groups)
        self.note(applying.writes)
        return report

    def dot_apply(self, words):
        """`.apply SLOT [data=C] [notfound=C] [conflict=C] [constraint=C] [noop=N]`"""
        slot, choices = words.slot(), words.choices()
        return self.carry_out(self.groups(slot), choices)

    def dot_revert(self, words):
        """`.revert SLOT`"""
        return self.carry_out(reader.inverted(self.groups(*words.slots(1))), ABORTS)

    # ---- sessions

    def dot_session(self, line, at):
        """`.session` and what it is to do."""
        words = Words(line, at)
        start, word, end = words.next()
        if word == b"attach":
            return self.attach(line, end)
        form = {b"open": 0, b"close": 0, b"isempty": 0, b"undo": 0, b"changeset": 1}.get(word)
        if form is None:
            raise syntax(start)
        words.take()
        slots = words.slots(form)
        if word == b"open":
            return self.open_session()
        if self.session is None:
            raise Refusal(b"error 64 NoSession")
        return getattr(self, "session_" + word.decode())(*slots)

    def open_session(self):
        """`.session open`"""
        if self.session is not None:
            raise Refusal(b"error 65 SessionOpen")
        self.session = Session()

    def attach(self, line, at):
        """`.session attach t`"""
        tokens = Tokens(line, at)
        name = tokens.take("name")
        tokens.end()
        if self.session is None:
            raise Refusal(b"error 64 NoSession")
        self.table(name)
        if name in self.session.attached:
            raise Refusal(b"error 50 AlreadyAttached")
        self.session.attached[name] = {}

    def session_close(self):
        """`.session close`"""
        self.session = None

    def session_changeset(self, slot):
        """`.session changeset SLOT`"""
        self.contents[slot] = reader.write(self.session.changeset(self.tables))

    def session_isempty(self):
        """`.session isempty`"""
        return [b"1" if self.session.is_empty() else b"0"]

    def session_undo(self):
        """`.session undo`"""
        return self.session.undo(self.tables)

"""Changesets, damaged files and lines of scripts, made from a source of chance that is the same
each time.

Groups are those of `reader.py`. What is made has few keys and few values, so that much of it meets.
"""
from support.model import NULL, UNDEFINED, have_same_columns, key_of, literals, quoted
from support.reader import DELETE, INSERT, UPDATE, is_text, spelled, write

INTEGERS = (0, 1, 2, 3, -1, 10, 255, 256, 1 << 31, (1 << 63) - 1, -1 << 63)
TEXTS = (
    "", "x", "y", "'", "it''s", "é", "表", "😀", "1", "NULL", "-", "a\tb", "\u200b", "a\0b", "; -- ", "x" * 127,
    "q'" * 64,
)
BLOBS = (b"", b"\0", b"1", b"x", b"\0\xff", b"T", b"\x80" * 127, bytes(range(256)))
NAMES = tuple(map(str.encode, ("t", "u", "w", "it's", 'a"b', "select", "a b", "é", "T", "NULL", "--", "x", "a\nb", "t" * 130)))
COLUMNS = tuple(map(str.encode, ("a", "b", "c", "d", "e", "A", "a b", 'c"d', "key", "é", "--", "X", "\n")))

# Bytes that mean something in a file.
TELLING = b"\x00\x01\x02\x03\x04\x05\x06\x09\x12\x17\x50\x54\x7f\x80\x81\x88\xff"

# Counts that claim too much, or are too long.
CLAIMS = tuple(map(
    bytes.fromhex, ("87ffffff7f", "8880808000", "81ff7f", "828000", "8001", "8180808080", "ff7f", "00", "80"),
))

# What is put into a line that is spoiled.
SPOILERS = (
    b"", b"", b".", b"_", b"'", b'"', b" ", b"\t", b"\r", b"x", b"0", b"-", b";", b"(", b",", b"=",
    b"X'", b"\xff", b"\xc3",
)

# Fields that are not allowed everywhere, or nowhere.
FIELDS = (b"\x00", b"\x00", NULL, NULL, b"\x02" + bytes(8), b"\x06", b"\x03\x01\xff", b"\x03\x02\xc3", b"\x03\x01x")

CHOICES = (b"omit", b"replace", b"abort")

# What is chosen where entries are carried out though they meet a conflict, and may then meet a
# second one.
TRYING_AGAIN = (b" data=replace", b" notfound=omit", b" conflict=replace", b" constraint=omit")


def integer(number):
    """The bytes of an integer."""
    return b"\x01" + number.to_bytes(8, "big", signed=True)


def content(kind, text):
    """The bytes of a text or a blob."""
    return kind + spelled(len(text)) + text


# The few values of keys, and all values.
KEYS = tuple(map(integer, INTEGERS[:5])) + (content(b"\x03", b"x"), content(b"\x03", b"1"), content(b"\x04", b"1"))
VALUES = (
    (NULL,) + tuple(map(integer, INTEGERS)) + tuple(content(b"\x03", text.encode()) for text in TEXTS)
    + tuple(content(b"\x04", blob) for blob in BLOBS)
)


class Maker:
    """Makes all of it from one source of chance."""

    def __init__(self, chance):
        self.chance = chance
        self.pick = chance.choice

    def is_one_in(self, count):
        """Whether something happens that happens once in this many times."""
        return self.chance.randrange(count) == 0

    def upto(self, most):
        """A count from 1 on."""
        return 1 + self.chance.randrange(most)

    # ---- values and rows

    def value(self, of_key):
        """A value, which is not NULL in a key."""
        if self.is_one_in(12):
            return integer(self.chance.randrange(-1 << 63, 1 << 63))
        values = KEYS if of_key and not self.is_one_in(4) else VALUES
        return self.pick(values[1:] if of_key and values is VALUES else values)

    def row(self, flags):
        """A row."""
        return [self.value(flag) for flag in flags]

    def changed(self, flags, row):
        """A row of the same key, in which some values are others."""
        return [old if flag or self.is_one_in(2) else self.value(False) for flag, old in zip(flags, row)]

    # ---- changesets

    def flags(self):
        """Flags of a table. At least one is not 0."""
        count = self.pick((127, 128)) if self.is_one_in(200) else self.pick((1, 2, 2, 2, 3, 3, 4, 6))
        flags = [self.pick((0, 0, 1)) for _ in range(count)]
        flags[self.chance.randrange(min(count, 6))] = 1
        if self.is_one_in(3):
            places = [place for place, flag in enumerate(flags) if flag]
            for number, place in enumerate(self.chance.sample(places, len(places))):
                flags[place] = self.pick((number % 255 + 1, 255)) if self.is_one_in(9) else number % 255 + 1
        return bytes(flags)

    def update(self, flags, old):
        """The records of an UPDATE of a row, that modifies some columns or none."""
        new = self.changed(flags, old)
        rate = self.pick((1, 2, 2, 2, 20))
        is_kept = [not flag and not self.is_one_in(rate) for flag in flags]
        return [
            [UNDEFINED if kept else value for kept, value in zip(is_kept, old)],
            [UNDEFINED if kept or flag else value for flag, kept, value in zip(flags, is_kept, new)],
        ]

    def entry(self, flags, row):
        """An entry of the key of a row."""
        operation = self.pick((INSERT, DELETE, UPDATE, UPDATE))
        indirect = self.pick((b"\x00", b"\x00", b"\x01"))
        return operation, indirect, self.update(flags, row) if operation == UPDATE else [row]

    def group(self, flags, name, rows=()):
        """A group of a table, with some entries of these rows, or of such with other
        values.
        """
        entries, keys = [], set()
        count = self.upto(self.pick((1, 3, 6, 12)))
        for _ in range(count):
            row = self.changed(flags, self.pick(rows)) if rows and not self.is_one_in(3) else self.row(flags)
            if rows and self.is_one_in(2):
                row = list(self.pick(rows))
            key = key_of(flags, row)
            if key not in keys:
                keys.add(key)
                entries.append(self.entry(flags, row))
        return flags, name, entries

    def tables(self):
        """Names of tables, and their flags."""
        return [(name, self.flags()) for name in self.chance.sample(NAMES, self.upto(4))]

    def changeset(self, tables):
        """The groups of a changeset of some of these tables, rarely with other flags than a table
        has.
        """
        groups = []
        for name, flags in self.chance.sample(tables, self.chance.randrange(len(tables) + 1)):
            if self.is_one_in(12):
                flags = self.pick((self.flags(), self.turned(flags), self.turned(flags)))
            groups.append(self.group(flags, name))
        return groups

    def turned(self, flags):
        """Flags that mark the same columns by other numbers."""
        return bytes(flag and self.pick((1, 2, 255)) for flag in flags)

    def changeset_of(self, tables):
        """The groups of a changeset that is made for the rows of tables, which are those of
        `model.py`.
        """
        groups = []
        names = self.chance.sample(list(tables), self.upto(len(tables))) if tables else []
        for name in names:
            flags, rows = bytes(tables[name].flags), list(tables[name].rows.values())
            groups.append(self.group(self.other_flags(flags) if self.is_one_in(12) else flags, name, []
                                     if self.is_one_in(9) else rows))
        if self.is_one_in(9):
            groups += self.changeset([(name, self.flags()) for name in NAMES if name not in names])[:1]
        if self.is_one_in(3):
            groups = self.clean(tables, groups)
        return [self.with_nulls(tables, self.widths(group)) for group in groups]

    def other_flags(self, flags):
        """Flags of a table with one column less, one more, or another key; or such as are numbered
        otherwise.
        """
        turned = self.turned(flags)
        other = self.pick((flags[:-1], flags + b"\x00", bytes(reversed(flags)), turned, turned, turned))
        return other if any(other) else flags

    def widths(self, group):
        """A group whose entries have as many columns as its flags, and only their keys."""
        flags, name, entries = group
        is_good = all(
            len(record) == len(flags) for _, _, records in entries for record in records
        )
        return group if is_good else self.group(flags, name)

    def with_nulls(self, tables, group):
        """A group. Sometimes most of its entries have NULL in a NOT NULL column."""
        flags, name, entries = group
        table = tables.get(name)
        if table is None or not have_same_columns(flags, table.flags) or self.is_one_in(3):
            return group
        return flags, name, [
            entry if entry[0] == DELETE or self.is_one_in(3) else
            (*entry[:2], [*entry[2][:-1], self.with_null(table, entry[2][-1])]) for entry in entries
        ]

    def with_null(self, table, record):
        """A record with NULL in a column outside the key that refuses it, where it has a value in
        such a column.
        """
        parts = enumerate(zip(table.flags, table.refuses, record))
        places = [place for place, (flag, mark, field) in parts if mark and not flag and field != UNDEFINED]
        null = self.pick(places) if places else None
        return [NULL if place == null else field for place, field in enumerate(record)]

    def clean(self, tables, groups):
        """Groups whose entries all apply to the current row of their key."""
        cleaned = []
        for flags, name, entries in groups:
            kept = []
            for operation, indirect, records in entries:
                row = tables[name].rows.get(key_of(flags, records[0])) if name in tables else None
                if row is None or len(row) != len(flags):
                    kept.append((INSERT, indirect, [self.defined(flags, records[0])]))
                elif operation == UPDATE:
                    kept.append((UPDATE, indirect, self.update(flags, list(row))))
                else:
                    kept.append((DELETE, indirect, [list(row)]))
            cleaned.append((flags, name, kept))
        return cleaned

    def defined(self, flags, record):
        """A record whose fields are all defined."""
        return [self.value(flag) if field == UNDEFINED else field for flag, field in zip(flags, record)]

    # ---- damage

    def broken(self, groups):
        """The file of groups with one thing that is wrong, most times."""
        groups = [
            [flags, name, [[operation, indirect, list(map(list, records))] for operation, indirect, records in entries]]
            for flags, name, entries in groups
        ]
        if groups:
            self.pick(BREAKS)(self, groups, self.pick(groups))
        return write(groups)

    def break_field(self, _, group):
        """A field is another one."""
        record = self.pick(self.pick(group[2])[2])
        record[self.chance.randrange(len(record))] = self.pick(FIELDS)

    def break_entry(self, _, group):
        """The operation or the indirect byte is another one."""
        entry = self.pick(group[2])
        entry[self.chance.randrange(2)] = bytes([self.pick(TELLING)])

    def break_header(self, _, group):
        """The flags, or the name, are others."""
        flags = self.pick((bytes(len(group[0])), bytes(reversed(group[0])), group[0][1:], self.flags()))
        group[:2] = self.pick(((flags, group[1]), (group[0], self.pick((b"", b"\xff", b"\xed\xa0\x80")))))

    def break_once(self, groups, group):
        """A table, or the key of an entry, is there twice; or a table has no entry."""
        form = self.chance.randrange(3)
        if form == 0:
            groups.insert(self.chance.randrange(len(groups) + 1), group)
        elif form == 1:
            group[2].insert(self.chance.randrange(len(group[2]) + 1), self.pick(group[2]))
        else:
            group[2].clear()

    def damaged(self, file, other):
        """A file with a few changes; parts of another one may be in it.
        """
        for _ in range(self.pick((1, 1, 1, 2, 3))):
            file = self.pick(DAMAGES)(self, file, other)
        return file

    def place(self, file):
        """A place in a file, where it has a byte."""
        return self.chance.randrange(len(file)) if file else 0

    def flip(self, file, _):
        """One bit or two are flipped."""
        changed = bytearray(file or b"\0")
        for _ in range(self.upto(2)):
            changed[self.place(changed)] ^= 1 << self.chance.randrange(8)
        return bytes(changed)

    def set_byte(self, file, _):
        """A byte is set to one that means something."""
        at = self.place(file)
        return file[:at] + bytes([self.pick(TELLING)]) + file[at + 1:]

    def cut(self, file, _):
        """The end, or a part in the middle, is not there."""
        at = self.place(file)
        return file[:at] if self.is_one_in(2) else file[:at] + file[at + self.upto(12):]

    def splice(self, file, other):
        """A part of a file is put in the middle, or at the end."""
        at, start = self.place(file), self.place(other)
        part = other[start:start + self.upto(40)]
        return file[:at] + part + (file[at:] if self.is_one_in(2) else b"")

    def join(self, file, other):
        """Another file is put at the end."""
        return file + (other if self.is_one_in(2) else file)

    def claim(self, file, _):
        """A count claims what is not there, or is spelled too long."""
        at = self.place(file)
        return file[:at] + self.pick(CLAIMS) + file[at + self.chance.randrange(2):]

    def lengthen(self, file, _):
        """A byte that may be a count is spelled in two."""
        places = [at for at, byte in enumerate(file) if file[at - 1:at] in (b"T", b"\x03", b"\x04") and byte < 0x80]
        at = self.pick(places) if places else self.place(file)
        return file[:at] + b"\x80" + file[at:]

    # ---- lines

    def name(self, name):
        """A name in a line, between quotes where it needs them, and sometimes where not."""
        is_plain = name.isalnum() and name.isascii() and not name[:1].isdigit() and name.lower() not in RESERVED
        return name if is_plain and not self.is_one_in(4) else quoted(name, b'"')

    def literal(self, value):
        """A value in a line."""
        return literals([value])

    def assignments(self, columns, values):
        """Columns with their values."""
        return [
            self.name(column) + self.pick((b"=", b" = ")) + self.literal(value)
            for column, value in zip(columns, values)
        ]

    def column(self, name, of_key):
        """A column in a CREATE TABLE, which may refuse NULL."""
        rule = self.pick((b" NOT NULL", b" NOT NULL", b" not null", b"\tnot\r Null"))
        return self.name(name) + (rule if self.is_one_in(6 if of_key else 2) else b"")

    def create(self):
        """A CREATE TABLE."""
        columns = self.chance.sample(COLUMNS, self.pick((1, 2, 2, 3, 3, 4)))
        keys = self.chance.sample(columns, self.upto(min(len(columns), 3)))
        if self.is_one_in(12):
            self.pick((columns, keys)).append(self.pick(COLUMNS + (b"",)))
        names = b", ".join(self.column(name, name in keys) for name in columns), b", ".join(map(self.name, keys))
        name = self.pick((b"", b"a\0b")) if self.is_one_in(40) else self.pick(NAMES)
        return b"CREATE TABLE %s(%s, PRIMARY KEY(%s));" % (self.name(name), *names)

    def table(self, tables):
        """The name of a table, and the table, or another one of no such name."""
        name = self.pick(list(tables)) if tables and not self.is_one_in(25) else self.pick(NAMES)
        return name, tables.get(name)

    def row_of(self, table):
        """A row of a table, or one that it does not have."""
        rows = list(table.rows.values())
        return list(self.pick(rows)) if rows and not self.is_one_in(4) else self.row(table.flags)

    def insert(self, tables):
        """An INSERT."""
        name, table = self.table(tables)
        row = self.row([1, 0]) if table is None else self.row(table.flags)
        if table is not None and self.is_one_in(6):
            row = self.row_of(table)
        if table is not None and self.is_one_in(12):
            row = self.with_null(table, row)
        if self.is_one_in(25):
            row = self.pick((row + [NULL], row[:-1] or row, [NULL] * len(row)))
        values = self.pick((b",", b", ")).join(map(self.literal, row))
        return b"INSERT INTO %s VALUES(%s);" % (self.name(name), values)

    def condition(self, table, row):
        """The conditions that name the key of a row, or rarely something else."""
        parts = zip(table.columns, table.flags, row)
        named = [(column, value) for column, flag, value in parts if flag or self.is_one_in(60)]
        if self.is_one_in(25):
            named[self.chance.randrange(len(named))] = self.pick(((b"none", NULL), (named[0][0], NULL), named[-1]))
        self.chance.shuffle(named)
        return b" AND ".join(self.assignments(*zip(*named)))

    def delete(self, tables):
        """A DELETE."""
        name, table = self.table(tables)
        where = b"a=1" if table is None else self.condition(table, self.row_of(table))
        return b"DELETE FROM %s WHERE %s;" % (self.name(name), where)

    def update_line(self, tables):
        """An UPDATE."""
        name, table = self.table(tables)
        if table is None:
            return b"UPDATE %s SET a=1 WHERE a=1;" % self.name(name)
        places = self.chance.sample(range(len(table.columns)), self.upto(len(table.columns)))
        columns = [table.columns[place] for place in places]
        row = self.row(table.flags)
        row = self.with_null(table, row) if self.is_one_in(6) else row
        values = [row[place] for place in places]
        if self.is_one_in(20):
            columns[0], values[-1] = self.pick(((b"none", NULL), (columns[-1], NULL)))
        sets = b", ".join(self.assignments(columns, values))
        return b"UPDATE %s SET %s WHERE %s;" % (self.name(name), sets, self.condition(table, self.row_of(table)))

    def select(self, tables):
        """A SELECT."""
        return b"SELECT * FROM %s;" % self.name(self.table(tables)[0])

    def slot(self):
        """The name of a slot."""
        return self.pick((b"a", b"b", b"c", b"d", b"e", b"A", b"_9"))

    def load(self, file):
        """A line that puts bytes into a slot."""
        return b".load %s %s" % (self.slot(), file.hex().encode())

    def settings(self):
        """What is chosen about conflicts."""
        kinds = self.chance.sample((b"data", b"notfound", b"conflict", b"constraint"), self.chance.randrange(5))
        settings = [b" %s=%s" % (kind, self.pick(CHOICES)) for kind in kinds]
        if self.is_one_in(3):
            settings = self.chance.sample(TRYING_AGAIN, len(TRYING_AGAIN))
        if self.is_one_in(3):
            place = self.chance.randrange(len(settings) + 1)
            settings.insert(place, b" noop=" + self.pick((b"ignore", b"ignore", b"report")))
        return b"".join(settings)

    def slot_line(self):
        """A line on slots."""
        word = self.pick((b".invert %s %s", b".concat %s %s %s", b".concat %s %s %s", b".hex %s", b".dump %s"))
        return word % tuple(self.slot() for _ in range(word.count(b"%s")))

    def apply(self):
        """A line that applies what is in a slot."""
        return b".revert " + self.slot() if self.is_one_in(4) else b".apply " + self.slot() + self.settings()

    def session(self, tables, is_open):
        """A line on the session."""
        if not is_open and not self.is_one_in(9):
            return b".session open"
        attach, tell = b".session attach " + self.name(self.table(tables)[0]), b".session changeset " + self.slot()
        return self.pick((
            attach, attach, tell, tell, b".session isempty", b".session undo", b".session close", b".session open",
        ))

    def spoiled(self, line):
        """A line with a few bytes changed or moved."""
        for _ in range(self.upto(2)):
            at = self.place(line)
            line = line[:at] + self.pick(SPOILERS) + line[at + self.chance.randrange(3):]
        return line

    def blanks(self, line):
        """A line with other blanks, or keywords in the other case."""
        if self.is_one_in(3) and is_text(line):
            return line.swapcase()
        return self.pick((b" ", b"\t", b"  ", b"\r")).join((b"", line, b""))


DAMAGES = (
    Maker.flip, Maker.flip, Maker.set_byte, Maker.set_byte, Maker.cut, Maker.splice, Maker.join, Maker.claim,
    Maker.lengthen,
)
BREAKS = (Maker.break_field, Maker.break_field, Maker.break_entry, Maker.break_header, Maker.break_once)

RESERVED = frozenset(
    b"create table primary key insert into values update set where and delete from select not null".split()
)

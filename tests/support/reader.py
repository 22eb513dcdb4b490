"""A reader of changeset files that shares no code with the program: what a file holds, or the fault
that it is refused for.

It follows `docs/FORMAT.md`, byte by byte. A field is the bytes that it is spelled with.
"""
TABLE, PATCHSET, INSERT, DELETE, UPDATE = b"T", b"P", b"\x12", b"\x09", b"\x17"
UNDEFINED = b"\x00"

# The numbers of faults, and their names.
NAMES = dict(enumerate(
    "Truncated NotTable Patchset BadVarint ColumnCount NoKey BadName DuplicateTable EmptyGroup "
    "BadOp BadFlag BadType RealValue BadText UndefinedField Unpaired NullKey DuplicateKey".split(), 1
))
NAMES.update({90: "BadByte", 91: "UnknownCall", 92: "ExtraBytes"})


class Fault(Exception):
    """Why bytes are no file: a number, and a place."""

    def __init__(self, number, place):
        super().__init__(f"error {number} {NAMES[number]} {place}")
        self.number = number
        self.place = place


class Reader:
    """Goes through bytes, from the first to the last."""

    def __init__(self, data):
        self.data = data
        self.at = 0

    def here(self):
        """The byte that comes next, or none at the end."""
        return self.data[self.at:self.at + 1]

    def take(self, count):
        """So many bytes."""
        if len(self.data) - self.at < count:
            raise Fault(1, len(self.data))
        self.at += count
        return self.data[self.at - count:self.at]

    def varint(self):
        """A count."""
        start, number = self.at, 0
        for read in range(5):
            byte = self.data[start + read:start + read + 1]
            if read == 0 and byte == b"\x80":
                raise Fault(4, start)
            if not byte:
                raise Fault(1, len(self.data))
            number = number << 7 | byte[0] & 0x7F
            if byte[0] < 0x80:
                break
        else:
            raise Fault(4, start)
        if number > 0x7FFFFFFF:
            raise Fault(4, start)
        self.at = start + read + 1
        return number

    def header(self):
        """The flags of a table, and its name."""
        self.take(1)
        start = self.at
        count = self.varint()
        if not 1 <= count <= 32767:
            raise Fault(5, start)
        start = self.at
        flags = self.take(count)
        if not any(flags):
            raise Fault(6, start)
        start, end = self.at, self.data.find(b"\0", self.at)
        if end < 0:
            raise Fault(1, len(self.data))
        name = self.take(end - start)
        self.take(1)
        if not name or not is_text(name):
            raise Fault(7, start)
        return flags, name

    def field(self):
        """A field, and where its content begins."""
        start = self.at
        kind = self.take(1)
        if kind > b"\x05":
            raise Fault(12, start)
        if kind == b"\x02":
            raise Fault(13, start)
        content = self.at
        if kind == b"\x01":
            self.take(8)
        elif kind in (b"\x03", b"\x04"):
            count = self.varint()
            content = self.at
            if not is_text(self.take(count)) and kind == b"\x03":
                raise Fault(14, content)
        return self.data[start:self.at]

    def row(self, flags, is_old):
        """The record of an INSERT or a DELETE, or the old one of an UPDATE."""
        fields = []
        for flag in flags:
            start = self.at
            field = self.field()
            if field == UNDEFINED and (flag or not is_old):
                raise Fault(15, start)
            if field == b"\x05" and flag:
                raise Fault(17, start)
            fields.append(field)
        return fields

    def new_row(self, flags, old):
        """The new record of an UPDATE."""
        fields = []
        for flag, before in zip(flags, old):
            start = self.at
            field = self.field()
            if (field == UNDEFINED) != bool(flag or before == UNDEFINED):
                raise Fault(16, start)
            fields.append(field)
        return fields

    def entry(self, flags):
        """An entry: its operation, its indirect byte, and its one record or two."""
        operation = self.here()
        if operation not in (INSERT, DELETE, UPDATE):
            raise Fault(10, self.at)
        self.take(1)
        start = self.at
        indirect = self.take(1)
        if indirect > b"\x01":
            raise Fault(11, start)
        records = [self.row(flags, operation == UPDATE)]
        if operation == UPDATE:
            records.append(self.new_row(flags, records[0]))
        return operation, indirect, records

    def entries(self, flags):
        """The entries of a table."""
        entries, keys = [], set()
        while not entries or self.here() not in (b"", TABLE, PATCHSET):
            start = self.at
            if not entries and self.here() in (b"", TABLE, PATCHSET):
                raise Fault(9, start)
            entry = self.entry(flags)
            key = tuple(field for flag, field in zip(flags, entry[2][0]) if flag)
            if key in keys:
                raise Fault(18, start)
            keys.add(key)
            entries.append(entry)
        return entries

    def groups(self):
        """The tables of the file: of each its flags, its name and its entries."""
        groups, names = [], set()
        while self.here():
            start = self.at
            if self.here() != TABLE:
                raise Fault(3 if self.here() == PATCHSET else 2, start)
            flags, name = self.header()
            if name in names:
                raise Fault(8, start)
            names.add(name)
            groups.append((flags, name, self.entries(flags)))
        return groups


def is_text(content):
    """Whether bytes are UTF-8."""
    try:
        content.decode()
        return True
    except UnicodeDecodeError:
        return False


def spelled(count):
    """The shortest spelling of a count."""
    digits = [count & 0x7F]
    while count > 0x7F:
        count >>= 7
        digits.append(count & 0x7F | 0x80)
    return bytes(reversed(digits))


def write(groups):
    """The file of these tables."""
    parts = []
    for flags, name, entries in groups:
        parts += [TABLE, spelled(len(flags)), flags, name, b"\0"]
        for operation, indirect, records in entries:
            parts += [operation, indirect, *(field for record in records for field in record)]
    return b"".join(parts)


def inverted_entry(flags, operation, indirect, records):
    """The entry that undoes another."""
    if operation != UPDATE:
        return (DELETE if operation == INSERT else INSERT), indirect, records
    old, new = records
    return operation, indirect, [
        [before if flag else after for flag, before, after in zip(flags, old, new)],
        [after if flag else before for flag, before, after in zip(flags, old, new)],
    ]


def inverted(groups):
    """The tables of the inverse."""
    return [
        (flags, name, [inverted_entry(flags, *entry) for entry in entries]) for flags, name, entries in groups
    ]


def numbered_flags(flags):
    """The flags that SQLite writes of a table whose key has its columns in order: 1, 2 and so on.
    No byte is more than 255.
    """
    numbered, number = [], 0
    for flag in flags:
        number += flag != 0
        numbered.append(min(number, 255) if flag else 0)
    return bytes(numbered)


def numbered(groups):
    """Groups with the columns of their keys numbered."""
    return [(numbered_flags(flags), name, entries) for flags, name, entries in groups]

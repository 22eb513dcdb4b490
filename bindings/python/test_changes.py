#!/usr/bin/env python3
"""Tests of changes as objects: `changes`, `Builder`, JSON, `concat`, `select`, `stat`, `explain`.

The files are the recorded ones, damaged ones and made-up ones. What is right is said by the reader
and the model of the tests, and by SQLite's own iterator if its library is there.

usage: bindings/python/test_changes.py
"""
import collections
import concurrent.futures
import copy
import dataclasses
import io
import json
import pathlib
import pickle
import random
import sys
import time
import unittest

import vollikash
from vollikash import UNDEFINED, Builder, Change, ChangesetError, Code, JsonError, _files

HERE = pathlib.Path(__file__).resolve().parent
TOP = HERE.parent.parent
sys.path.insert(0, str(TOP / "tests"))

from support import iterator, model, reader, stores  # noqa: E402
from support.making import Maker  # noqa: E402
from support.samples import TO_DAMAGE, damaged  # noqa: E402

RECORDED = sorted([*TOP.glob("examples/*.cs"), *TOP.glob("tests/recorded/*.cs")])
OPERATIONS = {reader.INSERT: "insert", reader.DELETE: "delete", reader.UPDATE: "update"}

# How many changesets are made up for a test.
MADE = 300

# The header of a table t of two columns, the first of them the key.
H = stores.header("t", 1, 0)


def made_up(seed, count=MADE):
    """Changesets that are made up, as groups."""
    maker = Maker(random.Random(seed))
    return [maker.changeset(maker.tables()) for _ in range(count)]


def is_accepted(file):
    """Whether the reader of the tests accepts a file."""
    try:
        reader.Reader(file).groups()
        return True
    except reader.Fault:
        return False


def accepted():
    """The recorded files that are changesets, and made-up ones."""
    files = [path.read_bytes() for path in RECORDED]
    return [*filter(is_accepted, files), *map(reader.write, made_up("accepted"))]


def value_of(field):
    """The value of a field that the reader of the tests has read."""
    return UNDEFINED if field == reader.UNDEFINED else stores.take_value(field, 0)[0]


def wanted_changes(file):
    """The changes of a file, by the reader of the tests."""
    for flags, name, entries in reader.Reader(file).groups():
        for operation, indirect, records in entries:
            old, new = [tuple(map(value_of, record)) for record in records], None
            if operation == reader.INSERT:
                old, new = None, old[0]
            elif operation == reader.DELETE:
                old = old[0]
            else:
                old, new = old
            yield Change(name.decode(), OPERATIONS[operation], indirect == b"\x01", old, new, flags)


def built(changes):
    """The file that a builder makes of changes."""
    builder = Builder()
    for change in changes:
        builder.add(change)
    return builder.to_bytes()


def refusal(call, *files):
    """The number, file and place of the fault for which a call refuses files; or its result."""
    try:
        return call(*files)
    except ChangesetError as error:
        return error.code, error.which, error.place


class Decoded(unittest.TestCase):
    """Changes are those of the file."""

    def test_each_file(self):
        for file in accepted():
            with self.subTest(file=file.hex()):
                self.assertEqual(list(vollikash.changes(file)), list(wanted_changes(file)))

    def test_iterator_of_sqlite(self):
        sqlite = iterator.library()
        if sqlite is None:
            self.skipTest("there is no SQLite library with the session extension")
        undefined = {iterator.UNDEFINED: UNDEFINED}
        for file in accepted():
            ours = [
                (change.table.encode(), change.op, change.indirect, change.old, change.new)
                for change in vollikash.changes(file)
            ]
            theirs = [
                (*change[:3], *(
                    record and tuple(undefined.get(value, value) for value in record)
                    for record in change[3:]
                ))
                for change in iterator.Iterator(sqlite, file)
            ]
            with self.subTest(file=file.hex()):
                self.assertEqual(ours, theirs)

    def test_refused_files(self):
        """A file is refused by the call, and not by the first change."""
        for file in (H, H + b"\x13", b"P", b"\x54"):
            with self.subTest(file=file.hex()), self.assertRaises(ChangesetError):
                vollikash.changes(file)
        with self.assertRaises(TypeError):
            vollikash.changes("text")

    def test_lazily(self):
        file = H + b"".join(stores.insert(key, "x") for key in range(1000))
        changes = vollikash.changes(bytearray(file))
        self.assertIs(iter(changes), changes)
        self.assertEqual(next(changes).new, (0, "x"))
        self.assertEqual(sum(1 for _ in changes), 999)
        self.assertEqual(list(vollikash.changes(b"")), [])

    def test_key(self):
        key_first = Change("t", "insert", False, None, (1, "x"), b"\x01\x00")
        self.assertEqual(key_first.key, (1,))
        old, new = (1, 2, "k"), (UNDEFINED, 3, UNDEFINED)
        self.assertEqual(Change("t", "update", True, old, new, b"\x02\x00\x01").key, (1, "k"))
        self.assertEqual(Change("t", "delete", False, (1, "x"), None, b"\x00\x07").key, ("x",))


class Objects(unittest.TestCase):
    """What Python sees of changes and of UNDEFINED."""

    change = Change("t", "update", False, (1, "x"), (UNDEFINED, "y"), b"\x01\x00")

    def test_change(self):
        with self.assertRaises(AttributeError):
            self.change.table = "u"
        self.assertFalse(hasattr(self.change, "__dict__"))
        pickled = pickle.dumps(self.change)
        for copied in (copy.copy(self.change), copy.deepcopy(self.change), pickle.loads(pickled)):
            self.assertEqual(copied, self.change)
            self.assertIs(copied.new[0], UNDEFINED)
        self.assertEqual(len({self.change, copy.deepcopy(self.change)}), 1)
        self.assertEqual(dataclasses.replace(self.change, table="u").table, "u")
        self.assertEqual(
            repr(self.change),
            "Change(table='t', op='update', indirect=False, old=(1, 'x'), new=(UNDEFINED, 'y'), "
            "flags=b'\\x01\\x00')",
        )

    def test_undefined(self):
        self.assertFalse(UNDEFINED)
        self.assertIsNotNone(UNDEFINED)
        self.assertEqual([str(UNDEFINED), repr(UNDEFINED), f"{UNDEFINED}"], ["UNDEFINED"] * 3)
        for protocol in range(pickle.HIGHEST_PROTOCOL + 1):
            self.assertIs(pickle.loads(pickle.dumps(UNDEFINED, protocol)), UNDEFINED)
        self.assertIs(copy.copy(UNDEFINED), UNDEFINED)
        self.assertIs(copy.deepcopy([UNDEFINED])[0], UNDEFINED)
        self.assertNotEqual(UNDEFINED, None)


class Builders(unittest.TestCase):
    """What is built is a changeset: that of the changes."""

    def test_each_file(self):
        for file in accepted():
            with self.subTest(file=file.hex()):
                self.assertEqual(built(vollikash.changes(file)), file)

    def test_calls(self):
        builder = Builder()
        self.assertEqual(builder.to_bytes(), b"")
        builder.table("t", key=[True, False])
        builder.table("empty", key=[True])
        builder.table("u", key=[0, 2, 1])
        builder.insert("t", 1, "x")
        builder.delete("t", 2, None, indirect=True)
        builder.update("t", old=[3, b"\x00"], new=[UNDEFINED, -1])
        builder.insert("u", None, bytearray(b"k"), memoryview(b"l"))
        self.assertEqual(
            vollikash.dump(builder.to_bytes()),
            "table 't' columns 2 flags 1,0\ninsert 0 new 1,'x'\ndelete 1 old 2,NULL\n"
            "update 0 old 3,X'00' new -,-1\ntable 'u' columns 3 flags 0,2,1\n"
            "insert 0 new NULL,X'6b',X'6c'\n",
        )

    def test_more_changes(self):
        """A builder goes on after its file was made."""
        builder = Builder()
        builder.table("t", key=[True, False])
        builder.insert("t", 1, "x")
        self.assertEqual(builder.to_bytes(), H + stores.insert(1, "x"))
        builder.update("t", old=(1, "x"), new=(UNDEFINED, "y"))
        self.assertEqual(builder.to_bytes(), H + stores.insert(1, "y"))
        builder.insert("t", 2, "z")
        builder.delete("t", 1, "y")
        self.assertEqual(builder.to_bytes(), H + stores.insert(2, "z"))
        builder.insert("t", 1, "w")
        self.assertEqual(builder.to_bytes(), H + stores.insert(2, "z") + stores.insert(1, "w"))

    def test_second_changes(self):
        """The file is the concatenation of a file for each change."""
        maker, vanished = Maker(random.Random("second")), 0
        for number in range(MADE):
            flags, count = maker.flags(), maker.upto(3)
            names = (b"t", b"u")[:maker.upto(2)]
            files = [
                reader.write([maker.group(flags, name)]) for _ in range(count) for name in names
            ]
            changes = [change for file in files for change in vollikash.changes(file)]
            parts = [reader.Reader(built([change])).groups() for change in changes]
            groups = parts[0]
            for part in parts[1:]:
                groups = model.concatenated(groups, part)
            with self.subTest(number):
                self.assertEqual(built(changes), reader.write(groups))
            vanished += sum(len(entries) for *_, entries in groups) < len(changes)
        self.assertGreater(vanished, MADE // 4)

    def test_one_key(self):
        """Very many changes of one key cost no more than as many of others."""
        builder, count = Builder(), 20_000
        builder.table("n" * 10_000, key=[True, False])
        builder.insert("n" * 10_000, 1, 0)
        for number in range(count):
            builder.update("n" * 10_000, old=(1, number), new=(UNDEFINED, number + 1))
        started = time.perf_counter()
        [change] = vollikash.changes(builder.to_bytes())
        self.assertEqual((change.op, change.new), ("insert", (1, count)))
        self.assertLess(time.perf_counter() - started, 30)

    def test_flags(self):
        """Those that a table has first are kept."""
        builder = Builder()
        builder.table("t", key=[2, 0, 1])
        builder.table("t", key=[True, False, True])
        builder.add(Change("t", "insert", False, None, (1, 2, 3), b"\xff\x00\x01"))
        self.assertEqual(builder.to_bytes()[2:5], b"\x02\x00\x01")
        for key in ([True, True, True], [1, 0], [1, 0, 0, 1]):
            with self.subTest(key=key), self.assertRaisesRegex(ValueError, "'t': .*another key"):
                builder.table("t", key=key)

    def test_what_no_table_has(self):
        for name, key, why in (
            ("t", [], "0 columns"), ("t", [True] * 32768, "32768 columns"),
            ("t", [False, 0], "no key"), ("t", [256], "column 1"), ("t", [1, -1], "column 2"),
            ("t", [1, "x"], "column 2"),
            ("t", [1, 1.0], "column 2"), ("", [1], "empty"), ("a\0b", [1], "zero character"),
            ("\ud800", [1], "Unicode"), (7, [1], "int"), (None, [1], "NoneType"),
            (b"t", [1], "bytes"),
        ):
            with self.subTest(name=name, key=key[:3]), self.assertRaisesRegex(ValueError, why):
                Builder().table(name, key=key)
        Builder().table("t", key=[1] * 32767)

    def test_what_is_no_change(self):
        """It is refused at once, with table, change and column, and nothing is added."""
        builder = Builder()
        builder.table("t", key=[True, False])
        builder.insert("t", 1, "x")
        insert, delete, update = builder.insert, builder.delete, builder.update
        where = "table 't', change 2 "
        for call, wanted in (
            (lambda: insert("t", 2, 1.5), "column 2: a float, and not an int of 64 bits, str"),
            (lambda: insert("t", 2, True), r"\(INSERT\), column 2: a bool,"),
            (lambda: insert("t", [2], "x"), r"\(INSERT\), column 1: a list,"),
            (lambda: insert("t", 1 << 63, "x"), r"\(INSERT\), column 1: an int of more than 64"),
            (lambda: insert("t", 2, -(1 << 63) - 1), r"\(INSERT\), column 2: an int of more"),
            (lambda: insert("t", 2, "\ud800"), r"\(INSERT\), column 2: a text that is not Unicode"),
            (lambda: insert("t", None, "x"), r"\(INSERT\), column 1: None in a key column"),
            (lambda: insert("t", 2, UNDEFINED), r"\(INSERT\), column 2: UNDEFINED outside"),
            (lambda: insert("t", 2), r"\(INSERT\), 1 values for 2 columns"),
            (lambda: delete("t", 2, "x", "y"), r"\(DELETE\), 3 values for 2 columns"),
            (lambda: delete("t", UNDEFINED, "x"), r"\(DELETE\), column 1: UNDEFINED outside"),
            (lambda: update("t", old=(None, 1), new=(UNDEFINED, 2)), "column 1: None in"),
            (lambda: update("t", old=(UNDEFINED, 1), new=(UNDEFINED, 2)), "column 1: UNDEFINED in"),
            (lambda: update("t", old=(1, 1), new=(2, 2)), r"column 1: a key column of `new`"),
            (lambda: update("t", old=(1, UNDEFINED), new=(UNDEFINED, 2)), "column 2: UNDEFINED in"),
            (lambda: update("t", old=(1, 1), new=(UNDEFINED, UNDEFINED)), "column 2: UNDEFINED in"),
            (lambda: update("t", old=None, new=(UNDEFINED, 2)), r"\(UPDATE\), `old` is missing"),
            (lambda: update("t", old=(1, 2), new=(UNDEFINED,)), r"\(UPDATE\), 1 values for 2"),
        ):
            with self.subTest(wanted), self.assertRaisesRegex(ValueError, f"^{where}.*{wanted}"):
                call()
        with self.assertRaisesRegex(ValueError, "table 'u' is not declared"):
            builder.insert("u", 1)
        self.assertEqual(builder.to_bytes(), H + stores.insert(1, "x"))

    def test_changes_that_are_none(self):
        for change, wanted in (
            (Change("t", "insert", False, (1,), (1,), b"\x01"), "two records"),
            (Change("t", "insert", False, None, None, b"\x01"), "`new` is missing"),
            (Change("t", "delete", False, (1,), (1,), b"\x01"), "two records"),
            (Change("t", "replace", False, None, (1,), b"\x01"), "operation 'replace'"),
            (Change("t", "insert", False, None, (1,), b"\x00"), "no key"),
            (Change("t", "insert", False, None, (1,), b""), "0 columns"),
            (Change("", "insert", False, None, (1,), b"\x01"), "empty"),
        ):
            with self.subTest(wanted), self.assertRaisesRegex(ValueError, wanted):
                built([change])

    def test_a_long_text(self):
        """It is refused before it is copied."""
        class Long(str):
            """A text that claims to be as long as no field is."""

            def encode(self):
                return LongBytes()

        class LongBytes(bytes):
            """Bytes that claim to be as many."""

            def __len__(self):
                return 1 << 31

        builder = Builder()
        builder.table("t", key=[True])
        with self.assertRaisesRegex(ValueError, "column 1: 2147483648 bytes"):
            builder.insert("t", Long())


class Files(unittest.TestCase):
    """Calls on whole files."""

    def files(self, maker):
        """A few files of the same tables, rarely with other columns."""
        tables = maker.tables()[:2]
        return [reader.write(maker.changeset(tables)) for _ in range(maker.upto(8))]

    def one_by_one(self, files):
        """Concatenate files one after the other, by the call on two files."""
        call = _files._library().vollikash_concat
        call.argtypes = 2 * _files._FILE + _files._OUT + _files._FAULT
        if len(files) < 2:
            return vollikash.concat(*files)
        made = files[0]
        for index, data in enumerate(files[1:], 1):
            try:
                made = _files._made(call, 0, made, len(made), data, len(data))
            except ChangesetError as error:
                which = index + 1 if error.which == 2 else 1
                raise ChangesetError(error.code, which, error.place) from None
        return made

    def test_concatenations(self):
        """Many files are concatenated as one after the other."""
        maker, made = Maker(random.Random("concat")), 0
        for number in range(MADE):
            files = self.files(maker)
            wanted = refusal(self.one_by_one, files)
            with self.subTest(number):
                self.assertEqual(refusal(vollikash.concat, *files), wanted)
            made += isinstance(wanted, bytes)
        self.assertGreater(made, MADE // 2)

    def test_groups(self):
        """Files that are added one by one are concatenated, and one that is refused is not."""
        maker = Maker(random.Random("group"))
        for number in range(MADE):
            files = self.files(maker)
            group, added = vollikash.Group(), []
            with self.subTest(number):
                for data in (*files, b"T"):
                    wanted = refusal(vollikash.concat, *added, data)
                    told = refusal(group.add, data)
                    if isinstance(wanted, bytes):
                        added.append(data)
                        self.assertEqual(group.to_bytes(), wanted)
                    else:
                        self.assertEqual(told, (wanted[0], 1, wanted[2]))
                self.assertEqual(group.to_bytes(), vollikash.concat(*added))

    def test_group(self):
        """A group without files has no bytes, and no group can be copied."""
        group = vollikash.Group()
        self.assertEqual(group.to_bytes(), b"")
        with self.assertRaisesRegex(TypeError, "cannot be copied"):
            copy.copy(group)

    def test_threads(self):
        """Threads add files to one group, and ask it for its file."""
        group, files = vollikash.Group(), [H + stores.insert(key, "x") for key in range(800)]

        def add(file):
            group.add(file)
            vollikash.check(group.to_bytes())

        with concurrent.futures.ThreadPoolExecutor(4) as threads:
            list(threads.map(add, files))
        made = [tuple(change.new) for change in vollikash.changes(group.to_bytes())]
        self.assertEqual(sorted(made), [(key, "x") for key in range(800)])

    def test_fold(self):
        """Three files are those of the first two and the third."""
        for first, second, third in zip(*[iter(accepted()[:90])] * 3):
            pair = refusal(vollikash.concat, first, second)
            if isinstance(pair, bytes):
                wanted = refusal(vollikash.concat, pair, third)
                if not isinstance(wanted, bytes):
                    code, which, place = wanted
                    wanted = code, which + 1, place
                self.assertEqual(refusal(vollikash.concat, first, second, third), wanted)

    def test_few_files(self):
        file = H + stores.insert(1, "x")
        self.assertEqual(vollikash.concat(), b"")
        self.assertEqual(vollikash.concat(bytearray(file)), file)
        with self.assertRaises(ChangesetError):
            vollikash.concat(H)
        with self.assertRaises(TypeError):
            vollikash.concat([file, file])

    def test_file_at_fault(self):
        """Its number is that of the arguments."""
        file = H + stores.insert(1, "x")
        wider = stores.header("t", 1, 0, 0) + stores.insert(1, 2, 3)
        for count in (1, 2, 5, 60):
            for place in range(count):
                files = [file] * count
                files[place] = H
                told = refusal(vollikash.concat, *files)
                self.assertEqual(told, (Code.EMPTY_GROUP, place + 1, 6))
                if place:
                    files[place] = wider
                    self.assertEqual(refusal(vollikash.concat, *files), (Code.SCHEMA, place + 1, 0))

    def test_many_files(self):
        """Very many small files cost no more than one of their length."""
        files = [H + stores.insert(key, "x") for key in range(20_000)]
        started = time.perf_counter()
        made = vollikash.concat(*files)
        self.assertEqual(made, H + b"".join(file[len(H):] for file in files))
        self.assertLess(time.perf_counter() - started, 30)

    def test_select(self):
        for file in accepted():
            groups = reader.Reader(file).groups()
            names = [name.decode() for _, name, _ in groups]
            for wanted in ([], names, names[::2], names[1:2] + ["nowhere"]):
                kept = [group for group in groups if group[1].decode() in wanted]
                with self.subTest(file=file.hex(), wanted=wanted):
                    self.assertEqual(vollikash.select(file, wanted), reader.write(kept))
        with self.assertRaises(TypeError):
            vollikash.select(b"", "t")
        with self.assertRaises(ChangesetError):
            vollikash.select(H, [])

    def test_stat(self):
        for file in accepted():
            groups = reader.Reader(file).groups()
            wanted = {
                name.decode(): tuple(
                    sum(entry[0] == operation for entry in entries)
                    for operation in (reader.INSERT, reader.UPDATE, reader.DELETE)
                )
                for _, name, entries in groups
            }
            with self.subTest(file=file.hex()):
                self.assertEqual(list(vollikash.stat(file).items()), list(wanted.items()))
        with self.assertRaises(ChangesetError):
            vollikash.stat(H)

    def test_a_big_file(self):
        file = H + b"".join(stores.insert(key, "x" * 200) for key in range(200_000))
        self.assertEqual(built(vollikash.changes(file)), file)
        self.assertEqual(vollikash.stat(file), {"t": (200_000, 0, 0)})
        self.assertEqual(vollikash.select(file, ["t"]), file)
        stream = io.StringIO()
        vollikash.write_json(file, stream)
        stream.seek(0)
        self.assertEqual(vollikash.read_json(stream), file)

    def test_many_columns(self):
        file = stores.header("t", *[1] * 32767) + stores.insert(*range(32767))
        self.assertEqual(built(vollikash.changes(file)), file)
        self.assertEqual(vollikash.from_json(vollikash.to_json(file)), file)


class Slowly(io.StringIO):
    """A stream that reads at most a few characters at once."""

    def read(self, size=-1):
        return super().read(min(size, 3))


class Json(unittest.TestCase):
    """Changesets as JSON."""

    text = (
        '[\n{"table": "t", "flags": [1, 0], "changes": [\n'
        '{"op": "insert", "new": {"c1": 1, "c2": "\\u00e9"}},\n'
        '{"op": "update", "indirect": true, "old": {"c1": 2, "c2": null}, '
        '"new": {"c2": {"blob": "00ff"}}},\n'
        '{"op": "delete", "old": {"c1": {"integer": "-9223372036854775808"}, '
        '"c2": 9007199254740991}}\n'
        "]}\n]\n"
    )
    file = H + (
        stores.insert(1, "é") + b"\x17\x01" + stores.record((2, None))
        + stores.record((stores.UNDEFINED, b"\x00\xff")) + stores.delete(-1 << 63, (1 << 53) - 1)
    )

    def test_schema(self):
        self.assertEqual(vollikash.to_json(self.file), self.text)
        self.assertEqual(vollikash.from_json(self.text), self.file)
        self.assertEqual([vollikash.to_json(b""), vollikash.from_json("[]")], ["[]\n", b""])

    def test_each_file(self):
        for file in accepted():
            with self.subTest(file=file.hex()):
                text = vollikash.to_json(file)
                self.assertTrue(text.isascii())
                json.loads(text)
                self.assertEqual(vollikash.from_json(text), file)
                stream = io.StringIO()
                vollikash.write_json(file, stream)
                self.assertEqual(stream.getvalue(), text)
                self.assertEqual(vollikash.read_json(Slowly(text)), file)

    def test_other_spellings(self):
        """Blanks, the order of members, and what a writer of JSON leaves open."""
        document = json.loads(self.text)
        for text in (
            json.dumps(document), json.dumps(document, indent=4, sort_keys=True),
            json.dumps(document, ensure_ascii=False), f" \t\r\n{self.text} \n",
            json.dumps([dict(reversed(list(table.items()))) for table in document]),
            self.text.replace('"insert",', '"insert", "indirect": false,'),
            self.text.replace("[1, 0]", "[true, false]").replace("00ff", "00FF"),
            self.text.replace('{"integer": "-9223372036854775808"}', "-9223372036854775808"),
            self.text.replace("9007199254740991", '{"integer": "9007199254740991"}'),
        ):
            with self.subTest(text=text):
                self.assertEqual(vollikash.from_json(text), self.file)
                self.assertEqual(vollikash.read_json(Slowly(text)), self.file)

    def test_refused_files(self):
        for call in (vollikash.to_json, lambda file: vollikash.write_json(file, io.StringIO())):
            with self.assertRaises(ChangesetError):
                call(H)

    def expect(self, text, why, line=None, column=None):
        """Expect that a text is refused, from memory and from a stream."""
        errors = []
        for call in (vollikash.from_json, lambda text: vollikash.read_json(Slowly(text))):
            with self.assertRaisesRegex(ValueError, why) as caught:
                call(text)
            self.assertIsInstance(caught.exception, JsonError)
            errors.append(caught.exception)
        first, second = errors
        self.assertEqual(str(first), str(second))
        self.assertEqual(str(pickle.loads(pickle.dumps(first))), str(first))
        if line is not None:
            self.assertEqual((first.line, first.column), (line, column))

    def test_each_cut(self):
        """A text that ends early is refused at its end, or where what is cut begins."""
        for end in range(len(self.text.rstrip())):
            with self.subTest(end):
                self.expect(self.text[:end], "line")

    def test_mistakes(self):
        """Each is reported with its place."""
        for old, new, why, line, column in (
            ("[\n", "", r"\[ is missing", 1, 1),
            ("[\n", "{", r"\[ is missing", 1, 1),
            ("]}\n]\n", "]}\n", "is missing", 7, 1),
            ("]}\n]\n", "]}\n]]", "goes on after", 7, 2),
            ('"flags"', "'flags'", "Expecting", 2, 16),
            ('"flags"', '"columns"', '"table", "flags" and "changes"', 2, 16),
            ('"flags"', '"table"', "each once", 2, 16),
            ('"flags": [1, 0], ', "", "lacks", 6, 3),
            ("[1, 0]", "[1, 2, 0]", "column 3: UNDEFINED outside an update", 3, 1),
            ("[1, 0]", "[0, 0]", "no key column", 2, 25),
            ("[1, 0]", "[1, 256]", "column 2: a flag", 2, 25),
            ("[1, 0]", "10", "is not an array", 2, 25),
            ('"t"', '""', "empty", 2, 11),
            ('"t"', "7", "a name is a str", 2, 11),
            ('"op": "insert"', '"op": "Insert"', 'change 1, "op" is not', 3, 1),
            ('"op": "insert", ', "", '"op" is not', 3, 1),
            ("true", "1", '"indirect" is not', 4, 1),
            ('"indirect": true', '"direct": true', "no member 'direct'", 4, 1),
            ('"c2": null}, ', '"c3": null}, ', "change 2, 'c3' is none of the columns c1 to", 4, 1),
            ('"c2": null}, ', '"c02": null}, ', "'c02' is none of", 4, 1),
            (', "c2": null', "", "column 2: UNDEFINED in only one", 4, 1),
            ('"c2": null}, ', '"c2": null, "c2": 1}, ', "'c2' is there twice", 4, 1),
            ("null", "true", "column 2: a bool", 4, 1),
            ("null", "[1]", "column 2: a list", 4, 1),
            ("null", "1.5", "a number that is not an integer", 4, 1),
            ("null", "1e3", "a number that is not an integer", 4, 1),
            ("null", "NaN", "a number that is not an integer", 4, 1),
            ("null", "9223372036854775808", "column 2: an int of more than 64 bits", 4, 1),
            ("null", "9" * 100_000, "an integer of more than 64 bits", 4, 1),
            ("null", '"\\ud800"', "column 2: a text that is not Unicode", 4, 1),
            ("null", '"\n"', "control character", 4, 60),
            ("null", '"\\x"', "escape", 4, 60),
            ("null", "nul", "Expecting value", 4, 59),
            ("00ff", "00f", "an object that is neither", 4, 1),
            ("00ff", "0x", "an object that is neither", 4, 1),
            ("00ff", "0 0f", "an object that is neither", 4, 1),
            ('"blob"', '"hex"', "an object that is neither", 4, 1),
            ('"00ff"', '"00", "integer": "1"', "an object that is neither", 4, 1),
            ("-9223372036854775808", "1.0", "an object that is neither", 5, 1),
            ("-9223372036854775808", "-9223372036854775809", "more than 64 bits", 5, 1),
            ('"c1": 2', '"c1": 1', "change of this key before|UNDEFINED", 4, 1),
            ('"new": {"c1": 1', '"old": {"c1": 1', "`new` is missing|two records", 3, 1),
            ('{"op": "insert", "new": {"c1": 1, "c2": "\\u00e9"}}', "7", "is not an object", 3, 1),
        ):
            with self.subTest(old=old, new=new[:40]):
                self.assertIn(old, self.text)
                self.expect(self.text.replace(old, new, 1), why, line, column)

    def test_what_is_there_twice(self):
        table = '{"table": "t", "flags": [1], "changes": [%s]}'
        change = '{"op": "insert", "new": {"c1": 1}}'
        self.expect(f"[{table % change}, {table % change}]", "a table: 't' is there before")
        self.expect(f"[{table % f'{change}, {change}'}]", "change 2, the table has a change of")
        self.expect(f"[{table % ''}]", "table 't' has no change")

    def test_hostile_texts(self):
        """None takes long, or more memory than a text of its length."""
        depth = 200_000
        started = time.perf_counter()
        for text in (
            "[" * depth, '{"table":' * depth, '[{"table": ' + "[" * depth,
            '[{"table": "t", "flags": [1], "changes": [' + '{"a":' * depth,
            '[{"table": "' + "x" * 10_000_000, '[{"table": ' + " " * 10_000_000,
            '[{"table": "t", "flags": [' + "1, " * 3_000_000, "[" + ", " * 1_000_000,
            '[{"flags": [1], "changes": [' + '"x", ' * 1_000_000,
        ):
            with self.subTest(text=text[:50]):
                with self.assertRaises(JsonError):
                    vollikash.from_json(text)
                with self.assertRaises(JsonError):
                    vollikash.read_json(io.StringIO(text))
        self.assertLess(time.perf_counter() - started, 60)

    def test_streams_of_other_types(self):
        with self.assertRaises(TypeError):
            vollikash.read_json(io.BytesIO(self.text.encode()))
        with self.assertRaises(TypeError):
            vollikash.from_json(self.text.encode())

    def test_speed(self):
        """A stream of 100000 changes, each way."""
        new = stores.UNDEFINED, "y"
        file = H + b"".join(stores.update((key, "x"), new) for key in range(100_000))
        stream = io.StringIO()
        started = time.perf_counter()
        vollikash.write_json(file, stream)
        stream.seek(0)
        self.assertEqual(vollikash.read_json(stream), file)
        self.assertLess(time.perf_counter() - started, 30)


def shown(name):
    """The bytes of a name as sentences show them."""
    text = name.decode(errors="replace")
    return f"{text[:60]!r}.." if len(text) > 60 else repr(text)


class Tracing(reader.Reader):
    """The reader of the tests, which knows what it reads."""

    def __init__(self, data):
        super().__init__(data)
        self.number = self.change = self.column = self.width = 0
        self.name, self.operation = None, b""

    def header(self):
        self.number, self.name, self.change, self.column = self.number + 1, None, 0, 0
        flags, self.name = super().header()
        self.width = len(flags)
        return flags, self.name

    def entry(self, flags):
        self.change, self.column, self.operation = self.change + 1, 0, self.here()
        entry = super().entry(flags)
        self.column = 0
        return entry

    def field(self):
        self.column = self.column % self.width + 1
        return super().field()

    def where(self, number, place):
        """What is read, as `explain` says it."""
        if number in (2, 3) and self.name is None:
            return f"byte {place}: "
        if number == Code.NO_KEY and 0 in self.data[self.at:]:
            self.name = self.data[self.at:self.data.index(0, self.at)]
        words = [f"table {shown(self.name) if self.name else self.number}"]
        if self.change and number not in (3, 9):
            operation = OPERATIONS.get(self.operation)
            words.append(f"change {self.change}" + (f" ({operation.upper()})" if operation else ""))
        if self.column and number not in (3, 9):
            words.append(f"column {self.column}")
        return ", ".join([*words, f"byte {place}"]) + ": "


class Explained(unittest.TestCase):
    """A sentence for each file that is refused."""

    def refused(self, file):
        """The error of a file, or None."""
        try:
            vollikash.check(file)
        except ChangesetError as error:
            return error
        return None

    def test_sentence(self):
        file = stores.header("price", 1, 0) + stores.insert(1, "x") + (
            b"\x17\x00" + stores.record((2, )) + b"\x02" + bytes(8)
        )
        self.assertEqual(
            vollikash.explain(file, self.refused(file), "prices.cs"),
            "prices.cs: table 'price', change 2 (UPDATE), column 2, byte 35: a REAL. Vollikash "
            "takes integers, texts, blobs and NULL.",
        )
        self.assertEqual(
            vollikash.explain(b"A", self.refused(b"A")),
            "byte 0: no table begins here. Check that the file is a changeset.",
        )

    def test_each_damaged_file(self):
        """Table, change and column are those of the reader of the tests."""
        codes = set()
        real = H + stores.insert(1, "x") + b"\x12\x00" + stores.record((2,)) + b"\x02" + bytes(8)
        wrong_name, twice = b"\x54\x01\x01\xff\x00" + b"\x12\x00\x05", H + stores.insert(1, "x")
        for file in (*TO_DAMAGE.values(), real, wrong_name, twice * 2, H + H, twice + b"P"):
            for data in damaged(file):
                error = self.refused(data)
                if error is not None:
                    self.expect_part(data, error)
                    codes.add(error.code)
        self.assertEqual(codes, set(range(1, 19)))

    def expect_part(self, data, error):
        """Expect what the reader of the tests was reading."""
        tracing = Tracing(data)
        with self.assertRaises(reader.Fault):
            tracing.groups()
        if error.code == Code.DUPLICATE_TABLE:
            tracing.change = tracing.column = 0
        said = vollikash.explain(data, error)
        with self.subTest(file=data.hex(), code=error.code):
            self.assertTrue(said.startswith(tracing.where(error.code, error.place)), said)
            self.assertRegex(said, r"byte [0-9]+: \S.*\.$")

    def test_made_up_files(self):
        maker = Maker(random.Random("explained"))
        for groups in made_up("explained"):
            file = reader.write(groups)
            for data in (maker.broken(groups), maker.damaged(file, file), maker.damaged(file, H)):
                error = self.refused(data)
                if error is not None:
                    self.expect_part(data, error)

    def test_schema(self):
        first = H + stores.insert(1, "x")
        other = stores.header("u", 1) + stores.insert(1) + stores.header("t", 1) + stores.insert(1)
        with self.assertRaises(ChangesetError) as caught:
            vollikash.concat(first, other)
        self.assertEqual(
            vollikash.explain(other, caught.exception, "other.cs"),
            f"other.cs: table 't', byte {len(other) // 2}: the table has other columns or another "
            "key than before. Record both files on one schema.",
        )

    def test_other_files(self):
        """A file that is not at fault has a sentence too."""
        whole = H + stores.insert(1, "x")
        long = b"\xff" * 1000
        for file in (b"", b"T", whole, b"\x54" + long, H + b"\x12\x00\x03" + long, bytes(99)):
            for code in (*range(1, 19), Code.SCHEMA):
                for place in (0, 1, 7, 1 << 40):
                    said = vollikash.explain(file, ChangesetError(Code(code), 1, place))
                    self.assertRegex(said, r"^\S.*[a-zA-Z]\.$")

    def test_names(self):
        """A name is on the line, whatever it has."""
        file = stores.header("a\nb'", 1) + b"\x13"
        said = vollikash.explain(file, self.refused(file))
        self.assertTrue(said.startswith("table \"a\\nb'\", change 1, byte"), said)
        file = stores.header("n" * 10_000, 1) + b"\x13"
        self.assertLess(len(vollikash.explain(file, self.refused(file))), 200)

    def test_iterator_of_sqlite(self):
        """Table, change and column of REALs, NULL keys and texts are those that SQLite reads."""
        sqlite = iterator.library()
        if sqlite is None:
            self.skipTest("there is no SQLite library with the session extension")
        codes = collections.Counter()
        for file in (*TOP.glob("tests/recorded/real-*.cs"), *self.files_with_a_fault()):
            file = file.read_bytes() if isinstance(file, pathlib.Path) else file
            error = self.refused(file)
            if error is not None and error.code in (Code.REAL_VALUE, Code.NULL_KEY, Code.BAD_TEXT):
                said = vollikash.explain(file, error)
                with self.subTest(file=file.hex()):
                    self.assertTrue(said.startswith(self.found(sqlite, file, error.code)), said)
                codes[error.code] += 1
        self.assertEqual(len(codes), 3)
        self.assertGreater(min(codes.values()), 10)

    @staticmethod
    def files_with_a_fault():
        """Made-up changesets in which one field is one that is refused."""
        maker = Maker(random.Random("iterator"))
        for groups in filter(None, made_up("iterator")):
            flags, _, entries = maker.pick(groups)
            operation, _, records = maker.pick(entries)
            place = maker.chance.randrange(len(flags))
            if operation != reader.UPDATE or flags[place]:
                records[0][place] = maker.pick((b"\x02" + bytes(8), b"\x05", b"\x03\x01\xff"))
                yield reader.write(groups)

    def found(self, sqlite, file, code):
        """Where SQLite's iterator has a value for which a file is refused."""
        last, number = None, 0
        changes = iterator.Iterator(sqlite, file)
        for name, op, _, old, new in changes:
            last, number = name, number + 1 if name == last else 1
            record = new if old is None else old
            for column, (value, flag) in enumerate(zip(record, changes.flags), 1):
                if self.is_fault(code, value, flag):
                    where = f"table {shown(name)}, change {number} ({op.upper()})"
                    return f"{where}, column {column}, byte "
        return "no such value"

    @staticmethod
    def is_fault(code, value, flag):
        """Whether a value is of a kind that is refused."""
        if code == Code.REAL_VALUE:
            return value is iterator.IS_REAL
        if code == Code.NULL_KEY:
            return value is None and flag
        return isinstance(value, str) and any("\udc80" <= letter <= "\udcff" for letter in value)


class Errors(unittest.TestCase):
    """One base class has all errors."""

    def test_base(self):
        for error, other in (
            (ChangesetError(Code.SCHEMA, 2, 0), ValueError), (JsonError("why", 1, 2), ValueError),
            (vollikash.NoTable(Code.NO_TABLE, "t"), vollikash.StoreError),
            (vollikash.ProgramError("why"), OSError),
            (vollikash.ConflictError(Code.ABORT, "t", None, (1,), 1), vollikash.StoreError),
        ):
            with self.subTest(error=error):
                self.assertIsInstance(error, vollikash.Error)
                self.assertIsInstance(error, other)
                copied = pickle.loads(pickle.dumps(error))
                self.assertEqual((type(copied), str(copied)), (type(error), str(error)))
                self.assertEqual(vars(copied), vars(error))

    def test_exports(self):
        for name in vollikash.__all__:
            self.assertTrue(hasattr(vollikash, name), name)


if __name__ == "__main__":
    unittest.main()

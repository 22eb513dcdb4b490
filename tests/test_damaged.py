#!/usr/bin/env python3
"""Damaged files: each file cut at each byte, and each byte set to each other value.

A reader that shares no code with the program (`support/reader.py`) says what is right: the inverse,
and concatenations with a whole file and with itself (`support/model.py`), or the fault with its
offset. After a fault the slot and the store are unchanged. Files that claim more than they have
take no more memory than others of their length. The program and the library have to be built first.
"""
import subprocess
import sys
import unittest

from support import model, reader
from support.program import PROGRAM, TOP, main
from support.samples import K1, T, TO_DAMAGE, damaged
from support.stores import UNDEFINED, header, insert, update

sys.path.insert(0, str(TOP / "bindings/python"))

import vollikash  # noqa: E402

# How many seconds a run may take, how many bytes a script has at most, and how many of memory a run
# may have.
PATIENCE, LONGEST, MEMORY = 300, 16_000_000, 96 << 20

# What each is concatenated with.
WHOLE = T + update((1, "x"), (UNDEFINED, "w")) + insert(3, "v") + header("u", 1) + b"\x12\x00" + K1


def wanted(data):
    """The inverse of what bytes hold, or why they are refused."""
    try:
        groups = reader.Reader(data).groups()
    except reader.Fault as fault:
        return None, f"{fault}\n"
    assert reader.write(groups) == data
    return reader.write(reader.inverted(groups)), ""


def scripts(datas):
    """Scripts that invert each of these bytes into one slot, print it, and undo what is refused on
    a store; and what they print.

    Each begins with a store of one row, and ends with it.
    """
    begin = "CREATE TABLE t(a, b, PRIMARY KEY(a));\nINSERT INTO t VALUES(7, 'seven');\n.load y\n"
    lines, printed, size, slot = [begin], [], len(begin), b""
    for data in datas:
        inverse, said = wanted(data)
        slot = slot if inverse is None else inverse
        line = f".load x {data.hex()}\n.invert x y\n.hex y\n" + (".apply x\n" if inverse is None else "")
        lines.append(line)
        printed.append(said + slot.hex() + "\n" + said)
        size += len(line)
        if size > LONGEST:
            yield "".join(lines), "".join(printed)
            lines, printed, size, slot = [begin], [], len(begin), b""
    yield "".join(lines), "".join(printed)


def joined(first, second):
    """The concatenation of two files, or why they are refused, and which of them is at fault. The
    faults of the first come first.
    """
    groups = []
    for which, data in enumerate((first, second), 1):
        try:
            groups.append(reader.Reader(data).groups())
        except reader.Fault as fault:
            return None, f"{fault}\n", which
    try:
        return reader.write(model.concatenated(*groups)), "", 0
    except model.Refusal as refusal:
        return None, refusal.line.decode() + "\n", 2


def joined_by_library(first, second):
    """The same, by a call of the library."""
    try:
        return vollikash.concat(first, second), "", 0
    except vollikash.ChangesetError as error:
        return None, f"error {error.code} {error.name} {error.place}\n", error.which


def concatenating(datas):
    """Scripts that concatenate each of these bytes with a whole file, in both orders, and with
    themselves, into one slot; what they print; and the files with what `joined` returns of them.
    """
    begin = f".load w {WHOLE.hex()}\n.load y\n"
    lines, printed, pairs, size, slot = [begin], [], [], len(begin), b""
    for data in datas:
        lines.append(f".load x {data.hex()}\n")
        for words, files in (("x w", (data, WHOLE)), ("w x", (WHOLE, data)), ("x x", (data, data))):
            made, said, which = joined(*files)
            slot = slot if made is None else made
            lines.append(f".concat {words} y\n.hex y\n")
            printed.append(said + slot.hex() + "\n")
            pairs.append((files, (made, said, which)))
        size += sum(map(len, lines[-4:]))
        if size > LONGEST:
            yield "".join(lines), "".join(printed), pairs
            lines, printed, pairs, size, slot = [begin], [], [], len(begin), b""
    yield "".join(lines), "".join(printed), pairs


def run(script, limit=None):
    """What the program prints for a script, with this many bytes of memory."""
    words = [PROGRAM] if limit is None else ["sh", "-c", f"ulimit -v {limit >> 10}; exec \"$0\"", PROGRAM]
    done = subprocess.run(words, input=script.encode(), capture_output=True, timeout=PATIENCE)
    return done.stdout.decode() + done.stderr.decode()


class DamageTest(unittest.TestCase):
    """Files that are cut, changed, or claim what is not there."""

    maxDiff = 2000

    def expect_each(self, datas):
        """Asserts what is answered of each of these bytes."""
        for script, printed in scripts(datas):
            self.assertEqual(run(script + "SELECT * FROM t;\n"), printed + "7|'seven'\n")

    def test_each_byte(self):
        """Each file, cut at each place, and with each byte set to each other value."""
        for what, file in TO_DAMAGE.items():
            with self.subTest(what):
                self.expect_each(damaged(file))

    def test_each_byte_in_concatenations(self):
        """The same files, concatenated with a whole one and with themselves, by the program and by
        the library.
        """
        for what, file in TO_DAMAGE.items():
            with self.subTest(what):
                for script, printed, pairs in concatenating(damaged(file)):
                    self.assertEqual(run(script), printed)
                    for files, wanted in pairs:
                        if joined_by_library(*files) != wanted:
                            self.fail(f"{files}: {joined_by_library(*files)}, and not {wanted}")

    def test_claims(self):
        """Files that claim more than they have are refused in the memory of short ones."""
        claims = {
            "a text": T + b"\x12\x00" + K1 + b"\x03\x87\xff\xff\xff\x7f" + b"x",
            "a blob": T + b"\x12\x00" + K1 + b"\x04\x87\xff\xff\xff\x7f" + b"x",
            "columns": b"\x54\x81\xff\x7f",
            "columns with their flags": b"\x54\x81\xff\x7f" + b"\x01" * 32767 + b"t\x00\x12\x00" + K1,
            "a count of columns": b"\x54\x87\xff\xff\xff\x7f",
        }
        for what, file in claims.items():
            with self.subTest(what):
                inverse, said = wanted(file)
                self.assertIsNone(inverse)
                self.assertEqual(run(f".load x {file.hex()}\n.invert x y\n", MEMORY), said)

    def test_empty_groups(self):
        """Many tables. The last one has no entry."""
        groups = (b"\x54\x01\x01%d\x00\x12\x00\x01" % number + bytes(8) for number in range(300_000))
        file = b"".join(groups) + header("t", 1)
        inverse, said = wanted(file)
        self.assertIsNone(inverse)
        self.assertEqual(run(f".load x {file.hex()}\n.invert x y\n", 4 * MEMORY), said)


if __name__ == "__main__":
    main()

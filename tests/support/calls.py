"""Calls and answers as bytes, by docs/CALLS.md, and the program that answers them."""
import os
import pathlib
import struct
import subprocess
import sys
import unittest

from support.program import PROGRAM

CALLS_PROGRAM = pathlib.Path(
    os.environ.get("VOLLIKASH_CALLS", PROGRAM.parents[2] / "changeset_calls/out/changeset_calls")
).resolve()

# How many seconds a run may take, also of a program that checks itself and is ten times slower.
PATIENCE = 600

NUMBERS = {
    name: number
    for number, name in enumerate(
        "tables schema declare get rows count insert update delete put begin commit roll_back apply"
        " apply_chosen rehearse revert open_session attach changeset is_empty undo close_session limits".split(),
        1,
    )
}

DONE, NAMES, SCHEMA, ROW, ROWS, NUMBER, REPORT, CONFLICTS, CHANGESET, FLAG, LIMITS, REFUSED, UNREAD = range(13)

MOST_BYTES = 67108864


def count(number):
    """The bytes of a count."""
    digits = [number & 0x7F]
    while number > 0x7F:
        number >>= 7
        digits.append(number & 0x7F | 0x80)
    return bytes(reversed(digits))


def sized(content):
    """The bytes of a text or a file."""
    return count(len(content)) + content


def text(name):
    return sized(name.encode())


def value(one):
    """The bytes of a value."""
    if one is None:
        return b"\x05"
    if isinstance(one, int):
        return struct.pack(">Bq", 1, one)
    if isinstance(one, str):
        return b"\x03" + text(one)
    return b"\x04" + sized(one)


def row(values):
    """The bytes of a row or a key."""
    return count(len(values)) + b"".join(map(value, values))


def columns(*marked):
    """The bytes of columns: pairs of a name and its marks."""
    return count(len(marked)) + b"".join(text(name) + bytes([marks]) for name, marks in marked)


def call(name, *parts):
    """The bytes of a call, of its parts in order."""
    return bytes([NUMBERS[name]]) + b"".join(parts)


def frame(content):
    return struct.pack(">I", len(content)) + content


class Reader:
    """Reads the parts of an answer."""

    def __init__(self, content):
        self.content = content
        self.at = 0

    def take(self, size):
        piece = self.content[self.at : self.at + size]
        if len(piece) < size:
            raise ValueError(f"an answer that ends at {len(self.content)}")
        self.at += size
        return piece

    def byte(self):
        return self.take(1)[0]

    def number(self):
        return int.from_bytes(self.take(8), "big")

    def count(self):
        total = 0
        while True:
            byte = self.byte()
            total = total << 7 | byte & 0x7F
            if byte < 0x80:
                return total

    def sized(self):
        return self.take(self.count())

    def text(self):
        return self.sized().decode()

    def value(self):
        kind = self.byte()
        if kind == 1:
            return int.from_bytes(self.take(8), "big", signed=True)
        if kind == 3:
            return self.text()
        if kind == 4:
            return self.sized()
        if kind == 5:
            return None
        raise ValueError(f"a value of type {kind}")

    def row(self):
        return tuple(self.value() for _ in range(self.count()))

    def optional(self, part):
        return part() if self.byte() else None

    def listed(self, part):
        return [part() for _ in range(self.count())]

    def column(self):
        return self.text(), self.byte()

    def met(self):
        return self.byte(), self.byte(), self.text(), self.row()

    def found(self):
        return self.number(), self.byte(), self.text(), self.row(), self.optional(self.row)


def answer(content):
    """The parts of an answer, its number first."""
    reader = Reader(content)
    number = reader.byte()
    parts = {
        DONE: lambda: (),
        NAMES: lambda: (reader.listed(reader.text),),
        SCHEMA: lambda: (reader.listed(reader.column),),
        ROW: lambda: (reader.optional(reader.row),),
        ROWS: lambda: (reader.listed(reader.row), bool(reader.byte())),
        NUMBER: lambda: (reader.number(),),
        REPORT: lambda: (
            reader.number(), reader.number(), reader.listed(reader.text), reader.listed(reader.met)
        ),
        CONFLICTS: lambda: (reader.listed(reader.found),),
        CHANGESET: lambda: (reader.sized(),),
        FLAG: lambda: (bool(reader.byte()),),
        LIMITS: lambda: (reader.number(), reader.number()),
        REFUSED: lambda: (
            reader.number(), reader.optional(reader.text), reader.optional(reader.text),
            reader.optional(reader.row), reader.optional(reader.number),
        ),
        UNREAD: lambda: (reader.number(), reader.number()),
    }[number]()
    if reader.at != len(content):
        raise ValueError(f"{len(content) - reader.at} bytes follow an answer")
    return (number, *parts)


def frames(content):
    """The contents of frames, one after another, and what follows the last whole one."""
    found = []
    at = 0
    while len(content) - at >= 4:
        size = int.from_bytes(content[at : at + 4], "big")
        if len(content) - at - 4 < size:
            break
        found.append(content[at + 4 : at + 4 + size])
        at += 4 + size
    return found, content[at:]


def run(store, calls, **options):
    """Runs the program on calls. Returns its exit status and the answers."""
    ended = run_bytes(store, b"".join(map(frame, calls)), **options)
    answers, rest = frames(ended.stdout)
    if rest:
        raise ValueError(f"{len(rest)} bytes of an answer")
    return ended.returncode, [answer(content) for content in answers]


def run_bytes(store, stdin, **options):
    """Runs the program on the bytes of its standard input."""
    return subprocess.run(
        [str(CALLS_PROGRAM), str(store)], input=stdin, capture_output=True, timeout=PATIENCE, check=False, **options
    )


class Host:
    """A program that is running, to which one call after another is sent."""

    def __init__(self, store, **options):
        self.process = subprocess.Popen(
            [str(CALLS_PROGRAM), str(store)], stdin=subprocess.PIPE, stdout=subprocess.PIPE, bufsize=0, **options
        )

    def __enter__(self):
        return self

    def __exit__(self, *_):
        self.process.stdin.close()
        self.process.wait(PATIENCE)
        self.process.stdout.close()

    def read(self, size):
        content = b""
        while len(content) < size:
            piece = self.process.stdout.read(size - len(content))
            if not piece:
                raise EOFError("the program has ended")
            content += piece
        return content

    def ask(self, content):
        """Sends a call, and returns its answer."""
        self.process.stdin.write(frame(content))
        return answer(self.read(int.from_bytes(self.read(4), "big")))


def main():
    """Runs the suite that is the main module."""
    if not CALLS_PROGRAM.is_file():
        sys.exit(f"no program at {CALLS_PROGRAM}: build it by `rt run` in crates/changeset_calls")
    unittest.main()

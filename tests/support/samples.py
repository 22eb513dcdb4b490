"""The small changesets, lines and error lines that several suites use."""
from support.stores import UNDEFINED, delete, header, insert, update

# The header of a table t of two columns, the first of them the key, and three changes of its
# row (1, 'x').
T = header("t", 1, 0)
INSERT = T + insert(1, "x")
DELETE = T + delete(1, "x")
UPDATE = T + update((1, "x"), (UNDEFINED, "y"))

# The header of a table n, whose second column refuses NULL, and an insert of a row that it refuses.
N = header("n", 1, 0)
NULL_INSERT = N + insert(1, None)

# The lines that make both tables.
CREATE = "CREATE TABLE t(a, b, PRIMARY KEY(a));"
CREATE_N = "CREATE TABLE n(a, b NOT NULL, PRIMARY KEY(a));"

STORE_FAULT = "error 38 StoreFault\n"
INPUT_FAULT = "error 71 InputFault\n"
OUTPUT_FAULT = "error 72 OutputFault\n"

# The integers 1 and 2 as fields.
K1, K2 = (b"\x01" + key.to_bytes(8, "big") for key in (1, 2))

# Files that are damaged in every way, by what they have.
TO_DAMAGE = {
    "an INSERT": INSERT,
    "a DELETE": T + delete(1, "x"),
    "an UPDATE": T + update((1, "x"), (UNDEFINED, "y")),
    "the least integer": T + b"\x12\x00\x01\x80" + bytes(7) + b"\x05",
    "a blob of 128 bytes": T + b"\x12\x00" + K1 + b"\x04\x81\x00" + bytes(128),
    "a key of two columns": b"\x54\x02\x02\x01k\x00\x12\x00" + K1 + K2,
    "two tables": header("z", 1, 0) + insert(1, "x") + INSERT,
    "an UPDATE to what was there": T + update((1, "x"), (UNDEFINED, "x")),
    "an UPDATE of nothing": T + b"\x17\x00" + K1 + b"\x00\x00\x00",
    "an entry of each operation": (
        T + insert(1, "x") + delete(2, "q") + b"\x17\x00\x01" + bytes(7) + b"\x03\x03\x01x\x00\x03\x01y"
    ),
}


def damaged(file):
    """The file cut at each place, and with each byte set to each other value."""
    yield from (file[:end] for end in range(len(file) + 1))
    for place, byte in enumerate(file):
        yield from (file[:place] + bytes([other]) + file[place + 1:] for other in range(256) if other != byte)

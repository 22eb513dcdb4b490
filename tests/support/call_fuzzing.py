"""Calls that are made from a seed, and compared with the model: each answer, byte by byte, and the
tables that are left.

A case depends only on the seed and its number. If an answer differs, the calls are left out that
the difference does not need.
"""
import argparse
import collections
import os
import random
import sys
import tempfile
import time

from support import fuzzing, reader
from support.calls import CALLS_PROGRAM, call, count, frame, frames, run_bytes, sized
from support.making import BLOBS, COLUMNS, NAMES, Maker
from support.model import NULL, Refusal, shown_tables
from support.service import ABORT, SESSION_CALLS, Service, found_bytes, key_values, listed, optional, rehearsed
from support.stores import read_store
from support.trials import shown_tables as shown_store

# How many calls a case has.
CALLS = 200

# One case in so many is of a store in a file.
IN_FILES = 4

# How many cases and calls there were, and how many of the cases in files.
counts = collections.Counter(cases=0, calls=0, files=0)


class Difference(AssertionError):
    """What the program answers otherwise, and calls that show it."""


class CallMaker(Maker):
    """Makes calls for the tables of a model."""

    def __init__(self, chance, service):
        super().__init__(chance)
        self.service = service

    def next(self):
        """A call or two of any form."""
        is_open = self.service.before is not None
        forms = ON_TABLES
        if self.is_one_in(4 if is_open else 9):
            forms = (CallMaker.transaction,)
        elif self.is_one_in(20 if is_open else 4):
            forms = (CallMaker.of_session,)
        made = self.pick(forms)(self)
        made = made if isinstance(made, list) else [made]
        return [self.damaged(one, made[0]) if self.is_one_in(30) else one for one in made]

    # ---- parts

    def named(self):
        """The bytes of the name of a table, and the table, or another one of no such name."""
        name, table = self.table(self.service.tables)
        return sized(name), table

    def values(self, values):
        """The bytes of a row or a key, rarely with a value more or less, or with NULL."""
        if self.is_one_in(20):
            values = self.pick(([*values, NULL], values[:-1], [NULL] * len(values)))
        return listed(values)

    def new_row(self, table):
        """The bytes of a row, which may be that of a key that is there."""
        row = [NULL] if table is None else self.row(table.flags)
        if table is not None and self.is_one_in(3):
            row = self.changed(table.flags, self.row_of(table))
        if table is not None and self.is_one_in(12):
            row = self.with_null(table, row)
        return self.values(row)

    def key(self, table):
        """The bytes of a key, mostly of a row that is there."""
        return self.values([] if table is None else list(key_values(table, self.row_of(table))))

    def file(self):
        """A changeset for the tables, or rarely a damaged one."""
        whole = reader.write(self.changeset_of(self.service.tables))
        return self.damaged(whole, self.pick(BLOBS)) if self.is_one_in(15) else whole

    def no_ops(self):
        return bytes([self.is_one_in(3)])

    def choice(self):
        return bytes([self.pick((0, 0, 0, 1, 1, 1, ABORT))])

    # ---- calls on tables

    def declare(self):
        columns = self.chance.sample(COLUMNS, self.pick((1, 2, 2, 3, 3)))
        if self.is_one_in(12):
            columns.append(self.pick(COLUMNS + (b"",)))
        marks = [self.pick((0, 0, 1, 2, 3)) for _ in columns]
        if not self.is_one_in(12):
            marks[self.chance.randrange(len(marks))] |= 1
        name = self.pick((b"", b"a\0b")) if self.is_one_in(40) else self.pick(NAMES[:6])
        return call("declare", sized(name), listed([sized(it) + bytes([mark]) for it, mark in zip(columns, marks)]))

    def tables_or_limits(self):
        return call(self.pick(("tables", "limits")))

    def of_table(self):
        return call(self.pick(("schema", "count")), self.named()[0])

    def get(self):
        name, table = self.named()
        return call("get", name, self.key(table))

    def rows(self):
        name, table = self.named()
        after = None if self.is_one_in(3) else self.key(table)
        return call("rows", name, optional(after, bytes), count(self.pick((0, 1, 2, 3, 5, 100))))

    def insert_or_put(self):
        name, table = self.named()
        return call(self.pick(("insert", "insert", "put")), name, self.new_row(table))

    def update_row(self):
        name, table = self.named()
        return call("update", name, self.key(table), self.new_row(table))

    def delete_row(self):
        name, table = self.named()
        return call("delete", name, self.key(table))

    # ---- calls on changesets

    def apply_file(self):
        return call("apply", sized(self.file()), self.no_ops(), b"".join(self.choice() for _ in range(4)))

    def revert(self):
        return call("revert", sized(self.file()))

    def rehearse_and_apply(self):
        """A rehearsal, and mostly an apply with choices for what it finds."""
        file, no_ops = self.file(), self.no_ops()
        try:
            found = list(rehearsed(self.service.tables, reader.Reader(file).groups(), no_ops[0]))
        except (reader.Fault, Refusal):
            found = []
        if found and self.is_one_in(9):
            found.remove(self.pick(found))
        choices = listed([found_bytes(one) + self.choice() for one in found])
        between = [self.insert_or_put()] if self.is_one_in(9) else []
        return [call("rehearse", sized(file), no_ops), *between, call("apply_chosen", sized(file), no_ops, choices)]

    # ---- calls on transactions and sessions

    def transaction(self):
        if self.service.before is None and not self.is_one_in(9):
            return call("begin")
        return call(self.pick(("commit", "commit", "roll_back", "begin")))

    def of_session(self):
        if self.service.session is None and not self.is_one_in(9):
            return call("open_session")
        name = self.pick(SESSION_CALLS + ("attach", "attach", "changeset"))
        return call(name, self.named()[0]) if name == "attach" else call(name)


ON_TABLES = (
    CallMaker.declare, CallMaker.tables_or_limits, CallMaker.of_table, CallMaker.get, CallMaker.rows,
    *4 * (CallMaker.insert_or_put,), *2 * (CallMaker.update_row,), CallMaker.delete_row, *2 * (CallMaker.apply_file,),
    *2 * (CallMaker.rehearse_and_apply,), CallMaker.revert,
)


def made_calls(seed, number):
    """The calls of a case, what the model answers to them, and the model after them."""
    service = Service()
    maker = CallMaker(random.Random(f"calls {seed} {number}"), service)
    asked, answers = [], []

    def add(calls):
        asked.extend(calls)
        answers.extend(map(service.answer, calls))

    add([maker.declare() for _ in range(4)])
    while len(asked) < CALLS:
        add(maker.next())
    add([call("rows", sized(name), b"\x00", count(1000)) for name in service.tables])
    return asked, answers, service


def run(calls, store):
    """How the program ends that answers calls: the exit status, its answers, and what follows them."""
    ended = run_bytes(store, b"".join(map(frame, calls)))
    answers, rest = frames(ended.stdout)
    return ended.returncode, answers, rest + ended.stderr


def differs(calls):
    """Whether the program answers calls otherwise than the model."""
    service = Service()
    return run(calls, ":memory:") != (0, list(map(service.answer, calls)), b"")


def described(asked, answers, told):
    """What differs of a run, and as few calls as still differ."""
    status, given, rest = told
    place = next((at for at, pair in enumerate(zip(answers, given)) if pair[0] != pair[1]), len(given))
    lines = [f"status {status}, {len(given)} answers of {len(asked)}, then {rest[-2000:]!r}"]
    if place < len(given):
        lines += [f"call {place}: {asked[place].hex()}", f"answer: {given[place].hex()}"]
        lines.append(f"the model's answer: {answers[place].hex()}")
    if differs(asked):
        lines += ["the least calls that differ:", *(one.hex() for one in fuzzing.least(asked[:place + 1], differs))]
    return "\n".join(lines)


def compare(seed, number):
    """Makes one case, and compares it."""
    asked, answers, service = made_calls(seed, number)
    is_in_file = number % IN_FILES == 0
    with tempfile.TemporaryDirectory() as folder:
        store = os.path.join(folder, "store") if is_in_file else ":memory:"
        told = run(asked, store)
        if told != (0, answers, b""):
            raise Difference(f"case {number} of seed {seed}: {described(asked, answers, told)}")
        if is_in_file and shown_store(read_store(store)) != shown_tables(service.committed()):
            raise Difference(f"case {number} of seed {seed}: the store has other tables")
    counts.update(cases=1, calls=len(asked), files=is_in_file)


def summary():
    """What was compared."""
    return "{cases} cases of calls, {files} in files, {calls} calls".format(**counts)


def main():
    """Compares cases until the time is up, or one differs."""
    parser = argparse.ArgumentParser(
        description="Compares the program changeset-calls with a model, on calls that are made from a seed."
    )
    parser.add_argument("--seconds", type=float, default=60)
    parser.add_argument("--seed", type=int, default=1)
    parser.add_argument("--case", type=int)
    words = parser.parse_args()
    if not CALLS_PROGRAM.is_file():
        sys.exit(f"no program at {CALLS_PROGRAM}: build it by `rt run` in crates/changeset_calls")
    end, number = time.monotonic() + words.seconds, words.case or 0
    while True:
        try:
            compare(words.seed, number)
        except Difference as difference:
            sys.exit(str(difference))
        number += 1
        if words.case is not None or time.monotonic() >= end:
            break
    print(summary())

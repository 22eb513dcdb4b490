#!/usr/bin/env python3
"""Several programs on one store, and programs that are killed.

While one program has the store open, another one gets StoreFault and changes nothing. After one is
killed, the next finds the tables before or after the line that ran. `support/shell.py` says which
tables lines make. The program has to be built first.
"""
import collections
import contextlib
import itertools
import os
import random
import signal
import sqlite3
import subprocess
import sys
import tempfile
import time

from support import programs
from support.faults import MarkedScript
from support.power import Story, files_of, found_by_sqlite, opened_again, script_run, tables_of
from support.program import PATIENCE, PROGRAM, main
from support.programs import StoreTest
from support.samples import CREATE, CREATE_N, DELETE, INSERT, NULL_INSERT, STORE_FAULT, UPDATE
from support.shell import Shell

REFUSED = (1, "", STORE_FAULT)

# How often two programs begin at once, how often one is killed, and how many lines its script has.
ROUNDS, KILLS, LINES = 50, 20, 400

# How many milliseconds one program begins behind another.
DELAYS = (0, 0, 1, 3, 6, 10, 20)

# What an apply prints that replaces a row.
REPLACED = "conflict 3 conflict replace 't'\napplied 1\n"

# A program that has SQLite write the store, until its standard input ends. It is one of its own,
# since a process that closes a file drops all locks that it has on it.
HOLDING = """
import sqlite3, sys
base = sqlite3.connect("store", isolation_level=None)
base.execute("BEGIN IMMEDIATE")
print("held", flush=True)
sys.stdin.read()
"""

# Pairs of scripts that begin at once on a store.
PAIRS = [
    ([CREATE, "INSERT INTO t VALUES(1, 'x');", "SELECT * FROM t;"], [CREATE, "INSERT INTO t VALUES(2, 'y');"]),
    (["INSERT INTO t VALUES(1, 'x');"], [f".load a {INSERT.hex()}", ".apply a", "SELECT * FROM t;"]),
    ([f".load a {INSERT.hex()}", ".apply a", ".revert a"], [f".load a {DELETE.hex()}", ".apply a notfound=omit"]),
    ([f".load a {UPDATE.hex()}", ".apply a", "SELECT * FROM t;"], ["SELECT * FROM t;", "DELETE FROM t WHERE a=1;"]),
    (
        [CREATE_N, "INSERT INTO n VALUES(2, NULL);"],
        [CREATE_N, f".load a {NULL_INSERT.hex()}", ".apply a constraint=omit"],
    ),
]

# The lines that have made the store before. Without a line there is no store yet.
FOUND = [[], [CREATE], [CREATE, "INSERT INTO t VALUES(1, 'x');"]]

counts = collections.Counter(refused=0, killed=0)


def script_of(lines):
    """Lines as the bytes of a script."""
    return "".join(line + "\n" for line in lines).encode()


def ends_of(found, pair):
    """All ways in which two programs may end that begin at once: one behind the other, or one
    alone; and the tables.
    """
    ends = []
    for order in [(0,), (1,), (0, 1), (1, 0)]:
        shell, ended = found, [REFUSED, REFUSED]
        for place in order:
            story = Story(opened_again(shell), pair[place])
            shell, (ended[place], _) = story.shells[-1], story.ended()
        ends.append((ended, tables_of(shell)))
    return ends


def long_lines():
    """Endless lines that write a table of ten rows. Some rows take pages of their own.
    """
    for key in itertools.count():
        yield f"INSERT INTO t VALUES({key}, X'{'00ff' * (key * 97 % 3000)}');"
        yield f"UPDATE t SET b='row {key}' WHERE a={key - key % 3};"
        if key >= 10:
            yield f"DELETE FROM t WHERE a={key - 10};"


class Processes(StoreTest):
    """Programs on one store."""

    @classmethod
    def tearDownClass(cls):
        print("{refused} refused of those that began at once, {killed} killed".format(**counts))

    def begin(self, script):
        """Begins a program that runs a script on the store."""
        with tempfile.TemporaryFile() as source:
            source.write(script)
            source.seek(0)
            pipes = {"stdin": source, "stdout": subprocess.PIPE, "stderr": subprocess.PIPE}
            return subprocess.Popen([PROGRAM, "store", "shell"], cwd=self.folder, **pipes)

    def end(self, child):
        """How a program ends that was begun."""
        printed, reported = child.communicate(timeout=PATIENCE)
        return child.returncode, printed.decode(), reported.decode()

    def left(self):
        """The tables that SQLite finds in the store."""
        return found_by_sqlite(files_of(self.folder))

    def expect_refusals(self):
        """Asserts that others are refused on the store, by lines, an apply and a listing, and leave
        its files.
        """
        before = files_of(self.folder)
        for words, lines in (
            (["store", "shell"], ["INSERT INTO t VALUES(9, 'z');", "CREATE TABLE u(a, PRIMARY KEY(a));"]),
            (["store", "shell"], ["SELECT * FROM t;"]), (["store", "shell"], []),
            (["link", "shell"], ["SELECT * FROM t;"]),
            (["a.cs", "apply", "store"], []), (["--conflict=replace", "a.cs", "apply", "link"], []),
        ):
            with self.subTest(words=words, lines=lines):
                self.assertEqual(self.run_program(*words, stdin=script_of(lines)), REFUSED)
        self.assertEqual(files_of(self.folder), before)

    def test_store_that_another_program_has_open(self):
        """Others are refused before and behind its lines, and in its session, and nothing of it is
        lost.
        """
        self.make("a.cs", INSERT)
        os.symlink("store", self.folder / "link")
        with self.dialogue("store", "shell") as first:
            for text, answer in (
                (CREATE + "\nINSERT INTO t VALUES(1, 'x');\nSELECT * FROM t;\n", "1|'x'\n"),
                (".session open\n.session attach t\nUPDATE t SET b='y' WHERE a=1;\nSELECT * FROM t;\n", "1|'y'\n"),
                (f".load a {INSERT.hex()}\n.apply a conflict=replace\n", REPLACED),
                ("INSERT INTO t VALUES(3, 'z');\n.session isempty\n", "0\n"),
            ):
                self.expect_answer(first, text, answer)
                self.expect_refusals()
            self.assertEqual(first.communicate(timeout=PATIENCE), (b"", b""))
            self.assertEqual(first.returncode, 0)
        (self.folder / "link").unlink()
        self.assertEqual(self.read_alone(), programs.tables_of((1, "x"), (3, "z")))

    def test_store_that_sqlite_has_open(self):
        """SQLite reports a locked store, and the program is refused while SQLite writes.
        """
        self.make("a.cs", INSERT)
        os.symlink("store", self.folder / "link")
        with self.dialogue("store", "shell") as first:
            self.expect_answer(first, CREATE + "\nSELECT * FROM t;\n.hex none\n", "error 62 EmptySlot\n")
            with contextlib.closing(sqlite3.connect(self.folder / "store", timeout=0)) as base:
                with self.assertRaisesRegex(sqlite3.OperationalError, "locked"):
                    base.execute("SELECT * FROM rec")
            first.communicate(timeout=PATIENCE)
        with subprocess.Popen(
            [sys.executable, "-c", HOLDING], cwd=self.folder, stdin=subprocess.PIPE, stdout=subprocess.PIPE
        ) as other:
            self.assertEqual(other.stdout.readline(), b"held\n")
            self.expect_refusals()
        (self.folder / "link").unlink()
        self.assertEqual(self.read(), programs.tables_of())

    def test_two_programs_that_begin_at_once(self):
        """One runs, and the other is refused or runs behind it."""
        chance = random.Random(ROUNDS)
        for number, (pair, lines) in zip(range(ROUNDS), itertools.cycle(itertools.product(PAIRS, FOUND))):
            with self.case(number=number):
                if lines:
                    self.assertEqual(self.run_program("store", "shell", stdin=script_of(lines)), (0, "", ""))
                first = self.begin(script_of(pair[0]))
                time.sleep(chance.choice(DELAYS) / 1000)
                second = self.begin(script_of(pair[1]))
                ended = [self.end(first), self.end(second)]
                self.assertIn((ended, self.left()), ends_of(Story(Shell(), lines).shells[-1], pair))
                counts["refused"] += REFUSED in ended

    def run_behind(self, run):
        """How a program ends that goes on behind a run, once that has let go of the store."""
        script = MarkedScript(run.behind)
        ended = REFUSED
        while ended == REFUSED:
            ended = self.run_program(*script.words, stdin=script.stdin)
        return ended

    def test_program_that_is_killed(self):
        """Another that begins at once finds what was answered, and goes on."""
        run = script_run([CREATE, *itertools.islice(long_lines(), LINES)])
        chance = random.Random(KILLS)
        for number in range(KILLS):
            with self.case(number=number):
                with self.begin(run.stdin) as first:
                    printed = first.stdout.read(chance.randrange(len(run.story.printed())))
                    first.kill()
                    again = self.run_behind(run)
                    printed += first.stdout.read()
                shells = run.story.may_stand(len(printed))
                self.assertTrue(run.story.printed().encode().startswith(printed))
                self.assertIn((again, self.left()), [run.going_on(shell).ended() for shell in shells])
                counts["killed"] += first.returncode == -signal.SIGKILL
        self.assertGreater(counts["killed"], 0)


if __name__ == "__main__":
    main()

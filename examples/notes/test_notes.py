#!/usr/bin/env python3
"""Tests of the editor of notes, in a terminal, as a person uses it: keys are typed, and the screen is read.

usage: examples/notes/test_notes.py [PROGRAM], where PROGRAM is the `changeset-calls` that is built
"""
import contextlib
import fcntl
import os
import pathlib
import pty
import re
import select
import signal
import sqlite3
import struct
import sys
import tempfile
import termios
import time
import unicodedata
import unittest

HERE = pathlib.Path(__file__).resolve().parent
ROOT = HERE.parents[1]
PROGRAM = ROOT / "crates/changeset_calls/out/changeset_calls"
sys.path.insert(0, str(ROOT / "bindings/python"))

import vollikash  # noqa: E402

# How many seconds a screen may take.
PATIENCE = 120

UP, DOWN, RIGHT, LEFT, HOME, END, DELETE = "\x1b[A", "\x1b[B", "\x1b[C", "\x1b[D", "\x1b[H", "\x1b[F", "\x1b[3~"
ENTER, ESCAPE, BACKSPACE = "\r", "\x1b", "\x7f"

# What a terminal is told: to go to a place, to empty a line, to make characters stand out, to be in a mode or not; or a
# character.
TOLD = re.compile(
    r"\x1b\[(?P<line>\d+);(?P<column>\d+)H|\x1b\[2(?P<empty>K)|\x1b\[\d+m|\x1b\[\?(?P<mode>\d+)(?P<set>[hl])|"
    r"(?P<one>[^\x1b])"
)


class Screen:
    """The screen of a terminal that an editor has for itself, as what was written to it has left it, and what was said
    before and behind it."""

    def __init__(self, lines, columns):
        self.cells = [[" "] * columns for _ in range(lines)]
        self.line = self.column = 0
        self.modes = set()
        self.rest = self.said = ""

    def write(self, text):
        """Takes what a program writes. Its last sequence may be incomplete."""
        text, at = self.rest + text, 0
        while at < len(text):
            found = TOLD.match(text, at)
            if found is None:
                break
            self.obey(found)
            at = found.end()
        self.rest = text[at:]
        if len(self.rest) > 16:
            raise AssertionError(f"{self.rest[:16]!r} is no sequence that this screen knows")

    def obey(self, found):
        """Does what one sequence or character says."""
        if found["line"]:
            self.line, self.column = int(found["line"]) - 1, int(found["column"]) - 1
        elif found["empty"]:
            self.cells[self.line] = [" "] * len(self.cells[self.line])
        elif found["mode"]:
            (self.modes.add if found["set"] == "h" else self.modes.discard)(int(found["mode"]))
        elif found["one"]:
            self.put(found["one"])

    def put(self, one):
        """Puts a character at the cursor. One that is wide takes two cells, and an accent none."""
        if 1049 not in self.modes:
            self.said += one
            return
        if unicodedata.combining(one):
            self.cells[self.line][self.column - 1] += one
            return
        if not one.isprintable():
            raise AssertionError(f"{one!r} is written as it is")
        self.cells[self.line][self.column] = one
        self.column += 1
        if unicodedata.east_asian_width(one) in "WF":
            self.cells[self.line][self.column] = ""
            self.column += 1

    def lines(self):
        """The lines, without blanks at their ends."""
        return ["".join(cells).rstrip() for cells in self.cells]


class Person:
    """A person in front of the editor on a file."""

    def __init__(self, path, lines=16, columns=72):
        self.screen = Screen(lines, columns)
        self.process, self.terminal = pty.fork()
        if self.process == 0:
            fcntl.ioctl(0, termios.TIOCSWINSZ, struct.pack("HHHH", lines, columns, 0, 0))
            os.chdir(os.path.dirname(path))
            environment = {**os.environ, "PYTHONPATH": str(ROOT / "bindings/python")}
            os.execve(sys.executable, [sys.executable, str(HERE / "notes.py"), os.path.basename(path)], environment)
        self.before = termios.tcgetattr(self.terminal)
        self.status = None

    def type(self, *keys):
        """Types keys, one behind the other."""
        for key in keys:
            os.write(self.terminal, key if isinstance(key, bytes) else key.encode())

    def read(self, seconds):
        """Reads what is written in this many seconds. Returns whether there may be more."""
        if not select.select([self.terminal], [], [], seconds)[0]:
            return True
        try:
            got = os.read(self.terminal, 1 << 16)
        except OSError:
            got = b""
        self.screen.write(got.decode())
        return got != b""

    def sees(self, *wanted, but=()):
        """Waits until the screen shows each of some texts, and none of others."""
        deadline = time.monotonic() + PATIENCE
        while True:
            shown = "\n".join(self.screen.lines())
            if all(text in shown for text in wanted) and not any(text in shown for text in but):
                return shown
            if time.monotonic() > deadline or not self.read(0.2):
                raise AssertionError(f"the screen shows not {wanted!r}, or {but!r}:\n{shown}\n{self.screen.said}")

    def expect_cursor(self, column):
        """Waits until the cursor is at a column of the screen."""
        deadline = time.monotonic() + PATIENCE
        while self.screen.column != column or 25 not in self.screen.modes:
            if time.monotonic() > deadline or not self.read(0.2):
                raise AssertionError(f"the cursor is at {self.screen.column}, and not at {column}")

    def notes(self):
        """The notes that the screen lists."""
        return re.findall(r"^[> ] +\d+  (.*)$", "\n".join(self.screen.lines()), re.MULTILINE)

    def resize(self, lines, columns):
        """Makes the window another size."""
        self.screen.cells = [[" "] * columns for _ in range(lines)]
        fcntl.ioctl(self.terminal, termios.TIOCSWINSZ, struct.pack("HHHH", lines, columns, 0, 0))

    def programs(self):
        """The processes of `changeset` programs that the editor runs, and that have not ended."""
        for path in pathlib.Path("/proc").glob("[0-9]*/stat"):
            with contextlib.suppress(OSError):
                state, parent = path.read_text().rsplit(")", 1)[1].split()[:2]
                if int(parent) == self.process and state != "Z":
                    yield int(path.parent.name)

    def kill_program(self):
        """Kills the `changeset` program that the editor runs, and waits until it has ended."""
        os.kill(next(self.programs()), signal.SIGKILL)
        while any(self.programs()):
            time.sleep(0.01)

    def wait(self):
        """Waits until the editor ends, and answers its exit status."""
        deadline = time.monotonic() + PATIENCE
        while self.status is None:
            with contextlib.suppress(OSError):
                self.read(0.05)
            ended, status = os.waitpid(self.process, os.WNOHANG)
            if ended:
                while self.read(0.05) and select.select([self.terminal], [], [], 0)[0]:
                    pass
                self.status = os.WEXITSTATUS(status) if os.WIFEXITED(status) else -os.WTERMSIG(status)
            elif time.monotonic() > deadline:
                raise AssertionError("the editor does not end")
        return self.status

    def leave(self):
        """Ends the editor, whatever it does."""
        if self.status is None:
            os.kill(self.process, signal.SIGKILL)
            os.waitpid(self.process, 0)
        os.close(self.terminal)


class Notes(unittest.TestCase):
    """What the editor shows, and what it leaves in the store."""

    def setUp(self):
        folder = tempfile.TemporaryDirectory()
        self.addCleanup(folder.cleanup)
        self.path = str(pathlib.Path(folder.name) / "notes.db")

    def person(self, **given):
        """A person who sees the first screen of the editor."""
        person = Person(self.path, **given)
        self.addCleanup(person.leave)
        person.sees("opened", "q quit")
        return person

    def expect_end(self, person, status):
        """Asserts that the editor ends, and leaves the terminal as it was before."""
        self.assertEqual(person.wait(), status)
        self.assertEqual((person.screen.modes, person.screen.said), ({25}, ""))
        self.assertEqual(termios.tcgetattr(person.terminal), person.before)

    def quit(self, person):
        """Quits."""
        person.type("q")
        self.expect_end(person, 0)

    def expect_stored(self, *rows):
        """Asserts which notes the file holds, as another program finds them."""
        with contextlib.closing(sqlite3.connect(self.path)) as base:
            self.assertEqual(base.execute("PRAGMA integrity_check").fetchone(), ("ok",))
            self.assertEqual(base.execute("SELECT count(*) FROM rec WHERE tab = 'notes'").fetchone(), (len(rows),))
        with vollikash.open(self.path) as store:
            self.assertEqual(list(store.rows("notes")), list(rows))

    def test_each_action(self):
        """Notes are added, changed and deleted; each action is undone and done again."""
        person = self.person()
        person.type("a", "buy milk", ENTER)
        person.sees("> ", "1  buy milk", "note 1 added", "notes: 1  to undo: 1  to redo: 0")
        person.type("a", "call the plumber", ENTER)
        person.sees("note 2 added", "2  call the plumber")
        person.type("e", " on Monday", ENTER)
        person.sees("note 2 changed", "2  call the plumber on Monday")
        person.type(UP, "d")
        person.sees("note 1 deleted", "notes: 1  to undo: 4  to redo: 0", but=["buy milk"])
        for what, notes in (
            ("note 1 deleted", ["buy milk", "call the plumber on Monday"]),
            ("note 2 changed", ["buy milk", "call the plumber"]),
            ("note 2 added", ["buy milk"]),
            ("note 1 added", []),
        ):
            person.type("u")
            person.sees(f"undo: {what}")
            self.assertEqual(person.notes(), notes)
        for what, notes in (
            ("note 1 added", ["buy milk"]),
            ("note 2 added", ["buy milk", "call the plumber"]),
            ("note 2 changed", ["buy milk", "call the plumber on Monday"]),
            ("note 1 deleted", ["call the plumber on Monday"]),
        ):
            person.type("r")
            person.sees(f"redo: {what}")
            self.assertEqual(person.notes(), notes)
        person.type("u")
        person.sees("undo: note 1 deleted", "> ")
        self.quit(person)
        self.expect_stored((1, "buy milk"), (2, "call the plumber on Monday"))

    def test_the_notes_survive(self):
        """And the history does not."""
        person = self.person()
        person.type("a", "stays", ENTER)
        person.sees("note 1 added")
        self.quit(person)
        person = self.person()
        person.sees("1  stays", "notes: 1  to undo: 0  to redo: 0")
        person.type("u")
        person.sees("refused: there is nothing to undo")
        person.type("r")
        person.sees("refused: there is nothing to redo")
        person.type(DOWN)
        person.sees(but=["refused"])
        self.quit(person)

    def test_an_action_behind_an_undo(self):
        """What was undone cannot be done again behind it; what changes nothing is no action."""
        person = self.person()
        person.type("a", "one", ENTER, "a", "two", ENTER, "u", "a", "three", ENTER)
        person.sees("2  three", "to undo: 2  to redo: 0", but=["two"])
        person.type("e", ENTER)
        person.sees("nothing changed", "to undo: 2  to redo: 0")
        self.quit(person)
        self.expect_stored((1, "one"), (2, "three"))

    def test_no_notes(self):
        person = self.person()
        for key in ("e", "d"):
            person.type(key)
            person.sees("refused: there is no note")
            person.type(UP)
            person.sees(but=["refused"])
        person.type("?", "\x01", ESCAPE)
        self.quit(person)
        self.expect_stored()

    def test_line_feeds(self):
        """A line feed that is typed or pasted is spelled, and kept."""
        person = self.person()
        person.type("a", "one", "\n", "two")
        person.sees(r"new note: one\ntwo")
        person.type(ENTER)
        person.sees("note 1 added", r"1  one\ntwo", but=["refused"])
        person.type("e", LEFT, LEFT, LEFT, BACKSPACE, " ", ENTER)
        person.sees("note 1 changed", "1  one two")
        person.type("a", "\x1b[200~x\ry\x1b[201~", ENTER)
        person.sees("note 2 added", r"2  x\ny", "to undo: 3")
        person.type("u", "u", "r", "r")
        person.sees("redo: note 2 added", "1  one two", r"2  x\ny")
        self.quit(person)
        self.expect_stored((1, "one two"), (2, "x\ny"))

    def test_what_is_no_text(self):
        """Bytes that are not UTF-8 are spelled, and refused; a tab is kept, and spelled."""
        person = self.person()
        person.type("a", b"a\xffb", ENTER)
        person.sees(r"new note: a\udcffb", "refused: ", "is not Unicode")
        person.type(BACKSPACE, BACKSPACE, "\t'|", ENTER)
        person.sees(r"1  a\t'|")
        self.quit(person)
        self.expect_stored((1, "a\t'|"))

    def test_writing(self):
        """The keys that move in a text, and characters of each width."""
        person = self.person()
        person.type("a", "bcd", HOME, BACKSPACE, "a", END, DELETE, "f", LEFT, "e")
        person.type(HOME, DELETE, RIGHT, RIGHT, BACKSPACE, ENTER)
        person.sees("1  bdef")
        person.type("a", "日本 e\u0301 ü")
        person.sees("new note: 日本 e\u0301 ü")
        person.expect_cursor(len("new note: ") + 8)
        person.type(LEFT, LEFT, LEFT, LEFT, BACKSPACE, BACKSPACE, "!", ENTER)
        person.sees("2  日!e\u0301 ü")
        person.type("e", "never", ESCAPE)
        person.sees("to undo: 2", but=["never"])
        self.quit(person)
        self.expect_stored((1, "bdef"), (2, "日!e\u0301 ü"))

    def test_a_long_text(self):
        """A text that is longer than the screen is shown around the cursor."""
        person = self.person()
        text = "".join(f"{count:03} " for count in range(100))
        person.type("a", text)
        person.sees("new note: ", "099", but=["000"])
        person.type(HOME)
        person.sees("new note: 000 001", but=["099"])
        person.type(ENTER)
        person.sees("1  000 001", but=["new note"])
        self.quit(person)
        self.expect_stored((1, text))

    def test_many_notes(self):
        """A list that is longer than the screen is shown around the chosen note, in each size of a window."""
        with vollikash.open(self.path) as store:
            store.create("notes", ["number", "text"], key=["number"])
            for number in range(1, 41):
                store.insert("notes", number, f"note of {number}")
        person = self.person()
        person.sees("> ", "note of 9", but=["note of 10"])
        person.type(*[DOWN] * 50)
        person.sees("40  note of 40", but=["note of 31"])
        person.resize(10, 40)
        person.sees("40  note of 40", "38  note of 38", but=["note of 37"])
        person.resize(30, 90)
        person.type(*[UP] * 50)
        person.sees("  1  note of 1\n", "23  note of 23", but=["note of 24"])
        person.resize(3, 5)
        person.type("d")
        person.resize(16, 72)
        person.sees("note 1 deleted", "note of 2", but=["note of 1\n"])
        self.quit(person)

    def test_a_program_that_ends(self):
        """The action is refused, and the next one is done; what meets other rows than it left is refused."""
        person = self.person()
        person.type("a", "one", ENTER, "a", "two", ENTER)
        person.sees("note 2 added")
        person.kill_program()
        person.type("d")
        person.sees("refused: the program has ended", "2  two")
        person.type("d")
        person.sees("note 2 deleted", but=["refused"])
        person.kill_program()
        with vollikash.open(self.path) as store:
            store.insert("notes", 2, "from elsewhere")
        person.type("u")
        person.sees("refused: the program has ended", "2  from elsewhere")
        person.type("u")
        person.sees("refused: Abort: a conflict of the kind conflict in table 'notes', key", "to undo: 3")
        person.type("d", "u")
        person.sees("undo: note 2 deleted", "2  from elsewhere", but=["refused"])
        self.quit(person)
        self.expect_stored((1, "one"), (2, "from elsewhere"))

    def expect_no_editor(self, said):
        """Asserts that the editor ends, and says this alone."""
        person = Person(self.path, columns=160)
        self.addCleanup(person.leave)
        self.assertEqual((person.wait(), person.screen.said), (1, said))

    def test_a_store_that_is_open(self):
        with vollikash.open(self.path):
            why = "'notes.db' is in use by another program or connection"
            self.expect_no_editor(f"notes.py: notes.db: StoreFault: {why}\r\n")

    def test_another_table(self):
        with vollikash.open(self.path) as store:
            store.create("notes", ["a"], key=["a"])
            store.insert("notes", 1)
        self.expect_no_editor("notes.py: notes.db: TableExists: there is a table 'notes'\r\n")

    def test_other_rows(self):
        with vollikash.open(self.path) as store:
            store.create("notes", ["number", "text"], key=["number"])
            store.insert("notes", 1, None)
        self.expect_no_editor("notes.py: notes.db: the table notes holds (1, None), which is no note\r\n")

    def test_signals(self):
        """The terminal is given back where the editor is asked to end."""
        person = self.person()
        os.kill(person.process, signal.SIGTERM)
        self.expect_end(person, 1)
        person = self.person()
        person.type("a", "\x03")
        self.expect_end(person, 0)

    def test_picture(self):
        """The picture of the examples' README is the screen."""
        person = self.person(lines=10, columns=72)
        person.type("a", "buy milk", ENTER, "a", "call the plumber", ENTER, "u", "r", "a", "two", "\n", "lines", ENTER)
        person.sees("note 3 added")
        picture = "".join(f"{line}\n" for line in person.screen.lines())
        readme = (ROOT / "examples/README.md").read_text()
        self.assertTrue(f"```text\n{picture}```\n" in readme, f"examples/README.md does not have\n{picture}")


if __name__ == "__main__":
    if sys.argv[1:2] and not sys.argv[1].startswith("-"):
        PROGRAM = pathlib.Path(sys.argv.pop(1)).resolve()
    os.environ["VOLLIKASH_CALLS"] = str(PROGRAM)
    unittest.main()

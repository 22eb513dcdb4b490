#!/usr/bin/env python3
"""Tests of the editor of lines in C: in a terminal, as a person uses it, and stopped at each call by
which it writes its file. The C library has to be built.

usage: examples/editor/test_editor.py
"""
import contextlib
import errno
import os
import pathlib
import pty
import random
import signal
import sqlite3
import subprocess
import sys
import tempfile
import time
import unittest

HERE = pathlib.Path(__file__).resolve().parent
TOP = HERE.parents[1]
LIBRARY = TOP / "bindings/c"
ARCHIVE = LIBRARY / "out/libvollikash.a"
sys.path.insert(0, str(TOP / "tests"))

from support.program import PROGRAM  # noqa: E402

# How many seconds a run may take.
PATIENCE = 60

PROMPT = b"> "


def setUpModule():
    """Build the editor, as it is and with the sanitizers, and what refuses calls."""
    global EDITOR, SANITIZED, REFUSE
    folder = tempfile.TemporaryDirectory()
    unittest.addModuleCleanup(folder.cleanup)
    source, linked = HERE / "editor.c", (f"-I{LIBRARY}", "-O2")
    EDITOR = folder.name + "/editor"
    SANITIZED = folder.name + "/editor-sanitized"
    REFUSE = folder.name + "/refuse.so"
    build(EDITOR, *linked, source, ARCHIVE)
    build(SANITIZED, *linked, "-g", "-fsanitize=address,undefined", "-fno-sanitize-recover=all", source, ARCHIVE)
    subprocess.run(["cc", "-shared", "-fPIC", TOP / "tests/refuse.c", "-ldl", "-o", REFUSE], check=True)


def build(path, *words):
    """Compile a program."""
    flags = ("-std=c11", "-Wall", "-Wextra", "-Werror", "-pedantic")
    subprocess.run(list(map(str, ("cc", *flags, *words, "-o", path))), check=True, timeout=PATIENCE)


def run(path, *commands, editor=None, **changed):
    """Give commands to an editor, and return its status and what it has printed after each."""
    ran = subprocess.run(
        [editor or EDITOR, path], input="".join(f"{it}\n" for it in commands), capture_output=True, text=True,
        env={**os.environ, **changed}, timeout=PATIENCE, check=False,
    )
    return ran.returncode, ran.stdout.split("> ")[1:-1] if commands else [], ran.stderr


def lines_of(path):
    """Return the lines that the command reads in a file."""
    ran = subprocess.run(
        [PROGRAM, path, "shell"], input=b"SELECT * FROM lines;\n", capture_output=True, timeout=PATIENCE, check=True
    )
    return ran.stdout.decode()


class Terminal:
    """An editor in a terminal."""

    def __init__(self, path, editor=None):
        self.child, self.terminal = pty.fork()
        if self.child == 0:
            # A shell may have the programs that it runs in the background ignore these.
            for number in (signal.SIGINT, signal.SIGHUP):
                signal.signal(number, signal.SIG_DFL)
            os.execv(editor or EDITOR, ["editor", str(path)])
        self.expect()

    def expect(self):
        """Read up to the next prompt, and return what came before it."""
        got = b""
        while not got.endswith(PROMPT):
            got += os.read(self.terminal, 65536)
        return got[:-len(PROMPT)].decode().replace("\r\n", "\n")

    def type(self, line):
        """Type a line, and return what is printed then. The terminal echoes it first."""
        os.write(self.terminal, line.encode() + b"\n")
        printed = self.expect()
        assert printed.startswith(line + "\n"), printed
        return printed[len(line) + 1:]

    def end(self, keys=b"Q\n", number=None):
        """Type keys, or send a signal, and return how the editor ended."""
        if number is None:
            os.write(self.terminal, keys)
        else:
            os.kill(self.child, number)
        with contextlib.suppress(OSError):  # a terminal whose program has ended
            while os.read(self.terminal, 65536):
                pass
        os.close(self.terminal)
        return os.waitpid(self.child, 0)[1]


class Editor(unittest.TestCase):
    """What the editor does."""

    def setUp(self):
        folder = tempfile.TemporaryDirectory()
        self.addCleanup(folder.cleanup)
        self.folder = pathlib.Path(folder.name)
        self.path = self.folder / "text"

    def test_terminal(self):
        for editor in (EDITOR, SANITIZED):
            with self.subTest(editor):
                self.path.unlink(missing_ok=True)
                terminal = Terminal(self.path, editor)
                for line in ("a one", "a three", "i 2 two", "c 1 uno"):
                    self.assertEqual(terminal.type(line), "")
                self.assertEqual(terminal.type("p"), "1  uno\n2  two\n3  three\n")
                terminal.type("d 2")
                self.assertEqual(terminal.type("p"), "1  uno\n2  three\n")
                terminal.type("u")
                terminal.type("u")
                self.assertEqual(terminal.type("p"), "1  one\n2  two\n3  three\n")
                terminal.type("r")
                self.assertEqual(terminal.type("p"), "1  uno\n2  two\n3  three\n")
                self.assertEqual(terminal.type("q"), "? not written: w, or Q to quit\n")
                self.assertRegex(terminal.type("w"), r"^\d+ bytes\n$")
                self.assertEqual(terminal.end(b"q\n"), 0)
                self.assertEqual(lines_of(self.path), "1|'uno'\n2|'two'\n3|'three'\n")
                terminal = Terminal(self.path, editor)
                self.assertEqual(terminal.type("p"), "1  uno\n2  two\n3  three\n")
                self.assertEqual(terminal.type("u"), "? nothing to undo\n")
                self.assertEqual(terminal.end(b"\x04"), 0)

    def test_any_depth(self):
        """As many commands are undone and done again as there are."""
        made = random.Random(5)
        lines, commands, states = [], [], [""]
        for number in range(150):
            if made.random() < 0.3 and lines:
                at = made.randrange(len(lines))
                commands.append(f"d {at + 1}")
                del lines[at]
            elif made.random() < 0.5 and lines:
                at = made.randrange(len(lines))
                commands.append(f"i {at + 1} line {number}")
                lines.insert(at, f"line {number}")
            else:
                commands.append(f"a line {number}")
                lines.append(f"line {number}")
            states.append("".join(f"{at}  {line}\n" for at, line in enumerate(lines, 1)))
        back = ["u", "p"] * 150 + ["r", "p"] * 150
        for editor in (EDITOR, SANITIZED):
            status, printed, said = run(self.path, *commands, *back, "u", "r", "r", editor=editor)
            self.assertEqual((status, said), (0, ""))
            shown = printed[len(commands):]
            self.assertEqual(shown[1:300:2], states[-2::-1])
            self.assertEqual(shown[301:600:2], states[1:])
            self.assertEqual(shown[600:], ["", "", "? nothing to redo\n"])

    def test_errors(self):
        status, printed, _ = run(
            self.path, "d 1", "i 1 x", "a x", "c 7 y", "a \udcff".encode(errors="surrogateescape").decode("latin-1"), "",
            "x", "r", "c 1 x", "u", "u",
        )
        self.assertEqual(status, 0)
        self.assertEqual(printed[:4], ["? there is no row with this key\n"] * 2 + ["", "? there is no row with this key\n"])
        self.assertIn("u: undo", printed[5])
        self.assertEqual(printed[7], "? nothing to redo\n")
        # A change to the same text is none.
        self.assertEqual(printed[8:], ["", "", ""])

    def test_written_file_is_known(self):
        """What was written, undone and changed is not what is written."""
        _, printed, _ = run(self.path, "a x", "w", "u", "a y", "q", "u", "q", "w", "r", "q", "u", "q")
        self.assertEqual([it for it in printed if it.startswith("?")], ["? not written: w, or Q to quit\n"] * 3)
        self.assertEqual(lines_of(self.path), "")

    def test_other_tables(self):
        """A store whose table has other columns is refused, and a line that is no text is shown so."""
        for number, lines in enumerate((b"CREATE TABLE lines(at, PRIMARY KEY(at));", b"CREATE TABLE t(a, PRIMARY KEY(a));")):
            path = self.folder / f"store{number}"
            subprocess.run([PROGRAM, path, "shell"], input=lines + b"\n", capture_output=True, check=True)
            for editor in (EDITOR, SANITIZED):
                self.assertEqual(run(path, "p", editor=editor)[::2], (1, ""))
        run(self.path, "a x", "w")
        subprocess.run([PROGRAM, self.path, "shell"], input=b"UPDATE lines SET text=7 WHERE at=1;\n", check=True)
        self.assertEqual(run(self.path, "p", editor=SANITIZED), (0, ["1  ?\n"], ""))

    def test_other_program(self):
        """A log next to the file keeps it from being read and written."""
        run(self.path, "a x", "w")
        old = self.path.read_bytes()
        for suffix in ("-journal", "-wal"):
            log = self.folder / f"text{suffix}"
            log.write_bytes(bytes(600))
            self.assertEqual(run(self.path, "p")[0], 1)
            log.unlink()
            terminal = Terminal(self.path)
            log.write_bytes(bytes(600))
            terminal.type("a y")
            self.assertEqual(terminal.type("w"), f"? another program has {self.path}\n")
            self.assertEqual(terminal.end(), 0)
            self.assertEqual(self.path.read_bytes(), old)
            log.unlink()

    def test_files_that_are_no_store(self):
        self.path.write_bytes(b"no database, but more than some bytes")
        self.assertEqual(run(self.path, "p")[0], 1)
        with contextlib.closing(sqlite3.connect(self.path.with_name("open"))) as base:
            base.executescript("PRAGMA journal_mode = WAL; CREATE TABLE t(a)")
            self.assertEqual(run(self.path.with_name("open"), "p")[0], 1)
        self.assertEqual(run(self.folder, "p")[0], 1)

    def test_stopped_at_each_call(self):
        """Each call by which the file is written ends the editor, or fails. The file is the old one or the new one."""
        run(self.path, "a old", "w")
        old, written = self.path.read_bytes(), "1|'old'\n2|'new'\n"
        for call, count in (("open", 6), ("write", 12), ("fsync", 4), ("close", 8), ("rename", 3)):
            for answer in (-1, errno.EIO, errno.ENOSPC):
                states = set()
                for at in range(1, count):
                    self.path.write_bytes(old)
                    refused = {"REFUSE_CALL": call, "REFUSE_AT": at, "REFUSE_WITH": answer, "LD_PRELOAD": REFUSE}
                    run(self.path, "a new", "w", **{name: str(it) for name, it in refused.items()})
                    left = lines_of(self.path)
                    states.add(left)
                    with self.subTest(call=call, answer=answer, at=at):
                        self.assertIn(left, ("1|'old'\n", written))
                with self.subTest(call=call, answer=answer):
                    self.assertEqual(len(states), 2, "no call, or each one, is refused")

    def test_killed_at_any_moment(self):
        """The file has a number of lines that was written."""
        made = random.Random(3)
        run(self.path, "w")
        for _ in range(40):
            before = lines_of(self.path).count("\n")
            process = subprocess.Popen([EDITOR, self.path], stdin=subprocess.PIPE, stdout=subprocess.DEVNULL)
            with contextlib.suppress(BrokenPipeError):
                process.stdin.write(b"a line\nw\n" * 200)
                process.stdin.flush()
            time.sleep(made.random() * 0.03)
            process.kill()
            process.communicate()
            left = lines_of(self.path)
            self.assertGreaterEqual(left.count("\n"), before)
            self.assertEqual(left, "".join(f"{at}|'line'\n" for at in range(1, left.count("\n") + 1)))

    def test_interrupted(self):
        """Ctrl-C and a closed terminal end the editor. The file is as it was written."""
        for number in (signal.SIGINT, signal.SIGHUP):
            terminal = Terminal(self.path)
            terminal.type("a kept")
            terminal.type("w")
            terminal.type("a lost")
            self.assertEqual(os.WTERMSIG(terminal.end(number=number)), number)
        self.assertEqual(lines_of(self.path), "1|'kept'\n2|'kept'\n")


if __name__ == "__main__":
    if not ARCHIVE.is_file():
        sys.exit(f"no library at {ARCHIVE}: build it by `make -C bindings/c`")
    sys.exit(unittest.main())

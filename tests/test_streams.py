#!/usr/bin/env python3
"""Failing standard streams: a read fails after each byte of a script, and a write stops at each
byte of the output.

A pipe in packet mode hands each piece to one read. `refuse.c` lets one read fail, and a limit on
the size of files stops the output. The program has to be built first.
"""
import errno
import os
import pathlib
import resource
import signal
import subprocess
import tempfile
import threading
import unittest

from support.call_trials import BEGIN, COMMIT, DECLARE, TABLE, insert
from support.calls import CALLS_PROGRAM, call, count, frame
from support.program import PATIENCE, PROGRAM, main
from support.samples import INPUT_FAULT, OUTPUT_FAULT
from support.service import Service, served
from support.trials import build_shim

# A script of tables, a changeset and a session: its lines, each with what it prints.
LINES = (
    ("CREATE TABLE t(a, b, PRIMARY KEY(a));", ""),
    ("INSERT INTO t VALUES(1,'z');", ""),
    (".session open", ""),
    (".session attach t", ""),
    ("INSERT INTO t VALUES(2,'w');", ""),
    (".load a 5402010074001200010000000000000001030178", ""),
    (".apply a conflict=replace", "conflict 3 conflict replace 't'\napplied 1\n"),
    (".apply a", "error 41 Abort conflict 't'\n"),
    ("INSERT INTO t VALUES(2,'v');", "error 33 KeyTaken\n"),
    ("SELECT * FROM t;", "1|'x'\n2|'w'\n"),
    (".session undo", "applied 2\n"),
    ("SELECT * FROM t;", "1|'z'\n"),
    (".session changeset c", ""),
    (".hex c", "\n"),
)
SCRIPT = "".join(f"{line}\n" for line, _ in LINES).encode()
PRINTED = "".join(printed for _, printed in LINES).encode()

# Calls in frames, and the frames of their answers.
ASKED = b"".join(map(frame, [
    DECLARE, BEGIN, insert(1, "x"), COMMIT, insert(1, "z"), call("rows", TABLE, b"\x00", count(2)), b"\x63", b"",
]))
ANSWERED = served(Service(), ASKED)[0]


def printed_for(count):
    """What is printed for the lines that end in the first bytes of the script."""
    return "".join(printed for _, printed in LINES[: SCRIPT[:count].count(b"\n")]).encode()


def feed(descriptor, pieces):
    """Writes pieces to a pipe in packet mode, where each read gets one of them."""
    try:
        for piece in pieces:
            os.write(descriptor, piece)
    except BrokenPipeError:
        pass
    finally:
        os.close(descriptor)


def stop_at(count):
    """Lets no file grow beyond this many bytes."""
    signal.signal(signal.SIGXFSZ, signal.SIG_IGN)
    resource.setrlimit(resource.RLIMIT_FSIZE, (count, count))


CALLS_WORDS = (str(CALLS_PROGRAM), ":memory:")
NEEDS_CALLS = unittest.skipUnless(CALLS_PROGRAM.exists(), "the program changeset-calls is not built")


class Streams(unittest.TestCase):
    """Scripts and calls on a store in memory, or in a file."""

    @classmethod
    def setUpClass(cls):
        cls.kept = tempfile.TemporaryDirectory()
        cls.addClassCleanup(cls.kept.cleanup)
        cls.folder = pathlib.Path(cls.kept.name)
        cls.shim = build_shim(cls.kept.name)

    def run_pieces(self, pieces, failing=None, words=(PROGRAM,)):
        """Runs a script that comes in pieces, where one read fails, from 1; its status, output and
        errors.
        """
        reading, writing = os.pipe2(os.O_DIRECT)
        feeding = threading.Thread(target=feed, args=(writing, pieces))
        refusing = {
            "REFUSE_CALL": "read", "REFUSE_AT": str(failing), "REFUSE_WITH": str(errno.EIO), "LD_PRELOAD": self.shim
        }
        with os.fdopen(reading, "rb") as stdin:
            child = subprocess.Popen(
                words, stdin=stdin, stdout=subprocess.PIPE, stderr=subprocess.PIPE,
                env={**os.environ, **(refusing if failing else {})},
            )
        feeding.start()
        printed, reported = child.communicate(timeout=PATIENCE)
        feeding.join()
        return child.returncode, printed, reported.decode()

    def test_pieces_of_a_line(self):
        script = b".hex q\n-- .hex"
        refused = b"error 62 EmptySlot\n"
        for pieces in ([script], [script[i : i + 1] for i in range(len(script))], [script[:3], script[3:]]):
            self.assertEqual(self.run_pieces(pieces), (1, refused, ""))
        pieces = [script[i : i + 1] for i in range(len(script))]
        self.assertEqual(self.run_pieces(pieces, len(script)), (1, refused, INPUT_FAULT))

    def test_answers_lines_until_a_read_fails(self):
        for count in range(len(SCRIPT) + 1):
            pieces = [SCRIPT[i : i + 1] for i in range(count)]
            with self.subTest(count=count):
                self.assertEqual(self.run_pieces(pieces, count + 1), (1, printed_for(count), INPUT_FAULT))

    def run_stopped(self, words, stdin, count):
        """Runs a program whose output ends after so many bytes; its status, output and errors."""
        with open(self.folder / "out", "wb") as out:
            done = subprocess.run(
                words, input=stdin, stdout=out, stderr=subprocess.PIPE, timeout=PATIENCE,
                preexec_fn=lambda: stop_at(count),
            )
        return done.returncode, (self.folder / "out").read_bytes(), done.stderr.decode()

    def test_answers_lines_until_a_write_fails(self):
        for count in range(len(PRINTED) + 1):
            with self.subTest(count=count):
                reported = OUTPUT_FAULT if count < len(PRINTED) else ""
                self.assertEqual(self.run_stopped([PROGRAM], SCRIPT, count), (1, PRINTED[:count], reported))

    @NEEDS_CALLS
    def test_answers_calls_until_a_read_fails(self):
        for end in range(len(ASKED) + 1):
            pieces = [ASKED[i : i + 1] for i in range(end)]
            with self.subTest(end=end):
                answered = served(Service(), ASKED[:end])[0]
                self.assertEqual(self.run_pieces(pieces, end + 1, CALLS_WORDS), (1, answered, ""))

    @NEEDS_CALLS
    def test_answers_calls_until_a_write_fails(self):
        for end in range(len(ANSWERED) + 1):
            with self.subTest(end=end):
                status = int(end < len(ANSWERED))
                self.assertEqual(self.run_stopped(CALLS_WORDS, ASKED, end), (status, ANSWERED[:end], ""))

    @NEEDS_CALLS
    def test_pieces_of_a_call(self):
        for cuts in ([len(ASKED)], range(1, len(ASKED) + 1), [3, 5, len(ASKED)]):
            pieces = [ASKED[start:end] for start, end in zip([0, *cuts], cuts)]
            self.assertEqual(self.run_pieces(pieces, words=CALLS_WORDS), (0, ANSWERED, ""))

    @unittest.skipUnless(os.path.exists("/dev/full"), "no /dev/full")
    def test_runs_no_line_after_a_failed_write(self):
        store = self.folder / "store"
        with open("/dev/full", "wb") as full:
            done = subprocess.run(
                [PROGRAM, store, "shell"], input=b".hex q\nCREATE TABLE t(a, PRIMARY KEY(a));\n", stdout=full,
                stderr=subprocess.PIPE, timeout=PATIENCE,
            )
        self.assertEqual((done.returncode, done.stderr.decode()), (1, OUTPUT_FAULT))
        done = subprocess.run(
            [PROGRAM, store, "shell"], input=b"SELECT * FROM t;\n", capture_output=True, timeout=PATIENCE
        )
        self.assertEqual(done.stdout, b"error 31 NoTable\n")


if __name__ == "__main__":
    main()

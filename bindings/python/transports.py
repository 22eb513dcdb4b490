"""The tests of stores over both of their transports: the program, and the library in this process."""
import itertools
import pathlib
import sys
import tempfile
import unittest

from vollikash import _memory, _process


def interrupted(call, function, number):
    """Makes a call with Ctrl-C at a line that a function runs, counted from 0. Returns the
    exception, or None if there are fewer lines.
    """
    lines = itertools.count()

    def trace(frame, event, _):
        if frame.f_code is not function.__code__:
            return None
        if event == "line" and next(lines) == number:
            raise KeyboardInterrupt
        return trace

    before = sys.gettrace()
    sys.settrace(trace)
    try:
        call()
    except KeyboardInterrupt as error:
        return error
    finally:
        sys.settrace(before)
    return None


class Folder(unittest.TestCase):
    """A folder for each test. New stores are in files there, so a program answers their calls."""

    transport = _process.Process

    def setUp(self):
        folder = tempfile.TemporaryDirectory()
        self.addCleanup(folder.cleanup)
        self.folder = pathlib.Path(folder.name)
        self.numbers = itertools.count()

    def new(self):
        """The path of a new store."""
        return self.folder / f"new{next(self.numbers)}.db"


class InProcess:
    """Tests whose new stores are in memory, so the library answers their calls in this process."""

    transport = _memory.Memory

    def new(self):
        return ":memory:"

"""Scripts on stores and commands on files, and how they may end if a call on a file fails."""
import copy
import errno
import os
import shutil
import sqlite3
import tempfile

from support.model import shown_tables
from support.samples import CREATE, INPUT_FAULT, OUTPUT_FAULT, STORE_FAULT
from support.shell import Shell
from support.trials import SCRIPTS, Command, Script, run


# What a call answers: that it is interrupted, that it moves one byte, an error, or nothing, since
# the process ends.
INTERRUPTED, ONE_BYTE, ENDED = errno.EINTR, 0, -1
ERRORS = (errno.EIO, errno.ENOSPC)

# The calls of a disk: from the refused one on, each of them is.
DISK = "disk"

# The calls that are refused, and with what.
MOVING = ("read", "pread", "write", "pwrite")
SYNCING = ("fsync", "fdatasync", "ftruncate")
NAMING = ("open", "close", "rename", "unlink", "statx", "fcntl")
ANSWERS = {
    **{call: (*ERRORS, ENDED, INTERRUPTED, ONE_BYTE) for call in MOVING},
    **{call: (*ERRORS, ENDED, INTERRUPTED) for call in SYNCING},
    **{call: (*ERRORS, ENDED) for call in NAMING},
    DISK: (errno.EIO,),
}

LARGE = "00ff" * 3000

STORE_SCRIPTS = {
    "a line of each form": SCRIPTS["a line of each form"],
    "conflicts in a session": SCRIPTS["conflicts in a session"],
    "rows of several pages": [
        CREATE, *(f"INSERT INTO t VALUES({key}, X'{LARGE}');" for key in range(4)), "UPDATE t SET b='short' WHERE a=1;",
        "DELETE FROM t WHERE a=2;", ".session open", ".session attach t", "DELETE FROM t WHERE a=0;",
        "UPDATE t SET a=9 WHERE a=3;", ".session undo", "SELECT * FROM t;",
    ],
}


def is_harmless(call, answer, streams):
    """Whether a run has to end as without this answer, where these calls are of standard streams.
    """
    failing = {ONE_BYTE: ("pread",), INTERRUPTED: ("pread", "pwrite", *streams)}
    return answer in failing and call not in failing[answer]


def is_failed_sync(call, answer):
    """Whether a file or a folder was not synced."""
    return call in ("fsync", "fdatasync") and answer in ERRORS


def mark(number):
    """What is printed behind the answer of a line."""
    return f"feed{number:04x}\n"


class Reopened:
    """A trial on a store that the program opens again."""

    def left(self, folder):
        """The tables of the store, which the program opens, and leaves. Half a new store is none
        yet to SQLite.
        """
        with tempfile.TemporaryDirectory() as copied:
            for name in os.listdir(folder):
                shutil.copy(os.path.join(folder, name), copied)
            try:
                tables = super().left(copied)
            except sqlite3.DatabaseError:
                tables = {}
        ended = run(folder, self.words, b"", program=self.program)
        again = super().left(folder)
        return tables if ended == (0, "", "") and again == tables else (ended, tables, again)


class MarkedScript(Reopened, Script):
    """Lines on a store in a new file, each with a mark after its answer."""

    def __init__(self, lines):
        self.asked, self.first = lines, Shell()
        super().__init__([
            part for number, line in enumerate(lines)
            for part in (line, ".load mark " + mark(number).strip(), ".hex mark")
        ])

    def tables(self, shell):
        """The tables that a shell has, as they are compared."""
        return shown_tables(shell.tables)

    def why_not(self, ended, normal, call, answer):
        """Why a run may not end so where one call had this answer, or nothing."""
        (status, printed, reported), left = ended
        if ended == normal and is_failed_sync(call, answer):
            return "a failed sync is not reported"
        if ended == normal:
            return "" if self.replay(printed, reported, answer) == ([left], "") else "the model answers otherwise"
        if is_harmless(call, answer, ("read", "write")):
            return "a call that was interrupted, or moved one byte, changes the run"
        if answer != ENDED and (status != 1 or reported not in ("", STORE_FAULT, INPUT_FAULT, OUTPUT_FAULT)):
            return "no such fault"
        if answer != ENDED and not printed and reported == STORE_FAULT:
            return "" if left == self.tables(self.first) else "a store that was not opened has other tables"
        lefts, told = self.replay(printed, reported, answer)
        return told or ("" if left in lefts else f"the store has {left}, and not one of {lefts}")

    def replay(self, printed, reported, answer):
        """What the store may have behind lines that printed this; and why no lines print it, or
        nothing.
        """
        shell, others = copy.deepcopy(self.first), []
        for number, line in enumerate(self.asked):
            before, tried = self.tables(shell), copy.deepcopy(shell)
            wanted = "".join(told.decode() + "\n" for told in tried.answer(line.encode()))
            told, found, printed = printed.partition(mark(number))
            after = self.tables(tried)
            if not found:
                return self.ends_in(told, wanted + mark(number), reported, answer, (before, after, others))
            if told == wanted:
                others = others if before == after else []
                shell = tried
            elif told == STORE_FAULT:
                others.append(after)
            else:
                return [], f"line {number + 1} prints {told!r}, and not {wanted!r}"
        return [self.tables(shell), *others], "something is printed behind the last line" if printed else ""

    def ends_in(self, told, wanted, reported, answer, tables):
        """The same where a script ends in a line, which prints no more than this."""
        before, after, others = tables
        if answer == ENDED:
            return [before, after, *others], "" if wanted.startswith(told) else "what is printed is of no line"
        if reported == INPUT_FAULT:
            return [before, *others], "half a line is answered" if told else ""
        if reported == OUTPUT_FAULT:
            return [after], "" if wanted.startswith(told) else "what is printed is of no line"
        return [], "the script ends, and no fault says why"


class FileCommand(Command):
    """A command on files."""

    def __init__(self, words):
        super().__init__(words)
        self.is_apply = "apply" in words
        with tempfile.TemporaryDirectory() as folder:
            self.prepare(folder)
            self.before = self.left(folder)

    def why_not(self, ended, normal, call, answer):
        """Why a run may not end so where one call had this answer, or nothing."""
        (status, printed, reported), left = ended
        (usual, wanted, refusal), after = normal
        if ended == normal and is_failed_sync(call, answer):
            return "a failed sync is not reported"
        if ended == normal:
            return ""
        if is_harmless(call, answer, ("write",) if wanted or refusal else ()):
            return "a call that was interrupted, or moved one byte, changes the run"
        # If standard error cannot be written, its text is lost.
        if call == "write" and refusal and (status, reported) == (usual, "") and left == after:
            return ""
        if not wanted.startswith(printed):
            return "what is printed is not the beginning of what would be"
        if answer == ENDED:
            return "" if self.is_whole(left, after) else "a file is neither the old one nor the new one"
        if status != 1 or reported not in (STORE_FAULT, INPUT_FAULT, OUTPUT_FAULT):
            return "no such fault"
        if self.is_apply and reported == OUTPUT_FAULT:
            return "" if left == after else "the apply does not stand"
        if self.is_apply and reported == STORE_FAULT:
            lefts = (after,) if printed else (self.before, after)
            return "" if left in lefts else "the store is neither the old one nor the new one"
        return "" if left == self.before else "a file is not as it was"

    def is_whole(self, left, after):
        """Whether each file is as before or as after, where one that was begun beside OUT may
        stand, too.
        """
        names = [name for name, _ in self.before[0]]
        files = [file for file in left[0] if file[0] in names]
        return files in (self.before[0], after[0]) and left[1] in (self.before[1], after[1])

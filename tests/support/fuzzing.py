"""Compares the program with a model, on changesets, damaged files and scripts that are made from a
seed.

The model shares no code with the program: `reader` reads files, `model` concatenates and applies
them, `shell` answers lines, and `making` makes what they are asked. If SQLite's library with its
session extension is there, the model is compared with it (`library`). A case depends only on the
seed and its number. If something differs, the lines of the case, and as few of them as still
differ, are kept in files.
"""
import argparse
import collections
import os
import pathlib
import random
import sqlite3
import subprocess
import sys
import tempfile
import time
from functools import partial

from support import library, reader, trials
from support.making import Maker
from support.model import Refusal, concatenated, dump_lines, shown_tables, sql_lines
from support.program import PATIENCE, PROGRAM
from support.shell import Shell, Words
from support.stores import read_store
from support.topics import read_topics

# How many seconds it may take to find as few lines as differ.
SHORTENING = 60

# How many lines, files and changesets a case has.
LINES, FILES, CHANGESETS = 160, 80, 8

COUNTED = (
    "cases", "changesets", "damaged files", "scripts", "lines", "constraint conflicts", "runs of the program",
    "comparisons",
)


class Difference(Exception):
    """What the program answers otherwise, and lines that show it."""

    def __init__(self, lines, what):
        super().__init__(what)
        self.lines = lines


class Script:
    """Lines, with what the model answers to each of them."""

    def __init__(self, lines=()):
        self.shell = Shell()
        self.lines = []
        self.answers = []
        self.refused = []
        self.add(*lines)

    def add(self, *lines):
        """Adds lines."""
        for line in (line.replace(b"\n", b" ") for line in lines):
            self.shell.is_refused = False
            self.lines.append(line)
            self.answers.append(b"".join(told + b"\n" for told in self.shell.answer(line)))
            self.refused.append(self.shell.is_refused)

    def ends(self):
        """How its run has to end: the exit status, and what is printed to both streams."""
        return int(any(self.refused)), b"".join(self.answers), b""


def run(folder, words, text=b""):
    """Runs the program in a folder: its exit status, and what it prints to both streams; none where
    it does not end.
    """
    try:
        done = subprocess.run([PROGRAM, *words], cwd=folder, input=text, capture_output=True, timeout=PATIENCE)
    except subprocess.TimeoutExpired:
        return None, b"", b""
    return done.returncode, done.stdout, done.stderr


def run_lines(folder, lines, words=()):
    """Runs lines as a script."""
    return run(folder, words, b"".join(line + b"\n" for line in lines))


def first_difference(script, ended):
    """The first line of a script that is answered otherwise, and how the run ended."""
    at, (status, printed, reported) = 0, ended
    for place, answer in enumerate(script.answers):
        if printed[at:at + len(answer)] != answer:
            told = printed[at:at + len(answer) + 200]
            return f"line {place + 1}, {script.lines[place][:200]!r}: the program prints {told!r}, and not {answer!r}"
        at += len(answer)
    return f"the run ends with {status}, {printed[at:][:200]!r}, {reported[:200]!r}"


class Case:
    """What is made of a seed and a number, and compared."""

    def __init__(self, seed, number, folder, counts, beside):
        self.number = number
        self.maker = Maker(random.Random(f"{seed} {number}"))
        self.folder = folder
        self.counts = counts
        self.beside = beside
        self.questions = []

    def compare(self):
        """Makes one case, and compares it."""
        self.counts["cases"] += 1
        self.maker.pick((
            self.of_changesets, self.of_damaged_files, self.of_lines, self.of_lines, self.of_sessions, self.of_commands,
        ))()
        self.beside.ask(self.questions)

    def expect_script(self, script, words=()):
        """Runs a script, and compares each answer."""
        self.counts["scripts"] += 1
        self.counts["lines"] += len(script.lines)
        self.counts["constraint conflicts"] += sum(answer.count(b" constraint ") for answer in script.answers)
        self.counts["runs of the program"] += 1
        ended = run_lines(self.folder, script.lines, words)
        if ended != script.ends():
            raise Difference(script.lines, first_difference(script, ended))
        self.counts["comparisons"] += sum(map(bool, script.answers)) + 1

    def changesets(self, count):
        """So many changesets of a few tables."""
        tables = self.maker.tables()
        self.counts["changesets"] += count
        return [self.maker.changeset(tables) for _ in range(count)]

    def of_changesets(self):
        """Changesets that are inverted, concatenated and printed."""
        script, made = Script(), self.changesets(CHANGESETS)
        for groups in made:
            line = self.maker.load(reader.write(groups))
            script.add(line, self.maker.slot_line())
            self.questions.append(library.Inverse(groups))
            self.questions.append(library.Concat(groups, self.maker.pick(made)))
        for _ in range(LINES):
            line = self.maker.slot_line()
            script.add(line)
            if line.startswith((b".invert ", b".concat ")):
                script.add(b".hex " + line.split(b" ")[-1])
        self.expect_script(script)

    def of_damaged_files(self):
        """Damaged files are inverted, concatenated, printed and applied, and change nothing where they
        are refused.
        """
        made = self.changesets(CHANGESETS)
        whole = [reader.write(groups) for groups in made]
        script = Script(self.tables_lines())
        script.add(b".load c " + whole[0].hex().encode())
        for _ in range(FILES):
            file = self.maker.pick(whole)
            if self.maker.is_one_in(2):
                file = self.maker.broken(self.maker.pick(made))
            if not self.maker.is_one_in(3):
                file = self.maker.damaged(file, self.maker.pick(whole))
            self.counts["damaged files"] += 1
            self.ask_inverse(file)
            script.add(b".load a " + file.hex().encode(), b".invert a b", b".hex b")
            if self.maker.is_one_in(3):
                script.add(*self.maker.pick((
                    [b".dump a"], [b".concat a c d", b".hex d"], [b".concat c a d", b".hex d"],
                    [b".apply a" + self.maker.settings()], [b".revert a"],
                )))
        script.add(*self.selects(script))
        self.expect_script(script)

    def ask_inverse(self, file):
        """Has SQLite's library asked for the inverse of a damaged file, where that is a file still.
        """
        try:
            self.questions.append(library.Inverse(reader.Reader(file).groups()))
        except reader.Fault:
            self.beside.known[library.REFUSED] += 1

    def tables_lines(self):
        """Lines that make tables with rows."""
        maker, script = self.maker, Script()
        for _ in range(maker.upto(4)):
            script.add(maker.create())
        for _ in range(maker.chance.randrange(12)):
            script.add(maker.insert(script.shell.tables))
        return script.lines

    def selects(self, script):
        """Lines that list each table."""
        return [b"SELECT * FROM %s;" % library.quoted(name, b'"') for name in script.shell.tables]

    def line(self, shell):
        """A line of any form."""
        maker, tables = self.maker, shell.tables
        form = maker.chance.randrange(20)
        if form < 9:
            line = (maker.insert, maker.insert, maker.insert, maker.update_line, maker.update_line, maker.update_line,
                    maker.delete, maker.delete, maker.select)[form](tables)
        elif form < 11:
            self.counts["changesets"] += 1
            line = maker.load(reader.write(maker.changeset_of(tables)))
        elif form < 14:
            line = maker.apply()
        elif form < 17:
            line = maker.session(tables, shell.session is not None)
        elif form < 19:
            line = maker.slot_line()
        else:
            line = maker.create()
        if maker.is_one_in(20):
            line = maker.spoiled(line)
        return maker.blanks(line) if maker.is_one_in(20) else line

    def of_lines(self):
        """A script of lines of each form, on a store in memory or in a file."""
        script = Script(self.tables_lines())
        while len(script.lines) < LINES:
            line = self.line(script.shell)
            self.add_line(script, line)
            if line.startswith(b".load ") and self.maker.is_one_in(2):
                self.add_line(script, b".apply " + line.split(b" ")[1] + self.maker.settings())
            if self.maker.is_one_in(9):
                script.add(self.maker.select(script.shell.tables))
        script.add(*self.selects(script))
        if not self.maker.is_one_in(6):
            self.expect_script(script)
            return
        with tempfile.TemporaryDirectory(dir=self.folder) as folder:
            store = os.path.join(folder, "store")
            self.expect_script(script, [store, "shell"])
            self.expect_store(store, script.shell.tables, script.lines)
            self.expect_applied(store, script)

    def add_line(self, script, line):
        """Adds a line to a script; of applies, SQLite's library is asked half."""
        if line.startswith(b".apply ") and self.maker.is_one_in(2):
            self.ask_apply(script.shell, line)
        script.add(line)

    def of_sessions(self):
        """Edits of attached tables, and what a session reports of them, and undoes. SQL has no zero
        characters.
        """
        script = Script([line for line in self.tables_lines() if b"\0" not in line])
        before, edits, maker = self.done(script), [], self.maker
        names = [library.quoted(name, b'"') for name in script.shell.tables]
        script.add(b".session open", *(b".session attach " + name for name in names))
        for _ in range(LINES // 4):
            line = maker.pick((maker.insert, maker.update_line, maker.update_line, maker.delete))(script.shell.tables)
            if b"\0" in line:
                continue
            script.add(line, b".session changeset c", b".hex c")
            edits += [line] if script.answers[-3] == b"" else []
            if maker.is_one_in(9):
                script.add(b".session isempty")
        self.questions.append(library.Recording(script.shell.tables, before, edits, script.shell.groups(b"c")))
        script.add(b".invert c d")
        for line in (b".session undo", b".apply c", b".apply d"):
            script.add(line, *self.selects(script))
        self.expect_script(script)

    def done(self, script):
        """The lines of a script of statements that were not refused."""
        return [line for line, answer in zip(script.lines, script.answers) if answer == b""]

    def ask_apply(self, shell, line):
        """Has SQLite's library asked what a line applies."""
        try:
            words = Words(line)
            words.take()
            groups, choices = shell.groups(words.slot()), words.choices()
        except (Refusal, reader.Fault):
            return
        self.questions.append(library.Apply(shell.tables, groups, choices))

    def expect_store(self, store, tables, lines):
        """Compares the tables of a store, as Python's own sqlite3 reads it."""
        wanted = shown_tables(tables)
        try:
            told = trials.shown_tables(read_store(store))
        except (AssertionError, sqlite3.Error) as error:
            told = repr(error)
        self.counts["comparisons"] += 1
        if told != wanted:
            raise Difference(lines, f"the store holds {told!r}, and not {wanted!r}")

    def expect_applied(self, store, script):
        """Applies changesets to a store by the command."""
        for _ in range(self.maker.upto(3)):
            file, settings = reader.write(self.maker.changeset_of(script.shell.tables)), self.maker.settings()
            script.add(b".load a " + file.hex().encode(), b".apply a" + settings)
            ended = self.run_files([file], lambda path: [*options(settings), path, "apply", store])
            if ended != command_ends(script.answers[-1], script.refused[-1]):
                raise Difference(script.lines, f"the command apply prints {ended!r}, and not {script.answers[-1]!r}")
            self.expect_store(store, script.shell.tables, script.lines)
            self.counts["changesets"] += 1

    def run_files(self, contents, words):
        """Runs a command on files with these contents, whose paths give its words."""
        paths = []
        for place, content in enumerate(contents):
            paths.append(os.path.join(self.folder, f"file-{place}"))
            pathlib.Path(paths[-1]).write_bytes(content)
        self.counts["runs of the program"] += 1
        self.counts["comparisons"] += 1
        return run(self.folder, words(*paths))

    def of_commands(self):
        """Files that are inverted, concatenated and printed by commands, some of them damaged."""
        whole = [reader.write(groups) for groups in self.changesets(CHANGESETS)]
        for file in whole[1:]:
            if self.maker.is_one_in(4):
                file = self.maker.damaged(file, whole[0])
                self.ask_inverse(file)
                self.counts["damaged files"] += 1
            other = self.maker.pick(whole)
            self.expect_printed(file, "dump", dump_lines)
            self.expect_printed(file, "sql", sql_lines)
            self.expect_made([file], "invert", reader.inverted)
            self.expect_made([file, other], "concat", concatenated)

    def wanted(self, files, make):
        """What is made of files, and the line of a refusal."""
        try:
            return make(*[reader.Reader(file).groups() for file in files]), b""
        except reader.Fault as fault:
            return None, f"{fault}\n".encode()
        except Refusal as refusal:
            return None, refusal.line + b"\n"

    def expect_printed(self, file, command, make):
        """Compares what a command prints of a file."""
        lines, refused = self.wanted([file], make)
        printed = b"" if lines is None else b"".join(line + b"\n" for line in lines)
        ended = self.run_files([file], lambda path: [path, command])
        if ended != (int(bool(refused)), printed, refused):
            what = f"the command {command} prints {ended!r}, and not {printed + refused!r}"
            raise Difference([b".load a " + file.hex().encode(), b".dump a"], what)

    def expect_made(self, files, command, make):
        """Compares the file that a command makes of files."""
        groups, refused = self.wanted(files, make)
        out = os.path.join(self.folder, "out")
        pathlib.Path(out).write_bytes(b"as it was")
        ended = self.run_files(files, lambda path, *more: [path, command, *more, out])
        left, made = pathlib.Path(out).read_bytes(), b"as it was" if groups is None else reader.write(groups)
        if ended != (int(bool(refused)), b"", refused) or left != made:
            lines = [b".load %s %s" % (slot, file.hex().encode()) for slot, file in zip((b"a", b"b"), files)]
            lines += [b".invert a c" if len(files) == 1 else b".concat a b c", b".hex c"]
            what = f"the command {command} ends with {ended!r} and leaves {left!r}, and not {made!r}, {refused!r}"
            raise Difference(lines, what)


def options(settings):
    """The options of the command line that say what a line's settings do."""
    said = {"noop=ignore": ["--ignore-noop"], "noop=report": []}
    return [option for word in settings.decode().split() for option in said.get(word, ["--" + word])]


def command_ends(answer, is_refused):
    """How the command ends that a line is answered so: a refusal stands on standard error."""
    return (1, b"", answer) if is_refused else (0, answer, b"")


def differs(folder, lines):
    """Whether the program answers lines otherwise than the model."""
    return run_lines(folder, lines) != Script(lines).ends()


def least(lines, differs):
    """As few of the lines as still differ, where single ones and runs of them are left out."""
    part, end = len(lines) // 2, time.monotonic() + SHORTENING
    while part and time.monotonic() < end:
        at = 0
        while at < len(lines) and time.monotonic() < end:
            fewer = lines[:at] + lines[at + part:]
            if differs(fewer):
                lines = fewer
            else:
                at += part
        part //= 2
    return lines


def keep(kept, name, lines):
    """Keeps lines in a file."""
    kept.mkdir(parents=True, exist_ok=True)
    file = kept / name
    file.write_bytes(b"".join(line + b"\n" for line in lines))
    return file


def report_difference(words, number, difference, folder):
    """Keeps the lines of a case, and prints what differs and how it is run again."""
    kept, name = pathlib.Path(words.keep), f"seed-{words.seed}-case-{number}"
    files = [keep(kept, f"{name}.lines", difference.lines)]
    if isinstance(difference, Difference) and differs(folder, difference.lines):
        files.append(keep(kept, f"{name}.least.lines", least(difference.lines, partial(differs, folder))))
    print(f"case {number}: {difference}")
    print(f"it is run again by: tests/fuzz --seed {words.seed} --case {number}")
    for file in files:
        print(f"its lines are run by: tests/fuzz --lines {file}")


def run_cases(words, start, folder, counts, beside):
    """Runs cases until the time is up, or one differs: whether none does."""
    number = 0 if words.case is None else words.case
    while True:
        try:
            Case(words.seed, number, folder, counts, beside).compare()
        except (Difference, library.Difference) as difference:
            report_difference(words, number, difference, folder)
            return False
        number += 1
        if words.case is not None or time.monotonic() - start >= words.seconds:
            return True


def table_difference():
    """Return the first line of the table of cases that the model answers otherwise, or an empty
    text.
    """
    for topic, lines in read_topics().items():
        for line, answer in zip(lines, Script([line.text for line in lines]).answers):
            if answer != line.printed:
                return f"tests/cases/{topic}, line {line.number}: {answer[:200]!r}, and not {line.printed[:200]!r}"
    return ""


def run_kept(file, folder):
    """Runs lines that were kept: whether none differs."""
    script = Script(pathlib.Path(file).read_bytes().split(b"\n")[:-1])
    ended = run_lines(folder, script.lines)
    if ended != script.ends():
        print(first_difference(script, ended))
        return False
    print(f"{len(script.lines)} lines, no difference")
    return True


def report(counts, beside):
    """Prints what was made and compared."""
    print(", ".join(f"{counts[what]} {what}" for what in COUNTED))
    if not beside.is_there:
        print(f"SQLite's library with its session extension was not asked: {beside.why}")
        return
    print(f"{beside.asked} answers of SQLite's library compared with the model's; differences that the documents tell:")
    for what, count in sorted(beside.known.items()):
        print(f"  {count} {what}")


def run_for(words):
    """Runs cases until the time is up, and prints what was compared: whether none differs, and
    SQLite's library.
    """
    start, counts = time.monotonic(), collections.Counter()
    with tempfile.TemporaryDirectory() as folder:
        beside = library.Library(folder)
        is_good = run_cases(words, start, folder, counts, beside)
    report(counts, beside)
    return is_good, beside


def arguments():
    """The options of a run."""
    parser = argparse.ArgumentParser(
        description="Compares the program with a model, on cases that are made from a seed."
    )
    parser.add_argument("--seconds", type=float, default=60)
    parser.add_argument("--seed", type=int, default=1)
    parser.add_argument("--case", type=int)
    parser.add_argument("--lines")
    parser.add_argument("--keep", default="fuzz-failures")
    return parser


def main():
    words = arguments().parse_args()
    if not PROGRAM.is_file():
        sys.exit(f"no program at {PROGRAM}: build it by `rt run` in crates/changeset")
    if words.lines is not None:
        with tempfile.TemporaryDirectory() as folder:
            sys.exit(not run_kept(words.lines, folder))
    sys.exit(not run_for(words)[0])

#!/usr/bin/env python3
"""Tests of the command `vollikash`, through pipes, through a pseudo terminal, and of its page in
headless Chromium if that is there.

usage: bindings/python/test_command.py
"""
import contextlib
import ctypes
import functools
import json
import os
import pathlib
import pty
import re
import resource
import select
import shlex
import shutil
import signal
import sqlite3
import stat
import subprocess
import sys
import tempfile
import time
import unittest
import unittest.mock

import vollikash
from vollikash import UNDEFINED, Builder, ChangesetError, Code, sqlite
from vollikash._command import _lines, _messages, _parser, _progress, _texts

HERE = pathlib.Path(__file__).resolve().parent
TOP = HERE.parent.parent
sys.path.insert(0, str(TOP / "tests"))

from support import iterator  # noqa: E402
from support.chromium import Chromium, find_chromium  # noqa: E402
from support.program import PATIENCE, PROGRAM  # noqa: E402
from support.samples import TO_DAMAGE, damaged  # noqa: E402

WORDS = [sys.executable, "-m", "vollikash"]
RECORDED = sorted([*TOP.glob("examples/*.cs"), *TOP.glob("tests/recorded/*.cs")])
KEY_CHANGE = TOP / "examples/key-change.cs"

# A text that a terminal would obey, one that a browser would, and one that turns its direction.
HOSTILE = "\x1b[31mred\x1b]0;title\x07\x9b2J<script>document.title = 'x'</script>\u202e\r\n\\"

# What a terminal may get of a text: no control characters but line ends and our own colours.
RAW = re.compile(r"[\x00-\x09\x0b-\x1a\x1c-\x1f\x7f-\x9f\u2028-\u202e]|\x1b(?!\[[0-9]*[mK])")


def setUpModule():
    """What a shell starts in the background ignores Ctrl-C, and so would what is started here."""
    signal.signal(signal.SIGINT, signal.default_int_handler)


def environment(**changed):
    """The variables for a run."""
    names = ("NO_COLOR", "VOLLIKASH_PROGRAM", "VOLLIKASH_CALLS", "PYTHONPATH", "TERM")
    kept = {name: value for name, value in os.environ.items() if name not in names}
    path = os.pathsep.join(filter(None, [str(HERE), os.environ.get("PYTHONPATH")]))
    ours = {"VOLLIKASH_PROGRAM": str(PROGRAM), "PYTHONPATH": path, "TERM": "xterm"}
    return {**kept, **ours, **changed}


def made_up(count=3):
    """A changeset with each operation, kind of value and kind of key."""
    builder = Builder()
    builder.table("notes", key=[True, False, False])
    builder.insert("notes", 7, "it's", None)
    builder.update("notes", old=[3, "a", UNDEFINED], new=[UNDEFINED, "b", UNDEFINED])
    builder.delete("notes", 2, b"\x00\xff", -5, indirect=True)
    builder.table("two words", key=[True, True])
    for number in range(count):
        builder.insert("two words", number, "x")
    return builder.to_bytes()


def hostile():
    """A changeset whose names and texts are hostile."""
    builder = Builder()
    name = HOSTILE.replace("\n", "")
    builder.table(name, key=[True, False])
    builder.insert(name, HOSTILE, HOSTILE)
    builder.update(name, old=["k", HOSTILE], new=[UNDEFINED, "y"])
    return builder.to_bytes()


class Folder(unittest.TestCase):
    """A folder in which the command runs."""

    maxDiff = None

    def setUp(self):
        folder = tempfile.TemporaryDirectory()
        self.addCleanup(folder.cleanup)
        self.folder = pathlib.Path(folder.name).resolve()

    def make(self, name, data):
        """Make a file, and return its name."""
        (self.folder / name).write_bytes(data)
        return name

    def start(self, *words, **options):
        """Start the command."""
        given = {"stdin": subprocess.DEVNULL, "stdout": subprocess.PIPE, "stderr": subprocess.PIPE}
        return subprocess.Popen(
            [*WORDS, *map(str, words)], cwd=self.folder, env=environment(), **{**given, **options}
        )

    def run_raw(self, *words, given=None, **options):
        """The status of a run, and the bytes that it prints on both streams."""
        if given is not None:
            options["stdin"] = subprocess.PIPE
        with self.start(*words, **options) as process:
            printed, said = process.communicate(given, timeout=PATIENCE)
        return process.returncode, printed, said

    def run_text(self, *words, given=None):
        """The status of a run, and the texts that it prints on both streams."""
        status, printed, said = self.run_raw(*words, given=given)
        return status, printed.decode(), said.decode()

    def expect(self, words, printed, said="", status=0, given=None):
        """Assert what a run prints, and how it ends."""
        self.assertEqual(self.run_text(*words, given=given), (status, printed, said))

    def on_terminal(self, *words, typed=b"", **changed):
        """The status of a run on a pseudo terminal, and what it prints there. Each text of `typed`
        is sent when the one before its pair was printed.
        """
        process, terminal = pty.fork()
        if process == 0:
            os.chdir(self.folder)
            os.execvpe(sys.executable, [*WORDS, *map(str, words)], environment(**changed))
        try:
            printed = self.converse(terminal, list(typed))
        finally:
            os.close(terminal)
            _, status = os.waitpid(process, 0)
        ended = os.WEXITSTATUS(status) if os.WIFEXITED(status) else -os.WTERMSIG(status)
        return ended, printed.decode().replace("\r\n", "\n")

    @staticmethod
    def converse(terminal, typed):
        """What is printed on a terminal, on which texts are typed: each a pair of what is waited
        for, and what is sent.
        """
        printed, start, deadline = b"", 0, time.monotonic() + PATIENCE
        while True:
            if typed and typed[0][0] in printed[start:]:
                start = len(printed)
                # A signal has to find the command waiting, and not about to wait.
                time.sleep(0.3 if typed[0][1] == b"\x03" else 0)
                os.write(terminal, typed.pop(0)[1])
            if not select.select([terminal], [], [], deadline - time.monotonic())[0]:
                raise AssertionError(f"nothing more is printed after {printed!r}")
            try:
                got = os.read(terminal, 1 << 16)
            except OSError:
                got = b""
            if not got:
                return printed
            printed += got


class Words(Folder):
    """The words of the command, and how it ends."""

    def test_version(self):
        self.expect(["--version"], f"vollikash {vollikash.__version__}\n")

    def test_help(self):
        """Each subcommand has an example, whose words are those of the parser."""
        commands = re.findall(r"^    ([a-z-]+)", _parser.parser().format_help(), re.M)
        self.assertEqual(len(commands), 10)
        for command in commands:
            with self.subTest(command=command):
                status, printed, said = self.run_text(command, "--help")
                self.assertEqual((status, said), (0, ""))
                example, = re.findall(r"^example:\n  vollikash (.*)\n\Z", printed, re.M)
                self.assertEqual(_parser.parsed(shlex.split(example)).command, command)

    def test_misuse(self):
        for words in (
            [], ["none"], ["show"], ["show", "-", "-"], ["concat", "-", "a", "-"], ["invert", "a", "b"],
            ["select", "a"], ["apply", "a"], ["apply", "a", "s", "--data", "none"], ["show", ""],
            ["apply", "a", "s", "--notfound", "replace"], ["apply", "a", "s", "--constraint", "replace"],
            ["show", "--js", "a"], ["shell"], ["shell", "s", "t"], ["invert", "a", "--output"],
        ):
            with self.subTest(words=words):
                status, printed, said = self.run_text(*words)
                self.assertEqual((status, printed), (2, ""))
                self.assertRegex(said, r"\Ausage: vollikash")

    def test_interrupt(self):
        """Ctrl-C ends the command without a traceback, while it reads and while the library works.
        """
        for words in (["show", "-"], ["shell", ":memory:"]):
            with self.subTest(words=words):
                process = self.start(*words, stdin=subprocess.PIPE)
                time.sleep(1)
                process.send_signal(signal.SIGINT)
                self.assertEqual(process.communicate(timeout=PATIENCE), (b"", b""))
                self.assertEqual(process.returncode, 130)

    def test_interrupt_in_the_library(self):
        script = (
            "import time, vollikash.__main__ as command\n"
            "from vollikash._command import _making\n"
            "_making.inverted = lambda data: time.sleep(60)\n"
            f"raise SystemExit(command.main(['invert', {str(KEY_CHANGE)!r}]))\n"
        )
        process = subprocess.Popen(
            [sys.executable, "-c", script], env=environment(), stderr=subprocess.PIPE
        )
        time.sleep(1)
        process.send_signal(signal.SIGINT)
        self.assertEqual(process.communicate(timeout=PATIENCE)[1], b"")
        self.assertEqual(process.returncode, 130)

    def test_pipe_that_nobody_reads(self):
        name = self.make("many.cs", made_up(20_000))
        for words in (["show", name], ["show", "--json", name], ["html", name], ["invert", name]):
            with self.subTest(words=words):
                process = self.start(*words)
                process.stdout.read(1)
                process.stdout.close()
                self.assertEqual(process.stderr.read(), b"")
                self.assertEqual(process.wait(PATIENCE), -signal.SIGPIPE)
                process.stderr.close()

    def test_output_that_is_full_or_closed(self):
        words = ["show", KEY_CHANGE]
        with open("/dev/full", "wb") as full:
            status, _, said = self.run_raw(*words, stdout=full)
        self.assertEqual(
            (status, said), (1, b"standard output: error 72 OutputFault: No space left on device\n")
        )
        for words in (["show"], ["show", "--json"], ["stat"], ["check"], ["html"], ["invert"]):
            with self.subTest(words=words):
                closed = ["sh", "-c", '"$@" >&-', "sh", *WORDS, *words, KEY_CHANGE]
                done = subprocess.run(closed, env=environment(), stderr=subprocess.PIPE, timeout=PATIENCE)
                self.assertEqual(
                    (done.returncode, done.stderr),
                    (1, b"standard output: error 72 OutputFault: it is closed\n"),
                )

    def test_input_that_cannot_be_read(self):
        (self.folder / "folder").mkdir()
        for command in ("show", "stat", "check", "html", "invert", "concat", "number-keys"):
            for name, why in (("none", "No such file or directory"), ("folder", "Is a directory")):
                with self.subTest(command=command, name=name):
                    status, printed, said = self.run_text(command, name)
                    self.assertEqual((status, said), (
                        1, f"{name}: error 71 InputFault: {why}. A changeset file is expected.\n"
                    ))


class Looking(Folder):
    """show, stat and check."""

    def test_show(self):
        self.make("a.cs", made_up(1))
        lines = (
            "insert notes[c1=7] c2='it''s', c3=NULL\n"
            "update notes[c1=3] c2='a' -> 'b'\n"
            "delete notes[c1=2] c2=X'00ff', c3=-5 (indirect)\n"
            "insert \"two words\"[c1=0, c2='x']\n"
        )
        self.expect(["show", "a.cs"], lines)
        self.expect(["show", "-"], lines, given=made_up(1))
        self.make("b.cs", b"")
        self.expect(["show", "a.cs", "b.cs"], f"==> a.cs <==\n{lines}==> b.cs <==\n")

    def test_long_values(self):
        builder = Builder()
        builder.table("t", key=[True])
        builder.insert("t", "x" * 201)
        builder.insert("t", b"\x01" * 201)
        self.make("a.cs", builder.to_bytes())
        self.expect(["show", "a.cs"], (
            f"insert t[c1='{'x' * 200}'.. (201 characters)]\n"
            f"insert t[c1=X'{'01' * 200}'.. (201 bytes)]\n"
        ))

    def test_every_recorded_file(self):
        """A line has the values that the library prints, and JSON is that of the library."""
        files = {path: path.read_bytes() for path in RECORDED}
        status, printed, said = self.run_text("show", *files)
        self.assertEqual(status, 1)
        parts = dict(re.findall(r"^==> (.*) <==\n((?:[a-z].*\n)*)", printed, re.M))
        for path, data in files.items():
            with self.subTest(path=path.name):
                try:
                    changes = list(vollikash.changes(data))
                except ChangesetError as error:
                    self.assertIn(f"{path}: error {error.code:d} {error.name} {error.place}: ", said)
                    self.assertNotIn(str(path), parts)
                    continue
                lines = parts[str(path)].splitlines()
                self.assertEqual(len(lines), len(changes))
                for line, change in zip(lines, changes):
                    self.assertTrue(line.startswith(f"{change.op} {_texts.identifier(change.table)}["))
                    for field in (*(change.old or ()), *(change.new or ())):
                        self.assertIn("" if field is UNDEFINED else _texts.literal(field), line)

    def test_json(self):
        """It is that of the library, and several files are several texts."""
        self.make("a.cs", made_up())
        self.make("b.cs", b"")
        whole = vollikash.to_json(made_up())
        self.expect(["show", "--json", "a.cs", "b.cs", "-"], f"{whole}[]\n{whole}", given=made_up())
        self.make("cut.cs", made_up()[:-1])
        status, printed, said = self.run_text("show", "--json", "cut.cs", "b.cs")
        self.assertEqual((status, printed), (1, "[]\n"))
        self.assertIn("cut.cs: error 1 Truncated", said)

    def database(self, *statements):
        """Make an ordinary database, and return its name."""
        base = sqlite3.connect(self.folder / "app.db")
        for statement in statements:
            base.execute(statement)
        base.commit()
        base.close()
        return "app.db"

    def test_names_of_columns(self):
        self.make("a.cs", made_up(1))
        schema = self.database(
            'CREATE TABLE notes(id INTEGER PRIMARY KEY, text, "a b", later)',
            'CREATE TABLE "two words"(one, two, PRIMARY KEY(one, two))',
        )
        self.expect(["show", "--schema", schema, "a.cs"], (
            "insert notes[id=7] text='it''s', \"a b\"=NULL\n"
            "update notes[id=3] text='a' -> 'b'\n"
            "delete notes[id=2] text=X'00ff', \"a b\"=-5 (indirect)\n"
            "insert \"two words\"[one=0, two='x']\n"
        ))
        status, printed, said = self.run_text("show", "--json", "--schema", schema, "a.cs")
        self.assertEqual((status, said), (0, ""))
        self.assertEqual(json.loads(printed)[0]["changes"][0]["new"], {"id": 7, "text": "it's", "a b": None})

    def test_names_that_do_not_fit(self):
        self.make("a.cs", made_up(1))
        schema = self.database(
            "CREATE TABLE notes(id, text PRIMARY KEY, label)", "CREATE VIEW v AS SELECT 1",
        )
        status, printed, said = self.run_text("show", "--schema", schema, "a.cs")
        self.assertEqual((status, printed), (0, self.run_text("show", "a.cs")[1]))
        self.assertEqual(said, (
            "app.db: no table 'notes' has the columns and the key that the changeset has: its "
            "columns are shown as c1 to c3\n"
            "app.db: no table 'two words' has the columns and the key that the changeset has: its "
            "columns are shown as c1 to c2\n"
        ))

    def test_names_of_a_store(self):
        self.make("a.cs", made_up(0))
        with vollikash.open(self.folder / "notes.db") as store:
            store.create("notes", ["id", "text", "label"], key=["id"])
        status, printed, said = self.run_text("show", "--schema", "notes.db", "a.cs")
        self.assertEqual((status, said), (0, ""))
        self.assertIn("update notes[id=3] text='a' -> 'b'\n", printed)

    def test_names_of_other_files(self):
        """Ordinary tables of a store, those of a database with a table `rec` of its own, and a store that is open."""
        self.make("a.cs", made_up(1))
        create = "CREATE TABLE notes(id INTEGER PRIMARY KEY, text, label)"
        name = self.database(create, "CREATE TABLE rec(own)")
        self.assertIn("insert notes[id=7] text='it''s'", self.run_text("show", "--schema", name, "a.cs")[1])
        (self.folder / name).unlink()
        with vollikash.open(self.folder / self.database(create)) as store:
            store.create("two words", ["one", "two"], key=["one", "two"])
        status, printed, said = self.run_text("show", "--schema", name, "a.cs")
        self.assertEqual((status, said), (0, ""))
        self.assertIn("insert notes[id=7] text='it''s'", printed)
        self.assertIn("insert \"two words\"[one=0, two='x']\n", printed)
        with vollikash.open(self.folder / name):
            status, printed, said = self.run_text("show", "--schema", name, "a.cs")
        self.assertEqual((status, printed), (1, ""))
        self.assertRegex(said, r"\Aapp\.db: .*(database is locked|is in use by another program)")

    def test_schema_that_is_none(self):
        self.make("a.cs", made_up(1))
        self.make("text", b"no database, but a text that is long enough to be looked at" * 20)
        for name, why in (("text", "file is not a database"), ("none", "unable to open database file")):
            with self.subTest(name=name):
                self.expect(["show", "--schema", name, "a.cs"], "", (
                    f"{name}: {why}. An SQLite database with the tables of the changeset is "
                    "expected.\n"
                ), 1)

    def test_colours(self):
        self.make("a.cs", made_up(1))
        status, printed = self.on_terminal("show", "a.cs")
        self.assertEqual(status, 0)
        self.assertTrue(printed.startswith("\x1b[32minsert\x1b[0m notes[c1=7] c2=\x1b[32m'it''s'\x1b[0m"))
        self.assertIn("\n\x1b[33mupdate\x1b[0m notes[c1=3] c2=\x1b[31m'a'\x1b[0m -> \x1b[32m'b'\x1b[0m\n", printed)
        self.assertIn("\n\x1b[31mdelete\x1b[0m notes", printed)
        plain = (0, self.run_text("show", "a.cs")[1])
        self.assertEqual(self.on_terminal("show", "a.cs", NO_COLOR="1"), plain)
        self.assertEqual(self.on_terminal("show", "a.cs", TERM="dumb"), plain)
        self.assertEqual(self.on_terminal("show", "a.cs", NO_COLOR=""), (status, printed))

    def test_hostile_texts(self):
        """No control character of a text or a name is printed."""
        self.make("a.cs", hostile())
        self.make("cut.cs", hostile()[:-1])
        bad = self.make("\x1b[31m.cs", b"P")
        for words in (["show", "a.cs"], ["stat", "a.cs"], ["check", "cut.cs", bad], ["show", "a.cs", bad]):
            with self.subTest(words=words):
                _, printed, said = self.run_text(*words)
                self.assertIsNone(RAW.search(printed + said), printed + said)
                self.assertNotIn("\x1b", printed + said)
                self.assertIsNone(RAW.search(self.on_terminal(*words)[1]))
        _, printed, _ = self.run_text("show", "a.cs")
        self.assertEqual(len(printed.splitlines()), 2)
        self.assertIn(r"c2='\x1b[31mred\x1b]0;title\x07\x9b2J<script>", printed)
        self.assertIn(r"</script>\u202e\r\n\\'", printed)

    def test_stat(self):
        self.make("a.cs", made_up())
        self.make("b.cs", b"")
        self.expect(["stat", "a.cs", "b.cs", KEY_CHANGE.name], (
            "file   table        inserts  updates  deletes\n"
            "a.cs   notes              1        1        1\n"
            'a.cs   "two words"        3        0        0\n'
            "b.cs                      0        0        0\n"
            "total                     4        1        1\n"
        ), f"{KEY_CHANGE.name}: error 71 InputFault: No such file or directory. A changeset file is "
            "expected.\n", 1)

    def test_check(self):
        """Each file is checked, and the message has the number, the name and the place."""
        self.make("a.cs", made_up())
        self.make("cut.cs", made_up()[:-1])
        self.make("real.cs", (TOP / "tests/recorded/real-insert.cs").read_bytes())
        size = len(made_up()) - 1
        self.expect(["check", "cut.cs", "none.cs", "real.cs", "a.cs"], "a.cs: ok\n", (
            f"cut.cs: error 1 Truncated {size}: table 'two words', change 3 (INSERT), column 2, byte "
            f"{size}: the file ends here. Get the whole file.\n"
            "none.cs: error 71 InputFault: No such file or directory. A changeset file is expected.\n"
            "real.cs: error 13 RealValue 17: table 't', change 1 (INSERT), column 2, byte 17: a REAL. "
            "Vollikash takes integers, texts, blobs and NULL.\n"
        ), 1)
        self.expect(["check", "-"], "standard input: ok\n", given=made_up())
        self.expect(["check", "-"], "", "standard input: error 2 NotTable 0: byte 0: no table begins "
                    "here. Check that the file is a changeset.\n", 1, given=b"x")

    def test_check_of_damaged_files(self):
        """A fault is the one that the library reports."""
        names, wanted = [], []
        for number, data in enumerate(list(damaged(TO_DAMAGE["an UPDATE"]))[::97]):
            names.append(self.make(f"{number}.cs", data))
            try:
                vollikash.check(data)
            except ChangesetError as error:
                wanted.append(f"{number}.cs: error {error.code:d} {error.name} {error.place}: ")
        self.assertGreater(len(wanted), 20)
        status, printed, said = self.run_text("check", *names)
        self.assertEqual(status, 1)
        self.assertEqual(len(printed.splitlines()), len(names) - len(wanted))
        for line, start in zip(said.splitlines(), wanted):
            self.assertTrue(line.startswith(start), (line, start))


class Making(Folder):
    """invert, concat, select and number-keys."""

    def setUp(self):
        super().setUp()
        self.data = made_up()
        self.make("a.cs", self.data)
        self.key = (TOP / "tests/recorded/key-change.cs").read_bytes()
        self.make("b.cs", self.key)

    def calls(self):
        """The words of each subcommand, and what it makes."""
        return (
            (["invert", "a.cs"], vollikash.invert(self.data)),
            (["concat", "a.cs", "b.cs", "b.cs"], vollikash.concat(self.data, self.key, self.key)),
            (["concat", "a.cs"], self.data),
            (["select", "a.cs", "--table", "notes"], vollikash.select(self.data, ["notes"])),
            (["select", "a.cs", "--table", "notes", "two words"], self.data),
            (["select", "a.cs", "--table", "two words", "--table", "notes"], self.data),
            (["number-keys", "a.cs"], vollikash.number_keys(self.data)),
        )

    def test_each(self):
        for words, wanted in self.calls():
            with self.subTest(words=words):
                self.assertEqual(self.run_raw(*words), (0, wanted, b""))
                self.assertEqual(self.run_raw(*words, "-o", "-"), (0, wanted, b""))
                self.assertEqual(self.run_raw(*words, "-o", "out.cs"), (0, b"", b""))
                self.assertEqual((self.folder / "out.cs").read_bytes(), wanted)
                piped = ["-" if word == "a.cs" else word for word in words]
                self.assertEqual(self.run_raw(*piped, given=self.data), (0, wanted, b""))

    def test_table_that_is_missing(self):
        self.assertEqual(
            self.run_raw("select", "a.cs", "--table", "none"),
            (1, b"", b"a.cs: it has no table 'none'. Its tables are: 'notes', 'two words'\n"),
        )

    def test_refusals(self):
        """The file at fault is named, and OUT stays."""
        self.make("out.cs", b"old")
        self.make("cut.cs", self.data[:-1])
        builder = Builder()
        builder.table("notes", key=[True])
        builder.insert("notes", 1)
        self.make("other.cs", builder.to_bytes())
        for words, said in (
            (["invert", "cut.cs"], r"cut\.cs: error 1 Truncated \d+: table 'two words'"),
            (["number-keys", "cut.cs"], r"cut\.cs: error 1 Truncated"),
            (["select", "cut.cs", "--table", "t"], r"cut\.cs: error 1 Truncated"),
            (["concat", "a.cs", "b.cs", "cut.cs", "b.cs"], r"cut\.cs: error 1 Truncated"),
            (["concat", "a.cs", "other.cs"], r"other\.cs: error 43 Schema 0: table 'notes', byte 0: "),
            (["html", "a.cs", "cut.cs"], r"cut\.cs: error 1 Truncated"),
        ):
            with self.subTest(words=words):
                status, printed, reported = self.run_raw(*words, "-o", "out.cs")
                self.assertEqual((status, printed), (1, b""))
                self.assertRegex(reported.decode(), rf"\A{said}.*\n\Z")
                self.assertEqual((self.folder / "out.cs").read_bytes(), b"old")
                self.assertEqual(self.run_raw(*words)[:2], (1, b""))
        self.assertNotIn(".vollikash", " ".join(os.listdir(self.folder)))

    def test_terminal(self):
        """The bytes of a changeset are not printed on a terminal that nobody named."""
        status, printed = self.on_terminal("invert", "a.cs")
        self.assertEqual((status, printed), (1, (
            "standard output: error 72 OutputFault: it is a terminal. Name a file with -o, or use "
            "-o - to print the bytes.\n"
        )))
        status, printed = self.on_terminal("invert", "b.cs", "-o", "-")
        self.assertEqual((status, printed.encode()), (0, vollikash.invert(self.key)))

    def test_changegroup_of_sqlite(self):
        """A concatenation through pipes has the changes of SQLite's changegroup."""
        group = changegroup()
        if group is None:
            self.skipTest("there is no SQLite library with the session extension")
        files = recorded(
            ("INSERT INTO t VALUES(4, 'd'), (5, 'e')", "UPDATE t SET b = 'B' WHERE a = 2"),
            ("DELETE FROM t WHERE a < 3", "INSERT INTO u VALUES('k', 'l', X'00')"),
            ("UPDATE t SET b = NULL", "INSERT INTO t VALUES(1, 'x'), (2, 'b')", "DELETE FROM u"),
        )
        names = [self.make(f"{number}.cs", data) for number, data in enumerate(files)]
        command = " ".join(map(shlex.quote, WORDS))
        line = f"{command} concat {' '.join(names)} -o - | {command} show --json -"
        printed = subprocess.run(
            ["sh", "-c", line], cwd=self.folder, env=environment(), capture_output=True, check=True,
            timeout=PATIENCE,
        ).stdout.decode()
        wanted = as_set(group(files))
        self.assertEqual(as_set(vollikash.from_json(printed)), wanted)
        self.assertEqual(len(wanted), 4)


def recorded(*edits):
    """The changesets that SQLite records of edits, each some statements."""
    files = []
    with sqlite.Database(":memory:") as base:
        base.execute("CREATE TABLE t(a INTEGER PRIMARY KEY, b)")
        base.execute("CREATE TABLE u(a, b, c, PRIMARY KEY(a, b))")
        base.execute("INSERT INTO t VALUES(1, 'a'), (2, 'b'), (3, 'c')")
        for statements in edits:
            with base.session() as session:
                for statement in statements:
                    base.execute(statement)
                files.append(session.changeset())
    return files


def as_set(file):
    """The changes of a file as a set."""
    return {
        (change.table, change.op, change.indirect, change.old, change.new)
        for change in vollikash.changes(file)
    }


def changegroup():
    """A function that returns SQLite's concatenation of files, or None without the library."""
    library = iterator.library()
    if library is None or not hasattr(library, "sqlite3changegroup_new"):
        return None

    library.sqlite3_free.argtypes = library.sqlite3changegroup_delete.argtypes = (ctypes.c_void_p,)

    def joined(files):
        group, size, made = ctypes.c_void_p(), ctypes.c_int(), ctypes.c_void_p()
        assert library.sqlite3changegroup_new(ctypes.byref(group)) == 0
        for data in files:
            assert library.sqlite3changegroup_add(group, len(data), data) == 0
        assert library.sqlite3changegroup_output(group, ctypes.byref(size), ctypes.byref(made)) == 0
        try:
            return ctypes.string_at(made, size.value)
        finally:
            library.sqlite3_free(made)
            library.sqlite3changegroup_delete(group)

    return joined


class Outputs(Folder):
    """How OUT is written."""

    def setUp(self):
        super().setUp()
        self.data = (TOP / "tests/recorded/key-change.cs").read_bytes()
        self.inverse = vollikash.invert(self.data)
        self.make("a.cs", self.data)

    def invert(self, out, **options):
        """The status and the messages of an inversion into OUT."""
        status, printed, said = self.run_raw("invert", "a.cs", "-o", out, **options)
        return status, said.decode()

    def test_old_file_or_new_one(self):
        self.make("o.cs", b"old")
        os.chmod(self.folder / "o.cs", 0o640)
        self.assertEqual(self.invert("o.cs"), (0, ""))
        self.assertEqual((self.folder / "o.cs").read_bytes(), self.inverse)
        self.assertEqual(stat.S_IMODE((self.folder / "o.cs").stat().st_mode), 0o640)
        self.make("o.cs", b"old")

        def limit():
            signal.signal(signal.SIGXFSZ, signal.SIG_IGN)
            resource.setrlimit(resource.RLIMIT_FSIZE, (10, 10))

        self.assertEqual(self.invert("o.cs", preexec_fn=limit), (
            1, "o.cs: error 72 OutputFault: File too large. A path that can be written is expected.\n"
        ))
        self.assertEqual((self.folder / "o.cs").read_bytes(), b"old")
        self.assertEqual(sorted(os.listdir(self.folder)), ["a.cs", "o.cs"])

    def test_new_file_and_input_file(self):
        self.assertEqual(self.invert("new.cs"), (0, ""))
        mask = os.umask(0)
        os.umask(mask)
        self.assertEqual(stat.S_IMODE((self.folder / "new.cs").stat().st_mode), 0o666 & ~mask)
        self.assertEqual(self.invert("a.cs"), (0, ""))
        self.assertEqual((self.folder / "a.cs").read_bytes(), self.inverse)

    @unittest.skipIf(os.geteuid() == 0, "root may write each file")
    def test_file_that_may_not_be_written(self):
        self.make("o.cs", b"old")
        os.chmod(self.folder / "o.cs", 0o444)
        self.assertEqual(self.invert("o.cs"), (
            1, "o.cs: error 72 OutputFault: Permission denied. A path that can be written is expected.\n"
        ))
        self.assertEqual((self.folder / "o.cs").read_bytes(), b"old")

    def test_links(self):
        (self.folder / "far").mkdir()
        self.make("far/o.cs", b"old")
        os.symlink("far/o.cs", self.folder / "link")
        os.symlink("link", self.folder / "again")
        os.symlink("far/none.cs", self.folder / "dangling")
        for name, target in (("again", "far/o.cs"), ("dangling", "far/none.cs")):
            with self.subTest(name=name):
                self.assertEqual(self.invert(name), (0, ""))
                self.assertEqual((self.folder / target).read_bytes(), self.inverse)
                self.assertTrue((self.folder / name).is_symlink())
        self.assertEqual(sorted(os.listdir(self.folder / "far")), ["none.cs", "o.cs"])

    def test_no_plain_file(self):
        for out in ("/dev/stdout", "/dev/fd/1", "/proc/self/fd/1"):
            with open(self.folder / "log", "wb") as log:
                log.write(b"before")
                log.flush()
                self.assertEqual(self.invert(out, stdout=log), (0, ""))
            self.assertEqual((self.folder / "log").read_bytes(), b"before" + self.inverse)
        self.assertEqual(self.run_raw("invert", "a.cs", "-o", "/dev/stdout"), (0, self.inverse, b""))
        os.mkfifo(self.folder / "pipe")
        with subprocess.Popen(["cat", "pipe"], cwd=self.folder, stdout=subprocess.PIPE) as reader:
            self.assertEqual(self.invert("pipe"), (0, ""))
            self.assertEqual(reader.stdout.read(), self.inverse)
        self.assertTrue(stat.S_ISFIFO((self.folder / "pipe").stat().st_mode))
        self.assertEqual(self.invert("/dev/null"), (0, ""))

    def test_no_path(self):
        (self.folder / "folder").mkdir()
        for out, why in (("folder", "Is a directory"), ("none/o.cs", "No such file or directory")):
            with self.subTest(out=out):
                self.assertEqual(self.invert(out), (
                    1, f"{out}: error 72 OutputFault: {why}. A path that can be written is expected.\n"
                ))


class Progress(unittest.TestCase):
    """The line about long work."""

    def test_line(self):
        main, terminal = pty.openpty()
        with os.fdopen(terminal, "w") as stream, unittest.mock.patch.object(sys, "stderr", stream), \
                unittest.mock.patch.object(_progress, "_PATIENCE", 0.01), \
                unittest.mock.patch.object(_progress, "_PAUSE", 0.01), \
                unittest.mock.patch.dict(os.environ, {"TERM": "xterm"}):
            self.assertEqual(_progress.waited("a\x1b.cs", lambda: time.sleep(0.3) or 7), 7)
            with self.assertRaises(ZeroDivisionError):
                _progress.waited("a.cs", lambda: 1 // 0)
            with _progress.Progress("b.cs") as progress:
                self.assertEqual(sum(progress.counted([1, 2])), 3)
                time.sleep(0.3)
            printed = b""
            while select.select([main], [], [], 0.5)[0]:
                printed += os.read(main, 1 << 16)
        os.close(main)
        printed = printed.decode()
        self.assertTrue(printed.startswith("\r\x1b[Ka\\x1b.cs: 0 s"), printed)
        self.assertIn("\r\x1b[Kb.cs: 0 s, 2 changes", printed)
        self.assertTrue(printed.endswith("\r\x1b[K"))

    def test_no_terminal(self):
        with unittest.mock.patch.object(_progress, "_PATIENCE", 0.0), \
                tempfile.TemporaryFile("w+") as stream, \
                unittest.mock.patch.object(sys, "stderr", stream):
            self.assertEqual(_progress.waited("a.cs", lambda: time.sleep(0.3)), None)
            self.assertEqual(stream.tell(), 0)


class Applies(Folder):
    """apply."""

    def setUp(self):
        super().setUp()
        builder = Builder()
        builder.table("t", key=[True, False])
        builder.update("t", old=[1, "x"], new=[UNDEFINED, "y"])
        builder.delete("t", 2, "gone")
        builder.insert("t", 3, "\x1b[31mz")
        builder.table("u", key=[True])
        builder.insert("u", 1)
        self.data = builder.to_bytes()
        self.make("a.cs", self.data)

    def store(self, *rows):
        """Make a store with these rows of t, and return its name."""
        with vollikash.open(self.folder / "s.db") as store:
            store.create("t", ["a", "b"], key=["a"])
            store.insert_many("t", rows)
        return "s.db"

    def rows(self):
        """The rows of the store."""
        with vollikash.open(self.folder / "s.db") as store:
            return list(store.rows("t"))

    def test_without_conflicts(self):
        name = self.store((1, "x"), (2, "gone"))
        wanted = "warning 17 skipped 'u': the store has no such table, or has it with another key or " \
            "fewer columns\napplied 3\n"
        self.expect(["apply", "a.cs", name], wanted)
        self.assertEqual(self.rows(), [(1, "y"), (3, "\x1b[31mz")])
        (self.folder / "s.db").unlink()
        self.store((1, "x"), (2, "gone"))
        self.expect(["apply", "-", name], wanted, given=self.data)

    def test_choices(self):
        """The help of an option has the choices that it takes."""
        printed = re.sub(r"\s+", " ", self.run_text("apply", "--help")[1])
        for kind in ("data", "conflict"):
            self.assertIn(f"--{kind} C omit, replace or abort (default): ", printed)
        for kind in ("notfound", "constraint"):
            self.assertIn(f"--{kind} C omit or abort (default): ", printed)

    def test_new_store(self):
        """A store that is made is named. A damaged file, - and a word without --create make none."""
        self.make("cut.cs", self.data[:-1])
        self.expect(["apply", "a.cs", "new.db"], "", "new.db: there is no such store. --create makes it\n", 1)
        self.assertEqual(self.run_text("apply", "--create", "cut.cs", "new.db")[0], 1)
        self.assertEqual(self.run_text("apply", "--create", "a.cs", "-")[0], 2)
        self.assertEqual(sorted(os.listdir(self.folder)), ["a.cs", "cut.cs"])
        with contextlib.closing(sqlite3.connect(self.folder / "app.db")) as base:
            base.execute("CREATE TABLE own(a)")
        for name, words, said in (
            ("new.db", ["--create"], "new.db: a new store is made\n"),
            ("app.db", [], "app.db: the database becomes a store, by a table rec\n"),
        ):
            self.assertEqual(self.run_text("apply", "cut.cs", name)[0], 1)
            status, printed, reported = self.run_text("apply", "a.cs", name, *words)
            self.assertEqual((status, printed.splitlines()[-1], reported), (0, "applied 0", said))
            self.assertEqual(self.run_text("apply", "a.cs", name, *words)[2], "")

    def test_report(self):
        """The lines of the program, each with the key and the reason."""
        name = self.store((1, "other"), (3, "there"))
        choices = ["--data", "replace", "--notfound", "omit", "--conflict", "omit"]
        plain = subprocess.run(
            [PROGRAM, *choices, "a.cs", "apply", shutil.copy(self.folder / name, self.folder / "t.db")],
            cwd=self.folder, capture_output=True, text=True, timeout=PATIENCE,
        ).stdout
        status, printed, said = self.run_text("apply", "a.cs", name, *choices)
        self.assertEqual((status, said), (0, ""))
        self.assertEqual([it.split(":")[0] for it in printed.splitlines()], plain.splitlines())
        self.assertIn(
            "conflict 1 data replace 't': key 1: the row differs from the old one of the change\n"
            "conflict 2 notfound omit 't': key 2: the row of the change does not exist\n"
            "conflict 3 conflict omit 't': key 3: a row with the key of the change exists\n", printed,
        )
        self.assertEqual(self.rows(), [(1, "y"), (3, "there")])

    def test_ignored(self):
        self.store((1, "y"), (3, "\x1b[31mz"))
        status, printed, said = self.run_text("apply", "a.cs", "s.db", "--ignore-noop")
        self.assertEqual((status, said, printed.splitlines()[1:]), (0, "", ["ignored 3", "applied 0"]))

    def test_failures(self):
        """A message names the file at fault, and nothing is changed."""
        name = self.store((1, "other"))
        self.expect(["apply", "a.cs", name], "", (
            "a.cs: error 41 Abort data 't': key 1: the row differs from the old one of the change. "
            "Nothing is changed.\n"
        ), 1)
        self.make("cut.cs", self.data[:-1])
        status, printed, said = self.run_text("apply", "cut.cs", name)
        self.assertEqual((status, printed), (1, ""))
        self.assertRegex(said, r"\Acut\.cs: error 1 Truncated \d+: table 'u', change 1 ")
        self.assertEqual(self.rows(), [(1, "other")])
        self.make("text", b"no store, but a text that is long enough to be looked at " * 40)
        (self.folder / "folder").mkdir()
        for other, why in (("text", "not a SQLite database that can be a store"), ("folder", "a folder")):
            status, printed, said = self.run_text("apply", "a.cs", other)
            self.assertEqual((status, printed), (1, ""))
            self.assertEqual(said, f"{other}: error 38 StoreFault: '{other}' is {why}\n")

    def test_paths_that_are_none(self):
        """They are refused without a traceback."""
        os.mkdir(os.path.join(os.fsencode(self.folder), b"\xff"))
        name = os.fsdecode(b"\xff/s.db")
        for words in (["apply", "--create", "a.cs", name], ["shell", name]):
            status, printed, said = self.run_text(*words)
            self.assertEqual((status, printed), (1, ""))
            self.assertRegex(said, r"\A\\udcff/s\.db: the path .* is not UTF-8\n\Z")

    def test_program_that_is_missing(self):
        done = subprocess.run(
            [*WORDS, "apply", "--create", "a.cs", "s.db"], cwd=self.folder, capture_output=True, text=True,
            env=environment(VOLLIKASH_CALLS="no program"), timeout=PATIENCE,
        )
        self.assertEqual((done.returncode, done.stdout, done.stderr), (
            1, "", "s.db: no program does not run: No such file or directory\n"
        ))

    def ask(self, *answers, words=()):
        """The status, the printed text and the rows after a run that asks."""
        pairs = [(b"abort? ", answer) for answer in answers]
        status, printed = self.on_terminal("apply", "a.cs", "s.db", "--interactive", *words, typed=pairs)
        return status, printed, self.rows()

    def test_interactive(self):
        """Each conflict is asked about, with what the change does and the row that is there."""
        self.store((1, "other"), (3, "there"))
        status, printed, rows = self.ask(b"r\r", b"replace\r", b"o\r", b"x\r", b"R\r")
        self.assertEqual((status, rows), (0, [(1, "y"), (3, "\x1b[31mz")]))
        plain = re.sub("\x1b\\[[0-9]*m", "", printed)
        self.assertIn(
            "data: the row differs from the old one of the change\n"
            "  change   update t[a=1] b='x' -> 'y'\n"
            "  current  a=1, b='other'\n"
            "omit, replace, abort? r\n"
            "notfound: the row of the change does not exist\n"
            "  change   delete t[a=2] b='gone'\n"
            "omit, abort? replace\n"
            "omit, abort? o\n", plain,
        )
        self.assertIn(r"insert t[a=3] b='\x1b[31mz'", plain)
        self.assertTrue(plain.endswith("applied 2\n"), plain)

    def test_interactive_that_ends(self):
        self.store((1, "other"), (3, "there"))
        for answer in (b"a\r", b"\x04"):
            with self.subTest(answer=answer):
                status, printed, rows = self.ask(answer)
                self.assertEqual((status, rows), (1, [(1, "other"), (3, "there")]))
                self.assertIn("a.cs: error 41 Abort data 't': key 1: ", printed)
        status, printed, rows = self.ask(b"\x03")
        self.assertEqual((status, rows), (130, [(1, "other"), (3, "there")]))
        self.assertNotIn("Traceback", printed)

    def test_interactive_with_choices(self):
        """What an option decides is not asked."""
        self.store((1, "other"), (3, "there"))
        status, printed, rows = self.ask(
            b"o\r", words=["--data", "replace", "--conflict", "replace"]
        )
        self.assertEqual((status, rows), (0, [(1, "y"), (3, "\x1b[31mz")]))
        self.assertEqual(printed.count("abort? "), 1)

    def test_interactive_without_a_terminal(self):
        self.store((1, "other"))
        with self.start("apply", "a.cs", "s.db", "--interactive", start_new_session=True) as process:
            _, said = process.communicate(timeout=PATIENCE)
        self.assertEqual((process.returncode, said), (
            1, b"vollikash: --interactive needs a terminal. Use --data, --notfound and so on instead\n"
        ))


SCRIPT = (
    "CREATE TABLE t(a, b, PRIMARY KEY(a));", "INSERT INTO t VALUES(1, '\x1b[31mz');", "", "-- note",
    "nothing", "SELECT * FROM t;", ".load a 5402010074001200010000000000000001030178", ".dump a",
    ".apply a", ".apply a conflict=replace", "SELECT * FROM none;", ".session isempty", ".hex none",
)


class Shells(Folder):
    """shell."""

    def test_script(self):
        """A script prints what it does in the program, and ends with the same status."""
        for lines in (SCRIPT, SCRIPT[:4], (), ("SELECT * FROM t;",)):
            given = "\n".join(lines).encode()
            with self.subTest(lines=lines):
                done = subprocess.run(
                    [PROGRAM, ":memory:", "shell"], input=given, capture_output=True, timeout=PATIENCE
                )
                self.assertEqual(
                    self.run_raw("shell", ":memory:", given=given),
                    (done.returncode, done.stdout, done.stderr),
                )

    def test_line_that_is_not_utf_8(self):
        self.assertEqual(
            self.run_raw("shell", ":memory:", given=b"\xff\n.hex a\n"),
            (1, b"error 68 LineText\nerror 62 EmptySlot\n", b""),
        )

    def test_files(self):
        """Bytes get from files into slots and back, and lines are read from files."""
        data = (TOP / "tests/recorded/key-change.cs").read_bytes()
        self.make("a b.cs", data)
        self.make("lines", b".import a b.cs a\n.invert a b\n.read more lines\n")
        self.make("more lines", b".write b out put.cs\n.quit\n.dump a\n")
        self.expect(["shell", "s.db"], "", given=b".read lines\n.dump a\n")
        self.assertEqual((self.folder / "out put.cs").read_bytes(), vollikash.invert(data))

    def test_files_that_fail(self):
        self.make("again", b".read again\n")
        self.make("long", bytes(1 << 23))
        status, printed, said = self.run_text("shell", ":memory:", given="\n".join((
            ".import none a", ".import a", ".import - a", ".import long a", ".write a", ".write none x",
            ".read none", ".read", ".read again", ".load a", ".write a none/x", ".import again 1-2",
        )).encode())
        self.assertEqual((status, said), (1, ""))
        self.assertEqual([line.split(". ")[0] for line in printed.splitlines()], [
            "none: error 71 InputFault: No such file or directory",
            "the shell: .import FILE SLOT is expected", "standard input: it has the lines",
            "long: error 63 ScriptTooLong: a line takes a file of at most 8380416 bytes",
            "the shell: .write SLOT FILE is expected", "error 62 EmptySlot",
            "none: error 71 InputFault: No such file or directory", "the shell: .read FILE is expected",
            "again: .read is nested more than 16 deep",
            "none/x: error 72 OutputFault: No such file or directory", "error 61 Syntax 7",
        ])

    def test_help(self):
        """The help has each line of the document."""
        documented = re.findall(r"^\| `([^`|]*)` \|", (TOP / "docs/SHELL.md").read_text(), re.M)
        self.assertGreater(len(documented), 15)
        status, printed, _ = self.run_text("shell", ":memory:", given=b".help\n")
        for line in [*documented, ".read FILE", ".write SLOT FILE", ".import FILE SLOT", ".help"]:
            self.assertIn(f"{line} " if "[" not in line else line, printed.replace("\n", " "))

    def test_reasons(self):
        """Each error that a line can have has its reason."""
        rows = re.findall(r"^\| (\d+) \|", (TOP / "docs/ERRORS.md").read_text(), re.M)
        lines = {number for number in map(int, rows) if 30 <= number < 70 and number != Code.WRONG_STORE}
        self.assertEqual(lines, {int(number) for number in _messages.SENTENCES})

    def test_prompt(self):
        """On a terminal there are a prompt, a history and reasons, and nothing raw is printed."""
        lines = [line for line in SCRIPT[:6] if line]
        typed = [(b"> ", line.replace("\x1b", "\x16\x1b").encode() + b"\r") for line in lines]
        typed += [(b"> ", b"\x1b[A\x1b[A\r"), (b"> ", b"\x04")]
        status, printed = self.on_terminal("shell", "s.db", typed=typed, HOME=str(self.folder))
        self.assertEqual(status, 0)
        self.assertIn("\nerror 61 Syntax 1: not understood at ", printed)
        self.assertEqual(printed.count("error 61 Syntax 1"), 2)
        self.assertIn("\n1|'\\x1b[31mz'\n", printed)
        history = (self.folder / ".vollikash_history").read_text().splitlines()
        self.assertEqual(history[-2:], ["SELECT * FROM t;", "nothing"])
        status, printed = self.on_terminal(
            "shell", "s.db", typed=[(b"> ", b"\x1b[A\r"), (b"> ", b"\x03")], HOME=str(self.folder)
        )
        self.assertEqual(status, 130)
        self.assertIn("error 61 Syntax 1", printed)
        self.assertNotIn("Traceback", printed)

    def test_store_that_is_in_use(self):
        with vollikash.open(self.folder / "s.db") as store:
            store.create("t", ["a"], key=["a"])
            status, printed, said = self.run_text("shell", "s.db")
        self.assertEqual((status, printed), (1, ""))
        self.assertEqual(said, "s.db: error 38 StoreFault: 's.db' is in use by another program or connection\n")

    def test_lines_that_are_too_many(self):
        """After the lines that a program takes, an error is printed for each."""
        with unittest.mock.patch.dict(os.environ, VOLLIKASH_PROGRAM=str(PROGRAM)):
            program = _lines.LineProgram(":memory:")
        self.addCleanup(program.close)
        program.left = 1000
        self.assertEqual(program.answer(".hex a"), "error 62 EmptySlot\n")
        self.assertEqual(program.answer(".load a " + "00" * 500), "error 63 ScriptTooLong\n")


@unittest.skipUnless(find_chromium(), "no Chromium")
class Pages(Folder):
    """html, in a browser."""

    @classmethod
    def setUpClass(cls):
        cls.browser = Chromium()
        cls.addClassCleanup(cls.browser.__exit__)

    def open(self, *words, **files):
        """Make a page of files by name, open it, and return its text."""
        for name, data in files.items():
            self.make(f"{name}.cs", data)
        names = [f"{name}.cs" for name in files]
        self.assertEqual(self.run_raw("html", *names, *words, "-o", "page.html"), (0, b"", b""))
        self.browser.open(self.folder / "page.html")
        return (self.folder / "page.html").read_text()

    def rows(self):
        """The texts of the rows that are seen."""
        return self.browser.value(
            "[...document.querySelectorAll('tbody tr')].filter(row => row.checkVisibility())"
            ".map(row => [...row.cells].map(cell => cell.textContent))"
        )

    def filter(self, **chosen):
        """Type into the filter, and return what it says then."""
        for name, text in chosen.items():
            self.browser.value(f"document.getElementById('{name}').value = {json.dumps(text)}")
        self.browser.value(
            "document.getElementById('text').dispatchEvent(new Event('input', {bubbles: true}))"
        )
        return self.browser.value(
            "new Promise(done => setTimeout(() => done(document.getElementById('count').innerText), 300))"
        )

    def colours(self):
        """The colours of the rows of each operation, and those of the old and the new value."""
        return self.browser.value(
            "['tr.insert', 'tr.update', 'tr.delete', 'tr.update del', 'tr.update ins', 'body'].map(it => {"
            " const style = getComputedStyle(document.querySelector(it));"
            " return [style.backgroundColor, style.color]; })"
        )

    def test_rows_and_colours(self):
        self.open(a=made_up(1))
        self.assertEqual(self.rows(), [
            ["insert", "7", "it's", "NULL"], ["update", "3", "a b", ""],
            ["deleteindirect", "2", "X'00ff'", "-5"], ["insert", "0", "x"],
        ])
        self.assertEqual(self.browser.value(
            "[...document.querySelectorAll('h1, h2, h3, thead th, main p')].map(it => it.textContent)"
        ), [
            "Changes of a.cs", "a.cs", "4 changes in 2 tables: 2 inserts, 1 update, 1 delete",
            "notes1 insert, 1 update, 1 delete", "", "c1", "c2", "c3", "two words1 insert", "", "c1", "c2",
        ])
        light = self.colours()
        grounds = [ground for ground, _ in light[:3]]
        self.assertEqual(len(set(grounds)), 3)
        self.assertEqual(len({ink for _, ink in light[3:]}), 3)
        scheme = [{"name": "prefers-color-scheme", "value": "dark"}]
        self.browser.call("Emulation.setEmulatedMedia", features=scheme)
        dark = self.colours()
        self.assertTrue(all(one != other for one, other in zip(light, dark)))

    def test_schema_and_files(self):
        base = sqlite3.connect(self.folder / "app.db")
        base.execute("CREATE TABLE notes(id INTEGER PRIMARY KEY, text, label)")
        base.execute('CREATE TABLE "two words"(one, two, PRIMARY KEY(one, two))')
        base.close()
        self.open("--schema", "app.db", a=made_up(1), b=b"")
        heads = "[...document.querySelectorAll('h1, h2, thead th')].map(it => it.textContent)"
        self.assertEqual(self.browser.value(heads), [
            "Changes of 2 files", "a.cs", "", "id", "text", "label", "", "one", "two", "b.cs",
        ])

    def test_filter(self):
        """Changes are found by table, by text and by operation."""
        self.open(a=made_up(250))
        self.assertEqual(len(self.rows()), 253)
        self.assertEqual(self.filter(text="IT'S"), "1 of 253 changes")
        self.assertEqual([row[1] for row in self.rows()], ["7"])
        self.assertEqual(self.filter(text="249"), "1 of 253 changes")
        self.assertEqual(self.filter(text="", table="0"), "3 of 253 changes")
        self.assertEqual(self.browser.value("document.querySelectorAll('h3').length"), 2)
        self.assertEqual([row[0] for row in self.rows()], ["insert", "update", "deleteindirect"])
        self.browser.value("document.querySelector('input[value=update]').checked = false")
        self.assertEqual(self.filter(table=""), "252 of 253 changes")
        self.assertEqual(self.filter(text="none"), "0 of 253 changes")
        self.assertEqual(self.rows(), [])

    def test_hostile_texts(self):
        """A text does nothing, the page asks for nothing, and its policy would refuse both."""
        page = self.open(**{"<img src=x onerror=document.title='x'>": hostile()})
        self.assertEqual(page.count("<script"), 1)
        self.assertNotIn("<img", page)
        self.assertIsNone(re.search("[\x00-\x08\x0b-\x1f\x7f-\x9f\u202e]", page))
        self.assertTrue(self.browser.value("document.title").startswith("Changes of <img"))
        self.assertEqual(self.browser.value("document.scripts.length"), 1)
        self.assertEqual(self.filter(text="</SCRIPT>"), "2 of 2 changes")
        self.assertIn("<script>document.title = 'x'</script>\\u202e", self.rows()[0][2])
        asked = [it["params"]["request"]["url"] for it in self.browser.events
                 if it.get("method") == "Network.requestWillBeSent"]
        self.assertEqual(asked, [(self.folder / "page.html").as_uri()])
        faults = ("Log.entryAdded", "Runtime.exceptionThrown")
        self.assertEqual([it for it in self.browser.events if it.get("method") in faults], [])
        self.browser.value(
            "document.body.append(Object.assign(document.createElement('script'), "
            "{textContent: 'document.title = 1'}))"
        )
        self.assertNotEqual(self.browser.value("document.title"), "1")

    def test_many_changes(self):
        """A page of 10,000 changes is open within two seconds."""
        builder = Builder()
        builder.table("t", key=[True, False, False, False])
        for number in range(10_000):
            if number % 2:
                builder.insert("t", number, f"text {number}", None, b"\x01\x02\x03")
            else:
                builder.update(
                    "t", old=[number, "old", UNDEFINED, UNDEFINED], new=[UNDEFINED, "new", UNDEFINED, UNDEFINED]
                )
        data = builder.to_bytes()
        self.make("a.cs", data)
        self.run_raw("html", "a.cs", "-o", "page.html")
        taken = min(self.seconds() for _ in range(3))
        print(f"10000 changes are open in {taken:.2f} s", file=sys.stderr)
        self.assertLess(taken, 2)
        self.assertEqual(self.browser.value("document.querySelectorAll('tbody tr').length"), 10_000)

    def seconds(self):
        """How many seconds it takes until the page is drawn."""
        start = time.monotonic()
        self.browser.open(self.folder / "page.html")
        self.browser.value("new Promise(done => requestAnimationFrame(() => setTimeout(done)))")
        return time.monotonic() - start


class Described(unittest.TestCase):
    """Completions and the page of the manual have what the parser has."""

    @staticmethod
    @functools.lru_cache(maxsize=None)
    def words():
        """Each subcommand with its long options."""
        text, found = _parser.parser().format_help(), {}
        for command in re.findall(r"^    ([a-z-]+)", text, re.M):
            helped = subprocess.run(
                [*WORDS, command, "--help"], env=environment(), capture_output=True, text=True, check=True,
                timeout=PATIENCE,
            ).stdout
            options = set(re.findall(r"(?<![\w-])--[a-z-]+", helped.split("example:")[0]))
            found[command] = sorted(options)
        return found

    def test_manual(self):
        page = (TOP / "man/vollikash.1").read_text().replace("\\-", "-")
        for command, options in self.words().items():
            for word in (command, *options):
                with self.subTest(command=command, word=word):
                    self.assertRegex(page, rf"(?m)^\.(B|BI|BR|RB).*{word}")

    @unittest.skipUnless(shutil.which("man"), "no man")
    def test_manual_is_set(self):
        done = subprocess.run(
            ["man", "--warnings", "-E", "UTF-8", "-l", "-Tutf8", "-Z", TOP / "man/vollikash.1"],
            capture_output=True, text=True, timeout=PATIENCE, env=environment(MANROFFSEQ="", LC_ALL="C.UTF-8"),
        )
        self.assertEqual((done.returncode, done.stderr), (0, ""))

    def completed(self, *words):
        """What bash completes the last of some words to."""
        script = (
            f"source {shlex.quote(str(HERE / 'completions/vollikash.bash'))}\n"
            f"COMP_WORDS=({' '.join(map(shlex.quote, words))})\nCOMP_CWORD={len(words) - 1}\n"
            "COMPREPLY=()\n_vollikash\nprintf '%s\\n' \"${COMPREPLY[@]}\"\n"
        )
        printed = subprocess.run(
            ["bash", "-c", script], capture_output=True, text=True, check=True, timeout=PATIENCE,
        ).stdout
        return sorted(printed.split())

    def test_bash(self):
        commands = self.words()
        self.assertEqual(self.completed("vollikash", ""), sorted([*commands, "--help", "--version"]))
        self.assertEqual(self.completed("vollikash", "s"), ["select", "shell", "show", "stat"])
        for command, options in commands.items():
            with self.subTest(command=command):
                self.assertEqual(self.completed("vollikash", command, "--"), options)
        self.assertEqual(self.completed("vollikash", "apply", "--data", ""), ["abort", "omit", "replace"])

    @unittest.skipUnless(shutil.which("zsh"), "no zsh")
    def test_zsh(self):
        path = HERE / "completions/_vollikash"
        subprocess.run(["zsh", "-n", path], check=True, timeout=PATIENCE)
        text = path.read_text()
        for command, options in self.words().items():
            block = re.search(rf"^ +{command}\)\n(.*?);;", text, re.M | re.S)[1]
            block = block.replace("$output", "--output").replace("$schema", "--schema")
            self.assertIn(f"'{command}:", text)
            for option in options:
                with self.subTest(command=command, option=option):
                    self.assertTrue(option in block or option == "--help", option)


if __name__ == "__main__":
    unittest.main()

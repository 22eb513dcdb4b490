#!/usr/bin/env python3
"""The command: its words, the files that it reads and writes, stores, and exit statuses.

What the program has to print is written out here, by the documents. Python's own sqlite3 writes and
reads the stores (`support/stores.py`). `recorded/` has files that SQLite's session extension
recorded. The program has to be built first.
"""
import contextlib
import json
import os
import pathlib
import pty
import signal
import sqlite3
import subprocess
import tempfile
import termios
import time
import unittest

from support.program import PATIENCE, PROGRAM, TESTS, main
from support.programs import (
    COMMANDS, DAMAGED_STORE, KEY, KINDS, MANY, MANY_INSERTS, NEEDS_FULL, NULL_UPDATE, WIDER_INSERT, ProgramTest,
    StoreTest, refusing, tables_of,
)
from support.samples import (
    CREATE, CREATE_N, DELETE, INPUT_FAULT, INSERT, N, NULL_INSERT, OUTPUT_FAULT, STORE_FAULT, T, UPDATE
)
from support.stores import (
    FORMER, RECORDS, UNDEFINED, VERSION, Table, count_changes, delete, header, insert, literal, read_changeset,
    read_records, records_of, run_schema, run_sql, run_statements, shown, shown_rows, update,
)

RECORDED = TESTS / "recorded"

USAGE = """\
Usage: changeset [--data C] [--notfound C] [--conflict C] [--constraint C] [--ignore-noop] FILE COMMAND ...
COMMANDs:
  apply STORE        Apply the changeset to the store STORE
  concat FILE2 OUT   Concatenate FILE and FILE2 into OUT
  dump               Show the complete content of the changeset
  invert OUT         Write an inverted changeset into file OUT
  sql                Give a pseudo-SQL rendering of the changeset
  shell              Run a script from standard input on the store FILE
C is omit, replace or abort (the default).
"""


class Words(ProgramTest):
    """Words that fit no command, ask for help, or choose what is done about conflicts."""

    def expect_usage(self, *words):
        """Runs the program with words that fit no command."""
        with self.subTest(words=words):
            self.expect(words, 2, "", USAGE)

    def test_number_of_arguments(self):
        self.make("a.cs", INSERT)
        for command, count in COMMANDS.items():
            for given in range(4):
                if given != count:
                    self.expect_usage("a.cs", command, *"opq"[:given])
        self.expect_files("a.cs")

    def test_misuse(self):
        self.make("a.cs", INSERT)
        for words in (
            ["a.cs"],
            ["a.cs", "frob"],
            ["a.cs", "frob", "o"],
            ["a.cs", "DUMP"],
            ["a.cs", ""],
            ["--data", "omit"],
            ["--data", "omit", "a.cs"],
            ["--data", "maybe", "a.cs", "dump"],
            ["--data", "Omit", "a.cs", "dump"],
            ["--data=", "a.cs", "dump"],
            ["--conflict", "a.cs", "dump"],
            ["a.cs", "dump", "--notfound"],
            ["--dta", "omit", "a.cs", "dump"],
            ["--da", "omit", "a.cs", "dump"],
            ["-d", "omit", "a.cs", "dump"],
            ["-", "dump", "x"],
            ["--version"],
            ["--data", "omit", "--data", "omit", "a.cs", "dump"],
            ["--constraint", "a.cs", "dump"],
            ["--constraint=", "a.cs", "dump"],
            ["--constraint", "ignore", "a.cs", "dump"],
            ["--constraint=OMIT", "a.cs", "dump"],
            ["--constrain", "omit", "a.cs", "dump"],
            ["--constraint=omit", "--constraint=omit", "a.cs", "dump"],
            ["--", "--help"],
            ["--dta", "-h"],
            ["--data", "-h"],
        ):
            self.expect_usage(*words)
        self.expect_files("a.cs")

    def test_help(self):
        for words in (
            ["--help"], ["-h"], ["a.cs", "--help"], ["a.cs", "frob", "--help"], ["a.cs", "invert", "o", "--help"],
            ["--data", "omit", "-h"],
        ):
            with self.subTest(words=words):
                self.expect(words, 0, USAGE)
        self.expect_files()

    @NEEDS_FULL
    def test_help_that_is_not_written(self):
        self.assertEqual(self.run_full("--help"), (1, "", OUTPUT_FAULT))

    def test_help_that_nobody_reads(self):
        self.assertEqual(self.run_closed("--help"), (1, "", OUTPUT_FAULT))

    def test_options_with_another_command(self):
        self.make("a.cs", INSERT)
        dumped = "table 't' columns 2 flags 1,0\ninsert 0 new 1,'x'\n"
        for words in (
            ["--data", "omit", "a.cs", "dump"],
            ["--data=omit", "a.cs", "dump"],
            ["a.cs", "--notfound", "replace", "dump"],
            ["a.cs", "dump", "--conflict=abort"],
            ["--data=omit", "--notfound=omit", "--conflict=omit", "a.cs", "dump"],
            ["--constraint", "replace", "a.cs", "dump"],
            ["a.cs", "--constraint=omit", "--ignore-noop", "dump"],
            ["--", "a.cs", "dump"],
        ):
            with self.subTest(words=words):
                self.expect(words, 0, dumped)

    def test_operands_behind_two_dashes(self):
        self.make("--help", INSERT)
        self.expect(["--", "--help", "invert", "-o"], 0)
        self.assertEqual(self.bytes_of("-o"), DELETE)

    def test_words_that_are_not_utf_8(self):
        self.make("a.cs", INSERT)
        self.expect([b"a.cs", b"invert", b"\xff"], 2, "", USAGE)
        self.expect_files("a.cs")


class Files(ProgramTest):
    """Inverses, joins and texts of files."""

    def test_inverse(self):
        self.make("a.cs", INSERT)
        self.expect(["a.cs", "invert", "o.cs"], 0)
        self.assertEqual(self.bytes_of("o.cs"), DELETE)
        self.assertEqual(self.bytes_of("a.cs"), INSERT)

    def test_inverse_in_place(self):
        self.make("a.cs", INSERT)
        self.expect(["a.cs", "invert", "a.cs"], 0)
        self.assertEqual(self.bytes_of("a.cs"), DELETE)

    def test_longer_out_is_replaced(self):
        self.make("a.cs", INSERT)
        self.make("o.cs", b"x" * 10_000)
        self.expect(["a.cs", "invert", "o.cs"], 0)
        self.assertEqual(self.bytes_of("o.cs"), DELETE)

    def test_join_in_place(self):
        self.make("a.cs", UPDATE)
        self.make("b.cs", DELETE)
        self.expect(["b.cs", "concat", "a.cs", "b.cs"], 0)
        self.assertEqual(self.bytes_of("b.cs"), DELETE)
        self.assertEqual(self.bytes_of("a.cs"), UPDATE)

    def test_many_keys(self):
        self.make("a.cs", MANY_INSERTS)
        self.expect(["a.cs", "invert", "inverse.cs"], 0)
        self.expect(["a.cs", "concat", "inverse.cs", "o.cs"], 0)
        self.assertEqual(self.bytes_of("o.cs"), b"")
        self.make("a.cs", MANY_INSERTS + insert(MANY - 1, "x"))
        self.expect(["a.cs", "dump"], 1, "", f"error 18 DuplicateKey {len(MANY_INSERTS)}\n")

    def test_join_that_is_refused(self):
        self.make("a.cs", INSERT)
        self.make("wide.cs", WIDER_INSERT)
        self.make("p.cs", b"P")
        for words, line in (
            (["a.cs", "concat", "wide.cs", "o"], "error 43 Schema 0\n"),
            (["a.cs", "concat", "none", "o"], INPUT_FAULT),
            (["a.cs", "concat", "p.cs", "o"], "error 3 Patchset 0\n"),
            (["p.cs", "concat", "none", "o"], INPUT_FAULT),
        ):
            with self.subTest(words=words):
                self.expect(words, 1, "", line)
        self.expect_files("a.cs", "wide.cs", "p.cs")

    def test_out_stays_where_a_file_is_refused(self):
        self.make("a.cs", INSERT)
        self.make("p.cs", b"P")
        for words, line in (
            (["none", "invert", "o"], INPUT_FAULT), (["p.cs", "invert", "o"], "error 3 Patchset 0\n"),
            (["a.cs", "concat", "none", "o"], INPUT_FAULT), (["a.cs", "concat", "p.cs", "o"], "error 3 Patchset 0\n"),
        ):
            with self.subTest(words=words):
                self.make("o", b"old")
                self.expect(words, 1, "", line)
                self.assertEqual(self.bytes_of("o"), b"old")

    def test_file_that_is_missing(self):
        (self.folder / "folder").mkdir()
        for words in (
            ["none", "invert", "o"], ["none", "dump"], ["none", "sql"], ["none", "apply", "s"], ["folder", "dump"],
        ):
            with self.subTest(words=words):
                self.expect(words, 1, "", INPUT_FAULT)
        self.expect_files("folder")

    def test_out_that_cannot_be_opened(self):
        self.make("a.cs", INSERT)
        self.expect(["a.cs", "invert", "no folder/o"], 1, "", OUTPUT_FAULT)
        self.expect(["a.cs", "concat", "a.cs", "no folder/o"], 1, "", OUTPUT_FAULT)
        self.expect_files("a.cs")

    def test_changesets_that_are_refused(self):
        for content, line in (
            (b"P", "error 3 Patchset 0\n"),
            (b"A", "error 2 NotTable 0\n"),
            (T, "error 9 EmptyGroup 6\n"),
            (INSERT[:-1], "error 1 Truncated 19\n"),
            (T + b"\x12\x00" + KEY + b"\x02", "error 13 RealValue 17\n"),
            (INSERT + delete(1, "x"), "error 18 DuplicateKey 20\n"),
        ):
            self.make("a.cs", content)
            for words in (["a.cs", "invert", "o"], ["a.cs", "dump"], ["a.cs", "sql"]):
                with self.subTest(words=words, line=line):
                    self.expect(words, 1, "", line)
        self.expect_files("a.cs")

    def test_texts(self):
        self.make("a.cs", UPDATE)
        self.expect(["a.cs", "dump"], 0, "table 't' columns 2 flags 1,0\nupdate 0 old 1,'x' new -,'y'\n")
        self.expect(["a.cs", "sql"], 0, "UPDATE \"t\" SET c2='y' WHERE c1=1 AND c2='x';\n")
        self.make("a.cs", T + delete(1, None) + insert(2, b"\xff") + update((3, UNDEFINED), (UNDEFINED, UNDEFINED)))
        self.expect(["a.cs", "sql"], 0, (
            'DELETE FROM "t" WHERE c1=1 AND c2 IS NULL;\n'
            "INSERT INTO \"t\" VALUES(2, X'ff');\n"
            'UPDATE "t" SET c1=3 WHERE c1=3;\n'
        ))

    def test_out_is_the_old_file_or_the_new_one(self):
        """What is in OUT if the file that is written next to it cannot be written, and if it can.
        """
        self.make("a.cs", INSERT)
        self.make("o.cs", b"old")
        os.chmod(self.folder / "o.cs", 0o640)
        self.expect(["a.cs", "invert", "o.cs"], 0)
        self.assertEqual(self.bytes_of("o.cs"), DELETE)
        self.assertEqual(os.stat(self.folder / "o.cs").st_mode & 0o777, 0o640)
        self.expect_files("a.cs", "o.cs")
        self.make("o.cs", b"old")
        self.assertEqual(self.run_cut("a.cs", "invert", "o.cs"), (1, "", OUTPUT_FAULT))
        self.assertEqual(self.bytes_of("o.cs"), b"old")
        self.expect_files("a.cs", "o.cs")

    def test_in_place_on_a_disk_that_is_full(self):
        self.make("a.cs", INSERT)
        self.assertEqual(self.run_cut("a.cs", "invert", "a.cs"), (1, "", OUTPUT_FAULT))
        self.assertEqual(self.bytes_of("a.cs"), INSERT)
        self.expect_files("a.cs")

    def test_out_through_links(self):
        (self.folder / "far").mkdir()
        self.make("a.cs", INSERT)
        self.make("far/o.cs", b"old")
        os.symlink("far/o.cs", self.folder / "link")
        os.symlink("link", self.folder / "again")
        os.symlink("far/none.cs", self.folder / "dangling")
        for name, target in (("again", "far/o.cs"), ("dangling", "far/none.cs")):
            with self.subTest(name=name):
                self.expect(["a.cs", "invert", name], 0)
                self.assertEqual(self.bytes_of(target), DELETE)
                self.assertTrue(os.path.islink(self.folder / name))
        self.assertEqual(sorted(os.listdir(self.folder / "far")), ["none.cs", "o.cs"])
        os.remove(self.folder / "far/none.cs")
        for name in ("again", "dangling"):
            with self.subTest(full=name):
                self.assertEqual(self.run_cut("a.cs", "concat", "a.cs", name), (1, "", OUTPUT_FAULT))
        self.assertEqual(sorted(os.listdir(self.folder / "far")), ["o.cs"])
        self.assertEqual(self.bytes_of("far/o.cs"), DELETE)

    @unittest.skipUnless(os.path.isdir("/dev/shm"), "no /dev/shm")
    def test_out_is_a_plain_file_below_dev(self):
        with tempfile.TemporaryDirectory(dir="/dev/shm") as folder:
            out = pathlib.Path(folder) / "o.cs"
            self.make("a.cs", INSERT)
            self.expect(["a.cs", "invert", str(out)], 0)
            self.assertEqual(out.read_bytes(), DELETE)
            out.write_bytes(b"\x00" * 10_000)
            self.expect(["a.cs", "invert", str(out)], 0)
            self.expect([str(out), "invert", str(out)], 0)
            self.assertEqual(out.read_bytes(), INSERT)
            self.assertEqual(os.listdir(folder), ["o.cs"])

    def test_out_is_no_plain_file(self):
        """Bytes are written into a pipe unchanged, after what is in the standard output, and
        not into a folder.
        """
        self.make("a.cs", INSERT)
        for out in ("/dev/stdout", "/dev/fd/1"):
            done = subprocess.run(
                [PROGRAM, "a.cs", "invert", out], cwd=self.folder, capture_output=True, timeout=PATIENCE
            )
            self.assertEqual((done.returncode, done.stdout, done.stderr), (0, DELETE, b""))
        with open(self.folder / "log", "wb") as log:
            log.write(b"before")
            log.flush()
            subprocess.run([PROGRAM, "a.cs", "invert", "/dev/stdout"], cwd=self.folder, stdout=log, timeout=PATIENCE)
        self.assertEqual(self.bytes_of("log"), b"before" + DELETE)
        os.mkfifo(self.folder / "pipe")
        reader = subprocess.Popen(["cat", "pipe"], cwd=self.folder, stdout=subprocess.PIPE)
        self.expect(["a.cs", "invert", "pipe"], 0)
        self.assertEqual(reader.communicate(timeout=PATIENCE)[0], DELETE)
        (self.folder / "folder").mkdir()
        self.expect(["a.cs", "invert", "folder"], 1, "", OUTPUT_FAULT)

    def test_name_that_is_taken(self):
        """A file of the name that a new one would have stays."""
        self.make("a.cs", INSERT)
        self.make(".changeset-0.new", b"mine")
        self.expect(["a.cs", "invert", "o.cs"], 0)
        self.assertEqual(self.bytes_of("o.cs"), DELETE)
        self.assertEqual(self.bytes_of(".changeset-0.new"), b"mine")
        self.expect_files("a.cs", "o.cs", ".changeset-0.new")

    def test_longest_file(self):
        """A file of zero bytes is no changeset; one byte more than it may have, and it is not read.
        """
        for length, line in ((1_073_741_824, "error 2 NotTable 0\n"), (1_073_741_825, INPUT_FAULT)):
            with self.subTest(length=length), open(self.folder / "sparse", "wb") as file:
                file.truncate(length)
                self.expect(["sparse", "dump"], 1, "", line)

    @NEEDS_FULL
    def test_texts_that_are_not_written(self):
        self.make("a.cs", INSERT)
        for words in (["dump"], ["sql"], ["invert", "/dev/full"], ["concat", "a.cs", "/dev/full"]):
            with self.subTest(words=words):
                self.assertEqual(self.run_full("a.cs", *words), (1, "", OUTPUT_FAULT))

    def test_files_that_nobody_reads(self):
        self.make("a.cs", INSERT)
        for words in (["dump"], ["sql"], ["invert", "/dev/stdout"], ["concat", "a.cs", "/dev/stdout"]):
            with self.subTest(words=words):
                self.assertEqual(self.run_closed("a.cs", *words), (1, "", OUTPUT_FAULT))
        self.expect_files("a.cs")


class Scripts(ProgramTest):
    """The standard input, run as a script."""

    def test_script(self):
        self.assertEqual(self.run_program(stdin=b".load a 0f\n.hex a"), (0, "0f\n", ""))
        self.assertEqual(self.run_program(stdin=b""), (0, "", ""))

    def test_script_with_a_refused_line(self):
        script = b".hex a\n\xff\n.load a 0f\n.hex a\n"
        printed = "error 62 EmptySlot\nerror 68 LineText\n0f\n"
        self.assertEqual(self.run_program(stdin=script), (1, printed, ""))

    def test_longest_script(self):
        """What a script prints that has this many line feeds and then something else."""
        for feeds, behind, status, printed in (
            (16_777_216, b"", 0, ""),
            (16_777_210, b".hex q", 1, "error 62 EmptySlot\n"),
            (16_777_217, b"", 1, "error 63 ScriptTooLong\n"),
            (16_777_210, b".hex qq", 1, "error 63 ScriptTooLong\n"),
        ):
            with self.subTest(feeds=feeds, behind=behind):
                self.assertEqual(self.run_program(stdin=b"\n" * feeds + behind), (status, printed, ""))

    def test_script_that_is_not_read(self):
        folder = os.open(self.folder, os.O_RDONLY)
        self.addCleanup(os.close, folder)
        self.assertEqual(self.run_program(stdin=folder), (1, "", INPUT_FAULT))

    @NEEDS_FULL
    def test_answers_that_are_not_written(self):
        self.assertEqual(self.run_full(stdin=b".hex a"), (1, "", OUTPUT_FAULT))

    def test_line_of_ten_megabytes(self):
        """A line of 10 MB is answered, and so is the next one."""
        text = "x" * 10_000_000
        for lines, printed in (
            (["-- " + text, ".hex a"], ""),
            ([".hex " + text, ".hex a"], "error 62 EmptySlot\n"),
            ([CREATE, f"INSERT INTO t VALUES(1, '{text}');", "SELECT * FROM t;", ".hex a"], f"1|'{text}'\n"),
        ):
            # assertEqual would show where such lines differ, which takes it minutes.
            wanted = (1, printed + "error 62 EmptySlot\n", "")
            self.assertTrue(self.run_lines(lines) == wanted, [line[:30] for line in lines])

    def test_each_line_is_answered_before_more_is_read(self):
        with self.dialogue() as child:
            for text, answer in (
                (CREATE + "\n", ""),
                ("SELECT * FROM none;\n", "error 31 NoTable\n"),
                ("INSERT INTO t VALUES(1, 'x');\n", ""),
                ("SELECT * FROM t;\n", "1|'x'\n"),
                ("INSERT INTO t VALUES(1, 'y');\n", "error 33 KeyTaken\n"),
                (f".load a {UPDATE.hex()}\n", ""),
                (".hex a\n", UPDATE.hex() + "\n"),
                (".apply a\n", "applied 1\n"),
                # Two lines at once, and a line by halves.
                (".dump a\nSELECT * FROM t;\n", "table 't' columns 2 flags 1,0\nupdate 0 old 1,'x' new -,'y'\n1|'y'\n"),
                (".reve", ""),
                ("rt a\n", "applied 1\n"),
                # The last line has no line feed, and is answered at the end.
                ("SELECT * FROM t;", ""),
            ):
                self.expect_answer(child, text, answer)
            self.assertEqual(child.communicate(timeout=PATIENCE), (b"1|'x'\n", b""))
            self.assertEqual(child.returncode, 1)


class Applies(StoreTest):
    """Changesets that are applied to a store, or refused."""

    def test_update_and_its_inverse(self):
        self.write(tables_of((1, "x")))
        self.expect_applied(UPDATE, "applied 1\n")
        self.assertEqual(self.read(), tables_of((1, "y")))
        self.expect(["a.cs", "invert", "inverse.cs"], 0)
        self.expect_applied(self.bytes_of("inverse.cs"), "applied 1\n")
        self.assertEqual(self.read(), tables_of((1, "x")))

    def test_insert_and_delete(self):
        self.write(tables_of())
        self.expect_applied(INSERT, "applied 1\n")
        self.assertEqual(self.read(), tables_of((1, "x")))
        self.expect_applied(DELETE, "applied 1\n")
        self.assertEqual(self.read(), tables_of())

    def test_empty_changeset(self):
        self.write(tables_of((1, "x")))
        self.expect_applied(b"", "applied 0\n")
        self.assertEqual(self.read(), tables_of((1, "x")))

    def test_updates_that_modify_nothing(self):
        self.write(tables_of((1, "x")))
        for entry in (update((1, "x"), (UNDEFINED, "x")), update((1, UNDEFINED), (UNDEFINED, UNDEFINED))):
            self.expect_applied(T + entry, "applied 1\n")
            self.assertEqual(self.read(), tables_of((1, "x")))

    def test_conflicts_abort(self):
        """What is in the table, the entries, and the kind of the conflict that ends the call.
        """
        same = update((1, UNDEFINED), (UNDEFINED, UNDEFINED))
        for rows, entries, kind in (
            ([(1, "z")], [insert(1, "x")], "conflict"),
            ([(1, "x")], [insert(1, "x")], "conflict"),
            ([], [insert(2, "q"), delete(1, "x")], "notfound"),
            ([], [update((1, "x"), (UNDEFINED, "y"))], "notfound"),
            ([], [same], "notfound"),
            ([(1, "y")], [delete(1, "x")], "data"),
            ([(1, "z")], [update((1, "x"), (UNDEFINED, "y"))], "data"),
            ([(11, "x")], [insert(key, "n") for key in range(1, 12)], "conflict"),
        ):
            with self.case(rows=rows, kind=kind):
                self.write(tables_of(*rows))
                self.expect_refused(T + b"".join(entries), f"error 41 Abort {kind} 't'\n")

    def test_changesets_that_are_refused(self):
        self.write(tables_of((2, "q")))
        for changeset, line in (
            (INSERT + delete(1, "x"), "error 18 DuplicateKey 20\n"),
            (INSERT + b"P", "error 3 Patchset 20\n"),
            (T + b"\x12\x00" + KEY + b"\x02", "error 13 RealValue 17\n"),
            (INSERT[:-1], "error 1 Truncated 19\n"),
        ):
            with self.subTest(line=line):
                self.expect_refused(changeset, line)

    def test_tables_that_are_skipped(self):
        missing = header("it's", 1, 0) + insert(1, "x")
        wider = header("t", 1, 0, 0) + insert(1, "x", None)
        self.write(tables_of())
        self.expect_applied(missing + INSERT, "warning 17 skipped 'it''s'\napplied 1\n")
        self.assertEqual(self.read(), tables_of((1, "x")))
        self.expect_applied(wider + missing, "warning 17 skipped 't'\nwarning 17 skipped 'it''s'\napplied 0\n")
        self.assertEqual(self.read(), tables_of((1, "x")))

    def test_table_with_another_key_is_skipped(self):
        tables = tables_of(keys=(False, True))
        self.write(tables)
        self.expect_applied(INSERT, "warning 17 skipped 't'\napplied 0\n")
        self.assertEqual(self.read(), tables)

    def test_wider_table(self):
        self.write(tables_of(columns=("a", "b", "c"), keys=(True, False, False)))
        self.expect_refused(INSERT, "error 40 Wider 0\n")
        self.expect_refused(header("z", 1) + insert(1) + INSERT, "error 40 Wider 1\n")

    def expect_unprinted(self, run):
        """Applies with a standard output that fails: the apply remains, and the store is closed."""
        self.write(tables_of())
        self.make("a.cs", INSERT)
        self.assertEqual(run("a.cs", "apply", "store"), (1, "", OUTPUT_FAULT))
        self.assertEqual(self.read_alone(), tables_of((1, "x")))

    @NEEDS_FULL
    def test_report_that_is_not_written(self):
        self.expect_unprinted(self.run_full)

    def test_report_that_nobody_reads(self):
        self.expect_unprinted(self.run_closed)

    def test_store_that_is_not_closed(self):
        """The report is printed where the log is not copied back, and the next opening reads the log."""
        rows = tuple((key, "row %d" % key) for key in range(20000))
        self.write(tables_of(*rows))
        self.make("a.cs", T + insert(20000, "x"))
        self.assertGreater(len(self.bytes_of("store")), 2 * 1000 * 512)
        run = self.run_cut("a.cs", "apply", "store", blocks=1000)
        self.assertEqual(run, (1, "applied 1\n", STORE_FAULT))
        self.assertEqual(self.run_shell(["SELECT * FROM t;"])[1].splitlines()[-1], "20000|'x'")
        self.assertEqual(self.read_alone(), tables_of(*rows, (20000, "x")))

    def test_large_store(self):
        """Thousands of rows: some are updated, some deleted and others inserted."""
        self.write(tables_of(*((key, "row %d" % key) for key in range(3000))))
        entries = [delete(key, "row %d" % key) for key in range(0, 1000)]
        entries += [update((key, "row %d" % key), (UNDEFINED, "r" * (key % 700))) for key in range(1000, 2000)]
        entries += [insert(key, b"\xff" * 40) for key in range(3000, 4000)]
        self.expect_applied(T + b"".join(entries), "applied 3000\n")
        rows = [(key, "r" * (key % 700)) for key in range(1000, 2000)]
        rows += [(key, "row %d" % key) for key in range(2000, 3000)]
        rows += [(key, b"\xff" * 40) for key in range(3000, 4000)]
        self.assertEqual(self.read(), tables_of(*rows))


# The declaration of the table t, and its row (1, 'x'); and the declaration of n, which the former
# version has not.
TABLE = ("", b"t", b"\x02\x01\x01a\x00\x01b")
ROW = ("t", KEY, KEY + b"\x03\x01x")
REFUSING = ("", b"n", b"\x02\x01\x01a\x02\x01b")

# Records that are those of no tables, and what is wrong with them.
DAMAGED = (
    ("no declaration", [VERSION, ROW]),
    *(
        (f"the version {version.hex()}", [("", b"", version)])
        for version in (b"", b"\0", b"\3", b"\1\0", b"\2\0", b"\2\1")
    ),
    ("no version", [TABLE]),
    ("a row and nothing else", [ROW]),
    ("a byte too many behind a declaration", [VERSION, ("", b"t", b"\x02\x01\x01a\x00\x01b\x00")]),
    ("a byte too few of a declaration", [VERSION, ("", b"t", b"\x02\x01\x01a\x00\x01")]),
    ("a long count of columns", [VERSION, ("", b"t", b"\x80\x02\x01\x01a\x00\x01b")]),
    ("no column", [VERSION, ("", b"t", b"\x00")]),
    ("no key column", [VERSION, ("", b"t", b"\x02\x00\x01a\x00\x01b")]),
    ("a byte that no column has", [VERSION, ("", b"t", b"\x02\x01\x01a\x03\x01b")]),
    ("a byte that no column of the key has", [VERSION, ("", b"t", b"\x02\x03\x01a\x01\x01b")]),
    ("no key column, but one that refuses NULL", [VERSION, ("", b"t", b"\x02\x00\x01a\x02\x01b")]),
    ("NULL in a column that refuses it", [VERSION, REFUSING, ("n", KEY, KEY + b"\x05")]),
    (
        "a row after such a row",
        [VERSION, REFUSING, ("n", KEY, KEY + b"\x05"), ("n", b"\x03\x00", b"\x03\x00\x03\x01x")],
    ),
    ("a row of a table that is not declared", [VERSION, TABLE, ROW, ("u", KEY, ROW[2])]),
    ("a column twice", [VERSION, ("", b"t", b"\x02\x01\x01a\x00\x01a")]),
    ("a column without a name", [VERSION, ("", b"t", b"\x02\x01\x01a\x00\x00")]),
    ("a column's name that is not UTF-8", [VERSION, ("", b"t", b"\x02\x01\x01a\x00\x01\xff")]),
    ("a name that is not UTF-8", [VERSION, ("", b"\xff", b"\x01\x01\x01a")]),
    ("a zero byte in a name", [VERSION, ("", b"t\x00", b"\x01\x01\x01a")]),
    ("one field", [VERSION, TABLE, ("t", KEY, KEY)]),
    ("the key of another row", [VERSION, TABLE, ("t", KEY[:-1] + b"\x02", ROW[2])]),
    ("NULL in the key", [VERSION, TABLE, ("t", b"\x05", b"\x05\x05")]),
    ("a real number", [VERSION, TABLE, ("t", KEY, KEY + b"\x02" + bytes(8))]),
    ("a field that is not defined", [VERSION, TABLE, ("t", KEY, KEY + b"\x00")]),
    ("a byte too many behind a row", [VERSION, TABLE, ("t", KEY, KEY + b"\x05\x00")]),
    ("a text that is not UTF-8", [VERSION, TABLE, ("t", KEY, KEY + b"\x03\x01\xff")]),
)


class Policies(StoreTest):
    """What is done about conflicts, by the words of the command line."""

    def expect_policy(self, rows, changeset, option, status, printed, reported, left):
        """Applies a changeset under an option to these rows."""
        with self.case(rows=rows, option=option):
            self.write(tables_of(*rows))
            self.make("a.cs", changeset)
            self.expect([*option, "a.cs", "apply", "store"], status, printed, reported)
            self.assertEqual(self.read(), tables_of(*left))

    def test_a_changeset_that_arrives_twice(self):
        """Its entries are conflicts the second time, or are ignored where that is asked for, under
        each policy.
        """
        for rows, changeset, count, left in (
            ([], INSERT, 1, [(1, "x")]), ([(1, "x")], DELETE, 1, []), ([(1, "x")], UPDATE, 1, [(1, "y")]),
            ([(1, "x")], T + insert(2, "q") + delete(1, "x"), 2, [(2, "q")]),
        ):
            with self.case(changeset=changeset):
                self.write(tables_of(*rows))
                self.expect_applied(changeset, f"applied {count}\n")
                status, printed, reported = self.apply(changeset)
                self.assertEqual((status, printed, reported[:14]), (1, "", "error 41 Abort"))
                for choice in ("omit", "replace", "abort"):
                    options = [f"--{kind}={choice}" for kind in KINDS]
                    words = [*options, "--ignore-noop", "a.cs", "apply", "store"]
                    self.expect(words, 0, f"ignored {count}\napplied 0\n")
                self.expect(["a.cs", "apply", "store", "--ignore-noop"], 0, f"ignored {count}\napplied 0\n")
                self.assertEqual(self.read(), tables_of(*left))

    def test_what_changes_something_is_not_ignored(self):
        for rows, changeset, kind in (
            ([(1, "z")], INSERT, "conflict"), ([(1, "z")], DELETE, "data"),
            ([(1, "z")], UPDATE, "data"), ([], UPDATE, "notfound"),
        ):
            self.expect_policy(rows, changeset, ["--ignore-noop"], 1, "", f"error 41 Abort {kind} 't'\n", rows)

    def test_words_that_do_not_fit_the_flag(self):
        for word in ("--ignore-noop=1", "--ignore-no", "--noop", "--ignore-noop --ignore-noop"):
            self.expect([*word.split(), "a.cs", "dump"], 2, "", USAGE)

    def test_each_policy_and_each_kind(self):
        # The rows, the changeset, and what its conflict leaves and counts where it is replaced.
        for kind, number, rows, changeset, replaced in (
            ("data", 1, [(1, "y")], DELETE, []),
            ("data", 1, [(1, "z")], UPDATE, [(1, "y")]),
            ("notfound", 2, [], DELETE, None),
            ("notfound", 2, [], UPDATE, None),
            ("conflict", 3, [(1, "z")], INSERT, [(1, "x")]),
        ):
            met = f"conflict {number} {kind} %s 't'\napplied %d\n"
            aborted = (1, "", f"error 41 Abort {kind} 't'\n", rows)
            misused = (1, "", f"error 42 Misuse {kind} 't'\n", rows)
            omitted = (0, met % ("omit", 0), "", rows)
            self.expect_policy(rows, changeset, [f"--{kind}", "abort"], *aborted)
            self.expect_policy(rows, changeset, [f"--{kind}", "omit"], *omitted)
            if replaced is None:
                self.expect_policy(rows, changeset, [f"--{kind}", "replace"], *misused)
            else:
                self.expect_policy(rows, changeset, [f"--{kind}=replace"], 0, met % ("replace", 1), "", replaced)
            # The choices of the other kinds are none of this one.
            others = [f"--{other}=omit" for other in KINDS if other != kind]
            self.expect_policy(rows, changeset, others, *aborted)

    def test_conflicts_of_each_kind_at_once(self):
        entries = insert(1, "x") + delete(2, "q") + delete(3, "r") + insert(4, "s")
        self.expect_policy(
            [(1, "z"), (3, "t")], T + entries, ["--data=replace", "--notfound=omit", "--conflict=replace"], 0,
            "conflict 3 conflict replace 't'\nconflict 2 notfound omit 't'\n"
            "conflict 1 data replace 't'\napplied 3\n",
            "", [(1, "x"), (4, "s")],
        )

    def test_store_in_memory(self):
        """It has no table, and nothing is left of it."""
        self.make("a.cs", INSERT)
        self.expect(["a.cs", "apply", ":memory:"], 0, "warning 17 skipped 't'\napplied 0\n")
        self.expect_files("a.cs")


class Rules(StoreTest):
    """Columns that refuse NULL: in lines, in applies, and in stores that SQLite wrote or reads."""

    def test_declaration(self):
        """The byte of a column says whether it refuses NULL; one of the key does so anyway."""
        lines = [
            CREATE_N, "create table k(a not null, b NOT\tnull, c, PRIMARY KEY(c, a));",
            "CREATE TABLE f(a, b, PRIMARY KEY(a));", 'CREATE TABLE "not"("null" NOT NULL, "NOT", PRIMARY KEY("NOT"));',
        ]
        self.assertEqual(self.run_shell(lines), (0, "", ""))
        self.assertEqual(read_records(self.folder / "store"), sorted([
            VERSION, REFUSING, ("", b"k", b"\x03\x01\x01a\x02\x01b\x01\x01c"), ("", b"f", b"\x02\x01\x01a\x00\x01b"),
            ("", b"not", b"\x02\x02\x04null\x01\x03NOT"),
        ]))

    def test_forms_that_do_not_fit(self):
        for line, column in (
            ("CREATE TABLE n(a, b NOT, PRIMARY KEY(a));", 24), ("CREATE TABLE n(a, b NULL, PRIMARY KEY(a));", 21),
            ("CREATE TABLE n(a, b NOT NULL NOT NULL, PRIMARY KEY(a));", 30),
            ("CREATE TABLE n(a, NOT NULL, PRIMARY KEY(a));", 19),
            ("CREATE TABLE n(a, b, PRIMARY KEY(a NOT NULL));", 36), ("CREATE TABLE not(a, PRIMARY KEY(a));", 14),
            ('CREATE TABLE n(a, b "NOT" NULL, PRIMARY KEY(a));', 21),
            ("CREATE TABLE n(a, b NOTNULL, PRIMARY KEY(a));", 21),
        ):
            with self.subTest(line=line):
                self.assertEqual(self.run_shell([line]), (1, f"error 61 Syntax {column}\n", ""))
        self.assertEqual(self.read(), {})

    def test_lines_that_are_refused(self):
        """Each changes nothing, and is answered by the first of the refusals that fit."""
        self.write(refusing((1, "x"), (2, "y")))
        for line, answer in (
            ("INSERT INTO n VALUES(3, NULL);", "39 NotNull"),
            ("INSERT INTO n VALUES(1, NULL);", "39 NotNull"),
            ("INSERT INTO n VALUES(NULL, NULL);", "36 NullInKey"),
            ("INSERT INTO n VALUES(3, NULL, NULL);", "35 RowWidth"),
            ("UPDATE n SET b=NULL WHERE a=1;", "39 NotNull"),
            ("UPDATE n SET b=NULL, a=2 WHERE a=1;", "39 NotNull"),
            ("UPDATE n SET b=NULL, a=NULL WHERE a=1;", "36 NullInKey"),
            ("UPDATE n SET b=NULL WHERE a=3;", "34 NoRow"),
        ):
            with self.subTest(line=line):
                self.assertEqual(self.run_shell([line]), (1, f"error {answer}\n", ""))
        self.assertEqual(self.read(), refusing((1, "x"), (2, "y")))

    def test_what_is_not_refused(self):
        """Other values of the column, and NULL where nothing refuses it."""
        self.write({**refusing((1, "x")), **tables_of((1, "x"))})
        lines = [
            "INSERT INTO n VALUES(2, '');", "INSERT INTO n VALUES(3, X'');", "UPDATE n SET b=0, a=4 WHERE a=1;",
            "UPDATE t SET b=NULL WHERE a=1;", "INSERT INTO t VALUES(2, NULL);", "DELETE FROM n WHERE a=3;",
        ]
        self.assertEqual(self.run_shell(lines), (0, "", ""))
        self.assertEqual(self.read(), {**refusing((2, ""), (4, 0)), **tables_of((1, None), (2, None))})

    def expect_ended(self, rows, changeset, choices, status, told, left):
        """Applies a changeset to these rows of n, by the command and by a line, and asserts what is
        told and left.
        """
        with self.case(rows=rows, changeset=changeset, choices=choices):
            options = [f"--{choice}" for choice in choices.split()]
            self.write(refusing(*rows))
            self.make("a.cs", changeset)
            self.expect([*options, "a.cs", "apply", "store"], status, *(("", told) if status else (told, "")))
            self.assertEqual(self.read(), refusing(*left))
            self.write_anew(refusing(*rows))
            lines = [f".load a {changeset.hex()}", f".apply a {choices}"]
            self.assertEqual(self.run_shell(lines), (status, told, ""))
            self.assertEqual(self.read(), refusing(*left))

    def write_anew(self, tables):
        """Has SQLite write another store in its place."""
        for name in ("store", "store-wal"):
            (self.folder / name).unlink(missing_ok=True)
        self.write(tables)

    def expect_conflicts(self, rows, changeset, choices, met, applied=0, left=None):
        """Asserts what an apply meets, kinds with what is done about them, and how many entries it
        carries out.
        """
        told = "".join(f"conflict {KINDS.index(kind) + 1} {kind} {choice} 'n'\n" for kind, choice in met)
        self.expect_ended(rows, changeset, choices, 0, f"{told}applied {applied}\n", rows if left is None else left)

    def expect_end(self, rows, changeset, choices, fault):
        """Asserts that a constraint conflict ends an apply."""
        self.expect_ended(rows, changeset, choices, 1, f"error {fault} constraint 'n'\n", rows)

    def test_entries_that_meet_no_other_conflict(self):
        for rows, changeset in (([], NULL_INSERT), ([(1, "x")], NULL_UPDATE), ([(2, "q")], NULL_INSERT)):
            for others in ("", " data=replace conflict=replace notfound=omit"):
                self.expect_end(rows, changeset, others, "41 Abort")
                self.expect_end(rows, changeset, "constraint=abort" + others, "41 Abort")
                self.expect_end(rows, changeset, "constraint=replace" + others, "42 Misuse")
                self.expect_conflicts(rows, changeset, "constraint=omit" + others, [("constraint", "omit")])

    def test_rows_that_are_replaced(self):
        """The conflict that is replaced comes first, and then that of the new row; the row stays
        as it was.
        """
        for kind, rows, changeset in (
            ("conflict", [(1, "x")], NULL_INSERT), ("conflict", [(1, "z")], NULL_INSERT),
            ("data", [(1, "z")], NULL_UPDATE),
        ):
            self.expect_end(rows, changeset, f"{kind}=replace", "41 Abort")
            self.expect_end(rows, changeset, f"{kind}=replace constraint=replace", "42 Misuse")
            met = [(kind, "replace"), ("constraint", "omit")]
            self.expect_conflicts(rows, changeset, f"{kind}=replace constraint=omit", met)
            self.expect_conflicts(rows, changeset, f"constraint=omit {kind}=omit", [(kind, "omit")])

    def test_entries_before_and_behind_one_that_is_refused(self):
        entries = insert(3, "new") + insert(1, None) + delete(4, None) + update((2, "x"), (UNDEFINED, None))
        entries += insert(5, "last")
        met = [("conflict", "replace"), ("constraint", "omit"), ("data", "replace"), ("constraint", "omit")]
        rows, left = [(1, "x"), (2, "x"), (4, "x")], [(1, "x"), (2, "x"), (3, "new"), (5, "last")]
        self.expect_conflicts(rows, N + entries, "data=replace conflict=replace constraint=omit", met, 3, left)
        self.expect_end(rows, N + entries, "data=replace conflict=replace", "41 Abort")
        self.expect_end(rows, N + entries, "constraint=replace data=replace conflict=replace", "42 Misuse")

    def test_lines_and_files_byte_by_byte(self):
        """The declaration, the refusals and the conflicts of rows of n, byte by byte."""
        first, second = bytes.fromhex("010000000000000001"), bytes.fromhex("010000000000000002")
        head = bytes.fromhex("540201006e00")
        null_of_second, null_of_first = head + b"\x12\0" + second + b"\5", head + b"\x12\0" + first + b"\5"
        null_for_x = head + b"\x17\0" + first + bytes.fromhex("030178") + b"\0\5"
        for lines, printed in (
            ([CREATE_N, "INSERT INTO n VALUES(1, NULL);", "INSERT INTO n VALUES(1, 'x');"], "error 39 NotNull\n"),
            (["UPDATE n SET b=NULL WHERE a=1;", "UPDATE n SET b=NULL WHERE a=2;"],
             "error 39 NotNull\nerror 34 NoRow\n"),
            (["DELETE FROM n WHERE a=1;", f".load a {null_of_second.hex()}", ".apply a"],
             "error 41 Abort constraint 'n'\n"),
            ([f".load a {null_of_second.hex()}", ".apply a constraint=omit"],
             "conflict 4 constraint omit 'n'\napplied 0\n"),
            ([f".load a {null_of_second.hex()}", ".apply a constraint=replace"], "error 42 Misuse constraint 'n'\n"),
            (["INSERT INTO n VALUES(1, 'x');", f".load a {null_of_first.hex()}",
              ".apply a conflict=replace constraint=omit", "SELECT * FROM n;"],
             "conflict 3 conflict replace 'n'\nconflict 4 constraint omit 'n'\napplied 0\n1|'x'\n"),
            (["UPDATE n SET b='z' WHERE a=1;", f".load a {null_for_x.hex()}", ".apply a data=replace constraint=omit",
              "SELECT * FROM n;"],
             "conflict 1 data replace 'n'\nconflict 4 constraint omit 'n'\napplied 0\n1|'z'\n"),
        ):
            with self.subTest(lines=lines):
                self.assertEqual(self.run_shell(lines), (int("error" in printed), printed, ""))
        self.assertEqual(read_records(self.folder / "store"), [
            VERSION, REFUSING, ("n", first, first + bytes.fromhex("03017a")),
        ])

    def test_a_column_that_is_not_modified(self):
        """An UPDATE of other columns, and one that modifies none, meet no such conflict."""
        table = Table(("a", "b", "c"), (True, False, False), [(1, "x", None)], (True, True, False))
        self.write({"n": table})
        head = header("n", 1, 0, 0)
        for old, new in (((1, UNDEFINED, None), (UNDEFINED, UNDEFINED, 5)),
                         ((1, UNDEFINED, UNDEFINED), (UNDEFINED,) * 3),
                         ((1, UNDEFINED, 5), (UNDEFINED, UNDEFINED, None))):
            self.expect_applied(head + update(old, new), "applied 1\n")
        self.assertEqual(self.read(), {"n": table})

    def test_what_changes_nothing_is_ignored(self):
        """No row is what the entry leaves, so an entry that is refused is not ignored."""
        for rows, changeset in (([], NULL_INSERT), ([(1, "x")], NULL_UPDATE)):
            with self.case(rows=rows):
                self.write(refusing(*rows))
                self.make("a.cs", changeset)
                self.expect(["--ignore-noop", "a.cs", "apply", "store"], 1, "", "error 41 Abort constraint 'n'\n")
                printed = "conflict 4 constraint omit 'n'\napplied 0\n"
                self.expect(["--ignore-noop", "--constraint", "omit", "a.cs", "apply", "store"], 0, printed)
                self.assertEqual(self.read(), refusing(*rows))

    def test_sessions(self):
        """An apply with entries that are left is undone with the other lines."""
        self.write(refusing((1, "x")))
        lines = [
            ".session open", ".session attach n", "UPDATE n SET b='y' WHERE a=1;", "UPDATE n SET b=NULL WHERE a=1;",
            f".load a {(NULL_INSERT + insert(2, 'w')).hex()}", ".apply a conflict=replace constraint=omit",
            ".session changeset c", ".dump c", ".invert c d", ".apply d", ".apply c", ".session undo",
            ".session isempty", "SELECT * FROM n;",
        ]
        printed = (
            "error 39 NotNull\nconflict 3 conflict replace 'n'\nconflict 4 constraint omit 'n'\napplied 1\n"
            "table 'n' columns 2 flags 1,0\nupdate 0 old 1,'x' new -,'y'\ninsert 0 new 2,'w'\n"
            "applied 2\napplied 2\napplied 2\n0\n1|'x'\n"
        )
        self.assertEqual(self.run_shell(lines), (1, printed, ""))
        self.assertEqual(self.read_alone(), refusing((1, "x")))

    def test_store_of_sqlite(self):
        """A store that SQLite wrote keeps its rules, also where it is opened again."""
        for log in (False, True):
            with self.case(log=log):
                self.write(refusing((1, "x")), log=log)
                for _ in range(2):
                    lines = [
                        "INSERT INTO n VALUES(2, NULL);", f".load a {NULL_UPDATE.hex()}", ".apply a", "SELECT * FROM n;"
                    ]
                    printed = "error 39 NotNull\nerror 41 Abort constraint 'n'\n1|'x'\n"
                    self.assertEqual(self.run_shell(lines), (1, printed, ""))
                    self.assertEqual(self.read_alone(), refusing((1, "x")))

    def test_rules_under_the_former_version(self):
        """A declaration with such a column is damage there, and valid in this version."""
        for records in ([REFUSING], [REFUSING, ("n", KEY, ROW[2])]):
            with self.case(records=records):
                run_sql(self.folder / "store", RECORDS, records=[FORMER, *records])
                for _ in range(2):
                    self.assertEqual(self.run_shell(["SELECT * FROM n;"]), (1, "", DAMAGED_STORE))
                    self.assertEqual(self.apply(INSERT), (1, "", DAMAGED_STORE))
                self.assertEqual(read_records(self.folder / "store"), [FORMER, *records])
                run_sql(self.folder / "store", "UPDATE rec SET rowb = X'02' WHERE tab = '' AND keyb = X''")
                self.assertEqual(self.run_shell(["SELECT * FROM n;"]), (0, "1|'x'\n" * (len(records) - 1), ""))

    def test_new_table_in_a_store_of_the_former_version(self):
        """The store is of this version by then, and the table may have rules; the others have none.
        """
        for log in (False, True):
            with self.case(log=log):
                self.write(tables_of((1, None)), log=log, version=FORMER)
                lines = [CREATE_N, "INSERT INTO n VALUES(1, 'x');"]
                lines += ["INSERT INTO n VALUES(2, NULL);", "INSERT INTO t VALUES(2, NULL);"]
                self.assertEqual(self.run_shell(lines), (1, "error 39 NotNull\n", ""))
                tables = {**tables_of((1, None), (2, None)), **refusing((1, "x"))}
                self.assertEqual(self.read_alone(), tables)
                self.assertEqual(read_records(self.folder / "store"), sorted([
                    VERSION, TABLE, REFUSING, ("t", KEY, KEY + b"\5"), ("t", KEY[:-1] + b"\2", KEY[:-1] + b"\2\5"),
                    ("n", KEY, ROW[2]),
                ]))

    def test_refused_store_of_the_former_version_keeps_its_byte(self):
        """A row of an undeclared table follows valid rows."""
        self.write(tables_of((1, "x")), version=FORMER)
        run_sql(self.folder / "store", records=[("u", KEY, ROW[2])])
        for _ in range(2):
            self.assertEqual(self.run_shell(["SELECT * FROM t;"]), (1, "", DAMAGED_STORE))
            self.assertEqual(read_records(self.folder / "store"), [FORMER, TABLE, ROW, ("u", KEY, ROW[2])])
        run_sql(self.folder / "store", "DELETE FROM rec WHERE tab = 'u'")
        self.assertEqual(self.run_shell(["SELECT * FROM t;"]), (0, "1|'x'\n", ""))
        self.assertEqual(read_records(self.folder / "store"), [VERSION, TABLE, ROW])


class Terminals(StoreTest):
    """Scripts that are typed on a terminal."""

    BANNER = "changeset: one line is one command, Ctrl-D ends the script\n"
    PROMPT = "changeset> "

    def type(self, lines, screen=None, keyboard=None):
        """Return what a script prints: its output, and what is on a terminal.

        The lines are typed there, and standard error is there, unless there are files for them.
        """
        main, terminal = pty.openpty()
        modes = termios.tcgetattr(terminal)
        modes[1] &= ~termios.OPOST
        modes[3] &= ~termios.ECHO
        termios.tcsetattr(terminal, termios.TCSANOW, modes)
        typed = "".join(f"{line}\n" for line in lines) + "\x04"
        os.write(main, typed.encode())
        ran = subprocess.run(
            [PROGRAM], stdin=keyboard or terminal, stdout=subprocess.PIPE, stderr=screen or terminal,
            timeout=PATIENCE, check=False,
        )
        self.assertEqual(ran.returncode, 0)
        os.close(terminal)
        shown = b""
        # What was written arrives later, so it is read up to the end: EIO, since the terminal is closed.
        with contextlib.suppress(OSError):
            while data := os.read(main, 1 << 16):
                shown += data
        os.close(main)
        return ran.stdout.decode(), shown.decode()

    def test_prompts(self):
        """A prompt is on the terminal before each line, and the answers are those of a pipe."""
        lines = [CREATE, "INSERT INTO t VALUES(1, 'x');", "SELECT * FROM t;"]
        shown = self.BANNER + self.PROMPT * (len(lines) + 1) + "\n"
        self.assertEqual(self.type(lines), ("1|'x'\n", shown))

    def test_no_prompt_elsewhere(self):
        """Where standard input or standard error is no terminal, there is no prompt."""
        with tempfile.TemporaryFile() as file:
            self.assertEqual(self.type([CREATE], screen=file), ("", ""))
            self.assertEqual(file.tell(), 0)
            self.assertEqual(self.type([], keyboard=file), ("", ""))


class Shells(StoreTest):
    """Scripts on the store in a file."""

    def test_new_store_and_an_existing_one(self):
        self.assertEqual(self.run_shell([CREATE, "INSERT INTO t VALUES(1, 'x');"]), (0, "", ""))
        self.assertEqual(self.read_alone(), tables_of((1, "x")))
        lines = ["SELECT * FROM t;", "INSERT INTO t VALUES(1, 'y');"]
        self.assertEqual(self.run_shell(lines), (1, "1|'x'\nerror 33 KeyTaken\n", ""))
        self.assertEqual(self.read_alone(), tables_of((1, "x")))

    def test_store_of_sqlite(self):
        self.write(tables_of((1, "x")))
        lines = [f".load a {UPDATE.hex()}", ".apply a", "SELECT * FROM t;"]
        self.assertEqual(self.run_shell(lines), (0, "applied 1\n1|'y'\n", ""))
        self.assertEqual(self.read(), tables_of((1, "y")))

    def test_session_on_a_file(self):
        self.write(tables_of((1, "z")))
        lines = [
            ".session open", ".session attach t", "INSERT INTO t VALUES(2, 'w');", f".load a {INSERT.hex()}",
            ".apply a conflict=replace", ".session undo", "SELECT * FROM t;",
        ]
        printed = "conflict 3 conflict replace 't'\napplied 1\napplied 2\n1|'z'\n"
        self.assertEqual(self.run_shell(lines), (0, printed, ""))
        self.assertEqual(self.read(), tables_of((1, "z")))

    def test_session_of_many_keys(self):
        lines = [
            CREATE, ".session open", ".session attach t", f".load a {MANY_INSERTS.hex()}", ".apply a",
            ".session changeset net", ".hex net",
        ]
        self.assertEqual(self.run_shell(lines), (0, f"applied {MANY}\n{MANY_INSERTS.hex()}\n", ""))

    def test_store_in_memory(self):
        lines = [CREATE, "INSERT INTO t VALUES(1, 'x');", "SELECT * FROM t;"]
        self.assertEqual(self.run_shell(lines, ":memory:"), (0, "1|'x'\n", ""))
        self.expect_files()

    def test_files_that_are_no_stores(self):
        self.make("text", b"this is no database" * 100)
        (self.folder / "folder").mkdir()
        for name in ("text", "folder", "none/store"):
            with self.subTest(name=name):
                status, printed, reported = self.run_shell([CREATE], name)
                self.assertEqual((status, printed), (1, ""))
                self.assertEqual(reported, STORE_FAULT)
        self.assertEqual(self.bytes_of("text"), b"this is no database" * 100)

    def test_stores_of_the_former_version(self):
        """They are opened with their tables, and are of this version from then on; what else they
        hold stays.
        """
        tables = tables_of((1, "x"), (2, None), (3, b"\xff"))
        for log in (False, True):
            with self.case(log=log):
                self.write(tables, log=log, version=FORMER)
                self.assertEqual(self.run_shell(["SELECT * FROM t;"]), (0, "1|'x'\n2|NULL\n3|X'ff'\n", ""))
                self.assertEqual(read_records(self.folder / "store"), sorted(records_of(tables)))
                self.expect_applied(T + delete(3, b"\xff"), "applied 1\n")
                self.assertEqual(self.read(), tables_of((1, "x"), (2, None)))

    def test_damaged_store(self):
        run_sql(self.folder / "store", RECORDS, records=[VERSION, ROW])
        self.assertEqual(self.run_shell([CREATE]), (1, "", DAMAGED_STORE))

    @NEEDS_FULL
    def test_answers_that_are_not_written(self):
        """The effects of lines that were run remain, and the store is closed."""
        lines = "".join(line + "\n" for line in (CREATE, "INSERT INTO t VALUES(1, 'x');", "SELECT * FROM t;"))
        self.assertEqual(self.run_full("store", "shell", stdin=lines.encode()), (1, "", OUTPUT_FAULT))
        self.assertEqual(self.read_alone(), tables_of((1, "x")))

    def test_pipe_that_nobody_reads(self):
        lines = (CREATE + "\n.hex none\n").encode()
        for words in (["store", "shell"], []):
            with self.subTest(words=words):
                self.assertEqual(self.run_closed(*words, stdin=lines), (1, "", OUTPUT_FAULT))
        self.assertEqual(self.read_alone(), tables_of())

    @unittest.skipIf(os.geteuid() == 0, "root may write what it may not")
    def test_file_without_the_right_to_write(self):
        self.write(tables_of((1, "x")))
        os.chmod(self.folder / "store", 0o444)
        self.assertEqual(self.run_shell(["SELECT * FROM t;"]), (1, "", STORE_FAULT))
        self.assertEqual(self.read(), tables_of((1, "x")))

    def test_killed_while_it_applies(self):
        """The store that is opened again is the one before or the one after."""
        keys = range(100_000)
        self.make("a.cs", T + b"".join(update((key, "a"), (UNDEFINED, "b")) for key in keys))
        self.write(tables_of(*((key, "a") for key in keys)))
        before = self.bytes_of("store")
        endings = set()
        for wait in (0.1, 0.5, 1.0, 2.0, 3.0):
            self.make("store", before)
            words = [PROGRAM, "a.cs", "apply", "store"]
            with subprocess.Popen(words, cwd=self.folder, stdout=subprocess.PIPE) as child:
                time.sleep(wait)
                child.kill()
                child.communicate(timeout=PATIENCE)
            endings.add(child.returncode)
            status, printed, reported = self.run_shell(["SELECT * FROM t;"])
            self.assertEqual((status, reported), (0, ""), wait)
            rows = ["".join(f"{key}|'{text}'\n" for key in keys) for text in "ab"]
            # assertIn would show where such texts differ, which takes it minutes.
            self.assertTrue(printed in rows, wait)
            (self.folder / "store-wal").unlink(missing_ok=True)
        self.assertIn(-signal.SIGKILL, endings)


class Stores(StoreTest):
    """Files that are opened as stores, or made, or refused."""

    def test_store_that_is_missing_is_made(self):
        self.expect_applied(INSERT, "warning 17 skipped 't'\napplied 0\n")
        self.assertEqual(read_records(self.folder / "store"), [VERSION])
        self.expect_applied(b"", "applied 0\n")
        self.assertEqual(self.read(), {})

    def test_file_without_a_table_becomes_a_store(self):
        for texts in ([], [RECORDS], [RECORDS, "PRAGMA user_version = 1"]):
            with self.case(texts=texts):
                run_sql(self.folder / "store", *texts)
                self.expect_applied(b"", "applied 0\n")
                self.assertEqual(read_records(self.folder / "store"), [VERSION])

    def test_files_of_sqlite(self):
        """Files of other page sizes, with a rollback journal or a log: the store's file alone has
        what was written.
        """
        rows = [(key, "row %d" % key) for key in range(200)]
        for page_size in (512, 1024, 4096, 65536):
            for log in (False, True):
                with self.case(page_size=page_size, log=log):
                    self.write(tables_of(*rows), page_size=page_size, log=log)
                    self.expect_applied(T + delete(7, "row 7") + insert(-1, None), "applied 2\n")
                    (self.folder / "store-wal").unlink(missing_ok=True)
                    left = rows[:7] + rows[8:] + [(-1, None)]
                    self.assertEqual(self.read(), tables_of(*left))

    def test_damaged_records(self):
        """They stay as they are, under the version of stores and under the former one."""
        for what, records in DAMAGED:
            for version in (VERSION, FORMER):
                with self.case(what=what, version=version):
                    written = [version if record == VERSION else record for record in records]
                    run_sql(self.folder / "store", RECORDS, records=written)
                    self.assertEqual(self.apply(INSERT), (1, "", DAMAGED_STORE))
                    self.assertEqual(read_records(self.folder / "store"), sorted(written))

    def test_other_databases(self):
        for text, line in (
            ("CREATE TABLE rec(x)", DAMAGED_STORE),
            ("CREATE VIEW rec AS SELECT 1", DAMAGED_STORE),
        ):
            with self.case(text=text):
                run_sql(self.folder / "store", text)
                self.assertEqual(self.apply(INSERT), (1, "", line))
                self.assertEqual(self.declared(), [text])

    def declared(self):
        """The texts that declare what the store's file has."""
        base = sqlite3.connect(self.folder / "store")
        self.addCleanup(base.close)
        return [text for text, in base.execute("SELECT sql FROM sqlite_master")]

    def test_file_that_is_no_database(self):
        for content in (b"no database at all", b"no database" * 1000):
            self.make("store", content)
            self.assertEqual(self.apply(INSERT), (1, "", STORE_FAULT))
            self.assertEqual(self.bytes_of("store"), content)

    def test_store_that_cannot_be_opened(self):
        self.make("a.cs", INSERT)
        self.expect(["a.cs", "apply", "no folder/store"], 1, "", STORE_FAULT)
        self.expect_files("a.cs")

    def test_store_is_opened_before_the_changeset_is_read(self):
        run_sql(self.folder / "store", RECORDS, records=[TABLE])
        self.assertEqual(self.apply(b"P"), (1, "", DAMAGED_STORE))


# The recorded files that are refused, and how.
REFUSED = (
    ("patchset-insert.cs", "error 3 Patchset 0\n"),
    ("patchset-mix.cs", "error 3 Patchset 0\n"),
    ("real-insert.cs", "error 13 RealValue 17\n"),
    ("real-key.cs", "error 13 RealValue 8\n"),
    ("real-late.cs", "error 13 RealValue 43\n"),
)


def recorded_cases():
    """The recorded files that are accepted, each with the tables before it and after it."""
    return json.loads((RECORDED / "rows.json").read_text(encoding="utf-8"))


class Recorded(StoreTest):
    """Files that SQLite recorded: applied as SQLite did it, and undone by their inverses."""

    def test_accepted_files(self):
        for case in recorded_cases():
            with self.case(file=case["file"]):
                self.expect_there_and_back(RECORDED / case["file"], case)

    def expect_there_and_back(self, file, case):
        """Applies a file to the rows before it, and then its inverse to the rows after it."""
        before = run_schema(case["schema"], case["start"])
        self.write(before)
        printed = self.apply(file.read_bytes())
        after = self.read()
        self.assertEqual(shown(after), case["after"])
        report = (0, "applied %d\n" % count_changes(before, after), "")
        self.assertEqual(printed, report)
        self.assertEqual(self.apply(self.inverse_of(file)), report)
        self.assertEqual(self.read(), before)

    def inverse_of(self, file):
        """The program's inverse of a file, which is that of SQLite where that was recorded."""
        self.expect([file, "invert", "inverse.cs"], 0)
        inverse = self.bytes_of("inverse.cs")
        recorded = file.with_suffix(".inverse.cs")
        if recorded.exists():
            self.assertEqual(inverse, recorded.read_bytes())
        return inverse

    def test_accepted_files_as_sql(self):
        for case in recorded_cases():
            with self.subTest(file=case["file"]):
                before = run_schema(case["schema"], case["start"])
                status, text, reported = self.run_program(RECORDED / case["file"], "sql")
                self.assertEqual((status, reported), (0, ""))
                self.assertEqual(shown(run_statements(before, text)), case["after"])

    def test_refused_files(self):
        self.write(tables_of((1, "x")))
        for name, line in REFUSED:
            with self.subTest(file=name):
                self.expect_refused((RECORDED / name).read_bytes(), line)
                self.expect([RECORDED / name, "invert", "o"], 1, "", line)
        self.assertFalse((self.folder / "o").exists())


def tables_after(case):
    """The tables that SQLite had after a recorded file."""
    rows, name = [], ""
    for line in case["after"].split("\n")[:-1]:
        if line.startswith("table "):
            name = line[len("table "):]
        else:
            rows.append(f"INSERT INTO {name} VALUES({line.replace('|', ', ')});")
    after = run_schema(case["schema"], "".join(rows))
    assert shown(after) == case["after"], after
    return after


def load_of(case):
    """The line that puts a recorded file into the slot a."""
    return ".load a " + (RECORDED / case["file"]).read_bytes().hex()


def selects(tables):
    """The lines that list tables, and what they print."""
    names = sorted(tables)
    return [f'SELECT * FROM "{name}";' for name in names], "".join(shown_rows(tables[name]) for name in names)


def edit_line(name, table, old, new):
    """The line that does to a table what an entry says."""
    if old is None:
        return f'INSERT INTO "{name}" VALUES({", ".join(map(literal, new))});'
    key = [f'"{c}"={literal(v)}' for c, of_key, v in zip(table.columns, table.keys, old) if of_key]
    where = f'WHERE {" AND ".join(key)};'
    if new is None:
        return f'DELETE FROM "{name}" {where}'
    values = [f'"{c}"={literal(v)}' for c, v in zip(table.columns, new) if v is not UNDEFINED]
    return f'UPDATE "{name}" SET {", ".join(values)} {where}'


def session_file(groups):
    """The file of groups, as a session writes it: the flag of each column of the key is 1, and no
    entry is indirect.
    """
    def entry(old, new):
        return insert(*new) if old is None else delete(*old) if new is None else update(old, new)

    return b"".join(
        header(name, *(min(flag, 1) for flag in flags)) + b"".join(entry(*records) for records in entries)
        for name, flags, entries in groups
    )


class RecordedByLines(ProgramTest):
    """The same files by lines of a script, on tables that lines made."""

    def expect_parts(self, *parts):
        """Runs a script of parts, each of them lines and what these print, and asserts that no line
        is refused.
        """
        lines = [line for lines, _ in parts for line in lines]
        self.assertEqual(self.run_lines(lines), (0, "".join(printed for _, printed in parts), ""))

    def test_files_are_applied_and_reverted(self):
        for case in recorded_cases():
            with self.subTest(file=case["file"]):
                before, after = run_schema(case["schema"], case["start"]), tables_after(case)
                report = f"applied {count_changes(before, after)}\n"
                self.expect_parts(
                    (case["lines"], ""),
                    selects(before),
                    ([load_of(case), ".apply a"], report),
                    selects(after),
                    ([".revert a"], report),
                    selects(before),
                )

    def test_files_are_applied_in_a_session_that_undoes_them(self):
        for case in recorded_cases():
            with self.subTest(file=case["file"]):
                before, after = run_schema(case["schema"], case["start"]), tables_after(case)
                report = f"applied {count_changes(before, after)}\n"
                self.expect_parts(
                    (case["lines"] + [".session open"] + [f'.session attach "{name}"' for name in before], ""),
                    ([".session isempty"], "1\n"),
                    ([load_of(case), ".apply a", ".session isempty"], report + "0\n"),
                    selects(after),
                    ([".session changeset b", ".session undo"], report),
                    selects(before),
                    # What the session reported does what the file did, and is undone, too.
                    ([".apply b"], report),
                    selects(after),
                    ([".session undo", ".session close"], report),
                    selects(before),
                )

    def test_files_are_made_by_a_session(self):
        for case in recorded_cases():
            with self.subTest(file=case["file"]):
                tables = run_schema(case["schema"], case["start"])
                groups = read_changeset((RECORDED / case["file"]).read_bytes())
                edits = [edit_line(name, tables[name], *records) for name, _, entries in groups for records in entries]
                attached = [f'.session attach "{name}"' for name, _, _ in groups]
                self.expect_parts(
                    (case["lines"] + [".session open"] + attached + edits, ""),
                    ([".session changeset c", ".hex c"], session_file(groups).hex() + "\n"),
                    ([".session undo"], f"applied {len(edits)}\n"),
                    ([".session changeset c", ".hex c"], "\n"),
                )


if __name__ == "__main__":
    main()

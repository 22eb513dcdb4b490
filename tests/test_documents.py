#!/usr/bin/env python3
"""Tests of the documents: each block of code is run, or is code that the gate proves, and each link
leads to a file.

The tag of a block says how: `console` blocks are commands and what they print, `python` and `c`
blocks are programs, whose output is the `text` block after them or the comments of their last
lines; `rust` blocks stand in a crate's code, and `sql` lines in that of `cs_store_sql`. The
`text` block of the page of calls stands in their tests. The program and the libraries for C and
Python have to be built first, as the gate does.
"""
import ast
import os
import pathlib
import re
import subprocess
import sys
import tempfile
import unittest

from support import iterator
from support.documents import blocks_of, commands_of, programs_of
from support.program import PATIENCE, PROGRAM, TOP, main, put_vollikash

ARCHIVE = TOP / "bindings/c/out/libvollikash.a"
FOLDERS = ("", "docs/", "examples/", "bindings/", "bindings/python/", "crates/*/")
DOCUMENTS = sorted(it for folder in FOLDERS for it in TOP.glob(f"{folder}*.md"))


def run(words, **options):
    """What a program prints, its errors too."""
    done = subprocess.run(
        words, stdin=subprocess.DEVNULL, stdout=subprocess.PIPE, stderr=subprocess.STDOUT, timeout=PATIENCE, text=True,
        **options,
    )
    return done.stdout


def squeezed(code):
    """Code without comments and imports, and without what a line break may add."""
    code = re.sub(r"^ *(//.*|use .*;)$", "", code, flags=re.M)
    return re.sub(r",(?=[)}])", "", re.sub(r"\s", "", code))


def without_contracts(code):
    """Code without its clauses, as a document may show it. A line of a clause is indented further than its first."""
    return re.sub(r"^( +)(?:requires|ensures) .*\n(?:\1 +.*\n)*", "", code, flags=re.M)


class Blocks(unittest.TestCase):
    """Each block of code does what the document says."""

    maxDiff = None

    def test_tags(self):
        """A block whose tag is not one of these would not be run."""
        for document in DOCUMENTS:
            for tag, text in blocks_of(document):
                with self.subTest(document=document.name, block=text[:40]):
                    self.assertIn(tag, ("", "console", "sh", "python", "c", "rust", "sql", "text"))

    def test_commands(self):
        commands = tempfile.TemporaryDirectory()
        self.addCleanup(commands.cleanup)
        path = {"PATH": f"{PROGRAM.parent}:{commands.name}:{os.environ['PATH']}"}
        path = {**os.environ, **put_vollikash(commands.name), **path}
        count = 0
        for document in DOCUMENTS:
            with tempfile.TemporaryDirectory() as folder:
                os.symlink(TOP / "examples", f"{folder}/examples")
                for block in (text for tag, text in blocks_of(document) if tag == "console"):
                    for command, printed in commands_of(block):
                        with self.subTest(document=document.name, command=command):
                            self.assertEqual(run(["sh", "-c", command], cwd=folder, env=path), printed)
                            count += 1
        self.assertGreater(count, 25)

    def test_scripts(self):
        """`sh` blocks are commands for a release, which `test_release.py` runs."""
        documents = [document.name for document in DOCUMENTS for tag, _ in blocks_of(document) if tag == "sh"]
        self.assertEqual(documents, ["README.md", "C.md"])

    def test_python(self):
        environment = {**os.environ, "PYTHONPATH": str(TOP / "bindings/python")}
        count = 0
        for document in DOCUMENTS:
            for text, printed in programs_of(document, "python"):
                if "sqlite.Database" in text and iterator.library() is None:
                    continue
                with self.subTest(document=document.name, program=text):
                    self.assertEqual(run([sys.executable, "-c", text], cwd=TOP, env=environment), printed)
                    count += 1
        self.assertGreater(count, 3)

    def test_c(self):
        flags = ["-std=c99", "-Wall", "-Wextra", "-Werror", f"-I{TOP / 'bindings/c'}"]
        for document in DOCUMENTS:
            for text, printed in programs_of(document, "c"):
                with self.subTest(document=document.name), tempfile.TemporaryDirectory() as folder:
                    pathlib.Path(folder, "main.c").write_text(text)
                    self.assertEqual(run(["cc", *flags, "main.c", str(ARCHIVE), "-o", "main"], cwd=folder), "")
                    self.assertEqual(run([f"{folder}/main"]), printed)

    def test_proved_code(self):
        """Rattle and SQL stand in code that the gate proves."""
        code = "\n".join(file.read_text() for file in sorted(TOP.glob("crates/*/src/**/*.rt")))
        proved = squeezed(code) + squeezed(without_contracts(code))
        for document in DOCUMENTS:
            for tag, text in blocks_of(document):
                parts = text.split("\n\n") if tag == "rust" else text.splitlines() if tag == "sql" else []
                for part in filter(None, map(squeezed, parts)):
                    with self.subTest(document=str(document.relative_to(TOP)), part=part):
                        self.assertIn(part, proved)


class Calls(unittest.TestCase):
    """The page of calls has the bytes that the tests in Rattle read and write."""

    def setUp(self):
        self.frames, self.call = [text for tag, text in blocks_of(TOP / "docs/CALLS.md") if tag == "text"]

    def test_frames(self):
        for line in self.frames.splitlines():
            frame = bytes.fromhex(line)
            self.assertEqual(int.from_bytes(frame[:4], "big"), len(frame[4:]))

    def test_call(self):
        tests = (TOP / "crates/format_tests/src/requests.rt").read_text()
        written = re.search(r'^const AFTER: &\[u8\] =\s*(b".*");$', tests, re.M)
        self.assertEqual(bytes.fromhex(self.call), ast.literal_eval(written[1]))


class Manual(unittest.TestCase):
    """The page of the manual has what the documents have."""

    def setUp(self):
        self.page = (TOP / "man/changeset.1").read_text().replace("\\-", "-").replace("\\(aq", "'").replace("\\&", "")

    def test_errors(self):
        rows = re.findall(r"^\| (\d+) \| ([^|]*) \| \d+ \|", (TOP / "docs/ERRORS.md").read_text(), re.M)
        listed = re.findall(r"^\.B error (\d+) (.*)$", self.page, re.M)
        elsewhere = {"51", "80", "81", "82", "83"}
        self.assertEqual(listed, [(number, name) for number, name in rows if number not in elsewhere])

    def test_lines(self):
        rows = re.findall(r"^\| `([^`|]*)` \|", (TOP / "docs/SHELL.md").read_text(), re.M)
        self.assertGreater(len(rows), 15)
        for line in rows:
            with self.subTest(line=line):
                self.assertIn(f".B {line}\n", self.page)

    def test_usage(self):
        usage = blocks_of(TOP / "docs/COMMAND.md")[0][1]
        for word in re.findall(r"--[a-z-]+|^  [a-z]+", usage, re.M):
            with self.subTest(word=word):
                self.assertIn(word.strip(), self.page)


class Links(unittest.TestCase):
    """What a document points to is there."""

    def test_links(self):
        for document in DOCUMENTS:
            for link in re.findall(r"\]\(([^)#]+)(?:#[^)]*)?\)", document.read_text()):
                with self.subTest(document=document.name, link=link):
                    self.assertTrue((document.parent / link).exists())

    def test_headings(self):
        for document in DOCUMENTS:
            for file, heading in re.findall(r"\]\(([^)#]*)#([^)]+)\)", document.read_text()):
                target = document.parent / file if file else document
                headings = re.findall(r"^#+ (.*)$", target.read_text(), re.M)
                with self.subTest(document=document.name, heading=heading):
                    self.assertIn(heading, [re.sub(r"[^\w -]", "", it).lower().replace(" ", "-") for it in headings])

    def test_crates(self):
        """ARCHITECTURE lists each crate, and README is short."""
        table = (TOP / "docs/ARCHITECTURE.md").read_text().split("\n## ")[1]
        rows = re.findall(r"^\| (`\w+`(?:, `\w+`)*) \|", table, re.M)
        listed = [name for row in rows for name in re.findall(r"\w+", row)]
        self.assertEqual(sorted(listed), sorted(file.name for file in (TOP / "crates").iterdir() if file.is_dir()))
        self.assertLess(len((TOP / "README.md").read_text().splitlines()), 150)


if __name__ == "__main__":
    main()

#!/usr/bin/env python3
"""Tests of `make`: what it installs into an empty prefix is compiled against and run from there, nothing that has not changed is
made anew, and its variables are heeded.

usage: bindings/c/test_install.py, behind `make`; `make check` runs it
"""
import os
import pathlib
import re
import shutil
import subprocess
import sys
import tempfile
import unittest

HERE = pathlib.Path(__file__).resolve().parent
sys.path.insert(0, str(HERE.parents[1] / "tests"))

from support.flags import flags_by_pkg_config, flags_of_file  # noqa: E402

PROGRAM = HERE.parents[1] / "crates/changeset/out/changeset"
CALLS = HERE.parents[1] / "crates/changeset_calls/out/changeset_calls"

# What is installed below the prefix, and what else where a program is built.
LIBRARY = {
    "include/vollikash.h", "include/vollikash_store.h", "lib/libvollikash.a", "lib/libvollikash.so", "lib/libvollikash.so.1",
    "lib/libvollikash.so.1.0.0", "lib/pkgconfig/vollikash.pc",
}
COMMANDS = {
    PROGRAM: {"bin/changeset", "share/man/man1/changeset.1"},
    CALLS: {"bin/changeset-calls", "share/man/man1/changeset-calls.1"},
}

# An INSERT into a table of two key columns, whose flags are 1 and 1, is numbered.
SOURCE = r"""
#include <stdio.h>
#include <vollikash.h>

int main(void)
{
    const uint8_t file[] = {0x54, 2, 1, 1, 't', 0, 0x12, 0, 3, 1, 'x', 3, 1, 'y'};
    uint8_t numbered[sizeof file];
    size_t written;
    struct vollikash_fault fault;
    if (vollikash_number_keys(file, sizeof file, numbered, sizeof numbered, &written, &fault) != VOLLIKASH_OK) {
        return 1;
    }
    printf("%d %zu %d %d\n", vollikash_version() == VOLLIKASH_VERSION, written, numbered[2], numbered[3]);
    return 0;
}
"""
PRINTED = "1 14 1 2\n"


def run(*words, **changed):
    """What a command prints, which has to succeed."""
    ran = subprocess.run(list(map(str, words)), env={**os.environ, **changed}, capture_output=True, text=True, check=False)
    if ran.returncode:
        raise AssertionError(f"{words}: {ran.returncode}: {ran.stdout}{ran.stderr}")
    return ran.stdout


def make(*words):
    """What `make` prints."""
    return run("make", "--no-print-directory", "-C", HERE, *words)


def files_below(folder):
    """The files in a folder, and in those below it."""
    return {str(path.relative_to(folder)) for path in folder.rglob("*") if not path.is_dir()}


def times_of_built():
    """When each file that `make` has built was written."""
    return {path.name: path.lstat().st_mtime_ns for path in (HERE / "out").iterdir()}


class Install(unittest.TestCase):
    """What `make install` puts into an empty prefix, and what `make` does for it."""

    @classmethod
    def setUpClass(cls):
        folder = tempfile.TemporaryDirectory()
        cls.addClassCleanup(folder.cleanup)
        cls.folder = pathlib.Path(folder.name)
        cls.prefix = cls.folder / "a prefix"
        make("install", f"PREFIX={cls.prefix}")
        cls.lib = cls.prefix / "lib"
        cls.source = cls.folder / "main.c"
        cls.source.write_text(SOURCE)

    def built(self, *flags):
        """The program of these tests, compiled with flags."""
        program = self.folder / "main"
        run("cc", "-Wall", "-Wextra", "-Werror", self.source, *flags, "-o", program)
        return program

    def flags(self):
        """The flags by pkg-config, or where that is not there by its file."""
        file = self.lib / "pkgconfig/vollikash.pc"
        return flags_by_pkg_config(file) or flags_of_file(file)

    def test_files(self):
        wanted = LIBRARY.union(*(files for program, files in COMMANDS.items() if program.exists()))
        self.assertEqual(files_below(self.prefix), wanted)

    def test_a_program(self):
        program = self.built(*self.flags())
        self.assertEqual(run(program, LD_LIBRARY_PATH=str(self.lib)), PRINTED)

    def test_the_name_for_the_loader(self):
        """A program that is linked asks for the library by the first number of its version."""
        program, alone = self.built(*self.flags()), self.folder / "alone"
        alone.mkdir()
        shutil.copy(self.lib / "libvollikash.so.1", alone)
        self.assertEqual(run(program, LD_LIBRARY_PATH=str(alone)), PRINTED)

    def test_the_archive(self):
        program = self.built("-I", self.prefix / "include", self.lib / "libvollikash.a")
        self.assertEqual(run(program, LD_LIBRARY_PATH=""), PRINTED)

    @unittest.skipUnless(shutil.which("pkg-config"), "there is no pkg-config")
    def test_pkg_config(self):
        self.assertEqual(self.flags(), flags_of_file(self.lib / "pkgconfig/vollikash.pc"))
        version = run("pkg-config", "--modversion", "vollikash", PKG_CONFIG_PATH=str(self.lib / "pkgconfig"))
        self.assertEqual(f"libvollikash.so.{version.strip()}", os.readlink(self.lib / "libvollikash.so.1"))
        self.assertIn(f'"Vollikash {version.strip()}"', (HERE.parents[1] / "man/changeset.1").read_text())

    def test_destdir(self):
        """The files stand below DESTDIR, and say where they are to be without it. Nothing is made anew for that."""
        before = times_of_built()
        make("install", "PREFIX=/opt/v", f"DESTDIR={self.folder}/staged", "LIBDIR=/opt/v/lib64")
        self.assertEqual(times_of_built(), before)
        self.assertGreaterEqual(set(before), {"libvollikash.a", "libvollikash.so", "libvollikash.so.1.0.0"})
        staged = self.folder / "staged/opt/v"
        self.assertEqual({name.replace("lib64/", "lib/") for name in files_below(staged)}, files_below(self.prefix))
        flags = flags_of_file(staged / "lib64/pkgconfig/vollikash.pc")
        self.assertEqual(flags, ["-I/opt/v/include", "-L/opt/v/lib64", "-lvollikash"])

    @unittest.skipUnless(PROGRAM.exists(), "the changeset program is not built")
    def test_the_command(self):
        """The program runs from there, and its page of the manual has each word of its usage that begins a line, or an option."""
        usage = run(self.prefix / "bin/changeset", "--help")
        page = (self.prefix / "share/man/man1/changeset.1").read_text().replace("\\-", "-")
        words = re.findall(r"^  (\w+)|(--\w+)", usage, re.M)
        self.assertGreater(len(words), 8)
        for command, option in words:
            self.assertRegex(page, rf"(?m)^\.B[IR]? {command or option}\b")


    def test_variables(self):
        """What is said of tools and flags is what the commands have."""
        given = {"CC": "a-cc", "AR": "an-ar", "CFLAGS": "-O1 -g", "CPPFLAGS": "-DNOTHING", "LDFLAGS": "-Wl,-z,now"}
        told = make("--dry-run", "--always-make", "all", "out/check", *(f"{name}={value}" for name, value in given.items()))
        commands = told.replace("\\\n", " ").splitlines()
        (archive,) = (line for line in commands if " -M" in line)
        (shared,) = (line for line in commands if " -shared " in line)
        (check,) = (line for line in commands if line.endswith("-o out/check"))
        self.assertTrue(archive.endswith("| an-ar -M"))
        for line, names in ((shared, ("CC", "CFLAGS", "LDFLAGS")), (check, ("CC", "CPPFLAGS", "CFLAGS", "LDFLAGS"))):
            for name in names:
                self.assertIn(given[name], line)


if __name__ == "__main__":
    unittest.main()

#!/usr/bin/env python3
"""Tests of a release. `release/dist.py` makes it of what is built. The commands of README install it
in an empty folder. There it is used in an empty environment, without the repository and without
`rt`. All places that have the version agree.
"""
import ctypes
import email
import functools
import os
import pathlib
import re
import shutil
import subprocess
import sys
import tarfile
import tempfile
import unittest
import zipfile
from unittest import mock

from support.documents import blocks_of, commands_of, programs_of
from support.flags import flags_by_pkg_config, flags_of_file
from support.program import PATIENCE, TOP

sys.path.insert(0, str(TOP / "release"))

import dist  # noqa: E402
import glibc  # noqa: E402

README = TOP / "README.md"
PACKAGE = TOP / "bindings/python/vollikash"
CRATE = TOP / "bindings/rust"
PYTHON = dist.python_with_setuptools()
IS_BUILT = all(path.exists() for path in dist.BUILDERS)
HAS_COMMAND = (PACKAGE / "__main__.py").exists()

# A tree without commits has no date.
try:
    DATE = dist.date_of_tree()
except SystemExit:
    DATE = 1_700_000_000

needs_release = unittest.skipUnless(IS_BUILT and PYTHON, "the program, the library or setuptools is missing")

# What the archive has, documents aside.
INSTALLED = {
    "SHA256SUMS", "bin/changeset", "bin/changeset-calls", "include/vollikash.h", "include/vollikash_store.h", "lib/libvollikash.a", "lib/libvollikash.so",
    "lib/libvollikash.so.1", f"lib/libvollikash.so.{dist.VERSION}", "lib/pkgconfig/vollikash.pc",
    "share/man/man1/changeset.1", "share/man/man1/changeset-calls.1",
}
# Documents of the archive, among others.
DOCUMENTS = {
    "CHANGELOG.md", "CONTRIBUTING.md", "README.md", "docs/C.md", "docs/PYTHON.md", "examples/key-change.cs",
    "examples/editor/editor.c", "examples/inspect/main.c", "examples/notes/notes.py", "examples/notes/terminal.py", "examples/sync/sync.py",
    *(str(path.relative_to(TOP)) for path in CRATE.glob("**/*.rs") if "target" not in path.parts),
    "bindings/rust/Cargo.toml", "bindings/rust/README.md",
}
# What it also has, where the repository has it.
OF_COMMAND = {
    "man/vollikash.1": "share/man/man1/vollikash.1",
    "bindings/python/completions/vollikash.bash": "share/bash-completion/completions/vollikash.bash",
    "bindings/python/completions/_vollikash": "share/zsh/site-functions/_vollikash",
}
COMMAND_FILES = {target for source, target in OF_COMMAND.items() if (TOP / source).exists()}

WHERE = """\
from vollikash import _files, _process
print(_files._find(), _process.find_program(), _process.find_program("changeset", "VOLLIKASH_PROGRAM"), sep="\\n")
"""


def environment(*folders, **others):
    """What a program finds: the tools of the system and these folders, but nothing of the repository."""
    path = os.pathsep.join([*map(str, folders), *os.defpath.split(os.pathsep)])
    return {
        "PATH": path, "HOME": os.devnull, "LANG": "C.UTF-8", "PIP_NO_INDEX": "1",
        "SOURCE_DATE_EPOCH": str(DATE), **others,
    }


def run(*words, **options):
    """What a command prints, which has to succeed."""
    done = subprocess.run(
        list(map(str, words)), stdin=subprocess.DEVNULL, stdout=subprocess.PIPE, stderr=subprocess.STDOUT, text=True,
        timeout=PATIENCE, check=False, **{"env": environment(), **options},
    )
    if done.returncode:
        raise AssertionError(f"{words}: {done.returncode}: {done.stdout}")
    return done.stdout


def make(folder, **options):
    """Make a release in a folder."""
    return run(sys.executable, TOP / "release/dist.py", folder, **options)


def script_of(document):
    """The `sh` block of a document."""
    (script,) = (text for tag, text in blocks_of(document) if tag == "sh")
    return script


class Release:
    """A release that is made and installed in an empty folder."""

    def __init__(self, folder):
        self.folder = folder / "release"
        self.environment = folder / "environment"
        make(self.folder)
        run(sys.executable, "-m", "venv", self.environment)
        run("sh", "-e", "-c", script_of(README), cwd=self.folder, env=environment(self.environment / "bin"))
        self.unpacked = self.folder / dist.NAME
        self.python = self.environment / "bin/python"
        (self.wheel,) = self.folder.glob("*.whl")

    def metadata(self, name):
        """The fields of a file of the wheel's dist-info."""
        with zipfile.ZipFile(self.wheel) as wheel:
            return email.message_from_bytes(wheel.read(f"vollikash-{dist.VERSION}.dist-info/{name}"))


@functools.lru_cache(maxsize=None)
def release():
    """The release, which is made once for all tests."""
    folder = tempfile.TemporaryDirectory()
    unittest.addModuleCleanup(folder.cleanup)
    return Release(pathlib.Path(folder.name))


def files_below(package):
    """The files of a package, but for what Python compiles."""
    files = {path.relative_to(package) for path in package.rglob("*") if path.is_file()}
    return {str(file) for file in files if file.suffix != ".pyc"}


def number_of(version):
    """The number that the C library has for a version."""
    major, minor, patch = map(int, version.split("."))
    return 1_000_000 * major + 1_000 * minor + patch


class Versions(unittest.TestCase):
    """Each place that has the version has that of the file VERSION."""

    def expect(self, pattern, *paths):
        """Assert that each file has the version at a pattern."""
        for path in paths:
            with self.subTest(path.name):
                self.assertEqual(re.findall(pattern, path.read_text(), re.M)[:1], [dist.VERSION])

    def test_files(self):
        self.assertRegex(dist.VERSION, r"^\d+\.\d+\.\d+$")
        self.expect(r'^__version__ = "(.*)"$', PACKAGE / "__init__.py")
        self.expect(r'^version = "(.*)"$', CRATE / "Cargo.toml")
        self.expect(r'^\.TH .*"Vollikash (\S+)"', *TOP.glob("man/*.1"))
        self.expect(r"^## (\d\S+)$", TOP / "CHANGELOG.md")

    def test_documents(self):
        """The names of the release's files in the documents have it."""
        for document in (README, CRATE / "README.md", *TOP.glob("docs/*.md")):
            named = set(re.findall(r"\bvollikash-(\d[\d.]*\d)-", document.read_text()))
            with self.subTest(document.name):
                self.assertLessEqual(named, {dist.VERSION})

    def test_header(self):
        header = (TOP / "bindings/c/vollikash.h").read_text()
        self.assertIn(f"#define VOLLIKASH_VERSION {number_of(dist.VERSION)}\n", header)

    @unittest.skipUnless(dist.SHARED.exists(), "the library is not built")
    def test_library(self):
        self.assertEqual(ctypes.CDLL(str(dist.SHARED)).vollikash_version(), number_of(dist.VERSION))

    @needs_release
    def test_release(self):
        self.expect(r"^Version: (.*)$", release().unpacked / "lib/pkgconfig/vollikash.pc")
        self.assertEqual(release().metadata("METADATA")["Version"], dist.VERSION)

    @unittest.skipUnless(HAS_COMMAND, "there is no command vollikash")
    def test_command(self):
        printed = run(sys.executable, "-m", "vollikash", "--version", env=environment(PYTHONPATH=str(PACKAGE.parent)))
        self.assertRegex(printed, rf"\b{re.escape(dist.VERSION)}\b")


@needs_release
class Archive(unittest.TestCase):
    """What is in the archive, and that it is used where it is unpacked."""

    def test_names(self):
        with tarfile.open(release().folder / f"{dist.NAME}.tar.gz") as archive:
            members = archive.getmembers()
        names = [member.name for member in members]
        self.assertEqual(names, sorted(names))
        names = {name.replace(f"{dist.NAME}/", "", 1) for name in names}
        folders = ("docs/", "examples/", "bindings/rust/")
        documents = {name for name in names if name.startswith(folders) or name in DOCUMENTS}
        self.assertEqual(names, INSTALLED | COMMAND_FILES | documents)
        self.assertGreater(documents, DOCUMENTS)

    def test_owners_and_modes(self):
        """They are those of no machine, and only programs and shared libraries can be executed."""
        with tarfile.open(release().folder / f"{dist.NAME}.tar.gz") as archive:
            members = archive.getmembers()
        self.assertEqual({(member.uid, member.gid, member.uname, member.gname) for member in members}, {(0, 0, "", "")})
        self.assertEqual({member.mtime for member in members}, {DATE})
        executable = {member.name.split("/", 1)[1] for member in members if member.isreg() and member.mode != 0o644}
        programs = {"bin/changeset", "bin/changeset-calls", "examples/notes/notes.py", "examples/sync/sync.py"}
        self.assertEqual(executable, {f"lib/libvollikash.so.{dist.VERSION}", *programs})
        self.assertEqual({member.mode for member in members}, {0o644, 0o755, 0o777})

    def test_sums(self):
        """They are right, and no file but theirs is without one."""
        unpacked = release().unpacked
        run("sha256sum", "--check", "--strict", "SHA256SUMS", cwd=unpacked)
        run("sha256sum", "--check", "--strict", "SHA256SUMS", cwd=release().folder)
        listed = re.findall(r"^[0-9a-f]{64}  (.*)$", (unpacked / "SHA256SUMS").read_text(), re.M)
        with tarfile.open(release().folder / f"{dist.NAME}.tar.gz") as archive:
            files = [member.name.split("/", 1)[1] for member in archive if member.isreg()]
        self.assertEqual(listed, [name for name in files if name != "SHA256SUMS"])

    def test_c(self):
        """The programs of the documents run with the shared library, by two ways to its flags, and the archive."""
        unpacked = release().unpacked
        file = unpacked / "lib/pkgconfig/vollikash.pc"
        archive = [f"-I{unpacked / 'include'}", str(unpacked / "lib/libvollikash.a")]
        for flags in filter(None, [flags_of_file(file), flags_by_pkg_config(file), archive]):
            for document in (unpacked / "README.md", unpacked / "docs/C.md"):
                for source, printed in programs_of(document, "c"):
                    with self.subTest(document=document.name, flags=flags):
                        self.assertEqual(self.compiled(source, flags), printed)

    def compiled(self, source, flags):
        """The output of a C program that is compiled with flags."""
        with tempfile.TemporaryDirectory() as folder:
            pathlib.Path(folder, "main.c").write_text(source)
            run("cc", "-std=c99", "-Wall", "-Wextra", "-Werror", "main.c", *flags, cwd=folder)
            path = environment(LD_LIBRARY_PATH=str(release().unpacked / "lib"))
            return run("./a.out", cwd=folder, env=path)

    @unittest.skipUnless(shutil.which("pkg-config", path=os.defpath), "there is no pkg-config")
    def test_commands_of_c(self):
        """The commands of docs/C.md compile its first program."""
        folder, document = release().folder, release().unpacked / "docs/C.md"
        source, printed = next(programs_of(document, "c"))
        (folder / "main.c").write_text(source)
        run("sh", "-e", "-c", script_of(document), cwd=folder)
        path = environment(LD_LIBRARY_PATH=str(release().unpacked / "lib"))
        self.assertEqual(run("./a.out", cwd=folder, env=path), printed)

    def test_places(self):
        """The file for pkg-config has no folder of this machine."""
        text = (release().unpacked / "lib/pkgconfig/vollikash.pc").read_text()
        self.assertIn("\nlibdir=${prefix}/lib\n", text)
        self.assertEqual(re.findall(r"^\w+=(/.*)$", text, re.M), [])

    def test_commands(self):
        """README's commands print what it says."""
        path = environment(release().unpacked / "bin", release().environment / "bin")
        self.assertIsNone(shutil.which("rt", path=path["PATH"]))
        with tempfile.TemporaryDirectory() as folder:
            shutil.copytree(release().unpacked / "examples", f"{folder}/examples")
            for block in (text for tag, text in blocks_of(release().unpacked / "README.md") if tag == "console"):
                for command, printed in commands_of(block):
                    with self.subTest(command=command):
                        self.assertEqual(run("sh", "-c", f"{command}\nexit 0", cwd=folder, env=path), printed)


@needs_release
class Wheel(unittest.TestCase):
    """What the wheel says, and what it installs."""

    def test_tag(self):
        """It names the version of glibc that the programs and the library need, and no later one."""
        symbols = "".join(run("objdump", "-T", file) for file in (dist.PROGRAM, dist.CALLS, dist.SHARED))
        needed = {(int(major), int(minor)) for major, minor in re.findall(r"\bGLIBC_(\d+)\.(\d+)", symbols)}
        major, minor = max(needed | {glibc.OLDEST})
        tag = f"py3-none-manylinux_{major}_{minor}_x86_64"
        self.assertEqual(release().wheel.name, f"vollikash-{dist.VERSION}-{tag}.whl")
        fields = release().metadata("WHEEL")
        self.assertEqual((fields["Tag"], fields["Root-Is-Purelib"]), (tag, "false"))

    def test_metadata(self):
        fields = release().metadata("METADATA")
        self.assertEqual((fields["Name"], fields["Requires-Python"]), ("vollikash", ">=3.8"))
        self.assertIn("Typing :: Typed", fields.get_all("Classifier"))
        self.assertIsNone(fields["License"])
        self.assertEqual(fields["Description-Content-Type"], "text/markdown")
        self.assertEqual(fields.get_payload(), (TOP / "bindings/python/README.md").read_text())
        self.assertIsNone(fields["Requires-Dist"])

    def test_files(self):
        """The whole package is installed, and what it calls is found next to it."""
        printed = run(release().python, "-c", WHERE).splitlines()
        (package,) = release().environment.glob("lib/python*/site-packages/vollikash")
        found = ("libvollikash.so", "changeset-calls", "changeset")
        self.assertEqual(printed, [str(package / name) for name in found])
        self.assertEqual(files_below(package), files_below(PACKAGE).union(found))

    def test_commands(self):
        """The programs themselves are on PATH, and the command if the package has it."""
        folder = release().environment / "bin"
        self.assertEqual((folder / "changeset").read_bytes(), dist.PROGRAM.read_bytes())
        self.assertEqual((folder / "changeset-calls").read_bytes(), dist.CALLS.read_bytes())
        printed = run("changeset", "examples/key-change.cs", "dump", cwd=release().unpacked, env=environment(folder))
        self.assertIn("table 't'", printed)
        if HAS_COMMAND:
            self.assertIn(dist.VERSION, run("vollikash", "--version", env=environment(folder)))
        shared = {name for name in INSTALLED | COMMAND_FILES if name.startswith("share/")}
        self.assertEqual({name for name in shared if not (release().environment / name).exists()}, set())

    def test_python(self):
        """README's programs in Python run from where the release is unpacked."""
        for document in (release().unpacked / "README.md", TOP / "bindings/python/README.md"):
            programs = list(programs_of(document, "python"))
            self.assertTrue(programs)
            for program, printed in programs:
                with self.subTest(document=document):
                    self.assertEqual(run(release().python, "-c", program, cwd=release().unpacked), printed)


@unittest.skipUnless(shutil.which("objdump") and shutil.which("cc"), "there is no objdump or no cc")
class Glibc(unittest.TestCase):
    """What is found of the libraries that a file needs."""

    def setUp(self):
        folder = tempfile.TemporaryDirectory()
        self.addCleanup(folder.cleanup)
        self.folder = pathlib.Path(folder.name)

    def library(self, name, source, *flags):
        """A shared library of this source."""
        (self.folder / "source.c").write_text(source)
        file = self.folder / f"lib{name}.so"
        run("cc", "-shared", "-fPIC", f"-L{self.folder}", self.folder / "source.c", "-o", file, *flags)
        return file

    def test_nothing_needed(self):
        file = self.library("one", "int one(void) { return 1; }\n", "-nostdlib")
        self.assertEqual(glibc.glibc_of(file), (glibc.OLDEST, []))
        self.assertEqual(glibc.tag_of([file]), "manylinux_2_5_x86_64")

    def test_symbols(self):
        """The symbol getrandom came with 2.25."""
        source = "#include <sys/random.h>\nlong one(char *a) { return getrandom(a, 1, 0); }\n"
        self.assertEqual(glibc.glibc_of(self.library("one", source)), ((2, 25), []))

    def test_packed_relocations(self):
        source = "#include <stdio.h>\nstatic int a; int *b = &a;\nint one(void) { return puts(\"\"); }\n"
        try:
            file = self.library("one", source, "-Wl,-z,pack-relative-relocs")
        except AssertionError:
            self.skipTest("the linker does not pack relocations")
        self.assertEqual(glibc.glibc_of(file), ((2, 36), []))

    def test_another_library(self):
        self.library("one", "int one(void) { return 1; }\n")
        file = self.library("two", "int one(void);\nint two(void) { return one(); }\n", "-lone")
        with self.assertRaisesRegex(SystemExit, r"^no wheel can be made: libtwo\.so needs .*libone\.so$"):
            glibc.tag_of([file])


@needs_release
class Making(unittest.TestCase):
    """A release depends on the tree only, and is refused if something is missing."""

    def test_same_bytes(self):
        with tempfile.TemporaryDirectory() as folder:
            mask = os.umask(0o077)
            try:
                make(folder, env=environment(TZ="Asia/Tokyo", LC_ALL="C", PYTHONHASHSEED="7"))
            finally:
                os.umask(mask)
            again = {path.name: path.read_bytes() for path in pathlib.Path(folder).iterdir()}
        self.assertEqual(len(again), 3)
        for name, data in again.items():
            with self.subTest(name):
                self.assertTrue((release().folder / name).read_bytes() == data)

    def test_make(self):
        printed = run("make", "--dry-run", "dist", "PYTHON=a-python", cwd=TOP)
        self.assertEqual(printed, "a-python release/dist.py\n")

    def test_date(self):
        with mock.patch.dict(os.environ, SOURCE_DATE_EPOCH="1000000000"):
            self.assertEqual(dist.date_of_tree(), 1_000_000_000)
        with mock.patch.dict(os.environ, SOURCE_DATE_EPOCH="yesterday"):
            with self.assertRaisesRegex(SystemExit, "set SOURCE_DATE_EPOCH to the seconds since 1970"):
                dist.date_of_tree()

    def test_nothing_built(self):
        with tempfile.TemporaryDirectory() as folder:
            shutil.copytree(TOP / "release", f"{folder}/release")
            shutil.copy(TOP / "VERSION", folder)
            done = subprocess.run(
                [sys.executable, f"{folder}/release/dist.py"], capture_output=True, text=True, check=False,
            )
        sentence = "there is no crates/changeset/out/changeset: `tests/run` builds and tests it, `rt run`"
        self.assertEqual((done.returncode, done.stdout), (1, ""))
        self.assertEqual(done.stderr, f"make dist: {sentence} in crates/changeset only builds it\n")

    def test_no_setuptools(self):
        with mock.patch.object(dist, "python_with_setuptools", return_value=None):
            with self.assertRaisesRegex(SystemExit, "^make dist: no Python has setuptools 64 or later, and wheel"):
                dist.write_wheel(pathlib.Path("."), 0)


class WrongEdits(unittest.TestCase):
    """The wrong edits that a release tries can still be applied."""

    def test_apply(self):
        self.assertEqual(run(TOP / "release/try_edits.py", "--apply-only"), "")

    def test_number(self):
        edits = [*TOP.glob("crates/*/must-fail/*.edit"), *TOP.glob("release/edits/*/*.edit")]
        self.assertLessEqual(len(edits), 60)


@unittest.skipUnless(PYTHON, "no Python has setuptools 64 or later, and wheel")
class Editable(unittest.TestCase):
    """An editable installation uses the repository."""

    def test_editable(self):
        before = sorted(PACKAGE.parent.iterdir())
        with tempfile.TemporaryDirectory() as folder:
            run(PYTHON, "-m", "venv", "--system-site-packages", folder)
            python = pathlib.Path(folder, "bin/python")
            run(python, "-m", "pip", "install", "--no-build-isolation", "--no-deps", "--editable", PACKAGE.parent)
            printed = run(python, "-c", "import vollikash; print(vollikash.__file__)", cwd=folder)
            self.assertEqual(printed, f"{PACKAGE / '__init__.py'}\n")
            if IS_BUILT:
                found = run(python, "-c", WHERE, cwd=folder).splitlines()
                built = (TOP / "bindings/c/out/libvollikash.so", dist.CALLS, dist.PROGRAM)
                self.assertEqual(found, list(map(str, built)))
            made = ("changeset", "changeset-calls", "vollikash")
            commands = [name for name in made if pathlib.Path(folder, "bin", name).exists()]
            self.assertEqual(commands, ["vollikash"])
        self.assertEqual(sorted(PACKAGE.parent.iterdir()), before)


if __name__ == "__main__":
    unittest.main()

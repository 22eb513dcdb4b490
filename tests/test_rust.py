#!/usr/bin/env python3
"""The crate for Rust: its tests, its documentation, its lints and its format, by Cargo if that is installed.

The C library has to be built. Cargo writes outside the repository, except `Cargo.lock`.
"""
import os
import pathlib
import re
import shutil
import subprocess
import tempfile
import unittest
from typing import List, Optional, Set, Tuple

from support.program import TOP

CRATE = TOP / "bindings/rust"
HEADER = TOP / "bindings/c/vollikash.h"
BUILT = TOP / "bindings/c/out"

# How many seconds a command of Cargo may take.
PATIENCE = 600

# What Cargo itself adds to a package, or leaves in the crate.
OF_CARGO = {".cargo_vcs_info.json", "Cargo.lock", "Cargo.toml.orig"}


def cargo() -> Optional[str]:
    """Return the path of Cargo, on PATH or where rustup installs it. Return None if it is missing."""
    return shutil.which("cargo") or shutil.which("cargo", path=str(pathlib.Path.home() / ".cargo/bin"))


needs_library = unittest.skipUnless((BUILT / "libvollikash.a").exists(), "the library is not built")


def files_of_crate() -> Set[str]:
    """Return the files of the crate, without what Cargo makes."""
    files = {path.relative_to(CRATE) for path in CRATE.rglob("*") if path.is_file()}
    return {file.as_posix() for file in files if file.parts[0] != "target"} - OF_CARGO


def codes_of_stores() -> List[Tuple[str, str]]:
    """Return the numbers and names of what a store refuses, as docs/CALLS.md has them."""
    text = (TOP / "docs/CALLS.md").read_text()
    section = text[text.index("## What is refused"):text.index("## Bytes that are no call")]
    cells = re.findall(r"^\| (\d[^|]*)\|", section, re.M)
    return [code for cell in cells for code in re.findall(r"(\d+) ([A-Z]\w+)", cell)]


class Header(unittest.TestCase):
    """The crate has what `vollikash.h` has, and the errors of calls on stores."""

    def setUp(self) -> None:
        self.header = HEADER.read_text()

    def test_calls(self) -> None:
        declared = re.findall(r"(?:fn|=) (vollikash_\w+)\(", (CRATE / "src/ffi.rs").read_text())
        exported = re.findall(r"^(?:int|size_t|void) (vollikash_\w+)\(", self.header, re.M)
        self.assertEqual(sorted(declared), sorted(exported))

    def test_codes(self) -> None:
        """The errors have the numbers and names of the header, except those that no call of the crate returns, and
        those of the calls on stores.
        """
        codes = re.findall(r'^    (\d+) (\w+) "', (CRATE / "src/error.rs").read_text(), re.M)
        named = re.findall(r"^    VOLLIKASH_(\w+) = (\d+),? +/\*", self.header, re.M)
        titles = [(number, "".join(word.capitalize() for word in name.split("_"))) for name, number in named]
        of_header = [it for it in titles if it[1] not in ("NoRoom", "Done", "Range", "NotOpen")]
        self.assertEqual(len(of_header), 23)
        self.assertEqual([it for it in codes if it in of_header], of_header)
        self.assertEqual(codes, sorted({*of_header, *codes_of_stores()}, key=lambda it: int(it[0])))


@unittest.skipUnless(cargo(), "no cargo")
class Crate(unittest.TestCase):
    """What Cargo finds in the crate."""

    target: str

    @classmethod
    def setUpClass(cls) -> None:
        target = tempfile.TemporaryDirectory()
        cls.addClassCleanup(target.cleanup)
        cls.target = target.name

    def run_cargo(self, *words: str, **variables: Optional[str]) -> "subprocess.CompletedProcess[str]":
        """Return what a command of Cargo does. A variable that is None is not set."""
        path = cargo() or ""
        changed = {
            "PATH": os.pathsep.join([os.path.dirname(path), os.environ["PATH"]]), "CARGO_TARGET_DIR": self.target,
            "VOLLIKASH_DIR": str(BUILT), **variables,
        }
        environment = {name: it for name, it in {**os.environ, **changed}.items() if it is not None}
        return subprocess.run(
            [path, *words], cwd=CRATE, env=environment, stdin=subprocess.DEVNULL, capture_output=True, text=True,
            timeout=PATIENCE, check=False,
        )

    def expect(self, *words: str, **variables: Optional[str]) -> str:
        """Return what a command of Cargo prints, which has to succeed."""
        done = self.run_cargo(*words, **variables)
        self.assertEqual(done.returncode, 0, f"{words}: {done.stdout}{done.stderr}")
        return done.stdout

    def needs(self, command: str) -> None:
        """Skip the test if Cargo does not have a command."""
        if self.run_cargo(command, "--version").returncode:
            self.skipTest(f"no cargo {command}")

    @needs_library
    def test_tests(self) -> None:
        """The tests pass, and the programs of the documentation do."""
        printed = self.expect("test", "--offline")
        passed: List[str] = re.findall(r"^test result: ok\. (\d+) passed", printed, re.M)
        self.assertEqual(len(passed), 6)
        self.assertGreater(min(map(int, passed)), 0)

    @needs_library
    def test_example(self) -> None:
        """The example prints a recorded file."""
        file = TOP / "examples/key-change.cs"
        printed = self.expect("run", "--offline", "--quiet", "--example", "inspect", str(file))
        self.assertEqual(printed, "t delete: 1 'x' -> . .\nt insert: . . -> 2 'x'\n")

    @needs_library
    def test_documentation(self) -> None:
        self.expect("doc", "--offline", "--no-deps", RUSTDOCFLAGS="-D warnings")

    @needs_library
    def test_clippy(self) -> None:
        self.needs("clippy")
        self.expect("clippy", "--offline", "--all-targets", "--", "-D", "warnings")

    def test_format(self) -> None:
        self.needs("fmt")
        self.expect("fmt", "--check")

    def test_package(self) -> None:
        """A package has each file of the crate."""
        listed = self.expect("package", "--offline", "--list", "--allow-dirty").splitlines()
        self.assertEqual(set(listed) - OF_CARGO, files_of_crate())

    @needs_library
    def test_pkg_config(self) -> None:
        """The library is found by pkg-config, also in a folder with a space, and by the place of its file."""
        if not shutil.which("pkg-config"):
            self.skipTest("no pkg-config")
        with tempfile.TemporaryDirectory(prefix="a prefix") as folder:
            shutil.copy(BUILT / "libvollikash.a", folder)
            text = (TOP / "bindings/c/vollikash.pc.in").read_text()
            for place in (folder, "${pcfiledir}"):
                with self.subTest(place):
                    pathlib.Path(folder, "vollikash.pc").write_text(re.sub("@[A-Z]+@", place, text))
                    self.expect("check", "--offline", VOLLIKASH_DIR=None, PKG_CONFIG_PATH=folder)

    def test_missing_library(self) -> None:
        """The build ends with a sentence if no library is found."""
        here = f'"{CRATE}"'
        for folder, shown in (("lib", f'"lib" (from {here})'), ("/nowhere", '"/nowhere"'), (str(CRATE), here)):
            done = self.run_cargo("check", "--offline", VOLLIKASH_DIR=folder)
            with self.subTest(folder):
                self.assertNotEqual(done.returncode, 0)
                self.assertIn(f"vollikash: VOLLIKASH_DIR is {shown}, which has no libvollikash.a", done.stderr)


if __name__ == "__main__":
    unittest.main()

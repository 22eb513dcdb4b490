"""Adds what is not Python to the wheel: the C library, the programs, manual pages and completions.

`pyproject.toml` has the rest. The library and the programs have to be built first. An editable
installation does without them here, and uses those of the repository.
"""
import os
import pathlib
import shutil
import sys
import tempfile

from setuptools import Distribution, setup
from setuptools.command.build_py import build_py

# Setuptools has its own distutils, which replaces that of Python.
from distutils.command.build_scripts import build_scripts

try:
    from setuptools.command.bdist_wheel import bdist_wheel
except ImportError:  # setuptools before 70.1
    from wheel.bdist_wheel import bdist_wheel

HERE = pathlib.Path(__file__).resolve().parent
TOP = HERE.parents[1]
sys.path.insert(0, str(TOP / "release"))

from glibc import tag_of  # noqa: E402

LIBRARY = TOP / "bindings/c/out/libvollikash.so"
PROGRAM = TOP / "crates/changeset/out/changeset"
CALLS = TOP / "crates/changeset_calls/out/changeset_calls"

# What is built, and what builds it.
BUILT = {
    LIBRARY: "make -C bindings/c",
    PROGRAM: "(cd crates/changeset && rt run)",
    CALLS: "(cd crates/changeset_calls && rt run)",
}

# The programs, by the names under which they are installed.
PROGRAMS = {"changeset": PROGRAM, "changeset-calls": CALLS}

# Where other files are installed, if they are there.
SHARED = {
    "share/man/man1": ["man/changeset.1", "man/changeset-calls.1", "man/vollikash.1"],
    "share/bash-completion/completions": ["bindings/python/completions/vollikash.bash"],
    "share/zsh/site-functions": ["bindings/python/completions/_vollikash"],
}


def relative(*paths):
    """Return paths as setuptools takes them, of the files that are there."""
    return [os.path.relpath(path, HERE) for path in paths if path.exists()]


class Native(Distribution):
    """A package that is installed where compiled ones are."""

    def has_ext_modules(self):
        return True


class BuildPy(build_py):
    """Builds the package with the library and the programs."""

    def run(self):
        super().run()
        if self.editable_mode:
            return
        for file, command in BUILT.items():
            if not file.exists():
                raise SystemExit(f"there is no {file.name}: `{command}` builds it")
        package = pathlib.Path(self.build_lib, "vollikash")
        for name, file in {LIBRARY.name: LIBRARY, **PROGRAMS}.items():
            shutil.copy(file, package / name)


class BuildScripts(build_scripts):
    """Copies the programs, which are no text, into the folder of scripts."""

    editable_mode = False

    def copy_scripts(self):
        self.mkpath(self.build_dir)
        if not self.editable_mode:
            for name, file in PROGRAMS.items():
                shutil.copy(file, pathlib.Path(self.build_dir, name))
        return [], []


class Wheel(bdist_wheel):
    """Makes the wheel for each CPython, and for the systems on which library and programs run."""

    def get_tag(self):
        if "editable_wheel" in self.distribution.commands:
            return "py3", "none", "linux_x86_64"
        return "py3", "none", tag_of(BUILT)


# What is built in between is no part of the repository.
with tempfile.TemporaryDirectory() as folder:
    setup(
        distclass=Native,
        cmdclass={"build_py": BuildPy, "build_scripts": BuildScripts, "bdist_wheel": Wheel},
        scripts=[os.path.relpath(PROGRAM, HERE)],
        data_files=[
            (target, relative(*(TOP / name for name in names))) for target, names in SHARED.items()
        ],
        options={"build": {"build_base": folder}, "egg_info": {"egg_base": folder}},
    )

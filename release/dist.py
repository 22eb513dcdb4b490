#!/usr/bin/env python3
"""Makes a release of what is built: an archive with the programs, the C library and the Rust crate,
and a wheel.

usage: release/dist.py [FOLDER]

The files are written into FOLDER (default: dist). The same tree and tools make the same bytes. The
date of all files is SOURCE_DATE_EPOCH, or else that of the last commit.
"""
import gzip
import hashlib
import io
import os
import pathlib
import re
import shutil
import subprocess
import sys
import tarfile
import tempfile
import time
import zipfile

TOP = pathlib.Path(__file__).resolve().parent.parent
VERSION = (TOP / "VERSION").read_text().strip()
NAME = f"vollikash-{VERSION}-linux-x86_64"
C = TOP / "bindings/c"
PROGRAM = TOP / "crates/changeset/out/changeset"
CALLS = TOP / "crates/changeset_calls/out/changeset_calls"
ARCHIVE = C / "out/libvollikash.a"
SHARED = C / f"out/libvollikash.so.{VERSION}"

# What builds what a release is made of, if the gate has not.
BUILDERS = {
    PROGRAM: "`rt run` in crates/changeset",
    CALLS: "`rt run` in crates/changeset_calls",
    ARCHIVE: "`make -C bindings/c`",
    SHARED: "`make -C bindings/c`",
}

# What else is installed: the files that fit a pattern, by their folder in the archive.
INSTALLED = {
    "include": "bindings/c/vollikash*.h",
    "share/bash-completion/completions": "bindings/python/completions/*.bash",
    "share/man/man1": "man/*.1",
    "share/zsh/site-functions": "bindings/python/completions/_*",
}

# What has the same name in the archive as in the repository, tests in Python aside.
DOCUMENTS = (
    "CHANGELOG.md", "CONTRIBUTING.md", "README.md", "docs/*.md", "docs/*.png", "examples/**/*.*", "bindings/rust/*.*",
    "bindings/rust/examples/*.rs", "bindings/rust/src/**/*.rs", "bindings/rust/tests/**/*.rs",
)
KINDS = {".md", ".py", ".c", ".cs", ".png", ".rs", ".toml"}

# Exits with 0 if a Python can build the wheel.
HAS_SETUPTOOLS = """
import setuptools
try:
    import setuptools.command.bdist_wheel
except ImportError:
    import wheel.bdist_wheel
raise SystemExit(int(setuptools.__version__.split(".")[0]) < 64)
"""
BUILD = "import sys; from setuptools.build_meta import build_wheel; build_wheel(sys.argv[1])"


def refuse(sentence):
    """End the program with a sentence."""
    raise SystemExit(f"make dist: {sentence}")


def date_of_tree():
    """Return the date of each file of the release, in seconds."""
    given = os.environ.get("SOURCE_DATE_EPOCH")
    if given is None:
        words = ["git", "log", "-1", "--format=%ct"]
        done = subprocess.run(words, cwd=TOP, capture_output=True, text=True, check=False)
        given = done.stdout.strip()
    if not re.fullmatch(r"\d{9,10}", given):
        refuse("there is no commit with a date: set SOURCE_DATE_EPOCH to the seconds since 1970")
    return int(given)


def python_with_setuptools():
    """Return a Python that can build a wheel, or None."""
    for python in filter(None, (sys.executable, shutil.which("python3", path=os.defpath))):
        words = [python, "-c", HAS_SETUPTOOLS]
        if subprocess.run(words, capture_output=True, check=False).returncode == 0:
            return python
    return None


def pkg_config():
    """Return the text of the file for pkg-config, which finds the rest from its own place."""
    places = {
        "PREFIX": "${pcfiledir}/../..",
        "LIBDIR": "${prefix}/lib",
        "INCLUDEDIR": "${prefix}/include",
        "VERSION": VERSION,
    }
    # pkg-config itself escapes what is odd in its own place, but not in quotes.
    text = (C / "vollikash.pc.in").read_text().replace('"', "")
    return re.sub("@([A-Z]+)@", lambda found: places[found[1]], text)


def files_of_archive():
    """Return each file of the archive by its name: its bytes, and whether it can be executed."""
    paths = {
        "bin/changeset": PROGRAM, "bin/changeset-calls": CALLS, "lib/libvollikash.a": ARCHIVE,
        f"lib/{SHARED.name}": SHARED,
    }
    for folder, pattern in INSTALLED.items():
        paths.update({f"{folder}/{path.name}": path for path in TOP.glob(pattern)})
    for path in (found for pattern in DOCUMENTS for found in TOP.glob(pattern)):
        if path.suffix in KINDS and not path.name.startswith("test_"):
            paths[str(path.relative_to(TOP))] = path
    files = {name: (path.read_bytes(), os.access(path, os.X_OK)) for name, path in paths.items()}
    files["lib/pkgconfig/vollikash.pc"] = (pkg_config().encode(), False)
    files["SHA256SUMS"] = (sums({name: data for name, (data, _) in files.items()}), False)
    return files


def sums(files):
    """Return the SHA-256 sums of files, as sha256sum checks them."""
    digests = {name: hashlib.sha256(data).hexdigest() for name, data in sorted(files.items())}
    return "".join(f"{digest}  {name}\n" for name, digest in digests.items()).encode()


def write_archive(path, date):
    """Write the archive: its files, and the links that name the shared library."""
    soname = f"libvollikash.so.{VERSION.split('.')[0]}"
    links = {f"lib/{soname}": SHARED.name, "lib/libvollikash.so": soname}
    entries = {name: (b"", 0o777, target) for name, target in links.items()}
    for name, (data, executable) in files_of_archive().items():
        entries[name] = (data, 0o755 if executable else 0o644, "")
    with open(path, "wb") as file, gzip.GzipFile("", "wb", 9, file, 0) as packed:
        with tarfile.open(fileobj=packed, mode="w", format=tarfile.USTAR_FORMAT) as archive:
            for name, (data, mode, target) in sorted(entries.items()):
                info = tarfile.TarInfo(f"{NAME}/{name}")
                info.type = tarfile.SYMTYPE if target else tarfile.REGTYPE
                info.size, info.mode, info.mtime, info.linkname = len(data), mode, date, target
                archive.addfile(info, io.BytesIO(data))


def write_wheel(folder, date):
    """Write the wheel that setuptools builds, with fixed modes and dates."""
    python = python_with_setuptools()
    if python is None:
        refuse(
            "no Python has setuptools 64 or later, and wheel: "
            "Debian has them as python3-setuptools and python3-wheel"
        )
    with tempfile.TemporaryDirectory() as built:
        done = subprocess.run(
            [python, "-c", BUILD, built], cwd=TOP / "bindings/python",
            env={**os.environ, "SOURCE_DATE_EPOCH": str(date)},
            stdout=subprocess.PIPE, stderr=subprocess.STDOUT, text=True, check=False,
        )
        if done.returncode:
            refuse(f"setuptools built no wheel:\n{done.stdout}")
        (wheel,) = pathlib.Path(built).iterdir()
        repack(wheel, folder / wheel.name, date)


def repack(wheel, path, date):
    """Write the files of a wheel again, so that no mode and no date is of this machine."""
    with zipfile.ZipFile(wheel) as files, zipfile.ZipFile(path, "w", zipfile.ZIP_DEFLATED) as made:
        for entry in files.infolist():
            info = zipfile.ZipInfo(entry.filename, time.gmtime(date)[:6])
            executable = entry.external_attr >> 16 & 0o100
            info.external_attr = (0o100755 if executable else 0o100644) << 16
            info.compress_type = zipfile.ZIP_DEFLATED
            made.writestr(info, files.read(entry))


def main():
    folder = pathlib.Path(sys.argv[1] if len(sys.argv) > 1 else TOP / "dist").resolve()
    for path, builder in BUILDERS.items():
        if not path.exists():
            name = path.relative_to(TOP)
            refuse(f"there is no {name}: `tests/run` builds and tests it, {builder} only builds it")
    date = date_of_tree()
    folder.mkdir(exist_ok=True)
    for path in folder.glob("vollikash-*"):
        path.unlink()
    write_archive(folder / f"{NAME}.tar.gz", date)
    write_wheel(folder, date)
    made = {path.name: path.read_bytes() for path in folder.glob("vollikash-*")}
    (folder / "SHA256SUMS").write_bytes(sums(made))
    print("\n".join(sorted(f"{folder.name}/{name}" for name in made)))


if __name__ == "__main__":
    main()

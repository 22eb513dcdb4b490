"""Finds which version of glibc programs and shared libraries need, by `objdump`."""
import os
import re
import subprocess

# The libraries that each Linux with glibc has.
SYSTEM = {
    "ld-linux-x86-64.so.2", "libc.so.6", "libdl.so.2", "libgcc_s.so.1", "libm.so.6",
    "libpthread.so.0", "librt.so.1",
}

# The oldest version that a wheel can name.
OLDEST = (2, 5)


def glibc_of(file):
    """Return the version of glibc that a file needs, and the libraries that it needs besides."""
    text = subprocess.run(
        ["objdump", "-p", str(file)], env={**os.environ, "LC_ALL": "C"}, stdout=subprocess.PIPE,
        universal_newlines=True, check=True,
    ).stdout
    others = set(re.findall(r"^ *NEEDED +(\S+)$", text, re.M)) - SYSTEM
    found = re.findall(r"\bGLIBC_(\d+)\.(\d+)", text)
    # The loader of 2.36 is the first that knows this, and the name has no number.
    found += [("2", "36")] if "GLIBC_ABI_DT_RELR" in text else []
    return max([OLDEST, *((int(major), int(minor)) for major, minor in found)]), sorted(others)


def tag_of(files):
    """Return the tag of a wheel with these files: the systems on which all of them run."""
    versions = []
    for file in files:
        version, others = glibc_of(file)
        if others:
            raise SystemExit(f"no wheel can be made: {file.name} needs {', '.join(others)}")
        versions.append(version)
    major, minor = max(versions)
    return f"manylinux_{major}_{minor}_x86_64"

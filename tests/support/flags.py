"""The flags by which a compiler finds the C library, from its file for pkg-config."""
import os
import re
import shlex
import shutil
import subprocess


def flags_of_file(path):
    """The flags that a file of pkg-config has, read as pkg-config reads it."""
    text = path.read_text()
    folders = {"pcfiledir": str(path.parent), **dict(re.findall(r"^(\w+)=(.*)$", text, re.M))}
    fields = dict(re.findall(r"^([\w.]+): (.*)$", text, re.M))
    flags = f"{fields['Cflags']} {fields['Libs']}"
    while "${" in flags:
        flags = re.sub(r"\$\{(\w+)\}", lambda found: folders[found[1]], flags)
    return shlex.split(flags)


def flags_by_pkg_config(path):
    """The flags that pkg-config prints, or None if it is missing."""
    if not shutil.which("pkg-config"):
        return None
    words = ["pkg-config", "--cflags", "--libs", path.stem]
    environment = {**os.environ, "PKG_CONFIG_PATH": str(path.parent)}
    return shlex.split(subprocess.run(words, env=environment, capture_output=True, text=True, check=True).stdout)

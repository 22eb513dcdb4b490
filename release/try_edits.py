#!/usr/bin/env python3
"""Tries the wrong edits that the gate leaves to a release: the check has to refuse each.

usage: release/try_edits.py [--apply-only] [CRATE..]

`release/edits/CRATE` has the edits of a crate, as `crates/CRATE/must-fail` has those of the gate.
They are tried by `rt ci CRATE..` on a copy of the crates, which takes what the gate has proved on
this machine. With --apply-only nothing is proved: it is only looked whether the text of each edit
still stands where it is to be changed. The exit status is 0 if all is well.
"""
import argparse
import pathlib
import shutil
import subprocess
import sys
import tempfile

TOP = pathlib.Path(__file__).resolve().parent.parent
EDITS = TOP / "release/edits"

# What `rt ci` reads of a repository.
PARTS = ("crates", "crates.txt", "HANDLES")


def fault_of(edit: pathlib.Path) -> "str | None":
    """Why an edit cannot be applied to its crate, or None if it can."""
    crate = TOP / "crates" / edit.parent.name
    texts: "dict[str, str]" = {}
    file = old = None
    for line in edit.read_text().splitlines():
        word, _, text = line.partition(": ")
        if word == "file":
            file = text
            if not (crate / file).is_file():
                return f"there is no {file}"
            texts.setdefault(file, (crate / file).read_text())
        elif word == "old":
            old = text
        elif word == "new" and file is not None and old is not None:
            if texts[file].count(old) != 1:
                return f"{file} has {texts[file].count(old)} times: {old}"
            texts[file] = texts[file].replace(old, text)
    return None if old else "it changes nothing"


def copy_crates(edits: "list[pathlib.Path]", to: pathlib.Path) -> None:
    """Copies the crates, without what was built of them, each with its edits."""
    listed = ["git", "-C", str(TOP), "ls-files", "-z", "--", *PARTS]
    names = subprocess.run(listed, check=True, stdout=subprocess.PIPE, text=True).stdout.split("\0")
    files = {to / name: TOP / name for name in names if name and (TOP / name).is_file()}
    files.update({to / "crates" / edit.parent.name / "must-fail" / edit.name: edit for edit in edits})
    for copy, file in files.items():
        copy.parent.mkdir(parents=True, exist_ok=True)
        shutil.copy2(file, copy)


def main() -> int:
    parser = argparse.ArgumentParser(description="Tries the wrong edits that the gate leaves to a release.")
    parser.add_argument("--apply-only", action="store_true", help="prove nothing")
    parser.add_argument("crates", nargs="*", metavar="CRATE", help="all that have edits, by default")
    words = parser.parse_args()
    crates = words.crates or sorted(folder.name for folder in EDITS.iterdir())
    edits = [edit for crate in crates for edit in sorted((EDITS / crate).glob("*.edit"))]
    faults = {edit: fault_of(edit) for edit in edits}
    for edit, fault in faults.items():
        if fault:
            print(f"{edit.relative_to(TOP)}: {fault}", file=sys.stderr)
    if any(faults.values()) or words.apply_only:
        return int(any(faults.values()))
    with tempfile.TemporaryDirectory() as room:
        copy_crates(edits, pathlib.Path(room))
        return subprocess.run(["rt", "ci", *crates], cwd=room).returncode


if __name__ == "__main__":
    sys.exit(main())

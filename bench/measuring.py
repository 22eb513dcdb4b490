"""Commands that are run, and the processor time and the memory that the system counts of them."""

from __future__ import annotations

import contextlib
import glob
import os
import pathlib
import resource
import shutil
import signal
import subprocess
import sys
import threading
import time
from collections.abc import Iterator
from typing import NamedTuple, Optional

from kinds import Kind
from shapes import TOP, Shape

BENCH = TOP / "bench"
HEADER = TOP / "bindings/c"

# The bytes of the files of one shape and count.
ROOM = 4 << 30

# The rounds of a measurement, and the most seconds of a run.
ROUNDS, LONGEST = 4, 60


class Run(NamedTuple):
    """The processor seconds of a run, and its most memory in bytes."""

    seconds: float
    memory: int


Pair = tuple[Optional[Run], Optional[Run]]


def own_memory() -> int:
    """Return the most memory of this process. No less is counted of those that it starts."""
    return resource.getrusage(resource.RUSAGE_SELF).ru_maxrss * 1024


def folder() -> Optional[str]:
    """Return the folder for all files: TMPDIR, or else one in memory if it has room."""
    memory = "/dev/shm"
    if "TMPDIR" in os.environ or not os.path.isdir(memory):
        return None
    has_room = shutil.disk_usage(memory).free >= ROOM
    return memory if has_room and not os.statvfs(memory).f_flag & os.ST_NOEXEC else None


def is_compiled(program: str, *words: str) -> bool:
    """Compile a program into the current folder. Return whether that succeeds."""
    return subprocess.run(["cc", "-O2", "-o", program, *words], capture_output=True).returncode == 0


def put_programs(program: pathlib.Path, library: pathlib.Path, kit: pathlib.Path) -> bool:
    """Put the programs into the current folder. Return whether there are those of SQLite."""
    calls, folder = str(BENCH / "calls.c"), library.parent
    words = [calls, str(BENCH / "ours.c"), "-I", str(HEADER), str(library), f"-Wl,-rpath,{folder}"]
    for path, name in ((program, "changeset"), (library, "library of C")):
        if not path.is_file():
            sys.exit(f"bench/run: no {name} at {path}")
    if not is_compiled("calls", *words):
        sys.exit("bench/run: the program in C does not compile")
    os.symlink(program, "changeset")
    os.symlink(kit, "kit_apply")
    package = pathlib.Path("package")
    package.write_text(f'#!/bin/sh\nexec "{sys.executable}" "{BENCH / "package.py"}" "$@"\n')
    package.chmod(0o755)
    has_library = is_compiled("library", calls, str(BENCH / "library.c"), "-lsqlite3")
    return has_library and is_compiled("sqlite", str(TOP / "tests/sqlite.c"), "-lsqlite3")


def is_there(kind: Kind) -> bool:
    """Return whether our program of a kind is there. If not, print that the kind is left out."""
    program = kind.ours.split()[0]
    if os.path.exists(program):
        return True
    missing = f"no program at {os.path.realpath(program)}"
    print(f"bench/run: {missing}, so a row is left out: {kind.name}", file=sys.stderr)
    return False


def remove(*patterns: str) -> None:
    """Remove the files of these names."""
    for path in (path for pattern in patterns for path in glob.glob(pattern)):
        os.remove(path)


def put_state(state: str) -> None:
    """Put the store and the database there as a run finds them, or neither."""
    remove("store*", "base*")
    for path in glob.glob(f"{state}.*") if state else ():
        shutil.copyfile(path, path.partition(".")[2])


def run(command: str, is_call: bool) -> Optional[Run]:
    """Run a command. Return None if it takes too long."""
    words, _, source = command.partition(" < ")
    with open(source or os.devnull, "rb") as given, open("printed", "wb") as printed:
        child = subprocess.Popen(words.split(), stdin=given, stdout=printed, start_new_session=True)
        timer = threading.Timer(LONGEST, os.killpg, (child.pid, signal.SIGKILL))
        timer.start()
        _, status, usage = os.wait4(child.pid, 0)
        timer.cancel()
    child.returncode = os.waitstatus_to_exitcode(status)
    if child.returncode == -signal.SIGKILL:
        return None
    with open("printed", "rb") as printed:
        said = printed.read(64)
    if child.returncode != 0 or source and said.startswith(b"error"):
        sys.exit(f"bench/run: {command}: exit status {child.returncode}, {said!r}")
    seconds = float(said.split()[0]) if is_call else usage.ru_utime + usage.ru_stime
    return Run(max(seconds, 1e-9), usage.ru_maxrss * 1024)


@contextlib.contextmanager
def on_processor(turn: int) -> Iterator[None]:
    """Pin this process, and what it starts, to one processor: the next one for each turn."""
    processors = sorted(os.sched_getaffinity(0))
    os.sched_setaffinity(0, {processors[turn % len(processors)]})
    try:
        yield
    finally:
        os.sched_setaffinity(0, processors)


def best(first: Optional[Run], second: Optional[Run]) -> Optional[Run]:
    """Return the shortest time of two runs, and their most memory."""
    if first is None or second is None:
        return first or second
    return Run(min(first.seconds, second.seconds), max(first.memory, second.memory))


def measure(kind: Kind, shape: Shape, count: int, has_theirs: bool, long: float) -> Pair:
    """Measure a kind and SQLite's in turn. What takes long is not repeated."""
    sides = kind.commands(shape, count)[: 2 if has_theirs else 1]
    runs: list[Optional[Run]] = [None, None]
    remove("out", "other")
    started = time.monotonic()
    for turn in range(ROUNDS):
        for side, command in enumerate(sides):
            put_state(kind.state)
            with on_processor(turn):
                one = run(command, kind.is_call)
            runs[side] = best(runs[side], one)
        if time.monotonic() - started > long:
            break
    made = [os.path.getsize(name) for name in ("out", "other") if os.path.exists(name)]
    if len(set(made)) == 2:
        sys.exit(f"bench/run: {kind.name}: the file of SQLite has another length")
    return runs[0], runs[1]

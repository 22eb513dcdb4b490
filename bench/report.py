"""What the bench prints: machine and versions, the ratios over 1 with their reasons, a table."""

from __future__ import annotations

import datetime
import math
import os
import pathlib
import platform
import re
import shutil
import sqlite3
import subprocess
import textwrap
from collections.abc import Iterator
from typing import NamedTuple, Optional

from kinds import KINDS, Kind
from measuring import Pair, Run
from shapes import TOP

BEGIN, END = "<!-- bench/run --write: from here -->", "<!-- bench/run --write: to here -->"

HEADING = (
    "Times SQLite's time",
    "Memory",
    "What",
    "Data",
    "Count",
    "Growth",
    "SQLite's growth",
    "Seconds",
    "SQLite's seconds",
    "MiB",
    "SQLite's MiB",
)


class Row(NamedTuple):
    """What was measured of a kind and a shape, for each number of entries or rows."""

    kind: Kind
    shape: str
    pairs: dict[int, Pair]

    def times(self) -> list[float]:
        """Return our times as multiples of SQLite's, where both were measured."""
        return [a.seconds / b.seconds for a, b in self.pairs.values() if a and b]

    def is_open(self, side: int) -> bool:
        """Return whether no run of a side took too long."""
        return all(pair[side] for pair in self.pairs.values())

    def last(self) -> Pair:
        """Return the runs of the largest count that has a time."""
        return next((pair for pair in reversed(self.pairs.values()) if pair[0]), (None, None))

    def memories(self, floor: int) -> list[float]:
        """Return our memory as a multiple of SQLite's, if both are more than that of the bench."""
        ours, theirs = self.last()
        is_seen = ours and theirs and min(ours.memory, theirs.memory) > floor
        return [ours.memory / theirs.memory] if ours and theirs and is_seen else []


def growth(pairs: dict[int, Pair], side: int) -> str:
    """Return the slopes of log time over log count, from each count to the next one."""
    points = [(math.log(count), pair[side]) for count, pair in pairs.items()]
    return " ".join(
        f"{math.log(run.seconds / before.seconds) / (far - near):.2f}" if run and before else "-"
        for (near, before), (far, run) in zip(points, points[1:])
    )


def cells(row: Row, floor: int) -> Iterator[str]:
    """Yield the cells of a row."""
    has_theirs, (ours, theirs) = bool(row.kind.theirs), row.last()
    times = [f"{a.seconds / b.seconds:.2f}" if a and b else "-" for a, b in row.pairs.values()]
    yield " ".join(times) if has_theirs else ""
    yield "".join(f"{memory:.2f}" for memory in row.memories(floor))
    yield row.kind.name
    yield row.shape
    yield " to ".join(map(str, sorted({min(row.pairs), max(row.pairs)})))
    yield growth(row.pairs, 0)
    yield growth(row.pairs, 1) if has_theirs else ""
    yield f"{ours.seconds:.3g}" if ours else "-"
    yield (f"{theirs.seconds:.3g}" if theirs else "-") if has_theirs else ""
    for run in (ours, theirs):
        yield f"{run.memory / 2**20:.1f}" if run and run.memory > floor else ""


def table(rows: list[Row], floor: int) -> Iterator[str]:
    """Yield the lines of the table."""
    yield f"| {' | '.join(HEADING)} |"
    yield "|" + "---|" * len(HEADING)
    yield from (f"| {' | '.join(cells(row, floor))} |" for row in rows)


def span(numbers: list[float]) -> str:
    """Return the least and the largest of some ratios."""
    return " to ".join(dict.fromkeys((f"{min(numbers):.2f}", f"{max(numbers):.2f}")))


def is_over(number: float) -> bool:
    """Return whether a ratio is printed as more than 1."""
    return round(number, 2) > 1


def over_one(rows: list[Row], floor: int) -> Iterator[str]:
    """Yield a line for each kind whose time, or memory, is more than SQLite's, and why."""
    for kind in dict.fromkeys(row.kind for row in rows):
        own = [row for row in rows if row.kind == kind]
        for what, why, ratios in (
            ("time", kind.why, [row.times() for row in own]),
            ("memory", kind.why_memory, [row.memories(floor) for row in own]),
        ):
            over = [list(filter(is_over, numbers)) for numbers in ratios]
            shapes = [row.shape for row, numbers in zip(own, over) if numbers]
            if shapes:
                ratio = f"{span(sum(over, []))} times SQLite's {what}"
                line = f"- {kind.name}: {ratio} ({', '.join(shapes)}): {why}."
                yield textwrap.fill(line, 100, subsequent_indent="  ", break_long_words=False)


def first_line(*command: str) -> str:
    """Return the first line that a command prints."""
    ran = subprocess.run(command, stdout=subprocess.PIPE, text=True, check=True)
    return ran.stdout.splitlines()[0]


def machine() -> Iterator[str]:
    """Yield the date, the machine and the versions, a line each."""
    model = re.search("model name\\s*: (.*)", pathlib.Path("/proc/cpuinfo").read_text())
    name = model.group(1) if model else platform.machine()
    memory = os.sysconf("SC_PAGE_SIZE") * os.sysconf("SC_PHYS_PAGES") / 2**30
    version = (TOP / "VERSION").read_text().strip()
    kit = first_line("rt", "version").split()[0] + ", " if shutil.which("rt") else ""
    yield f"- Date: {datetime.date.today()}."
    yield f"- Machine: {os.cpu_count()} cores of {name}, {memory:.0f} GiB."
    yield f"- Versions: Vollikash {version}, {kit}SQLite {sqlite3.sqlite_version},"
    yield f"  Python {platform.python_version()}, {first_line('cc', '--version')}."


def body(rows: list[Row], floor: int) -> str:
    """Return all that is printed."""
    rows = sorted(rows, key=lambda row: KINDS.index(row.kind))
    hidden = f"- Left out is memory of less than {floor / 2**20:.0f} MiB, that of the bench."
    none = "- None." if any(row.times() for row in rows) else "- None is measured."
    over = list(over_one(rows, floor)) or [none]
    lines = [*machine(), hidden, "", "Ratios over 1:", "", *over, "", *table(rows, floor)]
    return "\n".join([*lines, ""])


def placed(document: str, printed: str) -> str:
    """Return a document with what is printed between its markers."""
    before, begin, rest = document.partition(BEGIN + "\n")
    _, end, after = rest.partition(END)
    if not begin or not end:
        raise ValueError("the document has no markers")
    return f"{before}{begin}\n{printed}\n{end}{after}"

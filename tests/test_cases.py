#!/usr/bin/env python3
"""The table of cases: each file of `tests/cases` is a script, with the text that the program prints
for each line.

A line of a file that begins with `= ` is printed by the line before it, and `=` is an empty printed
line. Each file runs on a store of its own. The program has to be built first.
"""
import subprocess
import unittest

from support.program import PATIENCE, PROGRAM, main
from support.topics import read_topics


def run(lines):
    """Run lines as a script, and return the exit status and the text of both streams."""
    script = b"\n".join(line.text for line in lines)
    done = subprocess.run([PROGRAM], input=script, capture_output=True, timeout=PATIENCE)
    return done.returncode, done.stdout, done.stderr


def expected(lines):
    """Return what `run` has to return: the status is 1 if a line is refused."""
    is_refused = any(line.printed.startswith(b"error ") for line in lines)
    return int(is_refused), b"".join(line.printed for line in lines), b""


def first_wrong(lines):
    """Return the number of lines in the shortest front of a script that does not run as expected,
    by halving.
    """
    right, wrong = 0, len(lines)
    while right + 1 < wrong:
        middle = (right + wrong) // 2
        if run(lines[:middle]) == expected(lines[:middle]):
            right = middle
        else:
            wrong = middle
    return wrong


def difference(topic, lines):
    """Return a message: the line that does not run as expected, its case, and what is printed from
    there on.
    """
    front = lines[:first_wrong(lines)]
    line = front[-1]
    status, printed, errors = run(front)
    start = len(expected(front[:-1])[1])
    return (
        f"\ntests/cases/{topic}, line {line.number}: {line.text[:200]!r}\n"
        f"in the case\n{line.case.decode(errors='replace')}\n"
        f"expected {line.printed[:500]!r}\nprinted  {printed[start:][:500]!r}\nexit status {status}, {errors[:500]!r}"
    )


class Cases(unittest.TestCase):
    """Each topic prints what its file says."""


def test_of(topic, lines):
    """Return the test of a topic."""

    def test(self):
        if run(lines) != expected(lines):
            self.fail(difference(topic, lines))

    return test


for name, script_lines in read_topics().items():
    setattr(Cases, f"test_{name}", test_of(name, script_lines))


if __name__ == "__main__":
    main()

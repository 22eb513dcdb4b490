"""The table of cases: `tests/cases` has a file for each topic."""
import collections

from support.program import TESTS

TABLE = TESTS / "cases"

# A line of a topic: its number in the file, its bytes, the bytes that it prints, and the comment of
# its case.
Line = collections.namedtuple("Line", "number text printed case")


def read_topic(file):
    """Return the lines of the script of a topic."""
    lines, case = [], []
    for number, text in enumerate(file.read_bytes().split(b"\n")[:-1], 1):
        if text.startswith(b"="):
            lines[-1] = lines[-1]._replace(printed=lines[-1].printed + text[2:] + b"\n")
            continue
        if text.startswith(b"-- "):
            is_next = bool(lines) and lines[-1].text.startswith(b"-- ")
            case = [*case, text] if is_next else [text]
        lines.append(Line(number, text, b"", b"\n".join(case)))
    return lines


def read_topics():
    """Return the lines of each topic, by the name of its file."""
    return {file.name: read_topic(file) for file in sorted(TABLE.iterdir())}

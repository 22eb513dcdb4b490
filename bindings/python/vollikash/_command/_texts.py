"""How values and names are shown: on one line, and without what a terminal would obey."""
import io
import os
import re
from typing import Iterable, Optional, TextIO

from .._values import UNDEFINED, Field

# How many characters of a text, or bytes of a blob, are shown.
_LONGEST = 200

_WORD = re.compile(r"[^\W\d]\w*")

# Characters that move a cursor, end a line, turn the direction of a text, or cannot be seen. The
# joiners of letters and signs, U+200C and U+200D, are none of these.
_HIDDEN = (
    "\x7f-\x9f\xad\u061c\u180e\u200b\u200e\u200f\u2028-\u202e\u2060-\u206f\ud800-\udfff\ufeff"
    "\ufff9-\uffff\U000e0000-\U000e0fff"
)
_IN_LINE = re.compile(rf"[\x00-\x1f\\{_HIDDEN}]")
_IN_LINES = re.compile(rf"[\x00-\x08\x0b-\x1f{_HIDDEN}]")

RED, GREEN, YELLOW, DIM = "31", "32", "33", "2"


def _escape(found: "re.Match[str]") -> str:
    """Return the escape of a character."""
    return found[0].encode("unicode_escape").decode()


def printable(text: str) -> str:
    """Return a text on one line, with escapes in place of hidden characters and backslashes."""
    return _IN_LINE.sub(_escape, text)


def escaped_lines(text: str) -> str:
    """Return a text that keeps its lines, with escapes in place of other hidden characters."""
    return _IN_LINES.sub(_escape, text)


def literal(field: Field) -> str:
    """Return a field as SQL has it, on one line. A long one is cut."""
    if isinstance(field, str):
        text = "'" + printable(field[:_LONGEST]).replace("'", "''") + "'"
        return text if len(field) <= _LONGEST else f"{text}.. ({len(field)} characters)"
    if isinstance(field, bytes):
        text = f"X'{field[:_LONGEST].hex()}'"
        return text if len(field) <= _LONGEST else f"{text}.. ({len(field)} bytes)"
    if field is UNDEFINED:
        return "-"
    return "NULL" if field is None else str(field)


def literals(fields: Iterable[Field]) -> str:
    """Return fields as SQL has them, on one line."""
    return ", ".join(map(literal, fields))


def identifier(name: str) -> str:
    """Return the name of a table or a column, in double quotes if it is not one word."""
    return name if _WORD.fullmatch(name) else '"' + printable(name).replace('"', '""') + '"'


def allow_all(stream: Optional[TextIO], errors: str) -> None:
    """Let a stream handle so what its encoding does not have."""
    if isinstance(stream, io.TextIOWrapper):
        stream.reconfigure(errors=errors)


def title(name: str) -> str:
    """Return the name of a file as messages have it."""
    return "standard input" if name == "-" else printable(name)


def is_terminal(stream: Optional[TextIO]) -> bool:
    """Return whether a stream is a terminal."""
    return stream is not None and not stream.closed and stream.isatty()


def obeys_escapes(stream: Optional[TextIO]) -> bool:
    """Return whether a stream is a terminal that knows escape sequences."""
    return is_terminal(stream) and os.environ.get("TERM") != "dumb"


class Paint:
    """Colours texts for a stream, if it is a terminal and NO_COLOR does not forbid it."""

    def __init__(self, stream: Optional[TextIO]) -> None:
        self._is_on = obeys_escapes(stream) and not os.environ.get("NO_COLOR")

    def __call__(self, colour: str, text: str) -> str:
        return f"\x1b[{colour}m{text}\x1b[0m" if self._is_on else text

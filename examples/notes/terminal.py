"""A terminal: the keys that are typed, and a screen that is drawn line by line, by control sequences that every
terminal of today knows."""
import codecs
import os
import re
import select
import signal
import sys
import termios
import tty
import unicodedata
from typing import Callable, List, NamedTuple, NoReturn, Optional, Tuple

# Another screen than the one that the commands before stand on, without a cursor, where a paste is told from typing;
# and back from there.
_BEGIN = "\x1b[?1049h\x1b[?25l\x1b[?2004h"
_END = "\x1b[?2004l\x1b[?25h\x1b[?1049l"

_PASTE_BEGINS = "\x1b[200~"
_PASTE_ENDS = "\x1b[201~"

_SEQUENCE = re.compile("\x1b(?:\\[[0-9;?]*[ -/]*[@-~]|O[@-~])")

_SEQUENCES = {
    "[A": "up", "[B": "down", "[C": "right", "[D": "left", "[H": "home", "[F": "end", "OA": "up", "OB": "down",
    "OC": "right", "OD": "left", "OH": "home", "OF": "end", "[1~": "home", "[4~": "end", "[3~": "delete",
}

_CONTROLS = {"\r": "enter", "\x7f": "backspace", "\x08": "backspace", "\x03": "quit", "\x04": "quit"}

# How many seconds the rest of a sequence may take, behind which an Escape stands alone; and how many a key may take,
# behind which the size of the screen is asked for again.
_SEQUENCE_SECONDS = 0.05
_KEY_SECONDS = 0.5


class Key(NamedTuple):
    """A key by its name, or what was typed or pasted, where the name is "text"."""

    name: str
    text: str = ""


class Line(NamedTuple):
    """A line of the screen, which may stand out."""

    text: str
    stands_out: bool = False


def shown(text: str) -> str:
    """The text with each character that a screen does not show spelled, as a line feed by a backslash and an n."""
    return "".join(one if one.isprintable() else one.encode("unicode_escape").decode() for one in text)


def _width(character: str) -> int:
    """How many cells of a screen a character takes."""
    if unicodedata.category(character) in ("Mn", "Me"):
        return 0
    return 2 if unicodedata.east_asian_width(character) in "WF" else 1


def width_of(text: str) -> int:
    """How many cells of a screen a text takes that is shown."""
    return sum(map(_width, text))


def cut(text: str, width: int) -> str:
    """The beginning of a text that is shown, of no more cells than these."""
    used = 0
    for place, character in enumerate(text):
        used += _width(character)
        if used > width:
            return text[:place]
    return text


def wrapped(text: str, width: int) -> List[str]:
    """The lines of a text that is shown, of no more cells than these: one at least."""
    lines = []
    while text:
        lines.append(cut(text, width) or text[0])
        text = text[len(lines[-1]) :]
    return lines or [""]


def around(text: str, cursor: int, width: int) -> Tuple[str, int]:
    """What is shown of a text in so many cells, and the cell of the cursor in it: of a long one, the part around the
    cursor."""
    start, used = cursor, 0
    while start > 0 and used + width_of(shown(text[start - 1])) < width:
        start -= 1
        used += width_of(shown(text[start]))
    return cut(shown(text[start : cursor + width]), width), used


class Field:
    """A text that is written, with a cursor, and what keeps it."""

    def __init__(self, title: str, text: str, keep: Callable[[str], str]) -> None:
        self.title, self.text, self.keep = f"{title}: ", text, keep
        self.cursor = len(text)

    def done(self) -> str:
        """Keeps the text."""
        return self.keep(self.text)

    def press(self, key: Key) -> None:
        """Does what a key does, or puts a text in front of the cursor."""
        before, behind = self.text[: self.cursor], self.text[self.cursor :]
        if key.name == "text":
            before += key.text
        elif key.name == "backspace":
            before = before[:-1]
        elif key.name == "delete":
            behind = behind[1:]
        self.text = before + behind
        moves = {"left": len(before) - 1, "right": len(before) + 1, "home": 0, "end": len(self.text)}
        self.cursor = min(max(moves.get(key.name, len(before)), 0), len(self.text))

    def shown(self, columns: int) -> Tuple[str, int]:
        """The line of it in so many cells, and the cell of the cursor."""
        text, cell = around(self.text, self.cursor, max(1, columns - len(self.title)))
        return self.title + text, len(self.title) + cell


def _first_key(typed: str) -> Tuple[Optional[Key], str]:
    """The first key of what was typed, and the rest; no key where the rest of one has to come."""
    if typed.startswith(_PASTE_BEGINS):
        text, end, rest = typed[len(_PASTE_BEGINS) :].partition(_PASTE_ENDS)
        # A terminal sends a pasted line feed as what the key Enter sends.
        return (Key("text", text.replace("\r\n", "\n").replace("\r", "\n")), rest) if end else (None, typed)
    if typed.startswith("\x1b"):
        found = _SEQUENCE.match(typed)
        return (Key(_SEQUENCES.get(found[0][1:], "unknown")), typed[found.end() :]) if found else (None, typed)
    if not typed:
        return None, typed
    control = typed[0] < " " and typed[0] not in "\t\n"
    return Key(_CONTROLS.get(typed[0], "unknown" if control else "text"), typed[0]), typed[1:]


def _stop(*_: object) -> NoReturn:
    """Ends the program by its way out, so that the terminal is restored."""
    raise SystemExit(1)


class Terminal:
    """The terminal of standard input and output, from `with` to its end. A signal that ends the program restores it."""

    def __init__(self) -> None:
        self._decoder = codecs.getincrementaldecoder("utf-8")("surrogateescape")
        self._typed = ""
        self._drawn = ""
        self._ended = False

    def __enter__(self) -> "Terminal":
        for number in (signal.SIGTERM, signal.SIGHUP):
            signal.signal(number, _stop)
        self._before = termios.tcgetattr(sys.stdin.fileno())
        tty.setraw(sys.stdin.fileno())
        self._write(_BEGIN)
        return self

    def __exit__(self, *_: object) -> None:
        try:
            self._write(_END)
            termios.tcsetattr(sys.stdin.fileno(), termios.TCSADRAIN, self._before)
        except (OSError, termios.error):
            pass  # the terminal is gone

    def size(self) -> Tuple[int, int]:
        """The columns and the lines of the screen."""
        try:
            columns, lines = os.get_terminal_size(sys.stdout.fileno())
        except OSError:
            columns, lines = 0, 0
        return columns or 80, lines or 24

    def key(self) -> Optional[Key]:
        """The next key, or None where none is typed for a moment. Its name is "quit" where nobody can type any more."""
        while True:
            key, self._typed = _first_key(self._typed)
            if key is not None:
                return key
            begun = self._typed != "" and not self._typed.startswith(_PASTE_BEGINS)
            if self._ended:
                return Key("quit")
            if not self._read(_SEQUENCE_SECONDS if begun else _KEY_SECONDS):
                if not begun:
                    return None
                self._typed = self._typed[1:]
                return Key("escape")

    def is_behind(self) -> bool:
        """Whether more was typed."""
        return self._typed != "" or bool(select.select([sys.stdin], [], [], 0)[0])

    def show(self, lines: List[Line], cursor: Optional[Tuple[int, int]] = None) -> None:
        """Draws the screen: its lines, each as far as it fits, and the cursor at a line and a cell."""
        columns, count = self.size()
        drawn = "\x1b[?25l"
        for place in range(count):
            line = lines[place] if place < len(lines) else Line("")
            text = cut(line.text, columns)
            drawn += f"\x1b[{place + 1};1H\x1b[0m\x1b[2K" + (f"\x1b[7m{text}\x1b[0m" if line.stands_out else text)
        if cursor is not None and cursor[0] < count:
            drawn += f"\x1b[{cursor[0] + 1};{cursor[1] + 1}H\x1b[?25h"
        if drawn != self._drawn:
            self._drawn = drawn
            self._write(drawn)

    def _read(self, seconds: float) -> bool:
        """Reads what is typed in this many seconds. Returns whether anything was typed."""
        if not select.select([sys.stdin], [], [], seconds)[0]:
            return False
        try:
            got = os.read(sys.stdin.fileno(), 1 << 16)
        except OSError:
            got = b""
        self._ended = not got
        self._typed += self._decoder.decode(got, final=not got)
        return True

    def _write(self, text: str) -> None:
        """Writes all of a text."""
        unsent = text.encode("utf-8", "replace")
        while unsent:
            unsent = unsent[os.write(sys.stdout.fileno(), unsent) :]

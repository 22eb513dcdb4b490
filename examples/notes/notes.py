#!/usr/bin/env python3
"""An editor of notes in the terminal, which undoes and redoes by changesets.

usage: notes.py FILE

The notes are in a store, FILE, which is made if it is missing. Each action is one of an undo stack, which records it
by a changeset. So the editor has no code of its own for undo. The history lasts as long as the program.
"""
import pathlib
import sys
from typing import Callable, Dict, List, Optional, Tuple

# Where the package is not installed, the one of this repository.
sys.path.append(str(pathlib.Path(__file__).resolve().parents[2] / "bindings/python"))

import vollikash  # noqa: E402
from terminal import Field, Key, Line, Terminal, cut, shown, width_of, wrapped  # noqa: E402

TABLE = "notes"

LIST_KEYS = "a add  e edit  d delete  u undo  r redo  up/down choose  q quit"
FIELD_KEYS = "Enter keeps what is written, Esc does not"


class Notes:
    """The notes of a store, with the actions that were done and undone since it was opened."""

    def __init__(self, path: str) -> None:
        self.path = path
        self.rows: List[Tuple[int, str]] = []
        self.store = vollikash.open(path)
        self.stack = self.store.undo_stack(TABLE)
        self.store.create(TABLE, ["number", "text"], key=["number"], exist_ok=True)
        self.read()

    def read(self) -> None:
        """Read the notes again."""
        rows = []
        for number, text in self.store.rows(TABLE):
            if not (isinstance(number, int) and isinstance(text, str)):
                raise ValueError(f"the table {TABLE} holds {(number, text)!r}, which is no note")
            rows.append((number, text))
        self.rows = rows

    def add(self, text: str) -> str:
        """Add a note."""
        number = max((number for number, _ in self.rows), default=0) + 1
        return self.act(f"note {number} added", lambda: self.store.insert(TABLE, number, text))

    def change(self, number: int, text: str) -> str:
        """Write another text into a note."""
        return self.act(f"note {number} changed", lambda: self.store.update(TABLE, {"text": text}, {"number": number}))

    def delete(self, number: int) -> str:
        """Delete a note."""
        return self.act(f"note {number} deleted", lambda: self.store.delete(TABLE, {"number": number}))

    def act(self, what: str, edit: Callable[[], None]) -> str:
        """Do an action, which is none if it changes nothing."""

        def call() -> str:
            with self.stack.action(what) as action:
                edit()
            return what if action.changes else "nothing changed"

        return self.ask(call)

    def ask(self, call: Callable[[], str]) -> str:
        """Make a call, and read the notes after it. If the program has ended, open the store for the next action."""
        try:
            answer = call()
            self.read()
            return answer
        except vollikash.ProgramError:
            self.store.close()
            self.store = self.stack.store = vollikash.open(self.path)
            self.read()
            raise


class Editor:
    """The editor: what it shows, and what it does with a key. A command answers what was done."""

    def __init__(self, notes: Notes, terminal: Terminal) -> None:
        self.notes, self.terminal = notes, terminal
        self.chosen = self.first = 0
        self.field: Optional[Field] = None
        self.status, self.error, self.runs = "opened", "", True
        self.commands: Dict[str, Callable[[], str]] = {
            "a": lambda: self.write("new note", "", notes.add), "e": self.edit,
            "d": lambda: notes.delete(self.note()[0]),
            "u": lambda: notes.ask(lambda: f"undo: {notes.stack.undo()}"),
            "r": lambda: notes.ask(lambda: f"redo: {notes.stack.redo()}"),
            "k": lambda: self.choose(-1), "j": lambda: self.choose(1),
        }
        self.names = {"up": "k", "down": "j", "enter": "e", "delete": "d"}

    def run(self) -> None:
        """Shows the notes and takes keys, until somebody quits."""
        while self.runs:
            if not self.terminal.is_behind():
                self.draw()
            key = self.terminal.key()
            if key is not None:
                self.press(key)

    def press(self, key: Key) -> None:
        """Does what a key asks for. A text that is refused stays in its field."""
        field, command = self.field, self.commands.get(self.names.get(key.name, key.text))
        self.error = ""
        if key.name == "quit" or field is None and key.text == "q":
            self.runs = False
        elif field is None:
            self.attempt(command or (lambda: self.status))
        elif key.name == "escape" or key.name == "enter" and self.attempt(field.done):
            self.field = None
        else:
            field.press(key)

    def attempt(self, action: Callable[[], str]) -> bool:
        """Does an action and chooses the note that it changed, or shows why it is refused. Answers if it was done."""
        before = set(self.notes.rows)
        try:
            self.status = action()
        except (vollikash.Error, LookupError, ValueError, MemoryError) as error:
            self.error = str(error)
        changed = [place for place, row in enumerate(self.notes.rows) if row not in before]
        self.chosen = changed[0] if changed else self.chosen
        self.choose(0)
        return self.error == ""

    def note(self) -> Tuple[int, str]:
        """The chosen note."""
        if not self.notes.rows:
            raise LookupError("there is no note")
        return self.notes.rows[self.chosen]

    def choose(self, by: int) -> str:
        """Chooses another note of the list."""
        self.chosen = max(0, min(self.chosen + by, len(self.notes.rows) - 1))
        return self.status

    def write(self, title: str, text: str, keep: Callable[[str], str]) -> str:
        """Begins to write a text."""
        self.field = Field(title, text, keep)
        return self.status

    def edit(self) -> str:
        """Begins to write the text of the chosen note."""
        number, text = self.note()
        return self.write(f"note {number}", text, lambda changed: self.notes.change(number, changed))

    def draw(self) -> None:
        """Draws the screen."""
        columns, count = self.terminal.size()
        refused = wrapped(f"refused: {shown(self.error)}" if self.error else "", columns)
        text, cell = ("", 0) if self.field is None else self.field.shown(columns)
        keys = LIST_KEYS if self.field is None else FIELD_KEYS
        below = [Line(one) for one in ("", text, *refused, self.status)] + [Line(keys, True)]
        lines = [self.title(columns), Line("")]
        lines += self.listed(max(1, count - len(lines) - len(below)), columns)
        self.terminal.show(lines + below, None if self.field is None else (len(lines) + 1, cell))

    def title(self, columns: int) -> Line:
        """The first line: the file, and how much there is of everything."""
        notes, stack = self.notes, self.notes.stack
        counts = f"notes: {len(notes.rows)}  to undo: {len(stack.done)}  to redo: {len(stack.undone)}"
        name = cut(shown(f"Notes in {notes.path}"), max(1, columns - len(counts) - 2))
        return Line(name + " " * (columns - width_of(name) - len(counts)) + counts, True)

    def listed(self, room: int, columns: int) -> List[Line]:
        """The lines of the notes around the chosen one."""
        rows = self.notes.rows
        self.first = max(min(self.first, self.chosen, max(0, len(rows) - room)), self.chosen - room + 1)
        lines = [
            Line(f"{'>' if place == self.chosen else ' '} {number:>3}  {shown(text[:columns])}")
            for place, (number, text) in enumerate(rows[self.first : self.first + room], self.first)
        ]
        return lines + [Line("")] * (room - len(lines))


def main(words: List[str]) -> None:
    """Runs the editor on the file that is named."""
    if len(words) != 1 or words[0].startswith("-"):
        sys.exit("usage: notes.py FILE")
    if not (sys.stdin.isatty() and sys.stdout.isatty()):
        sys.exit("notes.py: standard input and output have to be a terminal")
    try:
        notes = Notes(words[0])
    except (vollikash.StoreError, ValueError, OSError) as error:
        sys.exit(f"notes.py: {words[0]}: {error}")
    try:
        with Terminal() as terminal:
            Editor(notes, terminal).run()
    finally:
        notes.store.close()


if __name__ == "__main__":
    main(sys.argv[1:])

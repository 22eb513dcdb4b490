#!/usr/bin/env python3
"""Synchronises two SQLite databases and a store by changesets, with a conflict, and prints each step.

usage: sync.py [FOLDER]

A shop and an office are ordinary SQLite databases, and a hub is a store. They have a table with a
key of one column: docs/SQLITE.md says why of one. `vollikash.sqlite` calls SQLite's session
extension. Without FOLDER all three are made in a temporary folder.
"""
import contextlib
import pathlib
import sys
import tempfile
from typing import Dict, List

ROOT = pathlib.Path(__file__).resolve().parents[2]
# Where the package is not installed, the one of this repository.
sys.path.append(str(ROOT / "bindings/python"))

import vollikash  # noqa: E402
from vollikash import Choice, sqlite  # noqa: E402

TABLE, COLUMNS, KEY = "stock", ["part", "name", "count"], ["part"]
SCHEMA = "CREATE TABLE stock(part INTEGER PRIMARY KEY, name TEXT, count INTEGER)"

# What each kind of conflict means, for a reader.
MEANINGS = {
    "data": "the row differs from the one that was changed there", "notfound": "the row is not here",
    "conflict": "a row with this key is here",
}

Rows = List[sqlite.SqliteRow]


class Base:
    """An ordinary SQLite database, with the table."""

    def __init__(self, path: pathlib.Path) -> None:
        self._base = sqlite.Database(path)
        self._base.execute(SCHEMA)

    def close(self) -> None:
        """Close the database."""
        self._base.close()

    def record(self, *statements: str) -> bytes:
        """Run statements of SQL, and return the changeset that SQLite's session extension records."""
        with self._base.session(TABLE) as session:
            for statement in statements:
                self._base.execute(statement)
            return session.changeset()

    def apply(self, file: bytes, choice: Choice = "abort") -> List[str]:
        """Have SQLite apply a changeset, and return the kinds of its conflicts.

        The choice is for a row that differs or exists. "abort" raises `ConflictError`, as does a
        row that is missing.
        """
        kinds: List[str] = []

        def decide(conflict: sqlite.PendingConflict) -> Choice:
            kinds.append(conflict.kind)
            return choice if conflict.kind in ("data", "conflict") else "abort"

        self._base.apply(file, on_conflict=decide)
        return kinds

    def rows(self) -> Rows:
        """Return the rows of the table."""
        return self._base.execute("SELECT * FROM stock ORDER BY part")


class Sides:
    """The three sides, and what is printed of them."""

    def __init__(self, folder: pathlib.Path) -> None:
        self.shop = Base(folder / "shop.db")
        self.office = Base(folder / "office.db")
        self.hub = vollikash.open(folder / "hub.db")
        self.hub.create(TABLE, COLUMNS, KEY)

    def rows(self) -> Dict[str, Rows]:
        """What each side holds."""
        hub: Rows = [*self.hub.rows(TABLE)]
        return {"shop": self.shop.rows(), "office": self.office.rows(), "hub": hub}

    def show(self) -> None:
        """Prints what each side holds, and whether that is the same."""
        held = self.rows()
        for name, rows in held.items():
            print(f"   {name:<7} {'  '.join(' '.join(map(str, row)) for row in rows) or 'nothing'}")
        print("   The three are " + ("the same.\n" if len(set(map(str, held.values()))) == 1 else "not the same.\n"))


def begin(sides: Sides) -> None:
    """The shop makes the first rows, and the others apply its changeset."""
    print("1. The shop's database makes three rows. SQLite records them.")
    changes = sides.shop.record(
        "INSERT INTO stock VALUES(1, 'bolt', 50)", "INSERT INTO stock VALUES(2, 'nut', 80)",
        "INSERT INTO stock VALUES(3, 'hinge', 4)",
    )
    sides.show()
    report = sides.hub.apply(changes)
    sides.office.apply(changes)
    print(f"   The changeset of it, {len(changes)} bytes, is applied by the hub, which carries out {report.applied}")
    print("   entries, and by SQLite to the office's database.")
    sides.show()


def change_in_hub(sides: Sides) -> None:
    """The hub changes rows in a session, and SQLite applies the changeset of the session."""
    print("2. The hub changes a row and deletes another, in a session.")
    with sides.hub.session(TABLE) as session:
        sides.hub.update(TABLE, {"count": 45}, where={"part": 1})
        sides.hub.delete(TABLE, where={"part": 3})
        changes = session.changeset()
    sides.shop.apply(changes)
    sides.office.apply(changes)
    print(f"   Its net changeset, {len(changes)} bytes, is applied by SQLite to the shop's and the office's database.")
    sides.show()


def change_apart(sides: Sides) -> bytes:
    """The shop changes rows. The hub has changed one of them in the meantime."""
    print("3. The shop sells 10 bolts and gets a new part. Meanwhile the hub has counted the bolts, and found 48.")
    changes = sides.shop.record(
        "UPDATE stock SET count = 35 WHERE part = 1", "INSERT INTO stock VALUES(4, 'latch', 7)"
    )
    sides.hub.update(TABLE, {"count": 48}, where={"part": 1})
    sides.show()
    return changes


def meet(sides: Sides, changes: bytes) -> None:
    """The shop's changeset meets a conflict in the hub, which refuses it whole."""
    print("4. The shop's changeset is applied by the hub, with no word about conflicts.")
    try:
        sides.hub.apply(changes)
    except vollikash.ConflictError as error:
        print(f"   Refused, {error}: {MEANINGS[error.kind]}.")
        print("   Nothing of it is carried out, the new part neither.")
    sides.show()


def settle(sides: Sides, changes: bytes) -> None:
    """What the hub has counted stands; the rest of the shop's changeset is carried out."""
    print("5. The hub's count is to stand: what differs is left as it is, and the rest is carried out.")
    report = sides.hub.apply(changes, data="omit")
    for conflict in report.conflicts:
        print(f"   Conflict {conflict.kind}, {conflict.choice}: {MEANINGS[conflict.kind]}.")
    print(f"   Entries that the hub carries out: {report.applied}.")
    sides.show()


def differ(sides: Sides) -> bytes:
    """The shop and the hub change a row apart, and the hub settles that. Answers what came of it, as one changeset."""
    with sides.hub.session(TABLE) as session:
        changes = change_apart(sides)
        meet(sides, changes)
        settle(sides, changes)
        return session.changeset()


def send_back(sides: Sides, changes: bytes) -> None:
    """The others apply what the hub has settled: the office without a conflict, and the shop as it is told."""
    print("6. The hub's session has told all of that as one net changeset. The office applies it, and the shop is to.")
    sides.office.apply(changes)
    try:
        sides.shop.apply(changes)
    except vollikash.ConflictError as error:
        print(f"   The shop refuses it, {error.kind}: {MEANINGS[error.kind]}.")
    sides.show()
    print("7. The shop applies it once more, and is to take the hub's rows.")
    for kind in sides.shop.apply(changes, "replace"):
        print(f"   Conflict {kind}, replace: {MEANINGS[kind]}.")
    sides.show()


def undo(sides: Sides, changes: bytes) -> None:
    """What was settled is undone on each side: the hub's session writes the changeset that does so."""
    print("8. What was settled is undone: the hub reverts its changeset in a session, and the others apply that one's.")
    with sides.hub.session(TABLE) as session:
        sides.hub.revert(changes)
        undone = session.changeset()
    sides.shop.apply(undone)
    sides.office.apply(undone)
    sides.show()


def run(folder: pathlib.Path) -> None:
    """Run each step."""
    sides = Sides(folder)
    with sides.hub, contextlib.closing(sides.shop), contextlib.closing(sides.office):
        begin(sides)
        change_in_hub(sides)
        settled = differ(sides)
        send_back(sides, settled)
        undo(sides, settled)


def main(words: List[str]) -> None:
    """Runs the example in the folder that is named, or in one of its own."""
    if len(words) > 1 or words[:1] and words[0].startswith("-"):
        sys.exit("usage: sync.py [FOLDER]")
    with tempfile.TemporaryDirectory() as own:
        folder = pathlib.Path(words[0] if words else own)
        folder.mkdir(parents=True, exist_ok=True)
        made = [name for name in ("shop.db", "office.db", "hub.db") if (folder / name).exists()]
        if made:
            sys.exit(f"sync.py: {folder / made[0]} is there already")
        try:
            run(folder)
        except (vollikash.ProgramError, sqlite.SqliteError) as error:
            sys.exit(f"sync.py: {error}")


if __name__ == "__main__":
    main(sys.argv[1:])

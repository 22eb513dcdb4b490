"""The actions on a store that can be undone and done again."""
import contextlib
import json
import os
import tempfile
from typing import TYPE_CHECKING, Any, Collection, Dict, Iterator, List, Optional, Tuple, Union

from ._conflicts import Handler
from ._errors import Error, Interrupted
from ._files import invert
from ._tables import stat
from ._values import shown

if TYPE_CHECKING:
    from ._store import Store

# The name of an action, and its changeset.
_Action = Tuple[str, bytes]


def _read_action(pair: Any, tables: Collection[str]) -> _Action:
    """Return an action on some tables that a file has."""
    name, digits = pair
    if not isinstance(name, str):
        raise ValueError("the name of an action is not a text")
    changes = bytes.fromhex(digits)
    for table in stat(changes):
        if table not in tables:
            raise ValueError(f"an action is on table {shown(table)}")
    return name, changes


class Action:
    """What the block of an action does. `changes` is its changeset after the block, and empty if it
    changes nothing.
    """

    def __init__(self, name: str) -> None:
        self.name = name
        self.changes = b""


class UndoStack:
    """The last actions on some tables of a store. Made by `Store.undo_stack`.

    An action is what the block of `action` has done to these tables. `done` and `undone` have the
    names of those that `undo` and `redo` can go through, the next one last.
    """

    def __init__(
        self,
        store: "Store",
        tables: Tuple[str, ...],
        limit: int,
        path: Optional[Union[str, "os.PathLike[str]"]],
    ) -> None:
        if not tables:
            raise ValueError("a stack has the names of the tables that it is for")
        if limit < 1:
            raise ValueError(f"a stack of {limit} actions has none")
        self.store = store
        self._tables, self._limit = tables, limit
        self._path = None if path is None else os.fspath(path)
        self._is_acting = False
        self._done: List[_Action] = []
        self._undone: List[_Action] = []
        if self._path is not None and os.path.exists(self._path):
            self._read(self._path)

    @property
    def done(self) -> List[str]:
        """The names of the actions that can be undone, the last one last."""
        return [name for name, _ in self._done]

    @property
    def undone(self) -> List[str]:
        """The names of the actions that can be done again, the next one last."""
        return [name for name, _ in self._undone]

    @property
    def can_undo(self) -> bool:
        """Whether there is an action to undo."""
        return bool(self._done)

    @property
    def can_redo(self) -> bool:
        """Whether there is an action to do again."""
        return bool(self._undone)

    @contextlib.contextmanager
    def action(self, name: str = "") -> Iterator[Action]:
        """Make what the block does an action, which is yielded. What was undone before cannot be
        done again then.

        If the block raises an exception, what it has done to the tables of the stack is undone. If
        it changes nothing, there is no action. In the block `undo` and `redo` raise RuntimeError.
        If the file of the stack cannot be written, that is OSError after the action is done.
        """
        if not isinstance(name, str):
            raise ValueError(f"the name of an action is a str, and not a {type(name).__name__}")
        action = Action(name)
        with self.store.session(*self._tables) as session:
            self._is_acting = True
            try:
                yield action
                action.changes = session.changeset()
            except BaseException as error:
                # If that fails, the program has ended, and has left what was done.
                with contextlib.suppress(Error):
                    session.undo()
                    if isinstance(error, Interrupted) and error.is_done:
                        error.is_done = False
                raise
            finally:
                self._is_acting = False
        if action.changes:
            self._done.append((name, action.changes))
            self._undone.clear()
            self._keep()

    def undo(self, *, on_conflict: Optional[Handler] = None) -> str:
        """Undo the last action, and return its name. Raises IndexError if there is none.

        If other edits were made to its rows, that is `ConflictError`, and nothing is changed. With
        `on_conflict` that function decides each conflict, as in `Store.apply`. Then `redo` restores
        what this has changed, and if that is nothing, the action is forgotten.
        """
        name, changes = self._last(self._done, "undo")
        try:
            if on_conflict is None:
                self.store.revert(changes)
            else:
                changes = invert(self._decided(invert(changes), on_conflict))
        except Interrupted as error:
            if error.is_done:
                self._move(self._done, self._undone, name, changes)
            raise
        self._move(self._done, self._undone, name, changes)
        return name

    def redo(self, *, on_conflict: Optional[Handler] = None) -> str:
        """Do the action again that was undone last, and return its name. Raises IndexError if there
        is none, and `ConflictError` as `undo`, which says what `on_conflict` does.
        """
        name, changes = self._last(self._undone, "redo")
        try:
            if on_conflict is None:
                self.store.apply(changes)
            else:
                changes = self._decided(changes, on_conflict)
        except Interrupted as error:
            if error.is_done:
                self._move(self._undone, self._done, name, changes)
            raise
        self._move(self._undone, self._done, name, changes)
        return name

    def forget_undo(self) -> str:
        """Forget the last action, which remains done, and return its name. Raises IndexError if
        there is none.
        """
        name, _ = self._last(self._done, "undo")
        self._move(self._done, self._undone, name, b"")
        return name

    def forget_redo(self) -> str:
        """Forget the action that was undone last, which remains undone, and return its name. Raises
        IndexError if there is none.
        """
        name, _ = self._last(self._undone, "redo")
        self._move(self._undone, self._done, name, b"")
        return name

    def _last(self, actions: List[_Action], what: str) -> _Action:
        """Return the last of some actions."""
        if self._is_acting:
            raise RuntimeError("an action is open, which can only be ended")
        if self.store._is_begun:
            raise RuntimeError(f"{what} in a transaction: the stack would not follow its roll back")
        if not actions:
            raise IndexError(f"there is nothing to {what}")
        return actions[-1]

    def _decided(self, file: bytes, on_conflict: Handler) -> bytes:
        """Apply a changeset whose conflicts a function decides. Return what that has changed."""
        with self.store.session(*stat(file)) as session:
            try:
                self.store.apply(file, on_conflict=on_conflict)
                return session.changeset()
            except Interrupted as error:
                session.undo()
                error.is_done = False
                raise

    def _move(self, source: List[_Action], target: List[_Action], name: str, file: bytes) -> None:
        """Move the last action, which has this changeset now. One that changes nothing is dropped.
        """
        source.pop()
        if file:
            target.append((name, file))
        self._keep()

    def _keep(self) -> None:
        """Drop the oldest actions, and write the others into the file."""
        del self._done[:-self._limit], self._undone[:-self._limit]
        if self._path is None:
            return
        folder = os.path.dirname(os.path.abspath(self._path))
        with tempfile.NamedTemporaryFile("w", dir=folder, delete=False) as written:
            try:
                json.dump({"done": _spelled(self._done), "undone": _spelled(self._undone)}, written)
                written.flush()
                os.fsync(written.fileno())
                os.replace(written.name, self._path)
            except BaseException:
                os.unlink(written.name)
                raise

    def _read(self, path: str) -> None:
        """Read the actions of a file."""
        try:
            with open(path, encoding="ascii") as written:
                actions: Dict[str, Any] = json.load(written)
            self._done, self._undone = (
                [_read_action(pair, self._tables) for pair in actions[kind]]
                for kind in ("done", "undone")
            )
        except (KeyError, RecursionError, TypeError, ValueError) as error:
            raise ValueError(f"{path} has no actions of this stack: {error}") from None


def _spelled(actions: List[_Action]) -> List[Tuple[str, str]]:
    """Return actions as JSON has them."""
    return [(name, changes.hex()) for name, changes in actions]

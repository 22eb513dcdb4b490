"""Sessions, which record the changes of a store."""
import contextlib
import threading
import weakref
from types import TracebackType
from typing import TYPE_CHECKING, Callable, NoReturn, Optional, Sequence, Type, TypeVar

from . import _calls
from ._conflicts import Report
from ._errors import Code, Interrupted, NoSession, ProgramError, StoreError
from ._files import number_keys

if TYPE_CHECKING:
    from ._store import Store

_Answer = TypeVar("_Answer")


class Session:
    """The changes of the attached tables of a store since they were attached. Made by
    `Store.session`.

    While a session is open, it records each call of the store, from any thread. Its own calls are
    of the thread that has opened it: another one gets RuntimeError. In a transaction they raise
    `TransactionOpen`. The calls of a closed session raise `NoSession`, but for `close`.
    """

    def __init__(self, store: "Store", tables: Sequence[str]) -> None:
        self._store = store
        self._thread = threading.get_ident()
        self._is_open = True
        attached = [_calls.attach(table) for table in tables]
        store._close_lost_session()
        is_first = store._session is None
        try:
            store._tell(_calls.OPEN_SESSION)
            store._session = weakref.ref(self)
            for frame in attached:
                store._tell(frame)
        except BaseException:
            # The exception of a signal can come after the answer.
            if is_first:
                self._forget()
            raise

    def __enter__(self) -> "Session":
        return self

    def __exit__(
        self,
        kind: Optional[Type[BaseException]],
        error: Optional[BaseException],
        trace: Optional[TracebackType],
    ) -> None:
        self._forget()

    def __repr__(self) -> str:
        return f"<vollikash.Session of {self._store!r}, {'open' if self._is_open else 'closed'}>"

    def __reduce__(self) -> NoReturn:
        raise TypeError("a session cannot be copied or pickled")

    def _forget(self) -> None:
        """Close the session, if the store still has it."""
        with contextlib.suppress(ProgramError, StoreError):
            self.close()

    def _expect_own(self) -> None:
        """Raise RuntimeError in another thread than that of the session."""
        if threading.get_ident() != self._thread:
            raise RuntimeError("a session belongs to the thread that has opened it")

    def _ask(self, frame: bytes, read: Callable[[bytes], _Answer]) -> _Answer:
        """Make a call of the open session, and return its answer as it is read so."""
        self._expect_own()
        if not self._is_open:
            raise NoSession(Code.NO_SESSION)
        return self._store._ask(frame, read)

    def attach(self, table: str) -> None:
        """Attach one more table."""
        self._ask(_calls.attach(table), _calls.read_done)

    def changeset(self, *, for_sqlite: bool = False) -> bytes:
        """Return the changeset file of the net changes of the attached tables.

        With `for_sqlite` its key columns are numbered, as SQLite's apply needs them for a key of
        several columns.
        """
        changes = self._ask(_calls.CHANGESET, _calls.read_changeset)
        return number_keys(changes) if for_sqlite else changes

    def is_empty(self) -> bool:
        """Return whether no row of the attached tables was written."""
        return self._ask(_calls.IS_EMPTY, _calls.read_truth)

    def undo(self) -> Report:
        """Restore the attached tables to their rows when they were attached."""
        return self._ask(_calls.UNDO, _calls.read_report)

    def close(self) -> None:
        """Close the session, and change no row."""
        self._expect_own()
        if not self._is_open:
            return
        self._is_open = False
        store = self._store
        try:
            store._tell(_calls.CLOSE_SESSION)
        except (StoreError, RuntimeError):
            self._is_open = True
            raise
        except Interrupted as error:
            self._is_open = error.is_done is False
            raise
        except BaseException:
            # It may be open, and nobody has it then.
            store._session = lambda: None
            raise
        store._session = None

"""A line about work of more than a second, on standard error if that is a terminal."""
import shutil
import sys
import threading
import time
from types import TracebackType
from typing import Callable, Iterable, Iterator, List, Optional, Type, TypeVar

from ._texts import obeys_escapes, printable

# After how many seconds the line is shown, and how long it then stays as it is.
_PATIENCE, _PAUSE = 1.0, 0.2

_CLEAR = "\r\x1b[K"

_T = TypeVar("_T")


class Progress:
    """Shows the line while the block runs, and erases it then."""

    def __init__(self, what: str, is_wanted: bool = True) -> None:
        self._what = printable(what)
        self._is_wanted = is_wanted and obeys_escapes(sys.stderr)
        self._count = 0
        self._has_ended = threading.Event()
        self._drawer = threading.Thread(target=self._draw, daemon=True)

    def __enter__(self) -> "Progress":
        if self._is_wanted:
            self._drawer.start()
        return self

    def __exit__(
        self,
        kind: Optional[Type[BaseException]],
        error: Optional[BaseException],
        trace: Optional[TracebackType],
    ) -> None:
        self._has_ended.set()
        if self._is_wanted:
            self._drawer.join()

    def counted(self, items: Iterable[_T]) -> Iterator[_T]:
        """Yield items, whose number the line shows."""
        for item in items:
            yield item
            self._count += 1

    def _draw(self) -> None:
        """Draw the line again and again, until the block has ended."""
        start = time.monotonic()
        if self._has_ended.wait(_PATIENCE):
            return
        while not self._has_ended.wait(_PAUSE):
            done = f", {self._count} changes" if self._count else ""
            line = f"{self._what}: {time.monotonic() - start:.0f} s{done}"
            width = shutil.get_terminal_size().columns - 1
            sys.stderr.write(f"{_CLEAR}{line[-width:]}")
            sys.stderr.flush()
        sys.stderr.write(_CLEAR)
        sys.stderr.flush()


def waited(what: str, call: Callable[[], _T]) -> _T:
    """Return what a call of the library returns, with the line. Ctrl-C ends the wait for it, since
    a thread of its own runs the call.
    """
    results: List[_T] = []
    errors: List[BaseException] = []

    def work() -> None:
        try:
            results.append(call())
        except BaseException as error:
            errors.append(error)

    worker = threading.Thread(target=work, daemon=True)
    with Progress(what):
        worker.start()
        worker.join()
    if errors:
        raise errors[0]
    return results[0]

"""A concatenation to which files are added one by one."""
import threading
from typing import NoReturn

from ._files import Bytes, Held, add_file, as_bytes, file_of


class Group:
    """A concatenation to which files are added one by one, as to SQLite's changegroup.

    It does what the files do, one after the other. Threads can share it: a lock lets one call
    through at a time.
    """

    def __init__(self) -> None:
        self._held = Held()
        self._lock = threading.Lock()

    def add(self, file: Bytes) -> None:
        """Add a file. Raises `ChangesetError`, with `which` 1, if the bytes are no changeset, or if
        a table has other columns or another key than in the files before. Then it is unchanged.
        """
        data = as_bytes(file)
        with self._lock:
            add_file(self._held, data)

    def to_bytes(self) -> bytes:
        """Return the file of the concatenation, which is empty if nothing is left.

        More files can be added after that.
        """
        with self._lock:
            return file_of(self._held)

    def __reduce__(self) -> NoReturn:
        raise TypeError("a Group cannot be copied or pickled")

"""The likely cause for which a file cannot be opened, which is looked for after that.

Nothing is changed for it, and the file of the store is not opened: SQLite's locks of this process
would be lost if a file that it has open were opened and closed here.
"""
import os
import stat
from typing import Optional, Tuple

from ._errors import Cause, StoreFault

# The details that do not say the cause: SQLITE_ERROR and SQLITE_IOERR.
_UNSAID = (1, 10)

_Found = Optional[Tuple[Cause, str]]


def _of_path(path: str) -> _Found:
    """Return the cause if no file can be at a path."""
    folder = os.path.dirname(os.path.abspath(path))
    try:
        mode = os.stat(path).st_mode
    except FileNotFoundError:
        is_there = os.path.isdir(folder)
        return None if is_there else ("path", f"there is no folder {folder!r}")
    except PermissionError:
        return "permission", f"the folder {folder!r} cannot be searched"
    except OSError as error:
        return "path", f"{path!r}: {error.strerror}"
    if stat.S_ISDIR(mode):
        return "path", f"{path!r} is a folder"
    return None if stat.S_ISREG(mode) else ("path", f"{path!r} is not a plain file")


def _of_permissions(path: str) -> _Found:
    """Return the cause if this process may not read or write what it has to."""
    folder = os.path.dirname(os.path.realpath(path))
    if os.path.exists(path):
        for right, what in ((os.R_OK, "read"), (os.W_OK, "written")):
            if not os.access(path, right):
                return "permission", f"{path!r} cannot be {what}"
    if not os.access(folder, os.W_OK | os.X_OK):
        return "permission", f"no file can be made in the folder {folder!r}"
    return None


def _of_journal(path: str) -> _Found:
    """Return the cause if there is a journal that SQLite would roll back. Its other ones begin with
    a zero byte, or have none.
    """
    journal = os.path.realpath(path) + "-journal"
    try:
        with open(journal, "rb") as file:
            is_begun = file.read(1) not in (b"", b"\0")
    except OSError:
        return None
    why = f"{journal!r} is there: open {path!r} once with SQLite"
    return ("journal", why) if is_begun else None


def explain_opening(error: StoreFault, path: str) -> None:
    """Let an error of the opening of a path say why that is, as far as that is found."""
    if error.detail in _UNSAID:
        for look in (_of_path, _of_permissions, _of_journal):
            found = look(path)
            if found is not None:
                error.cause, error.why = found
                return
    error.why = error.why.replace("the file", repr(path), 1)

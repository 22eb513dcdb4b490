"""The command for people: `vollikash`."""
import os
import signal
import sys
from typing import Optional, Sequence

from .._errors import Code
from ._messages import Failure, complain, of_system
from ._parser import parsed
from ._streams import flush
from ._texts import allow_all

# The exit status of a program that SIGPIPE has ended, as a shell reports it.
_PIPE_STATUS = 128 + signal.SIGPIPE


def _drop_output() -> None:
    """Send what standard output has not written to nowhere, so that no later flush fails."""
    sink = os.open(os.devnull, os.O_WRONLY)
    os.dup2(sink, 1)
    os.close(sink)


def _end_by_pipe() -> int:
    """End as a program does that knows nothing of pipes: by SIGPIPE."""
    _drop_output()
    signal.signal(signal.SIGPIPE, signal.SIG_DFL)
    os.kill(os.getpid(), signal.SIGPIPE)
    return _PIPE_STATUS


def _carry_out(words: Optional[Sequence[str]]) -> int:
    """Run a subcommand, and write all its output."""
    # What the encoding of a terminal cannot show is spelled out.
    allow_all(sys.stdout, "backslashreplace")
    try:
        arguments = parsed(words)
        status: int = arguments.run(arguments)
    finally:
        # Also what `--help` prints.
        flush()
    return status


def run(words: Optional[Sequence[str]] = None) -> int:
    """Run the command with these words, and return its exit status."""
    try:
        return _carry_out(words)
    except BrokenPipeError:
        return _end_by_pipe()
    except Failure as failure:
        complain(failure)
    except MemoryError:
        complain(Failure("vollikash", "memory ran out", Code.NO_MEMORY))
    except OSError as error:
        complain(of_system(error))
        _drop_output()
    return 1

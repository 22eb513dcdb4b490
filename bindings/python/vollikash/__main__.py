"""The command `vollikash`, docs/VOLLIKASH.md: `python3 -m vollikash`."""
import sys
from typing import Optional, Sequence


def main(words: Optional[Sequence[str]] = None) -> int:
    """Run the command with these words, or those of the process, and return its exit status."""
    try:
        # Here, so that Ctrl-C ends it quietly from the start.
        from ._command import run
        return run(words)
    except KeyboardInterrupt:
        return 130


if __name__ == "__main__":
    sys.exit(main())

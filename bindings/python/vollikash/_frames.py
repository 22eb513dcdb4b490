"""What runs in a thread, by its frames.

The exception of a signal can leave a method before it resets a flag. The method's frame is gone
then, so what a flag says is only believed if there is one.
"""
from types import CodeType, FrameType
from typing import Container, Optional


def is_run_by(frame: Optional[FrameType], codes: Container[CodeType], *owners: object) -> bool:
    """Return whether a frame, or one that has called it, is of a method with one of these codes, of
    one of these objects.
    """
    while frame is not None:
        if frame.f_code in codes:
            runs = frame.f_locals.get("self")
            if any(runs is owner for owner in owners):
                return True
        frame = frame.f_back
    return False

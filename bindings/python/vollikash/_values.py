"""The values of fields, and how error texts show names."""
import enum
from typing import Final, Literal, Tuple, Union


class Undefined(enum.Enum):
    """The type of `UNDEFINED`, its only value."""

    UNDEFINED = "UNDEFINED"

    def __bool__(self) -> Literal[False]:
        return False

    def __repr__(self) -> str:
        return "UNDEFINED"

    def __str__(self) -> str:
        return "UNDEFINED"


# A column that an UPDATE leaves out.
UNDEFINED: Final = Undefined.UNDEFINED

Value = Union[int, str, bytes, None]
Field = Union[int, str, bytes, None, Undefined]
Record = Tuple[Field, ...]
Op = Literal["insert", "update", "delete"]

# The values of a row, and those of a key.
Row = Tuple[Value, ...]
Key = Tuple[Value, ...]

# How many characters of a name and of a key an error text shows.
_SHOWN, _SHOWN_KEY = 60, 80


def shown(name: str) -> str:
    """Return a name as error texts show it: on one line, and not too long."""
    return repr(name) if len(name) <= _SHOWN else f"{name[:_SHOWN]!r}.."


def shown_key(key: Key) -> str:
    """Return the values of a key as error texts show them: on one line, and not too long."""
    # What is cut here is longer than what is shown.
    text = repr(tuple(
        value[: _SHOWN_KEY + 1] if isinstance(value, (str, bytes)) else value
        for value in key[:_SHOWN_KEY]
    ))
    return text if len(text) <= _SHOWN_KEY else f"{text[:_SHOWN_KEY]}.."


def defined(record: Record) -> Key:
    """Return the values of a record whose fields are all defined, as those of a key are."""
    return tuple(None if field is UNDEFINED else field for field in record)

"""What the calls for a notebook accept, as types, and the TypeError or ValueError that says so."""

import operator
import os
from typing import Any, Callable, Union

from .request import Request
from .table import Table

PathLike = Union[str, os.PathLike]
BytesLike = Union[bytes, bytearray, memoryview]
RequestLike = Union[Request, BytesLike, PathLike]
TableLike = Union[Table, BytesLike, PathLike]
TaskLike = Union[str, int]
Tell = Callable[[str], Any]


def kind_of(value: Any) -> str:
    """What a value is, for the words that refuse it."""
    return "None" if value is None else type(value).__name__


def index(what: str, value: Any) -> int:
    """A whole number; also one of another library, such as numpy's."""
    try:
        if isinstance(value, bool):
            raise TypeError
        return operator.index(value)
    except TypeError:
        near = f": write {int(value)}" if isinstance(value, float) and value.is_integer() else ""
        raise TypeError(f"{what} is a whole number, not {kind_of(value)}{near}") from None


def whole(what: str, value: Any, least: int, most: int) -> int:
    """A whole number within the bounds."""
    number = index(what, value)
    if not least <= number <= most:
        raise ValueError(f"{what} is a number from {least} to {most}, not {number}")
    return number


def tick(value: Any) -> int:
    """A tick, counted from 0 on."""
    number = index("a tick", value)
    if number < 0:
        raise ValueError(f"ticks are counted from 0 on, and this is {number}")
    return number


def is_path(value: Any) -> bool:
    return isinstance(value, (str, os.PathLike))


def is_bytes(value: Any) -> bool:
    return isinstance(value, (bytes, bytearray, memoryview))

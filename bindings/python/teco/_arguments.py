"""What calls are passed. What the library can't take is refused before the call."""

import operator
from typing import SupportsIndex, Union

Bytes = Union[bytes, bytearray, memoryview]


def as_bytes(text: Bytes) -> bytes:
    """The bytes of a text, which stay where they are."""
    if type(text) is bytes:
        return text
    if isinstance(text, (bytes, bytearray, memoryview)):
        return bytes(text)
    raise TypeError(f"bytes are needed, and not {type(text).__name__}")


def as_number(value: "SupportsIndex", most: int) -> int:
    """A whole number from 0 to the most that the library takes."""
    number = value if type(value) is int else operator.index(value)
    if number < 0:
        raise ValueError(f"{number} is negative")
    if number > most:
        raise OverflowError(f"{number} is above {most}")
    return number


def as_name(name: str) -> int:
    """The byte that names a register, A to Z in either case or 0 to 9."""
    if not isinstance(name, str):
        raise TypeError(f"the name of a register is a str, and not {type(name).__name__}")
    if len(name) != 1 or not (name.isascii() and name.isalnum()):
        raise ValueError(f"{name!r} is no name of a register")
    return ord(name)

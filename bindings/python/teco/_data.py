"""Data that is not a command: command strings for text of any bytes, no byte of which is read as a command."""

from typing import List, Tuple

# `^U`, which puts a text into a register.
SET_TEXT = b"\x15"
# What a text may stand between, the usual ones first.
DELIMITERS = bytes(dict.fromkeys([*b"/!|", *range(ord("#"), ord("~") + 1), *range(256)]))


def piece(text: bytes, start: int) -> Tuple[int, bytes]:
    """The end of the longest piece from here on that lacks a byte, and that byte."""
    end, delimiter = start, 0
    for byte in DELIMITERS:
        found = text.find(byte, start)
        if found < 0:
            return len(text), bytes([byte])
        if found > end:
            end, delimiter = found, byte
    return end, bytes([delimiter])


def inserting(text: bytes) -> bytes:
    """The commands that insert a text, each a piece of it."""
    parts: List[bytes] = []
    start = 0
    while True:
        end, delimiter = piece(text, start)
        parts += [b"@I", delimiter, text[start:end], delimiter]
        start = end
        if start == len(text):
            return b"".join(parts)


def fits_register(text: bytes) -> bool:
    """Whether the text of a register can be set without the buffer."""
    return piece(text, 0)[0] == len(text)


def setting(name: int, text: bytes) -> bytes:
    """The commands that make this the text of a register. A text with all bytes is inserted, copied and deleted."""
    if fits_register(text):
        delimiter = piece(text, 0)[1]
        return b"".join([b"@", SET_TEXT, bytes([name]), delimiter, text, delimiter])
    return inserting(text) + b".-%d,.X%c-%dD" % (len(text), name, len(text))

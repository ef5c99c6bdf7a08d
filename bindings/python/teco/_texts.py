"""What is read of a text without a session."""

from ctypes import byref
from typing import Optional

from ._arguments import Bytes, as_bytes, as_number
from ._codes import Code, TokenKind
from ._errors import CARET, NO_TOKEN, NoMemoryError, SourceError, TokenError
from ._library import NOWHERE, FoundToken, ReadSource, Room, library
from ._results import Token


def token(text: Bytes, at: int = 0, *, wide: bool = False) -> Optional[Token]:
    """What stands at a place of a text, in bytes from 0, after fillers, which are SP, CR, LF and NUL: a token, or None at its end.

    With `wide` it is read in the wide language. TokenError is raised if no token can be read there.

    >>> token(b"J Iab\\x1b", 1)
    Token(start=2, end=6, kind=<TokenKind.TEXT: 8>, size=2)
    """
    text, found = as_bytes(text), FoundToken()
    call = library.teco_token_wide if wide else library.teco_token
    answer = call(text, len(text), as_number(at, NOWHERE), byref(found))
    if answer == NO_TOKEN:
        return None
    start = getattr(found, "from")
    if answer:
        raise TokenError(Code(answer), start)
    return Token(start, found.to, TokenKind(found.kind), found.size)


def source(text: Bytes) -> bytes:
    """The bytes that a source stands for: `$` is ESC, and `^J` a line end. Line ends and margins are layout, and `!!` begins a comment.

    SourceError is raised if a caret can't be read.

    >>> source(b"Iab$ !! a comment")
    b'Iab\\x1b'
    """
    text, read = as_bytes(text), ReadSource()
    room = Room(len(text))
    answer = library.teco_source(text, len(text), room.place, room.size, byref(read))
    if answer == CARET:
        raise SourceError(read.line, read.column)
    if answer:
        raise NoMemoryError("memory was refused")
    return room.front(read.made)

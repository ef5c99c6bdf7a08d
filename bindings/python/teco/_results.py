"""What calls give. Places, lengths and sizes count bytes, from 0."""

from dataclasses import dataclass
from typing import Optional, Tuple

from ._codes import Code, Kind, TokenKind
from ._errors import StoppedError, StringError


@dataclass(frozen=True)
class Call:
    """A call of a macro that is open."""
    at: int
    """Its place in the text that calls, in bytes from 0."""
    name: str
    """The name of the register whose text it calls."""


@dataclass(frozen=True)
class Place:
    """Where a command string stopped, in bytes from 0."""
    at: int
    """The place in the string itself: of the command, or of the outermost call."""
    inner: int
    """The place of the command in the innermost text. If no call is open, it is the same."""
    calls: Tuple[Call, ...] = ()
    """The calls that are open, the latest first."""


@dataclass(frozen=True, init=False)
class Ran:
    """What came of a command string. It is recorded however it ended, until it is undone."""
    code: Optional[Code]
    """Why it ended before its end, or None if it ended successfully."""
    printed: bytes
    """The bytes that it printed. The command `=` ends its line with CR LF."""
    steps: int
    """How many steps it took."""
    place: Optional[Place] = None
    """Where it stopped: None if it ended successfully, or if no memory was found for the place."""
    stopped: bool = False
    """Whether it was broken off: by a stopper, by Ctrl-C, or since its time was over. The code is LIM then."""

    def __init__(self, code: Optional[Code], printed: bytes, steps: int, place: Optional[Place] = None, stopped: bool = False) -> None:
        # as dataclasses would, in half the time
        self.__dict__.update(code=code, printed=printed, steps=steps, place=place, stopped=stopped)

    def check(self) -> "Ran":
        """Itself if the string ended successfully. Else raises StringError, or StoppedError if it was broken off."""
        if self.code is None:
            return self
        raise (StoppedError if self.stopped else StringError)(self)


@dataclass(frozen=True)
class Splice:
    """What the next undo of a string does to the text, or its next redo if it is undone."""
    at: int
    """The place in the text, in bytes, after the changes that are undone or redone before this one."""
    gone: int
    """So many bytes go."""
    came: int
    """So many bytes come."""


@dataclass(frozen=True)
class Change:
    """A change that a string made."""
    kind: Kind
    """What it is for."""
    step: int
    """How many steps of the string were done before it."""
    name: Optional[str] = None
    """The name of the register, if it is for one."""
    splice: Optional[Splice] = None
    """What happens to the text, if the kind is SPLICE."""


@dataclass(frozen=True)
class Token:
    """A token of a command string."""
    start: int
    """The place of its first byte, from 0."""
    end: int
    """The place behind its last byte."""
    kind: TokenKind
    """What it is."""
    size: int
    """How many bytes its last text or the name of its tag has, which ends before the last byte of the token; or 0."""

"""The exceptions, and the numbers of teco.h for which they stand."""

from typing import TYPE_CHECKING

from ._codes import Code

if TYPE_CHECKING:
    from ._results import Ran

CARET, CHANGED_HEAD, TORN_HEAD, OTHERWISE = 246, 247, 248, 249
NO_TOKEN, OUTSIDE, NOT_BEGUN, DEEP, LARGE, CLOSED = 250, 251, 252, 253, 254, 255


class Error(Exception):
    """The base of the exceptions of this package."""


class StringError(Error):
    """A command string ended by a code. It is recorded, with what its steps did before: an undo takes it back."""

    def __init__(self, ran: "Ran") -> None:
        super().__init__(ran)
        self.ran = ran
        """What came of the string."""

    @property
    def code(self) -> Code:
        """Why it ended."""
        assert self.ran.code is not None
        return self.ran.code

    def __str__(self) -> str:
        place = self.ran.place
        says = "TTY, it prints more than there is room for" if self.code is Code.TTY else str(self.code)
        if place is None:
            return says
        return f"{says}, {'in a macro that is called ' if place.calls else ''}at byte {place.at}"


class StoppedError(StringError):
    """A command string was broken off: by a stopper, by Ctrl-C, or since its time was over. It is recorded with the steps that it took."""

    def __str__(self) -> str:
        return f"LIM, broken off after {self.ran.steps} steps"


class HistoryError(Error):
    """No string is left to undo or to redo, and nothing changed."""


class NothingToUndoError(HistoryError):
    """No string is left to undo, or none of the transaction."""


class NothingToRedoError(HistoryError):
    """No string is left to redo."""


class MissingError(Error, IndexError):
    """There is no such string."""


class DoneError(Error):
    """An exit has ended the session: the string was not begun, and nothing changed. An undo of the exit goes on."""


class ClosedError(Error, ValueError):
    """The session is closed."""


class UsageError(Error, RuntimeError):
    """A session or a stopper is used in a way that it does not allow, and nothing changed."""


class NoMemoryError(Error, MemoryError):
    """Memory was refused, and nothing changed."""


class TooLargeError(Error, OverflowError):
    """An input, a text or a depth is above its limit, and nothing changed."""


class TokenError(Error, ValueError):
    """No token can be read at a place of a text."""

    def __init__(self, code: Code, at: int) -> None:
        super().__init__(code, at)
        self.code, self.at = code, at
        """The code by which a run would end there, UTC if the text ends too soon; and the place, in bytes from 0."""

    def __str__(self) -> str:
        return f"{self.code}, at byte {self.at}"


class SourceError(Error, ValueError):
    """A caret of a source stands before what it can't stand before."""

    def __init__(self, line: int, column: int) -> None:
        super().__init__(line, column)
        self.line, self.column = line, column
        """Its line, and its column in bytes, each from 1."""

    def __str__(self) -> str:
        return f"{self.line}:{self.column}: a caret before what it cannot stand before"


class FileError(Error):
    """A session can't be opened again from its file, which stays as it is."""


class HeadError(FileError):
    """The file has no head of a session's file of this version, as it was written."""


class TornHeadError(HeadError):
    """The file ends before its head does, as after a crash."""


class DamagedError(FileError):
    """A line of the file was changed, lost or doubled, or is of no known kind."""

    def __init__(self, good: int) -> None:
        super().__init__(good)
        self.good = good
        """So many bytes before the line are good."""

    def __str__(self) -> str:
        return f"the file is damaged behind {self.good} bytes"


class ReplayError(FileError):
    """A string of the file does not run again as it ran."""


_REFUSALS = {
    Code.MEM.value: (NoMemoryError, "memory was refused"), NOT_BEGUN: (NoMemoryError, "memory was refused"),
    Code.NTU.value: (NothingToUndoError, "nothing is left to undo"), Code.NTR.value: (NothingToRedoError, "nothing is left to redo"),
    Code.END.value: (DoneError, "an exit has ended the session"), CLOSED: (ClosedError, "the session is closed"),
    OUTSIDE: (MissingError, "there is no such string"),
    DEEP: (TooLargeError, "the depth is above 100000"), LARGE: (TooLargeError, "the input is above 2^30 bytes"),
    CHANGED_HEAD: (HeadError, "no head of a session's file"), TORN_HEAD: (TornHeadError, "the head has no end"),
    OTHERWISE: (ReplayError, "a string does not run again as it ran"),
}


def refused(answer: int) -> Error:
    """The exception of a call that was refused by this answer."""
    kind, says = _REFUSALS[answer]
    return kind(says)


def succeeds(answer: int) -> None:
    """Raises the exception of an answer that is not 0."""
    if answer:
        raise refused(answer)

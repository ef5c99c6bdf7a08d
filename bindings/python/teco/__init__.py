"""Command strings of TECO, with total undo and redo, as a library.

A `Session` is an editor that runs command strings over a text of bytes. Each string is recorded, however it ended, and can be undone and
redone.

>>> import teco
>>> session = teco.Session(b"a cat sat")
>>> ran = session.run(b"Y FScat\\x1bdog\\x1b").check()
>>> session.text
b'a dog sat'
>>> session.run(b"Szebra\\x1b").code
<Code.SRH: 22>

Command strings are bytes: ESC is `\\x1b`, and `source` reads the form that the programs take after `-e`, in which it is `$`. Data that is
not a command goes in by `insert` and `set_register`, never by a command that is put together.

Texts are bytes. Places, lengths and rooms count bytes from 0, times are seconds, steps are what a limit counts, and strings are counted
from 0, the oldest one that is kept first.

What the library can't take is refused before the call: by TypeError, by ValueError for a negative number, and by OverflowError for one
that is too large. Each other exception is an `Error`.

TECO_SHARED names the shared library. Without it the one beside this file is loaded, which an installed package has.
"""

from ._codes import Code, Kind, TokenKind
from ._errors import (ClosedError, DamagedError, DoneError, Error, FileError, HeadError, HistoryError, MissingError, NoMemoryError,
                      NothingToRedoError, NothingToUndoError, ReplayError, SourceError, StoppedError, StringError, TokenError,
                      TooLargeError, TornHeadError, UsageError)
from ._looks import Strings
from ._results import Call, Change, Place, Ran, Splice, Token
from ._session import DEPTH_LIMIT, INPUT_LIMIT, TEXT_LIMIT, Session, resume
from ._stopper import Stopper
from ._texts import source, token

__version__ = "0.2.0"
__all__ = [
    "DEPTH_LIMIT", "INPUT_LIMIT", "TEXT_LIMIT", "Call", "Change", "ClosedError", "Code", "DamagedError", "DoneError", "Error", "FileError",
    "HeadError", "HistoryError", "Kind", "MissingError", "NoMemoryError", "NothingToRedoError", "NothingToUndoError", "Place", "Ran",
    "ReplayError", "Session", "SourceError", "Splice", "StoppedError", "Stopper", "StringError", "Strings", "Token", "TokenError",
    "TokenKind", "TooLargeError", "TornHeadError", "UsageError", "resume", "source", "token",
]
for _name in __all__:
    _it = globals()[_name]
    if getattr(_it, "__module__", "").startswith(__name__ + "."):
        _it.__module__ = __name__
del _name, _it

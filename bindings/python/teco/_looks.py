"""What can be read of a session."""

import operator
import os
import threading
import weakref
from contextlib import contextmanager
from ctypes import byref, c_int32, c_size_t, c_uint64
from typing import Any, Callable, Iterator, List, Optional, Sequence, Union, overload

from ._arguments import as_name, as_number
from ._codes import Kind
from ._errors import CLOSED, OUTSIDE, MissingError, UsageError, refused, succeeds
from ._library import NOWHERE, Handle, MadeChange, MadeSplice, Room, library
from ._results import Change, Splice


class _Here(threading.local):
    """Has another object on each thread, also on one that has the number of a thread that has ended."""

    def __init__(self) -> None:
        self.mark = object()


here = _Here()
_sessions: "weakref.WeakSet[Looks]" = weakref.WeakSet()


def _in_child() -> None:
    """In a process that was forked while another thread was in a session, that one is closed. Its memory is lost there."""
    for session in list(_sessions):
        if session._lock.acquire(blocking=False):
            session._lock.release()
        else:
            session._lock, session._handle.at = threading.RLock(), None


os.register_at_fork(after_in_child=_in_child)


class Looks:
    """The part of a session that is read, which no look changes.

    A signal handler may look, and make requests, between any two calls of the library. So each look is one call, or it is made again if
    the session has changed meanwhile.
    """

    def __init__(self, pinned: bool) -> None:
        self._handle = Handle()
        self._address = byref(self._handle)
        self._owner = here.mark if pinned else None
        self._lock = threading.RLock()
        self._requests = 0
        _sessions.add(self)

    def _check_thread(self) -> None:
        """Refuses a thread that may make no call."""
        if self._owner is not None and self._owner is not here.mark:
            raise UsageError("the session stays on the thread that opened it: one with pinned=False goes to others")

    def _call(self, call, *arguments) -> int:  # type: ignore[no-untyped-def]
        """The answer of a call of the library. One thread at a time makes one."""
        self._check_thread()
        with self._lock:
            return call(self._address, *arguments)

    @contextmanager
    def _entered(self) -> Iterator[None]:
        """While this lasts no other thread is in the session."""
        self._check_thread()
        with self._lock:
            yield

    def _count(self, call, *arguments) -> int:  # type: ignore[no-untyped-def]
        count = c_size_t()
        succeeds(self._call(call, *arguments, byref(count)))
        return count.value

    def _says(self, call) -> bool:  # type: ignore[no-untyped-def]
        answer = self._call(call)
        if answer == CLOSED:
            raise refused(answer)
        return answer == 1

    def _copied(self, call, *arguments) -> bytes:  # type: ignore[no-untyped-def]
        """The bytes are those of one call, which gives their length too: if the room was too small, it is made again with a larger one."""
        length, room = c_size_t(), Room(4096)
        while True:
            succeeds(self._call(call, *arguments, room.place, room.size, byref(length)))
            if length.value <= room.size:
                return room.front(length.value)
            room = Room(length.value)

    def _steady(self, look: Callable[[], Any]) -> Any:
        """What a look of several calls gives. It is made again if the session has changed meanwhile."""
        with self._entered():
            for _ in range(1000):
                requests = self._requests
                try:
                    seen = look()
                except MissingError:
                    if requests == self._requests:
                        raise
                    continue
                if requests == self._requests:
                    return seen
        raise UsageError("signal handlers change the session all the time")

    @property
    def text(self) -> bytes:
        """A copy of the text of the buffer."""
        return self._copied(library.teco_text, 0)

    def __len__(self) -> int:
        """The length of the text of the buffer, in bytes."""
        return self._count(library.teco_length)

    def __bool__(self) -> bool:
        """True, also if the buffer has no text."""
        return True

    @property
    def pointer(self) -> int:
        """The place of the pointer in the text, in bytes from 0."""
        return self._count(library.teco_pointer)

    def line_ends(self, start: int = 0, stop: int = NOWHERE) -> int:
        """How many line ends, LF, VT and FF, the text has between two places in bytes. It takes the time of the way between them."""
        return self._count(library.teco_lines, as_number(start, NOWHERE), as_number(stop, NOWHERE))

    @property
    def output(self) -> bytes:
        """A copy of the output so far: what `P` and the exit wrote."""
        return self._copied(library.teco_output, 0)

    @property
    def input(self) -> bytes:
        """A copy of the input, as the session was opened over it."""
        return self._copied(library.teco_input, 0)

    @property
    def place(self) -> int:
        """How many bytes of the input have been read."""
        return self._count(library.teco_place)

    def number(self, name: str) -> int:
        """The number of a register, A to Z in either case or 0 to 9."""
        number = c_int32()
        succeeds(self._call(library.teco_number, as_name(name), byref(number)))
        return number.value

    def register(self, name: str) -> bytes:
        """A copy of the text of a register, A to Z in either case or 0 to 9."""
        return self._copied(library.teco_register, as_name(name))

    @property
    def search(self) -> Optional[bytes]:
        """A copy of the last search text, or None if there was none."""
        try:
            return self._copied(library.teco_search)
        except MissingError:
            return None

    @property
    def pushed(self) -> int:
        """How many values are on the push-down list."""
        return self._count(library.teco_pushed)

    @property
    def done(self) -> bool:
        """Whether an exit has ended the session. No string is begun then, until the exit is undone."""
        return self._says(library.teco_done)

    @property
    def found(self) -> bool:
        """Whether the last search found what it looked for."""
        return self._says(library.teco_found)

    @property
    def form_feed(self) -> bool:
        """Whether a form feed ended the page."""
        return self._says(library.teco_form_feed)

    @property
    def either_case(self) -> bool:
        """Whether searches find a letter in either case."""
        return self._says(library.teco_either_case)

    @property
    def wide(self) -> bool:
        """Whether command strings are read in the wide language."""
        return self._says(library.teco_is_wide)

    @property
    def strings(self) -> "Strings":
        """The strings that are kept, the oldest first, undone ones too."""
        return Strings(self)

    @property
    def cursor(self) -> int:
        """How many strings are not undone. The string of this index is the next one to redo."""
        return self._count(library.teco_cursor)

    def steps(self, i: int) -> int:
        """How many steps string `i` took. Strings are counted from 0. MissingError is raised if there is none."""
        steps = c_uint64()
        succeeds(self._call(library.teco_steps, as_number(i, NOWHERE), byref(steps)))
        return steps.value

    def changes(self, i: int) -> List[Change]:
        """The changes of string `i`, counted from 0, in the order in which its steps made them.

        They describe the next undo of the string, or its next redo if it is undone: so an editor draws no more than what differs.
        MissingError is raised if there is no such string.
        """
        i = as_number(i, NOWHERE)
        return self._steady(lambda: [self._change(i, k) for k in range(self._count(library.teco_changes, i))])

    def _change(self, i: int, k: int) -> Change:
        made, splice = MadeChange(), None
        succeeds(self._call(library.teco_change, i, k, byref(made)))
        kind = Kind(made.kind)
        if kind is Kind.SPLICE:
            bytes_of = MadeSplice()
            succeeds(self._call(library.teco_splice, i, k, byref(bytes_of)))
            splice = Splice(bytes_of.at, bytes_of.gone, bytes_of.came)
        return Change(kind, made.step, chr(made.name) if made.name else None, splice)


class Strings(Sequence[bytes]):
    """The strings that a session keeps, as they are at each look: the oldest first, undone ones too.

    >>> from teco import Session
    >>> session = Session()
    >>> ran = session.run(b"J"), session.run(b"ZJ")
    >>> len(session.strings), session.strings[-1], list(session.strings)
    (2, b'ZJ', [b'J', b'ZJ'])
    """

    def __init__(self, session: Looks) -> None:
        self._session = session

    def __len__(self) -> int:
        return self._session._count(library.teco_strings)

    @overload
    def __getitem__(self, i: int) -> bytes: ...

    @overload
    def __getitem__(self, i: slice) -> List[bytes]: ...

    def __getitem__(self, i: Union[int, slice]) -> Union[bytes, List[bytes]]:
        if isinstance(i, slice):
            return self._session._steady(lambda: [self._string(k) for k in range(*i.indices(len(self)))])
        at = operator.index(i)
        return self._session._steady(lambda: self._string(at if at >= 0 else at + len(self)))

    def _string(self, i: int) -> bytes:
        if not 0 <= i <= NOWHERE:
            raise refused(OUTSIDE)
        return self._session._copied(library.teco_string, i)

    def __repr__(self) -> str:
        return f"<teco.Strings, {len(self)} of them>"

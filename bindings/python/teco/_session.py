"""A session: its requests, which run strings, undo them and redo them."""

import asyncio
import os
import re
from contextlib import contextmanager
from ctypes import byref
from typing import Iterator, List, Optional

from . import _data
from ._arguments import Bytes, as_bytes, as_name, as_number
from ._codes import Code, Entry
from ._errors import CLOSED, DamagedError, NothingToUndoError, TooLargeError, UsageError, refused, succeeds
from ._file import Journal, Path, begun
from ._interrupts import holding, listener_here
from ._library import NOWHERE, Resumed, library
from ._looks import Looks, here
from ._results import Ran
from ._running import USUAL_ROOM, give_back, take
from ._stopper import Flag, Stopper, asked_after

INPUT_LIMIT = 2**30
"""The most bytes that an input may have."""
DEPTH_LIMIT = 100_000
"""The most strings that a session can be asked to keep."""
TEXT_LIMIT = 2**24
"""The most bytes that the buffer, a register or a search text may have."""

# The least answer of a string that was not begun.
NOT_RUN = Code.END.value
USUAL_LIMIT, MOST_STEPS, MOST_ROOM = 1_000_000, 2**64 - 1, 2**40
# How the reading of a file ended: at a line that was changed, or that tells nothing known.
CHANGED, UNKNOWN = 2, 3


class _Transaction:
    """How many strings before it are not undone, and whether a string was run in it."""

    def __init__(self, floor: int) -> None:
        self.floor, self.has_run, self.mark = floor, False, here.mark


class Session(Looks):
    """An editor that runs command strings, each of which is recorded and can be undone.

    It is opened over a copy of the `input`, and its buffer is empty: the command `Y` reads the first page. It keeps the last `depth`
    strings, at most 100,000, or with 0 all of them. A page ends at a form feed, and with `page_lines` after so many lines too. With `wide`
    command strings are read in the wide language, that of `--wide` of the programs, which reads old macros. It closes itself, at the end of a
    `with` or when it is no longer used.

    With a `file`, the path of a new one, the line of each request is written there before its call returns, also at Ctrl-C, and `resume`
    goes on with it. If that fails, OSError is raised, but the request is done, and its line comes with the next one. Nothing is synced to
    the disk. A signal handler makes no request of such a session while another one is made, and may not raise then.

    A session stays on the thread that opened it. With `pinned=False` it goes from thread to thread, one at a time, under a lock: nothing
    is proved of that, but it is tried.

    >>> with Session(b"a cat sat") as session:
    ...     ran = session.run(b"Y FScat\\x1bdog\\x1b").check()
    ...     print(session.text, ran.steps)
    ...     session.undo()
    ...     print(session.text)
    b'a dog sat' 2
    b''
    """

    def __init__(self, input: Bytes = b"", *, depth: int = 0, page_lines: int = 0, wide: bool = False, file: Optional[Path] = None,
                 pinned: bool = True) -> None:
        if "_handle" in self.__dict__:
            raise UsageError("a session is opened once")
        text, depth, lines = as_bytes(input), as_number(depth, NOWHERE), as_number(page_lines, NOWHERE)
        self._begin(pinned, depth)
        succeeds(self._call(library.teco_open_wide if wide else library.teco_open, text, len(text), lines, depth))
        if file is not None:
            self._file = begun(file, text, lines, depth, wide)

    def _begin(self, pinned: bool, depth: int) -> None:
        super().__init__(pinned)
        self._depth, self._is_busy = depth, False
        self._file: Optional[Journal] = None
        self._transactions: List[_Transaction] = []

    def run(self, string: Bytes, *, limit: Optional[int] = None, room: int = USUAL_ROOM, timeout: Optional[float] = None,
            stopper: Optional[Stopper] = None) -> Ran:
        """Runs a command string, in which ESC is byte 27. It is recorded however it ended, so an undo takes it back.

        A string that fails raises nothing: `check()` of the result does. It takes at most `limit` steps, which are 1,000,000, or with a
        timeout any number, and prints at most `room` bytes. After `timeout` seconds, for which a thread waits, or when the `stopper` is
        asked, it is broken off.

        On the main thread Ctrl-C does that too, and then Python's handler runs. A thread listens for it while strings run, and ends a
        tenth of a second after the last one, or before the process is forked.

        A string never holds data of others: see `insert`. DoneError, NoMemoryError and ClosedError say that it was not begun.
        """
        text, size = as_bytes(string), as_number(room, MOST_ROOM)
        if limit is None:
            steps = USUAL_LIMIT if timeout is None else MOST_STEPS
        else:
            steps = as_number(limit, MOST_STEPS)
        if timeout is None and stopper is None:
            return self._run(text, steps, size)
        if timeout is not None and not timeout >= 0:
            raise ValueError(f"a time is at least 0 seconds, and not {timeout}")
        if not isinstance(stopper, (Stopper, type(None))):
            raise TypeError(f"a Stopper is needed, and not {type(stopper).__name__}")
        flag = Flag() if stopper is None else stopper._begin()
        if timeout is None:
            return self._run(text, steps, size, flag)
        with asked_after(timeout, flag):
            return self._run(text, steps, size, flag)

    async def run_async(self, string: Bytes, *, limit: Optional[int] = None, room: int = USUAL_ROOM,
                        timeout: Optional[float] = None) -> Ran:
        """Runs a command string on a thread of the event loop, as `run` does. The session is one with `pinned=False`.

        If the task is cancelled, the string is broken off, and recorded with the steps that it took.
        """
        if self._owner is not None:
            raise UsageError("a session that goes from thread to thread is opened with pinned=False")
        if any(it.mark is here.mark for it in self._transactions):
            raise UsageError("a transaction stays on its thread: call run")
        stopper = Stopper()

        def work() -> Optional[Ran]:
            return None if stopper.is_asked else self.run(string, limit=limit, room=room, timeout=timeout, stopper=stopper)

        running = asyncio.get_running_loop().run_in_executor(None, work)
        try:
            ran = await asyncio.shield(running)
        except asyncio.CancelledError:
            stopper.ask()
            await asyncio.wait([running])
            if not running.cancelled():
                running.exception()
            raise
        assert ran is not None
        return ran

    def insert(self, text: Bytes) -> Ran:
        """Inserts a text of any bytes at the pointer, which goes after it. No byte of it is read as a command.

        It is one string of the history, so one undo erases it. TooLargeError is raised if the buffer would have more than 2^24 bytes, and
        StringError if it fails otherwise. Ctrl-C waits until it is done.
        """
        text = as_bytes(text)
        with self._entered():
            self._check_room(text)
            return self._run_data(_data.inserting(text))

    def set_register(self, name: str, text: Bytes) -> Ran:
        """Makes a text of any bytes that of a register, A to Z in either case or 0 to 9. No byte of it is read as a command.

        It is one string of the history, so one undo takes it back. It raises as `insert` does. A text with all 256 bytes goes through the
        buffer, which ends as it was: there it needs room beside the buffer's text.
        """
        byte, text = as_name(name), as_bytes(text)
        with self._entered():
            if len(text) > TEXT_LIMIT:
                raise TooLargeError(f"a text has at most {TEXT_LIMIT} bytes")
            if not _data.fits_register(text):
                self._check_room(text)
            return self._run_data(_data.setting(byte, text))

    def _check_room(self, text: bytes) -> None:
        if len(self) + len(text) > TEXT_LIMIT:
            raise TooLargeError(f"the buffer has at most {TEXT_LIMIT} bytes")

    def _run_data(self, string: bytes) -> Ran:
        return self._run(string, MOST_STEPS, 0, breakable=False).check()

    def undo(self) -> None:
        """Goes back to the state before the last string that is not undone. NothingToUndoError is raised if there is none."""
        self._request(library.teco_undo, Entry.UNDID)

    def redo(self) -> None:
        """Goes on to the state after the first undone string. NothingToRedoError is raised if there is none."""
        self._request(library.teco_redo, Entry.REDID)

    def rewind(self, steps: int) -> None:
        """Goes back to the state after the first `steps` steps of the last string that is not undone, and drops the undone ones.

        NothingToUndoError is raised if there is no such string.
        """
        self._request(library.teco_rewind, Entry.REWOUND, as_number(steps, MOST_STEPS))

    def forget(self) -> None:
        """Drops the strings that are undone, so that none is left to redo."""
        self._request(library.teco_forget, Entry.FORGOT)

    @contextmanager
    def transaction(self) -> Iterator["Session"]:
        """All strings that are run within, or none: an exception undoes and drops them, and passes on.

        A string that fails raises only by `check()`. No earlier string can be undone within. A session with a depth runs no more strings
        within than it keeps. Other threads wait until its end, so nothing is awaited within. It may stand within another one.

        >>> session = Session()
        >>> with session.transaction():
        ...     session.run(b"Ia\\x1b").check()
        ...     session.run(b"99J").check()
        Traceback (most recent call last):
        teco.StringError: POP, place outside the buffer, at byte 2
        >>> len(session), len(session.strings)
        (0, 0)
        """
        with self._entered():
            transaction, outer = _Transaction(self.cursor), len(self._transactions)
            try:
                self._transactions.append(transaction)
                yield self
            except BaseException:
                self._roll_back(transaction)
                raise
            finally:
                del self._transactions[outer:]

    def close(self) -> None:
        """Gives back the memory of the session, and closes its file."""
        with self._entered():
            library.teco_close(self._address)
            self._leave_file()

    @property
    def closed(self) -> bool:
        """Whether it is closed."""
        return self._handle.at is None

    @contextmanager
    def _keeping(self) -> Iterator[None]:
        """While this lasts one request is made and noted, and no signal handler makes another one."""
        with self._entered():
            if self._is_busy:
                raise UsageError("a signal handler makes no request while another one is under way")
            if self._file is not None:
                self._file.check_process()
            with holding():
                self._is_busy = True
                try:
                    yield
                    if self._file is not None:
                        self._file.write()
                finally:
                    self._is_busy = False

    def _note(self, kind: Entry, steps: int = 0, text: bytes = b"") -> None:
        if self._file is not None:
            self._file.note(kind, steps, text)

    def _request(self, call, kind: Entry, *steps: int) -> None:  # type: ignore[no-untyped-def]
        self._requests += 1
        if self._file is None and not self._transactions:
            succeeds(self._call(call, *steps))
            return
        with self._keeping():
            self._check_floor(kind)
            succeeds(self._call(call, *steps))
            self._note(kind, *steps)

    def _run(self, text: bytes, limit: int, size: int, flag: Optional[Flag] = None, breakable: bool = True) -> Ran:
        self._requests += 1
        if self._file is None and not self._transactions:
            return self._call_run(text, limit, size, flag, breakable)
        with self._keeping():
            drops = self._drops()
            ran = self._call_run(text, limit, size, flag, breakable)
            for transaction in self._transactions:
                transaction.floor, transaction.has_run = transaction.floor - drops, True
            self._note(Entry.RAN, ran.steps, text)
        return ran

    def _call_run(self, text: bytes, limit: int, size: int, flag: Optional[Flag], breakable: bool) -> Ran:
        self._check_thread()
        slot = take(limit, size)
        listener = listener_here() if breakable else None
        if listener is not None and flag is None:
            flag = slot.own_flag()
        slot.lend(flag)
        with self._lock:
            if listener is None or flag is None:
                answer = library.teco_run(self._address, text, len(text), slot.address)
            else:
                answer = listener.run(flag, library.teco_run, self._address, text, len(text), slot.address)
        if answer >= NOT_RUN:
            raise refused(answer)
        ran = slot.ran(answer)
        give_back(slot)
        return ran

    def _check_floor(self, kind: Entry) -> None:
        """Refuses to go back before the transaction."""
        if self._transactions and kind in (Entry.UNDID, Entry.REWOUND):
            if self.cursor <= self._transactions[-1].floor:
                raise NothingToUndoError("nothing of the transaction is left to undo")
            self._transactions[-1].has_run |= kind is Entry.REWOUND

    def _drops(self) -> bool:
        """Whether the next string drops the oldest one. In a transaction it drops none of its own."""
        drops = self._depth > 0 and self.cursor == self._depth
        if drops and self._transactions and self._transactions[0].floor == 0:
            raise UsageError("the transaction has as many strings as the session keeps")
        return drops

    def _roll_back(self, transaction: _Transaction) -> None:
        if self.closed:
            return
        with self._keeping():
            while self.cursor > transaction.floor:
                succeeds(self._call(library.teco_undo))
                self._note(Entry.UNDID)
            if transaction.has_run:
                succeeds(self._call(library.teco_forget))
                self._note(Entry.FORGOT)

    def _leave_file(self) -> None:
        if self._file is not None:
            self._file.close()
        self._file = None

    def __enter__(self) -> "Session":
        if self.closed:
            raise refused(CLOSED)
        return self

    def __exit__(self, *_: object) -> None:
        self.close()

    def __repr__(self) -> str:
        if self.closed:
            return "<teco.Session, closed>"
        try:
            self._check_thread()
        except UsageError:
            return "<teco.Session of another thread>"
        if not self._lock.acquire(blocking=False):
            return "<teco.Session, in a call of another thread>"
        try:
            strings = f"{self.cursor} of {len(self.strings)} strings done"
            return f"<teco.Session of {len(self)} bytes with the pointer at {self.pointer}, {strings}>"
        finally:
            self._lock.release()

    def __reduce__(self) -> str:
        raise TypeError("a session can't be copied")

    def __del__(self, close=library.teco_close) -> None:  # type: ignore[no-untyped-def]
        # nobody else has it any more; in a process that was forked, a thread that is not there may have been in it
        lock = self.__dict__.get("_lock")
        if lock is not None and lock.acquire(blocking=False):
            close(self._address)
            lock.release()
            if self.__dict__.get("_file") is not None:
                self._leave_file()


def resume(path: Path, *, cut: bool = False, pinned: bool = True) -> Session:
    """The session that a file keeps, with its strings, the undone ones too. The file is kept on.

    A last line that a crash has torn is cut off. If a line was changed, DamagedError is raised; with `cut` all from that line on is cut off
    instead. HeadError says that it is no such file, and ReplayError that a string does not run as it ran: then the file stays as it is.
    """
    session, read = Session.__new__(Session), Resumed()
    journal = Journal(path, os.O_RDWR)
    try:
        text = journal.read()
        depth = re.match(rb"[^\n]*\nlines \d+\ndepth (\d+)\n", text)
        session._begin(pinned, int(depth[1]) if depth else 0)
        succeeds(session._call(library.teco_resume, text, len(text), byref(read)))
        if read.ending in (CHANGED, UNKNOWN) and not cut:
            raise DamagedError(read.good)
        if read.good < len(text):
            journal.cut(read.good)
    except BaseException:
        journal.close()
        raise
    journal.line.check = read.check
    session._file = journal
    return session

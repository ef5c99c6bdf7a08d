"""The file of a session: a line of each request, so that the session is opened from it again."""

import fcntl
import os
from ctypes import byref
from typing import Callable, List, Tuple, Union

from ._codes import Entry
from ._errors import NoMemoryError, UsageError
from ._library import Line, Room, library


Path = Union[str, os.PathLike]  # type: ignore[type-arg]


class Journal:
    """A file that is open for the lines of one session. A lock keeps every other session from it, in whatever process."""

    def __init__(self, path: Path, flags: int) -> None:
        self.line = Line()
        self._unkept: List[Tuple[Entry, int, bytes]] = []
        self._unwritten, self._process = b"", os.getpid()
        self._file = os.open(path, flags | os.O_APPEND | os.O_CLOEXEC, 0o600)
        try:
            fcntl.flock(self._file, fcntl.LOCK_EX | fcntl.LOCK_NB)
        except BaseException:
            self.close()
            raise

    def check_process(self) -> None:
        """Refuses a process that was forked."""
        if os.getpid() != self._process:
            raise UsageError("the file of the session belongs to the process that opened it")

    def note(self, kind: Entry, steps: int = 0, text: bytes = b"") -> None:
        """Notes what a request did, for the next `write`."""
        self._unkept.append((kind, steps, text))

    def write(self) -> None:
        """Writes a line of each request that was noted. What fails is left for the next time."""
        while self._unkept:
            self.line.kind, self.line.steps, string = self._unkept[0]
            made = self.made(lambda line: library.teco_record(string, len(string), line))
            del self._unkept[0]
            self.put(made)

    def made(self, call: Callable[[object], int]) -> bytes:
        """The bytes of the line that a call makes. A room that is too small leaves the check as it is."""
        room = Room(256)
        for _ in range(2):
            self.line.room, self.line.room_size = room.place, room.size
            if call(byref(self.line)):
                raise NoMemoryError("memory was refused")
            if self.line.made <= room.size:
                break
            room = Room(self.line.made)
        return room.front(self.line.made)

    def put(self, line: bytes) -> None:
        """Writes a line behind the others. What the system doesn't take comes before the next line."""
        self._unwritten += line
        while self._unwritten:
            self._unwritten = self._unwritten[os.write(self._file, self._unwritten):]

    def read(self) -> bytes:
        """All that the file has."""
        with open(self._file, "rb", closefd=False) as file:
            return file.read()

    def cut(self, size: int) -> None:
        """Cuts off all behind so many bytes."""
        os.ftruncate(self._file, size)

    def close(self) -> None:
        """Closes it, once."""
        file, self._file = self._file, -1
        if file != -1:
            os.close(file)


def begun(path: Path, text: bytes, page_lines: int, depth: int, wide: bool) -> Journal:
    """A new file with the head of a session. If it can't be written, there is none."""
    journal, head = Journal(path, os.O_WRONLY | os.O_CREAT | os.O_EXCL), library.teco_head_wide if wide else library.teco_head
    try:
        journal.put(journal.made(lambda line: head(text, len(text), page_lines, depth, line)))
    except BaseException:
        journal.close()
        os.unlink(path)
        raise
    return journal

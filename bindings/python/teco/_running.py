"""How a command string is passed to the library, and what comes of it."""

from ctypes import addressof, byref
from typing import List, Optional

from ._codes import Code
from ._library import MOST_CALLS, NOWHERE, OpenCall, Room, Run
from ._results import Call, Place, Ran
from ._stopper import Flag

# Room for so many printed bytes is kept from run to run.
USUAL_ROOM = 65_536


class Slot:
    """What one run at a time needs of memory."""

    def __init__(self, size: int) -> None:
        self.room, self.calls = Room(size), (OpenCall * MOST_CALLS)()
        self.run = Run(room=self.room.place, frames=addressof(self.calls), frames_size=MOST_CALLS)
        self.address = byref(self.run)
        self.flag: Optional[Flag] = None
        self._lent: Optional[Flag] = None

    def own_flag(self) -> Flag:
        """A flag that is not asked."""
        if self.flag is None:
            self.flag = Flag()
        elif self.flag.is_asked:
            self.flag.ask(False)
        return self.flag

    def lend(self, flag: Optional[Flag]) -> None:
        """Lets the run ask this flag, or none."""
        if flag is not self._lent:
            self.run.stopper.at, self._lent = None if flag is None else flag.here.at, flag

    def ran(self, answer: int) -> Ran:
        """What came of the string."""
        run = self.run
        printed = self.room.front(run.made) if run.made else b""
        if answer == 0:
            return Ran(None, printed, run.steps)
        code = Code(answer)
        place = None
        if run.at != NOWHERE:
            place = Place(run.at, run.inner, tuple(Call(it.at, chr(it.name)) for it in self.calls[:run.calls]))
        return Ran(code, printed, run.steps, place, code is Code.LIM and run.steps < run.limit)


# Those that no run has.
_spare: List[Slot] = []


def take(limit: int, size: int) -> Slot:
    """A slot for a run with this limit and this room, in bytes."""
    if size > USUAL_ROOM:
        slot = Slot(size)
    else:
        try:
            slot = _spare.pop()
        except IndexError:
            slot = Slot(USUAL_ROOM)
    slot.run.limit, slot.run.room_size = limit, size
    return slot


def give_back(slot: Slot) -> None:
    """Keeps a slot for another run."""
    if slot.room.size == USUAL_ROOM and len(_spare) < 8:
        _spare.append(slot)

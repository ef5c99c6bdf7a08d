"""How a string that runs is broken off from another thread."""

import threading
from contextlib import contextmanager
from ctypes import byref
from typing import Iterator

from ._errors import UsageError, succeeds
from ._library import StopperHandle, library


class Flag:
    """A flag of the library with two handles: a run has `here`, and whoever asks it to stop has the other one."""

    def __init__(self) -> None:
        self.here, self._there = StopperHandle(), StopperHandle()
        self.is_asked, self._lock = False, threading.RLock()
        succeeds(library.teco_stopper_open(byref(self.here), byref(self._there)))

    def ask(self, asks: bool = True) -> None:
        """Asks for a stop, or no more."""
        with self._lock:
            self.is_asked = asks
            library.teco_stop(byref(self._there), asks)

    def __del__(self, close=library.teco_stopper_close, byref=byref) -> None:  # type: ignore[no-untyped-def]
        for handle in self.here, self._there:
            close(byref(handle))


class Stopper:
    """Breaks off the one run that it is passed to, from any thread and from a signal handler.

    A run ends by LIM before its next step, or within a long search. If the stop is asked before the run, it ends before its first step. A
    stop that comes too late has no effect, since another run has another stopper.

    >>> stopper = Stopper()
    >>> stopper.ask()
    >>> Session().run(b"Ia\\x1b", stopper=stopper).stopped
    True
    """

    def __init__(self) -> None:
        self._flag, self._unused = Flag(), [True]

    def ask(self) -> None:
        """Asks the run to stop."""
        self._flag.ask()

    @property
    def is_asked(self) -> bool:
        """Whether a stop is asked."""
        return self._flag.is_asked

    def _begin(self) -> Flag:
        """The flag, for the one run."""
        try:
            self._unused.pop()
        except IndexError:
            raise UsageError("a stopper serves one run: make another one") from None
        return self._flag

    def __repr__(self) -> str:
        return f"<teco.Stopper, {'' if self.is_asked else 'not '}asked>"

    def __reduce__(self) -> str:
        raise TypeError("a stopper can't be copied")


@contextmanager
def asked_after(seconds: float, flag: Flag) -> Iterator[None]:
    """While this lasts a thread waits, and asks the flag when the time is over."""
    ended = threading.Event()

    def wait() -> None:
        if not ended.wait(min(seconds, threading.TIMEOUT_MAX)):
            flag.ask()

    clock = threading.Thread(target=wait, name="teco timeout", daemon=True)
    try:
        clock.start()
        yield
    finally:
        ended.set()
        if clock.is_alive():
            clock.join()

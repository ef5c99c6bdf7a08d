"""How Ctrl-C breaks off a string that runs on the main thread, and how it waits while a request is done and kept."""

import _thread
import atexit
import os
import select
import signal
import sys
import threading
import time
import weakref
from contextlib import contextmanager, suppress
from fcntl import ioctl
from termios import FIONREAD
from typing import Callable, Iterator, List, Optional, Tuple

from ._stopper import Flag

# The thread ends when for so many milliseconds, or for twice as many, no string has run on the main thread.
IDLE = 50
# What the system says of a pipe in which no byte waits.
EMPTY = bytes(4)


class Reader:
    """A thread that reads signals, by the number that the system has for it.

    It isn't one of `threading`, where a start within a handler of a signal may wait for ever.
    """

    def __init__(self) -> None:
        self.number, self.ended = 0, threading.Event()


class Running:
    """A run that is under way, with its flag. Nobody but the run has it, so it goes with the run, also where a handler raises."""
    __slots__ = ("flag", "__weakref__")


def nobody() -> None:
    """Stands for a run that has ended."""


class Listener:
    """Breaks off the string that runs on the main thread when Ctrl-C comes.

    Python calls a handler when a call of the library is over. So while a string runs, Python writes each signal into a pipe, which a
    thread reads. The thread serves one string after another, and ends soon after the last one.

    A handler of a signal may raise at any point here. What it leaves undone is put right when the next string begins.
    """

    def __init__(self) -> None:
        self.lock = threading.RLock()
        self.reads, self.writes = os.pipe()
        os.set_blocking(self.reads, False)
        os.set_blocking(self.writes, False)
        self.ours = (self.writes,)
        self.current: Callable[[], Optional[Running]] = nobody  # the run that is under way, if it is
        self.others: List[int] = []  # who was told of signals before; within a handler the last one is `writes`
        self.thread: Optional[Reader] = None
        self.has_run = False

    def run(self, flag: Flag, call, *arguments) -> int:  # type: ignore[no-untyped-def]
        """The answer of a call that Ctrl-C breaks off by this flag."""
        running, before = Running(), self.current
        running.flag = flag
        try:
            with self.lock:
                self.current, self.has_run = weakref.ref(running), True
                # one call, so no handler comes between what it gives and the list
                self.others.extend(map(signal.set_wakeup_fd, self.ours))
                if len(self.others) > 1 and before() is None:
                    self.put_right()
                if self.thread is None:
                    self.begin()
            return call(*arguments)
        finally:
            self.current = before
            with self.lock:
                for last in self.others[-1:]:
                    try:
                        signal.set_wakeup_fd(last)
                    except (OSError, ValueError):
                        signal.set_wakeup_fd(-1)  # it has gone
                if ioctl(self.reads, FIONREAD, EMPTY) != EMPTY:
                    self.hear(nobody)  # what has come is not left for the next string
                del self.others[-1:]

    def put_right(self) -> None:
        """Forgets what a handler that raised has left of an earlier string, and the signals since then."""
        self.hear(nobody)
        self.others = self.others[:1] if self.others[-1] == self.writes else self.others[-1:]

    def begin(self) -> None:
        """Starts the thread, but where the interpreter ends: none can be started then."""
        if not sys.is_finalizing():
            thread = Reader()
            _thread.start_new_thread(self.listen, (thread,))
            self.thread = thread

    def hear(self, current: Callable[[], Optional[Running]]) -> None:
        """Reads the signals that came, and passes them on. Ctrl-C breaks off the run, if there is one."""
        with suppress(BlockingIOError):
            signals = os.read(self.reads, 4096)
            running = current()
            if signal.SIGINT in signals and running is not None:
                running.flag.ask()
            for other in self.others[:1]:
                with suppress(OSError):  # also if there is none, which is -1
                    os.write(other, signals)

    @contextmanager
    def locked(self) -> Iterator[None]:
        """While this lasts the main thread changes nothing. That takes a moment: if it takes longer, a handler that raised has left the lock
        locked, as it can before Python 3.11, and there is a new one."""
        lock = self.lock
        if not lock.acquire(timeout=0.1):
            lock = self.lock = threading.RLock()
            lock.acquire()
        try:
            yield
        finally:
            lock.release()

    def listen(self, thread: Reader) -> None:
        """What the thread does."""
        thread.number = threading.get_native_id()
        poll = select.poll()
        poll.register(self.reads, select.POLLIN)
        goes_on = True
        while goes_on:
            came = poll.poll(IDLE)
            with self.locked():
                if came:
                    self.hear(self.current)
                if self.thread is thread and not self.others and not self.has_run:
                    self.thread = None
                goes_on, self.has_run = self.thread is thread, False
        thread.ended.set()

    def dismiss(self) -> None:
        """Ends the thread, unless a string runs."""
        with self.locked():
            thread = self.thread
            if thread is None or self.others:
                return
            self.thread = None
            os.write(self.writes, b"\0")
        thread.ended.wait(1)
        for _ in range(1000):  # until the system has ended it too
            if not os.path.exists(f"/proc/self/task/{thread.number}"):
                return
            time.sleep(0.0001)


_listener: Optional[Listener] = None
_main = threading.main_thread().ident


def is_main() -> bool:
    """Whether this thread is the one to which signals come."""
    return threading.get_ident() == _main


def listener_here() -> Optional[Listener]:
    """The listener, on the thread to which signals come."""
    global _listener
    if not is_main():
        return None
    if _listener is None:
        try:
            signal.signal(signal.SIGINT, signal.getsignal(signal.SIGINT))
        except (TypeError, ValueError):
            return None  # Ctrl-C comes to no handler of Python's, or to none of this interpreter
        _listener = Listener()
    return _listener


@contextmanager
def holding() -> Iterator[None]:
    """While this lasts Python's handler of Ctrl-C waits. A string that runs meanwhile is broken off all the same."""
    came: List[Tuple[object, ...]] = []
    usual = signal.getsignal(signal.SIGINT)
    if not is_main() or not callable(usual):
        yield
        return
    try:
        with suppress(ValueError):  # of a subinterpreter, to which no signal comes
            signal.signal(signal.SIGINT, lambda *given: came.append(given))
        yield
    finally:
        with suppress(ValueError):
            signal.signal(signal.SIGINT, usual)
        for given in came:
            usual(*given)  # type: ignore[arg-type]


def _before_fork() -> None:
    """A process is forked without a thread of ours, if it can be."""
    if _listener is not None:
        _listener.dismiss()


def _in_child() -> None:
    """A process that was forked has no thread that listens, and a pipe of its own. The thread that forked it is its main one."""
    global _main
    _main = threading.main_thread().ident
    if _listener is None:
        return
    if _listener.others:
        signal.set_wakeup_fd(_listener.others[0])
    os.close(_listener.reads)
    os.close(_listener.writes)
    _listener.__init__()  # type: ignore[misc]  # the same one, since a handler may have forked within its `run`


def _at_exit() -> None:
    if _listener is not None:
        _listener.dismiss()


os.register_at_fork(before=_before_fork, after_in_child=_in_child)
atexit.register(_at_exit)

"""What the tests share."""

import os
import signal
import threading

ESC = b"\x1b"
# It has no end of its own. To its limit it takes about a minute, so a row fails if nothing breaks it off.
ENDLESS = {"string": b"Ib\x1b<>", "limit": 10**9}


def later(call, *arguments):
    """Calls when a string runs."""
    timer = threading.Timer(0.2, call, arguments)
    timer.daemon = True
    timer.start()


def interrupt():
    """What Ctrl-C does."""
    os.kill(os.getpid(), signal.SIGINT)


class Raising:
    """A handler of a signal that raises KeyboardInterrupt, but only while `tries` calls."""

    def __init__(self):
        self.raises, self.has_come, self.raised = False, False, 0

    def __call__(self, *_):
        self.has_come = True
        if self.raises:
            self.raises = False
            self.raised += 1
            raise KeyboardInterrupt

    def tries(self, call, seconds):
        """Calls until the signal has come, which is after some seconds."""
        self.has_come = False
        threading.Timer(seconds, interrupt).start()
        try:
            self.raises = True
            while not self.has_come:
                call()
            self.raises = False
        except KeyboardInterrupt:
            pass


def elsewhere(call):
    """What a call gives on another thread, or raises there."""
    given = []

    def work():
        try:
            given.append(call())
        except BaseException as error:
            given.append(error)

    thread = threading.Thread(target=work)
    thread.start()
    thread.join()
    if isinstance(given[0], BaseException):
        raise given[0]
    return given[0]


def in_child(call):
    """Whether a call gives something true in a process that is forked."""
    child = os.fork()
    if child == 0:
        is_so = False
        try:
            is_so = bool(call())
        finally:
            os._exit(not is_so)
    return os.waitpid(child, 0)[1] == 0

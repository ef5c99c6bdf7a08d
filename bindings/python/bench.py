"""Times calls from Python: microseconds of processor time, of the fastest hundred calls."""

import threading
import time

from teco import Session


def time_of(call):
    """The least time of a call."""
    least = 1e9
    for _ in range(300):
        began = time.process_time()
        for _ in range(100):
            call()
        least = min(least, (time.process_time() - began) / 100)
    return f"{least * 1e6:.1f} us"


def show(where):
    """Times the calls of a session that this thread opens."""
    session = Session(b"a cat sat", depth=5)
    session.run(b"Y")
    print(f"from Python, {where}: J {time_of(lambda: session.run(b'J'))}, text {time_of(lambda: session.text)}, "
          f"pointer {time_of(lambda: session.pointer)}, undo and redo {time_of(lambda: (session.undo(), session.redo()))}")


show("on the main thread, where Ctrl-C is heard")
thread = threading.Thread(target=show, args=["on another thread"])
thread.start()
thread.join()

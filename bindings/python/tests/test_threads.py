"""Threads, event loops, signal handlers, forks, subinterpreters and the end of a process."""

import asyncio
import importlib
import os
import signal
import subprocess
import sys
import threading
import time
import unittest
import warnings
from concurrent.futures import ThreadPoolExecutor

import teco
from common import ENDLESS, elsewhere, in_child, interrupt, later
from teco import Code, Ran, Session


class TestPinned(unittest.TestCase):
    def test_other_threads(self):
        session = Session(b"one")
        for call in (lambda: session.text, lambda: session.run(b"J"), session.undo, session.close, lambda: session.insert(b""),
                     lambda: session.changes(0), lambda: list(session.strings), session.transaction().__enter__):
            with self.assertRaisesRegex(teco.UsageError, "the thread that opened it"):
                elsewhere(call)
        self.assertEqual(elsewhere(lambda: repr(session)), "<teco.Session of another thread>")
        self.assertEqual(session.run(b"YHT"), Ran(None, b"one", 3))

    def test_numbers_come_again(self):
        """A later thread that has the number of the thread that opened the session is refused."""
        opened, came_again = [elsewhere(lambda: (Session(), threading.get_ident())) for _ in range(20)], []

        def look():
            for session, number in opened:
                came_again.append(number == threading.get_ident())
                self.assertRaises(teco.UsageError, lambda: session.text)

        for _ in range(20):
            elsewhere(look)
        self.assertIn(True, came_again)


class TestUnpinned(unittest.TestCase):
    def test_pool(self):
        session = Session(pinned=False)
        with ThreadPoolExecutor(8) as pool:
            ran = list(pool.map(lambda _: session.run(b"Ia\x1b"), range(2000)))
            texts = list(pool.map(lambda _: session.text, range(100)))
        self.assertTrue(all(it.code is None for it in ran))
        self.assertEqual((len(session), len(session.strings), set(texts)), (2000, 2000, {b"a" * 2000}))

    def test_transaction(self):
        """Other threads wait until a transaction has ended."""
        session = Session(pinned=False)
        with ThreadPoolExecutor(2) as pool:
            with self.assertRaises(KeyError), session.transaction():
                waiting = pool.submit(session.run, b"Ib\x1b")
                session.run(b"Ia\x1b")
                time.sleep(0.05)
                self.assertFalse(waiting.done())
                raise KeyError
            self.assertIsNone(waiting.result().code)
        self.assertEqual((session.text, list(session.strings)), (b"b", [b"Ib\x1b"]))

    def test_repr(self):
        session, stopper = Session(pinned=False), teco.Stopper()
        thread = threading.Thread(target=session.run, kwargs={"stopper": stopper, **ENDLESS})
        thread.start()
        end = time.monotonic() + 20
        while "in a call" not in repr(session) and time.monotonic() < end:
            time.sleep(0.01)
        self.assertEqual(repr(session), "<teco.Session, in a call of another thread>")
        stopper.ask()
        thread.join()

    def test_async(self):
        session = Session(pinned=False)

        async def work():
            await asyncio.gather(*(session.run_async(b"Ib\x1b") for _ in range(20)))
            with self.assertRaises(asyncio.TimeoutError):
                await asyncio.wait_for(session.run_async(**ENDLESS), 0.1)
            tasks = [asyncio.ensure_future(session.run_async(**ENDLESS)) for _ in range(3)]
            await asyncio.sleep(0.1)
            for task in tasks:
                task.cancel()
            ended = await asyncio.gather(*tasks, return_exceptions=True)
            self.assertTrue(all(isinstance(it, asyncio.CancelledError) for it in ended))
            ran = await session.run_async(b"9=", limit=10, room=10, timeout=100)
            self.assertEqual(ran, Ran(None, b"9\r\n", 2))
            self.assertEqual((await session.run_async(b"<>", timeout=0.01)).stopped, True)
            with session.transaction(), self.assertRaises(teco.UsageError):
                await session.run_async(b"J")
            with self.assertRaises(teco.UsageError):
                await Session().run_async(b"J")
            session.close()
            with self.assertRaises(teco.ClosedError):
                await session.run_async(b"J")

        asyncio.run(work())

    def test_async_interrupt(self):
        """Ctrl-C while a string runs on a thread of the loop."""
        self.addCleanup(signal.signal, signal.SIGINT, signal.signal(signal.SIGINT, signal.default_int_handler))
        session = Session(pinned=False)
        later(interrupt)
        self.assertRaises(KeyboardInterrupt, asyncio.run, session.run_async(**ENDLESS))
        self.assertEqual((session.run(b"J").code, session.steps(0) > 1), (None, True))


class TestHandlers(unittest.TestCase):
    """A handler of a signal that looks at a session, and changes it, at any moment."""

    def alarms(self, handle, seconds, look):
        """Looks while handlers run. How often both did."""
        looks, came = 0, []

        def handler(*_):
            came.append(handle(len(came)))
            if time.monotonic() < end:
                signal.setitimer(signal.ITIMER_REAL, 0.0001)

        end = time.monotonic() + seconds
        usual = signal.signal(signal.SIGALRM, handler)
        signal.setitimer(signal.ITIMER_REAL, 0.0001)
        try:
            while time.monotonic() < end:
                look()
                looks += 1
        finally:
            signal.setitimer(signal.ITIMER_REAL, 0)
            signal.signal(signal.SIGALRM, usual)
        self.assertGreater(min(looks, len(came)), 100)
        return came

    def test_looks(self):
        """The bytes are always those of a state that was there."""
        session = Session()
        texts = [b"", b"x" * 200]
        session.run(b"I" + texts[1] + b"\x1b")

        def look():
            self.assertIn(session.text, texts)
            self.assertIn(len(session), (0, 200))

        self.alarms(lambda n: session.redo() if n % 2 else session.undo(), 1, look)

    def test_changes(self):
        session = Session()
        session.run(b"Iab\x1b-1D")
        both = [session.changes(0)]
        session.undo()
        both.append(session.changes(0))
        session.redo()
        self.alarms(lambda n: n % 8 or (session.redo() if n % 16 else session.undo()), 1, lambda: self.assertIn(session.changes(0), both))

    def test_strings(self):
        """Several calls see one state: the strings of a slice, and the last one."""
        session = Session()
        for string in b"J", b"ZJ", b"HK":
            session.run(string)

        def handle(n):
            if n % 8 == 0:
                session.undo()
                session.run(b"HK" if n % 16 else b"HT")

        def look():
            self.assertIn(session.strings[-1], (b"HK", b"HT"))
            self.assertIn(session.strings[-3:], ([b"J", b"ZJ", b"HK"], [b"J", b"ZJ", b"HT"]))

        self.alarms(handle, 1, look)

    def test_requests(self):
        """Strings that run within handlers, and are looked at there."""
        session, wanted = Session(depth=5), []

        def handle(_):
            wanted.append(b"a")
            return session.run(b"Ia\x1b9="), session.text.strip(b"ab")

        def look():
            wanted.append(b"b")
            self.assertEqual(session.run(b"Ib\x1b7=").printed, b"7\r\n")

        for ran, text in self.alarms(handle, 1, look):
            self.assertEqual((ran.printed, ran.code, text), (b"9\r\n", None, b""))
        self.assertEqual(len(session), len(wanted))


class TestProcesses(unittest.TestCase):
    def test_fork(self):
        """A forked process goes on with its session, and breaks off its own strings alone."""
        session = Session()
        session.run(b"Ia\x1b")

        def child():
            signal.signal(signal.SIGINT, signal.default_int_handler)
            session.run(b"Ib\x1b")
            later(interrupt)
            try:
                session.run(**ENDLESS)
            except KeyboardInterrupt:
                return session.text == b"abb" and session.steps(2) < 10**9
            return False

        self.assertTrue(in_child(child))
        self.assertEqual(session.text, b"a")

    def test_fork_within(self):
        """A fork while a string runs on another thread: that session is closed in the forked process, and other ones are not."""
        session, own, stopper = Session(pinned=False), Session(pinned=False), teco.Stopper()
        thread = threading.Thread(target=session.run, kwargs={"stopper": stopper, **ENDLESS})
        thread.start()
        time.sleep(0.2)
        with warnings.catch_warnings():
            warnings.simplefilter("ignore", DeprecationWarning)
            self.assertTrue(in_child(lambda: session.closed and own.run(b"9=").printed == b"9\r\n"))
        stopper.ask()
        thread.join()
        self.assertEqual((session.closed, session.run(b"J").code), (False, None))

    def test_end(self):
        """A process ends at once, whatever is open: sessions, cycles, a string on a daemon thread, a thread that listens."""
        code = """if True:
            import os, sys, threading, time, teco
            session = teco.Session(b"one")
            session.run(b"Y")
            cycle = [teco.Session(), teco.Stopper()]
            cycle.append(cycle)
            sys.kept = session, teco.Session(pinned=False)
            threading.Thread(target=teco.Session(pinned=False).run, args=[b"<>"], kwargs={"limit": 10**12}, daemon=True).start()
            time.sleep(0.1)
            class Late:
                def __init__(self, session, write=os.write):
                    self.session, self.write = session, write
                def __del__(self):
                    try:
                        self.session.run(b"J")
                    except teco.ClosedError:  # it has closed itself by then
                        pass
                    self.write(1, b"ended")
            late = Late(session)
        """
        done = subprocess.run([sys.executable, "-W", "error", "-c", code], capture_output=True, timeout=60)
        self.assertEqual((done.returncode, done.stdout, done.stderr), (0, b"ended", b""))

    def test_subinterpreters(self):
        code = "import sys; sys.path[:] = {!r}; import teco; assert teco.Session(b'one').run(b'YHT').printed == b'one'; " \
            "assert teco.Session().run(b'9=').printed == b'9\\r\\n'".format(sys.path)
        for name in "_interpreters", "_xxsubinterpreters":
            try:
                interpreters = importlib.import_module(name)
            except ImportError:
                continue
            for options in ((), ("legacy",)) if name == "_interpreters" else ((),):
                one = interpreters.create(*options)
                try:
                    failed = interpreters.run_string(one, code)
                except interpreters.RunFailedError as error:
                    failed = error
                interpreters.destroy(one)
                # where Python's own ctypes can't be loaded, there is no session
                self.assertTrue(failed is None or "_ctypes does not support" in str(failed), failed)


if __name__ == "__main__":
    unittest.main()

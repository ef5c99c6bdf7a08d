"""How strings are broken off: by a stopper, by a time, and by Ctrl-C."""

import os
import signal
import threading
import time
import unittest

import teco
from common import ENDLESS, Raising, elsewhere, in_child, interrupt, later
from teco import Code, Ran, Session, Stopper

LATE = 10**6


class TestStopper(unittest.TestCase):
    def test_ask(self):
        session, stopper = Session(), Stopper()
        session.run(b"Ia\x1b")
        later(stopper.ask)
        ran = session.run(stopper=stopper, **ENDLESS)
        self.assertEqual((ran.code, ran.stopped, stopper.is_asked), (Code.LIM, True, True))
        self.assertTrue(1 < ran.steps < 10**9 and ran.place.at > 2 and session.steps(1) == ran.steps and session.text == b"ab")
        with self.assertRaisesRegex(teco.StoppedError, "LIM, broken off after"):
            ran.check()
        session.undo()
        self.assertEqual(session.text, b"a")
        session.redo()
        session.rewind(1)
        self.assertEqual((session.text, session.steps(1)), (b"ab", 1))

    def test_before(self):
        session, stopper = Session(), Stopper()
        stopper.ask()
        self.assertEqual((session.run(b"9=", stopper=stopper).steps, len(session.strings)), (0, 1))

    def test_one_run(self):
        session, stopper = Session(), Stopper()
        self.assertEqual(session.run(b"9=", stopper=stopper), Ran(None, b"9\r\n", 2))
        self.assertRaises(teco.UsageError, session.run, b"9=", stopper=stopper)
        stopper.ask()
        self.assertEqual((session.run(b"9="), repr(stopper)), (Ran(None, b"9\r\n", 2), "<teco.Stopper, asked>"))
        self.assertRaises(TypeError, session.run, b"J", stopper=5)

    def test_search(self):
        """A search is one step, and is broken off within."""
        session, stopper = Session(), Stopper()
        session.insert(b"a" * 2**22)
        later(stopper.ask)
        begin = time.monotonic()
        ran = session.run(b"J@S/" + b"a" * 300 + b"\x0ea/", stopper=stopper)
        self.assertLess(time.monotonic() - begin, 30)
        self.assertIn(ran.code, (Code.LIM, Code.SRH))


class TestTimeout(unittest.TestCase):
    def test_time(self):
        session = Session()
        begin = time.monotonic()
        ran = session.run(b"Ia\x1b<>", timeout=0.05)
        self.assertTrue(ran.stopped and 0.04 < time.monotonic() - begin < 20)
        self.assertEqual(session.text, b"a")

    def test_late(self):
        """A time that is over, or a stopper that asks late, breaks off no later string."""
        session = Session()
        for _ in range(200):
            stopper = Stopper()
            timer = threading.Timer(0.0001, stopper.ask)
            timer.start()
            session.run(b"J", timeout=0.0001, stopper=stopper)
            for _ in range(5):
                self.assertIsNone(session.run(b"J").code)
            timer.join()

    def test_values(self):
        session = Session()
        for timeout, error in (-1, ValueError), (float("nan"), ValueError), ("1", TypeError):
            self.assertRaises(error, session.run, b"J", timeout=timeout)
        for timeout in 1, 1e300, float("inf"):
            self.assertEqual(session.run(b"9=", timeout=timeout).printed, b"9\r\n")
        self.assertEqual(session.run(b"<J>", timeout=5, limit=3).steps, 3)
        self.assertEqual(threading.active_count(), 1)

    def test_both(self):
        stopper = Stopper()
        later(stopper.ask)
        self.assertTrue(Session().run(b"<>", timeout=LATE, stopper=stopper).stopped)
        self.assertTrue(Session().run(b"<>", timeout=0.01, stopper=Stopper()).stopped)


class TestInterrupt(unittest.TestCase):
    """Ctrl-C, which is SIGINT. A shell that runs this in the background lets it be ignored."""

    def setUp(self):
        self.addCleanup(signal.signal, signal.SIGINT, signal.signal(signal.SIGINT, signal.default_int_handler))

    def test_kept(self):
        session = Session()
        for stopper in None, Stopper():
            later(interrupt)
            self.assertRaises(KeyboardInterrupt, session.run, stopper=stopper, **ENDLESS)
            self.assertTrue(session.text == b"b" and session.cursor == 1 and 1 < session.steps(0) < 10**9)
            session.undo()
            self.assertEqual((session.text, session.run(b"9=")), (b"", Ran(None, b"9\r\n", 2)))
            session.undo()
        later(interrupt)
        self.assertRaises(KeyboardInterrupt, session.run, timeout=LATE, **ENDLESS)

    def test_handler(self):
        came, (told, tells) = [], os.pipe()
        os.set_blocking(tells, False)
        signal.set_wakeup_fd(tells)
        signal.signal(signal.SIGINT, lambda *_: came.append(True))
        later(interrupt)
        ran = Session().run(**ENDLESS)
        self.assertTrue(ran.stopped and came == [True])
        self.assertEqual((os.read(told, 9), signal.set_wakeup_fd(-1)), (bytes([signal.SIGINT]), tells))

    def test_gone(self):
        """Whoever was told of signals may be gone when the string has ended."""
        told, tells = os.pipe()
        os.set_blocking(tells, False)
        signal.set_wakeup_fd(tells)
        signal.signal(signal.SIGINT, lambda *_: os.close(tells))
        later(interrupt)
        self.assertTrue(Session().run(**ENDLESS).stopped)
        self.assertEqual(signal.set_wakeup_fd(-1), -1)
        os.close(told)

    def test_within_handler(self):
        """A handler runs strings too, and each Ctrl-C breaks off the one that runs then."""
        session, other, came = Session(), Session(), []

        def handle(*_):
            came.append(other.run(b"Ix\x1b").code)
            if len(came) == 1:
                later(interrupt)
                came.append(other.run(**ENDLESS).stopped)

        signal.signal(signal.SIGINT, handle)
        later(interrupt)
        self.assertTrue(session.run(**ENDLESS).stopped)
        self.assertEqual((came, session.run(b"J").code, signal.set_wakeup_fd(-1)), ([None, None, True], None, -1))

    def test_no_later_string(self):
        """A signal that comes at any moment of a short string breaks off no other one."""
        signal.signal(signal.SIGINT, lambda *_: None)
        session, stopped, ends = Session(depth=1), 0, threading.Event()

        def interrupts():
            while not ends.wait(0.0005):
                interrupt()

        thread = threading.Thread(target=interrupts)
        thread.start()
        for _ in range(3000):
            ran = session.run(b"J")
            stopped += ran.stopped and ran.steps == 1
        ends.set()
        thread.join()
        self.assertEqual((stopped, session.run(b"J").code, signal.set_wakeup_fd(-1)), (0, None, -1))

    def test_raised_anywhere(self):
        """A handler that raises at any point leaves the next string as it should be, and whoever is told of signals too."""
        session, (told, tells), handle = Session(depth=1), os.pipe(), Raising()
        os.set_blocking(tells, False)
        signal.set_wakeup_fd(tells)
        signal.signal(signal.SIGINT, handle)
        for _ in range(300):
            handle.tries(lambda: session.run(b"J"), 0.0001)
            self.assertEqual(session.run(b"9="), Ran(None, b"9\r\n", 2))
        later(interrupt)
        self.assertTrue(session.run(**ENDLESS).stopped)
        self.assertEqual((signal.set_wakeup_fd(-1), handle.raised > 30), (tells, True))
        os.close(told)
        os.close(tells)

    def test_elsewhere(self):
        self.assertEqual(elsewhere(lambda: Session().run(b"YHT").code), None)

    def test_insert_waits(self):
        """Data goes in whole, also where Ctrl-C comes meanwhile."""
        session, text = Session(), bytes(range(256)) * 20000
        later(interrupt)
        try:
            for _ in range(300):
                session.insert(text)
                session.undo()
            self.fail("no interrupt came")
        except KeyboardInterrupt:
            self.assertIn(session.text, (b"", text))

    def test_no_thread(self):
        """No thread is left when no string has run for a while, nor at once where the process is forked."""
        self.wait_for_no_thread()
        session = Session()
        session.run(b"J")
        self.assertEqual(self.threads(), 2)
        self.wait_for_no_thread()
        session.run(b"J")
        self.assertEqual((in_child(lambda: self.threads() == 1), self.threads()), (True, 1))

    def wait_for_no_thread(self):
        """Waits until no other thread is left, of this test or of one before it."""
        end = time.monotonic() + 20
        while self.threads() > 1 and time.monotonic() < end:
            time.sleep(0.01)
        self.assertEqual(self.threads(), 1)

    def threads(self):
        return len(os.listdir("/proc/self/task"))


if __name__ == "__main__":
    unittest.main()

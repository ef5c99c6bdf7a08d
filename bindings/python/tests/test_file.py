"""The file of a session: each request is kept before its call returns, and the session is opened again."""

import os
import resource
import signal
import tempfile
import unittest
from unittest import mock

import teco
from common import ENDLESS, elsewhere, in_child, interrupt, later
from teco import Session, resume
from teco._codes import Entry


def bytes_of(path):
    with open(path, "rb") as file:
        return file.read()


def seen(session):
    """The state of a session and its history."""
    counts = [session.steps(i) for i in range(len(session.strings))]
    return session.text, session.pointer, session.number("Q"), session.input, session.done, list(session.strings), session.cursor, counts


class TestFile(unittest.TestCase):
    def setUp(self):
        folder = tempfile.TemporaryDirectory()
        self.addCleanup(folder.cleanup)
        self.path = os.path.join(folder.name, "session")
        self.addCleanup(signal.signal, signal.SIGINT, signal.signal(signal.SIGINT, signal.default_int_handler))

    def is_again(self, session, path):
        """Whether the session is opened again as it is."""
        was = seen(session)
        session.close()
        with resume(path) as again:
            self.assertEqual(seen(again), was)

    def test_kept(self):
        for depth in range(3):
            path = f"{self.path} {depth}"
            session = Session(b"one\ntwo", depth=depth, file=path)
            before = bytes_of(path)
            for call in (lambda: session.run(b"Y5UQ"), lambda: session.run(b"Ia\n\x1b9J"), lambda: session.run(b"<Ib\x1b>", limit=9),
                         session.undo, session.redo, lambda: session.rewind(4), session.undo, session.forget, lambda: session.run(b"HK"),
                         lambda: session.insert(b"x\x1bHK"), lambda: session.set_register("A", b"y"), session.undo):
                call()
                after = bytes_of(path)
                self.assertEqual((after[: len(before)], after[len(before):].count(b"\n")), (before, 1))
                before = after
            session.redo()
            for _ in range(2):
                self.assertRaises(teco.NothingToRedoError, session.redo)
            self.assertEqual(bytes_of(path).count(b"redo\n"), 2)
            self.assertRaises(BlockingIOError, resume, path)
            session.undo()
            self.is_again(session, path)
            again = resume(path)
            again.redo()
            again.run(b"Ic\x1bEX")
            self.assertRaises(teco.DoneError, again.run, b"J")
            self.is_again(again, path)

    def test_transaction(self):
        session = Session(file=self.path, depth=2)
        session.run(b"Ia\x1b")
        with self.assertRaises(KeyError), session.transaction():
            session.run(b"Ib\x1b")
            session.run(b"Ic\x1b")
            raise KeyError
        self.assertEqual((session.text, len(session.strings)), (b"a", 0))
        self.is_again(session, self.path)
        again = resume(self.path)
        with again.transaction():
            again.run(b"J")
            again.run(b"J")
            self.assertRaises(teco.UsageError, again.run, b"J")
        self.is_again(again, self.path)

    def test_pages(self):
        with Session(b"a\nb\nc", file=self.path, page_lines=1) as session:
            session.run(b"Y")
            self.assertEqual((session.text, session.form_feed), (b"a\n", False))
        with resume(self.path) as session:
            session.run(b"P")
            self.assertEqual(session.text, b"b\n")

    def test_wide(self):
        for wide, front in (True, b"teco session 1 wide\nlines 1\ndepth 2\n"), (False, b"teco session 1\nlines 1\ndepth 2\n"):
            path = f"{self.path} {wide}"
            session = Session(b"one\ntwo", file=path, page_lines=1, depth=2, wide=wide)
            self.assertTrue(bytes_of(path).startswith(front))
            self.assertEqual(session.run(b"Y0\"=:XQ'").code, None if wide else teco.Code.IQC)
            self.is_again(session, path)
            with resume(path) as again:
                self.assertEqual((again.wide, again.register("Q")), (wide, b"one\n" if wide else b""))

    def test_damages(self):
        session = Session(b"one", file=self.path)
        head = len(bytes_of(self.path))
        session.run(b"Y")
        one = bytes_of(self.path)
        session.run(b"Ia\x1b")
        session.close()
        two = bytes_of(self.path)
        self.assertRaises(FileExistsError, Session, b"", file=self.path)
        self.assertRaises(FileNotFoundError, resume, self.path + "?")
        self.assertRaises(TypeError, Session, b"", file=5.5)
        self.assertRaises(teco.TooLargeError, Session, b"", depth=100001, file=self.path + "?")
        self.assertEqual((bytes_of(self.path), os.path.exists(self.path + "?")), (two, False))
        self.put(two[:-1])
        with resume(self.path) as again:
            self.assertEqual((list(again.strings), bytes_of(self.path)), ([b"Y"], one))
            again.run(b"Ia\x1b")
        self.assertEqual(bytes_of(self.path), two)
        for content, good, strings in (one + b"?" + two[len(one) + 1:], len(one), [b"Y"]), (two[:head] + two[len(one):], head, []):
            self.put(content)
            with self.assertRaisesRegex(teco.DamagedError, f"the file is damaged behind {good} bytes"):
                resume(self.path)
            self.assertEqual(bytes_of(self.path), content)
            with resume(self.path, cut=True) as again:
                self.assertEqual((list(again.strings), len(bytes_of(self.path))), (strings, good))
        for content, error in (b"", teco.TornHeadError), (two[: head - 1], teco.TornHeadError), (b"some text", teco.HeadError):
            self.put(content)
            self.assertRaises(error, resume, self.path)
            self.assertEqual(bytes_of(self.path), content)

    def put(self, content):
        with open(self.path, "wb") as file:
            file.write(content)

    def test_replay(self):
        for number, kept in enumerate(((Entry.RAN, 2, b"Y"), (Entry.UNDID,))):
            with Session(b"", file=f"{self.path}{number}") as session:
                session._file.note(*kept)
                session._file.write()
            self.assertRaises(teco.ReplayError, resume, f"{self.path}{number}")

    def test_unwritten(self):
        """What can't be written comes with the next line."""
        session = Session(b"one", file=self.path)
        size, most = len(bytes_of(self.path)), resource.getrlimit(resource.RLIMIT_FSIZE)
        resource.setrlimit(resource.RLIMIT_FSIZE, (size + 9, most[1]))
        self.addCleanup(signal.signal, signal.SIGXFSZ, signal.signal(signal.SIGXFSZ, signal.SIG_IGN))
        self.assertRaises(OSError, session.run, b"Y")
        self.assertRaises(OSError, session.run, b"Ia\x1b")
        with self.assertRaises(OSError), session.transaction():
            session.run(b"Ib\x1b")
        resource.setrlimit(resource.RLIMIT_FSIZE, most)
        self.assertEqual((len(bytes_of(self.path)), session.text, len(session.strings)), (size + 9, b"aone", 2))
        with mock.patch.object(session._file, "made", side_effect=teco.NoMemoryError("memory was refused")):
            self.assertRaises(MemoryError, session.undo)
        session.redo()
        self.is_again(session, self.path)

    def test_new_file(self):
        """If the head can't be written, there is no file."""
        with mock.patch("teco._file.Journal.put", side_effect=OSError):
            self.assertRaises(OSError, Session, b"", file=self.path)
        self.assertFalse(os.path.exists(self.path))

    def test_interrupts(self):
        """Ctrl-C breaks a string off, which is kept; and where it comes between a request and its line, the line is written first."""
        session = Session(b"one", file=self.path)
        later(interrupt)
        self.assertRaises(KeyboardInterrupt, session.run, **ENDLESS)
        put = session._file.put

        def put_late(line):
            interrupt()
            put(line)

        session._file.put = put_late
        for call in session.undo, session.redo, lambda: session.run(b"Ia\x1b"):
            self.assertRaises(KeyboardInterrupt, call)
        session._file.put = put
        self.assertEqual((signal.getsignal(signal.SIGINT), session.cursor), (signal.default_int_handler, 2))
        self.is_again(session, self.path)

    def test_handlers(self):
        """A handler of a signal makes no request between a request and its line, and may look there."""
        session, looked = Session(b"one", file=self.path), []
        put = session._file.put

        def handle(*_):
            looked.append(session.text)
            self.assertRaises(teco.UsageError, session.undo)

        def put_late(line):
            os.kill(os.getpid(), signal.SIGUSR1)
            put(line)

        self.addCleanup(signal.signal, signal.SIGUSR1, signal.signal(signal.SIGUSR1, handle))
        session._file.put = put_late
        session.run(b"Y")
        session._file.put = put
        self.assertEqual((looked, session.cursor), ([b"one"], 1))
        session.undo()
        self.is_again(session, self.path)

    def test_elsewhere(self):
        def work():
            session = Session(b"one", file=self.path)
            session.run(b"Y")
            self.is_again(session, self.path)

        elsewhere(work)
        session = resume(self.path, pinned=False)
        elsewhere(lambda: session.run(b"Ia\x1b"))
        self.assertEqual(session.text, b"aone")

    def test_fork(self):
        """A process that was forked may look, and the file stays as it is."""
        session = Session(b"one", file=self.path)
        session.run(b"Y")
        before = bytes_of(self.path)

        def child():
            for call in lambda: session.run(b"J"), session.undo:
                self.assertRaises(teco.UsageError, call)
            is_so = session.text == b"one" and session.cursor == 1
            session.close()
            return is_so

        self.assertTrue(in_child(child))
        self.assertEqual(bytes_of(self.path), before)
        self.assertRaises(BlockingIOError, resume, self.path)
        session.undo()
        self.is_again(session, self.path)


if __name__ == "__main__":
    unittest.main()

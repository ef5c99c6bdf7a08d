"""Data that is not a command, and transactions."""

import random
import signal
import unittest

import teco
from common import Raising
from teco import Code, Session

ALL = bytes(range(256))


class TestData(unittest.TestCase):
    def test_pasted(self):
        texts = [b"hello\x1bHKEX\x1b", b"x\x1b\x1b", b"/!|\x1b", b"", b"\0", b"^[\x1b@I/a/", b"$", b"@", ALL, ALL * 2,
                 b"\x1bEX\x1b" + ALL + b"/1J"]
        for pasted in texts:
            session = Session()
            session.insert(pasted)
            self.assertEqual((session.text, session.pointer, session.done), (pasted, len(pasted), False))
            self.assertEqual(len(session.strings), 1)
            session.undo()
            self.assertEqual(session.text, b"")
            session.run(b"Iab\x1bJC")
            session.set_register("q", pasted)
            self.assertEqual((session.register("Q"), session.text, session.pointer, len(session.strings)), (pasted, b"ab", 1, 2))
            session.undo()
            self.assertEqual((session.register("Q"), session.text, session.pointer), (b"", b"ab", 1))

    def test_delimiters(self):
        """Each byte is the only one that a text lacks, so it is its delimiter."""
        for byte in range(256):
            session, text = Session(), ALL.replace(bytes([byte]), b"") * 2
            session.insert(text)
            session.set_register("A", text)
            self.assertEqual((session.text, session.register("A")), (text, text), byte)
            self.assertEqual(session.steps(0), 1)

    def test_random(self):
        some = random.Random(1)
        for size in 0, 1, 2, 255, 256, 257, 1000, 5000, 100000:
            for _ in range(20 if size < 10000 else 2):
                text = bytes(some.choices(ALL[: some.choice([1, 2, 30, 256])], k=size))
                session = Session()
                session.run(b"Iab\x1bJC")
                session.insert(text)
                self.assertEqual((session.text, session.pointer), (b"a" + text + b"b", 1 + size))
                session.set_register("9", text)
                self.assertEqual((session.register("9"), session.text, session.pointer), (text, b"a" + text + b"b", 1 + size))

    def test_kinds(self):
        session = Session()
        for text in bytearray(b"a"), memoryview(b"b"), memoryview(b"-c-")[1:2]:
            session.insert(text)
        self.assertEqual(session.text, b"abc")

    def test_limits(self):
        session = Session()
        session.insert(bytes(teco.TEXT_LIMIT - 300))
        session.insert(b"x" * 300)
        for call in (lambda: session.insert(b"y"), lambda: session.set_register("A", ALL),
                     lambda: session.set_register("A", bytes(teco.TEXT_LIMIT + 1))):
            with self.assertRaises(teco.TooLargeError) as raised:
                call()
            self.assertIsInstance(raised.exception, OverflowError)
        self.assertEqual((len(session.strings), len(session)), (2, teco.TEXT_LIMIT))
        session.set_register("A", bytes(teco.TEXT_LIMIT))
        self.assertEqual(session.register("A"), bytes(teco.TEXT_LIMIT))


class TestTransaction(unittest.TestCase):
    def setUp(self):
        self.session = Session(b"one\n")
        self.session.run(b"Y")

    def fails(self, *strings):
        """Strings of a transaction, the last of which fails."""
        with self.assertRaises(teco.StringError) as raised, self.session.transaction():
            for string in strings:
                self.session.run(string).check()
        return raised.exception.code

    def test_none(self):
        self.assertEqual(self.fails(b"Ia\x1b", b"HK", b"9J"), Code.POP)
        self.assertEqual((self.session.text, list(self.session.strings), self.session.cursor), (b"one\n", [b"Y"], 1))

    def test_all(self):
        with self.session.transaction() as session:
            self.assertIs(session, self.session)
            session.run(b"Ia\x1b")
            session.run(b"9J")
            session.insert(b"\x1b")
        self.assertEqual((session.text, len(session.strings)), (b"a\x1bone\n", 4))

    def test_within(self):
        with self.session.transaction():
            self.session.run(b"Ia\x1b")
            self.fails(b"Ib\x1b", b"9J")
            self.assertEqual(self.session.text, b"aone\n")
        self.assertEqual((self.session.text, len(self.session.strings)), (b"aone\n", 2))
        with self.assertRaises(KeyError), self.session.transaction():
            with self.session.transaction():
                self.session.run(b"Ib\x1b")
            raise KeyError
        self.assertEqual((self.session.text, len(self.session.strings)), (b"aone\n", 2))

    def test_undo(self):
        with self.session.transaction():
            self.session.run(b"Ia\x1b")
            self.session.undo()
            for call in self.session.undo, lambda: self.session.rewind(0):
                with self.assertRaisesRegex(teco.NothingToUndoError, "nothing of the transaction"):
                    call()
            self.session.redo()
        self.assertEqual(self.session.text, b"aone\n")
        with self.assertRaises(KeyError), self.session.transaction():
            self.session.run(b"Ib\x1bIc\x1b")
            self.session.rewind(1)
            self.session.undo()
            raise KeyError
        self.assertEqual((self.session.text, len(self.session.strings)), (b"aone\n", 2))
        self.session.undo()
        with self.assertRaises(KeyError), self.session.transaction():
            raise KeyError
        self.session.redo()
        self.assertEqual(self.session.text, b"aone\n")
        self.session.undo()
        with self.assertRaises(KeyError), self.session.transaction():
            self.session.redo()
            raise KeyError
        self.assertEqual((self.session.text, len(self.session.strings), self.session.cursor), (b"one\n", 2, 1))

    def test_exit(self):
        self.assertRaises(teco.DoneError, self.fails, b"EX", b"J")
        self.assertEqual((self.session.done, len(self.session.strings)), (False, 1))

    def test_depth(self):
        session = self.session = Session(depth=3)
        for string in b"Ia\x1b", b"Ib\x1b", b"Ic\x1b":
            session.run(string)
        self.fails(b"Id\x1b", b"9J")
        self.assertEqual((session.text, list(session.strings)), (b"abc", [b"Ic\x1b"]))
        with session.transaction():
            for string in b"Id\x1b", b"Ie\x1b", b"If\x1b":
                session.run(string)
            with self.assertRaisesRegex(teco.UsageError, "as many strings as the session keeps"):
                session.run(b"J")
            self.assertEqual((len(session.strings), session.text), (3, b"abcdef"))
        session.undo()
        with self.assertRaises(KeyError), session.transaction():
            session.run(b"Ix\x1b")
            session.run(b"Iy\x1b")
            raise KeyError
        self.assertEqual((session.text, list(session.strings)), (b"abcde", [b"Ie\x1b"]))

    def test_interrupted(self):
        """Ctrl-C at any moment leaves all strings of a transaction, or none."""
        handle, session = Raising(), Session(depth=50)
        self.addCleanup(signal.signal, signal.SIGINT, signal.signal(signal.SIGINT, handle))

        def work():
            with session.transaction():
                for _ in range(5):
                    session.run(b"Ia\x1b")

        for i in range(200):
            handle.tries(work, i / 400000)
            self.assertEqual(len(session) % 5, 0)
        self.assertGreater(handle.raised, 20)

    def test_closed(self):
        with self.assertRaises(KeyError), self.session.transaction():
            self.session.close()
            raise KeyError


if __name__ == "__main__":
    unittest.main()

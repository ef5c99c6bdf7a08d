"""Each call of a session on its way to success, what it refuses, and what the package has beside."""

import copy
import doctest
import gc
import importlib
import pickle
import typing
import unittest
import weakref

import teco
from teco import Call, Change, Code, Kind, Place, Ran, Session, Splice, Token, TokenKind

MODULES = "_arguments _codes _data _errors _file _interrupts _library _looks _results _running _session _stopper _texts".split()


class TestSession(unittest.TestCase):
    def test_run(self):
        session = Session(b"one\n\ftwo", depth=2)
        self.assertEqual(session.run(b"YHT"), Ran(None, b"one\n", 3))
        self.assertEqual((session.run(bytearray(b"J")), session.run(memoryview(b"J"))), (Ran(None, b"", 1), Ran(None, b"", 1)))
        self.assertEqual(session.run(b"2=12=", room=4), Ran(Code.TTY, b"2\r\n", 3, Place(4, 4)))
        self.assertEqual(session.run(b"12=", room=0).code, Code.TTY)
        self.assertEqual(session.run(b"ZJ 9J").place, Place(4, 4))
        self.assertEqual(session.run(b"@^UA/J9J/ MA").place, Place(10, 2, (Call(10, "A"),)))
        self.assertEqual(session.run(b"@^U7/ MA/J M7").place, Place(11, 2, (Call(1, "A"), Call(11, "7"))))
        ran = session.run(b"<J>", limit=5)
        self.assertEqual((ran.code, ran.steps, ran.stopped), (Code.LIM, 5, False))
        self.assertEqual(session.run(b"J", room=1 << 20), Ran(None, b"", 1))

    def test_printed(self):
        session = Session()
        for room in 0, 3, 80, 65536, 65537, 3000000, 80, 3:
            self.assertEqual(session.run(b"<2=>", limit=10**7, room=room).printed, b"2\r\n" * (room // 3))
            self.assertEqual((session.run(b"3=").printed, session.run(b"J").printed), (b"3\r\n", b""))

    def test_looks(self):
        session = Session(b"a\nb\vc\n\fd")
        session.run(b"Y[A0^XSb\x1b 5UQ @^UA/J9J/").check()
        self.assertEqual((session.text, len(session), session.pointer, session.place, session.pushed), (b"a\nb\vc\n", 6, 3, 7, 1))
        self.assertEqual((session.line_ends(), session.line_ends(2, 4), session.line_ends(4, 2), session.line_ends(9)), (3, 1, 0, 0))
        self.assertEqual((session.input, session.output, session.search), (b"a\nb\vc\n\fd", b"", b"b"))
        self.assertEqual((session.register("a"), session.register("A"), session.number("q"), session.number("0")), (b"J9J", b"J9J", 5, 0))
        self.assertEqual((session.found, session.form_feed, session.either_case, session.done), (True, True, True, False))
        self.assertEqual((Session().search, Session().found, bool(Session())), (None, False, True))

    def test_history(self):
        session = Session()
        for string in b"Ia\x1b", b"Ib\x1b", b"J":
            session.run(string)
        session.undo()
        session.undo()
        self.assertEqual((session.text, session.cursor, len(session.strings), session.steps(1)), (b"a", 1, 3, 1))
        session.redo()
        self.assertEqual(session.text, b"ab")
        session.forget()
        self.assertRaises(teco.NothingToRedoError, session.redo)
        session.run(b"Ic\x1bId\x1b")
        session.rewind(1)
        self.assertEqual((session.text, session.steps(2)), (b"abc", 1))
        session.rewind(2**64 - 1)
        for _ in range(3):
            session.undo()
        for call in session.undo, lambda: session.rewind(0):
            with self.assertRaisesRegex(teco.NothingToUndoError, "nothing is left to undo"):
                call()

    def test_strings(self):
        session = Session()
        for string in b"J", b"ZJ", b"HK":
            session.run(string)
        strings = session.strings
        self.assertEqual((len(strings), list(strings), strings[0], strings[-1]), (3, [b"J", b"ZJ", b"HK"], b"J", b"HK"))
        self.assertEqual((strings[1:], strings[::-2], list(reversed(strings))[0]), ([b"ZJ", b"HK"], [b"HK", b"J"], b"HK"))
        self.assertIn(b"ZJ", strings)
        for i in 3, -4, 2**70:
            with self.assertRaises(IndexError) as raised:
                strings[i]
            self.assertIsInstance(raised.exception, teco.Error)
        for i in "1", 1.5, None:
            self.assertRaises(TypeError, strings.__getitem__, i)
        session.run(b"J")
        self.assertEqual((len(strings), repr(strings)), (4, "<teco.Strings, 4 of them>"))

    def test_changes(self):
        session = Session()
        session.run(b"Iab\x1bJ5UA")
        changes = [Change(Kind.SPLICE, 0, None, Splice(0, 2, 0)), Change(Kind.POINT, 1), Change(Kind.NUMBER, 3, "A")]
        self.assertEqual([it for it in session.changes(0) if it.kind in (Kind.SPLICE, Kind.NUMBER)], [changes[0], changes[2]])
        session.undo()
        self.assertEqual(session.changes(0)[0].splice, Splice(0, 0, 2))
        self.assertRaises(teco.MissingError, session.changes, 1)
        self.assertRaises(teco.MissingError, session.steps, 1)

    def test_exit(self):
        session = Session(b"a\fb")
        session.run(b"YIx\x1bEX").check()
        self.assertEqual((session.done, session.output), (True, b"xa\fb"))
        with self.assertRaisesRegex(teco.DoneError, "an exit has ended the session"):
            session.run(b"J")
        self.assertRaises(teco.DoneError, session.insert, b"x")
        session.undo()
        self.assertFalse(session.done)

    def test_nuls(self):
        session = Session(b"a\0b\n\0")
        session.run(b"YJI\0\x1b\0@^UA/\0x\0/S\0b\x1b").check()
        self.assertEqual((session.text, session.pointer, session.register("A"), session.search), (b"\0a\0b\n\0", 4, b"\0x\0", b"\0b"))

    def test_pages(self):
        session = Session(b"a\nb\nc", page_lines=1)
        session.run(b"Y")
        self.assertEqual((session.text, session.form_feed), (b"a\n", False))

    def test_wide(self):
        wide, session = Session(b"one\ntwo", wide=True, page_lines=1), Session()
        self.assertEqual((wide.wide, session.wide), (True, False))
        self.assertEqual((wide.run(b"0\"=1='").printed, session.run(b"0\"=1='").code), (b"1\r\n", Code.IQC))
        wide.run(b"Iab\x1bJ:XA\x1b\x1b").check()
        wide.run(b":XA").check()
        self.assertEqual(wide.register("A"), b"abab")
        wide.run(b"HKY").check()
        self.assertEqual((wide.text, len(wide.strings)), (b"one\n", 4))
        self.assertRaises(teco.TooLargeError, Session, wide=True, depth=100001)

    def test_depth(self):
        session = Session(depth=2)
        for string in b"Ia\x1b", b"Ib\x1b", b"Ic\x1b":
            session.run(string)
        self.assertEqual((list(session.strings), session.cursor), ([b"Ib\x1b", b"Ic\x1b"], 2))


class TestRefusals(unittest.TestCase):
    def test_arguments(self):
        session = Session(b"one", depth=3)
        for name, most in ("limit", 2**64), ("room", 2**41):
            for value, error in ((-1, ValueError), (-(2**70), ValueError), (most, OverflowError), (2**70, OverflowError), (1.5, TypeError),
                                 ("1", TypeError)):
                with self.subTest(name=name, value=value):
                    self.assertRaises(error, session.run, b"J", **{name: value})
        for value in "J", 5, None, ["J"], 1.5:
            for call in session.run, Session, teco.token, teco.source, session.insert, lambda it: session.set_register("A", it):
                with self.subTest(value=value):
                    self.assertRaises(TypeError, call, value)
        for value, error in (-1, ValueError), (2**64, OverflowError), ("1", TypeError), (1.5, TypeError):
            calls = [session.rewind, session.changes, session.steps, session.line_ends, lambda it: session.line_ends(0, it),
                     lambda it: Session(depth=it), lambda it: Session(page_lines=it), lambda it: teco.token(b"J", it)]
            for call in calls:
                with self.subTest(value=value):
                    self.assertRaises(error, call, value)
        names = [(it, ValueError) for it in ("\u20ac", "", "AB", "!", "\xe9", "\u0661")] + [(65, TypeError), (b"A", TypeError)]
        for value, error in names:
            for call in session.number, session.register, lambda it: session.set_register(it, b""):
                with self.subTest(value=value):
                    self.assertRaises(error, call, value)
        self.assertEqual((list(session.strings), session.run(b"YHT")), ([], Ran(None, b"one", 3)))

    def test_limits(self):
        with self.assertRaisesRegex(teco.TooLargeError, "the depth is above 100000"):
            Session(depth=100001)
        self.assertRaises(OverflowError, Session, bytes(2**30 + 1))
        Session(depth=teco.DEPTH_LIMIT, page_lines=2**64 - 1)

    def test_closed(self):
        session = Session(b"one")
        with session as same:
            self.assertIs(same, session)
        session.close()
        self.assertEqual((session.closed, repr(session)), (True, "<teco.Session, closed>"))
        for call in (lambda: session.text, lambda: session.done, lambda: session.wide, lambda: session.input, lambda: session.strings[0],
                     lambda: session.search, lambda: len(session), session.forget, lambda: session.run(b"J"), lambda: session.insert(b""), session.__enter__):
            self.assertRaises(teco.ClosedError, call)
        self.assertRaises(teco.UsageError, Session(b"").__init__)

    def test_copies(self):
        session, stopper = Session(b"one"), teco.Stopper()
        for call in copy.copy, copy.deepcopy, pickle.dumps:
            self.assertRaises(TypeError, call, session)
            self.assertRaises(TypeError, call, stopper)
        self.assertEqual(session.run(b"YHT").printed, b"one")
        for kind in Session, teco.Stopper, teco.Strings:
            kind.__new__(kind)  # and nothing is said when it goes
        gc.collect()

    def test_collected(self):
        session = Session()
        session.run(b"J")
        gone = weakref.ref(session)
        del session
        self.assertIsNone(gone())


class TestResults(unittest.TestCase):
    def test_check(self):
        session = Session()
        self.assertEqual(session.run(b"J").check(), Ran(None, b"", 1))
        for string, says in ((b"J Sz\x1b", "SRH, the search found nothing, at byte 2"),
                             (b"@^UA/9J/ MA", "POP, place outside the buffer, in a macro that is called at byte 9"),
                             (b"2=", "TTY, it prints more than there is room for, at byte 1")):
            with self.assertRaises(teco.StringError) as raised:
                session.run(string, room=1).check()
            self.assertEqual((str(raised.exception), raised.exception.code), (says, raised.exception.ran.code))
            again = pickle.loads(pickle.dumps(raised.exception))
            self.assertEqual((str(again), again.ran, type(again)), (says, raised.exception.ran, teco.StringError))
        self.assertNotIsInstance(raised.exception, teco.StoppedError)

    def test_frozen(self):
        ran = Session().run(b"J")
        with self.assertRaises(AttributeError):
            ran.steps = 2
        self.assertEqual((copy.copy(ran), pickle.loads(pickle.dumps(ran)), hash(ran)), (ran, ran, hash(Ran(None, b"", 1))))

    def test_codes(self):
        self.assertEqual([code.value for code in Code], list(range(1, 33)))
        self.assertEqual((str(Code.SRH), f"{Code(22)!r}"), ("SRH, the search found nothing", "<Code.SRH: 22>"))
        self.assertIs(pickle.loads(pickle.dumps(Code.SRH)), Code.SRH)
        self.assertRaises(ValueError, Code, 33)
        self.assertEqual(([kind.value for kind in Kind], [kind.value for kind in TokenKind]), (list(range(1, 12)), list(range(1, 16))))

    def test_ends(self):
        rows = r"""1,2J ARG   > BNI      ]A CPQ    9D DTB        @S/^R/ ICE     1Ia$ IIA     ? ILL    0P IPA     1"! IQC
            Q! IQN     0Sa$ ISA   S$ ISS    (J MRP        = NAE          "E' NAQ      UA NAU   1/0= DVZ   ; SNI
            9J POP     Sa$ SRH    Oa$ TAG   Ia UTC        Ia$Y YCA       <> LIM       99= TTY  9999999999= OVF
            @^UA/MA/MA PDO        16777216<Ix$> LIM"""
        words = rows.split()
        for string, name in zip(words[::2], words[1::2]):
            ran = Session().run(string.replace("$", "\x1b").replace("^R", "\x12").replace("^U", "\x15").encode(), limit=1000, room=2)
            self.assertEqual(ran.code, Code[name], string)

    def test_repr(self):
        session = Session()
        session.run(b"Iab\x1b")
        self.assertEqual(repr(session), "<teco.Session of 2 bytes with the pointer at 2, 1 of 1 strings done>")
        self.assertEqual(repr(session.run(b"J")), "Ran(code=None, printed=b'', steps=1, place=None, stopped=False)")

    def test_errors(self):
        errors = [it for it in vars(teco).values() if isinstance(it, type) and issubclass(it, Exception)]
        self.assertEqual([it for it in errors if not issubclass(it, teco.Error)], [])
        self.assertEqual(len(errors), 19)
        self.assertTrue(all(it.__module__ == "teco" and it.__doc__ for it in errors))

    def test_documented(self):
        for name in teco.__all__:
            it = getattr(teco, name)
            if not isinstance(it, int):
                self.assertTrue(it.__doc__ and it.__module__ == "teco", name)
                self.assertTrue(typing.get_type_hints(it) or isinstance(it, type), name)
        for name, it in vars(Session).items() | vars(Session.__mro__[1]).items():
            if not name.startswith("_"):
                self.assertTrue(it.__doc__, name)
                self.assertIn("return", typing.get_type_hints(getattr(it, "fget", it)), name)

    def test_docs(self):
        tried = 0
        for module in [teco, *(importlib.import_module(f"teco.{name}") for name in MODULES)]:
            for test in doctest.DocTestFinder().find(module, extraglobs=vars(teco)):
                runner = doctest.DocTestRunner(optionflags=doctest.IGNORE_EXCEPTION_DETAIL)
                runner.run(test)
                tried += runner.tries
                self.assertEqual(runner.failures, 0, test.name)
        self.assertGreater(tried, 15)


class TestTexts(unittest.TestCase):
    def test_tokens(self):
        self.assertEqual(teco.token(b" 12A"), Token(1, 3, TokenKind.DIGITS, 0))
        self.assertEqual(teco.token(b" 12A", 3), Token(3, 4, TokenKind.LEVEL, 0))
        self.assertEqual((teco.token(b"Iab\x1b"), teco.token(b"!tag!")), (Token(0, 4, TokenKind.TEXT, 2), Token(0, 5, TokenKind.TAG, 3)))
        self.assertEqual((teco.token(b"J", 9), teco.token(b""), teco.token(b"J", 2**64 - 1)), (None, None, None))
        for text, code, at in (b"W", Code.ILL, 0), (b"Q!", Code.IQN, 0), (b'"x', Code.IQC, 0), (b" Iab", Code.UTC, 1):
            with self.assertRaises(teco.TokenError) as raised:
                teco.token(text)
            self.assertEqual((raised.exception.code, raised.exception.at), (code, at))
        self.assertEqual(str(raised.exception), "UTC, text ends inside a command or block, at byte 1")

    def test_wide(self):
        self.assertEqual(teco.token(b" :XAJ", wide=True), Token(1, 4, TokenKind.REGISTER, 0))
        self.assertEqual(teco.token(b"J\"=J'", 1, wide=True), Token(1, 3, TokenKind.TEST, 0))
        self.assertIsNone(teco.token(b"J", 1, wide=True))
        for wide, text, code in (False, b":XA", Code.ILL), (False, b'"=', Code.IQC), (True, b'"x', Code.IQC), (True, b"Ia", Code.UTC):
            with self.assertRaises(teco.TokenError) as raised:
                teco.token(text, wide=wide)
            self.assertEqual(raised.exception.code, code)

    def test_sources(self):
        self.assertEqual(teco.source(b"  Iab$ !! a text\n  T\n"), b"Iab\x1bT")
        self.assertEqual((teco.source(bytearray(b"^J^@")), teco.source(b"")), (b"\n\0", b""))
        with self.assertRaises(teco.SourceError) as raised:
            teco.source(b"J\n ^5")
        self.assertEqual((raised.exception.line, raised.exception.column), (2, 2))
        self.assertEqual(str(pickle.loads(pickle.dumps(raised.exception))), "2:2: a caret before what it cannot stand before")


if __name__ == "__main__":
    unittest.main()

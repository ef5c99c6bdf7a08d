"""Opens a session, runs strings, undoes, shows what differs between two states, and marks where a string failed,
and inserts what was pasted."""

import difflib

from teco import Kind, NothingToUndoError, Session


def lines(session):
    return session.text.decode().splitlines()


def show(before, after):
    for line in difflib.unified_diff(before, after, "before", "after", lineterm="", n=0):
        print("   ", line)


with Session(b"apples 3\npears 5\nplums 8\n") as session:
    session.run(b"Y")
    states = [lines(session)]
    for string in (b"<FS \x1b: \x1b; >", b"JFSpears\x1bquinces\x1b", b"ZJIfigs: 2\n\x1b"):
        ran = session.run(string).check()
        states.append(lines(session))
        print(f"{string!r} ended after {ran.steps} steps")
        show(states[-2], states[-1])

    session.undo()
    session.undo()
    print("two undone:", lines(session) == states[1])
    session.redo()
    print("one redone:", lines(session) == states[2])

    print("from the first state to this one:")
    show(states[0], lines(session))
    splice = next(change.splice for change in session.changes(2) if change.kind is Kind.SPLICE)
    print(f"an undo takes {splice.gone} bytes out at {splice.at} and puts {splice.came} in")
    print("strings:", len(session.strings), "of them not undone:", session.cursor)

    string = b"J3C99C"
    ran = session.run(string)
    print(f"this ended by {ran.code}, at the mark:")
    print("   ", string.decode())
    print("   ", " " * ran.place.at + "^")

    pasted = b"\x1bHKEX\x1b"
    session.insert(pasted)
    print("what is pasted is no command:", pasted in session.text and not session.done)

    for _ in range(session.cursor):
        session.undo()
    try:
        session.undo()
    except NothingToUndoError as error:
        print(error)

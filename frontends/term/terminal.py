"""A terminal for a program: a pseudo terminal with a screen that is kept in memory, and a shell in small that starts, stops and continues
the program in it. Nothing but Python's own library."""

import fcntl
import os
import pty
import re
import select
import signal
import struct
import termios
import time
import unicodedata
from pathlib import Path

PATIENCE = float(os.environ.get("PATIENCE", "20"))  # seconds to wait for what has to come
QUIET = 0.05  # and for what must not

# What a line of a session's file has to spell: line ends, dollars, carets, two exclamation marks, blanks at both ends of lines, and other bytes.
HARD_LINES = (
    b"line one", b"costs 5$ each", b"x^2 ^up ^^ ^", b"!! no comment", b" !! nor this", b"a!!b !!!! ! !!", b"   three blanks before",
    b"two behind  ", b" ", b"", b"\ta tab before", b"#! no script", b"THIS INPUT", b"a\x00\x01\x1f\x7f\x80\xff", "\u00e9\u65e5".encode(), b"  ",
)


def file_is_free(name="in.teco-session"):
    """Waits until no process holds a session's file."""
    with open(name, "rb") as file:
        end = time.monotonic() + PATIENCE
        while True:
            try:
                return fcntl.flock(file, fcntl.LOCK_EX | fcntl.LOCK_NB)
            except BlockingIOError:
                assert time.monotonic() < end, f"{name} is held"
                time.sleep(0.02)


class Screen:
    """What a terminal shows of the bytes that it gets. A row that is full waits with the next one until a cell comes."""

    KNOWN = re.compile(rb"\x1b\[(\?2004[hl]|\d*[AC]|J)")

    def __init__(self, rows, columns):
        self.rows, self.columns = rows, columns
        self.cells = [[" "] * columns for _ in range(rows)]
        self.row = self.column = self.bells = 0
        self.marks_pastes = False
        self.rest = b""

    def resize(self, rows, columns):
        """Cuts rows and columns off, or adds blank ones."""
        self.cells = [(row + [" "] * columns)[:columns] for row in self.cells][:rows]
        self.cells += [[" "] * columns for _ in range(rows - len(self.cells))]
        self.rows, self.columns = rows, columns
        self.row, self.column = min(self.row, rows - 1), min(self.column, columns - 1)

    def feed(self, data):
        data = self.rest + data
        self.rest = b""
        while data:
            taken = self.sequence(data) if data[0] == 27 else self.character(data)
            if taken == 0:
                self.rest = data
                return
            data = data[taken:]

    def sequence(self, data):
        found = self.KNOWN.match(data)
        if not found:
            if len(data) < 8:
                return 0
            raise AssertionError(f"the terminal doesn't know {data[:12]!r}")
        what = found.group(1)
        many = int(what[:-1]) if what[:-1].isdigit() else 1
        if what[:1] == b"?":
            self.marks_pastes = what.endswith(b"h")
        elif what == b"J":
            self.cells[self.row][min(self.column, self.columns) :] = [" "] * (self.columns - min(self.column, self.columns))
            self.cells[self.row + 1 :] = [[" "] * self.columns for _ in range(self.rows - self.row - 1)]
        elif what.endswith(b"A"):
            self.row = max(self.row - many, 0)
        else:
            self.column = min(self.column + many, self.columns - 1)
        return found.end()

    def character(self, data):
        byte = data[0]
        if byte == 13:
            self.column = 0
        elif byte == 10:
            self.down()
        elif byte == 7:
            self.bells += 1
        elif byte >= 32:
            size = 1 if byte < 0xC0 else 2 if byte < 0xE0 else 3 if byte < 0xF0 else 4
            if len(data) < size:
                return 0
            self.put(data[:size].decode(errors="replace"))
            return size
        else:
            raise AssertionError(f"the terminal doesn't know byte {byte}")
        return 1

    def put(self, character):
        if unicodedata.combining(character):
            at = max(at for at in range(min(self.column, self.columns)) if self.cells[self.row][at])
            self.cells[self.row][at] += character
            return
        wide = 2 if "\u3000" <= character <= "\uff60" else 1
        if self.column + wide > self.columns:
            self.column = 0
            self.down()
        self.cells[self.row][self.column] = character
        if wide == 2:
            self.cells[self.row][self.column + 1] = ""
        self.column += wide

    def down(self):
        if self.row + 1 < self.rows:
            self.row += 1
        else:
            self.cells = self.cells[1:] + [[" "] * self.columns]

    def text(self):
        """The rows down to the last that isn't blank, with `_` where the cursor is."""
        rows = ["".join(row).rstrip() for row in self.cells]
        before = "".join(self.cells[self.row][: self.column])
        after = "".join(self.cells[self.row][self.column :]).rstrip()
        rows[self.row] = before + "_" + after
        while rows and not rows[-1]:
            rows.pop()
        return "\n".join(rows)


def shell(program, environment, report, orders):
    """Runs the program as the foreground job of this terminal. Reports each stop and its end, and waits for an order after a stop."""
    signal.signal(signal.SIGTTOU, signal.SIG_IGN)
    child = os.fork()
    if child == 0:
        os.setpgid(0, 0)
        os.tcsetpgrp(0, os.getpid())
        signal.signal(signal.SIGTTOU, signal.SIG_DFL)
        try:
            os.execve(program[0], program, {**os.environ, "LC_ALL": "C.UTF-8", "TERM": "xterm", **environment})
        finally:
            os._exit(127)
    os.write(report, b"pid %d\n" % child)
    while True:
        _, status = os.waitpid(child, os.WUNTRACED)
        if not os.WIFSTOPPED(status):
            break
        os.tcsetpgrp(0, os.getpgrp())
        os.write(report, b"stopped %d\n" % os.WSTOPSIG(status))
        if os.read(orders, 1) == b"f":
            os.tcsetpgrp(0, child)
        os.kill(-child, signal.SIGCONT)
    how = b"signal %d\n" % os.WTERMSIG(status) if os.WIFSIGNALED(status) else b"status %d\n" % os.WEXITSTATUS(status)
    os.write(report, how)
    os.read(orders, 1)
    os._exit(0)


class Terminal:
    def __init__(self, program, rows=24, columns=80, erase=b"\x7f", screen=Screen, environment=None):
        self.screen = screen(rows, columns)
        self.seen = b""
        self.head = ""
        self.reports = b""
        self.master, slave = pty.openpty()
        self.resize(rows, columns)
        settings = termios.tcgetattr(self.master)
        settings[6][termios.VERASE] = erase
        termios.tcsetattr(self.master, termios.TCSANOW, settings)
        self.before = termios.tcgetattr(self.master)
        self.report, report = os.pipe()
        orders, self.orders = os.pipe()
        self.leader = os.fork()
        if self.leader == 0:
            os.setsid()
            fcntl.ioctl(slave, termios.TIOCSCTTY, 0)
            for place in range(3):
                os.dup2(slave, place)
            os.close(self.master)
            try:
                shell(program, environment or {}, report, orders)
            finally:
                os._exit(127)
        for unused in slave, report, orders:
            os.close(unused)
        self.program = int(self.reported("pid"))

    def close(self):
        for process in self.program, self.leader:
            try:
                os.kill(process, signal.SIGKILL)
            except ProcessLookupError:
                pass
        os.waitpid(self.leader, 0)
        for place in self.master, self.report, self.orders:
            os.close(place)

    def resize(self, rows, columns):
        self.screen.resize(rows, columns)
        fcntl.ioctl(self.master, termios.TIOCSWINSZ, struct.pack("HHHH", rows, columns, 0, 0))

    def read(self, seconds):
        """Takes what the program shows within so long. False where nothing came."""
        if not select.select([self.master], [], [], seconds)[0]:
            return False
        try:
            data = os.read(self.master, 65536)
        except OSError:
            return False
        self.seen += data
        self.screen.feed(data)
        return bool(data)

    def types(self, keys):
        """Presses keys that come together."""
        os.write(self.master, keys)
        return self

    def floods(self, keys, is_kept=True):
        """Writes many bytes, and takes what comes meanwhile. Of that no screen is kept, if so said."""
        os.set_blocking(self.master, False)
        while keys:
            ready = select.select([self.master], [self.master], [], PATIENCE)
            if ready[1]:
                keys = keys[os.write(self.master, keys[:65536]) :]
            if ready[0] and is_kept:
                self.read(0)
            elif ready[0]:
                os.read(self.master, 65536)
        os.set_blocking(self.master, True)
        return self

    def state(self):
        """The screen, without what the program said before its first prompt, as far as that still is the first that is on it."""
        return self.screen.text().removeprefix(self.head)

    def drains(self):
        """Takes what comes until nothing more does. What comes for ever is not waited for."""
        end = time.monotonic() + PATIENCE
        while self.read(QUIET) and time.monotonic() < end:
            pass

    def waits(self, state, wanted):
        end = time.monotonic() + PATIENCE
        while state() != wanted and time.monotonic() < end:
            self.read(0.2)
        self.drains()
        assert state() == wanted, f"wanted:\n{wanted}\nseen:\n{state()}"
        return self

    def shows(self, wanted):
        """Waits until the screen is so, and nothing more comes."""
        return self.waits(self.state, wanted)

    def rings(self, wanted):
        """Waits until the bell has rung so often."""
        return self.waits(lambda: self.screen.bells, wanted)

    def passes(self, wanted):
        """Reads until these bytes have come, and keeps no screen of what comes before."""
        end = time.monotonic() + 10 * PATIENCE
        last = b""
        while wanted not in last and time.monotonic() < end:
            if select.select([self.master], [], [], 0.2)[0]:
                last = last[-len(wanted) :] + os.read(self.master, 65536)
        assert wanted in last, f"{wanted!r} doesn't come"

    def reported(self, word):
        """Waits for a report that begins with this word, and gives what it says."""
        end = time.monotonic() + PATIENCE
        while b"\n" not in self.reports and time.monotonic() < end:
            ready = select.select([self.report, self.master], [], [], 0.2)[0]
            if self.report in ready:
                self.reports += os.read(self.report, 4096)
            if self.master in ready:
                self.read(0)
        assert b"\n" in self.reports, f"no report: {word} is wanted; seen:\n{self.state()}"
        first, self.reports = self.reports.split(b"\n", 1)
        said, value = first.decode().split()
        self.drains()
        assert said == word, f"wanted: {word}; it is: {first.decode()}; seen:\n{self.state()}"
        return value

    def kills(self, number):
        os.kill(self.program, number)
        return self

    def continues(self, order=b"f"):
        """By the order f in front, by b in the background."""
        os.write(self.orders, order)
        return self

    def is_given_back(self):
        assert termios.tcgetattr(self.master) == self.before, "the terminal is not as it was"
        assert not self.screen.marks_pastes, "pastes are still marked"
        return self

    def is_own(self):
        local = termios.tcgetattr(self.master)[3]
        assert not local & (termios.ICANON | termios.ECHO), "the terminal is not set for keys"
        assert self.screen.marks_pastes, "pastes are not marked"
        return self

    def ends(self, status):
        """Waits until the program has ended with this status, and the terminal is as it was."""
        assert self.reported("status") == str(status), f"the status is not {status}; seen:\n{self.state()}"
        return self.is_given_back()

    def dies(self, number):
        """By SIGKILL it can't give the terminal back."""
        assert self.reported("signal") == str(int(number)), f"it is not ended by signal {number}"
        return self if number == signal.SIGKILL else self.is_given_back()

    def loses_its_terminal(self):
        """Closes the terminal, and waits until the program has ended over a file `in`."""
        os.close(self.master)
        self.master = os.open("/dev/null", os.O_RDWR)
        file_is_free()

    def asks(self):
        """Waits until the program asks whether to go on with a session that was left. The sentences."""
        end = time.monotonic() + PATIENCE
        while "another key begins anew" not in self.screen.text() and time.monotonic() < end:
            self.read(0.2)
        self.drains()
        assert "another key begins anew" in self.screen.text(), f"it doesn't ask; seen:\n{self.screen.text()}"
        return " ".join(line.strip() for line in self.screen.text().split("\n"))

    def exits(self):
        """What EX writes of the file `in`, of which nothing is left then."""
        self.types(b"EX\x1b\x1b").ends(0)
        written = Path("in.out").read_bytes()
        os.remove("in.out")
        assert not Path("in.teco-session").exists()
        return written

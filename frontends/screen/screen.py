"""The screen of a terminal that teco-screen draws on: cells with marks, and the sequences that the description below has."""

import re
import subprocess
import sys
from pathlib import Path

sys.path.insert(0, str(Path(__file__).parent.parent / "term"))
from terminal import Screen

KNOWN = r"""tecotest|what the rows know,
	am, xenl, colors#256, pairs#32767, cols#80, lines#24,
	clear=\E[H\E[J, cup=\E[%i%p1%d;%p2%dH, el=\E[K, ed=\E[J, bel=^G, cr=\r, smcup=\E[?1049h, rmcup=\E[?1049l,
	sgr0=\E[m, bold=\E[1m, dim=\E[2m, smul=\E[4m, rmul=\E[24m, rev=\E[7m, setaf=\E[38;5;%p1%dm, setab=\E[48;5;%p1%dm, op=\E[39;49m,
teco8|the same with eight colors,
	colors#8, pairs#64, setaf=\E[3%p1%dm, setab=\E[4%p1%dm, use=tecotest,
tecomono|the same without colors,
	am, xenl, cols#80, lines#24,
	clear=\E[H\E[J, cup=\E[%i%p1%d;%p2%dH, el=\E[K, ed=\E[J, bel=^G, cr=\r, smcup=\E[?1049h, rmcup=\E[?1049l,
	sgr0=\E[m, bold=\E[1m, dim=\E[2m, smul=\E[4m, rmul=\E[24m, rev=\E[7m,
"""


# What strikes the character before it through.
STROKE = "\u0336"

# The colors of bytes that came, of 256 and of 8.
CAME = ("28", "5")


def describe(folder):
    """Makes the descriptions of the terminals in a folder, for TERMINFO. It wants tic."""
    Path(folder, "known").write_text(KNOWN)
    subprocess.run(["tic", "-x", "-o", folder, Path(folder, "known")], check=True, capture_output=True)


class FullScreen(Screen):
    """A cell is a character, and its marks: r reversed, b bold, u underlined, d dim, l on another ground, and the number of its color."""

    SEQUENCE = re.compile(rb"\x1b\[(\??)([0-9;]*)([A-Za-z])")

    def __init__(self, rows, columns):
        super().__init__(rows, columns)
        self.marks = [[""] * columns for _ in range(rows)]
        self.pen, self.color = set(), ""
        self.is_other = False
        self.mouse = set()
        self.colors = 0
        self.used = set()

    def resize(self, rows, columns):
        super().resize(rows, columns)
        if hasattr(self, "marks"):
            self.marks = [[""] * columns for _ in range(rows)]
            self.row = self.column = 0

    def sequence(self, data):
        found = self.SEQUENCE.match(data)
        if not found:
            assert len(data) < 12, f"the terminal doesn't know {data[:12]!r}"
            return 0
        private, numbers, what = found.groups()
        if private:
            self.set_mode(numbers + what)
        else:
            self.obey(what, [int(number) for number in numbers.split(b";") if number] or [0] * (what == b"m"))
        return found.end()

    def set_mode(self, what):
        if what in (b"2004h", b"2004l"):
            self.marks_pastes = what == b"2004h"
        elif what in (b"1000h", b"1000l", b"1006h", b"1006l"):
            self.mouse = self.mouse | {what[:4]} if what.endswith(b"h") else self.mouse - {what[:4]}
        elif what in (b"1049h", b"1049l"):
            self.is_other = what == b"1049h"
            self.clear(0)
        else:
            raise AssertionError(f"the terminal doesn't know {what!r}")

    def obey(self, what, numbers):
        if what == b"H":
            self.row, self.column = (numbers[0] - 1, numbers[1] - 1) if numbers else (0, 0)
        elif what == b"m":
            while numbers:
                numbers = numbers[self.draw_by(numbers) :]
        elif what in (b"J", b"K"):
            column = min(self.column, self.columns)
            self.cells[self.row][column:] = [" "] * (self.columns - column)
            self.marks[self.row][column:] = [""] * (self.columns - column)
            if what == b"J":
                self.clear(self.row + 1)
        else:
            raise AssertionError(f"the terminal doesn't know {what!r}")

    def clear(self, row):
        for at in range(row, self.rows):
            self.cells[at] = [" "] * self.columns
            self.marks[at] = [""] * self.columns

    def draw_by(self, numbers):
        """Sets the pen by the first number, or by three of them, and tells how many they were."""
        number = numbers[0]
        if number == 0:
            self.pen, self.color = set(), ""
        elif number in (1, 2, 4, 7):
            self.pen.add({1: "b", 2: "d", 4: "u", 7: "r"}[number])
        elif number == 24:
            self.pen.discard("u")
        elif 30 <= number <= 39:
            self.color = "" if number == 39 else str(numbers[2] if number == 38 else number - 30)
            self.colors += number != 39
            self.used |= {self.color} - {""}
        elif number == 49:
            self.pen.discard("l")
        elif 40 <= number <= 48:
            self.pen.add("l")
        else:
            raise AssertionError(f"the terminal doesn't know m {number}")
        return 3 if number in (38, 48) else 1

    def character(self, data):
        if data[0] == 8:
            self.column = max(self.column - 1, 0)
            return 1
        return super().character(data)

    def put(self, character):
        row, column = self.row, self.column
        if column >= self.columns:
            row, column = min(row + 1, self.rows - 1), 0
        super().put(character)
        for at in range(column, min(self.column, self.columns)):
            self.marks[row][at] = "".join(sorted(self.pen)) + self.color

    def line(self, number):
        """A row: `[x]` is reversed, `{x}` bold and of the color of bytes that came, `(x)` underlined, as where some went, and `<x>` on another
        ground, as what a search finds. `~x~` is struck through."""
        shown = ""
        for cell, marks in zip(self.cells[number], self.marks[number]):
            color = marks.lstrip("bdlru")
            if STROKE in cell:
                cell = f"~{cell.replace(STROKE, '')}~"
            if "r" in marks:
                cell = f"[{cell}]"
            if "b" in marks and (color in CAME or self.colors == 0):
                cell = f"{{{cell}}}"
            if "u" in marks and cell:
                cell = f"({cell})"
            if "l" in marks and cell:
                cell = f"<{cell}>"
            shown += cell
        return shown.replace("~~", "").replace("}{", "").replace("][", "").replace(")(", "").replace("><", "").rstrip()

    def plain(self, number):
        return "".join(self.cells[number]).rstrip()

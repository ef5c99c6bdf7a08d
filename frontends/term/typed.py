"""The string that is typed, as keys should leave it, and the rows that it should have on a screen."""

LEFT, RIGHT, HOME, END, DEL, DELETE = b"\x1b[D", b"\x1b[C", b"\x1b[H", b"\x1b[F", b"\x7f", b"\x1b[3~"
CONTROL_U, CONTROL_W, CONTROL_K = b"\x15", b"\x17", b"\x0b"
TAB_STOP = 8


def character(text, at):
    """The character that begins at a place, or the number of a byte that begins none; and how many bytes it has."""
    for size in range(1, 5):
        try:
            return text[at : at + size].decode(), size
        except UnicodeDecodeError:
            pass
    return "\\x%02X" % text[at], 1


class Typed:
    def __init__(self):
        self.text, self.cursor = b"", 0

    def cut(self, begin, end):
        self.text, self.cursor = self.text[:begin] + self.text[end:], begin

    def line(self, at):
        """Where the line of a place begins and ends."""
        end = self.text.find(b"\n", at)
        return self.text.rfind(b"\n", 0, at) + 1, len(self.text) if end < 0 else end

    def before(self):
        """Where the character before the cursor begins."""
        begins = [at for at in range(max(self.cursor - 4, 0), self.cursor) if character(self.text[: self.cursor], at)[1] == self.cursor - at]
        return min(begins, default=0)

    def behind(self):
        return self.cursor + (character(self.text, self.cursor)[1] if self.cursor < len(self.text) else 0)

    def word(self):
        """Where the word before the cursor begins."""
        at = len(self.text[: self.cursor].rstrip(b" \t\n"))
        begin = at
        while begin > 0 and (self.text[begin - 1 : begin].isalnum() or self.text[begin - 1] >= 128):
            begin -= 1
        return begin if begin < at else max(at - 1, 0)

    def press(self, key):
        cursor, end = self.cursor, len(self.text)
        first, last = self.line(cursor)
        if key == LEFT:
            self.cursor = self.before()
        elif key == RIGHT:
            self.cursor = self.behind()
        elif key == HOME:
            self.cursor = first if first < cursor else 0
        elif key == END:
            self.cursor = last if last > cursor else end
        elif key == DEL:
            self.cut(max(cursor - 1, 0), cursor)
        elif key == DELETE:
            self.cut(cursor, self.behind())
        elif key == CONTROL_U:
            self.cut(self.line(max(cursor - 1, 0))[0], cursor)
        elif key == CONTROL_W:
            self.cut(self.word(), cursor)
        elif key == CONTROL_K:
            self.cut(cursor, last + (last == cursor < end))
        else:
            key = key.replace(b"\r", b"\n")
            self.text, self.cursor = self.text[:cursor] + key + self.text[cursor:], cursor + len(key)

    def rows(self, columns):
        """The rows from the prompt on, with `_` where the cursor is."""
        rows, at = ["*"], 0
        width = [1]

        def put(cell, wide=1):
            if width[-1] + wide > columns:
                rows.append("")
                width.append(0)
            rows[-1] += cell
            width[-1] += wide
            if width[-1] == columns:
                rows.append("")
                width.append(0)

        while at < len(self.text):
            if at == self.cursor:
                rows[-1] += "\0"
            shown, size = character(self.text, at)
            if shown == "\n":
                rows.append("")
                width.append(0)
            elif shown == "\t":
                put(" ")
                while width[-1] % TAB_STOP:
                    put(" ")
            elif len(shown) == 1 and ord(shown) < 32:
                for cell in "$" if shown == "\x1b" else "^" + chr(ord(shown) ^ 64):
                    put(cell)
            elif "\u3000" <= shown <= "\uff60":
                put(shown, 2)
            else:
                for cell in shown:
                    put(cell)
            at += size
        if self.cursor == len(self.text):
            rows[-1] += "\0"
        return [row.replace("\0", "_").rstrip(" ") for row in rows]

    def are_shown(self, seen, rows, columns):
        """Whether what is seen on a screen of so many rows is the string, so far as there is room for it."""
        wanted = self.rows(columns)
        pages = ["\n".join(wanted[top : top + rows]) for top in range(len(wanted))]
        return any(page.rstrip() == seen.rstrip() for page in pages if "_" in page)

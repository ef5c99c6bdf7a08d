"""The numbers of teco.h that have a name."""

import enum


class Code(enum.Enum):
    """Why a command string ended before its end. Its name has the three letters that the programs print, and `value` is its number.

    >>> print(Code.SRH)
    SRH, the search found nothing
    >>> Code(22)
    <Code.SRH: 22>
    """

    sentence: str

    def __new__(cls, number: int, sentence: str) -> "Code":
        code = object.__new__(cls)
        code._value_ = number
        code.sentence = sentence
        return code

    def __str__(self) -> str:
        return f"{self.name}, {self.sentence}"

    ARG = 1, "wrong argument, or wrong arithmetic"
    BNI = 2, "> without its iteration"
    CPQ = 3, "nothing on the push-down list"
    DTB = 4, "delete past the buffer"
    ICE = 5, "search text not allowed"
    IIA = 6, "insert with argument and text"
    ILL = 7, "no such command"
    IPA = 8, "P with a number of at most 0"
    IQC = 9, "no such test"
    IQN = 10, "no such register"
    ISA = 11, "search count not allowed"
    ISS = 12, "no search text yet"
    MRP = 13, "parenthesis open at a command"
    NAE = 14, "no number before ="
    NAQ = 15, "no number before a test"
    NAU = 16, "no number before U"
    OVF = 17, "number out of range"
    DVZ = 18, "division by zero"
    PDO = 19, "too many open or pushed"
    POP = 20, "place outside the buffer"
    SNI = 21, "; without an iteration"
    SRH = 22, "the search found nothing"
    TAG = 23, "no such tag to go to"
    UTC = 24, "text ends inside a command or block"
    YCA = 25, "page would replace a nonempty buffer"
    BIG = 26, "a text or the output past its limit"
    LIM = 27, "step limit"
    MEM = 28, "memory refused"
    TTY = 29, "terminal failed"
    NTU = 30, "nothing to undo"
    NTR = 31, "nothing to redo"
    END = 32, "session is done"


class Kind(enum.Enum):
    """What a change of a string is for."""
    SPLICE = 1
    """Bytes of the buffer's text, and the pointer."""
    POINT = 2
    """The pointer."""
    NUMBER = 3
    """The number of a register."""
    TEXT = 4
    """The text of a register."""
    PUSH = 5
    """The push-down list."""
    POP = 6
    """The push-down list, and the number and the text of a register."""
    PAGES = 7
    """The place in the input, the end of the output, and whether a form feed ended the page."""
    SEARCH = 8
    """The last search text."""
    FOUND = 9
    """Whether the last search found."""
    DONE = 10
    """Whether an exit has ended the session."""
    MODE = 11
    """Whether searches find a letter in either case."""


class TokenKind(enum.Enum):
    """What a token of a command string is."""
    DIGITS = 1
    """A run of digits."""
    VALUE = 2
    """A value, as `Z`."""
    ARITHMETIC = 3
    """An operator, a parenthesis, a comma or `H`."""
    LEVEL = 4
    """`A` or a backslash: a value or a command."""
    COMMAND = 5
    """A command without a name or a text, as `J`."""
    REGISTER = 6
    """A command with the name of a register, as `QA`."""
    BYTE = 7
    """`^^` and a byte."""
    TEXT = 8
    """A command with a text, as `I`."""
    JUMP = 9
    """A jump to a tag."""
    SET_TEXT = 10
    """`^U`, with the name of a register and a text."""
    REPLACE = 11
    """`FS`, with two texts."""
    MARK = 12
    """A mark of a block: `<`, `>`, `|` or `'`."""
    TEST = 13
    """A quotation mark with the letter of a test."""
    TAG = 14
    """A tag between two exclamation marks."""
    ESCAPE = 15
    """ESC between tokens."""


class Entry(enum.IntEnum):
    """What a line of the file of a session records."""
    RAN = 1
    UNDID = 2
    REDID = 3
    REWOUND = 4
    FORGOT = 5

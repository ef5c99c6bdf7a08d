"""The kind of each byte of a file of command strings, by the tokens of the library: what the colors of an editor are compared with."""
import teco
from teco import TokenKind as Kind

ESC = 27
CARETS = {ord("$"): ord("$"), ord("!"): ord("!"), ord("~"): ord("^"), ord("="): ord("^"), ord("?"): 127, ord("`"): ord("'")}
BLANKS = b" \t\r"
# The color of each token that has one alone, by its kind.
PLAIN = {Kind.DIGITS: "number", Kind.VALUE: "value", Kind.ARITHMETIC: "operator", Kind.LEVEL: "command", Kind.COMMAND: "command",
         Kind.BYTE: "byte", Kind.MARK: "loop", Kind.TEST: "test", Kind.TAG: "tag", Kind.ESCAPE: "escape"}
# Tokens of one byte that have another one.
OTHER = {b"H": "value", b";": "loop", b"|": "test", b"'": "test"}
# What asks for an undo, a redo or a rewind: a string of its own, and no token.
UNDOS = b"{}~"
LONG_NAMES = (b"FS", b"PW", b"EX", b"==")


def after_caret(byte):
    """The byte for which a caret and this byte stand, or None where they stand for nothing."""
    if byte == ord("."):
        return None
    return CARETS.get(byte, byte & 31)


def comment_end(source, at, is_text):
    """The end of the comment that begins at a place, or the place itself."""
    begins = source[at : at + 2] == b"!!" and not is_text or at == 0 and source[:2] == b"#!"
    return (source + b"\n").index(b"\n", at) if begins else at


def read_source(source):
    """The bytes for which a source stands, each as (byte, begin, end) in the source; and what stands for none, as (kind, begin, end)."""
    read, blanks, none = [], [], []
    is_margin, is_text, at = True, False, 0
    while at < len(source):
        byte, end = source[at], comment_end(source, at, is_text)
        if end > at:
            none.append(("comment", at, end))
        elif byte == ord("\n"):
            end, blanks, is_text = at + 1, [], False
            is_margin = not (read and read[-1][0] == ord("\n"))
        elif byte in BLANKS:
            end, is_text = at + 1, False
            if not is_margin:
                blanks.append((byte, at, end))
        else:
            end = at + 1 + (byte == ord("^"))
            made = after_caret(source[at + 1]) if byte == ord("^") else ESC if byte == ord("$") else byte
            read, blanks = read + blanks, []
            (none if made is None else read).append((made, at, end))
            is_margin, is_text = False, True
        at = end
    return read, none


def name_end(text, at):
    """The place after the name of the command that begins here."""
    if text[at : at + 2].upper() in LONG_NAMES:
        return at + 2
    return at + 1 + (text[at] == ord("^"))


def parts_of(text, token):
    """The parts of a token, each as (end, kind), from its first byte on."""
    named = token.start
    while text[named] in b"@:":
        named += 1
    yield named, "modifier"
    if token.kind in PLAIN:
        yield token.end, OTHER.get(text[token.start : token.end].upper(), PLAIN[token.kind])
        return
    end = name_end(text, named)
    yield end, "command"
    if token.kind in (Kind.REGISTER, Kind.SET_TEXT):
        end += 1
        yield end, "register"
    if token.kind is Kind.REGISTER:
        return
    if b"@" in text[token.start : named]:
        end += 1
        yield end, "delimiter"
    last = token.end - 1 - token.size
    if token.kind is Kind.REPLACE:
        yield last - 1, "text"
        yield last, "delimiter"
    yield token.end - 1, "jump" if token.kind is Kind.JUMP else "text"
    yield token.end, "delimiter"


def kinds_of_text(text):
    """The kind of each byte of command strings, or an empty one between tokens."""
    kinds, at = [""] * len(text), 0
    while True:
        try:
            token = teco.token(text, at)
        except teco.TokenError as fault:
            if text[fault.at] not in UNDOS:
                raise ValueError(f"no token is read at {fault.at}: {text[fault.at:fault.at + 20]}") from fault
            kinds[fault.at], at = "undo", fault.at + 1
            continue
        if token is None:
            return kinds
        begin = token.start
        for end, kind in parts_of(text, token):
            kinds[begin:end] = [kind] * (end - begin)
            begin = end
        at = token.end


def kinds_of(data, is_source):
    """The kind of each byte of a file: an empty one where it is in no token and no comment, and None where no color would be seen."""
    if not is_source:
        return kinds_of_text(data)
    read, none = read_source(data)
    text = bytes(byte for byte, _, _ in read)
    if text != teco.source(data):
        raise ValueError("the library reads other bytes of this source")
    kinds = [None if byte in BLANKS else "" for byte in data]
    for kind, (_, begin, end) in zip(kinds_of_text(text), read):
        kinds[begin:end] = [kind] * (end - begin)
    for kind, begin, end in none:
        kinds[begin:end] = [kind] * (end - begin)
    return kinds

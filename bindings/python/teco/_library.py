"""The calls of teco.h, and the shared library that has them."""

import ctypes
import os
from ctypes import POINTER, c_int32, c_size_t, c_uint8, c_uint64, c_void_p

# The place of a string that ended successfully, or of which none is known.
NOWHERE = c_size_t(-1).value
# So many calls of macros are open at most.
MOST_CALLS = 32


class Handle(ctypes.Structure):
    """A session; closed if it is all zero."""
    _fields_ = [("at", c_void_p)]


class StopperHandle(ctypes.Structure):
    """One of the two handles of a stopper; closed if it is all zero."""
    _fields_ = [("at", c_void_p)]


class OpenCall(ctypes.Structure):
    """A call of a macro that is open."""
    _fields_ = [("at", c_size_t), ("name", c_uint8)]


class Run(ctypes.Structure):
    """What a run is passed, and its results."""
    _fields_ = [("limit", c_uint64), ("stopper", StopperHandle), ("room", c_void_p), ("room_size", c_size_t), ("frames", c_void_p),
                ("frames_size", c_size_t), ("made", c_size_t), ("steps", c_uint64), ("at", c_size_t), ("inner", c_size_t),
                ("calls", c_size_t)]


class FoundToken(ctypes.Structure):
    """A token of a text."""
    _fields_ = [("from", c_size_t), ("to", c_size_t), ("kind", c_uint8), ("size", c_size_t)]


class ReadSource(ctypes.Structure):
    """How a source was read."""
    _fields_ = [("made", c_size_t), ("line", c_uint64), ("column", c_uint64)]


class MadeChange(ctypes.Structure):
    """A change of a string."""
    _fields_ = [("kind", c_uint8), ("name", c_uint8), ("step", c_uint64)]


class MadeSplice(ctypes.Structure):
    """The bytes of a change of the text."""
    _fields_ = [("at", c_size_t), ("gone", c_size_t), ("came", c_size_t)]


Check = c_uint8 * 16


class Line(ctypes.Structure):
    """A line of the file of a session."""
    _fields_ = [("kind", c_uint8), ("steps", c_uint64), ("check", Check), ("room", c_void_p), ("room_size", c_size_t), ("made", c_size_t)]


class Resumed(ctypes.Structure):
    """How the file of a session was read."""
    _fields_ = [("check", Check), ("good", c_size_t), ("records", c_size_t), ("lines", c_size_t), ("ending", c_uint8)]


def _calls():
    """The arguments of each call. A text and a room are a place and a size."""
    size, word = POINTER(c_size_t), POINTER(c_uint64)
    room = text = (c_void_p, c_size_t)
    session, stopper = POINTER(Handle), POINTER(StopperHandle)
    looks = {
        "strings": (size,), "cursor": (size,), "steps": (c_size_t, word), "string": (c_size_t, *room, size),
        "changes": (c_size_t, size), "change": (c_size_t, c_size_t, POINTER(MadeChange)),
        "splice": (c_size_t, c_size_t, POINTER(MadeSplice)), "length": (size,), "pointer": (size,), "lines": (c_size_t, c_size_t, size),
        "text": (c_size_t, *room, size),
        "output": (c_size_t, *room, size), "input": (c_size_t, *room, size), "number": (c_uint8, POINTER(c_int32)),
        "register": (c_uint8, *room, size), "search": (*room, size), "pushed": (size,), "place": (size,),
        "done": (), "found": (), "form_feed": (), "either_case": (), "is_wide": (),
    }
    requests = {
        "open": (*text, c_size_t, c_size_t), "open_wide": (*text, c_size_t, c_size_t), "resume": (*text, POINTER(Resumed)),
        "run": (*text, POINTER(Run)),
        "undo": (), "redo": (), "rewind": (c_uint64,), "forget": (), "close": (),
    }
    others = {
        "token": (*text, c_size_t, POINTER(FoundToken)), "token_wide": (*text, c_size_t, POINTER(FoundToken)),
        "source": (*text, *room, POINTER(ReadSource)), "head": (*text, c_size_t, c_size_t, POINTER(Line)),
        "head_wide": (*text, c_size_t, c_size_t, POINTER(Line)), "record": (*text, POINTER(Line)),
        "stopper_open": (stopper, stopper), "stopper_close": (stopper,), "stop": (stopper, c_uint8),
    }
    return {**{name: (session, *arguments) for name, arguments in {**looks, **requests}.items()}, **others}


def _load() -> ctypes.CDLL:
    path = os.environ.get("TECO_SHARED") or os.path.join(os.path.dirname(os.path.abspath(__file__)), "libteco.so")
    try:
        library = ctypes.CDLL(path)
        for name, arguments in _calls().items():
            call = getattr(library, "teco_" + name)
            call.argtypes, call.restype = arguments, None if name.endswith("close") else c_uint8
    except (OSError, AttributeError) as reason:
        raise ImportError(f"no library of this version: {reason}; TECO_SHARED can name another one", path=path) from reason
    return library


library = _load()


class Room:
    """So many bytes that a call may write, and one more, so that there is a place also where the size is 0."""
    __slots__ = ("size", "place", "_bytes")

    def __init__(self, size: int) -> None:
        self.size, self._bytes = size, bytearray(size + 1)
        self.place = ctypes.addressof(c_uint8.from_buffer(self._bytes))

    def front(self, size: int) -> bytes:
        """The first bytes."""
        return bytes(memoryview(self._bytes)[:size])

"""Whether bytes begin with a value of a type, in the default layout of bincode 1, by a proved reader.

    import wincode
    wincode.check("Vec<(u64, String)>", b"\\0" * 8)       # Checked(length=8, parts=1, behind=0)
    wincode.check("bool", b"\\2")                         # raises wincode.Refused: Invalid bool encoding: 2 at offset 0

`make` builds the shared object `libwincode.so`, which stands beside this file; WINCODE_SO names another."""
import ctypes
import os
from collections import namedtuple

Checked = namedtuple("Checked", "length parts behind")


class Report(ctypes.Structure):
    _fields_ = [(name, ctypes.c_size_t) for name in ("length", "parts", "behind", "place", "first", "second", "depth")]


class Refused(ValueError):
    """No value was read: `number` as in wincode.h; `offset` and `depth` of the part that was refused; the reader's `place`."""

    def __init__(self, number, report):
        super().__init__(f"{_message(number, report)} at offset {report.length}")
        self.number, self.offset, self.place, self.depth = number, report.length, report.place, report.depth


class NoType(ValueError):
    """A text describes no type; `at` is the byte of it where something else is wanted."""

    def __init__(self, number, at):
        super().__init__("out of memory" if number == -4 else f"no type at byte {at}")
        self.at = at


_library = ctypes.CDLL(os.environ.get("WINCODE_SO", os.path.join(os.path.dirname(os.path.abspath(__file__)), "libwincode.so")))
_bytes = [ctypes.c_char_p, ctypes.c_size_t]
for _name in ("wincode_check", "wincode_check_exact"):
    getattr(_library, _name).argtypes = [*_bytes, *_bytes, ctypes.POINTER(Report)]
_library.wincode_message.argtypes = [ctypes.c_int32, ctypes.c_size_t, ctypes.c_size_t, *_bytes, ctypes.POINTER(ctypes.c_size_t)]


def _message(number, report):
    room, length = ctypes.create_string_buffer(256), ctypes.c_size_t()
    _library.wincode_message(number, report.first, report.second, room, len(room), ctypes.byref(length))
    return room.raw[: length.value].decode()


def _read(call, text, data):
    report, text, data = Report(), text.encode(), bytes(data)
    number = call(text, len(text), data, len(data), ctypes.byref(report))
    if number < 0:
        raise NoType(number, report.place)
    if number > 0:
        raise Refused(number, report)
    return Checked(report.length, report.parts, report.behind)


def check(text, data):
    """The value of the type at the front of the bytes."""
    return _read(_library.wincode_check, text, data)


def check_exact(text, data):
    """The value of the type that is all of the bytes."""
    return _read(_library.wincode_check_exact, text, data)

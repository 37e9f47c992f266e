"""What is handed to a call: buffers where they lie, texts, and numbers.

A number that C has no room for becomes the nearest one that C has, which the library refuses as well: so a number of any size gets
the library's refusal, in its order.
"""

import ctypes
import sys
from collections.abc import Mapping, Set
from itertools import islice
from operator import index
from typing import TYPE_CHECKING, Any, Iterable, List, Tuple, Union

from . import _header as header
from ._library import Call
from ._stack import run


class Holder:
    """A class over a buffer: where a buffer is asked for, it stands for that one."""

    __slots__ = ("_buffer",)
    _buffer: Any


if TYPE_CHECKING:
    from _typeshed import ReadableBuffer

    Buffer = Union[ReadableBuffer, Holder]
elif sys.version_info >= (3, 12):
    from collections.abc import Buffer
else:

    class Buffer:
        """Anything with the buffer protocol, for annotations."""


Text = Union[str, Buffer]
Marks = Union[bytes, bytearray, memoryview, Iterable[int]]
Sheet = Union[bytes, bytearray, memoryview, Iterable[Tuple[int, int]]]


class _View(ctypes.Structure):
    """Py_buffer of CPython. All zero it holds nothing, and may be released."""

    _fields_ = [
        ("at", ctypes.c_void_p),
        ("owner", ctypes.c_void_p),
        ("length", ctypes.c_ssize_t),
        ("itemsize", ctypes.c_ssize_t),
        ("readonly", ctypes.c_int),
        ("ndim", ctypes.c_int),
        ("format", ctypes.c_void_p),
        ("shape", ctypes.c_void_p),
        ("strides", ctypes.c_void_p),
        ("suboffsets", ctypes.c_void_p),
        ("internal", ctypes.c_void_p),
    ]


_byref = ctypes.byref
_py_object = ctypes.py_object
_get_buffer = ctypes.pythonapi.PyObject_GetBuffer
_get_buffer.argtypes = (ctypes.py_object, ctypes.c_void_p, ctypes.c_int)
_release_buffer = ctypes.pythonapi.PyBuffer_Release
_release_buffer.argtypes = (ctypes.c_void_p,)
_release_buffer.restype = None
# False in an interpreter that runs without its lock.
_has_lock = getattr(sys, "_is_gil_enabled", lambda: True)


class Lent:
    """A buffer that is read in place: where it lies and how long it is, until it is given back."""

    __slots__ = ("_buffer", "_name", "_view")

    def __init__(self, buffer: Any, name: str) -> None:
        self._buffer, self._name, self._view = buffer, name, _View()

    def __enter__(self) -> _View:
        _lend(self._buffer, self._name, _byref(self._view))
        return self._view

    def __exit__(self, *_: object) -> None:
        _release_buffer(_byref(self._view))


def _lend(buffer: Any, name: str, view: Any) -> None:
    """Fills in the view of a buffer, which is then to be released."""
    if isinstance(buffer, Holder):
        buffer = buffer._buffer
    try:
        # Wrapped: ctypes would take what a py_object holds, which may be nothing, for the object that is meant.
        _get_buffer(_py_object(buffer), view, 0)
    except TypeError:
        raise TypeError(f"{name} must be bytes or another buffer, not {_kind(buffer)}") from None
    except (BufferError, ValueError) as error:
        if isinstance(error, ValueError) and "contiguous" not in str(error):  # NumPy says that so
            raise
        raise BufferError(f"{name} must lie in one piece: {error}") from None


def _kind(value: object) -> str:
    return type(value).__name__


def in_place(call: Call, before: Tuple[Any, ...], buffer: Any, name: str, after: Tuple[Any, ...]) -> int:
    """Makes a call that takes a buffer, where it lies, between other arguments.

    The lock of the interpreter is given up meanwhile, but for a buffer that can be written: another thread that wrote it during the
    call could make the library go astray, for it looks at the readings once and then trusts them. Where the interpreter has no lock,
    such a buffer is copied.
    """
    if isinstance(buffer, Holder):
        buffer = buffer._buffer
    if type(buffer) is bytes:
        return run(call.free, call.stack, (*before, buffer, len(buffer), *after))
    lent = _View()
    view = _byref(lent)
    try:
        _lend(buffer, name, view)
        function, at = call.free, lent.at
        if not lent.readonly:
            if _has_lock():
                function = call.locked
            else:
                at = ctypes.string_at(at, lent.length)
        return run(function, call.stack, (*before, at, lent.length, *after))
    finally:
        # Whatever was raised: a call that has begun is over, in whichever thread it was made.
        _release_buffer(view)


def copied(buffer: Any, name: str, most: int) -> bytes:
    """The first bytes of a buffer, so many at most."""
    with Lent(buffer, name) as view:
        return ctypes.string_at(view.at, min(view.length, most)) if view.length else b""


def text_bytes(text: Any) -> bytes:
    """The bytes of a text, of one that is too long as many as make it too long."""
    if isinstance(text, str):
        return str.encode(text[: header.MAX_TEXT + 1], "utf-8", "surrogatepass")
    if type(text) is bytes:
        return text
    try:
        return copied(text, "text", header.MAX_TEXT + 1)
    except TypeError:
        raise TypeError(f"text must be str, bytes or another buffer, not {_kind(text)}") from None


def whole(number: Any, name: str) -> int:
    """A whole number of any size."""
    try:
        return index(number)
    except TypeError:
        raise TypeError(f"{name} must be a whole number, not {_kind(number)}") from None


def signed(number: Any, name: str, bits: int) -> int:
    """A whole number as a signed one of so many bits."""
    most = (1 << (bits - 1)) - 1
    return max(-most - 1, min(whole(number, name), most))


def unsigned(number: Any, name: str, bits: int) -> int:
    """A whole number as an unsigned one of so many bits; a negative one becomes the greatest."""
    given, most = whole(number, name), (1 << bits) - 1
    return given if 0 <= given <= most else most


def _packed(value: Any) -> bool:
    """True of bytes as the C header has them, where numbers would do as well."""
    return isinstance(value, (bytes, bytearray)) or isinstance(value, memoryview) and value.itemsize == 1


def curve_number(curve: Any) -> int:
    """The number of a curve."""
    try:
        return unsigned(curve, "curve", 32)
    except TypeError:
        raise TypeError(f"curve must be mill.Curve.A or mill.Curve.B, or its number, not {_kind(curve)}") from None


def several(values: Any, name: str, wanted: str, most: int) -> List[Any]:
    """The values of an iterable, and one more than there may be where there are more. A text or a mapping is not meant, though it has
    some, or none."""
    if isinstance(values, (str, Mapping)):
        raise TypeError(f"{name} must be {wanted}, not {_kind(values)}")
    try:
        each = iter(values)
    except TypeError:
        raise TypeError(f"{name} must be {wanted}, not {_kind(values)}") from None
    try:
        return list(islice(each, most + 1))
    except NotImplementedError as error:  # a memoryview of more than one dimension
        raise TypeError(f"{name} must be {wanted}: {error}") from None


def mark_bytes(marks: Any) -> bytes:
    """Marks as the calls take them; of too many as many as make them too many."""
    if _packed(marks):
        return copied(marks, "marks", header.MARK_BYTES * (header.MAX_MARKS + 1))
    each = several(marks, "marks", "whole numbers or bytes", header.MAX_MARKS)
    return b"".join(unsigned(mark, "a mark", 32).to_bytes(header.MARK_BYTES, "little") for mark in each)


def sheet_bytes(sheet: Any) -> bytes:
    """An order sheet as the calls take it; of one that is too long as much as makes it too long."""
    if _packed(sheet):
        return copied(sheet, "sheet", header.LINE_BYTES * (header.MAX_LINES + 1))
    return b"".join(map(_line, several(sheet, "sheet", "pairs of pigments or bytes", header.MAX_LINES)))


def _line(line: Any) -> bytes:
    try:
        if isinstance(line, (Mapping, Set)):  # which has no earlier and later
            raise TypeError
        earlier, later = line
    except (NotImplementedError, TypeError, ValueError):
        raise TypeError("a line of a sheet must be two pigments, the earlier and the later") from None
    return bytes((unsigned(earlier, "a pigment", 8), unsigned(later, "a pigment", 8)))

"""The calls on a recording, in the header's order."""

import ctypes
from enum import IntEnum
from typing import NamedTuple, Optional

from . import _header as header
from ._arguments import Buffer, Marks, Sheet, Text, curve_number, in_place, mark_bytes, sheet_bytes, signed, text_bytes
from ._library import library
from ._outputs import Out32, OutDouble, OutSigned32, SetRoom, thinned_room, written
from ._refusal import result
from ._sets import Run, Set
from ._stack import run

_QUESTION = library.call("mill_question")
_DEGREE = library.call("mill_degree")
_PAIR = library.call("mill_pair")
_THIN = library.call("mill_thin")
_BAND = library.call("mill_band")
_ORDER = library.call("mill_order")
_LAB_QUESTION = library.call("mill_lab_question")
_LAB_DEGREE = library.call("mill_lab_degree")
_LAB_PAIR = library.call("mill_lab_pair")

_byref = ctypes.byref


class Curve(IntEnum):
    """A curve of a recording: A is the batch, B the master.

    >>> mill.pair(recording, mill.Curve.A, 40)
    Pair(earlier=30, later=70)
    """

    A = header.CURVE_A
    B = header.CURVE_B


class Degree(NamedTuple):
    """How near the numbers of a question's set come to a wanted one.

    `met` says whether the wanted one is among them: then `distance` is 0 and `degree` 1. Else `distance` is that of the nearest and
    `degree` is 1 / (1 + distance); both are None where the set is empty.

    >>> mill.degree(recording, "peaks(A)", 51)
    Degree(met=False, distance=19, degree=0.05)
    """

    met: bool
    distance: Optional[int]
    degree: Optional[float]


class Pair(NamedTuple):
    """The times of two tops.

    >>> earlier, later = mill.pair(recording, mill.Curve.A, 40)
    >>> later - earlier
    40
    """

    earlier: int
    later: int


class Band(NamedTuple):
    """What a question says of readings that are good to plus or minus some units: the numbers with which it is true of every curve
    within the band, and those with which it is true of at least one. None is the empty set.

    >>> mill.band(recording, "ampl(A)", 100).possible.high
    260
    """

    certain: Optional[Run]
    possible: Optional[Run]


class Broken(NamedTuple):
    """Where an order sheet is broken: the time of the first reading whose addition breaks a line, and the first line, from 0, that it
    breaks.

    >>> added = mill.Recording([mill.Reading(10, 0, 0, pigment=2), mill.Reading(20, 0, 0, pigment=1)])
    >>> mill.order(added, [(2, 1), (1, 2)])
    Broken(time=10, line=1)
    """

    time: int
    line: int


def question(recording: Buffer, text: Text) -> Set:
    """The set of all whole numbers that make the text true of the recording.

    Refused by 1, 2, 3, 4, 5, 6, 7, 9, 8.

    >>> mill.question(recording, "peaks(A)")
    <mill.Set 30, 70>
    """
    asked, out = text_bytes(text), SetRoom()
    returned = in_place(_QUESTION, (), recording, "recording", (asked, len(asked), out, header.SET_BYTES))
    return Set._written(written(out, returned))


def degree(recording: Buffer, text: Text, target: int) -> Degree:
    """How near the text's set comes to the target, a number of the axis.

    Refused by 1, 2, 3, 4, 5, 6, 7, 12, 9, 8.

    >>> mill.degree(recording, "peaks(A)", 30)
    Degree(met=True, distance=0, degree=1.0)
    >>> mill.degree(recording, "lag", 30)
    Degree(met=False, distance=None, degree=None)
    """
    asked, wanted, distance, near = text_bytes(text), signed(target, "target", 64), OutDouble(), OutDouble()
    after = (asked, len(asked), wanted, _byref(distance), _byref(near))
    return _nearness(in_place(_DEGREE, (), recording, "recording", after), distance, near)


def _nearness(returned: int, distance: ctypes.c_double, near: ctypes.c_double) -> Degree:
    told = result(returned)
    if told == header.MET:
        return Degree(True, 0, 1.0)
    return Degree(False, int(distance.value), near.value) if told == header.SHORT else Degree(False, None, None)


def pair(recording: Buffer, curve: int, target: int) -> Optional[Pair]:
    """The first two tops of the curve whose times lie `target` apart, None where there are none.

    Refused by 1, 2, 3, 4, 12, 9.

    >>> mill.pair(recording, mill.Curve.A, 40)
    Pair(earlier=30, later=70)
    >>> mill.pair(recording, mill.Curve.A, 41) is None
    True
    """
    number, wanted, earlier, later = curve_number(curve), signed(target, "target", 64), Out32(), Out32()
    found = result(in_place(_PAIR, (), recording, "recording", (number, wanted, _byref(earlier), _byref(later))))
    return Pair(earlier.value, later.value) if found == header.PAIR else None


def thin(recording: Buffer, marks: Marks = ()) -> bytes:
    """The kept readings of the recording under the marks, up to 8 after-times. `Thinning` does the same piece by piece.

    A question that has none of F, G, X, U and W, and whose after-times are among the marks, gets of them what it gets of the recording.
    Marks are numbers, or bytes as the C header has them. Refused by 1, 2, 3, 11.

    >>> kept = mill.thin(recording, [40])
    >>> mill.question(kept, "lowafter(A,40)") == mill.question(recording, "lowafter(A,40)")
    True
    """
    packed, out = mark_bytes(marks), thinned_room(recording)
    returned = in_place(_THIN, (), recording, "recording", (packed, len(packed), out, len(out)))
    return written(out, returned)


def band(recording: Buffer, text: Text, e: int) -> Band:
    """What the text, one question on extremes alone, says of every curve within `e` units of the recording, and of at least one.

    Refused by 1, 2, 3, 4, 5, 6, 7, 16, 17.

    >>> band = mill.band(recording, "high(A)", 5)
    >>> band.certain.high, band.possible.high
    (85, 95)
    """
    asked, width = text_bytes(text), signed(e, "e", 64)
    ends = [OutSigned32() for _ in range(4)]
    bits = result(in_place(_BAND, (), recording, "recording", (asked, len(asked), width, *map(_byref, ends))))
    low, high, lowest, highest = (end.value for end in ends)
    certain = Run(low, high) if bits & header.CERTAIN else None
    return Band(certain, Run(lowest, highest) if bits & header.POSSIBLE else None)


def order(recording: Buffer, sheet: Sheet) -> Optional[Broken]:
    """Whether the additions keep to an order sheet, lines of two pigments, the first before the second: None, or where it is broken.

    A sheet is pairs of numbers, or bytes as the C header has them. Refused by 1, 2, 3, 4, 13.

    >>> added = mill.Recording([mill.Reading(10, 0, 0, pigment=2), mill.Reading(20, 0, 0, pigment=1)])
    >>> mill.order(added, [(2, 1)]) is None
    True
    >>> mill.order(added, [(1, 2)])
    Broken(time=10, line=0)
    """
    lines, time, line = sheet_bytes(sheet), Out32(), Out32()
    told = result(in_place(_ORDER, (), recording, "recording", (lines, len(lines), _byref(time), _byref(line))))
    return Broken(time.value, line.value) if told == header.SHEET_BROKEN else None


def lab_question(recording: Buffer, marks: Marks, text: Text) -> Set:
    """As `question`, for a buyer's laboratory, which is not to learn the master's curve.

    The marks are those with which the readings were thinned: with others nothing is promised. Refused by 1, 2, 3, 4, 5, 6, 7, 11, 14, 9, 8.

    >>> kept = mill.thin(recording, [40])
    >>> 45 in mill.lab_question(kept, [40], "lowafter(A,40)")
    True
    >>> mill.lab_question(kept, [40], "high(B)")
    Traceback (most recent call last):
    mill.Refusal: a laboratory may not ask this (refusal 14)
    """
    packed, asked, out = mark_bytes(marks), text_bytes(text), SetRoom()
    after = (packed, len(packed), asked, len(asked), out, header.SET_BYTES)
    return Set._written(written(out, in_place(_LAB_QUESTION, (), recording, "recording", after)))


def lab_degree(recording: Buffer, marks: Marks, text: Text, target: int) -> Degree:
    """As `degree`, for a laboratory. Refused by 1, 2, 3, 4, 5, 6, 7, 11, 14, 12, 9, 8.

    >>> mill.lab_degree(recording, [], "peaks(A)", 51)
    Degree(met=False, distance=19, degree=0.05)
    """
    packed, asked, wanted = mark_bytes(marks), text_bytes(text), signed(target, "target", 64)
    distance, near = OutDouble(), OutDouble()
    after = (packed, len(packed), asked, len(asked), wanted, _byref(distance), _byref(near))
    return _nearness(in_place(_LAB_DEGREE, (), recording, "recording", after), distance, near)


def lab_pair(recording: Buffer, curve: int, target: int) -> Optional[Pair]:
    """As `pair`, for a laboratory. Refused by 1, 2, 3, 4, 12, 14, 9.

    >>> mill.lab_pair(recording, mill.Curve.A, 40)
    Pair(earlier=30, later=70)
    """
    number, wanted, earlier, later = curve_number(curve), signed(target, "target", 64), Out32(), Out32()
    found = result(in_place(_LAB_PAIR, (), recording, "recording", (number, wanted, _byref(earlier), _byref(later))))
    return Pair(earlier.value, later.value) if found == header.PAIR else None


def assured(text: Text, marks: Marks = ()) -> bool:
    """Whether kept readings answer this text as the recording did, under these marks; False promises nothing.

    Refused by 5, 6, 7, 11. Raises LibraryError where the library is older than 1.1.0.

    >>> mill.assured("capafter(A,2000)", [2000])
    True
    """
    call, asked, packed = library.call("mill_assured"), text_bytes(text), mark_bytes(marks)
    return result(run(call.free, call.stack, (asked, len(asked), packed, len(packed)))) == header.ASSURED


def version() -> str:
    """The version of the library that is loaded; `mill.__version__` is that of this package.

    Raises LibraryError where the library is older than 1.1.0, which can't tell.

    >>> mill.version().count(".")
    2
    """
    call = library.call("mill_version")
    number = result(run(call.free, call.stack, ()))
    return f"{number >> 16}.{number >> 8 & 255}.{number & 255}"

"""A year of batches in figures."""

import ctypes
from typing import NamedTuple, Optional

from . import _header as header
from ._arguments import Buffer, Text, in_place, signed, text_bytes, unsigned
from ._library import library
from ._outputs import Out32, Out64, OutDouble
from ._refusal import result
from ._stack import run
from ._state import State

_START = library.call("mill_report_start")
_ADD = library.call("mill_report_add")
_byref = ctypes.byref


class Figures(NamedTuple):
    """What a report tells of its batches: how many met the target, how many had an empty set, the exact sum of the other distances,
    and the mean degree of all that had no empty set, None where there are none.

    >>> mill.Report(1, "lag", 40).add(recording)
    Figures(met=0, empty=1, distances=0, mean=None)
    """

    met: int
    empty: int
    distances: int
    mean: Optional[float]


class Report(State):
    """A report under way: one text and one target, put to a named count of recordings, 1 to 1,000.

    Refused by 15, 5, 6, 7, 12.

    >>> report = mill.Report(3, "peaks(A)", 70)
    >>> for batch in (recording, recording[:64], recording[:16]):
    ...     figures = report.add(batch)
    >>> figures.met, figures.empty, figures.distances
    (1, 1, 40)
    """

    __slots__ = ()
    _BYTES = header.REPORT_BYTES

    def __init__(self, count: int, text: Text, target: int) -> None:
        self._carry(bytes(header.REPORT_BYTES))
        named, asked, wanted = unsigned(count, "count", 32), text_bytes(text), signed(target, "target", 64)
        result(run(_START.free, _START.stack, (named, asked, len(asked), wanted, self._carried, self._size)))

    def add(self, recording: Buffer) -> Optional[Figures]:
        """Hands in the next recording: None, and the figures with the last of the named count.

        A recording that is refused stops the report: all that follow are refused with 15. Refused by 15, 1, 2, 3, 4, 9, 8.

        >>> report = mill.Report(2, "peaks(A)", 70)
        >>> report.add(recording) is None
        True
        >>> report.add(recording)
        Figures(met=2, empty=0, distances=0, mean=1.0)
        """
        met, empty, distances, mean = Out32(), Out32(), Out64(), OutDouble()
        after = (_byref(met), _byref(empty), _byref(distances), _byref(mean))
        with self._lock:
            returned = in_place(_ADD, (self._carried, self._size), recording, "recording", after)
        told = result(returned)
        if told == header.TAKEN:
            return None
        return Figures(met.value, empty.value, distances.value, mean.value if told == header.REPORT else None)

"""The set that a question is answered with."""

import struct
from bisect import bisect_right
from typing import Any, Iterator, NamedTuple, Optional, Tuple

from . import _header as header
from ._arguments import Buffer, copied

_RUN = struct.Struct("<ii")


class Run(NamedTuple):
    """The whole numbers from `low` to `high`, both included.

    >>> list(mill.Run(30, 32).numbers)
    [30, 31, 32]
    """

    low: int
    high: int

    @property
    def numbers(self) -> range:
        """The numbers of the run, ascending.

        >>> 7 in mill.Run(-1, 7).numbers
        True
        """
        return range(self.low, self.high + 1)


class Set:
    """All whole numbers that make a question true, as a question answers them.

    `in` asks for a number; `len` says how many numbers there are, and iterating gives them, ascending. `runs` are its maximal runs,
    ascending, at most 256.

    >>> tops = mill.question(recording, "peaks(A)")
    >>> 30 in tops, 50 in tops
    (True, False)
    >>> list(tops)
    [30, 70]
    >>> for run in tops.runs:
    ...     print(run.low, run.high)
    30 30
    70 70
    >>> len(mill.question(recording, "high(A)"))
    2000000091
    >>> bool(mill.question(recording, "lag"))
    False
    """

    __slots__ = ("_bytes", "_runs")
    _bytes: bytes
    _runs: Optional[Tuple[Run, ...]]

    def __init__(self) -> None:
        self._bytes, self._runs = b"", ()

    @classmethod
    def _written(cls, written: bytes) -> "Set":
        """The set of the bytes that the library wrote."""
        new = cls.__new__(cls)
        new._bytes, new._runs = written, None
        return new

    @classmethod
    def from_bytes(cls, runs: Buffer) -> "Set":
        """The set of these bytes of `to_bytes`. Others raise ValueError.

        >>> tops = mill.question(recording, "peaks(A)")
        >>> mill.Set.from_bytes(tops.to_bytes()) == tops
        True
        """
        written = copied(runs, "runs", header.SET_BYTES + 1)
        if len(written) % header.RUN_BYTES == 0 and len(written) <= header.SET_BYTES:
            new, before = cls._written(written), header.AXIS_LOW - 2
            for run in new.runs:
                if not before + 1 < run.low <= run.high <= header.AXIS_HIGH:
                    break
                before = run.high
            else:
                return new
        raise ValueError("runs must be those of a set: low and high in 4 bytes each, ascending, none touching the next")

    def to_bytes(self) -> bytes:
        """The set as the library writes it: 8 bytes a run, low and high, signed, little-endian.

        >>> mill.question(recording, "gaps(A)").to_bytes().hex()
        '2800000028000000'
        """
        return self._bytes

    @property
    def runs(self) -> Tuple[Run, ...]:
        """The runs of the set.

        >>> mill.question(recording, "peaks(A)").runs
        (Run(low=30, high=30), Run(low=70, high=70))
        """
        if self._runs is None:
            self._runs = tuple(map(Run._make, _RUN.iter_unpack(self._bytes)))
        return self._runs

    def __contains__(self, number: Any) -> bool:
        if isinstance(number, float) and number.is_integer():
            number = int(number)
        if not isinstance(number, int):
            try:
                number = number.__index__()
            except (AttributeError, TypeError):
                return False
        at = bisect_right(self.runs, (number, header.AXIS_HIGH))
        return at > 0 and number <= self.runs[at - 1].high

    def __iter__(self) -> Iterator[int]:
        for run in self.runs:
            yield from run.numbers

    def __len__(self) -> int:
        return sum(run.high - run.low + 1 for run in self.runs)

    def __bool__(self) -> bool:
        return bool(self._bytes)

    def __eq__(self, other: object) -> bool:
        return isinstance(other, Set) and self._bytes == other._bytes

    def __hash__(self) -> int:
        return hash(self._bytes)

    def __repr__(self) -> str:
        runs = ", ".join(str(run.low) if run.low == run.high else f"{run.low} to {run.high}" for run in self.runs)
        return f"<mill.Set {runs or 'empty'}>"

    def __reduce__(self) -> Tuple[Any, Tuple[bytes]]:
        return Set._written, (self._bytes,)

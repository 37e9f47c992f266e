"""Thinning piece by piece."""

import ctypes
import threading
from typing import Any, Tuple

from . import _header as header
from ._arguments import Buffer, Lent, Marks, copied, mark_bytes
from ._calls import thin
from ._recording import judge
from ._refusal import Refusal

_BYTES = header.RECORD_BYTES


class Thinning:
    """A recording of any length that is thinned piece by piece under these marks, up to 8.

    Pieces are whole readings, cut anywhere between two, each as long as one likes. What is held is what `thin` would keep of all pieces
    joined. Refused by 11, and by 1, 2, 3 where it goes on with readings that were held under these very marks.

    >>> thinning = mill.Thinning([40])
    >>> for at in range(0, len(recording), 48):
    ...     thinning.take(recording[at : at + 48])
    >>> thinning.held == mill.thin(recording, [40])
    True
    >>> later = mill.Thinning([40], held=mill.thin(recording[:64], [40]))
    >>> later.take(recording[64:])
    >>> later.held == thinning.held
    True
    """

    __slots__ = ("_held", "_lock", "_marks")

    def __init__(self, marks: Marks = (), held: Buffer = b"") -> None:
        judge(held, "held")
        self._marks = mark_bytes(marks)
        thin(b"", self._marks)
        self._held = copied(held, "held", header.MAX_RECORDS * _BYTES)
        self._lock = threading.RLock()

    @property
    def held(self) -> bytes:
        """The kept readings of all pieces taken so far.

        >>> mill.Thinning().held
        b''
        """
        return self._held

    @property
    def marks(self) -> Tuple[int, ...]:
        """The marks. Note them beside the kept readings: these do not tell them.

        >>> mill.Thinning([40, 70]).marks
        (40, 70)
        """
        size = header.MARK_BYTES
        return tuple(int.from_bytes(self._marks[at : at + size], "little") for at in range(0, len(self._marks), size))

    def take(self, piece: Buffer) -> None:
        """Takes the next piece. One that is refused is not taken at all, and what is held stays as it was.

        Refused by 1, by 3 with the index of the bad reading in the piece, and by 2 where over 4,095 readings must be held before another
        comes.

        >>> thinning = mill.Thinning()
        >>> thinning.take(recording[:64])
        >>> try:
        ...     thinning.take(recording[48:])
        ... except mill.Refusal as refusal:
        ...     print(refusal.number, refusal.place, len(thinning.held))
        3 0 64
        """
        with self._lock, Lent(piece, "piece") as view:
            if view.length % _BYTES:
                raise Refusal(header.PARTIAL_RECORD)
            held, taken = self._held, 0
            while taken < view.length:
                room = max(header.MAX_RECORDS - len(held) // _BYTES, 1) * _BYTES
                part = ctypes.string_at(view.at + taken, min(room, view.length - taken))
                held = self._joined(held, part, taken // _BYTES)
                taken += len(part)
            self._held = held

    def _joined(self, held: bytes, part: bytes, before: int) -> bytes:
        """What is kept of the readings held with a part of a piece behind them, that has so many of the piece before it."""
        try:
            return thin(held + part, self._marks)
        except Refusal as refusal:
            if refusal.number != header.BAD_RECORD:
                raise
            place = refusal.place - len(held) // _BYTES + before
            raise Refusal(header.BAD_RECORD, place) from None

    def copy(self) -> "Thinning":
        """Another that goes on from here by itself.

        >>> mill.Thinning([40]).copy().marks
        (40,)
        """
        return Thinning(self._marks, self._held)

    __copy__ = copy

    def __deepcopy__(self, memo: Any) -> "Thinning":
        return self.copy()

    def __reduce__(self) -> Tuple[Any, Tuple[bytes, bytes]]:
        return Thinning, (self._marks, self._held)

"""Readings, and recordings of them."""

import ctypes
import struct
from enum import IntEnum
from typing import Any, Iterable, Iterator, NamedTuple, Sequence, Tuple, Union, overload

from . import _header as header
from ._arguments import Buffer, Holder, Lent, copied, in_place, several, signed, unsigned
from ._library import library
from ._outputs import Out32
from ._refusal import Refusal

_READING = struct.Struct("<IiiBBBx")
_ORDER = library.call("mill_order")


class Slope(IntEnum):
    """What the head says a curve does at a reading.

    >>> mill.Slope(2).name
    'RISING'
    """

    FALLING = header.FALLING
    FLAT = header.FLAT
    RISING = header.RISING


_SLOPES = tuple(Slope)

# What a recording lies over when it is released.
_RELEASED = memoryview(b"")
_RELEASED.release()


class Reading(NamedTuple):
    """One reading: its time in tenths of a second, 0 to 2,000,000,000; the batch and the master, -1,000,000,000 to 1,000,000,000; what
    each does here; and the pigment that is added here, 1 to 16, 0 for none.

    >>> reading = mill.Reading(time=10, a=60, b=50, slope_a=mill.Slope.RISING)
    >>> reading.a, reading.slope_a.name, reading.pigment
    (60, 'RISING', 0)
    >>> reading._replace(time=20, pigment=7).time
    20
    """

    time: int
    a: int
    b: int
    slope_a: int = Slope.FLAT
    slope_b: int = Slope.FLAT
    pigment: int = 0

    def to_bytes(self) -> bytes:
        """The 16 bytes of the reading in a recording. A reading that breaks its rules raises Refusal 3.

        >>> mill.Reading(10, 60, 50, mill.Slope.RISING).to_bytes().hex(" ", 4)
        '0a000000 3c000000 32000000 02010000'
        """
        written = packed(self)
        judge(written)
        return written

    @classmethod
    def from_bytes(cls, reading: Buffer) -> "Reading":
        """The reading of these 16 bytes. Refused by 1 and 3.

        >>> mill.Reading.from_bytes(recording[:16]).time
        0
        """
        written = copied(reading, "reading", header.RECORD_BYTES + 1)
        if len(written) != header.RECORD_BYTES:
            raise Refusal(header.PARTIAL_RECORD)
        judge(written)
        return _reading(_READING.unpack(written), 0)


def packed(reading: Reading) -> bytes:
    """The bytes of a reading; a number that has no room there becomes one that the library refuses."""
    if not isinstance(reading, Reading):
        raise TypeError(f"a reading must be a Reading, not {type(reading).__name__}")
    time, a, b, slope_a, slope_b, pigment = reading
    return _READING.pack(
        unsigned(time, "time", 32),
        signed(a, "a", 32),
        signed(b, "b", 32),
        unsigned(slope_a, "slope_a", 8),
        unsigned(slope_b, "slope_b", 8),
        unsigned(pigment, "pigment", 8),
    )


def judge(recording: Any, name: str = "recording") -> None:
    """Raises the refusal of bytes that are no recording; one without a reading is none too."""
    returned = in_place(_ORDER, (), recording, name, (None, 0, ctypes.byref(Out32()), ctypes.byref(Out32())))
    if returned >> 32 not in (0, header.NO_RECORD):
        raise Refusal(returned >> 32, returned & 0xFFFFFFFF)


def _reading(numbers: Tuple[int, ...], place: int) -> Reading:
    time, a, b, slope_a, slope_b, pigment = numbers
    if max(slope_a, slope_b) > header.RISING:  # of a buffer that was written since it was judged
        raise Refusal(header.BAD_RECORD, place)
    return Reading(time, a, b, _SLOPES[slope_a], _SLOPES[slope_b], pigment)


class Recording(Holder, Sequence[Reading]):
    """A recording as a sequence of readings, over bytes that stay where they are, or of readings.

    Every call that takes a recording takes this one, and any buffer as well. Bytes that the library would not take for a recording
    raise its refusal, 1, 2 or 3. A recording over a buffer that can be closed or made longer (an mmap, a bytearray) keeps it from that
    until it is released.

    >>> run = mill.Recording(recording)
    >>> len(run), run[0].a, run[-1].time
    (8, 40, 70)
    >>> max(reading.a for reading in run)
    90
    >>> made = mill.Recording([mill.Reading(0, 40, 50, mill.Slope.RISING), mill.Reading(10, 30, 50, mill.Slope.FALLING)])
    >>> list(mill.question(made, "peaks(A)"))
    [10]
    """

    __slots__ = ()

    def __init__(self, source: Union[Buffer, Iterable[Reading]]) -> None:
        self._buffer = _source(source)
        judge(self._buffer)

    def to_bytes(self) -> bytes:
        """A copy of the recording's bytes, 16 to a reading.

        >>> mill.Recording(recording).to_bytes() == recording
        True
        """
        return bytes(self._buffer) if isinstance(self._buffer, bytes) else copied(self._buffer, "recording", self._length())

    def release(self) -> None:
        """Lets go of the buffer. After this the recording can't be asked any more: ValueError. Leaving a `with` releases it too.

        While a call of another thread reads the buffer it can't be let go: BufferError.

        >>> buffer = bytearray(recording)
        >>> with mill.Recording(buffer) as run:
        ...     kept = mill.thin(run)
        >>> buffer.clear()
        >>> try:
        ...     len(run)
        ... except ValueError:
        ...     print(run)
        <mill.Recording released>
        """
        if isinstance(self._buffer, memoryview):
            self._buffer.release()
        self._buffer = _RELEASED

    def _length(self) -> int:
        with Lent(self, "recording") as view:
            return int(view.length)

    def __len__(self) -> int:
        return self._length() // header.RECORD_BYTES

    @overload
    def __getitem__(self, at: int) -> Reading: ...

    @overload
    def __getitem__(self, at: slice) -> Tuple[Reading, ...]: ...

    def __getitem__(self, at: Union[int, slice]) -> Union[Reading, Tuple[Reading, ...]]:
        if isinstance(at, slice):
            return tuple(self[place] for place in range(*at.indices(len(self))))
        place = range(len(self))[at]
        return _reading(_READING.unpack_from(self._buffer, place * header.RECORD_BYTES), place)

    def __iter__(self) -> Iterator[Reading]:
        # Reading by reading, so that the recording may be released meanwhile.
        for place in range(len(self)):
            yield _reading(_READING.unpack_from(self._buffer, place * header.RECORD_BYTES), place)

    def __eq__(self, other: object) -> bool:
        return isinstance(other, Recording) and self.to_bytes() == other.to_bytes()

    def __hash__(self) -> int:
        return hash(self.to_bytes())

    def __enter__(self) -> "Recording":
        return self

    def __exit__(self, *_: object) -> None:
        self.release()

    def __buffer__(self, flags: int) -> memoryview:
        return memoryview(self._buffer)

    def __repr__(self) -> str:
        return "<mill.Recording released>" if self._buffer is _RELEASED else f"<mill.Recording of {len(self)} readings>"

    def __reduce__(self) -> Tuple[Any, Tuple[bytes]]:
        return Recording, (self.to_bytes(),)


def _source(source: Any) -> Any:
    """What a recording lies over: bytes, or a view of a buffer."""
    if isinstance(source, Recording):
        source = source._buffer
    if isinstance(source, bytes):
        return source
    try:
        return memoryview(source)
    except TypeError:
        pass
    readings = several(source, "a recording", "bytes, another buffer or readings", header.MAX_RECORDS)
    return b"".join(map(packed, readings))

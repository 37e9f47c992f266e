"""A summary beside the recordings: an entry for each, and the recordings that are found by them."""

import struct
from typing import Any, Iterable, List, NamedTuple, Union

from . import _header as header
from ._arguments import Buffer, copied, curve_number, in_place, several, signed, whole
from ._library import library
from ._outputs import EntryRoom, FoundRoom, written
from ._refusal import result

_ENTRY = library.call("mill_entry")
_FIND = library.call("mill_find")
_NUMBERS = struct.Struct("<IIiiiiII")


class Entry(NamedTuple):
    """What a summary holds of a recording.

    >>> mill.entry(recording)
    Entry(first_time=0, last_time=70, greatest_a=90, least_a=30, greatest_b=50, least_b=50, tops_a=2, tops_b=0)
    """

    first_time: int
    last_time: int
    greatest_a: int
    least_a: int
    greatest_b: int
    least_b: int
    tops_a: int
    tops_b: int

    def to_bytes(self) -> bytes:
        """The 32 bytes of the entry in a summary. Numbers that have no room in 32 bits raise ValueError.

        >>> len(mill.entry(recording).to_bytes())
        32
        """
        numbers = [whole(number, name) for name, number in zip(self._fields, self)]
        try:
            return _NUMBERS.pack(*numbers)
        except struct.error:
            raise ValueError("the numbers of an entry must fit in 32 bits, times and tops unsigned, values signed") from None

    @classmethod
    def from_bytes(cls, entry: Buffer) -> "Entry":
        """The entry of these bytes: any 32 are one. Fewer or more raise ValueError.

        >>> entry = mill.entry(recording)
        >>> mill.Entry.from_bytes(entry.to_bytes()) == entry
        True
        """
        given = copied(entry, "entry", header.ENTRY_BYTES + 1)
        if len(given) != header.ENTRY_BYTES:
            raise ValueError("an entry is 32 bytes")
        return cls._make(_NUMBERS.unpack(given))


def entry(recording: Buffer) -> Entry:
    """The entry of the recording; its kept readings give the same. Refused by 1, 2, 3, 4.

    >>> mill.entry(mill.thin(recording)) == mill.entry(recording)
    True
    """
    out = EntryRoom()
    result(in_place(_ENTRY, (), recording, "recording", (out, header.ENTRY_BYTES)))
    return Entry._make(_NUMBERS.unpack(out))


def find(entries: Union[Buffer, Iterable[Entry]], curve: int, level: int) -> List[int]:
    """The numbers, from 0 and ascending, of the entries whose recording has the curve somewhere at the level or above.

    The entries are those of a summary, as its bytes or one by one. Refused by 20, 12.

    >>> summary = [mill.entry(recording), mill.entry(recording[:32])]
    >>> mill.find(summary, mill.Curve.A, 61)
    [0]
    >>> mill.find(b"".join(entry.to_bytes() for entry in summary), mill.Curve.A, 60)
    [0, 1]
    """
    number, least, out = curve_number(curve), signed(level, "level", 64), FoundRoom()
    returned = in_place(_FIND, (), _entries(entries), "entries", (number, least, out, header.FOUND_BYTES))
    return [found for (found,) in struct.iter_unpack("<I", written(out, returned))]


def _entries(entries: Any) -> Any:
    """A buffer as it is; the bytes of entries that come one by one."""
    try:
        memoryview(entries)
        return entries
    except TypeError:
        pass
    return b"".join(map(_bytes_of, several(entries, "entries", "a buffer or entries", header.MAX_ENTRIES)))


def _bytes_of(entry: Any) -> bytes:
    if not isinstance(entry, Entry):
        raise TypeError(f"an entry must be an Entry, not {type(entry).__name__}")
    return entry.to_bytes()

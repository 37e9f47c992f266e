"""A growing run with named moments to go back to."""

from typing import Union

from . import _header as header
from ._arguments import Buffer, Marks, in_place, mark_bytes, unsigned
from ._library import Call, library
from ._outputs import EntryRoom, HeldRoom, written
from ._recording import Reading, packed
from ._refusal import result
from ._stack import run
from ._state import State
from ._summary import Entry

_START = library.call("mill_live_start")
_ADD = library.call("mill_live_add")
_SAVE = library.call("mill_live_save")
_RESTORE = library.call("mill_live_restore")
_KEPT = library.call("mill_live_kept")
_ENTRY = library.call("mill_live_entry")


class Live(State):
    """A run that grows reading by reading under these marks, up to 8, and holds its kept readings, at most 128.

    Up to 8 moments can be set, and the run can go back to each. Refused by 11.

    >>> run = mill.Live([40])
    >>> for reading in mill.Recording(recording):
    ...     run.add(reading)
    >>> run.kept() == mill.thin(recording, [40])
    True
    """

    __slots__ = ()
    _BYTES = header.LIVE_BYTES

    def __init__(self, marks: Marks = ()) -> None:
        given = mark_bytes(marks)
        self._carry(bytes(header.LIVE_BYTES))
        result(run(_START.free, _START.stack, (given, len(given), self._carried, self._size)))

    def add(self, reading: Union[Reading, Buffer]) -> None:
        """The next reading, or its 16 bytes. A refused one changes nothing. Refused by 11, 1, 2, 3, 19.

        >>> run = mill.Live()
        >>> run.add(mill.Reading(0, 40, 50, mill.Slope.RISING))
        >>> run.add(recording[16:32])
        >>> run.add(recording[32:40])
        Traceback (most recent call last):
        mill.Refusal: the recording is not in readings of 16 bytes (refusal 1)
        """
        given = packed(reading) if isinstance(reading, Reading) else reading
        with self._lock:
            result(in_place(_ADD, (self._carried, self._size), given, "reading", ()))

    def save(self, name: int) -> None:
        """Sets the moment of this name, 1 to 8, or sets it again. Refused by 11, 18.

        >>> mill.Live().save(8)
        """
        self._moment(_SAVE, name)

    def restore(self, name: int) -> None:
        """Goes back to the moment of this name. All moments stay set as they were. Refused by 11, 18.

        >>> run = mill.Live()
        >>> run.save(1)
        >>> run.add(recording[:16])
        >>> run.restore(1)
        >>> run.kept()
        b''
        """
        self._moment(_RESTORE, name)

    def _moment(self, call: Call, name: int) -> None:
        number = unsigned(name, "name", 32)
        with self._lock:
            result(run(call.free, call.stack, (self._carried, self._size, number)))

    def kept(self) -> bytes:
        """The kept readings of the run so far, at most 128. Refused by 11.

        >>> run = mill.Live()
        >>> run.add(recording[:16])
        >>> run.kept() == recording[:16]
        True
        """
        out = HeldRoom()
        with self._lock:
            returned = run(_KEPT.free, _KEPT.stack, (self._carried, self._size, out, header.HELD_BYTES))
        return written(out, returned)

    def entry(self) -> Entry:
        """The entry of the run so far: that of all its readings. Refused by 11, 4.

        >>> run = mill.Live()
        >>> run.add(recording[:16])
        >>> run.entry().greatest_a
        40
        """
        out = EntryRoom()
        with self._lock:
            returned = run(_ENTRY.free, _ENTRY.stack, (self._carried, self._size, out, header.ENTRY_BYTES))
        result(returned)
        return Entry.from_bytes(out)

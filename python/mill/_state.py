"""What is carried from call to call."""

import ctypes
import threading
from typing import Any, Tuple, Type, TypeVar

from ._arguments import Buffer, copied

_S = TypeVar("_S", bound="State")


class State:
    """The bytes that the calls of a report or a growing run carry on. They are all that there is of it, so a copy goes on as the original
    would. One call at a time works on them."""

    __slots__ = ("_carried", "_lock", "_size")
    _BYTES = 0

    def _carry(self, given: bytes) -> None:
        self._size = len(given)
        self._carried: Any = ctypes.create_string_buffer(given, max(self._size, 1))
        self._lock = threading.RLock()

    @classmethod
    def from_bytes(cls: Type[_S], state: Buffer) -> _S:
        """What goes on from the bytes of `to_bytes`. Of other bytes every call is answered too, as the library says.

        >>> run = mill.Live()
        >>> mill.Live.from_bytes(run.to_bytes()).to_bytes() == run.to_bytes()
        True
        >>> mill.Report.from_bytes(bytes(320)).add(recording)
        Traceback (most recent call last):
        mill.Refusal: the number of batches is not 1 to 1,000, or no report is under way (refusal 15)
        """
        new = cls.__new__(cls)
        new._carry(copied(state, "state", cls._BYTES))
        return new

    def to_bytes(self) -> bytes:
        """The bytes, to keep until the next call.

        >>> len(mill.Live().to_bytes()), len(mill.Report(1, "lag", 40).to_bytes())
        (18624, 320)
        """
        with self._lock:
            return bytes(self._carried[: self._size])

    def copy(self: _S) -> _S:
        """Another that goes on from here by itself.

        >>> report = mill.Report(1, "peaks(A)", 70)
        >>> report.copy().add(recording) == report.add(recording)
        True
        """
        return type(self).from_bytes(self.to_bytes())

    __copy__ = copy

    def __deepcopy__(self: _S, memo: Any) -> _S:
        return self.copy()

    def __reduce__(self) -> Tuple[Any, Tuple[bytes]]:
        return type(self).from_bytes, (self.to_bytes(),)

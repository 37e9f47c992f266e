"""What calls write into."""

import ctypes
from typing import Any

from . import _header as header
from ._refusal import result

Out32 = ctypes.c_uint32
OutSigned32 = ctypes.c_int32
Out64 = ctypes.c_uint64
OutDouble = ctypes.c_double

SetRoom = ctypes.c_char * header.SET_BYTES
EntryRoom = ctypes.c_char * header.ENTRY_BYTES
HeldRoom = ctypes.c_char * header.HELD_BYTES
FoundRoom = ctypes.c_char * header.FOUND_BYTES

_MOST = ctypes.c_char * (header.MAX_RECORDS * header.RECORD_BYTES)
_ROOMS = tuple((size, ctypes.c_char * size) for size in (1024, 8192))


def written(out: Any, returned: int) -> bytes:
    """What a call that says how many bytes it wrote wrote into its output; a refusal is raised."""
    front: bytes = out[: result(returned)]
    return front


def thinned_room(recording: Any) -> Any:
    """Room for the kept readings of a recording: no more than it has itself, and never more than a recording may have."""
    if type(recording) is bytes:
        for size, room in _ROOMS:
            if len(recording) <= size:
                return room()
    return _MOST()

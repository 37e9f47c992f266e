"""Questions about recordings of bead mills, and their thinning: the calls of the proved library behind `include/mill.h`.

A recording is bytes, 16 to a reading, in any object with the buffer protocol (bytes, memoryview, mmap, a NumPy array), and is read where it
lies; `Recording` shows it as readings and makes one of them. Every call answers with its result or raises one numbered `Refusal`, for any
bytes whatever; nothing needs to be tested first. What the calls answer is proved; that these functions hand it on is tested.

In the examples `recording` is what `crates/ask/data/run.rec` of the repository holds, eight readings.

>>> tops = mill.question(recording, "peaks(A)")
>>> 30 in tops, list(tops)
(True, [30, 70])
>>> kept = mill.thin(recording, [40])
>>> mill.question(kept, "lowafter(A,40)") == mill.question(recording, "lowafter(A,40)")
True

    to                                          use
    ask a recording                             question, degree, pair, band, order
    answer a buyer's laboratory                 lab_question, lab_degree, lab_pair
    keep the few readings that answer later     thin; piece by piece Thinning; reading by reading Live
    know which questions these answer           assured
    put one question to a year of batches       Report
    find old recordings by a summary            entry, find, Entry

Threads: the lock of the interpreter is given up during a call, so that calls of several threads run side by side; it is kept where the
recording can be written through the object handed in (a bytearray, a writable array), and an interpreter without a lock copies that one.
No other thread may write a recording while a call reads it. `Report`, `Live` and `Thinning` let one call at a time work on them.
"""

from ._calls import (
    Band,
    Broken,
    Curve,
    Degree,
    Pair,
    assured,
    band,
    degree,
    lab_degree,
    lab_pair,
    lab_question,
    order,
    pair,
    question,
    thin,
    version,
)
from ._header import (
    AXIS_HIGH,
    AXIS_LOW,
    BAD_BAND,
    BAD_MARKS,
    BAD_RECORD,
    BAD_SHEET,
    BAD_SUMMARY,
    BAD_TARGET,
    MAX_BAND,
    MAX_BATCHES,
    MAX_BRACKETS,
    MAX_ENTRIES,
    MAX_HELD,
    MAX_LINES,
    MAX_MARK,
    MAX_MARKS,
    MAX_MOMENTS,
    MAX_NODES,
    MAX_PIGMENT,
    MAX_RECORDS,
    MAX_RUNS,
    MAX_TEXT,
    MAX_TIME,
    MAX_TOPS,
    MAX_VALUE,
    MIN_VALUE,
    NO_MOMENT,
    NO_READING,
    NO_RECORD,
    NO_REPORT,
    NOT_BAND_QUESTION,
    NOT_FOR_LABORATORY,
    PARTIAL_RECORD,
    RUN_FULL,
    SHORT_OUTPUT,
    TEXT_LENGTH,
    TEXT_TOO_LARGE,
    TOO_MANY_RECORDS,
    TOO_MANY_RUNS,
    TOO_MANY_TOPS,
)
from ._header import VERSION as __version__
from ._library import LibraryError
from ._live import Live
from ._recording import Reading, Recording, Slope
from ._refusal import Refusal
from ._report import Figures, Report
from ._sets import Run, Set
from ._summary import Entry, entry, find
from ._thinning import Thinning

__all__ = [
    "AXIS_HIGH", "AXIS_LOW", "BAD_BAND", "BAD_MARKS", "BAD_RECORD", "BAD_SHEET", "BAD_SUMMARY", "BAD_TARGET", "Band", "Broken", "Curve",
    "Degree", "Entry", "Figures", "LibraryError", "Live", "MAX_BAND", "MAX_BATCHES", "MAX_BRACKETS", "MAX_ENTRIES", "MAX_HELD", "MAX_LINES",
    "MAX_MARK", "MAX_MARKS", "MAX_MOMENTS", "MAX_NODES", "MAX_PIGMENT", "MAX_RECORDS", "MAX_RUNS", "MAX_TEXT", "MAX_TIME", "MAX_TOPS",
    "MAX_VALUE", "MIN_VALUE", "NOT_BAND_QUESTION", "NOT_FOR_LABORATORY", "NO_MOMENT", "NO_READING", "NO_RECORD", "NO_REPORT",
    "PARTIAL_RECORD", "Pair", "RUN_FULL", "Reading", "Recording", "Refusal", "Report", "Run", "SHORT_OUTPUT", "Set", "Slope", "TEXT_LENGTH",
    "TEXT_TOO_LARGE", "TOO_MANY_RECORDS", "TOO_MANY_RUNS", "TOO_MANY_TOPS", "Thinning", "__version__", "assured", "band", "degree", "entry",
    "find", "lab_degree", "lab_pair", "lab_question", "order", "pair", "question", "thin", "version",
]

# Each is known by the name under which it is used.
for _name in __all__:
    if isinstance(globals()[_name], type):
        globals()[_name].__module__ = __name__

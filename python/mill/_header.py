"""The numbers and the sentences of `include/mill.h`, which says what each is; a test holds both to it."""

from typing import Tuple

VERSION = "1.1.0"

AXIS_LOW = -2000000000
AXIS_HIGH = 2000000000

RECORD_BYTES = 16
RUN_BYTES = 8
MARK_BYTES = 4
LINE_BYTES = 2
ENTRY_BYTES = 32
SET_BYTES = 2048
REPORT_BYTES = 320
LIVE_BYTES = 18624
HELD_BYTES = 2048
FOUND_BYTES = 8192

MAX_RECORDS = 4096
MAX_TIME = 2000000000
MIN_VALUE = -1000000000
MAX_VALUE = 1000000000
MAX_PIGMENT = 16
MAX_TEXT = 256
MAX_NODES = 32
MAX_BRACKETS = 16
MAX_RUNS = 256
MAX_TOPS = 256
MAX_MARKS = 8
MAX_MARK = 2000000000
MAX_BAND = 1000000
MAX_LINES = 32
MAX_BATCHES = 1000
MAX_HELD = 128
MAX_MOMENTS = 8
MAX_ENTRIES = 2048

STACK_LISTED = 32768
STACK_QUESTION = 196608
STACK_DEGREE = 196608
STACK_PAIR = 4096
STACK_THIN = 16384
STACK_BAND = 131072
STACK_ORDER = 4096
STACK_LAB_QUESTION = 196608
STACK_LAB_DEGREE = 196608
STACK_LAB_PAIR = 4096
STACK_REPORT_START = 131072
STACK_REPORT_ADD = 196608
STACK_LIVE_START = 4096
STACK_LIVE_ADD = 16384
STACK_LIVE_SAVE = 4096
STACK_LIVE_RESTORE = 4096
STACK_LIVE_KEPT = 4096
STACK_ENTRY = 4096
STACK_FIND = 4096
STACK_LIVE_ENTRY = 4096
STACK_ASSURED = 131072
STACK_VERSION = 4096

FALLING = 0
FLAT = 1
RISING = 2

CURVE_A = 0
CURVE_B = 1

PARTIAL_RECORD = 1
TOO_MANY_RECORDS = 2
BAD_RECORD = 3
NO_RECORD = 4
TEXT_LENGTH = 5
NO_READING = 6
TEXT_TOO_LARGE = 7
TOO_MANY_RUNS = 8
TOO_MANY_TOPS = 9
SHORT_OUTPUT = 10
BAD_MARKS = 11
BAD_TARGET = 12
BAD_SHEET = 13
NOT_FOR_LABORATORY = 14
NO_REPORT = 15
BAD_BAND = 16
NOT_BAND_QUESTION = 17
NO_MOMENT = 18
RUN_FULL = 19
BAD_SUMMARY = 20

MET = 0
SHORT = 1
NO_VALUE = 2
NO_PAIR = 0
PAIR = 1
CERTAIN = 1
POSSIBLE = 2
SHEET_MET = 0
SHEET_BROKEN = 1
TAKEN = 0
REPORT = 1
REPORT_NO_MEAN = 2
NOT_ASSURED = 0
ASSURED = 1

SENTENCES: Tuple[str, ...] = (
    "no refusal: this is a result",
    "the recording is not in readings of 16 bytes",
    "the recording has over 4,096 readings",
    "a reading breaks its rules: its time is not after the one before, or one of its numbers is out of range",
    "the recording or the run has no reading",
    "the text is empty or over 256 bytes",
    "the text can't be read as a question",
    "the text has over 32 parts, or over 16 brackets open at once",
    "the set that is asked for, or that of a part of the text, has over 256 runs",
    "gaps, steps, lag or a pair is asked for of a curve with over 256 tops",
    "the output is shorter than the result",
    "the marks are not in 4 bytes each, are over 8, or one is over 2,000,000,000; or there is no run",
    "the target or the level is not -2,000,000,000 to 2,000,000,000, or the curve is neither A nor B",
    "the order sheet is not in lines of 2 bytes, has over 32 lines, or names a pigment that is not 1 to 16",
    "a laboratory may not ask this",
    "the number of batches is not 1 to 1,000, or no report is under way",
    "the band is not 0 to 1,000,000",
    "with a band one asks high, low, lowafter, capafter or ampl, and nothing else",
    "the moment has no name from 1 to 8, or is gone back to and was not set",
    "with this reading the run would hold over 128 kept readings",
    "the summary is not in entries of 32 bytes, or has over 2,048 of them",
)
UNKNOWN = "a refusal that this version does not know"

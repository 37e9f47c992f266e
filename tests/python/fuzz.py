"""fuzz.py SEED TIMES: hands random arguments, mostly wrong ones, to every public function, class and method of the package.

Whatever is passed, the interpreter goes on: each call gives a result, or raises a refusal, TypeError, ValueError, BufferError or
IndexError, or what an argument itself raises. Anything else ends the program, and its seed is printed; `fuzz.py SEED 1` makes that
call alone.
"""

import array
import ctypes
import faulthandler
import gc
import itertools
import mmap
import random
import sys
from typing import Any, Callable, Dict, List, Tuple

import mill
import support


class Boom(Exception):
    """What an argument raises by itself."""


class Evil:
    """Raises whenever something is asked of it."""

    def __index__(self) -> int:
        raise Boom

    __len__ = __int__ = __iter__ = __bytes__ = __hash__ = __index__  # type: ignore[assignment]

    def __getattr__(self, name: str) -> Any:
        raise Boom

    def __eq__(self, other: object) -> bool:
        raise Boom


class Liar:
    """Claims lengths and numbers that it has not."""

    def __len__(self) -> int:
        return 1 << 40

    def __index__(self) -> int:
        return -(1 << 200)

    def __getitem__(self, at: int) -> int:
        if at > 50:
            raise IndexError
        return at

    def __buffer__(self, flags: int) -> memoryview:
        return memoryview(b"y" * 16)


class Text(str):
    def encode(self, *_: Any) -> Any:
        return None

    def __getitem__(self, at: Any) -> Any:
        return 5


def closed_map() -> mmap.mmap:
    made = mmap.mmap(-1, 64)
    made.close()
    return made


def released() -> memoryview:
    view = memoryview(b"abc")
    view.release()
    return view


def buffer(source: random.Random) -> Any:
    zeros = bytes(source.choice([1, 16, 320, 18624, 65552]))
    content = source.choice([support.RUN, support.BATCH, b"", support.RUN[:16], support.recording(source), zeros])
    view = memoryview(content)
    return source.choice(
        [
            lambda: content,
            lambda: bytearray(content),
            lambda: view,
            lambda: view[::2],
            lambda: view[::-1],
            lambda: memoryview(bytearray(content)),
            lambda: view.cast("c"),
            lambda: view.cast("B", (len(content) // 16, 16)) if len(content) % 16 == 0 and content else view,
            lambda: array.array("d", content[: len(content) // 8 * 8]),
            lambda: array.array("H", content[: len(content) // 2 * 2]),
            lambda: (ctypes.c_char * len(content)).from_buffer_copy(content) if content else (ctypes.c_char * 0)(),
            lambda: (ctypes.c_double * 4)(),
            lambda: mmap.mmap(-1, 4096),
            closed_map,
            released,
        ]
    )()


def reading(source: random.Random) -> mill.Reading:
    plain = [source.choice([0, 1, 2, 5, 70, 1000000000]) for _ in range(6)]
    return mill.Reading(*(source.choice([number, number, number, scrap(source)]) for number in plain))


def scrap(source: random.Random) -> Any:
    """Something that nobody asked for."""
    return source.choice(
        [
            lambda: None,
            lambda: True,
            lambda: source.choice([0, 1, 2, -1, 9, 255, 256, 10**50, -(10**50)]),
            lambda: source.choice([1 << 31, 1 << 32, (1 << 63) - 1, 1 << 63, 1 << 64, -(1 << 63), -(1 << 63) - 1]),
            lambda: source.choice([0.0, 1.5, float("nan"), float("inf"), -0.0, 1e300]),
            lambda: 1j,
            lambda: source.choice(["", "x", "peaks(A)", "\ud800", "\0" * 300, "é" * 200]),
            lambda: buffer(source),
            lambda: [scrap(source) for _ in range(source.randrange(3))],
            lambda: tuple(scrap(source) for _ in range(source.randrange(3))),
            lambda: {1: 2},
            lambda: {3, 4},
            lambda: object(),
            lambda: int,
            lambda: len,
            lambda: Evil(),
            lambda: Liar(),
            lambda: Text("peaks(A)"),
            lambda: itertools.repeat(source.choice([5, (1, 2), "x", None])),
            lambda: (number for number in range(3)),
            lambda: ctypes.c_int(5),
            lambda: ctypes.c_void_p(0),
            lambda: ctypes.pointer(ctypes.c_int(5)),
            lambda: ctypes.py_object(),
            lambda: range(10**30),
            lambda: mill.Set(),
            lambda: mill.Refusal(3, 4),
            lambda: mill.Live(),
            lambda: mill.Thinning(),
            lambda: reading(source),
            lambda: sys.modules[__name__],
        ]
    )()


def likely(source: random.Random, name: str) -> Any:
    """Mostly something of the kind that a parameter of this name takes."""
    if source.randrange(3) == 0:
        return scrap(source)
    made: Dict[str, Callable[[], Any]] = {
        "text": lambda: support.text(source),
        "marks": lambda: source.choice([support.marks(source), buffer(source), [scrap(source)]]),
        "sheet": lambda: source.choice([[(1, 2)], [(1, 2), scrap(source)], buffer(source)]),
        "curve": lambda: source.choice([0, 1, mill.Curve.B]),
        "entries": lambda: source.choice([[mill.entry(support.RUN)], buffer(source), [scrap(source)]]),
        "reading": lambda: source.choice([reading(source), support.RUN[:16], buffer(source)]),
        "source": lambda: source.choice([[reading(source) for _ in range(3)], buffer(source)]),
        "count": lambda: source.choice([1, 2, 1000]),
        "name": lambda: source.randint(0, 9),
        "at": lambda: source.choice([0, -1, 3, slice(1, 9), slice(None, None, -1)]),
    }
    if name in ("recording", "piece", "state", "runs", "entry", "held", "bytes"):
        return source.choice([buffer(source), mill.Recording(support.RUN)])
    return made.get(name, lambda: support.target(source))()


# Every callable with the names of its parameters.
_HELD: Dict[str, Callable[[random.Random], Any]] = {
    "Report": lambda source: mill.Report(2, "peaks(A)", 5),
    "Live": lambda source: mill.Live([40]),
    "Thinning": lambda source: mill.Thinning([40]),
    "Recording": lambda source: mill.Recording(support.RUN),
    "Set": lambda source: mill.question(support.RUN, "peaks(A)"),
    "Entry": lambda source: mill.entry(support.RUN),
    "Reading": reading,
    "Run": lambda source: mill.Run(3, 4),
    "Refusal": lambda source: mill.Refusal(source.choice([3, 25, -1]), 2),
}
TARGETS: List[Tuple[str, str, Tuple[str, ...]]] = [
    ("", "question", ("recording", "text")),
    ("", "degree", ("recording", "text", "target")),
    ("", "pair", ("recording", "curve", "target")),
    ("", "thin", ("recording", "marks")),
    ("", "band", ("recording", "text", "e")),
    ("", "order", ("recording", "sheet")),
    ("", "lab_question", ("recording", "marks", "text")),
    ("", "lab_degree", ("recording", "marks", "text", "target")),
    ("", "lab_pair", ("recording", "curve", "target")),
    ("", "entry", ("recording",)),
    ("", "find", ("entries", "curve", "level")),
    ("", "assured", ("text", "marks")),
    ("", "version", ()),
    ("", "Report", ("count", "text", "target")),
    ("", "Live", ("marks",)),
    ("", "Thinning", ("marks", "held")),
    ("", "Recording", ("source",)),
    ("Report", "add", ("recording",)),
    ("Report", "from_bytes", ("state",)),
    ("Report", "to_bytes", ()),
    ("Report", "copy", ()),
    ("Live", "add", ("reading",)),
    ("Live", "save", ("name",)),
    ("Live", "restore", ("name",)),
    ("Live", "kept", ()),
    ("Live", "entry", ()),
    ("Live", "from_bytes", ("state",)),
    ("Live", "to_bytes", ()),
    ("Live", "copy", ()),
    ("Thinning", "take", ("piece",)),
    ("Thinning", "copy", ()),
    ("Recording", "to_bytes", ()),
    ("Recording", "release", ()),
    ("Recording", "__getitem__", ("at",)),
    ("Recording", "__contains__", ("reading",)),
    ("Recording", "__eq__", ("recording",)),
    ("Recording", "index", ("reading",)),
    ("Recording", "__iter__", ()),
    ("Set", "from_bytes", ("runs",)),
    ("Set", "to_bytes", ()),
    ("Set", "__contains__", ("target",)),
    ("Set", "__eq__", ("target",)),
    ("Set", "__len__", ()),
    ("Entry", "from_bytes", ("entry",)),
    ("Entry", "to_bytes", ()),
    ("Reading", "from_bytes", ("reading",)),
    ("Reading", "to_bytes", ()),
    ("Refusal", "__str__", ()),
    ("Run", "__getitem__", ("at",)),
]
ALLOWED = (mill.Refusal, TypeError, ValueError, BufferError, IndexError, Boom)


def one(source: random.Random) -> str:
    """Makes a call, and says how it ended."""
    held, name, parameters = source.choice(TARGETS)
    call = getattr(_HELD[held](source) if held else mill, name)
    arguments = [likely(source, parameter) for parameter in parameters]
    if source.randrange(20) == 0:
        arguments = [scrap(source) for _ in range(source.randrange(6))]
    try:
        made = call(*arguments)
        for follow in ("kept", "to_bytes", "entry"):
            if held == "" and hasattr(made, follow) and not isinstance(made, int):
                getattr(made, follow)()
        return "result"
    except ctypes.ArgumentError:
        raise
    except mill.LibraryError:
        assert name in ("assured", "version") and "mill_" + name not in support.DECLARED
        return "library"
    except ALLOWED as error:
        assert not isinstance(error, UnicodeError), error
        return type(error).__name__


def main() -> None:
    faulthandler.enable()
    seed, times = int(sys.argv[1]), int(sys.argv[2])
    ended: Dict[str, int] = {}
    for number in range(seed, seed + times):
        try:
            how = one(random.Random(number))
        except BaseException:
            print(f"seed {number}", flush=True)
            raise
        ended[how] = ended.get(how, 0) + 1
        if number % 1000 == 0:
            gc.collect()
    print(f"arguments tried: {times}, " + ", ".join(f"{how} {count}" for how, count in sorted(ended.items())))


if __name__ == "__main__":
    main()

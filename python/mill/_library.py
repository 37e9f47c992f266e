"""The shared object of the library: where it is looked for, and its calls as `include/mill.h` declares them."""

import ctypes
import os
import shutil
import subprocess
import sys
from typing import Any, Callable, Dict, Iterator, List, NamedTuple, Optional, Tuple

from . import _header as header

NAME = "libmill.so." + header.VERSION.split(".")[0]

_BYTES = ctypes.c_void_p
_SIZE = ctypes.c_size_t
_U32 = ctypes.c_uint32
_I64 = ctypes.c_int64

# Each call of the header: its parameters, the stack with which it does, and since when there is one, where that is not 1.0.
_DECLARED: Tuple[Tuple[str, Tuple[Any, ...], int, str], ...] = (
    ("mill_question", (_BYTES, _SIZE, _BYTES, _SIZE, _BYTES, _SIZE), header.STACK_QUESTION, ""),
    ("mill_degree", (_BYTES, _SIZE, _BYTES, _SIZE, _I64, _BYTES, _BYTES), header.STACK_DEGREE, ""),
    ("mill_pair", (_BYTES, _SIZE, _U32, _I64, _BYTES, _BYTES), header.STACK_PAIR, ""),
    ("mill_thin", (_BYTES, _SIZE, _BYTES, _SIZE, _BYTES, _SIZE), header.STACK_THIN, ""),
    ("mill_band", (_BYTES, _SIZE, _BYTES, _SIZE, _I64, _BYTES, _BYTES, _BYTES, _BYTES), header.STACK_BAND, ""),
    ("mill_order", (_BYTES, _SIZE, _BYTES, _SIZE, _BYTES, _BYTES), header.STACK_ORDER, ""),
    ("mill_lab_question", (_BYTES, _SIZE, _BYTES, _SIZE, _BYTES, _SIZE, _BYTES, _SIZE), header.STACK_LAB_QUESTION, ""),
    ("mill_lab_degree", (_BYTES, _SIZE, _BYTES, _SIZE, _BYTES, _SIZE, _I64, _BYTES, _BYTES), header.STACK_LAB_DEGREE, ""),
    ("mill_lab_pair", (_BYTES, _SIZE, _U32, _I64, _BYTES, _BYTES), header.STACK_LAB_PAIR, ""),
    ("mill_report_start", (_U32, _BYTES, _SIZE, _I64, _BYTES, _SIZE), header.STACK_REPORT_START, ""),
    ("mill_report_add", (_BYTES, _SIZE, _BYTES, _SIZE, _BYTES, _BYTES, _BYTES, _BYTES), header.STACK_REPORT_ADD, ""),
    ("mill_live_start", (_BYTES, _SIZE, _BYTES, _SIZE), header.STACK_LIVE_START, ""),
    ("mill_live_add", (_BYTES, _SIZE, _BYTES, _SIZE), header.STACK_LIVE_ADD, ""),
    ("mill_live_save", (_BYTES, _SIZE, _U32), header.STACK_LIVE_SAVE, ""),
    ("mill_live_restore", (_BYTES, _SIZE, _U32), header.STACK_LIVE_RESTORE, ""),
    ("mill_live_kept", (_BYTES, _SIZE, _BYTES, _SIZE), header.STACK_LIVE_KEPT, ""),
    ("mill_entry", (_BYTES, _SIZE, _BYTES, _SIZE), header.STACK_ENTRY, ""),
    ("mill_find", (_BYTES, _SIZE, _U32, _I64, _BYTES, _SIZE), header.STACK_FIND, ""),
    ("mill_live_entry", (_BYTES, _SIZE, _BYTES, _SIZE), header.STACK_LIVE_ENTRY, ""),
    ("mill_assured", (_BYTES, _SIZE, _BYTES, _SIZE), header.STACK_ASSURED, "1.1.0"),
    ("mill_version", (), header.STACK_VERSION, "1.1.0"),
)


class LibraryError(ImportError):
    """The shared object of the library is not found, or is older than what is asked of it.

    >>> issubclass(mill.LibraryError, ImportError)
    True
    """

    # Here, for it is raised where the package can't be imported.
    __module__ = "mill"


class Call(NamedTuple):
    """A call of the library, without and with the lock of the interpreter, and the stack with which it does."""

    free: Callable[..., int]
    locked: Callable[..., int]
    stack: int


class Library:
    """A shared object that has all the calls of version 1.0, and perhaps later ones."""

    def __init__(self, path: str) -> None:
        self.path = path
        free, locked = ctypes.CDLL(path), ctypes.PyDLL(path)
        self._calls: Dict[str, Call] = {}
        for name, parameters, stack, since in _DECLARED:
            if not hasattr(free, name):
                if not since:
                    raise OSError(f"it has no {name}")
                continue
            functions = [getattr(library, name) for library in (free, locked)]
            for function in functions:
                function.argtypes = parameters
                function.restype = ctypes.c_uint64
            self._calls[name] = Call(functions[0], functions[1], stack)

    def call(self, name: str) -> Call:
        """The call of this name; where the library is too old for it, an error that says so."""
        try:
            return self._calls[name]
        except KeyError:
            since = next(since for known, _, _, since in _DECLARED if known == name)
            raise LibraryError(f"{self.path} is older than {since} and has no {name}: install version {since} of the library") from None


def _of_environment() -> Iterator[str]:
    path = os.environ.get("MILL_LIBRARY")
    if path:
        yield path


def _of_pkg_config() -> Iterator[str]:
    program = shutil.which("pkg-config")
    if program is None:
        raise OSError("there is no pkg-config")
    said = subprocess.run([program, "--variable=libdir", "mill"], stdout=subprocess.PIPE, stderr=subprocess.PIPE, timeout=60)
    folder = os.fsdecode(said.stdout).strip()
    if said.returncode != 0 or not folder:
        raise OSError("it knows no mill")
    yield os.path.join(folder, NAME)


def _beside() -> Iterator[str]:
    """In the package's folder; in `target/shared` of the repository that it lies in; in `lib` of the prefix that it lies in."""
    package = os.path.dirname(os.path.abspath(__file__))
    yield os.path.join(package, NAME)
    above = os.path.dirname(os.path.dirname(package))
    if os.path.isfile(os.path.join(above, "include", "mill.h")):
        yield os.path.join(above, "target", "shared", NAME)
    if os.path.basename(above) == "mill" and os.path.basename(os.path.dirname(above)) == "share":
        yield os.path.join(os.path.dirname(os.path.dirname(above)), "lib", NAME)


def _of_loader() -> Iterator[str]:
    yield NAME


_WAYS: Tuple[Tuple[str, Callable[[], Iterator[str]]], ...] = (
    ("MILL_LIBRARY", _of_environment),
    ("pkg-config", _of_pkg_config),
    ("beside the package", _beside),
    ("the loader", _of_loader),
)


def find() -> Library:
    """The library by the first way that leads to one. A path in MILL_LIBRARY is the only one tried where it is set."""
    tried: List[str] = []
    for way, paths in _WAYS:
        library = _try(way, paths, tried)
        if library is not None:
            return library
        if way == "MILL_LIBRARY" and tried:
            break
    if not tried[0].startswith("MILL_LIBRARY"):
        tried.insert(0, "MILL_LIBRARY: it is not set")
    raise LibraryError(
        f"the shared object {NAME} of the library mill is not found. Tried were\n  " + "\n  ".join(tried) + "\n"
        "Install the library (make build, make install), build it in the repository (make build), or set MILL_LIBRARY to its path."
    )


def _try(way: str, paths: Callable[[], Iterator[str]], tried: List[str]) -> Optional[Library]:
    """The library that one way leads to; where it leads to none, what was tried is noted."""
    try:
        for path in paths():
            if os.path.basename(path) != path and not os.path.exists(path):
                tried.append(f"{way}: {path}: there is no such file")
                continue
            try:
                return Library(path)
            except (OSError, ValueError) as error:
                tried.append(f"{way}: {path}: {_reason(error, path)}")
    except (OSError, subprocess.SubprocessError, ValueError) as error:
        tried.append(f"{way}: {_reason(error, '')}")
    return None


def _reason(error: Exception, path: str) -> str:
    said = str(error)
    return said[len(path) + 2 :] if path and said.startswith(path + ": ") else said


if sys.implementation.name != "cpython" or sys.byteorder != "little" or ctypes.sizeof(ctypes.c_void_p) != 8:
    raise LibraryError("the package mill is for CPython on 64-bit little-endian Linux")

library = find()

"""The stack that is left to a call.

The calls of the library lay their tables on the stack, up to 196,608 bytes, and a thread may have less: `threading.stack_size`
goes down to 32,768. So every call is preceded by a look at how much is left, and where that is too little, or can't be told, the call
runs in a thread of its own.
"""

import ctypes
import os
import platform
import resource
import threading
from functools import partial
from itertools import count
from typing import Any, Callable, Dict, Optional, Tuple

# What the interpreter and a signal take between the look and the call; and the stack of a thread of its own.
_RESERVE = 32768
_OWN = 1048576

# Where getcontext of the C library puts the stack pointer, by the processor.
_POINTER_AT = {"x86_64": 160, "aarch64": 432}.get(platform.machine())
# More than ucontext_t and pthread_attr_t have on either.
_CONTEXT_BYTES = 8192
_ATTRIBUTE_BYTES = 512

# Short calls keep the lock of the interpreter; a wait gives it up.
_short, _waiting = ctypes.PyDLL(None), ctypes.CDLL(None)
_START = ctypes.CFUNCTYPE(None, ctypes.c_size_t)


def _declared(name: str, result: Any, *parameters: Any, of: Any = _short) -> Any:
    """A function of the C library, none where it has none of this name."""
    function = getattr(of, name, None)
    if function is not None:
        function.argtypes = parameters
        function.restype = result
    return function


_getcontext = _declared("getcontext", ctypes.c_int, ctypes.c_void_p)
_self = _declared("pthread_self", ctypes.c_ulong)
_attributes = _declared("pthread_getattr_np", ctypes.c_int, ctypes.c_ulong, ctypes.c_void_p)
_stack_of = _declared("pthread_attr_getstack", ctypes.c_int, ctypes.c_void_p, ctypes.c_void_p, ctypes.c_void_p)
_init = _declared("pthread_attr_init", ctypes.c_int, ctypes.c_void_p)
_set_size = _declared("pthread_attr_setstacksize", ctypes.c_int, ctypes.c_void_p, ctypes.c_size_t)
_destroy = _declared("pthread_attr_destroy", ctypes.c_int, ctypes.c_void_p)
_create = _declared("pthread_create", ctypes.c_int, ctypes.c_void_p, ctypes.c_void_p, _START, ctypes.c_size_t)
_join = _declared("pthread_join", ctypes.c_int, ctypes.c_ulong, ctypes.c_void_p, of=_waiting)


def _bounds() -> Tuple[int, int]:
    """The lowest and the highest address of this thread's stack; none lies between them where they can't be told."""
    low, size = ctypes.c_size_t(), ctypes.c_size_t()
    attributes = ctypes.create_string_buffer(_ATTRIBUTE_BYTES)
    if _getcontext is None or _POINTER_AT is None or None in (_self, _attributes, _stack_of, _destroy):
        return 0, 0
    if _attributes(_self(), attributes) != 0:
        return 0, 0
    told = _stack_of(attributes, ctypes.byref(low), ctypes.byref(size)) == 0
    _destroy(attributes)
    return (low.value, low.value + size.value) if told else (0, 0)


def _end_of_mapping(address: int) -> int:
    """Where the memory ends that the system has mapped at this address; 0 where it does not tell."""
    try:
        with open("/proc/self/maps", encoding="ascii", errors="replace") as maps:
            for line in maps:
                first, last = (int(end, 16) for end in line.split(" ", 1)[0].split("-"))
                if first <= address < last:
                    return last
    except (OSError, ValueError):
        pass
    return 0


class _Here(threading.local):
    """What each thread notes of its stack. That of the program's first thread grows, and its limit may be lowered at any time: `top`, its
    end, is what the system counts from. It is 0 in the others, whose stacks stay as they are."""

    high = 0  # nothing is told yet

    def __init__(self) -> None:
        context = ctypes.create_string_buffer(_CONTEXT_BYTES)
        self.context = ctypes.addressof(context)
        # It keeps the context.
        self.pointer = ctypes.c_size_t.from_buffer(context, _POINTER_AT or 0)
        self.low, high = _bounds()
        self.top = 0
        if high and threading.get_native_id() == os.getpid():
            self.top = _end_of_mapping(high - 1)
            high = high if self.top else 0
        # Last, for a handler of a signal may make a call meanwhile.
        self.high = high


_here = _Here()
_limits, _LIMIT = resource.getrlimit, resource.RLIMIT_STACK


def left() -> int:
    """How many bytes of stack are left to this thread; negative where it can't be told."""
    here = _here
    if here.high == 0:
        return -1
    _getcontext(here.context)
    pointer: int = here.pointer.value
    if pointer > here.high:
        return -1
    low: int = here.low
    if here.top:
        limit, _ = _limits(_LIMIT)
        if 0 <= limit < here.top - low:  # negative where there is none
            low = here.top - limit
    return pointer - low


def run(function: Callable[..., int], stack: int, arguments: Tuple[Any, ...]) -> int:
    """Makes a call that does with so many bytes of stack: here, or in a thread of its own where there are too few."""
    return function(*arguments) if left() >= stack + _RESERVE else _in_a_thread(function, arguments)


class _Job:
    """A call that a thread of its own makes, and how it ended."""

    __slots__ = ("arguments", "failed", "function", "returned")

    def __init__(self, function: Callable[..., int], arguments: Tuple[Any, ...]) -> None:
        self.function, self.arguments = function, arguments
        self.returned: Optional[int] = None
        self.failed: Optional[BaseException] = None


# The jobs under way, by their numbers.
_jobs: Dict[int, _Job] = {}
_numbers = count(1)


def _work(number: int) -> None:
    """What a thread of its own does. It holds the job itself, and so all that the call reads and writes, until it is done."""
    job = _jobs[number]
    try:
        job.returned = job.function(*job.arguments)
    except BaseException as error:  # handed on to the thread that waits
        job.failed = error


# One for all threads; it is never freed, not even when the interpreter ends, for a thread may be about to enter it.
_start = _START(_work)
ctypes.pythonapi.Py_IncRef(ctypes.py_object(_start))
_called = partial.__call__


def _in_a_thread(function: Callable[..., int], arguments: Tuple[Any, ...]) -> int:
    """The call in a thread of the C library, with a stack of its own: `threading.stack_size` would touch the threads of others."""
    job, number = _Job(function, arguments), next(_numbers)
    _jobs[number] = job
    try:
        status = _to_the_end(number)
    finally:
        del _jobs[number]
    if status != 0:
        raise MemoryError(f"this thread has too small a stack for the call, and no other can be started: {os.strerror(status)}")
    if job.failed is not None:
        raise job.failed
    if job.returned is None:
        raise MemoryError("the call could not be made in a thread of its own")
    return job.returned


def _to_the_end(number: int) -> int:
    """Starts a thread with this job and waits until it is over; what the C library says where it can't be started, else 0."""
    attributes, thread = ctypes.create_string_buffer(_ATTRIBUTE_BYTES), ctypes.c_ulong()
    _init(attributes)
    # A handler of a signal (Ctrl-C) may raise between any two steps of Python, and this must not be left while the thread runs. So
    # these steps are taken within one: filter asks map for one status after the other, up to the first that is not 0, and calls
    # nothing but C. A handler waits until the thread is over.
    steps = (
        partial(_set_size, attributes, _OWN),
        partial(_create, ctypes.byref(thread), attributes, _start, number),
        partial(_join, thread, None),
    )
    status: int = next(filter(None, map(_called, steps)), 0)
    _destroy(attributes)
    return status

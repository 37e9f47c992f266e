"""Covers: that the lock of the interpreter is given up during a call, and kept where the recording could be written; that every call
runs on threads with small stacks, where little stack is left, under a limit that is lowered meanwhile, and interrupted by signals; that a
report, a run and a thinning may be shared by threads."""

import os
import random
import resource
import subprocess
import sys
import threading
import time
import unittest
from typing import Any, Callable, List

import mill
import support
from support import RUN

# Some milliseconds for a call.
LONG = b"".join(support.reading(time, time % 97, time % 89, time % 3, time % 2) for time in range(4096))
SLOW = "|".join(f"F(A=v&B<{number})" for number in range(6))

DEEPEST = """
import sys, threading
import mill
sys.path.insert(0, {tests!r})
from support import RUN
DEEP, OPEN = "!" * 31 + "lag", "(" * 256

def refused(number, call, *arguments):
    try:
        call(*arguments)
    except mill.Refusal as refusal:
        assert refusal.number == number, refusal
        return
    raise AssertionError

def every():
    \"\"\"Every call, with the deepest inputs known.\"\"\"
    assert len(mill.question(RUN, DEEP)) == 4000000001
    refused(6, mill.question, RUN, OPEN)
    assert mill.degree(RUN, DEEP, 5).met
    assert mill.pair(RUN, 0, 40) == (30, 70)
    assert mill.thin(RUN, [40]) == RUN
    refused(6, mill.band, RUN, OPEN, 5)
    assert mill.order(RUN, [(1, 2)]) is None
    assert len(mill.lab_question(RUN, [], "!" * 31 + "peaks(A)")) == 3999999999
    assert mill.lab_degree(RUN, [], "!" * 31 + "peaks(A)", 5).met
    assert mill.lab_pair(RUN, 0, 40) == (30, 70)
    refused(6, mill.Report, 1, OPEN, 5)
    assert mill.Report(1, DEEP, 5).add(RUN) == (1, 0, 0, 1.0)
    run = mill.Live([40])
    for reading in mill.Recording(RUN):
        run.add(reading)
        run.save(1)
    run.restore(1)
    assert run.kept() == RUN and run.entry() == mill.entry(RUN)
    assert mill.find([run.entry()], 0, 90) == [0]
    thinning = mill.Thinning([40])
    thinning.take(RUN)
    assert thinning.held == RUN
    if {assured}:
        assert mill.assured(DEEP)
        refused(6, mill.assured, OPEN)

done = []
def counted():
    every()
    done.append(1)
"""

SIGNALS = """
import faulthandler, signal, time
from mill import _stack
faulthandler.enable()
assert _stack.left() < 229376, "each question runs in a thread of its own"
signal.signal(signal.SIGALRM, signal.default_int_handler)
TOPS = mill.question(RUN, "peaks(A)")
buffer, report, run = bytearray(RUN), mill.Report(1000, "peaks(A)", 30), mill.Live()
calls = [
    lambda: mill.question(RUN, "peaks(A)") == TOPS,
    lambda: mill.question(buffer, "peaks(A)") == TOPS,
    lambda: mill.question(memoryview(RUN), "peaks(A)") == TOPS,
    lambda: mill.degree(mill.Recording(buffer), "peaks(A)", 30).met,
    lambda: report.copy().add(buffer) is None,
    lambda: report.copy().add(RUN) is None,
]

# How long one call takes; the signals strike before it, within it and behind it.
begun = time.perf_counter()
for _ in range(60):
    assert calls[_ % len(calls)]()
long = (time.perf_counter() - begun) / 60

stopped = through = tried = 0
begun = time.perf_counter()
while time.perf_counter() < begun + 1.5 or (stopped < 200 or through < 20) and time.perf_counter() < begun + 60:
    tried += 1
    call = calls[tried % len(calls)]
    try:
        signal.setitimer(signal.ITIMER_REAL, 0.000005 + long * 2 * (tried % 211) / 211)
        assert call()
        assert call()
        signal.setitimer(signal.ITIMER_REAL, 0)
        through += 1
    except KeyboardInterrupt:
        stopped += 1
    assert not _stack._jobs
    buffer.append(1)  # nothing holds it
    buffer.pop()
signal.signal(signal.SIGALRM, signal.SIG_IGN)
every()
with open("/proc/self/status") as status:
    assert "Threads:\\t1\\n" in status.read()
print("done" if stopped >= 200 and through >= 20 else (stopped, through))
"""


def code(body: str) -> List[str]:
    tests = os.path.dirname(os.path.abspath(__file__))
    return [sys.executable, "-c", DEEPEST.format(tests=tests, assured="mill_assured" in support.DECLARED) + body]


class Lock(unittest.TestCase):
    def seen_during(self, call: Callable[[], Any], times: int) -> bool:
        """Whether another thread of Python runs while a call is made: it takes turns with this one only where the lock is given up."""
        notes: List[float] = []
        over = threading.Event()

        def note() -> None:
            while not over.is_set():
                notes.append(time.perf_counter())
                time.sleep(0.0001)

        interval = sys.getswitchinterval()
        sys.setswitchinterval(60)
        other = threading.Thread(target=note)
        other.start()
        try:
            for _ in range(times):
                begun = time.perf_counter()
                call()
                ended = time.perf_counter()
                if any(begun < noted < ended for noted in notes[-200:]):
                    return True
            return False
        finally:
            sys.setswitchinterval(interval)
            over.set()
            other.join()

    def test_given_up(self) -> None:
        report = mill.Report(1000, SLOW, 5)
        self.assertTrue(self.seen_during(lambda: mill.question(LONG, SLOW), 200))
        self.assertTrue(self.seen_during(lambda: mill.question(memoryview(LONG), SLOW), 200))
        self.assertTrue(self.seen_during(lambda: mill.question(mill.Recording(LONG), SLOW), 200))
        self.assertTrue(self.seen_during(lambda: report.add(LONG), 200))

    @unittest.skipIf(getattr(sys, "_is_gil_enabled", lambda: True)() is False, "this interpreter has no lock")
    def test_kept(self) -> None:
        """A recording that can be written is not written by another thread of Python during the call."""
        writable = bytearray(LONG)
        self.assertFalse(self.seen_during(lambda: mill.question(writable, SLOW), 30))
        self.assertFalse(self.seen_during(lambda: mill.question(mill.Recording(writable), SLOW), 30))

    @unittest.skipUnless(len(os.sched_getaffinity(0)) > 1, "there is one core")
    def test_side_by_side(self) -> None:
        """Many threads get the right answers."""
        wanted, failed = mill.question(LONG, SLOW), []

        def ask() -> None:
            for _ in range(5):
                if mill.question(LONG, SLOW) != wanted:
                    failed.append(1)

        threads = [threading.Thread(target=ask) for _ in range(8)]
        for thread in threads:
            thread.start()
        for thread in threads:
            thread.join()
        self.assertEqual(failed, [])


class Stacks(unittest.TestCase):
    def runs(self, body: str, **more: Any) -> None:
        said = subprocess.run(code(body), stdout=subprocess.PIPE, stderr=subprocess.STDOUT, timeout=300, **more)
        self.assertEqual((said.returncode, said.stdout), (0, b"done\n"))

    def test_small(self) -> None:
        self.runs(
            """
tried = 0
for size in (32768, 49152, 65536, 131072, 196608, 229376, 262144, 1 << 20):
    try:
        threading.stack_size(size)
    except ValueError:  # less than this machine gives
        continue
    tried += 1
    thread = threading.Thread(target=counted)
    thread.start()
    thread.join()
print("done" if len(done) == tried >= 5 else (done, tried))
"""
        )

    def test_little_left(self) -> None:
        """Deep in a recursion of C and Python, on a thread of 300,000 bytes, with as little left as there may be."""
        self.runs(
            """
from mill import _stack
least = [1 << 40]
def deeper(_):
    here = _stack.left()
    least[0] = min(least[0], here)
    if here > 120000:
        max([1], key=deeper)
    else:
        counted()
    return 0
threading.stack_size(303104)
sys.setrecursionlimit(100000)
thread = threading.Thread(target=deeper, args=(0,))
thread.start()
thread.join()
print("done" if done and 60000 < least[0] <= 120000 else (done, least))
"""
        )

    def test_main_thread(self) -> None:
        """With a limit on the stack of the whole program."""
        for size in (160, 256, 512):
            limit = lambda: resource.setrlimit(resource.RLIMIT_STACK, (size * 1024, size * 1024))  # noqa: E731
            self.runs("every()\nprint('done')\n", preexec_fn=limit)

    def test_limit_lowered(self) -> None:
        """With a limit on the stack that is lowered after the package was imported, and raised again; with much or little that the
        system put at its end, which counts as well."""
        body = """
import resource
from mill import _stack
hard = resource.getrlimit(resource.RLIMIT_STACK)[1]
begun = _stack.left()
every()
for size in (1500, 1250, 1200, 1150, 1100, 1000, 512, 256, 230, 200, 64, 0):
    resource.setrlimit(resource.RLIMIT_STACK, (size * 1024, hard))
    assert _stack.left() <= size * 1024 - taken
    every()
resource.setrlimit(resource.RLIMIT_STACK, (hard, hard))
assert abs(_stack.left() - begun) < 65536, (_stack.left(), begun)
print("done")
"""
        for strings in (0, 10):
            more = {f"MILL_LONG_{number}": "x" * 100000 for number in range(strings)}
            self.runs(f"taken = {strings * 100000}" + body, env=support.environment(**more))

    def test_signals(self) -> None:
        """A handler that raises, as that of Ctrl-C does, strikes while calls run in threads of their own: at any step the call is
        over by then, the buffer is given back, and what was under way is no more. What goes on from there answers as ever."""
        limit = lambda: resource.setrlimit(resource.RLIMIT_STACK, (200 * 1024, 200 * 1024))  # noqa: E731
        self.runs(SIGNALS, preexec_fn=limit)

    def test_not_told(self) -> None:
        """Where the stack can't be told, every call runs in a thread of its own."""
        self.runs("from mill import _stack\n_stack._here.high = 0\nassert _stack.left() < 0\nevery()\nprint('done')\n")

    def test_no_thread(self) -> None:
        """Where no other thread can be had either, that is an exception."""
        self.runs(
            """
from mill import _stack
_stack._here.high = 0
_stack._OWN = 1 << 62
try:
    mill.question(RUN, "lag")
except MemoryError as error:
    assert "too small a stack" in str(error) and not _stack._jobs, error
    print("done")
"""
        )

    def test_looked_at(self) -> None:
        from mill import _stack

        self.assertGreater(_stack.left(), 1 << 18)


class Shared(unittest.TestCase):
    def all_at_once(self, work: Callable[[int], None]) -> None:
        threads = [threading.Thread(target=work, args=(number,)) for number in range(6)]
        for thread in threads:
            thread.start()
        for thread in threads:
            thread.join()

    def test_one_at_a_time(self) -> None:
        """While one thread is within a call, every other call on the same report, run or thinning waits."""
        run, report, thinning = mill.Live(), mill.Report(5, "lag", 0), mill.Thinning()
        run.add(RUN[:16])
        run.save(1)
        calls: List[Any] = [
            (run, lambda: run.add(RUN[16:32])),
            (run, lambda: run.save(2)),
            (run, lambda: run.restore(1)),
            (run, run.kept),
            (run, run.entry),
            (run, run.to_bytes),
            (run, run.copy),
            (report, lambda: report.add(RUN)),
            (report, report.to_bytes),
            (thinning, lambda: thinning.take(RUN)),
        ]
        for state, call in calls:
            with state._lock:
                other = threading.Thread(target=call)
                other.start()
                other.join(0.05)
                self.assertTrue(other.is_alive())
            other.join()

    def test_live(self) -> None:
        """What several threads add to one run is what some order of their readings gives."""
        run, accepted = mill.Live([40]), [[] for _ in range(6)]  # type: ignore[var-annotated]

        def work(number: int) -> None:
            for step in range(400):
                reading = mill.Reading(step * 6 + number, 5, 6)
                try:
                    run.add(reading)
                    accepted[number].append(reading)
                except mill.Refusal as refusal:
                    assert refusal.number == 3, refusal
                run.save(1 + number)

        self.all_at_once(work)
        again = mill.Live([40])
        for reading in sorted(reading for one in accepted for reading in one):
            again.add(reading)
        self.assertEqual(run.kept(), again.kept())
        self.assertEqual(run.entry(), again.entry())

    def test_report(self) -> None:
        report, told = mill.Report(600, "peaks(A)", 30), []

        def work(number: int) -> None:
            for _ in range(100):
                figures = report.add(RUN)
                if figures is not None:
                    told.append(figures)

        self.all_at_once(work)
        self.assertEqual(told, [(600, 0, 0, 1.0)])

    def test_thinning(self) -> None:
        thinning, taken = mill.Thinning(), []

        def work(number: int) -> None:
            for step in range(100):
                reading = mill.Reading(step * 6 + number, random.randint(0, 9), 6, pigment=3).to_bytes()
                try:
                    thinning.take(reading)
                    taken.append(reading)
                except mill.Refusal as refusal:
                    assert refusal.number == 3, refusal

        self.all_at_once(work)
        self.assertEqual(thinning.held, b"".join(sorted(taken, key=lambda one: int.from_bytes(one[:4], "little"))))


if __name__ == "__main__":
    unittest.main()

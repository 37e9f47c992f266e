"""Covers: what may be handed in, and what is said of what may not: buffers of every kind, read where they lie; wrong types, closed and
scattered buffers, numbers of any size, texts of any characters."""

import array
import ctypes
import itertools
import mmap
import pickle
import copy
import tempfile
import tracemalloc
import unittest
from types import MappingProxyType
from typing import Any, Callable, List
from unittest import mock

import mill
from mill import _arguments
from support import BATCH, RUN

try:
    import numpy
except ImportError:
    numpy = None  # type: ignore[assignment]

TOPS = mill.question(RUN, "peaks(A)")


class Refused(unittest.TestCase):
    def refused(self, number: int, call: Callable[..., Any], *arguments: Any) -> None:
        with self.assertRaises(mill.Refusal) as raised:
            call(*arguments)
        self.assertEqual(raised.exception.number, number, arguments)

    def says(self, kind: Any, said: str, call: Callable[..., Any], *arguments: Any) -> None:
        with self.assertRaisesRegex(kind, said):
            call(*arguments)


class Buffers(Refused):
    def test_kinds(self) -> None:
        """Every kind of buffer is a recording, for every call that takes one."""
        with tempfile.TemporaryFile() as file:
            file.write(RUN)
            file.flush()
            read = mmap.mmap(file.fileno(), 0, access=mmap.ACCESS_READ)
            written = mmap.mmap(file.fileno(), 0)
            kinds = [
                RUN,
                bytearray(RUN),
                memoryview(RUN),
                memoryview(bytearray(RUN)),
                memoryview(b"x" + RUN)[1:],
                memoryview(RUN).cast("I"),
                memoryview(RUN).cast("B", (8, 16)),
                array.array("I", RUN),
                array.array("B", RUN),
                (ctypes.c_char * len(RUN)).from_buffer_copy(RUN),
                type("Sub", (bytes,), {})(RUN),
                mill.Recording(RUN),
                mill.Recording(bytearray(RUN)),
                read,
                written,
            ]
            for kind in kinds:
                with self.subTest(type(kind).__name__):
                    self.assertEqual(mill.question(kind, "peaks(A)"), TOPS)
                    self.assertEqual(mill.degree(kind, "peaks(A)", 51), mill.degree(RUN, "peaks(A)", 51))
                    self.assertEqual(mill.pair(kind, 0, 40), (30, 70))
                    self.assertEqual(mill.thin(kind, [40]), mill.thin(RUN, [40]))
                    self.assertEqual(mill.band(kind, "high(A)", 5), mill.band(RUN, "high(A)", 5))
                    self.assertIsNone(mill.order(kind, [(1, 2)]))
                    self.assertEqual(mill.lab_question(kind, [], "peaks(A)"), TOPS)
                    self.assertTrue(mill.lab_degree(kind, [], "peaks(A)", 30).met)
                    self.assertEqual(mill.lab_pair(kind, 0, 40), (30, 70))
                    self.assertEqual(mill.entry(kind), mill.entry(RUN))
                    self.assertEqual(mill.Report(1, "peaks(A)", 30).add(kind), (1, 0, 0, 1.0))
                    self.assertEqual(mill.Recording(kind), mill.Recording(RUN))
                    self.assertEqual(mill.Recording(kind)[-1].time, 70)
                    self.assertEqual(len(list(mill.Recording(kind))), 8)
                    thinning = mill.Thinning([40])
                    thinning.take(kind)
                    self.assertEqual(thinning.held, mill.thin(RUN, [40]))
            del kind, kinds
            read.close()
            written.close()

    @unittest.skipUnless(numpy, "NumPy is not there")
    def test_numpy(self) -> None:
        fields = [("time", "<u4"), ("a", "<i4"), ("b", "<i4"), ("slope_a", "u1"), ("slope_b", "u1"), ("pigment", "u1"), ("spare", "u1")]
        table = numpy.frombuffer(RUN, numpy.dtype(fields))
        flat = numpy.frombuffer(RUN, "u1")
        for kind in (table, table.copy(), flat, flat.reshape(8, 16), numpy.frombuffer(RUN, "<u4")):
            self.assertEqual(mill.question(kind, "peaks(A)"), TOPS)
            self.assertEqual(mill.Recording(kind), mill.Recording(RUN))
            self.assertEqual(list(mill.Recording(kind)), list(mill.Recording(RUN)))
        for scattered in (table[::2], flat.reshape(8, 16).T):
            self.says(BufferError, "contiguous", mill.question, scattered, "peaks(A)")
            self.says(BufferError, "contiguous", mill.Recording, scattered)
        self.assertEqual(mill.thin(RUN, numpy.array([40])), mill.thin(RUN, [40]), "marks are numbers, whatever their width")
        self.assertEqual(mill.thin(RUN, numpy.array([40], "u1")), mill.thin(RUN, [40]))
        self.assertTrue(mill.degree(RUN, "peaks(A)", numpy.int64(30)).met)
        self.assertIn(numpy.int32(30), TOPS)

    def test_in_place(self) -> None:
        """No copy is made of a recording, however long it is: it is refused by 2 with no memory taken for it."""
        long = bytearray(16 << 20)
        tracemalloc.start()
        self.refused(2, mill.question, long, "peaks(A)")
        self.refused(2, mill.question, memoryview(long), "peaks(A)")
        self.refused(2, mill.thin, long)
        self.refused(2, mill.entry, memoryview(long))
        self.refused(2, mill.Recording, long)
        self.refused(2, mill.Report(1, "lag", 0).add, long)
        _, peak = tracemalloc.get_traced_memory()
        tracemalloc.stop()
        self.assertLess(peak, 1 << 20)

    def test_given_back(self) -> None:
        """After a call, refused or not, a buffer may be made longer, closed and released again."""
        buffer = bytearray(RUN)
        mill.question(buffer, "peaks(A)")
        self.refused(6, mill.question, buffer, "peaks(C)")
        self.says(TypeError, "text must be", mill.question, buffer, 5)
        self.says(TypeError, "target must be a whole number, not str", mill.degree, buffer, "lag", "5")
        self.refused(1, mill.Thinning().take, memoryview(buffer)[:20])
        buffer += b"more"
        with mill.Recording(memoryview(buffer)[:128]) as run:
            self.assertEqual(len(run), 8)
            self.says(BufferError, "", buffer.append, 1)
        buffer.append(1)
        self.says(ValueError, "released", run.__getitem__, 0)
        self.says(ValueError, "released", mill.question, run, "peaks(A)")
        self.says(ValueError, "released", len, run)

    def test_released(self) -> None:
        """A recording that is released answers nothing any more, whatever it was made of; another over the same buffer does."""
        buffers: List[Any] = [RUN, bytearray(RUN), memoryview(RUN)]
        for source in (*buffers, *map(mill.Recording, buffers), list(mill.Recording(RUN))):
            other = mill.Recording(source)
            with mill.Recording(source) as run:
                each = iter(run)
                next(each)
            run.release()
            for call in (len, list, mill.Recording.to_bytes, hash, mill.entry, mill.thin, mill.Recording, pickle.dumps, reversed):
                self.says(ValueError, "released", lambda what, call=call: list(call(what)), run)  # type: ignore[misc]
            self.says(ValueError, "released", run.__getitem__, 0)
            self.says(ValueError, "released", next, each)
            self.assertEqual(repr(run), "<mill.Recording released>")
            self.assertEqual(other, mill.Recording(RUN))

    def test_without_a_lock(self) -> None:
        """Where the interpreter has no lock, the library reads a copy of what can be written, and what can't in place."""
        places: List[Any] = []

        def noted(*arguments: Any) -> int:
            places.append(arguments[0])
            return 0

        written = bytearray(RUN)
        view = memoryview(RUN)
        call = _arguments.Call(noted, noted, 4096)
        with mock.patch.object(_arguments, "_has_lock", lambda: False):
            _arguments.in_place(call, (), written, "recording", ())
            _arguments.in_place(call, (), view, "recording", ())
            self.assertEqual(mill.question(written, "peaks(A)"), TOPS)
            self.assertEqual(mill.thin(mill.Recording(written)), mill.thin(RUN))
            self.refused(4, mill.entry, bytearray())
        _arguments.in_place(call, (), written, "recording", ())
        lies = [ctypes.addressof(ctypes.c_char.from_buffer(written)), ctypes.cast(RUN, ctypes.c_void_p).value]
        self.assertEqual(places, [RUN, lies[1], lies[0]])
        self.assertIs(type(places[0]), bytes)

    def test_of_numpy(self) -> None:
        """NumPy says by a ValueError that an array does not lie in one piece; other ValueErrors stay."""
        for said, kind in (("ndarray is not C-contiguous", BufferError), ("closed", ValueError)):
            with mock.patch.object(_arguments, "_get_buffer", side_effect=ValueError(said)):
                self.says(kind, said, mill.question, bytearray(RUN), "peaks(A)")

    def test_closed_and_scattered(self) -> None:
        released = memoryview(RUN)
        released.release()
        with tempfile.TemporaryFile() as file:
            file.write(RUN)
            file.flush()
            closed = mmap.mmap(file.fileno(), 0)
            closed.close()
        for call in (
            lambda what: mill.question(what, "peaks(A)"),
            mill.thin,
            mill.entry,
            mill.Recording,
            mill.Thinning().take,
            mill.Live().add,
            mill.Report(1, "lag", 0).add,
            lambda what: mill.find(what, 0, 0),
            lambda what: mill.question(RUN, what),
            mill.Entry.from_bytes,
            mill.Reading.from_bytes,
            mill.Set.from_bytes,
            mill.Live.from_bytes,
        ):
            self.says(ValueError, "released", call, released)
            self.says(ValueError, "closed", call, closed)
            self.says(BufferError, "contiguous", call, memoryview(RUN)[::2])
            self.says(BufferError, "contiguous", call, memoryview(RUN)[::-1])

    def test_wrong_types(self) -> None:
        for wrong in (None, 5, 5.0, "peaks(A)", object(), [1], [b"x"], {}, iter(RUN), type, TOPS):
            name = type(wrong).__name__
            self.says(TypeError, f"recording must be bytes or another buffer, not {name}", mill.question, wrong, "peaks(A)")
            self.says(TypeError, f"recording must be bytes or another buffer, not {name}", mill.thin, wrong)
            self.says(TypeError, f"piece must be bytes or another buffer, not {name}", mill.Thinning().take, wrong)
            self.says(TypeError, f"reading must be bytes or another buffer, not {name}", mill.Live().add, wrong)
        for wrong in (None, 5, object(), ["p"], TOPS):
            self.says(TypeError, f"text must be str, bytes or another buffer, not {type(wrong).__name__}", mill.question, RUN, wrong)
        for wrong in (None, 5.0, "5", b"5", object(), [5], float("nan")):
            name = type(wrong).__name__
            self.says(TypeError, f"target must be a whole number, not {name}", mill.degree, RUN, "lag", wrong)
            for call in (mill.pair, mill.lab_pair, mill.find):
                self.says(TypeError, f"curve must be mill.Curve.A or mill.Curve.B, or its number, not {name}", call, RUN, wrong, 5)
            self.says(TypeError, f"e must be a whole number, not {name}", mill.band, RUN, "high(A)", wrong)
            self.says(TypeError, f"count must be a whole number, not {name}", mill.Report, wrong, "lag", 5)
            self.says(TypeError, f"name must be a whole number, not {name}", mill.Live().save, wrong)
            self.says(TypeError, f"level must be a whole number, not {name}", mill.find, b"", 0, wrong)
            self.says(TypeError, f"a mark must be a whole number, not {name}", mill.thin, RUN, [wrong])
        for wrong in (None, 5, object()):
            self.says(TypeError, f"marks must be whole numbers or bytes, not {type(wrong).__name__}", mill.thin, RUN, wrong)
            self.says(TypeError, f"sheet must be pairs of pigments or bytes, not {type(wrong).__name__}", mill.order, RUN, wrong)
            name = type(wrong).__name__
            self.says(TypeError, f"entries must be a buffer or entries, not {name}", mill.find, wrong, 0, 0)
            self.says(TypeError, f"a recording must be bytes, another buffer or readings, not {name}", mill.Recording, wrong)
        self.says(TypeError, "a line of a sheet must be two pigments", mill.order, RUN, [(1, 2, 3)])
        self.says(TypeError, "a line of a sheet must be two pigments", mill.order, RUN, [7])
        self.says(TypeError, "a pigment must be a whole number, not str", mill.order, RUN, [("1", 2)])
        self.says(TypeError, "a reading must be a Reading, not tuple", mill.Recording, [(0, 1, 2)])
        self.says(TypeError, "an entry must be an Entry, not int", mill.find, [5], 0, 0)
        self.says(TypeError, "time must be a whole number, not str", mill.Recording, [mill.Reading("0", 1, 2)])  # type: ignore[arg-type]
        self.says(TypeError, "held must be bytes or another buffer, not str", mill.Thinning, [5], "x")

    def test_texts_and_mappings(self) -> None:
        """Where several values are wanted, a text or a mapping is not meant, though it has some, or none."""
        for wrong in ("", "12", {}, {1: 2}, {(1, 2): 3}, MappingProxyType({}), type("S", (str,), {})()):
            name = type(wrong).__name__
            for call in (mill.Live, mill.Thinning, lambda marks: mill.thin(RUN, marks), lambda marks: mill.lab_question(RUN, marks, "lag")):
                self.says(TypeError, f"marks must be whole numbers or bytes, not {name}", call, wrong)
            self.says(TypeError, f"sheet must be pairs of pigments or bytes, not {name}", mill.order, RUN, wrong)
            self.says(TypeError, f"entries must be a buffer or entries, not {name}", mill.find, wrong, 0, 0)
            self.says(TypeError, f"a recording must be bytes, another buffer or readings, not {name}", mill.Recording, wrong)
        for line in ({1: 2, 3: 4}, {1, 2}, frozenset((1, 2))):
            self.says(TypeError, "a line of a sheet must be two pigments", mill.order, RUN, [line])

    def test_of_ctypes(self) -> None:
        """What ctypes itself would unpack is taken for what it is, a buffer, and never followed."""
        pointers = [ctypes.c_void_p(1), ctypes.c_char_p(b"x"), ctypes.pointer(ctypes.c_int(5))]
        for wrapped in (ctypes.py_object(), ctypes.py_object(RUN), *pointers):
            self.refused(1, mill.question, wrapped, "peaks(A)")
            self.refused(1, mill.thin, wrapped)
            self.refused(6, mill.question, RUN, wrapped)
            self.refused(20, mill.find, wrapped, 0, 0)
        self.says(TypeError, "target must be a whole number", mill.degree, RUN, "lag", ctypes.c_int64(5))


class Numbers(Refused):
    def test_any_size(self) -> None:
        """Numbers for which C has no room get the refusal that the library gives of those beyond its limits, in its order."""
        for huge in (1 << 31, 1 << 32, 1 << 63, 1 << 64, 10**100, -1, -(1 << 31) - 1, -(1 << 63) - 1, -(10**100)):
            self.refused(11, mill.thin, RUN, [huge])
            self.refused(12, mill.pair, RUN, huge, 5)
            self.refused(15, mill.Report, huge, "lag", 0)
            self.refused(18, mill.Live().save, huge)
            self.refused(18, mill.Live().restore, huge)
            self.refused(13, mill.order, RUN, [(huge, 1)])
            self.refused(13, mill.order, RUN, [(1, huge)])
            self.refused(3, mill.Recording, [mill.Reading(huge, 0, 0)])
            self.refused(3, mill.Reading(0, 0, 0, huge).to_bytes)
            self.refused(3, mill.Reading(0, 0, 0, pigment=huge).to_bytes)
            self.refused(3, mill.Live().add, mill.Reading(0, 0, 0, slope_b=huge))
            self.refused(16, mill.band, RUN, "high(A)", huge)
            self.refused(1, mill.degree, RUN[:5], "lag", huge)
            if abs(huge) > 2000000000:
                self.refused(12, mill.degree, RUN, "lag", huge)
                self.refused(12, mill.find, b"", 0, huge)
                self.refused(3, mill.Recording, [mill.Reading(0, huge, 0)])
                self.refused(3, mill.Recording, [mill.Reading(0, 0, huge)])
        self.refused(3, mill.Recording, [mill.Reading(0, 0, 0), mill.Reading(0, 0, 0), mill.Reading(1, 1 << 70, 0)])

    def test_like_numbers(self) -> None:
        class Index:
            def __index__(self) -> int:
                return 30

        self.assertTrue(mill.degree(RUN, "peaks(A)", Index()).met)  # type: ignore[arg-type]
        self.assertTrue(mill.degree(RUN, "high(A)", True).met)
        self.assertIn(Index(), TOPS)

    def test_endless(self) -> None:
        """Of what never ends as much is taken as makes it too long."""
        self.refused(11, mill.thin, RUN, itertools.repeat(5))
        self.refused(13, mill.order, RUN, itertools.repeat((1, 2)))
        self.refused(2, mill.Recording, (mill.Reading(time, 0, 0) for time in itertools.count()))
        self.refused(20, mill.find, itertools.repeat(mill.entry(RUN)), 0, 0)
        self.refused(5, mill.question, RUN, "x" * 10_000_000)
        self.refused(5, mill.question, RUN, bytearray(10_000_000))

    def test_marks(self) -> None:
        """Bytes are the C header's, everything else is numbers."""
        falling = mill.Recording([mill.Reading(time, -time, 0) for time in range(0, 4000, 100)])
        under = mill.thin(falling, [2000])
        self.assertNotEqual(under, mill.thin(falling))
        self.assertNotEqual(under, mill.thin(falling, [2000, 0]))
        for marks in ((2000,), iter([2000]), {2000}, range(2000, 2001), array.array("H", [2000]), array.array("Q", [2000])):
            self.assertEqual(mill.thin(falling, marks), under)
        packed = (2000).to_bytes(4, "little")
        for marks in (packed, bytearray(packed), memoryview(packed), memoryview(array.array("I", [2000]))):
            self.assertEqual(mill.thin(falling, marks), under)
        self.assertEqual(mill.thin(falling, memoryview(array.array("H", [2000]))), under)
        for partial in (packed[:3], packed + b"x", bytes(33), bytes(36), bytes(1000)):
            self.refused(11, mill.thin, falling, partial)
        for odd in (b"\1", b"\1\2\3", bytes([1] * 66)):
            self.refused(13, mill.order, falling, odd)


class Texts(Refused):
    def test_kinds(self) -> None:
        for kind in ("peaks(A)", b"peaks(A)", bytearray(b"peaks(A)"), memoryview(b"peaks(A)"), type("S", (str,), {})("peaks(A)")):
            self.assertEqual(mill.question(RUN, kind), TOPS)

    def test_any_characters(self) -> None:
        for text in ("é", "\ud800", "\0", "peaks(А)", "\U0010ffff" * 64, "x" * 256):
            self.refused(6, mill.question, RUN, text)
        for text in ("", "é" * 129, "\ud800" * 86, "x" * 257):
            self.refused(5, mill.question, RUN, text)


class Values(Refused):
    def test_sets(self) -> None:
        reached = mill.question(RUN, "high(A)|T=v&A<0")
        self.assertIn(90, reached)
        self.assertIn(90.0, reached)
        for other in (91, 90.5, float("nan"), float("inf"), 10**100, -(10**100), "90", None, object(), 1j):
            self.assertNotIn(other, reached)
        self.assertEqual(len(TOPS), 2)
        self.assertEqual(list(TOPS), [30, 70])
        self.assertEqual([run.numbers for run in TOPS.runs], [range(30, 31), range(70, 71)])
        self.assertEqual(len(mill.question(RUN, "!lag")), 4000000001)
        self.assertEqual(repr(mill.question(RUN, "!lag")), "<mill.Set -2000000000 to 2000000000>")
        self.assertEqual(mill.Set(), mill.question(RUN, "lag"))
        self.assertFalse(mill.Set())
        self.assertNotEqual(TOPS, (30, 70))
        self.assertEqual(hash(TOPS), hash(mill.Set.from_bytes(TOPS.to_bytes())))
        many = mill.question(BATCH, "T>=v&!(T=v)|peaks(A)|dips(A)|dose(7)")
        for number in range(-5, 3000):
            self.assertEqual(number in many, any(run.low <= number <= run.high for run in many.runs))
        low, high = (-2000000001).to_bytes(4, "little", signed=True), (5).to_bytes(4, "little")
        for wrong in (b"x", low + high, high + low, (high + high) * 2, bytes(2049), TOPS.to_bytes()[8:] + TOPS.to_bytes()[:8]):
            self.says(ValueError, "runs must be those of a set", mill.Set.from_bytes, wrong)

    def test_recordings(self) -> None:
        run = mill.Recording(RUN)
        self.assertEqual(mill.Recording(list(run)).to_bytes(), RUN)
        self.assertEqual(mill.Recording(run), run)
        self.assertEqual(run[2:4], (run[2], run[3]))
        self.assertEqual([reading.time for reading in reversed(run)], [70, 60, 50, 40, 30, 20, 10, 0])
        self.assertIn(run[3], run)
        self.assertEqual(run.index(run[3]), 3)
        for place in (8, -9, 10**30):
            self.assertRaises(IndexError, run.__getitem__, place)
        self.says(TypeError, "", run.__getitem__, "0")
        self.assertEqual(len(mill.Recording(b"")), 0)
        self.assertEqual(len(mill.Recording([])), 0)
        self.refused(1, mill.Recording, RUN[:5])
        self.refused(2, mill.Recording, bytes(16 * 4097))
        self.refused(3, mill.Recording, RUN[16:] + RUN[:16])
        self.refused(1, mill.Reading.from_bytes, RUN[:15])
        self.refused(1, mill.Reading.from_bytes, RUN[:32])
        self.refused(3, mill.Reading.from_bytes, b"\xff" * 16)
        self.assertEqual(mill.Reading.from_bytes(run[5].to_bytes()), run[5])
        written = bytearray(RUN)
        later = mill.Recording(written)
        written[12] = 77
        self.refused(3, later.__getitem__, 0)
        self.refused(3, list, later)
        self.refused(3, mill.question, later, "peaks(A)")

    def test_entries(self) -> None:
        entry = mill.entry(BATCH)
        self.assertEqual(mill.Entry.from_bytes(entry.to_bytes()), entry)
        self.says(ValueError, "an entry is 32 bytes", mill.Entry.from_bytes, bytes(31))
        self.says(ValueError, "must fit in 32 bits", entry._replace(tops_a=-1).to_bytes)
        self.says(ValueError, "must fit in 32 bits", mill.find, [entry._replace(greatest_a=1 << 31)], 0, 0)
        self.says(TypeError, "least_b must be a whole number", entry._replace(least_b=1.5).to_bytes)  # type: ignore[arg-type]
        self.assertEqual(mill.find([], 0, 0), [])

    def test_states(self) -> None:
        run = mill.Live([40])
        run.add(RUN[:16])
        run.save(1)
        other = copy.deepcopy(run)
        other.add(RUN[16:32])
        self.assertEqual((len(run.kept()), len(other.kept())), (16, 32))
        pickled = pickle.loads(pickle.dumps(other))
        self.assertEqual(pickled.kept(), other.kept())
        for few in (b"", b"x", bytes(18623), bytes(18624), b"\xff" * 18624, run.to_bytes()[:-1]):
            self.refused(11, mill.Live.from_bytes(few).kept)
            self.refused(11, mill.Live.from_bytes(few).add, RUN[:16])
            self.assertEqual(mill.Live.from_bytes(few).to_bytes(), few)
        report = mill.Report(2, "peaks(A)", 30)
        for few in (b"", bytes(320), report.to_bytes()[:-1]):
            self.refused(15, mill.Report.from_bytes(few).add, RUN)
        self.refused(4, report.add, b"")
        self.refused(15, report.add, RUN)
        self.refused(11, mill.Live, [0] * 9)
        self.refused(11, mill.Thinning, [0] * 9)

    def test_pickles(self) -> None:
        """What a process hands to another arrives."""
        broken = mill.order(mill.Recording([mill.Reading(10, 0, 0, pigment=2)]), [(1, 2)])
        answers = [TOPS, mill.entry(RUN), mill.degree(RUN, "lag", 5), mill.pair(RUN, 0, 40), mill.band(RUN, "low(A)", 1), broken]
        for value in [*answers, mill.Recording(RUN)]:
            self.assertEqual(pickle.loads(pickle.dumps(value)), value)
        refusal = pickle.loads(pickle.dumps(mill.Refusal(3, 7)))
        self.assertEqual((refusal.number, refusal.place, str(refusal)), (3, 7, str(mill.Refusal(3, 7))))
        thinning = mill.Thinning([40])
        thinning.take(RUN)
        again = pickle.loads(pickle.dumps(thinning))
        self.assertEqual((again.marks, again.held), (thinning.marks, thinning.held))

    def test_long_pieces(self) -> None:
        """A piece may be longer than a recording; a bad reading is told by its place in the piece."""
        flat = b"".join(mill.Reading(time, 5, 6).to_bytes() for time in range(10000))
        thinning = mill.Thinning()
        thinning.take(flat)
        self.assertEqual(len(thinning.held), 32)
        thinning.take(b"")
        bad = b"".join(mill.Reading(time, 5, 6).to_bytes() for time in range(10000, 19000)) + flat[:16]
        with self.assertRaises(mill.Refusal) as raised:
            thinning.take(bad)
        self.assertEqual((raised.exception.number, raised.exception.place), (3, 9000))
        self.assertEqual(len(thinning.held), 32)
        every = b"".join(mill.Reading(time, 5, 6, pigment=1).to_bytes() for time in range(4096))
        full = mill.Thinning(held=every)
        self.refused(2, full.take, mill.Reading(5000, 5, 6).to_bytes())
        self.refused(2, mill.Thinning, [], every + mill.Reading(5000, 5, 6).to_bytes())


if __name__ == "__main__":
    unittest.main()

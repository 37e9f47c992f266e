"""Covers: that every function and class of the package answers as the C library does, byte for byte and refusal for refusal, on random
calls; the bytes of reports and growing runs after every step too."""

import importlib.util
import os
import random
import struct
import unittest
from typing import Any, Callable, Tuple

import mill
import support
from support import DECLARED, Server, marks, packed_marks, recording, target, text

TIMES = int(os.environ.get("MILL_TIMES", "1"))
SEED = int(os.environ.get("MILL_SEED", "41"))
EIGHT, FOUR = b"\x11" * 8, b"\x22" * 4


def outcome(call: Callable[..., Any], *arguments: Any) -> Tuple[str, Any]:
    """What a function of the package gave: its result, or the refusal."""
    try:
        return "result", call(*arguments)
    except mill.Refusal as refusal:
        return "refused", (refusal.number, refusal.place)


class Compare(unittest.TestCase):
    server: Server
    pairs = 0

    @classmethod
    def setUpClass(cls) -> None:
        cls.server = Server()

    @classmethod
    def tearDownClass(cls) -> None:
        cls.server.close()
        print(f"compared calls: {cls.server.made}")

    def check(self, came: Tuple[str, Any], returned: int, wanted: Callable[[], Any], *case: Any) -> None:
        if returned >> 32:
            self.assertEqual(came, ("refused", (returned >> 32, returned & 0xFFFFFFFF)), case)
        else:
            self.assertEqual(came, ("result", wanted()), case)

    def every(self, one: Callable[[random.Random], None], times: int) -> None:
        for number in range(times * TIMES):
            one(random.Random(f"{SEED} {one.__name__} {number}"))

    # ---- the calls on a recording

    def question(self, source: random.Random) -> None:
        rec, asked = recording(source), text(source)
        asked_bytes = asked.encode()
        returned, out = self.server.call("mill_question", rec, asked_bytes, bytes(2048))
        self.check(outcome(lambda: mill.question(rec, asked).to_bytes()), returned, lambda: out[:returned], rec, asked)

    def degree(self, source: random.Random) -> None:
        rec, asked, wanted = recording(source), text(source), target(source)
        returned, distance, near = self.server.call("mill_degree", rec, asked.encode(), wanted, EIGHT, EIGHT)
        self.check(outcome(mill.degree, rec, asked, wanted), returned, lambda: nearness(returned, distance, near), rec, asked, wanted)

    def pair(self, source: random.Random) -> None:
        rec, curve, wanted = recording(source), source.choice([0, 0, 0, 1, 1, 2, 0xFFFFFFFF]), target(source)
        # Mostly a distance of two tops, where there are two.
        returned, gaps = self.server.call("mill_question", rec, b"gaps(B)" if curve == 1 else b"gaps(A)", bytes(2048))
        if 0 < returned < 1 << 32 and source.randrange(5):
            wanted = struct.unpack_from("<i", gaps, 8 * source.randrange(returned // 8))[0]
        for name, call in (("mill_pair", mill.pair), ("mill_lab_pair", mill.lab_pair)):
            returned, earlier, later = self.server.call(name, rec, curve, wanted, FOUR, FOUR)
            told = mill.Pair(number(earlier), number(later)) if returned == 1 else None
            self.pairs += returned == 1
            self.check(outcome(call, rec, curve, wanted), returned, lambda: told, name, rec, curve, wanted)

    def thin(self, source: random.Random) -> None:
        rec, under = recording(source), marks(source)
        returned, out = self.server.call("mill_thin", rec, packed_marks(under), bytes(len(rec)))
        self.check(outcome(mill.thin, rec, under), returned, lambda: out[:returned], rec, under)

    def band(self, source: random.Random) -> None:
        rec, width = recording(source), source.choice([0, 1, 1000000, source.randint(-1, 1000001), target(source)])
        asked = text(source) if source.randrange(4) == 0 else source.choice(
            ["high(A)", "low(B)", "(ampl(A))", f"lowafter(A,{source.randint(0, 90)})", f"capafter(B,{source.randint(0, 90)})"]
        )
        returned, *ends = self.server.call("mill_band", rec, asked.encode(), width, FOUR, FOUR, FOUR, FOUR)
        low, high, lowest, highest = (struct.unpack("<i", end)[0] for end in ends)
        told = mill.Band(mill.Run(low, high) if returned & 1 else None, mill.Run(lowest, highest) if returned & 2 else None)
        self.check(outcome(mill.band, rec, asked, width), returned, lambda: told, rec, asked, width)

    def order(self, source: random.Random) -> None:
        rec = recording(source)
        sheet = [(source.randint(0, 17), source.randint(1, 16)) for _ in range(source.choice([0, 1, 2, 5, 32, 33]))]
        if source.randrange(3):
            sheet = [(max(1, min(a, 16)), b) for a, b in sheet]
        lines = bytes(number for line in sheet for number in line)
        returned, time, line = self.server.call("mill_order", rec, lines, FOUR, FOUR)
        told = mill.Broken(number(time), number(line)) if returned == 1 else None
        self.check(outcome(mill.order, rec, sheet), returned, lambda: told, rec, sheet)
        self.check(outcome(mill.order, rec, lines), returned, lambda: told, rec, lines)

    def laboratory(self, source: random.Random) -> None:
        rec, under, wanted = recording(source), marks(source)[:8], target(source)
        asked = text(source, under) if source.randrange(2) else source.choice(["peaks(A)", "ampl(A)|high(A)", "dose(3)", "A>=v"])
        returned, out = self.server.call("mill_lab_question", rec, packed_marks(under), asked.encode(), bytes(2048))
        came = outcome(lambda: mill.lab_question(rec, under, asked).to_bytes())
        self.check(came, returned, lambda: out[:returned], rec, under, asked)
        returned, distance, near = self.server.call("mill_lab_degree", rec, packed_marks(under), asked.encode(), wanted, EIGHT, EIGHT)
        came = outcome(mill.lab_degree, rec, under, asked, wanted)
        self.check(came, returned, lambda: nearness(returned, distance, near), rec, under, asked, wanted)

    def summary(self, source: random.Random) -> None:
        rec = recording(source)
        returned, entry = self.server.call("mill_entry", rec, bytes(32))
        self.check(outcome(lambda: mill.entry(rec).to_bytes()), returned, lambda: entry, rec)
        count = source.choice([0, 1, 3, 20, 2048, 2049])
        entries = b"".join(struct.pack("<8I", *(source.getrandbits(32) for _ in range(8))) for _ in range(min(count, 20)))
        entries = (entries * 110)[: 32 * count] + b"x" * source.choice([0, 0, 0, 1])
        curve, level = source.choice([0, 1, 2]), target(source)
        returned, out = self.server.call("mill_find", entries, curve, level, bytes(8192))
        wanted = [number for (number,) in struct.iter_unpack("<I", out[:returned] if returned < 1 << 32 else b"")]
        self.check(outcome(mill.find, entries, curve, level), returned, lambda: wanted, entries, curve, level)
        if len(entries) % 32 == 0:
            one_by_one = [mill.Entry.from_bytes(entries[at : at + 32]) for at in range(0, len(entries), 32)]
            self.check(outcome(mill.find, one_by_one, curve, level), returned, lambda: wanted, entries, curve, level)

    # ---- what is carried from call to call

    def report(self, source: random.Random) -> None:
        count, asked, wanted = source.choice([0, 1, 2, 3, 5, 1000, 1001]), text(source), target(source)
        if source.randrange(3):
            asked, wanted = source.choice(["peaks(A)", "high(A)", "gaps(A)|lag"]), source.randint(-50, 50)
        returned, state = self.server.call("mill_report_start", count, asked.encode(), wanted, bytes(320))
        came = outcome(lambda: mill.Report(count, asked, wanted).to_bytes())
        self.check(came, returned, lambda: state, count, asked, wanted)
        if returned:
            return
        report = mill.Report(count, asked, wanted)
        for _ in range(min(count, 5) + 1):
            rec = recording(source)
            returned, state, met, empty, distances, mean = self.server.call("mill_report_add", state, rec, FOUR, FOUR, EIGHT, EIGHT)
            told = None
            if returned in (1, 2):
                exact = struct.unpack("<d", mean)[0] if returned == 1 else None
                told = mill.Figures(number(met), number(empty), struct.unpack("<Q", distances)[0], exact)
            self.check(outcome(report.add, rec), returned, lambda: told, count, asked, wanted, rec)
            self.assertEqual(report.to_bytes(), state)

    def live(self, source: random.Random) -> None:
        under = marks(source)
        returned, state = self.server.call("mill_live_start", packed_marks(under), bytes(18624))
        self.check(outcome(lambda: mill.Live(under).to_bytes()), returned, lambda: state, under)
        if returned:
            return
        run, rec = mill.Live(under), recording(source)
        for at in range(0, len(rec), 16):
            step = source.randrange(6)
            if step < 4:
                returned, state = self.server.call("mill_live_add", state, rec[at : at + 16])
                self.check(outcome(run.add, rec[at : at + 16]), returned, lambda: None, under, rec)
            else:
                name, call, moment = ("mill_live_save", run.save, 0) if step == 4 else ("mill_live_restore", run.restore, 0)
                moment = source.choice([1, 2, 8, 0, 9])
                returned, state = self.server.call(name, state, moment)
                self.check(outcome(call, moment), returned, lambda: None, under, rec, moment)
            self.assertEqual(run.to_bytes(), state)
        returned, out = self.server.call("mill_live_kept", state, bytes(2048))
        self.check(outcome(run.kept), returned, lambda: out[:returned], under, rec)
        returned, entry = self.server.call("mill_live_entry", state, bytes(32))
        self.check(outcome(lambda: run.entry().to_bytes()), returned, lambda: entry, under, rec)

    def pieces(self, source: random.Random) -> None:
        """Thinning piece by piece, each step by the call that the header says."""
        under, rec, held = marks(source)[:8], recording(source, 200), b""
        if self.server.call("mill_thin", b"", packed_marks(under), b"")[0]:
            self.assertEqual(outcome(mill.Thinning, under), ("refused", (11, 0)))
            return
        thinning = mill.Thinning(under)
        while rec:
            piece, rec = rec[: 16 * source.randint(1, 30)], rec[16 * 30 :]
            joined = held + piece
            returned, out = self.server.call("mill_thin", joined, packed_marks(under), bytes(len(joined)))
            came = outcome(thinning.take, piece)
            if returned >> 32:
                place = returned & 0xFFFFFFFF
                place -= len(held) // 16 if returned >> 32 == 3 else 0
                self.assertEqual(came, ("refused", (returned >> 32, place)))
            else:
                held = out[:returned]
            self.assertEqual(thinning.held, held)

    # ---- since 1.1

    def assured(self, source: random.Random) -> None:
        under = marks(source)
        asked = text(source, under)
        (returned,) = self.server.call("mill_assured", asked.encode(), packed_marks(under))
        self.check(outcome(mill.assured, asked, under), returned, lambda: returned == 1, asked, under)

    def test_question(self) -> None:
        self.every(self.question, 3000)

    def test_degree(self) -> None:
        self.every(self.degree, 2000)

    def test_pair(self) -> None:
        self.every(self.pair, 1000)
        self.assertGreater(self.pairs, 200 * TIMES)

    def test_thin(self) -> None:
        self.every(self.thin, 2000)

    def test_band(self) -> None:
        self.every(self.band, 2000)

    def test_order(self) -> None:
        self.every(self.order, 2000)

    def test_laboratory(self) -> None:
        self.every(self.laboratory, 1000)

    def test_summary(self) -> None:
        self.every(self.summary, 500)

    def test_report(self) -> None:
        self.every(self.report, 800)

    def test_live(self) -> None:
        self.every(self.live, 200)

    def test_pieces(self) -> None:
        self.every(self.pieces, 300)

    @unittest.skipUnless("mill_assured" in DECLARED, "include/mill.h does not declare mill_assured")
    def test_assured(self) -> None:
        self.every(self.assured, 2000)

    @unittest.skipUnless("mill_version" in DECLARED, "include/mill.h does not declare mill_version")
    def test_version(self) -> None:
        (returned,) = self.server.call("mill_version")
        self.assertEqual(mill.version(), f"{returned >> 16}.{returned >> 8 & 255}.{returned & 255}")
        self.assertEqual(mill.version(), mill.__version__)

    def test_year(self) -> None:
        """The example that judges recordings by themselves puts them together as a report does, to the last bit."""
        place = os.path.join(support.ROOT, "examples", "year.py")
        loaded = importlib.util.spec_from_file_location("year", place)
        assert loaded and loaded.loader
        year = importlib.util.module_from_spec(loaded)
        loaded.loader.exec_module(year)
        for number in range(50):
            source = random.Random(f"{SEED} year {number}")
            wanted, batches = source.randint(-100, 100), []
            while len(batches) < 40:
                batch = recording(source)
                if outcome(mill.degree, batch, "peaks(A)|lag", wanted)[0] == "result":
                    batches.append(batch)
            report = mill.Report(len(batches), "peaks(A)|lag", wanted)
            figures = [report.add(batch) for batch in batches][-1]
            self.assertEqual(year.together(mill.degree(batch, "peaks(A)|lag", wanted) for batch in batches), figures)

    def test_every_call_is_compared(self) -> None:
        """Every call that the header declares stands in this file."""
        with open(__file__, encoding="utf-8") as file:
            here = file.read()
        for name in DECLARED:
            self.assertIn(f'"{name}"', here)


def number(place: bytes) -> int:
    return int(struct.unpack("<I", place)[0])


def nearness(returned: int, distance: bytes, near: bytes) -> mill.Degree:
    if returned == 0:
        return mill.Degree(True, 0, 1.0)
    if returned == 1:
        return mill.Degree(False, struct.unpack("<d", distance)[0], struct.unpack("<d", near)[0])
    return mill.Degree(False, None, None)


if __name__ == "__main__":
    unittest.main()

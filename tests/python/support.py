"""What the tests of the package share: the recordings, random ones and random texts, and the C library behind a server."""

import os
import random
import struct
import subprocess
import sys
from typing import Any, Dict, List, Optional, Sequence, Tuple

ROOT = os.path.dirname(os.path.dirname(os.path.dirname(os.path.abspath(__file__))))
sys.path.insert(0, os.path.join(ROOT, "tests", "calls"))

import declarations  # noqa: E402
from declarations import NUMBER, PLACE, READ, SIZES  # noqa: E402

CALLS = declarations.calls(declarations.header())
DECLARED = {call.name: number for number, call in enumerate(CALLS)}


def data(*place: str) -> bytes:
    with open(os.path.join(ROOT, *place), "rb") as file:
        return file.read()


RUN = data("crates", "ask", "data", "run.rec")
BATCH = data("examples", "batch.rec")


# ---- the C library


class Server:
    """The C library in a process of its own, that is handed calls and gives what each returned and wrote."""

    def __init__(self) -> None:
        command = os.environ["MILL_SERVER"]
        self._process = subprocess.Popen(command, shell=True, stdin=subprocess.PIPE, stdout=subprocess.PIPE)
        self.made = 0

    def call(self, name: str, *arguments: Any) -> Tuple[Any, ...]:
        """What the call returns, and behind it each output and place as it is after the call. An input is bytes, None for a null pointer;
        an output or a place what it holds before."""
        declared = CALLS[DECLARED[name]]
        sent, sizes = [struct.pack("<Q", DECLARED[name])], []
        assert len(arguments) == len(declared.parameters), name
        for parameter, argument in zip(declared.parameters, arguments):
            if parameter.kind == NUMBER:
                sent.append(struct.pack("<q", argument) if argument < 0 else struct.pack("<Q", argument))
                continue
            if parameter.kind == PLACE:
                assert len(argument) == SIZES[parameter.type]
            else:
                sent.append(struct.pack("<Q", (1 << 64) - 1 if argument is None else len(argument)))
            sent.append(argument or b"")
            if parameter.kind != READ:
                sizes.append(len(argument or b""))
        assert self._process.stdin and self._process.stdout
        self._process.stdin.write(b"".join(sent))
        self._process.stdin.flush()
        self.made += 1
        came = self._process.stdout.read(8 + sum(sizes))
        assert len(came) == 8 + sum(sizes), f"the server is gone: {name}{arguments}"
        found, at = [struct.unpack("<Q", came[:8])[0]], 8
        for size in sizes:
            found.append(came[at : at + size])
            at += size
        return tuple(found)

    def close(self) -> None:
        assert self._process.stdin and self._process.stdout
        self._process.stdin.close()
        self._process.stdout.close()
        assert self._process.wait() == 0


# ---- random recordings and texts


def reading(time: int, a: int, b: int, slope_a: int, slope_b: int, pigment: int = 0, spare: int = 0) -> bytes:
    return struct.pack("<IiiBBBB", time, a, b, slope_a, slope_b, pigment, spare)


def recording(source: random.Random, most: int = 40) -> bytes:
    """Mostly a walk that the library takes; one in eight is damaged."""
    count = source.choice([0, 1, 2, 3, source.randint(4, most), source.randint(4, most), source.randint(4, most)])
    wide = source.choice([3, 100, 1000000000])
    time, records = source.randint(0, 5), []
    for _ in range(count):
        a, b = source.randint(-wide, wide), source.randint(-wide, wide)
        pigment = source.choice([0, 0, 0, source.randint(0, 16)])
        records.append(reading(time, a, b, source.randint(0, 2), source.randint(0, 2), pigment))
        time += source.choice([1, 1, 10, source.randint(1, 40000000 // most)])
    whole = bytearray(b"".join(records))
    if source.randrange(8) == 0:
        damage = source.randrange(4)
        if damage == 0:
            whole += bytes(source.randint(1, 15))
        elif damage == 1:
            whole = bytearray(source.randbytes(16 * source.randint(1, 4)) if hasattr(source, "randbytes") else bytes(16))
        elif whole:
            whole[source.randrange(len(whole))] = source.randrange(256)
    return bytes(whole)


_COMPARED = ["A", "B", "T"]


def _number(source: random.Random) -> str:
    return source.choice(["v", "v", str(source.randint(-100, 100)), str(source.randint(-2100000000, 2100000000))])


def _formula(source: random.Random, depth: int) -> str:
    kind = source.randrange(10 if depth else 3)
    if kind == 0:
        return source.choice(_COMPARED) + source.choice([">=", "<=", ">", "<", "="]) + _number(source)
    if kind == 1:
        return "A" + source.choice([">=", "<=", ">", "<", "="]) + "B"
    if kind == 2:
        return source.choice(["fall(A)", "fall(B)", "rise(A)", "rise(B)", f"P={source.randint(0, 17)}"])
    if kind in (3, 4):
        return source.choice(["F", "G", "X"]) + "(" + _formula(source, depth - 1) + ")"
    if kind == 5:
        return source.choice(["U", "W"]) + f"({_formula(source, depth - 1)},{_formula(source, depth - 1)})"
    if kind == 6:
        return "!" + _formula(source, depth - 1)
    if kind == 7:
        return "(" + _formula(source, depth - 1) + ")"
    return _formula(source, depth - 1) + source.choice("|&") + _formula(source, depth - 1)


def _listed(source: random.Random, marks: Sequence[int]) -> str:
    curve = source.choice("AB")
    after = source.choice([*marks, source.randint(0, 100)]) if marks else source.randint(0, 100)
    return source.choice(
        [
            f"high({curve})",
            f"low({curve})",
            f"lowafter({curve},{after})",
            f"capafter({curve},{after})",
            f"peaks({curve})",
            f"dips({curve})",
            "cross",
            "crossup",
            f"dose({source.randint(1, 16)})",
            f"ampl({curve})",
            f"gaps({curve})",
            f"steps({curve})",
            "lag",
        ]
    )


def text(source: random.Random, marks: Sequence[int] = ()) -> str:
    """Mostly a text that is read; one in ten has a byte changed, or is no text at all."""
    kind = source.randrange(4)
    if kind == 0:
        made = _formula(source, 3)
    else:
        made = source.choice("|&").join(source.choice(["", "!"]) + _listed(source, marks) for _ in range(kind))
    if source.randrange(10) == 0:
        at = source.randint(0, len(made))
        made = source.choice([made[:at] + chr(source.randint(0, 300)) + made[at + 1 :], "", "!" * 300, "(" * 256, "é"])
    return made


def marks(source: random.Random) -> List[int]:
    count = source.choice([0, 1, 2, 3, 8, 9])
    return [source.choice([0, 10, 40, source.randint(0, 2000000001), 2000000000]) for _ in range(count)]


def packed_marks(numbers: Sequence[int]) -> bytes:
    return struct.pack(f"<{len(numbers)}I", *numbers)


def target(source: random.Random) -> int:
    return source.choice([0, source.randint(-100, 100), source.randint(-2000000000, 2000000000), 2000000001, -2000000001, 1 << 62])


def environment(**changed: Optional[str]) -> Dict[str, str]:
    """The environment with changes; None takes a name out."""
    new = {**os.environ, **{name: value for name, value in changed.items() if value is not None}}
    for name, value in changed.items():
        if value is None:
            new.pop(name, None)
    return new

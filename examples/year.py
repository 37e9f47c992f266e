"""year TEXT TARGET RECORDING..: what `report` says, of any number of recordings, over all cores.

Each recording is judged by itself, in some process, and nothing is shared: `judged` may as well be mapped over a cluster. What comes back
is put together in the order of the recordings, so that the figures are those of a report, to the last bit."""

import sys
from concurrent.futures import ProcessPoolExecutor
from functools import partial
from pathlib import Path
from typing import Iterable

import mill


def judged(text: str, target: int, name: str) -> mill.Degree:
    return mill.degree(Path(name).read_bytes(), text, target)


def together(degrees: Iterable[mill.Degree]) -> mill.Figures:
    """The figures of a report over these, in their order."""
    met = empty = distances = counted = 0
    total = 0.0
    for met_here, distance, degree in degrees:
        if distance is None or degree is None:
            empty += 1
            continue
        met += met_here
        distances += distance
        counted += 1
        total += degree
    return mill.Figures(met, empty, distances, total / counted if counted else None)


def main(arguments: "list[str]") -> int:
    if len(arguments) < 3:
        print("usage: year TEXT TARGET RECORDING..", file=sys.stderr)
        return 2
    text, target, *names = arguments
    try:
        with ProcessPoolExecutor() as pool:
            figures = together(pool.map(partial(judged, text, int(target)), names, chunksize=64))
    except mill.Refusal as refusal:
        print(f"refused {refusal.number} {refusal.place}: {refusal.sentence}", file=sys.stderr)
        return 1
    except (OSError, ValueError) as error:
        print(error, file=sys.stderr)
        return 2
    print(f"met {figures.met}, empty {figures.empty}, distances {figures.distances}")
    if figures.mean is not None:
        print(f"mean degree {figures.mean:.6f}")
    return 0


if __name__ == "__main__":
    sys.exit(main(sys.argv[1:]))

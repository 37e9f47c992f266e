"""thin KEPT [MARK..] <RECORDING: thins a recording of any length, piece by piece as it comes in, into the file KEPT.
A works would also note the marks beside it, and write it so that no crash loses it, as the tool `mill` does."""

import sys
from pathlib import Path

import mill

PIECE = 4 * 16


def main(arguments: "list[str]") -> int:
    if not arguments:
        print("usage: thin KEPT [MARK..] <RECORDING", file=sys.stderr)
        return 2
    name, *marks = arguments
    came = 0
    try:
        thinning = mill.Thinning([int(mark) for mark in marks])
        # A piece that is refused is not taken; what is held stays.
        for piece in iter(lambda: sys.stdin.buffer.read(PIECE), b""):
            thinning.take(piece)
            came += len(piece)
        Path(name).write_bytes(thinning.held)
    except mill.Refusal as refusal:
        print(f"refused {refusal.number} {refusal.place}: {refusal.sentence}", file=sys.stderr)
        return 1
    except (OSError, ValueError) as error:
        print(error, file=sys.stderr)
        return 2
    print(f"{came // 16} readings, {len(thinning.held) // 16} kept")
    return 0


if __name__ == "__main__":
    sys.exit(main(sys.argv[1:]))

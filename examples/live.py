"""live RECORDING [MOMENT]: hands a run its readings one by one, as a mill does, and prints how many are held after each.
After the reading of that number, from 1, a moment is set; in the end the run goes back to it."""

import sys
from pathlib import Path

import mill


def grown(recording: bytes, moment: int) -> None:
    run = mill.Live()
    for number, at in enumerate(range(0, len(recording), 16), 1):
        run.add(recording[at : at + 16])
        if number == moment:
            run.save(1)
        print(f"{len(run.kept()) // 16} held")
    if moment:
        run.restore(1)
        print(f"gone back: {len(run.kept()) // 16} held")


def main(arguments: "list[str]") -> int:
    if not arguments:
        print("usage: live RECORDING [MOMENT]", file=sys.stderr)
        return 2
    try:
        grown(Path(arguments[0]).read_bytes(), int(arguments[1]) if arguments[1:] else 0)
        return 0
    except mill.Refusal as refusal:
        print(f"refused {refusal.number} {refusal.place}: {refusal.sentence}", file=sys.stderr)
        return 1
    except (OSError, ValueError) as error:
        print(error, file=sys.stderr)
        return 2


if __name__ == "__main__":
    sys.exit(main(sys.argv[1:]))

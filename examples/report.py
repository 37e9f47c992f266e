"""report TEXT TARGET RECORDING..: how near the numbers of one question came to a wanted one, over all the recordings."""

import sys
from pathlib import Path

import mill


def main(arguments: "list[str]") -> int:
    if len(arguments) < 3:
        print("usage: report TEXT TARGET RECORDING..", file=sys.stderr)
        return 2
    text, target, *names = arguments
    figures = None
    try:
        report = mill.Report(len(names), text, int(target))
        for name in names:
            figures = report.add(Path(name).read_bytes())
    except mill.Refusal as refusal:
        print(f"refused {refusal.number} {refusal.place}: {refusal.sentence}", file=sys.stderr)
        return 1
    except (OSError, ValueError) as error:
        print(error, file=sys.stderr)
        return 2
    assert figures is not None, "the last recording gives the figures"
    print(f"met {figures.met}, empty {figures.empty}, distances {figures.distances}")
    if figures.mean is not None:
        print(f"mean degree {figures.mean:.6f}")
    return 0


if __name__ == "__main__":
    sys.exit(main(sys.argv[1:]))

"""ask RECORDING TEXT: all whole numbers that make the text true of the recording, one run a line."""

import sys
from pathlib import Path

import mill


def main(arguments: "list[str]") -> int:
    if len(arguments) != 2:
        print("usage: ask RECORDING TEXT", file=sys.stderr)
        return 2
    name, text = arguments
    try:
        for run in mill.question(Path(name).read_bytes(), text).runs:
            print(run.low, run.high)
        return 0
    except mill.Refusal as refusal:
        print(f"refused {refusal.number} {refusal.place}: {refusal.sentence}", file=sys.stderr)
        return 1
    except OSError as error:
        print(error, file=sys.stderr)
        return 2


if __name__ == "__main__":
    sys.exit(main(sys.argv[1:]))

#!/usr/bin/env python3
"""Moves each crate's laws from specs/laws to proofs/laws: a law is a proof about definitions, and no contract cites one.

usage: python3 tools/move_laws.py        at the top of the repository

An edit of a definition then reads as refused where a law of it falls. Statements stay word for word; paths `Rattle.X.specs.laws.Y`
become `Rattle.X.proofs.laws.Y`.
"""

import pathlib
import re
import subprocess

CRATES = pathlib.Path(__file__).resolve().parents[1] / "crates"


def main():
    moved = []
    for crate in sorted(p for p in CRATES.iterdir() if (p / "src").is_dir()):
        laws = crate / "specs" / "laws"
        if not laws.is_dir():
            continue
        proofs = crate / "proofs"
        proofs.mkdir(exist_ok=True)
        if (proofs / "laws").exists():
            raise SystemExit(f"{proofs}/laws is there already")
        subprocess.run(["git", "mv", str(laws), str(proofs / "laws")], check=True)
        subprocess.run(["git", "mv", str(crate / "specs" / "laws.antt"), str(proofs / "laws.antt")], check=True)
        lib = crate / "specs" / "Lib.antt"
        text = re.sub(r"(?m)^pub mod laws\n", "", lib.read_text(encoding="utf-8"))
        if text.strip():
            lib.write_text(text, encoding="utf-8")
        else:
            lib.unlink()
        lib = proofs / "Lib.antt"
        have = lib.read_text(encoding="utf-8") if lib.is_file() else ""
        lib.write_text(have + "pub mod laws\n", encoding="utf-8")
        moved.append(crate.name)
    for path in sorted(CRATES.rglob("*")):
        if path.suffix in (".antt", ".rt") and "out" not in path.relative_to(CRATES).parts:
            text = path.read_text(encoding="utf-8")
            new = re.sub(r"(?<![\w.])Rattle\.(\w+)\.specs\.laws\b", r"Rattle.\1.proofs.laws", text)
            if new != text:
                path.write_text(new, encoding="utf-8")
    for path in sorted(CRATES.glob("*/must-fail/*.edit")):
        text = path.read_text(encoding="utf-8")
        new = re.sub(r"(?m)^file: specs/laws/", "file: proofs/laws/", text)
        if new != text:
            path.write_text(new, encoding="utf-8")
    print(f"{len(moved)} crates: {' '.join(moved)}")


main()

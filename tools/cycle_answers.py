#!/usr/bin/env python3
"""Turns the answers of a cycle's Proof.antt (two or more functions that call one another) as tools/to_answers.py does of one function's.

usage: python3 tools/cycle_answers.py CRATE FOLDER        FOLDER below the crate's proofs/, as +child_eval

The measures are written by hand, in Invariants.antt.
"""

import re
import sys

sys.path.insert(0, __file__.rsplit("/", 1)[0])
from to_answers import ROOT, TOKEN, SEARCH, Turn, blocks, names_of, used


def main():
    crate, folder = sys.argv[1:]
    names = names_of(crate)
    key = f"Rattle-{crate}-proofs.{folder.replace('/', '.')}.Lts-"
    turns = {k[len(key) :].replace("_", "-"): (Turn(v), v["stem"]) for k, v in names.items() if k.startswith(key)}
    path = ROOT / "crates" / crate / "proofs" / folder / "Proof.antt"
    header, uses, parts = blocks(path.read_text(encoding="utf-8"))
    dropped = r"\.(Reads as|Kinds as|Lts-\S+ as|\{statement\}|Tie\.\{close\}|Statement\.\{statement\}|Tie as)|use borrow\.Fn\."
    uses = [u for u in uses if not re.search(dropped, u)]
    answers, helpers = [], []
    for b in parts:
        lines = b.text.splitlines()
        comment = []
        while lines and lines[0].startswith("--"):
            comment.append(lines.pop(0))
        found = re.match(r"^(\S+) : \(t : ℕ\) → (\S+?)-lts\.Need-(\S+)", lines[0]) if lines else None
        if not found:
            helpers.append(b)
            continue
        name, function, need = found.groups()
        turn, stem = turns[function.replace("_", "-")]
        new = turn.need(need)
        unfolding = [l for l in lines[1:] if l.startswith("unfolding ")]
        text = "\n".join(l for l in lines[1:] if not l.startswith("unfolding "))
        clause = re.match(r"^%s((?: [^\s=]+)*?) =" % re.escape(name), text)
        body = text[clause.end() :]
        if SEARCH.match(" ".join(body.split())):
            continue
        if new is None:
            print(f"{name}: no goal {need}")
            continue
        turn.stand(new)
        # What was required stood behind the measure's equation, which `omega` finds by itself.
        turned = turn.body(body)
        turned = re.sub(r"\(arith, c\.requires\.0\)", "arith", turned)
        turned = re.sub(r", c\.requires\.0(?![.\w])", "", turned)
        turned = turned.replace("c.requires.1", "c.requires")
        arguments = [a for a in clause[1].split() if a != "κs"]
        full = f"{stem}{new}"
        answers.append("\n".join(comment + [f"pub {full} : goal.{full}"] + unfolding + [f"{full} {' '.join(arguments)} ={turned}"]))
    words = {w for a in answers for w in TOKEN.findall(a)}
    out = [l for l in header if l.strip()] + uses + [f"use Rattle.{crate}.proofs.{folder.replace('/', '.')}.Goals as goal"]
    for b in used(words, helpers):
        out += ["", b.text]
    for a in answers:
        out += ["", a]
    (path.parent / "Answers.antt").write_text("\n".join(out) + "\n", encoding="utf-8")
    for b in helpers:
        if "μ" in b.name:
            print(b.text)
    path.unlink()


main()

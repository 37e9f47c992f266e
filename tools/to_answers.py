#!/usr/bin/env python3
"""Turns proofs that walk the code (Proof.antt) into invariants and answers (Invariants.antt, Answers.antt).

usage: python3 tools/to_answers.py CRATE..        at the top of the repository

Each CRATE's names, old and new, are those that `rt check --generated DIR --old-names` lists. An answer that only searches is left out,
for the check searches by itself. What cannot be turned is told, and that Proof.antt stays. Proofs of cycles are turned by hand.
"""

import json
import pathlib
import re
import subprocess
import sys
import tempfile

ROOT = pathlib.Path(__file__).resolve().parents[1]
W = r"[^\s(){}.;,@\"«»\[\]\\]+"
TOKEN = re.compile(r"--[^\n]*|\"(?:[^\"\\\n]|\\.)*\"|" + W)
SEARCH = re.compile(r"^search \(?rules\)?$")


def loose(name):
    """A step's name without its marks: port.py took some for names of types."""
    return re.sub("[-_]", "", name).lower().replace("isis", "is")


def norm(name):
    return name.replace("_", "-")


def names_of(crate):
    with tempfile.TemporaryDirectory() as folder:
        subprocess.run(["rt", "check", "--generated", folder, "--old-names"], cwd=ROOT / "crates" / crate, stdout=subprocess.DEVNULL, stderr=subprocess.DEVNULL)
        path = pathlib.Path(folder) / "names.json"
        return json.loads(path.read_text(encoding="utf-8")) if path.is_file() else {}


class Block:
    """A top-level declaration: its comment, signature and clauses."""

    def __init__(self, text):
        self.text = text
        lines = [l for l in text.splitlines() if l.strip() and not l.lstrip().startswith("--")]
        self.head = lines[0] if lines else ""
        found = re.match(r"^((?:abbrev |unfoldable |pub )*)(record|data|module)?\s*(\S+)", self.head)
        self.kind = found[2] if found else None
        self.name = found[3] if found else ""
        if self.kind == "module":
            self.declares = set(re.findall(r"(?m)^  (?:(?:abbrev|unfoldable|pub|record|data) )*([^\s:(]+)(?=[ :])", text))
        else:
            self.declares = {self.name}
            if self.kind == "data":
                self.declares |= set(re.findall(r"(?m)^  (?:pub )?([^\s:(]+) :", text))

    def words(self):
        return {w for w in TOKEN.findall(self.text) if not w.startswith(("--", '"'))}


def blocks(text):
    """The header comment, the `use` lines, and the declarations."""
    lines = text.splitlines()
    at = 0
    header = []
    while at < len(lines) and (lines[at].startswith("--") or not lines[at].strip()):
        header.append(lines[at])
        at += 1
    uses, rest = [], []
    text = re.sub(r"(?m)^((?:pub )?use [^\n{]*\{)([^}]*)\}", lambda m: m[1] + " ".join(m[2].split()).rstrip(",") + "}", "\n".join(lines[at:]))
    for line in text.splitlines():
        (uses if re.match(r"^(pub )?use ", line) else rest).append(line)
    out, current = [], []
    for line in rest:
        begins = line and not line[0].isspace() and line[0] not in "})]" and not line.startswith("--")
        if begins and current:
            name = re.match(r"^(?:(?:abbrev|unfoldable|pub|record|data) )*(\S+)", line)[1]
            have = [l for l in current if l.strip() and not l.startswith("--")]
            own = re.match(r"^(?:(?:abbrev|unfoldable|pub|record|data) )*(\S+)", have[0])[1] if have else None
            is_clause = have and (name == own or line.startswith("unfolding ")) and not re.match(r"^(record|data|module|pub record|pub data) ", line)
            if have and not is_clause:
                # a comment just above belongs to what follows
                tail = []
                while current and (current[-1].startswith("--") or not current[-1].strip()):
                    tail.insert(0, current.pop())
                out.append("\n".join(current))
                current = tail
        current.append(line)
    if any(l.strip() for l in current):
        out.append("\n".join(current))
    return header, uses, [Block("\n".join(l for l in b.strip("\n").splitlines())) for b in out if b.strip()]


class Turn:
    """The names of one function, old and new."""

    def __init__(self, of):
        self.of = of
        self.needs = {}
        self.at = {}
        places = [at for _, at in sorted((i, p) for i, p in enumerate(of["asked_at"]))]
        for (old, new), at in zip(of["needs"], places):
            self.needs.setdefault(norm(old), new)
            self.at.setdefault(new, at[0])
        self.new_needs = {norm(new): new for _, new in of["needs"]}
        self.settled = {norm(n) for n in of.get("settled", [])}
        self.places = {p[0]: i for i, p in enumerate(of["places"])}
        self.places_new = {norm(p[0]): n for p, n in zip(of["places"], of["places_by_name"])}
        self.args = {a.split(" .")[-1]: b.split(" .")[-1] for a, b in of["args"] if ".args" in a}
        self.loops = {norm(old): (new, names, changed) for ((old, new), names), changed in zip(of["loops"], of["changed"])}

    def need(self, text):
        it = norm(text)
        # the renaming put `overflow` before the old name of each sum and product, also where it is an index's times an element's size
        return self.needs.get(it) or self.needs.get(it.removeprefix("overflow-")) or self.new_needs.get(it)

    def stand(self, goal, place=None):
        """What is known where a goal stands: the steps and the arms on the way to it, the nearest first."""
        self.steps, self.arms = {}, {}
        place = place or self.at.get(goal)
        if place not in self.places:
            order = range(len(self.of["places"]))
        else:
            order = []
            while place in self.places:
                order.append(self.places[place])
                place = self.of["places"][self.places[place]][1]
        for i in order:
            _, _, (old, new), callee, extra = self.of["places"][i]
            if old and norm(old) not in self.steps:
                fields = {norm(x): y for x, y in extra}
                self.steps[norm(old)] = (new, fields, self.of["params"].get(callee, []) if callee else [])
            arm = self.of["arms"][i]
            if arm:
                for field, step, path in arm[2]:
                    self.arms.setdefault((norm(step), tuple(path)), (arm[0], field))

    def path(self, fields):
        """The new fields of a path below c."""
        fields = [f for f in fields if f != "before"]
        if not fields:
            return []
        first = norm(fields[0])
        for size in range(len(fields) - 1, -1, -1):
            arm = self.arms.get((first, tuple(fields[1 : 1 + size])))
            if arm:
                return [arm[0], arm[1], *fields[1 + size :]]
        if first not in self.steps:
            alike = [step for step in self.steps if loose(step) == loose(first)]
            first = alike[0] if len(alike) == 1 else first
        if first in self.steps:
            new, changed, params = self.steps[first]
            out, rest = [new], fields[1:]
            if rest and norm(rest[0]) in changed:
                out.append(changed[norm(rest[0])])
                rest = rest[1:]
            elif len(rest) > 1 and rest[0] in ("new", "auto") and rest[1] in ("0", "1"):
                at = 1
                while at < len(rest) and rest[at] == "1":
                    at += 1
                index = at - 1
                out += [rest[0], params[index] if index < len(params) else f"param{index}"]
                rest = rest[at + 1 :]
            return out + rest
        if fields[0] in ("args", "ranges") and len(fields) > 1:
            return [fields[0], self.args.get(fields[1], fields[1]), *fields[2:]]
        return fields

    def body(self, text):
        """The text of an answer, its paths turned. A name that only stands for a path goes."""
        aliases = {"c": []}
        again = True
        while again:
            again = False
            for found in re.finditer(r"(?<![\w'-])let (%s) = (%s)((?:\.%s)*) in\b[ \n]?" % (W, W, W), text):
                if found[2] in aliases and found[1] != "c":
                    aliases[found[1]] = aliases[found[2]] + ([f for f in found[3][1:].split(".")] if found[3] else [])
                    line = text.rfind("\n", 0, found.start()) + 1
                    start = found.start()
                    if found[0].endswith("\n") and not text[line:start].strip():
                        start = line
                    text = text[:start] + text[found.end() :]
                    again = True
                    break

        def one(match):
            head, rest = match[1], match[2]
            if head not in aliases:
                return match[0]
            fields = aliases[head] + (rest[1:].split(".") if rest else [])
            return ".".join(["c", *self.path(fields)])

        return re.sub(r"(?<![\w.)'-])(%s)((?:\.%s)*)(?![\w'-])" % (W, W), one, text)


def invariant(turn, block):
    """An invariant or a measure: its patterns become fields of l."""
    name = block.name
    kind, loop = re.match(r"(invariant|decreases)[-_](\S+)", name).groups()
    if norm(loop) not in turn.loops:
        return None
    new, variables, changed = turn.loops[norm(loop)]
    head, _, body = block.text.partition("\n")
    comment = []
    while head.startswith("--"):
        comment.append(head)
        head, _, body = body.partition("\n")
    unfolding = ""
    while body.startswith("unfolding "):
        line, _, body = body.partition("\n")
        unfolding += line + "\n"
    left, _, right = body.partition(" =")
    patterns = left.split()[1:]
    values = [f"l.initial.{v}" if c else f"l.{v}" for v, c in zip(variables, changed)] + [f"l.{v}" for v, c in zip(variables, changed) if c]
    if len(patterns) != len(values) or any(not re.fullmatch(W, p) for p in patterns):
        return None
    table = {p: v for p, v in zip(patterns, values) if p != "_"}

    def one(match):
        word = match[0]
        before = right[: match.start()]
        if word in table and not before.endswith("."):
            return table[word]
        return word

    right = TOKEN.sub(one, right)
    full = f"{kind}-{new}"
    return "\n".join(comment) + ("\n" if comment else "") + f"abbrev pub {full} : goal.{full}\n{unfolding}{full} l ={right}"


def answer(turn, block):
    """(goal, text, or None where the check finds it alone)"""
    lines = block.text.splitlines()
    comment = []
    while lines[0].startswith("--"):
        comment.append(lines.pop(0))
    found = re.match(r"^(?:pub )?(\S+) : tie\.Need-(\S+)", lines[0])
    new = turn.need(found[2])
    name = found[1]
    rest = lines[1:]
    unfolding = [l for l in rest if l.startswith("unfolding ")]
    rest = [l for l in rest if not l.startswith("unfolding ")]
    if not rest:
        return name, new, None, "no clause"
    text = "\n".join(rest)
    clause = re.match(r"^%s((?: %s| _)*?) =" % (re.escape(name), W), text)
    if not clause:
        return name, new, None, "clause by patterns"
    arguments = [a for a in clause[1].split() if a not in ("κs",)]
    body = text[clause.end() :]
    if SEARCH.match(" ".join(body.split())) and not unfolding:
        return name, new, None, None
    if new is None:
        return name, new, None, "settled" if norm(found[2]) in turn.settled else f"no goal {found[2]}"
    turn.stand(new)
    body = turn.body(body)
    out = comment + [f"pub {new} : goal.{new}"] + unfolding + [f"{new} {' '.join(arguments)} ={body}"]
    return name, new, "\n".join(out), None


def helper(turn, text):
    """A lemma on a place in the code."""
    found = re.search(r"tie\.((?:Joined|Then|Else|After|In|At)[^\s)]*)((?: (?:invariant|decreases)_\w+)*)", text)
    old = next((p for p in turn.places if norm(p) == norm(found[1])), None) if found else None
    if old is None:
        return text
    turn.stand(None, old)
    return turn.body(text.replace(found[0], f"goal.{turn.places_new[norm(old)]}"))


def used(start, helpers):
    """The helpers that these words need, in the order in which they stand."""
    want, seen = set(start), set()
    again = True
    while again:
        again = False
        for i, b in enumerate(helpers):
            if i not in seen and b.declares & want:
                seen.add(i)
                want |= b.words()
                again = True
    return [helpers[i] for i in sorted(seen)]


def public(text):
    out = []
    if re.search(r"(?m)^(pub )?record ", text):
        text = re.sub(r"(?m)^  (?!pub |--)([^\s:(]+ :)", r"  pub \1", text)
    for line in text.splitlines():
        if re.match(r"^(abbrev |unfoldable )?(record |data )?[^\s(].* (: |where$)", line) and not line.startswith(("module", "--", "unfolding", "pub ")):
            line = re.sub(r"^(abbrev |unfoldable )?", lambda m: (m[1] or "") + "pub ", line)
        out.append(line)
    return "\n".join(out)


def convert(crate, path, of):
    text = path.read_text(encoding="utf-8")
    if "Lts-" in text or "tie.Start" in text:
        return "walks by hand"
    if "open goal" in text:
        return "opens"
    function = ".".join(path.parent.relative_to(ROOT / "crates" / crate / "proofs").parts)
    turn = Turn(of)
    header, uses, parts = blocks(text)
    uses = [u for u in uses if not re.search(r"\.(Statement\.\{statement\}|Tie as tie)$", u)]
    invariants, answers, helpers, notes, renamed = [], [], [], [], {}
    for b in parts:
        if re.search(r": \{M : Type 1\} → statement M", b.text):
            continue
        if re.search(r"(?m)^(abbrev )?(pub )?\S+ : tie\.(invariant|decreases)[-_]", b.text):
            it = invariant(turn, b)
            if it is None:
                return f"invariant {b.name}"
            invariants.append((b, it))
        elif re.search(r"(?m)^(pub )?\S+ : tie\.Need-", b.text):
            name, new, out, why = answer(turn, b)
            if why and why != "settled":
                notes.append(f"{name}: {why}")
            if new:
                renamed[name] = new
            if out:
                answers.append(out)
        else:
            helpers.append(Block(helper(turn, b.text)) if "tie." in b.text else b)
    folder = path.parent
    said = "\n".join(header).strip()
    made = []
    early = []
    if invariants:
        words = set()
        for _, it in invariants:
            words |= {w for w in TOKEN.findall(it) if not w.startswith("--")}
        early = used(words, helpers)
        lines = [said] if said else []
        lines += [u for u in uses]
        lines.append(f"use Rattle.{crate}.proofs.{function}.Given as goal")
        for b in early:
            lines += ["", public(b.text)]
        for _, it in invariants:
            lines += ["", it]
        (folder / "Invariants.antt").write_text("\n".join(lines) + "\n", encoding="utf-8")
        made.append("Invariants")
    late = [b for b in helpers if b not in early]
    words = {w for a in answers for w in TOKEN.findall(a) if not w.startswith("--")}
    late = used(words, late)
    if answers:
        lines = [said] if said else []
        lines += uses
        names = sorted(set().union(*(b.declares for b in early)) if early else set())
        names = [n for n in names if n not in ("where",)]
        if names:
            lines.append(f"use Rattle.{crate}.proofs.{function}.Invariants.{{{', '.join(names)}}}")
        lines.append(f"use Rattle.{crate}.proofs.{function}.Goals as goal")
        for b in late:
            lines += ["", b.text]
        for a in answers:
            lines += ["", a]
        (folder / "Answers.antt").write_text("\n".join(lines) + "\n", encoding="utf-8")
        made.append("Answers")
    path.unlink()
    return " ".join(made or ["nothing is left"]) + ("; " + "; ".join(notes) if notes else "")


def main():
    for crate in sys.argv[1:]:
        names = names_of(crate)
        for path in sorted((ROOT / "crates" / crate / "proofs").rglob("Proof.antt")):
            function = ".".join(path.parent.relative_to(ROOT / "crates" / crate / "proofs").parts)
            of = names.get(f"Rattle-{crate}-proofs.{function}.Lts")
            said = convert(crate, path, of) if of else "no names"
            print(f"{crate}::{function}: {said}")


if __name__ == "__main__":
    main()

#!/usr/bin/env python3
"""Brings the must-fail edits to the spelling of the files that they change.

usage: python3 tools/turn_edits.py [--write] EARLIER [CRATE..]      at the top of the repository

EARLIER is a `crates` folder whose edits still fit its files. What a name is called today is learnt from the lines of the earlier
files and of today's that are alike. For each edit the earlier file, and what the edit makes of it, are turned to today's spelling;
the place where these two differ is looked up in today's file, and the edit is written anew so that its old text stands there once.
Without --write nothing is written. What does not fit by itself is printed: it is left for a hand.
"""

import collections
import difflib
import pathlib
import re
import sys

CRATES = pathlib.Path(__file__).resolve().parents[1] / "crates"
NAME = r"[^\W\d_](?:[\w'′]|[-·](?=[\w]))*"
TOKEN = re.compile(r"//[^\n]*|--(?= )[^\n]*|[(){}\[\],;]|[^\s(){}\[\],;]+")
WORD = re.compile(NAME)
# What the library calls otherwise today.
names = {
    "getD": "get_or",
    "ofInt": "of_int",
    "toBits": "to_bits",
    "ofBits": "of_bits",
    "nanBits": "nan_bits",
    "isNan": "is_nan",
    "leZ": "le_z",
    "ltZ": "lt_z",
    "eqZ": "eq_z",
    "subℕ": "sub_ℕ",
    "Counts": "IsPrefixLen",
    "List.Memᴰ": "Memᴰ",
    "Prim.Native.Nat": "Rattle.std.specs.Prelude",
    "lib.ListN": "Rattle.std.specs.Prelude",
    "lib.IntN": "Rattle.std.specs.Prelude",
}


def read(path):
    """The file of an edit and its pairs of an old and a new text."""
    file, pairs = None, []
    for line in path.read_text(encoding="utf-8").splitlines():
        key, _, text = line.partition(":")
        text = text[1:] if text.startswith(" ") else text
        if key == "file":
            file = text
        elif key == "old":
            pairs.append([text, None])
        elif key == "new":
            pairs[-1][1] = text
    return file, pairs


def written(file, pairs):
    """What read() reads."""
    return f"file: {file}\n" + "".join(f"old: {a}\nnew: {b}\n" if b else f"old: {a}\nnew:\n" for a, b in pairs)


def close(text, at):
    """Where the bracket that opens at `at` closes."""
    depth = 0
    for i in range(at, len(text)):
        depth += (text[i] in "({[") - (text[i] in ")}]")
        if depth == 0:
            return i
    return len(text) - 1


def contracts(text):
    """`ensures { λ r. ⌜ X ⌝ }` is `ensures { X }`, with `result` for r."""
    out, at = [], 0
    for found in re.finditer(r"\b(?:requires|ensures|invariant)\b[^{}\n]*\{", text):
        if found.start() < at:
            continue
        end = close(text, found.end() - 1)
        body = text[found.end() : end]
        binder = re.match(r"\s*λ (\w+)\. ?", body)
        if binder:
            body = " " + body[binder.end() :]
            body = re.sub(rf"(?<![\w.'-]){binder[1]}(?![\w'-])", "result", body)
        body = re.sub(r" ?⌜|⌝ ?", "", body)
        out += [text[at : found.end()], body]
        at = end
    return "".join(out) + text[at:]


def moved(path):
    """A path whose module or last name the library moved."""
    head, _, last = path.rpartition(".")
    return names.get(path) or (names[head] + "." + last if head in names and "." in head else path)


def fields(text):
    """`f a .x` is `(f a).x`, and `(a .x)` is `a.x`."""
    at = 0
    while True:
        found = re.compile(rf"(?<=[^\s({{;]) \.({NAME})").search(text, at)
        if not found:
            return text
        end = start = found.start()
        atoms = 0
        low = text.rfind("\n", 0, end) + 1
        if re.search(r"--(?= )|//", text[low:end]):
            at = found.end()
            continue
        while start > low:
            p = start - 1 if atoms else start
            if atoms and text[p] != " ":
                break
            if text[p - 1] in ")}]":
                depth, q = 0, p - 1
                while True:
                    depth += (text[q] in ")}]") - (text[q] in "({[")
                    if depth == 0 or q == 0:
                        break
                    q -= 1
            else:
                q = p
                while q > low and text[q - 1] not in " (){}[],;":
                    q -= 1
            atom = text[q:p]
            if not re.search(r"\w", atom) or atom == "λ" or atom.endswith(".") or atom in ("pub", "record"):
                break
            while text[q - 1] not in " (){}[],;\n" and q > low:
                q -= 1
            start, atoms = q, atoms + 1
        whole = text[start:end] + "." + found[1] if atoms < 2 else "(" + text[start:end] + ")." + found[1]
        stop = found.end()
        if text[start - 1] == "(" and text[stop : stop + 1] == ")":
            start, stop = start - 1, stop + 1
        text = text[:start] + whole + text[stop:]
        at = start


def turn(text, rust):
    """The text in today's spelling."""
    text = text.replace("′", "'").replace("″", "''")
    text = re.sub(r"\b([a-z_]+)·specs\.specs\.", r"\1.specs.", text)
    text = re.sub(r"(?<=\w)·(?=\w)", ".", text)
    text = re.sub(r"(?<![^\s{(,])_([^\w\s]+)_(?![^\s}),])", r"◌\1◌", text)
    if rust:
        text = contracts(text)
    text = re.sub(r"\(now \((\w+) \.exit\)\)|\bnow \((\w+) \.exit\)", lambda m: (m[1] or m[2]) + ".new", text)
    text = re.sub(r"\(now \((\w+) \.entry\)\)|\bnow \((\w+) \.entry\)", lambda m: (m[1] or m[2]) + ".now", text)
    text = re.sub(r"\(now (\w+)\)|(?<![.\w])now (\w+)\b", lambda m: (m[1] or m[2]) + ".now", text)
    text = WORD.sub(lambda m: names.get(m[0], m[0]), text)
    text = re.sub(r"[A-Za-z]+(?:\.[A-Za-z]\w*)*\.[\wᴰ]+", lambda m: moved(m[0]), text)
    return fields(text)


def tokens(text):
    """Each token with where it begins and ends; comments are none."""
    return [(m[0], m.start(), m.end()) for m in TOKEN.finditer(text) if not m[0].startswith(("//", "-- "))]


def same(word):
    """What stands for a token where two files are compared."""
    word = re.sub(r"\.old$", ".now", word)
    return re.sub(r"(?<=[a-z0-9])([A-Z])", lambda m: "_" + m[1].lower(), word).replace("-", "_")


def lines(found, text):
    """The tokens by lines: what each line holds, with the numbers of its first token and of the first behind it."""
    groups, last, line = [], 0, 0
    for i, (_, start, _) in enumerate(found):
        line, last = line + text.count("\n", last, start), start
        if not groups or groups[-1][0] != line:
            groups.append([line, i, i])
        groups[-1][2] = i + 1
    return [(tuple(same(t[0]) for t in found[x:y]), x, y) for _, x, y in groups]


def match(a, a_text, c, c_text):
    """For each token of a the number of the token of c that matches it, or None. Lines that are alike are anchors."""
    result = [None] * len(a)
    left, right = lines(a, a_text), lines(c, c_text)
    for tag, i1, i2, j1, j2 in difflib.SequenceMatcher(None, [g[0] for g in left], [g[0] for g in right], autojunk=False).get_opcodes():
        if i1 == i2 or j1 == j2:
            continue
        x, x_end, y, y_end = left[i1][1], left[i2 - 1][2], right[j1][1], right[j2 - 1][2]
        if tag == "equal":
            pieces = [(0, 0, x_end - x)]
        else:
            one, other = [same(t[0]) for t in a[x:x_end]], [same(t[0]) for t in c[y:y_end]]
            pieces = difflib.SequenceMatcher(None, one, other, autojunk=False).get_matching_blocks()
        for p, q, n in pieces:
            for k in range(n):
                result[x + p + k] = y + q + k
    return result


def change(a, b):
    """The tokens of a, from i to j, that are the tokens of b from i to k."""
    x, y = [t[0] for t in a], [t[0] for t in b]
    i = 0
    while i < min(len(x), len(y)) and x[i] == y[i]:
        i += 1
    j, k = len(x), len(y)
    while j > i and k > i and x[j - 1] == y[k - 1]:
        j, k = j - 1, k - 1
    return i, j, k


def learn(earlier):
    """What each name is called today: what stands most often in its place."""
    seen = collections.defaultdict(collections.Counter)
    for crate in sorted(p.name for p in earlier.iterdir()):
        for part in ("src", "specs"):
            for path in sorted((earlier / crate / part).rglob("*")):
                other = CRATES / crate / path.relative_to(earlier / crate)
                if path.suffix not in (".rt", ".antt") or not other.is_file() or "laws" in path.parts:
                    continue
                old, new = turn(path.read_text(encoding="utf-8"), path.suffix == ".rt"), other.read_text(encoding="utf-8")
                a, c = tokens(old), tokens(new)
                for (word, _, _), at in zip(a, match(a, old, c, new)):
                    if at is not None:
                        for x, y in zip(WORD.findall(word), WORD.findall(c[at][0])):
                            seen[x][y] += 1
    names.update({x: y.most_common(1)[0][0] for x, y in seen.items() if y.most_common(1)[0][0] != x and same(x) == same(y.most_common(1)[0][0])})


class Unfit(Exception):
    """Why an edit is left for a hand."""


def line_of(text, at):
    """Where the line with this place begins and ends."""
    start = text.rfind("\n", 0, at) + 1
    end = text.find("\n", at)
    return start, len(text) if end < 0 else end


def pair_for(a_text, b_text, rust, today, whole, told):
    """The old and the new text of one pair, and what they make of today's file."""
    ta, tb = turn(a_text, rust), turn(b_text, rust)
    a, b, c = tokens(ta), tokens(tb), tokens(today)
    i, j, k = change(a, b)
    if i == j == k:
        raise Unfit("nothing differs")
    # One token more where a side is empty.
    if i == j or i == k:
        text, there = (tb, b) if i == j else (ta, a)
        if i and "\n" not in text[there[i - 1][1] : there[i][1]]:
            i -= 1
        else:
            j, k = j + 1, k + 1
    to = match(a, ta, c, today)
    first, last = to[i], to[j - 1]
    lost = [a[x][0] for x in range(i, j) if to[x] is None]
    if lost:
        raise Unfit(f"not in today's file: {' '.join(lost)}")
    if last - first != j - 1 - i:
        raise Unfit("not one piece today")
    # The tokens before and behind it are the same ones.
    for step in (-1, 1):
        near = i - 1 if step < 0 else j
        if not 0 <= near < len(a):
            continue
        edge = first - 1 if step < 0 else last + 1
        if to[near] != edge and a[near][0] != ",":
            raise Unfit(f"neighbour {a[near][0]} is not {c[edge][0]}")
    start, end, low, high = c[first][1], c[last][2], b[i][1], b[k - 1][2]
    # The space before and behind it, on one line, belongs to it.
    if i and "\n" not in today[c[first - 1][2] : start] + tb[b[i - 1][2] : low]:
        first -= 1
        start, low = c[first][1], b[i - 1][1]
    if k < len(b) and "\n" not in today[end : c[last + 1][1]] + tb[high : b[k][1]]:
        last += 1
        end, high = c[last][2], b[k][2]
    piece = tb[low:high]
    if "\n" in piece:
        raise Unfit("new text over several lines")
    if "\n" in today[start:end]:
        raise Unfit("old text over several lines")
    around = today[max(0, start - 600) : end + 600]

    def held(m):
        old, now = m[1] + ".old", m[1] + ".now"
        return old if re.search(rf"\b{m[1]}\.old\b", around) and not re.search(rf"\b{m[1]}\.now\b", around) else now

    piece = re.sub(r"\b(\w+)\.now\b", held, piece) if rust else piece
    after = today[:start] + piece + today[end:]
    left, right = line_of(today, start)
    old = today[left:right]
    if not whole:
        # The earlier edit's own piece, where it is a piece today and does the same.
        one, other = (re.sub(r" ?⌜|⌝ ?", "", turn(x, rust)) for x in told)
        if rust:
            one, other = re.sub(r"\b(\w+)\.now\b", held, one), re.sub(r"\b(\w+)\.now\b", held, other)
        if today.count(one) == 1 and today.replace(one, other) == after:
            return one, other, after
    if not (whole and today.count(old) == 1):
        left, right, f, e = start, end, first, last
        low, high = line_of(today, start)
        turns = 0
        while today.count(today[left:right]) != 1:
            if turns % 2 == 0 and e + 1 < len(c) and c[e + 1][2] <= high:
                e += 1
                right = c[e][2]
            elif f > 0 and c[f - 1][1] >= low:
                f -= 1
                left = c[f][1]
            elif e + 1 < len(c) and c[e + 1][2] <= high:
                e += 1
                right = c[e][2]
            elif left > low:
                left = low
            else:
                raise Unfit("no one line tells the place")
            turns += 1
        old = today[left:right]
    return old, today[left:start] + piece + today[end:right], after


def main():
    options = [x for x in sys.argv[1:] if x.startswith("--")]
    rest = [x for x in sys.argv[1:] if not x.startswith("--")]
    earlier = pathlib.Path(rest[0])
    learn(earlier)
    crates = rest[1:] or sorted(p.name for p in earlier.iterdir())
    fits = unfit = 0
    for crate in crates:
        for path in sorted((earlier / crate / "must-fail").glob("*.edit")):
            file, pairs = read(path)
            try:
                a_text = (earlier / crate / file).read_text(encoding="utf-8")
                # The laws stand in proofs/laws today.
                here = file if (CRATES / crate / file).exists() else file.replace("specs/laws/", "proofs/laws/")
                today = (CRATES / crate / here).read_text(encoding="utf-8")
                made = []
                for old, new in pairs:
                    if a_text.count(old) != 1:
                        raise Unfit("does not fit the earlier file")
                    b_text = a_text.replace(old, new)
                    whole = ("\n" + old + "\n") in a_text
                    o, n, today = pair_for(a_text, b_text, file.endswith(".rt"), today, whole, (old, new))
                    made.append((o, n))
                    a_text = b_text
                fits += 1
                if "--write" in options:
                    (CRATES / crate / "must-fail" / path.name).write_text(written(here, made), encoding="utf-8")
            except (Unfit, IndexError) as why:
                unfit += 1
                print(f"{crate}/{path.stem}: {why}")
    print(f"{fits} fit, {unfit} do not")


if __name__ == "__main__":
    main()

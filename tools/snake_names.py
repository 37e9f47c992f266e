#!/usr/bin/env python3
"""Brings the repository's own definitions, lemmas, fields and constructors to today's spelling: words are in snake case.

usage: python3 tools/snake_names.py [--check]      at the top of the repository

    rawAt, mostRuns, first-passes, length-chunks  ->  raw_at, most_runs, first_passes, length-chunks

A name in lower camel case gets underscores. A dash stays only where it joins two words that are functions of specs/ or of the
library, as in `length-chunks`; else it becomes an underscore. Names that begin with a capital, names of the library and what Rattle
makes itself stay. A file's own declarations and what it imports from this repository are the repository's; any other name of the
same spelling that the file imports is the library's and stays. Run once, after port.py.
"""

import collections
import pathlib
import re
import sys

ROOT = pathlib.Path(__file__).resolve().parents[1]
CRATES = ROOT / "crates"
OWN = {p.name for p in CRATES.iterdir() if (p / "src").is_dir()}
W = r"[^\s(){}.;,@\"«»\[\]\\]+"
TOKEN = re.compile(r"--[^\n]*|//[^\n]*|\"(?:[^\"\\\n]|\\.)*\"|«[^»]*»|" + W)
USE = re.compile(r"^(?P<head>\s*(?:ghost )?(?:pub )?use )(?P<path>[^\s{;]+?)(?:\.\{(?P<names>[^}]*)\})?(?P<as> as \S+?)?;?$")
DECLARED = re.compile(r"^( *)((?:abbrev |unfoldable |pub )*)((?:[^\s:(){}.,;λ→=]+ )+): ")
TYPE = re.compile(r"^( *)((?:abbrev |unfoldable |pub )*)(?:record|data) (\S+)")
LIBRARY = set("length take drop append set get_or map concat filter reverse replicate paste zip sum all any min max".split())


def files():
    for path in sorted(CRATES.rglob("*")):
        if path.suffix in (".antt", ".rt") and "out" not in path.relative_to(CRATES).parts:
            yield path


def joined(text):
    """The lines, with a `use` that goes over several lines on one."""
    return re.sub(r"(?m)^(\s*(?:ghost )?(?:pub )?use [^\n;]*\{)([^}]*)\}", lambda m: m[1] + " ".join(m[2].split()) + "}", text)


def is_own(path):
    parts = path.split(".")
    return parts[0] == "Rattle" and len(parts) > 1 and parts[1] in OWN


def snake(name):
    return re.sub(r"(?<=[a-z0-9])([A-Z])(?=[a-z0-9'_-]|$)", lambda m: "_" + m[1].lower(), name)


def main():
    texts = {p: p.read_text(encoding="utf-8") for p in files()}
    declared = collections.defaultdict(set)  # file -> names
    functions = set(LIBRARY)
    for path, text in texts.items():
        if path.suffix != ".antt":
            continue
        for line in text.splitlines():
            if line.lstrip().startswith(("--", "use ", "pub use ", "let ", "module ", "unfolding")):
                continue
            found = DECLARED.match(line)
            if found and not TYPE.match(line):
                names = found[3].split()
                declared[path].update(names)
                if "abbrev" in found[2] or "unfoldable" in found[2]:
                    functions.update(n for n in names if not n[0].isupper())
    every = set().union(*declared.values())

    def new(name):
        if not re.match(r"[a-z]", name) or "_" == name:
            return name
        turned = snake(name)
        if "-" in turned:
            parts = name.split("-")
            out = snake(parts[0])
            at = parts[0]
            for i, part in enumerate(parts[1:], 1):
                rest = [part] + parts[i + 1 :]
                longest = next((k for k in range(len(rest), 0, -1) if "-".join(rest[:k]) in functions), 0)
                keep = at in functions and longest and not at[0].isupper() and len(at) > 2 and len(part) > 2
                out += ("-" if keep else "_") + snake(part)
                at = part if keep else at + "-" + part
            turned = out
        return turned

    # A name in camel case goes first: a dashed name that would fall together with another keeps its dash, and a name that got its
    # underscores from port.py gets its dashes back.
    camel = {n: new(n) for n in every if re.match(r"[a-z][a-z0-9]*[A-Z]", n) and new(n) != n}
    taken = set(camel.values())
    table = dict(camel)
    table.update({n: n.replace("_", "-") for n in every if n in taken and n not in camel})
    for n in every - set(table):
        now = new(n)
        if now != n and now not in taken and now not in every:
            table[n] = now
    clashes = [n for n, k in collections.Counter(table.values()).items() if k > 1]
    check = "--check" in sys.argv[1:]
    changed = 0
    worries = []
    for path, text in texts.items():
        library = set()
        own = set(declared[path])
        aliases = set()
        for line in joined(text).splitlines():
            found = USE.match(line)
            if not found:
                continue
            names = [n.split(" as ")[-1].strip() for n in (found["names"] or "").split(",") if n.strip()]
            sources = [n.split(" as ")[0].strip() for n in (found["names"] or "").split(",") if n.strip()]
            if is_own(found["path"]):
                own.update(names)
                own.update(sources)
                if found["as"]:
                    aliases.add(found["as"][4:].rstrip(";"))
            else:
                library.update(names)
                library.update(sources)
        library -= own
        before = {t for t in TOKEN.findall(text) if not t.startswith(("--", "//", '"', "«"))}
        used = {}

        def one(match):
            word = match[0]
            if word.startswith(("--", "//", '"', "«")):
                return word
            if word in table and word not in library:
                used[word] = table[word]
                return table[word]
            return word

        out = TOKEN.sub(one, text)
        for old, now in used.items():
            if now in before and old in before:
                worries.append(f"{path.relative_to(ROOT)}: {old} becomes {now}, which stands there too")
        merged = collections.defaultdict(set)
        for old, now in used.items():
            merged[now].add(old)
        for now, olds in merged.items():
            if len(olds) > 1:
                worries.append(f"{path.relative_to(ROOT)}: {sorted(olds)} become {now}")
        if out != text:
            changed += 1
            if not check:
                path.write_text(out, encoding="utf-8")
    for worry in worries:
        print("look:", worry)
    print(f"{len(table)} names, {changed} files; {len(clashes)} new names that stand for several old ones somewhere")


main()

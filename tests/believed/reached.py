"""The definitions of specs/ that the pages reach by name, and the lines of code of each file that hold them.

Names are resolved through the `use` lines of a file; imports, comments, blank lines, and the lines that open a
module or give an operator its precedence are not counted. A local name that is also the name of a
definition in reach counts as one, so the list can only be too long.
"""

import pathlib
import re
import sys

REPOSITORY = pathlib.Path(__file__).resolve().parents[2]
PAGE = REPOSITORY / "docs" / "PROMISES.md"
BEGIN, END = "<!-- believed: begin -->", "<!-- believed: end -->"
MOST = 1300  # lines of code, without those of the assured texts
ASSURED = "assured"

HEAD = re.compile(r"^ {0,2}(?:abbrev pub|unfoldable pub|pub record|pub data|pub)\s+(?!mod\b|use\b)([^\s:({]+)")
USED = re.compile(r"^(?:pub )?use Rattle\.(\w+)\.(specs|proofs)\.([\w.+-]+?)\.\{(.*)\}$")
ALIAS = re.compile(r"^use Rattle\.(\w+)\.(specs|proofs)\.([\w.+-]+?) as (\S+)$")
USES = re.compile(r"(?m)^(?:pub )?use [^\n{]*\{[^}]*\}")  # may go over several lines
TOKEN = re.compile(r"[^\s(){}.,;:λ→∷⟨⟩]+")


def key(crate: str, where: str, name: str) -> str:
    """The name of a file: `crate:Name` below specs/, `crate:proofs.Name` below proofs/."""
    return f"{crate}:{name}" if where == "specs" else f"{crate}:proofs.{name}"


class Module:
    """A file of definitions: the lines of each, what it brings in, and what each constructor belongs to."""

    def __init__(self, path: pathlib.Path) -> None:
        self.path = path
        self.lines: dict[str, list[str]] = {}
        self.brought: dict[str, tuple[str, str]] = {}
        self.aliases: dict[str, str] = {}
        self.makes: dict[str, str] = {}
        name = None
        for line in USES.sub(lambda use: " ".join(use[0].split()), path.read_text(encoding="utf-8")).splitlines():
            if self.brings(line) or not line.strip() or line.strip().startswith(("--", "use ", "infix", "module ", "pub mod ")):
                continue
            found = HEAD.match(line)
            if found and not (name and line.startswith("  pub ") and "record" in self.lines[name][0]):
                name = found.group(1)
                self.lines[name] = []
            if name:
                self.lines[name].append(line)
        for name, lines in self.lines.items():
            if "pub data" in lines[0]:
                for line in lines[1:]:
                    for maker in line.split(" : ")[0].split():
                        self.makes.setdefault(maker, name)

    def brings(self, line: str) -> bool:
        if found := USED.match(line):
            for item in found.group(4).split(","):
                name, _, other = item.strip().partition(" as ")
                self.brought[other or name] = (key(*found.groups()[:3]), name)
        elif found := ALIAS.match(line):
            self.aliases[found.group(4)] = key(*found.groups()[:3])
        else:
            return False
        return True


def modules() -> dict[str, Module]:
    found = {}
    for crate in sorted((REPOSITORY / "crates").iterdir()):
        for where in ("specs", "proofs"):
            for path in sorted((crate / where).rglob("*.antt")):
                name = ".".join(path.relative_to(crate / where).with_suffix("").parts)
                if name not in ("Lib", "laws", "inner"):
                    found[key(crate.name, where, name)] = Module(path)
    return found


def resolve(known: dict[str, Module], module: str, name: str) -> tuple[str, str] | None:
    """Where a name of a module is defined; a constructor is its type."""
    if module not in known:
        return None
    here = known[module]
    if name in here.lines:
        return module, name
    if name in here.makes:
        return module, here.makes[name]
    if name in here.brought:
        return resolve(known, *here.brought[name])
    return None


def reached(known: dict[str, Module], roots: list[tuple[str, str]], shut: str = "") -> set[tuple[str, str]]:
    """What the roots reach; the crate `shut` is not looked into."""
    seen: set[tuple[str, str]] = set()
    todo = list(roots)
    while todo:
        module, name = todo.pop()
        if (module, name) in seen:
            continue
        seen.add((module, name))
        here = known[module]
        for line in here.lines[name]:
            named = [resolve(known, module, token) for token in TOKEN.findall(line)]
            for alias, other in here.aliases.items():
                named += [resolve(known, other, token) for token in re.findall(rf"(?<!\S){re.escape(alias)}\.([^\s(){{}}.,;:]+)", line)]
                named += [resolve(known, other, token) for token in re.findall(rf"\({re.escape(alias)}\.([^\s(){{}}.,;:]+)", line)]
            todo += [one for one in named if one and one not in seen and one[0].partition(":")[0] != shut]
    return seen


def fail(why: str) -> None:
    sys.exit(f"believed: {why}")


def read_roots(known: dict[str, Module]) -> list[tuple[str, str]]:
    roots = []
    for line in (REPOSITORY / "tests" / "believed" / "roots").read_text().splitlines():
        if line and not line.startswith("#"):
            module, _, name = line.rpartition(".")
            if name not in known.get(module, Module.__new__(Module)).__dict__.get("lines", {}):
                fail(f"roots names {line}, and there is no such definition")
            roots.append((module, name))
    return roots


def counted(known: dict[str, Module], seen: set[tuple[str, str]]) -> dict[str, int]:
    """The lines of code in reach, module by module."""
    lines: dict[str, int] = {}
    for module, name in seen:
        lines[module] = lines.get(module, 0) + len(known[module].lines[name])
    return lines


def table(known: dict[str, Module], roots: list[tuple[str, str]]) -> str:
    lines = counted(known, reached(known, roots))
    leaning = sorted(module for module in lines if ":inner." in module or ":proofs." in module)
    if leaning:
        fail(f"the pages lean on {', '.join(leaning)}")
    own = sum(counted(known, reached(known, roots, ASSURED)).values())
    if own > MOST:
        fail(f"{own} lines of code are to be believed, and {MOST} are the most")
    crates: dict[str, list[str]] = {}
    for module, count in sorted(lines.items()):
        crate, _, name = module.partition(":")
        crates.setdefault(crate, []).append(f"{name} {count}")
    rows = [f"{own:,} lines of code; which texts are assured adds {sum(lines.values()) - own:,}: {sum(lines.values()):,} in {len(lines)} files.", ""]
    rows += ["| crate | files below `specs/`, with the lines of code that are reached |", "| --- | --- |"]
    rows += [f"| `{crate}` | {', '.join(files)} |" for crate, files in crates.items()]
    return "\n".join(rows) + "\n"


def main() -> None:
    known = modules()
    text = table(known, read_roots(known))
    page = PAGE.read_text(encoding="utf-8")
    front, found, rest = page.partition(BEGIN + "\n")
    old, ended, back = rest.partition(END)
    if not found or not ended:
        fail(f"docs/PROMISES.md lacks {BEGIN} or {END}")
    if "--write" in sys.argv:
        PAGE.write_text(front + found + text + END + back, encoding="utf-8")
    elif old != text:
        fail("docs/PROMISES.md has another list: bash tests/believed/run --write")
    print(f"believed: {text.splitlines()[0]}")


main()

"""The must-fail edits: whether each fits its crate, whether each is cited by a promise, and the list of both."""

import pathlib
import re
import sys

REPOSITORY = pathlib.Path(__file__).resolve().parents[2]
INDEX = REPOSITORY / "docs" / "PROMISES.md"
PAGES = REPOSITORY / "docs" / "promises"
LIST = PAGES / "edits.md"

CITED = re.compile(r"`(\w+)/(\w+)`")
BARE = re.compile(r"`(\w+)`")
OF_ONE_CRATE = re.compile(r"edits of `(\w+)`$")
LABEL = 60  # characters of a promise in the list


def edits() -> "dict[str, pathlib.Path]":
    found = sorted((REPOSITORY / "crates").glob("*/must-fail/*.edit"))
    return {f"{path.parent.parent.name}/{path.stem}": path for path in found}


def changes(path: pathlib.Path) -> "tuple[list[str], list[str]]":
    """The files that an edit changes, and what is wrong with it. Its replacements are made one after the other."""
    crate = path.parent.parent
    texts: "dict[str, str]" = {}
    wrong = []
    name = old = ""
    for line in path.read_text(encoding="utf-8").splitlines():
        if line.startswith("file: "):
            name = line.removeprefix("file: ")
        elif line.startswith("old: "):
            old = line.removeprefix("old: ")
        elif line.startswith("new:"):
            new = line.removeprefix("new:").removeprefix(" ")
            if name not in texts:
                file = crate / name
                texts[name] = file.read_text(encoding="utf-8") if file.is_file() else ""
            count = texts[name].count(old) if old else 0
            if count != 1:
                wrong.append(f"its old text is found {count} times in {name or 'no file'}: {old}")
            elif old == new:
                wrong.append("it changes nothing")
            texts[name] = texts[name].replace(old, new, 1)
            old = ""
    if not texts:
        wrong.append("it has no pair of old: and new:")
    return sorted(texts), wrong


def cells(row: str) -> "list[str]":
    return [cell.strip() for cell in re.split(r"(?<!\\)\|", row)[1:-1]]


def label(cell: str) -> str:
    plain = cell.replace("`", "").replace("\\|", "|").replace("|", "\\|")
    return plain if len(plain) <= LABEL else plain[:LABEL].rsplit(" ", 1)[0].rstrip(",;:") + " .."


def citations(path: pathlib.Path) -> "list[tuple[str, str]]":
    """The edits that a page cites, each with the promise that cites it: its row, or its section."""
    found = []
    section = ""
    crate = None
    for line in path.read_text(encoding="utf-8").splitlines():
        if line.startswith("#"):
            section, crate = line.lstrip("# "), None
        row = cells(line) if line.startswith("|") else []
        if row and (of := OF_ONE_CRATE.search(row[-1])):
            crate = of.group(1)
        promise = f"{section}: {label(row[0])}" if row else section
        names = [f"{one}/{name}" for one, name in CITED.findall(line) if (REPOSITORY / "crates" / one).is_dir()]
        names += [f"{crate}/{name}" for name in BARE.findall(row[-1])] if row and crate and not of else []
        found += [(name, promise) for name in names if not (REPOSITORY / "crates" / name).exists()]
    return found


def listed(known: "dict[str, pathlib.Path]", cited: "dict[str, list[str]]") -> str:
    lines = ["# The edits", "", f"{len(known)} edits. Made by `tests/edits/run --write`; the gate compares. Files are below the crate's folder."]
    crate = ""
    for name, path in known.items():
        if name.partition("/")[0] != crate:
            crate = name.partition("/")[0]
            lines += ["", f"## {crate}", "", "| edit | changes | cited under |", "| --- | --- | --- |"]
        files = ", ".join(f"`{file}`" for file in changes(path)[0])
        lines.append(f"| `{path.stem}` | {files} | {'; '.join(dict.fromkeys(cited[name]))} |")
    return "\n".join(lines) + "\n"


def main(words: "list[str]") -> None:
    known = edits()
    faults = [f"{name}: {fault}" for name, path in known.items() for fault in changes(path)[1]]
    cited: "dict[str, list[str]]" = {name: [] for name in known}
    for page in [INDEX, *sorted(page for page in PAGES.glob("*.md") if page != LIST)]:
        for name, promise in citations(page):
            if name in known:
                cited[name].append(promise)
            else:
                faults.append(f"{page.relative_to(REPOSITORY)} cites {name}, and there is no such edit")
    faults += [f"{name} is cited by no promise" for name, where in cited.items() if not where]
    if faults:
        sys.exit("\n".join(f"edits: {fault}" for fault in faults))
    text = listed(known, cited)
    if words == ["--write"]:
        LIST.write_text(text, encoding="utf-8")
    elif not LIST.is_file() or LIST.read_text(encoding="utf-8") != text:
        sys.exit("edits: docs/promises/edits.md is another list: bash tests/edits/run --write")
    print(f"edits: {len(known)} edits fit their crates, and each is cited")


main(sys.argv[1:])

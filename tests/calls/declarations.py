"""The calls of include/mill.h, read from its declarations; and, as a program, the code that serve.c and proxy.c make of them.

declarations.py serve|proxy: prints that code.
"""

import os
import re
import sys
from typing import List, NamedTuple, Tuple

ROOT = os.path.dirname(os.path.dirname(os.path.dirname(os.path.abspath(__file__))))
HEADER = os.path.join(ROOT, "include", "mill.h")

# The kinds of a parameter, and of two that go together: bytes that are read; bytes that are written, with what they held before; a number;
# a place for a number, with what it held before.
READ, WRITTEN, NUMBER, PLACE = "read", "written", "number", "place"

_KINDS = {
    "uint32_t": NUMBER,
    "int64_t": NUMBER,
    "uint32_t *": PLACE,
    "int32_t *": PLACE,
    "uint64_t *": PLACE,
    "double *": PLACE,
}
SIZES = {"uint32_t *": 4, "int32_t *": 4, "uint64_t *": 8, "double *": 8}


class Parameter(NamedTuple):
    name: str
    type: str
    kind: str


class Call(NamedTuple):
    name: str
    types: Tuple[str, ...]
    parameters: Tuple[Parameter, ...]


def header() -> str:
    with open(HEADER, encoding="ascii") as file:
        return file.read()


def calls(text: str) -> List[Call]:
    """The calls that a header declares, in its order."""
    code = re.sub(r"/\*.*?\*/", " ", text, flags=re.DOTALL)
    declared = re.findall(r"^uint64_t (mill_\w+)\(([^)]*)\);", code, flags=re.MULTILINE)
    return [Call(name, *_parameters(parameters)) for name, parameters in declared]


def _parameters(text: str) -> Tuple[Tuple[str, ...], Tuple[Parameter, ...]]:
    each = [" ".join(parameter.split()) for parameter in text.split(",")]
    if each == ["void"]:
        return (), ()
    pairs = [re.fullmatch(r"(.*[ *])(\w+)", parameter).groups() for parameter in each]
    types = tuple(kind.strip() for kind, _ in pairs)
    found, at = [], 0
    while at < len(pairs):
        name, kind = pairs[at][1], types[at]
        if kind in ("const uint8_t *", "uint8_t *"):
            assert (types[at + 1], pairs[at + 1][1]) == ("size_t", name + "_len"), text
            found.append(Parameter(name, kind, READ if kind.startswith("const") else WRITTEN))
            at += 1
        else:
            found.append(Parameter(name, kind, _KINDS[kind]))
        at += 1
    return types, tuple(found)


def _serve(call: Call, number: int) -> List[str]:
    """A case of serve.c: takes what goes in, makes the call, gives what came out."""
    lines = [f"case {number}: {{ /* {call.name} */"]
    arguments = []
    for at, one in enumerate(call.parameters):
        if one.kind in (READ, WRITTEN):
            lines.append(f"    struct region *r{at} = bytes_in({at}, {int(one.kind == WRITTEN)});")
            arguments += [f"r{at}->at", f"r{at}->length"]
        elif one.kind == NUMBER:
            lines.append(f"    {one.type} r{at} = ({one.type})number_in();")
            arguments.append(f"r{at}")
        else:
            lines.append(f"    struct region *r{at} = place_in({at}, {SIZES[one.type]});")
            arguments.append(f"({one.type})(void *)r{at}->at")
    lines.append(f"    uint64_t returned = {call.name}({', '.join(arguments)});")
    lines.append("    put(&returned, sizeof returned);")
    for at, one in enumerate(call.parameters):
        if one.kind == READ:
            lines.append(f"    unchanged(r{at});")
        elif one.kind != NUMBER:
            lines.append(f"    put(r{at}->at, r{at}->length);")
    return lines + ["    break;", "}"]


def _proxy(call: Call, number: int) -> List[str]:
    """A function of proxy.c: hands what goes in to a server, and takes what comes out."""
    declared, sent, taken = [], [], []
    for one in call.parameters:
        star = one.type if one.type.endswith("*") else one.type + " "
        if one.kind in (READ, WRITTEN):
            declared.append(f"{star}{one.name}, size_t {one.name}_len")
            sent.append(f"bytes_out({one.name}, {one.name}_len);")
            if one.kind == WRITTEN:
                taken.append(f"take(server, {one.name}, {one.name}_len);")
        elif one.kind == NUMBER:
            declared.append(f"{star}{one.name}")
            sent.append(f"number_out((uint64_t){one.name});")
        else:
            declared.append(f"{star}{one.name}")
            sent.append(f"add({one.name}, {SIZES[one.type]});")
            taken.append(f"take(server, {one.name}, {SIZES[one.type]});")
    lines = [f"uint64_t {call.name}({', '.join(declared) or 'void'})", "{", "    uint64_t returned;"]
    lines += ["    struct server *server = begin();", f"    number_out({number});"] + ["    " + line for line in sent]
    lines += ["    send_all(server);", "    take(server, &returned, sizeof returned);"] + ["    " + line for line in taken]
    return lines + ["    end(server);", "    return returned;", "}"]


def main() -> None:
    making = {"serve": _serve, "proxy": _proxy}[sys.argv[1]]
    for number, call in enumerate(calls(header())):
        print("\n".join(making(call, number)))


if __name__ == "__main__":
    main()

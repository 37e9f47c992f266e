"""Covers: that the package has the numbers, the sentences, the version and the calls of include/mill.h; that every public item is
annotated, documented and has an example, and that the examples print what stands there."""

import ctypes
import doctest
import inspect
import io
import os
import re
import typing
import unittest
from typing import Any, Dict, Iterator, List, Tuple

import mill
import support
from mill import _header, _library
from support import DECLARED, ROOT, RUN, declarations

TEXT = declarations.header()
# The calls that a library may lack.
LATER = {"mill_assured", "mill_version"}
IN_C = {
    "size_t": ctypes.c_size_t,
    "uint32_t": ctypes.c_uint32,
    "int64_t": ctypes.c_int64,
}


def numbers() -> Dict[str, int]:
    found = re.findall(r"^#define MILL_([A-Z_]+) \(?(-?[0-9]+)\)?(?: .*)?$", TEXT, flags=re.MULTILINE)
    return {name: int(number) for name, number in found}


class Header(unittest.TestCase):
    def test_numbers(self) -> None:
        declared, here = numbers(), {name: value for name, value in vars(_header).items() if isinstance(value, int)}
        self.assertGreaterEqual(len(declared), 75)
        for name, number in declared.items():
            with self.subTest(name):
                if name.startswith("STACK_"):
                    self.assertGreaterEqual(here[name], number, "the stack that is left to a call")
                else:
                    self.assertEqual(here[name], number)
        missing = {"STACK_" + call[5:].upper() for call in LATER if call not in DECLARED}
        self.assertLessEqual(set(here) - set(declared), missing | {"STACK_VERSION"})

    def test_sentences(self) -> None:
        sentences = re.findall(r'^        "(.*)",$', TEXT, flags=re.MULTILINE)
        self.assertEqual(list(_header.SENTENCES), sentences)
        self.assertIn(f'"{_header.UNKNOWN}"', TEXT)
        for number in (0, 20, 21, -1, 1 << 40):
            known = 0 <= number < len(sentences)
            self.assertEqual(mill.Refusal(number).sentence, sentences[number] if known else _header.UNKNOWN)

    def test_version(self) -> None:
        found = re.search(r'^#define MILL_VERSION "(.*)"$', TEXT, flags=re.MULTILINE)
        assert found
        self.assertEqual(mill.__version__, found.group(1))
        with open(os.path.join(ROOT, "rust", "Cargo.toml"), encoding="utf-8") as file:
            self.assertIn(f'\nversion = "{mill.__version__}"\n', file.read())

    def test_calls(self) -> None:
        """Each call is bound with the parameters that the header has; beside them only those that the library may lack."""
        bound = {name: parameters for name, parameters, _, _ in _library._DECLARED}
        self.assertLessEqual(set(DECLARED), set(bound))
        self.assertLessEqual(set(bound) - set(DECLARED), LATER)
        for call in support.CALLS:
            wanted = tuple(IN_C.get(kind, ctypes.c_void_p) for kind in call.types)
            self.assertEqual(bound[call.name], wanted, call.name)

    def test_a_difference_is_seen(self) -> None:
        for old, new in (
            ("uint32_t curve", "int64_t curve"),
            ("size_t marks_len, ", "size_t marks_len, uint32_t more, "),
            ("uint64_t mill_pair(", "uint64_t mill_pairs("),
        ):
            changed = declarations.calls(TEXT.replace(old, new, 1))
            self.assertNotEqual([tuple(call) for call in changed], [tuple(call) for call in support.CALLS], new)

    def test_what_is_in_the_library(self) -> None:
        """Every call of the header is in the library that is loaded: where it declares a call, no test is left out."""
        for name in DECLARED:
            self.assertEqual(_library.library.call(name).free.restype, ctypes.c_uint64, name)


# ---- what is public


SPECIAL = ("__init__", "__getitem__", "__iter__", "__len__", "__contains__", "__eq__", "__enter__")


def public() -> Iterator[Tuple[str, Any]]:
    """Every public class and function, and every public method and property of these classes."""
    for name in mill.__all__:
        item = getattr(mill, name)
        if inspect.isclass(item) or inspect.isfunction(item):
            yield name, item
        if inspect.isclass(item):
            for below, member in inspect.getmembers(item):
                kind = inspect.isfunction(member) or inspect.ismethod(member) or isinstance(member, property)
                ours = str(getattr(member.fget if isinstance(member, property) else member, "__module__", "")).startswith("mill")
                if kind and ours and (not below.startswith("_") or below in SPECIAL):
                    yield f"{name}.{below}", member


class Readme(unittest.TestCase):
    def test_example(self) -> None:
        """What the example of python/README.md prints stands beside it."""
        with open(os.path.join(ROOT, "python", "README.md"), encoding="utf-8") as file:
            found = re.search(r"```python\n(import mill\n.*?)```", file.read(), flags=re.DOTALL)
        assert found
        wanted = re.findall(r" # (.*)$", found.group(1), flags=re.MULTILINE)
        said: List[str] = []
        names = {"print": lambda *what: said.append(" ".join(map(str, what))), "open": lambda name, mode: open_in_root(name, mode)}
        exec(found.group(1), names)
        self.assertGreaterEqual(len(wanted), 4)
        self.assertEqual(said, wanted)


def open_in_root(name: str, mode: str) -> Any:
    with open(os.path.join(ROOT, name), mode) as file:
        return io.BytesIO(file.read())


class Public(unittest.TestCase):
    def test_all(self) -> None:
        self.assertEqual(sorted(mill.__all__), sorted(set(mill.__all__)))
        here = {name for name, value in vars(mill).items() if not name.startswith("_") and not inspect.ismodule(value)}
        self.assertEqual(here, set(mill.__all__) - {"__version__"})

    def test_annotations(self) -> None:
        count = 0
        for name, item in public():
            function = item.fget if isinstance(item, property) else item
            if inspect.isclass(function):
                for field in getattr(function, "_fields", ()):
                    self.assertIn(field, typing.get_type_hints(function), name)
                continue
            hints = typing.get_type_hints(function)
            self.assertIn("return", hints, name)
            for parameter in inspect.signature(function).parameters.values():
                if parameter.name not in ("self", "cls"):
                    self.assertIn(parameter.name, hints, f"{name}({parameter.name})")
            count += 1
        self.assertGreaterEqual(count, 45)

    def test_examples_are_there(self) -> None:
        count = 0
        for name, item in public():
            if "__" not in name:
                self.assertIn(">>> ", inspect.getdoc(item) or "", name)
                count += 1
        self.assertGreaterEqual(count, 55)

    def test_examples(self) -> None:
        parser, runner, found = doctest.DocTestParser(), doctest.DocTestRunner(verbose=False), 0
        for name, item in [("mill", mill), *public()]:
            test = parser.get_doctest(item.__doc__ or "", {"mill": mill, "recording": RUN}, name, None, None)
            for call in LATER - set(DECLARED):
                test.examples = [one for one in test.examples if f"mill.{call[5:]}(" not in one.source]
            self.assertEqual(runner.run(test).failed, 0, name)
            found += len(test.examples)
        self.assertGreaterEqual(found, 115)

    def test_names(self) -> None:
        """A class is known, and pickled, by the name under which it is used."""
        for name, item in public():
            if inspect.isclass(item):
                self.assertEqual(f"{item.__module__}.{item.__qualname__}", f"mill.{name}")


if __name__ == "__main__":
    unittest.main()

"""Covers: where the shared object is looked for, in which order, and what is said where it is not found or is too old; the package in a
fresh virtual environment, offline."""

import glob
import os
import shutil
import subprocess
import sys
import tempfile
import unittest
from typing import Any, Dict, List

from support import DECLARED, ROOT, environment

NAME = "libmill.so.1"
SHARED = os.path.join(ROOT, "target", "shared", NAME)
ARCHIVE = os.path.join(ROOT, "target", "staticlib", "libmill.a")
LOADED = "import mill; from mill._library import library; print(library.path)"
ASKED = LOADED + "\nprint(*mill.question(open({recording!r}, 'rb').read(), 'peaks(A)'))"
FIRST = [name for name in DECLARED if name not in ("mill_assured", "mill_version")]


class Found(unittest.TestCase):
    def setUp(self) -> None:
        self.folder = tempfile.mkdtemp()
        self.addCleanup(shutil.rmtree, self.folder)
        # A copy of the package alone: nothing lies beside it.
        self.package = self.place("package")
        compiled = shutil.ignore_patterns("__pycache__")
        shutil.copytree(os.path.join(ROOT, "python", "mill"), os.path.join(self.package, "mill"), ignore=compiled)
        self.tools = self.place("tools")

    def place(self, *names: str) -> str:
        made = os.path.join(self.folder, *names)
        os.makedirs(made, exist_ok=True)
        return made

    def library(self, *names: str) -> str:
        return shutil.copy(SHARED, os.path.join(self.place(*names), NAME))

    def pkg_config(self, body: str) -> None:
        program = os.path.join(self.tools, "pkg-config")
        with open(program, "w") as file:
            file.write("#!/bin/sh\n" + body)
        os.chmod(program, 0o755)

    def python(self, code: str, package: str = "", **changed: Any) -> "subprocess.CompletedProcess[str]":
        """Python with this package, and an environment in which nothing is found but by what is changed."""
        found: Dict[str, Any] = {"MILL_LIBRARY": None, "LD_LIBRARY_PATH": None, "PATH": self.tools, "PYTHONDONTWRITEBYTECODE": "1"}
        found.update(changed, PYTHONPATH=package or self.package)
        return subprocess.run(
            [sys.executable, "-c", code], env=environment(**found), stdout=subprocess.PIPE, stderr=subprocess.PIPE, universal_newlines=True
        )

    def loads(self, path: str, package: str = "", **changed: Any) -> None:
        said = self.python(LOADED, package, **changed)
        self.assertEqual((said.stdout, said.stderr), (path + "\n", ""))

    def not_found(self, lines: List[str], **changed: Any) -> None:
        said = self.python(LOADED, **changed)
        self.assertEqual(said.returncode, 1)
        last = said.stderr[said.stderr.index("\nmill.LibraryError: ") + 1 :]
        told = last.splitlines()
        self.assertIn(f"the shared object {NAME} of the library mill is not found. Tried were", told[0])
        self.assertEqual(len(told), len(lines) + 2, last)
        for line, wanted in zip(told[1:-1], lines):
            self.assertIn(wanted, line)
        self.assertIn("set MILL_LIBRARY to its path", told[-1])

    def test_environment(self) -> None:
        path = self.library("anywhere")
        self.pkg_config("exit 1")
        self.library("package", "mill")
        self.loads(path, MILL_LIBRARY=path)

    def test_pkg_config(self) -> None:
        path = self.library("own", "lib")
        self.library("package", "mill")
        self.pkg_config(f'[ "$*" = "--variable=libdir mill" ] && echo {os.path.dirname(path)}\n')
        self.loads(path)

    def test_beside(self) -> None:
        path = self.library("package", "mill")
        self.loads(path)
        self.pkg_config("exit 1")
        self.loads(path, LD_LIBRARY_PATH=os.path.dirname(self.library("other")))

    def test_repository(self) -> None:
        self.loads(SHARED, package=os.path.join(ROOT, "python"))

    def test_prefix(self) -> None:
        path = self.library("own", "lib")
        package = self.place("own", "share", "mill", "python")
        shutil.move(os.path.join(self.package, "mill"), package)
        self.loads(path, package=package)

    def test_loader(self) -> None:
        self.loads(NAME, LD_LIBRARY_PATH=os.path.dirname(self.library("other")))

    def test_nothing(self) -> None:
        beside = f"beside the package: {self.package}/mill/{NAME}: there is no such file"
        ways = ["MILL_LIBRARY: it is not set", "pkg-config: there is no pkg-config", beside]
        self.not_found([*ways, f"the loader: {NAME}: cannot open shared object file"])
        self.pkg_config("echo no such package >&2; exit 1")
        ways[1] = "pkg-config: it knows no mill"
        self.not_found([*ways, f"the loader: {NAME}: cannot open shared object file"])
        self.pkg_config("echo /nowhere")
        ways[1] = f"pkg-config: /nowhere/{NAME}: there is no such file"
        self.not_found([*ways, f"the loader: {NAME}: cannot open shared object file"])

    def test_wrong_one(self) -> None:
        """A path that is set is the only one tried; what it leads to must be the library."""
        self.library("package", "mill")
        self.not_found(["MILL_LIBRARY: /nowhere/x.so: there is no such file"], MILL_LIBRARY="/nowhere/x.so")
        text = os.path.join(self.folder, "text.so")
        with open(text, "w") as file:
            file.write("no shared object at all")
        self.not_found([f"MILL_LIBRARY: {text}: "], MILL_LIBRARY=text)
        other = os.path.join(self.folder, "other.so")
        subprocess.run(["gcc", "-shared", "-o", other, "-x", "c", "/dev/null"], check=True)
        self.not_found([f"MILL_LIBRARY: {other}: it has no mill_question"], MILL_LIBRARY=other)

    def test_old(self) -> None:
        """Of a library of version 1.0 all its calls are there; what it has not is named, with what to do."""
        old, script = os.path.join(self.folder, "old.so"), os.path.join(self.folder, "calls")
        with open(script, "w") as file:
            file.write("{ global: " + " ".join(name + ";" for name in FIRST) + " local: *; };")
        linked = ["gcc", "-shared", "-o", old, "-Wl,--whole-archive", ARCHIVE, "-Wl,--no-whole-archive", "-Wl,--version-script=" + script]
        subprocess.run(linked, check=True)
        run = os.path.join(ROOT, "crates", "ask", "data", "run.rec")
        said = self.python(ASKED.format(recording=run), MILL_LIBRARY=old)
        self.assertEqual((said.stdout, said.stderr), (f"{old}\n30 70\n", ""))
        for call, name in (("mill.version()", "mill_version"), ("mill.assured('lag')", "mill_assured")):
            code = f"import mill\ntry:\n    {call}\nexcept mill.LibraryError as error:\n    print(error)"
            said = self.python(code, MILL_LIBRARY=old)
            wanted = f"{old} is older than 1.1.0 and has no {name}: install version 1.1.0 of the library\n"
            self.assertEqual((said.stdout, said.stderr), (wanted, ""))

    @unittest.skipUnless("mill_version" in DECLARED, "include/mill.h does not declare mill_version")
    def test_version(self) -> None:
        said = self.python("import mill; print(mill.version() == mill.__version__)", MILL_LIBRARY=SHARED)
        self.assertEqual((said.stdout, said.stderr), ("True\n", ""))


class Installed(unittest.TestCase):
    def test_pip(self) -> None:
        """As a new user does it: from a copy of the folder, into a fresh virtual environment, without a network; then away again."""
        try:
            import ensurepip  # noqa: F401
            import venv
        except ImportError:
            self.skipTest("this Python can't make virtual environments with pip")
        with tempfile.TemporaryDirectory() as folder:
            source, made = os.path.join(folder, "python"), os.path.join(folder, "venv")
            shutil.copytree(os.path.join(ROOT, "python"), source, ignore=shutil.ignore_patterns("__pycache__"))
            before = sorted(os.listdir(source))
            venv.create(made, with_pip=True)
            python = os.path.join(made, "bin", "python")
            offline = environment(PIP_NO_INDEX="1", PIP_DISABLE_PIP_VERSION_CHECK="1", PYTHONPATH=None, MILL_LIBRARY=SHARED)
            run = lambda *words: subprocess.run(  # noqa: E731
                [python, *words], env=offline, cwd=folder, stdout=subprocess.PIPE, stderr=subprocess.STDOUT, universal_newlines=True
            )
            said = run("-m", "pip", "install", "./python")
            self.assertEqual(said.returncode, 0, said.stdout)
            said = run("-c", "import mill; print(mill.__version__, mill.__file__); print(*mill.Set())")
            site = glob.glob(os.path.join(made, "lib", "python*", "site-packages"))[0]
            self.assertIn(site, said.stdout)
            self.assertTrue(os.path.isfile(os.path.join(site, "mill", "py.typed")))
            self.assertEqual(run("-m", "pip", "check").returncode, 0)
            shown = run("-m", "pip", "show", "mill").stdout
            self.assertIn("Name: mill\nVersion: ", shown)
            said = run("-m", "pip", "uninstall", "--yes", "mill")
            self.assertEqual(said.returncode, 0, said.stdout)
            self.assertEqual(glob.glob(os.path.join(site, "mill*")), [])
            said = run("-m", "pip", "install", "-e", "./python")
            self.assertEqual(said.returncode, 0, said.stdout)
            self.assertIn(source, run("-c", "import mill; print(mill.__file__)").stdout)
            self.assertEqual(sorted(name for name in os.listdir(source) if name != "__pycache__"), before)
            said = run("-c", "import sys; sys.path.insert(0, 'python/build_backend'); import backend; print(backend.build_sdist('.'))")
            sdist = said.stdout.strip()
            self.assertEqual(run("-m", "pip", "install", "--force-reinstall", sdist).returncode, 0)
            self.assertIn(site, run("-c", "import mill; print(mill.__file__)").stdout)


if __name__ == "__main__":
    unittest.main()

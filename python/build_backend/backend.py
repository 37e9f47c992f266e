"""Builds the wheel of the package `mill` with the standard library alone, so that `pip install` needs no network (PEP 517, PEP 660)."""

import base64
import hashlib
import io
import os
import re
import tarfile
import zipfile

ROOT = os.path.dirname(os.path.dirname(os.path.abspath(__file__)))


def _read(*place):
    with open(os.path.join(ROOT, *place), encoding="utf-8", newline="") as file:
        return file.read()


def _field(text, pattern, place):
    found = re.search(pattern, text, re.MULTILINE)
    if not found:
        raise SystemExit(f"mill: {place} has no line {pattern}")
    return found.group(1)


VERSION = _field(_read("mill", "_header.py"), r'^VERSION = "([0-9.]+)"$', "_header.py")
_PROJECT = _read("pyproject.toml")
_NAME = f"mill-{VERSION}"
_INFO = f"{_NAME}.dist-info"
_WHEEL = f"{_NAME}-py3-none-any.whl"
# Zip files know no earlier time: the same sources give the same bytes.
_TIME = (1980, 1, 1, 0, 0, 0)


def _metadata():
    lines = [
        "Metadata-Version: 2.1",
        "Name: mill",
        f"Version: {VERSION}",
        "Summary: " + _field(_PROJECT, r'^description = "(.*)"$', "pyproject.toml"),
        "Requires-Python: " + _field(_PROJECT, r'^requires-python = "(.*)"$', "pyproject.toml"),
        "Description-Content-Type: text/markdown",
        "",
        _read("README.md"),
    ]
    return "\n".join(lines)


def _wheel():
    return "Wheel-Version: 1.0\nGenerator: mill\nRoot-Is-Purelib: true\nTag: py3-none-any\n"


def _sources():
    """The files of the package, by the name that each has in the wheel."""
    names = sorted(name for name in os.listdir(os.path.join(ROOT, "mill")) if name.endswith(".py") or name == "py.typed")
    return {f"mill/{name}": _read("mill", name) for name in names}


def _write(folder, files):
    """A wheel of these files, and the list of them that a wheel has."""
    files = {**files, f"{_INFO}/METADATA": _metadata(), f"{_INFO}/WHEEL": _wheel()}
    record = []
    with zipfile.ZipFile(os.path.join(folder, _WHEEL), "w", zipfile.ZIP_DEFLATED) as wheel:
        for name, text in files.items():
            content = text.encode("utf-8")
            digest = base64.urlsafe_b64encode(hashlib.sha256(content).digest()).rstrip(b"=").decode("ascii")
            record.append(f"{name},sha256={digest},{len(content)}\n")
            wheel.writestr(_entry(name), content)
        wheel.writestr(_entry(f"{_INFO}/RECORD"), "".join(record) + f"{_INFO}/RECORD,,\n")
    return _WHEEL


def _entry(name):
    entry = zipfile.ZipInfo(name, _TIME)
    entry.external_attr = 0o100644 << 16
    entry.compress_type = zipfile.ZIP_DEFLATED
    return entry


def get_requires_for_build_wheel(config_settings=None):
    return []


get_requires_for_build_editable = get_requires_for_build_sdist = get_requires_for_build_wheel


def prepare_metadata_for_build_wheel(metadata_directory, config_settings=None):
    folder = os.path.join(metadata_directory, _INFO)
    os.makedirs(folder, exist_ok=True)
    for name, text in (("METADATA", _metadata()), ("WHEEL", _wheel())):
        with open(os.path.join(folder, name), "w", encoding="utf-8", newline="") as file:
            file.write(text)
    return _INFO


prepare_metadata_for_build_editable = prepare_metadata_for_build_wheel


def build_wheel(wheel_directory, config_settings=None, metadata_directory=None):
    return _write(wheel_directory, _sources())


def build_editable(wheel_directory, config_settings=None, metadata_directory=None):
    return _write(wheel_directory, {"mill.pth": ROOT + "\n"})


def build_sdist(sdist_directory, config_settings=None):
    files = {**_sources(), **{name: _read(name) for name in ("pyproject.toml", "README.md")}}
    files["build_backend/backend.py"] = _read("build_backend", "backend.py")
    files["PKG-INFO"] = _metadata()
    archive = f"{_NAME}.tar.gz"
    with tarfile.open(os.path.join(sdist_directory, archive), "w:gz") as tar:
        for name, text in files.items():
            content = text.encode("utf-8")
            entry = tarfile.TarInfo(f"{_NAME}/{name}")
            entry.size = len(content)
            tar.addfile(entry, io.BytesIO(content))
    return archive

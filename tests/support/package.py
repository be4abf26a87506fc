"""Imports the Python package under test, which loads the library under test.

A module of tests imports the package like this, so that mypy knows its types:

    with package_under_test():
        import mkpasswd

The variable PACKAGE names a folder with a package mkpasswd, by default python/src, and LIBRARY a
file called libmkpasswd.so.3. environment_of() passes both to the interpreters that a test starts.
"""
from __future__ import annotations

import contextlib
import ctypes
import os
import runpy
import sys
from collections.abc import Callable, Iterator
from pathlib import Path
from typing import Any

import pytest

from . import ROOT, libxcrypt
from .documents import marked
from .model.hashes import hash_of
from .model.settings import read_setting
from .needs import missing
from .process import Changes, Result, run

SONAME = "libmkpasswd.so.3"
LIBRARY = Path(os.environ.get("LIBRARY", ROOT / SONAME)).absolute()
PACKAGE = Path(os.environ.get("PACKAGE", ROOT / "python/src")).absolute()


@contextlib.contextmanager
def package_under_test() -> Iterator[None]:
    """Lets the block import the package. Skips the module's tests if the library isn't built.

    The package loads its library by name, and gets the one that is loaded here by its path. So the
    environment, which other tests in this process share, needn't change.
    """
    assert LIBRARY.name == SONAME, f"LIBRARY must name a file called {SONAME}"
    if not LIBRARY.is_file():
        missing(str(LIBRARY), "make lib")
    ctypes.CDLL(str(LIBRARY))
    sys.path.insert(0, str(PACKAGE))
    try:
        yield
    finally:
        sys.path.remove(str(PACKAGE))


def environment_of(library: Path = LIBRARY, package: Path = PACKAGE) -> dict[str, str | None]:
    """Returns the environment changes with which an interpreter imports this package.

    The package then loads this library.
    """
    return {
        "PYTHONPATH": str(package),
        "LD_LIBRARY_PATH": str(library.parent),
        "PYTHONDONTWRITEBYTECODE": "1",
    }


# The environment of an interpreter that knows nothing of this tree.
ELSEWHERE: dict[str, str | None] = {"PYTHONPATH": None, "LD_LIBRARY_PATH": None}


def run_python(code: str, *, env: Changes | None = None, cwd: Path | None = None) -> Result:
    """Runs a script in a new interpreter, which can import the package."""
    environment = {**environment_of(), **(env or {})}
    return run(sys.executable, "-c", code, env=environment, cwd=cwd)


# The tests so marked make hashes with few rounds by the package's functions (python/conftest.py).
with_few_rounds = pytest.mark.usefixtures("few_rounds")


def error_of(call: Callable[..., object], *arguments: object, **named: object) -> Exception:
    """Returns the exception that a call raises."""
    with pytest.raises(Exception) as raised:
        call(*arguments, **named)
    return raised.value


def class_raised(call: Callable[..., object], *arguments: object, **named: object) -> object:
    """Returns the exact class of the exception that a call raises."""
    return error_of(call, *arguments, **named).__class__


def crypt(password: str | bytes, setting: str) -> str:
    """Returns libxcrypt's hash of a password, or the model's if libxcrypt refuses the length."""
    word = password.encode() if isinstance(password, str) else password
    if len(word) <= libxcrypt.LONGEST_PASSWORD:
        return libxcrypt.crypt(word, setting.encode()).decode()
    text = hash_of(read_setting(setting.encode()), word)
    assert text is not None, f"the model can't hash {len(word)} bytes with {setting!r}"
    return text.decode()


# ---- Recipes of docs/PYTHON.md: blocks below `<!-- tested: Python, NAME -->`


def recipe(name: str, language: str = "python") -> str:
    """Returns the code of a recipe."""
    return marked(f"Python, {name}", language).code


# The blocks of "A whole login", in the order of the document.
WHOLE_LOGIN = (
    "read and replace a hash",
    "register a user",
    "log a user in",
    "change a password",
    "a connection for each login",
)


def whole_login() -> str:
    """Returns the code of "A whole login", as a reader would collect it in a file."""
    return "\n\n".join(recipe(name) for name in WHOLE_LOGIN)


def whole_login_of_a_moving_service() -> str:
    """Returns "A whole login" with the changes and the checks for a service that has old hashes."""
    code = whole_login()
    for old, new in line_changes(recipe("change the login", "diff")).items():
        code = replace_lines(code, {old: new})
    return code + "\n\n" + recipe("check old hashes")


def line_changes(diff: str) -> dict[str, str]:
    """Returns the new line for each old one, from a diff that changes single lines."""
    lines = diff.splitlines()
    marks = [line[0] for line in lines]
    assert marks == ["-", "+"] * (len(lines) // 2), diff
    return {old[1:]: new[1:] for old, new in zip(lines[::2], lines[1::2])}


def replace_lines(code: str, changes: dict[str, str]) -> str:
    """Returns code of the document with some lines replaced. Each must occur exactly once."""
    for old, new in changes.items():
        assert code.count(old) == 1, f"expected {old!r} once in:\n{code}"
        code = code.replace(old, new)
    return code


class Cook:
    """Runs code of docs/PYTHON.md from a file in a folder, so that tracebacks show its lines."""

    def __init__(self, folder: Path) -> None:
        self.folder = folder

    def follow(self, name: str, **names: object) -> dict[str, Any]:
        """Runs a recipe after defining these names, and returns the names that it defines."""
        return self.run(recipe(name), **names)

    def run(self, code: str, **names: object) -> dict[str, Any]:
        """Runs code after defining these names, and returns the names that it defines."""
        path = self.folder / "service.py"
        path.write_text(code, encoding="utf-8")
        return runpy.run_path(str(path), init_globals=names)

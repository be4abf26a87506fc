"""Skips tests that need a command, file, Python module or privilege that is missing here.

With STRICT=1 such a test fails instead. A test that makes no sense on this machine, for example
because of its processor, is skipped even then.
"""
from __future__ import annotations

import contextlib
import functools
import importlib.util
import os
import shutil
from collections.abc import Iterator
from pathlib import Path
from typing import NoReturn

import pytest

from . import ROOT
from .process import run

PACKAGES = ROOT / "tests/packages.txt"


def missing(what: str, remedy: str) -> NoReturn:
    """Skips a test, or a module that is being imported. With STRICT=1 fails it instead."""
    reason = f"{what} is missing ({remedy})"
    if os.environ.get("STRICT") == "1":
        pytest.fail(reason, pytrace=False)
    pytest.skip(reason, allow_module_level=True)


def not_applicable(reason: str) -> NoReturn:
    """Skips a test that makes no sense on this machine, even with STRICT=1."""
    pytest.skip(f"not applicable: {reason}")


@functools.cache
def package_of() -> dict[str, str]:
    """Returns the Debian package of each name that a test can need."""
    packages = {}
    for line in PACKAGES.read_text(encoding="ascii").splitlines():
        words = line.split("#")[0].split()
        for name in words:
            packages[name] = words[0]
    return packages


def is_there(name: str) -> bool:
    """Returns whether a file, a Python module or a command is installed.

    A file has its whole path, and a module the name of its package, such as python3-yaml.
    """
    if name.startswith("/"):
        return Path(name).exists()
    if name.startswith("python3-"):
        return importlib.util.find_spec(name.removeprefix("python3-")) is not None
    return shutil.which(name) is not None


@functools.cache
def can_make_namespaces() -> bool:
    """Returns whether this process may make namespaces for mounts, processes and a network."""
    if os.geteuid() != 0:
        return False
    words = ["unshare", "--mount", "--net", "--pid", "--fork", "--kill-child", "--mount-proc"]
    return run(*words, "true").status == 0


def need(*names: str) -> None:
    """Skips the test if one of these is missing. They may include `root` and `namespaces`."""
    for name in names:
        if name == "root":
            if os.geteuid() != 0:
                missing("the superuser", "run the tests as root")
        elif name == "namespaces":
            if not can_make_namespaces():
                missing("unshare", "run the tests as root where namespaces can be made")
        elif not is_there(name):
            missing(name, f"Debian package {package_of()[name]}")


@contextlib.contextmanager
def needed(*names: str) -> Iterator[None]:
    """Skips the test module that is being imported if one of these is missing."""
    need(*names)
    yield


def built(path: str, target: str) -> Path:
    """Returns the path of a file that `make TARGET` builds. Skips the test if it isn't built."""
    file = ROOT / path
    if not file.exists():
        missing(path, f"make {target}")
    return file

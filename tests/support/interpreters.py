"""Finds the versions of Python on this machine."""
from __future__ import annotations

import glob
import os
import shutil
from collections.abc import Iterator
from dataclasses import dataclass

OLDEST = 8  # the oldest minor version of Python 3 that our code supports
# Minor versions to look for: some that are too old, and some that don't exist yet.
MINOR_VERSIONS = range(6, 20)


@dataclass(frozen=True)
class Interpreter:
    """A version of Python, and the path of its interpreter."""

    minor: int
    path: str

    def __str__(self) -> str:
        return f"Python 3.{self.minor}"


def interpreters() -> Iterator[Interpreter]:
    """Yields one interpreter for each version of Python 3, from the system or the user's pyenv."""
    for minor in MINOR_VERSIONS:
        version = f"3.{minor}"
        found = shutil.which(f"python{version}", path="/usr/bin:/usr/local/bin")
        pattern = os.path.expanduser(f"~/.pyenv/versions/{version}.*/bin/python3")
        of_pyenv = sorted(glob.glob(pattern))
        if found or of_pyenv:
            yield Interpreter(minor, found or of_pyenv[0])

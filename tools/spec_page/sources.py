"""Reads the files of the crates. Defines places in them, and the entries of the page."""

from __future__ import annotations

import re
from dataclasses import dataclass
from functools import lru_cache
from pathlib import Path

ROOT = Path(__file__).resolve().parents[2]
CRATES = "crates.txt"
# A line of crates.txt: `crypt_c staticlib: call_core crypt_core prims_core`.
CRATE = re.compile(r"(?P<name>\w+)[^:#]*:")


class Stop(Exception):
    """No page is printed. The text says where and why."""


@dataclass(frozen=True, order=True)
class Place:
    """A line of a file. The path is relative to the root of the repository."""

    path: str
    line: int  # counted from 1

    def __str__(self) -> str:
        return f"{self.path}:{self.line}"


@dataclass(frozen=True)
class Entry:
    """A definition, a type or a call, as in its file."""

    place: Place  # the first line of its code
    name: str
    comment: str  # with its comment marks
    code: str

    @property
    def is_definition(self) -> bool:
        """Whether it is a definition in specs/, not a type or call of the code."""
        return self.place.path.endswith(".antt")


@lru_cache(maxsize=None)
def read(path: str) -> str:
    """Returns the text of a file."""
    try:
        return (ROOT / path).read_text(encoding="utf-8")
    except OSError as error:
        raise Stop(f"{path}: {error.strerror}") from None
    except UnicodeDecodeError:
        raise Stop(f"{path} is not UTF-8") from None


def lines_of(path: str) -> list[str]:
    """Returns the lines of a file."""
    return read(path).split("\n")


def is_file(path: str) -> bool:
    """Returns whether a file exists."""
    return (ROOT / path).is_file()


@lru_cache(maxsize=None)
def crates() -> tuple[str, ...]:
    """Returns the names of the crates, the lowest first."""
    names = []
    for number, line in enumerate(lines_of(CRATES), start=1):
        found = CRATE.match(line)
        if found:
            names.append(found["name"])
        elif line and not line.startswith("#"):
            raise Stop(f"{Place(CRATES, number)}: neither a crate with a colon nor a comment")
    return tuple(names)


def code_files(crate: str) -> list[str]:
    """Returns the files of a crate's code."""
    folder = ROOT / "crates" / crate / "src"
    return [str(path.relative_to(ROOT)) for path in sorted(folder.glob("**/*.rt"))]

"""Installs the library, and builds C programs that call it."""
from __future__ import annotations

import os
import re
from dataclasses import dataclass
from pathlib import Path

from . import ROOT
from .process import Word, assert_result, run

COMPILER = os.environ.get("CC", "cc")
WARNINGS = ("-Wall", "-Wextra", "-Werror", "-pedantic", "-pthread")
SOURCES = ROOT / "tests/c"


@dataclass(frozen=True)
class Installed:
    """The library's files, below the folder in which they are installed."""

    root: Path

    @property
    def include(self) -> Path:
        """The folder of the header."""
        return self.root / "usr/include"

    @property
    def libraries(self) -> Path:
        """The folder of the libraries."""
        return self.root / "usr/lib/x86_64-linux-gnu"

    @property
    def header(self) -> str:
        """The text of the header."""
        return (self.include / "mkpasswd.h").read_text(encoding="ascii")

    @property
    def static(self) -> list[Word]:
        """The compiler's arguments that link the static library."""
        return [f"-I{self.include}", self.libraries / "libmkpasswd.a"]

    @property
    def shared(self) -> list[Word]:
        """The compiler's arguments that link the shared library, and its path for run time."""
        folder = self.libraries
        return [f"-I{self.include}", f"-L{folder}", f"-Wl,-rpath,{folder}", "-lmkpasswd"]

    def defined(self, name: str) -> int:
        """Returns the number that the header defines as MKPASSWD_NAME."""
        pattern = rf"^#define MKPASSWD_{name} (\d+)"
        found = re.search(pattern, self.header, re.MULTILINE)
        assert found is not None, f"the header doesn't define MKPASSWD_{name}"
        return int(found[1])

    def exported(self) -> list[str]:
        """Returns the names of the functions that the library exports."""
        pattern = r"^MKPASSWD_EXPORT[^;]*?int32_t\s+(mkpasswd_\w+)\("
        return sorted(re.findall(pattern, self.header, re.MULTILINE))

    def inline(self) -> list[str]:
        """Returns the names of the inline calls that the header declares for its users."""
        pattern = r"static inline (?:bool|struct \w+) (mkpasswd_\w+)\([^{;]*\);"
        return sorted(re.findall(pattern, self.header))


def install(folder: Path) -> Installed:
    """Installs the built files below a folder with tools/install."""
    installed = Installed(folder)
    libraries = "/" + str(installed.libraries.relative_to(folder))
    environment = {"DESTDIR": str(folder), "PREFIX": "/usr", "LIBDIR": libraries}
    run(ROOT / "tools/install", env=environment, cwd=ROOT).required()
    return installed


@dataclass(frozen=True)
class Builder:
    """Compiles C99 programs in a folder, with the installed static library."""

    installed: Installed
    folder: Path

    def build(self, source: Path, *words: Word) -> Path:
        """Compiles a program, and returns its path. Fails the test at any warning."""
        program = self.folder / source.stem
        command = (COMPILER, "-std=c99", *WARNINGS, *words, source, *self.installed.static)
        assert_result(run(*command, "-o", program))
        return program

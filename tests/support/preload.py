"""Builds libraries from tests/c that LD_PRELOAD puts before the C library."""
from __future__ import annotations

import os
from pathlib import Path

from . import ROOT
from .process import run


def preload_library(name: str, folder: Path) -> Path:
    """Builds tests/c/NAME.c in a folder, and returns the library's path, for LD_PRELOAD."""
    library = folder / f"{name}.so"
    flags = ["-std=gnu11", "-Wall", "-Wextra", "-Werror", "-O1", "-fPIC", "-shared"]
    source = ROOT / "tests/c" / f"{name}.c"
    compiler = os.environ.get("CC", "cc")
    run(compiler, *flags, source, "-o", library, "-ldl").required()
    return library

"""Copies of pwhash that every user can run, and whose modules a test may change."""
from __future__ import annotations

import contextlib
import shutil
import tempfile
from collections.abc import Iterator
from dataclasses import dataclass
from pathlib import Path

from .package import SONAME
from .process import Changes, Result, Word, run
from .pwhash_runs import PWHASH

MODULES = "python/src"


@dataclass(frozen=True)
class Copy:
    """A folder with pwhash, its modules, its library and the program, readable by everybody."""

    folder: Path

    @property
    def pwhash(self) -> Path:
        return self.folder / "bin/pwhash"

    @property
    def modules(self) -> Path:
        """The folder of the packages mkpasswd and pwhash."""
        return self.folder / MODULES

    @property
    def library(self) -> Path:
        return self.folder / SONAME

    def run(
        self,
        *words: Word,
        stdin: bytes = b"",
        before: tuple[Word, ...] = (),
        env: Changes | None = None,
    ) -> Result:
        """Runs the copy, perhaps with a wrapper command before it."""
        return run(*before, self.pwhash, *words, stdin=stdin, env=env)


@contextlib.contextmanager
def copied(program: Path) -> Iterator[Copy]:
    """Makes a copy of pwhash for the block, where all users can read it, unlike tmp_path."""
    with tempfile.TemporaryDirectory() as name:
        copy = Copy(Path(name))
        copy.folder.chmod(0o755)
        (copy.folder / "bin").mkdir()
        tree = Path(PWHASH).resolve().parents[1]
        ignored = shutil.ignore_patterns("__pycache__")
        shutil.copytree(tree / MODULES, copy.modules, ignore=ignored)
        shutil.copy(tree / SONAME, copy.library)
        shutil.copy(PWHASH, copy.pwhash)
        shutil.copy(program, copy.folder / "bin/mkpasswd")
        yield copy

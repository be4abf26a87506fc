"""Trees in which the tools around rt run with a fake rt, which does what a test says."""
from __future__ import annotations

import shutil
import time
from collections.abc import Callable
from dataclasses import dataclass
from pathlib import Path

from . import ROOT
from .process import Changes, Result, Word, changed_environment, run

COPIED = (
    *("tools/for-cpu", "tools/gate", "tools/gate_times.py", "tools/rt_output.py"),
    # tools/gate asks pwhash about the machine.
    *("python/src/pwhash/__init__.py", "python/src/pwhash/machine.py"),
)
CRATES = ("program", "crypt_c", "crypt_web")
SECONDS_TO_WAIT = 60


@dataclass(frozen=True)
class ToolTree:
    """A copy of the tools, beside empty crates."""

    folder: Path

    @property
    def program(self) -> Path:
        """The fake rt of this tree."""
        return self.folder / "rt"

    def path(self, name: str) -> Path:
        """Returns the path of a file of this tree."""
        return self.folder / name

    def rt_is(self, script: str) -> None:
        """Makes the fake rt a script for sh."""
        self.program.write_text(f"#!/bin/sh\n{script}\n", encoding="utf-8")
        self.program.chmod(0o755)

    def rt_prints(self, lines: bytes, status: int = 0) -> None:
        """Makes a fake rt that prints this and ends."""
        self.path("rt.lines").write_bytes(lines)
        self.rt_is(f'cat "$0.lines"\nexit {status}')

    def environment(self, changes: Changes | None = None) -> Changes:
        """Returns changes to the environment: the fake rt, and no settings from the tests' run."""
        return {"RT": str(self.program), "RT_JOBS": None, **(changes or {})}

    def full_environment(self) -> dict[str, str]:
        """Returns the tests' own environment with the changes of environment()."""
        return changed_environment(self.environment())

    def run(self, tool: str, *words: Word, env: Changes | None = None) -> Result:
        """Runs a tool, from a folder outside the tree."""
        command = (self.path(f"tools/{tool}"), *words)
        return run(*command, env=self.environment(env), cwd=self.folder.parent)


def tool_tree(folder: Path) -> ToolTree:
    """Makes a tree with copies of the tools and with empty crates in a folder."""
    tree = ToolTree(folder)
    for name in COPIED:
        tree.path(name).parent.mkdir(parents=True, exist_ok=True)
        shutil.copy(ROOT / name, tree.path(name))
    for crate in CRATES:
        tree.path(f"crates/{crate}").mkdir(parents=True)
    return tree


def wait_for(condition: Callable[[], bool]) -> None:
    """Waits for a condition, for at most SECONDS_TO_WAIT."""
    end = time.monotonic() + SECONDS_TO_WAIT
    while not condition():
        assert time.monotonic() < end, f"the condition didn't hold within {SECONDS_TO_WAIT} seconds"
        time.sleep(0.01)

"""Tests the program through a wrapper command, say in another root or on another processor."""
from __future__ import annotations

import shlex
import sys
from pathlib import Path

from . import ROOT
from .process import Word, run

HOUR = 3600  # a run that takes longer hangs
FILES = [f"program/test_{name}.py" for name in ("audits", "lines", "passwords", "program")]


def wrapper(script: Path, *command: Word) -> Path:
    """Writes a script that runs this command with further arguments, and returns its path."""
    words = shlex.join(str(word) for word in command)
    script.write_text(f'#!/bin/sh\nexec {words} "$@"\n', encoding="utf-8")
    script.chmod(0o755)
    return script


def assert_passes_the_tests_of_the_program(program: Path) -> None:
    """Fails the test unless this program passes the tests in FILES, run by two workers."""
    pytest = (sys.executable, "-B", "-m", "pytest", "-n", 2, "--color=no")
    environment = {"PROGRAM": str(program), "PYTEST_ADDOPTS": None}
    result = run(*pytest, *FILES, env=environment, cwd=ROOT / "tests", timeout=HOUR)
    if result.status != 0 or result.has_timed_out:
        # The last lines name the tests that failed.
        raise AssertionError(f"{result.stdout.decode(errors='replace')}\n{result}")

"""Runs each test of pwhash in a scratch folder.

The tests see only what a user sees: the command, its outputs, files and status.
"""
from __future__ import annotations

from collections.abc import Iterator
from pathlib import Path

import pytest
from support.pwhash_copies import Copy, copied


@pytest.fixture(autouse=True, name="folder")
def fixture_folder(tmp_path: Path, monkeypatch: pytest.MonkeyPatch) -> Path:
    """A scratch folder, which becomes the current one. The locale becomes C.UTF-8."""
    monkeypatch.chdir(tmp_path)
    monkeypatch.setenv("LC_ALL", "C.UTF-8")
    return tmp_path


@pytest.fixture(name="copy")
def fixture_copy(program: Path) -> Iterator[Copy]:
    """A copy of pwhash with its modules and its library, which a test may change."""
    with copied(program) as copy:
        yield copy

"""tools/version: where it reads the version, and that it fails without one."""
from __future__ import annotations

import shutil
from pathlib import Path

import pytest
from support import ROOT
from support.process import Result, assert_result, run


def version_of(folder: Path, module: str | None) -> Result:
    """Runs the tool in a tree with this module."""
    (folder / "tools").mkdir()
    shutil.copy(ROOT / "tools/version", folder / "tools")
    path = folder / "crates/crypt_core/src/version.rt"
    path.parent.mkdir(parents=True)
    if module is not None:
        path.write_text(module, encoding="utf-8")
    return run(folder / "tools/version")


def test_the_version_is_the_modules(tmp_path: Path) -> None:
    module = '//! The version.\npub const VERSION: &str = "12.0.3";\npub const OTHER: &str = "1";\n'
    assert_result(version_of(tmp_path, module), stdout=b"12.0.3\n")


@pytest.mark.parametrize(
    "module",
    [
        pytest.param(None, id="no module"),
        pytest.param("", id="an empty one"),
        pytest.param('const VERSION: &str = "12.0.3";\n', id="another constant"),
    ],
)
def test_a_missing_version_is_a_failure(tmp_path: Path, module: str | None) -> None:
    result = version_of(tmp_path, module)
    assert result.status != 0 and result.stdout == b"", result
    assert b"version.rt" in result.stderr, result

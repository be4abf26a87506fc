"""The build by make TARGET=aarch64: what its archive and its wheel say about themselves.

test_elsewhere.py runs its program, and tests/library its library.
"""
from __future__ import annotations

import re
from pathlib import Path

import pytest
from support import ROOT
from support.needs import built
from support.process import run
from support.release import Archive, oldest_glibc, packed

pytestmark = [pytest.mark.needs("aarch64-linux-gnu-gcc"), pytest.mark.xdist_group("arm")]

PROCESSOR = "aarch64"
LIBRARY = "libmkpasswd.so.3"


@pytest.fixture(scope="module", name="archive")
def fixture_archive(tmp_path_factory: pytest.TempPathFactory) -> Archive:
    """The archive for ARM."""
    built(f"build/{PROCESSOR}/mkpasswd", f"TARGET={PROCESSOR}")
    return packed(PROCESSOR, tmp_path_factory.mktemp("arm"))


@pytest.mark.parametrize(
    ("packed_name", "name"),
    [
        pytest.param("bin/mkpasswd", "mkpasswd", id="the program"),
        pytest.param(f"lib/{LIBRARY}", LIBRARY, id="the library"),
    ],
)
def test_the_archive_has_the_built_files(archive: Archive, packed_name: str, name: str) -> None:
    expected = (ROOT / "build" / PROCESSOR / name).read_bytes()
    assert (archive.tree / packed_name).read_bytes() == expected


def test_the_readme_is_for_arm(archive: Archive) -> None:
    assert archive.readme.partition("\n")[0].endswith(" for Linux on aarch64")


def test_there_is_no_pam_module_and_the_readme_promises_none(archive: Archive) -> None:
    assert list((archive.tree / "lib").rglob("pam_*")) == []
    assert list((archive.tree / "share/man").rglob("pam_*")) == []
    assert "pam_mkpasswd" not in archive.readme


@pytest.mark.needs("objdump")
def test_the_readme_names_the_oldest_glibc(archive: Archive) -> None:
    glibc = oldest_glibc(archive.tree / "lib" / LIBRARY)
    row = rf"^  {re.escape(LIBRARY)}: +glibc {re.escape(glibc)} or later$"
    assert re.search(row, archive.readme, re.MULTILINE), archive.readme


@pytest.mark.needs("objdump")
def test_the_guide_names_the_oldest_glibc(archive: Archive) -> None:
    glibc = oldest_glibc(archive.tree / "lib" / LIBRARY)
    row = rf"^\| .*C libraries.* ARM \| glibc {re.escape(glibc)}\+ \|$"
    assert re.search(row, (ROOT / "docs/GUIDE.md").read_text(encoding="utf-8"), re.MULTILINE)


@pytest.mark.needs("objdump", "python3-build", "python3-setuptools", "python3-wheel")
def test_the_name_of_the_wheel_has_the_oldest_glibc(tmp_path: Path) -> None:
    library = built(f"build/{PROCESSOR}/{LIBRARY}", f"TARGET={PROCESSOR}")
    built("python/src/mkpasswd_version.py", "lib")
    run(ROOT / "tools/wheel", library, tmp_path).required()
    (wheel,) = tmp_path.iterdir()
    glibc = oldest_glibc(library).replace(".", "_")
    assert wheel.name.endswith(f"-manylinux_{glibc}_{PROCESSOR}.whl"), wheel.name

"""The programs of the archives pass tests/program in an empty root, and under qemu.

Each of these tests runs pytest itself, so they don't run in parallel.
"""
from __future__ import annotations

import shutil
from pathlib import Path

import pytest
from support import ROOT
from support.elsewhere import HOUR, assert_passes_the_tests_of_the_program, wrapper
from support.needs import built, missing
from support.process import Word, run
from support.release import processor_of_build

pytestmark = [pytest.mark.xdist_group("nested"), pytest.mark.slow]

CHROOT: tuple[Word, ...] = ("chroot",)
CHROOT_OF_A_USER: tuple[Word, ...] = ("unshare", "--user", "--map-root-user", "chroot")
SOAKED_LINES = 2000  # of each kind; more would take too long under qemu


def permitted_chroot() -> tuple[Word, ...]:
    """Returns a command by which this user can enter another root."""
    for command in (CHROOT, CHROOT_OF_A_USER):
        if run(*command, "/", "true").status == 0:
            return command
    missing("permission to use chroot", "run the tests as root")


def test_the_static_program_needs_nothing_but_the_kernel(tmp_path: Path) -> None:
    program = built(f"build/{processor_of_build()}/mkpasswd", "static")
    command = permitted_chroot()
    empty = tmp_path / "empty"
    (empty / "bin").mkdir(parents=True)
    shutil.copy(program, empty / "bin/mkpasswd")
    script = wrapper(tmp_path / "in an empty folder", *command, empty, "/bin/mkpasswd")
    assert_passes_the_tests_of_the_program(script)


@pytest.fixture(name="under_qemu")
def fixture_under_qemu(tmp_path: Path) -> Path:
    """The program for ARM, run by qemu."""
    program = built("build/aarch64/mkpasswd", "TARGET=aarch64")
    return wrapper(tmp_path / "under qemu", "qemu-aarch64-static", program)


@pytest.mark.needs("aarch64-linux-gnu-gcc", "qemu-aarch64-static")
def test_the_program_for_arm_passes_the_tests_of_the_program(under_qemu: Path) -> None:
    assert_passes_the_tests_of_the_program(under_qemu)


@pytest.mark.needs("aarch64-linux-gnu-gcc", "qemu-aarch64-static")
def test_the_program_for_arm_answers_random_lines_like_the_model(under_qemu: Path) -> None:
    words = (ROOT / "tools/soak", "--lines", SOAKED_LINES, under_qemu)
    result = run(*words, timeout=HOUR)
    assert result.status == 0, f"{result.stdout.decode(errors='replace')}\n{result}"

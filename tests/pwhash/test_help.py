"""pwhash's help and version."""
from __future__ import annotations

from pathlib import Path

import pytest
from support.process import run
from support.pwhash_runs import pwhash, shell


@pytest.mark.parametrize(
    "command",
    [(), ("file",), ("check",), ("audit",), ("set",), ("install",)],
    ids=["one", "file", "check", "audit", "set", "install"],
)
def test_help_names_the_options(command: tuple[str, ...]) -> None:
    done = pwhash(*command, "--help")
    assert done.status == 0 and b"--method" in done.out and b"--budget" in done.out, done


def test_the_version_is_that_of_mkpasswd(program: Path) -> None:
    version = run(program, "-V").required().stdout.split()[1]
    done = pwhash("--version")
    assert (done.status, done.out, done.err) == (0, b"pwhash " + version + b"\n", b""), done


def test_help_that_cannot_be_written_is_a_failure() -> None:
    assert shell('exec "$@" > /dev/full', "--help").status == 3

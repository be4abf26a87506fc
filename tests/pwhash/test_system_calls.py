"""Failing system calls: status 3, a message, and no OUT."""
from __future__ import annotations

import os

import pytest
from support.package import LIBRARY, PACKAGE
from support.pwhash_runs import ended, save, started_program, users

# The command that bin/pwhash runs, so that strace counts only the calls from here on.
START = ("/usr/bin/python3", "-I", "-S", str(PACKAGE / "pwhash/start.py"), str(LIBRARY), "pwhash")
WORDS = ("file", "-m", "sha512crypt", "-R", "20k", "-S", "saltsalt", "lines", "-o", "out")


@pytest.mark.needs("strace")
@pytest.mark.parametrize(
    ("call", "error", "first_failing"),
    [
        pytest.param("clone,clone3", "EAGAIN", 1, id="no thread"),
        pytest.param("poll", "ENOMEM", 2, id="no memory to wait for lines"),
        pytest.param("flock", "EIO", 1, id="no lock"),
        pytest.param("fsync", "EIO", 1, id="a disk that fails at the beginning"),
        pytest.param("fsync", "EIO", 2, id="a disk that fails at the end"),
        pytest.param("fsync", "ENOSPC", 2, id="a disk that is full at the end"),
        pytest.param("linkat", "ENOSPC", 1, id="no space for a name"),
        pytest.param("linkat", "EACCES", 1, id="no permission to create a name"),
        pytest.param("fchmod", "EPERM", 1, id="no permission to set the mode"),
    ],
)
def test_a_failing_system_call_makes_no_out(call: str, error: str, first_failing: int) -> None:
    save("lines", users(40))
    inject = f"inject={call}:error={error}:when={first_failing}+"
    command = ["strace", "-qq", "-o", "/dev/null", "-e", inject, *START, *WORDS]
    done = ended(started_program(*command))
    assert (done.status, done.out) == (3, b"") and done.err.startswith(b"pwhash: "), done
    assert not os.path.exists("out"), done

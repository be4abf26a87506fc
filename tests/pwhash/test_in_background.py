"""pwhash in the background of a terminal, where the system stops it when it asks for a password."""
from __future__ import annotations

import os
import signal
from typing import Any

import pytest
from support.needs import needed
from support.pwhash_runs import MD5CRYPT, PWHASH, hashed, type_secret

with needed("python3-pexpect"):
    import pexpect

# Runs pwhash as a job, and waits until the system has stopped it, which proc(5) shows as T.
JOB = """
set -m
until_stopped() {
    until grep -q '^State:.T' "/proc/$job/status"; do
        [ -e "/proc/$job" ] || exit 9
        sleep 0.05
    done
}
"$@" &
job=$!
until_stopped
end_of_job() {
    while [ -e "/proc/$job" ]; do
        sleep 0.05
    done
    wait "$job"
    echo "status $?"
}
"""


def number_after(child: Any, words: bytes) -> int:
    """Waits for these words of a script, and returns the number after them."""
    child.expect(words + rb" ([0-9]+)")
    return int(child.match[1])


def in_background(script: str) -> Any:
    """Runs a bash script at a terminal, once pwhash is stopped in the background."""
    words = ["-c", JOB + script, "bash", PWHASH, *MD5CRYPT]
    return pexpect.spawn("/bin/bash", words, timeout=60, echo=False)


@pytest.mark.parametrize("name", ["TERM", "HUP", "INT", "USR1"])
def test_a_signal_ends_pwhash_before_it_asks(name: str) -> None:
    """`timeout` sends such a signal, and then continues the stopped process."""
    child = in_background(f"kill -{name} $job; kill -CONT $job; end_of_job")
    assert number_after(child, b"status") == 128 + getattr(signal, f"SIG{name}")


def test_pwhash_asks_once_it_is_in_the_foreground() -> None:
    child = in_background("fg > /dev/null")
    child.expect(rb"Password: ")
    screen = type_secret(child)
    assert screen.split() == [hashed(b"secret")] and child.exitstatus == 0, screen


def test_a_signal_ends_pwhash_in_the_background_after_it_has_asked() -> None:
    """pwhash is stopped at its prompt, and continued in the background, where it must not ask."""
    script = """
        echo "job $job"
        fg %1 > /dev/null
        until_stopped
        bg %1 > /dev/null
        kill -TERM $job; end_of_job
    """
    child = in_background(script)
    job = number_after(child, b"job")
    child.expect(rb"Password: ")
    os.kill(job, signal.SIGSTOP)
    assert number_after(child, b"status") == 128 + signal.SIGTERM

"""What a terminal shows during a run whose outputs go elsewhere."""
from __future__ import annotations

import shlex
import signal

from support.needs import needed
from support.pwhash_runs import PWHASH, SLOW, on_few_processors, read, save, users

with needed("python3-pexpect"):
    import pexpect


def test_the_terminal_shows_progress_and_how_to_resume() -> None:
    save("lines", users(5000))
    command = shlex.join([*on_few_processors(), PWHASH, "file", *SLOW, "lines", "-o", "out"])
    child = pexpect.spawn("/bin/sh", ["-c", f"exec {command} > log 2> refused"], timeout=60)
    child.expect(rb"left")
    screen = child.before
    child.kill(signal.SIGINT)
    child.expect(rb"--resume")
    screen += child.before
    child.expect(pexpect.EOF)
    child.close()
    assert b" of 5,000 lines" in screen and b" %" in screen, screen
    assert b"%" not in read("refused")

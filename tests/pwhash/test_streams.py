"""Pipes: pwhash answers each line at once, and stops reading while nobody reads its answers."""
from __future__ import annotations

import os
import subprocess
import time

from support.pwhash_runs import MD5, MD5CRYPT, PWHASH, save, started

GREATEST = 1 << 26  # more than pipes and blocks hold
SECONDS_OF_SILENCE = 2


def test_each_answer_is_written_at_once() -> None:
    with started("file", *MD5CRYPT, bufsize=0) as process:
        assert process.stdin and process.stdout
        for name in b"ann", b"bob":
            process.stdin.write(name + b":password\n")
            assert process.stdout.readline() == name + b":" + MD5.encode() + b"\n"
        process.stdin.close()
        assert process.wait() == 0


def written_until_it_waits(process: subprocess.Popen[bytes]) -> int:
    """Returns how many bytes a process reads while nobody reads its answers."""
    assert process.stdin
    descriptor = process.stdin.fileno()
    os.set_blocking(descriptor, False)
    written = 0
    silent_since = time.monotonic()
    while written < GREATEST and time.monotonic() - silent_since < SECONDS_OF_SILENCE:
        try:
            written += os.write(descriptor, b"ann:!:x\n" * 1000)
            silent_since = time.monotonic()
        except BlockingIOError:
            time.sleep(0.02)
    return written


def test_nothing_is_read_while_nobody_reads_the_answers() -> None:
    """Otherwise pwhash would take more and more memory."""
    pipe = subprocess.PIPE
    with subprocess.Popen([PWHASH, "check"], stdin=pipe, stdout=pipe, bufsize=0) as process:
        try:
            assert written_until_it_waits(process) < GREATEST
        finally:
            process.kill()
            process.communicate()


def test_a_non_blocking_output_gets_every_answer() -> None:
    """Another program may have made the pipe non-blocking. It stays full until somebody reads."""
    save("lines", b"ann:!:x\n" * 100_000)
    reader, writer = os.pipe()
    os.set_blocking(writer, False)
    with started("check", "lines", stdout=writer) as process, open(reader, "rb") as answers:
        os.close(writer)
        assert answers.read() == b"ann:locked\n" * 100_000
        assert process.wait() == 0

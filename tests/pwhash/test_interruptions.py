"""Runs interrupted at any moment: they write only correct lines, and can be resumed."""
from __future__ import annotations

import contextlib
import glob
import os
import random
import signal
import time
from dataclasses import dataclass
from pathlib import Path

import pytest
from support.process import run
from support.pwhash_copies import Copy
from support.pwhash_runs import (
    PWHASH,
    Ended,
    command_to_go_on,
    ended,
    read,
    save,
    started,
    started_program,
)

SIGNALS = 40
NUMBERS = (signal.SIGINT, signal.SIGTERM, signal.SIGHUP, signal.SIGKILL)
WORDS = ("-m", "sha512crypt", "-R", "5000", "-S", "saltsalt")
FIRST = f"{PWHASH} file {' '.join(WORDS)} 'my lines' -o out --skip-refused"
PART = "out.part"
LARGEST_STEP = 6000  # bytes that a run adds to the part before it gets a signal


def lines() -> bytes:
    """Returns 300 lines, of which every seventeenth is refused."""
    numbers = range(300)
    return b"".join(
        b"no colon\n" if number % 17 == 0 else b"user%d:password%d\n" % (number, number)
        for number in numbers
    )


def size_of_part() -> int:
    """Returns the size of the part, or -1 if there is none."""
    with contextlib.suppress(FileNotFoundError):
        return os.path.getsize(PART)
    return -1


@dataclass
class Interrupted:
    """A run that is resumed after each signal, and started again once it is complete."""

    source: random.Random
    expected: bytes
    command: str = FIRST
    sent: int = 0
    finished: int = 0

    def run_once(self) -> None:
        """Runs the command to its end, or until it gets a signal at a random moment."""
        number = self.source.choice(NUMBERS)
        goal = max(0, size_of_part()) + self.source.randrange(LARGEST_STEP)
        done = self.run_to(goal, number)
        if os.path.exists("out"):
            self.start_again(number, done)
        else:
            self.resume(number, done)

    def run_to(self, goal: int, number: signal.Signals) -> Ended:
        """Runs the command, and sends it a signal once its part has grown to this size."""
        with started_program("/bin/sh", "-c", f"exec {self.command}") as process:
            while process.poll() is None and self.sent < SIGNALS:
                if size_of_part() >= goal:
                    process.send_signal(number)
                    self.sent += 1
                    break
                time.sleep(0.01)
            return ended(process)

    def start_again(self, number: signal.Signals, done: Ended) -> None:
        """Checks the output of a complete run, and removes it."""
        assert read("out") == self.expected, done
        os.remove("out")
        if number == signal.SIGKILL:  # SIGKILL can come before the part is removed
            for left in glob.glob(f"{PART}*"):
                os.remove(left)
        self.command = FIRST
        self.finished += 1

    def resume(self, number: signal.Signals, done: Ended) -> None:
        """Checks the part of an interrupted run. The next command is the one that it printed."""
        assert done.status in (-number, 3), done
        assert self.expected.startswith(read(PART).rpartition(b"\n")[0]), done
        is_silent = number == signal.SIGKILL
        self.command = f"{FIRST} --resume" if is_silent else command_to_go_on(done)
        assert " --resume" in self.command, done


@pytest.mark.slow
def test_the_printed_command_resumes_an_interrupted_run(program: Path) -> None:
    """Sends forty signals. Their moments follow from a fixed seed."""
    save("my lines", lines())
    expected = run(program, "--batch", *WORDS, stdin=lines()).stdout
    interrupted = Interrupted(random.Random(5), expected)
    while interrupted.sent < SIGNALS or not interrupted.finished:
        interrupted.run_once()


def test_ctrl_c_while_modules_load_ends_pwhash_without_a_message(copy: Copy) -> None:
    """Before pwhash sets its handler, Python would print a traceback."""
    script = "\nimport os, signal\nos.kill(os.getpid(), signal.SIGINT)\n"
    with open(copy.modules / "pwhash/lines.py", "a", encoding="utf-8") as module:
        module.write(script)
    done = ended(started_program(str(copy.pwhash), "file"))
    assert (done.status, done.out, done.err) == (-signal.SIGINT, b"", b""), done


def test_ctrl_c_at_any_moment_of_the_start_ends_pwhash_by_the_signal() -> None:
    """Ctrl-C may come while the shell or Python starts, modules load, or pwhash asks for lines."""
    for milliseconds in (*range(0, 200, 5), *range(200, 400, 20)):
        process = started("file")
        time.sleep(milliseconds / 1000)
        process.send_signal(signal.SIGINT)
        done = ended(process)
        assert done.status == -signal.SIGINT, (milliseconds, done)
        assert done.err in (b"", b"pwhash: SIGINT ended the run.\n"), (milliseconds, done)

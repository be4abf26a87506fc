"""The command pwhash: how long it takes to start, and how much faster it is on more cores."""
from __future__ import annotations

import time
from collections.abc import Iterator
from pathlib import Path

from .commands import MD5CRYPT_OPTIONS, PWHASH, file_task, md5crypt_task, start_task
from .processes import Task, processors
from .programs import MKPASSWD, OPENSSL, PYTHON
from .ratios import RUNS_IF_ELAPSED, Clock, TimedTask, compare
from .results import Comparison

IDLE_SHARE = 0.9  # of the processors' time, for a machine that counts as idle


def commands() -> dict[str, TimedTask]:
    """Returns commands that make one hash, and two that do nothing."""
    openssl = (OPENSSL, "passwd", "-stdin", "-1", "-salt", "xxxxxxxx")
    return {
        "true": TimedTask(Task(("/bin/true",))),
        "openssl": TimedTask(md5crypt_task(*openssl)),
        "python3": TimedTask(Task((PYTHON, "-I", "-S", "-c", "pass"))),
        "pwhash": TimedTask(md5crypt_task(PWHASH, *MD5CRYPT_OPTIONS)),
    }


def measure_starts(seconds: float) -> Iterator[Comparison]:
    """Measures how long commands that make one hash take."""
    base = TimedTask(md5crypt_task(MKPASSWD, *MD5CRYPT_OPTIONS))
    for name, command in commands().items():
        yield compare("one hash of md5crypt", name, base, command, seconds)


def on_processors(count: int) -> TimedTask:
    """Returns the side that hashes a file on this many processors.

    Several threads hash the file at once, so what counts is the time that elapses.
    """
    return TimedTask(file_task(count), start_task(count), Clock.ELAPSED, RUNS_IF_ELAPSED)


def measure_cores(seconds: float) -> Iterator[Comparison]:
    """Measures how much faster a file is hashed on several processors than on one."""
    for count in (2, 4):
        if count <= processors():
            name = f"{count} cores"
            yield compare("lines a second", name, on_processors(count), on_processors(1), seconds)


def processor_ticks() -> tuple[int, int]:
    """Returns how long the processors have been idle since the machine started, and the total."""
    # `cpu  USER NICE SYSTEM IDLE IOWAIT IRQ SOFTIRQ STEAL ..`, as proc(5) says
    first_line = Path("/proc/stat").read_text(encoding="ascii").splitlines()[0]
    ticks = [int(number) for number in first_line.split()[1:9]]
    idle = ticks[3]
    return idle, sum(ticks)


def is_machine_idle() -> bool:
    """Returns whether the processors are idle while this process waits one second."""
    idle_before, total_before = processor_ticks()
    time.sleep(1)
    idle_after, total_after = processor_ticks()
    return idle_after - idle_before >= IDLE_SHARE * (total_after - total_before)

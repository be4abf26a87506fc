"""Seconds: a few times on one machine, for orientation.

Each is the fastest of several runs, since other work on the machine can only make a run longer.
"""
from __future__ import annotations

from collections.abc import Iterator

from support.model.settings import read_setting
from support.model.work import cost

from .commands import audit_task
from .processes import Task
from .programs import MKPASSWD, Programs
from .ratios import TimedTask, timed
from .results import Seconds
from .settings import (
    MD5CRYPT,
    PASSWORD,
    SALT,
    SCRYPT,
    SHA256CRYPT,
    SHA512CRYPT,
    Workload,
    scrypt,
)

USUAL = {
    "md5crypt": Workload(MD5CRYPT, hashes=200),
    "sha512crypt, 5000 rounds": Workload(b"$6$rounds=5000$" + SALT, hashes=20),
    "sha256crypt, 656000 rounds": Workload(SHA256CRYPT),
    "sha512crypt, 656000 rounds": Workload(SHA512CRYPT),
    "scrypt, N = 2^14, r = 32": Workload(SCRYPT),
}
# What takes longest for its cost. With these passwords and no salt, most messages of SHA-crypt have
# 56 or 112 bytes: the fewest for which padding adds a block.
SLOWEST_SHA_CRYPT = {
    "sha256crypt": Workload(b"$5$rounds=50000$", password=b"p" * 12),
    "sha512crypt": Workload(b"$6$rounds=50000$", password=b"p" * 24),
}
# The slowest scrypt has a table that no cache holds.
SLOWEST_SCRYPT = scrypt(1, 50_000, 1, b"x" * 86)
SLOWEST = "slowest "
AUDITED_LINES = 100_000
RUNS = 15


def cost_of(setting: bytes, length: int) -> int:
    """Returns the most that a hash of a password of this many bytes costs."""
    return cost(read_setting(setting), length)


def slowest_scrypt_task() -> Task:
    """Returns the task of checking a hash that no password matches.

    libxcrypt, which makes the other hashes here, refuses this setting.
    """
    line = b"user:%b$%b:%b\n" % (SLOWEST_SCRYPT, b"." * 43, PASSWORD)
    return Task((MKPASSWD, "--check"), line, b"user:no\n", expected_status=1)


def measure(programs: Programs) -> Iterator[Seconds]:
    """Measures usual hashes, the slowest ones, and an audit."""
    slowest = {SLOWEST + name: workload for name, workload in SLOWEST_SHA_CRYPT.items()}
    for row, workload in {**USUAL, **slowest}.items():
        seconds = timed(programs.mkpasswd, workload, RUNS).measure() / workload.hashes
        yield Seconds(row, seconds, RUNS, cost_of(workload.setting, len(workload.password)))
    seconds = TimedTask(slowest_scrypt_task(), runs=RUNS).measure()
    yield Seconds(SLOWEST + "scrypt", seconds, RUNS, cost_of(SLOWEST_SCRYPT, len(PASSWORD)))
    seconds = TimedTask(audit_task(AUDITED_LINES), runs=RUNS).measure()
    yield Seconds("an audit, a line", seconds / AUDITED_LINES, RUNS)

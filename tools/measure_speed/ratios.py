"""Ratios: how long another program, or another build, takes in comparison with mkpasswd.

The two sides take turns, and each turn is short. So what slows the machine for a while slows both
turns of a pair, and their ratio stays the same. The median of many such ratios counts, with its
interval: some pairs go wrong, such as when something slows only one of the two turns.
"""
from __future__ import annotations

import enum
import time
from collections.abc import Iterator
from dataclasses import dataclass, replace
from pathlib import Path
from typing import Protocol

from .engines import ModuleInChromium, ModuleInNode, running_chromium
from .failure import Stop
from .intervals import ratio_of
from .processes import Task, Times, measure_times
from .programs import Program, Programs
from .results import Comparison
from .settings import MD5CRYPT, SALT, Workload, scrypt

# Most take a few hundredths of a second. Longer turns would make pairs go wrong more often.
WORKLOADS = {
    "md5crypt": Workload(MD5CRYPT, hashes=200, warm_up_hashes=200),
    "sha256crypt": Workload(b"$5$rounds=50000$" + SALT),
    "sha512crypt": Workload(b"$6$rounds=50000$" + SALT),
    "scrypt, N = 2^14, r = 32": Workload(scrypt(14, 32, 1)),
    "scrypt, N = 2^14, r = 8": Workload(scrypt(14, 8, 1)),
    "scrypt, N = 2^10, r = 8, p = 16": Workload(scrypt(10, 8, 16)),
    "scrypt, N = 2^8, r = 32, p = 16": Workload(scrypt(8, 32, 16)),
}
LEAST_PAIRS, MOST_PAIRS = 10, 60
RUNS_IF_ELAPSED = 2  # since time also elapses while other processes run
WORKLOADS_OF_BUILDS = ("md5crypt", "sha256crypt", "sha512crypt", "scrypt, N = 2^14, r = 32")


class Clock(enum.Enum):
    """Which time of a run counts."""

    PROCESSOR = enum.auto()
    ELAPSED = enum.auto()

    def select(self, times: Times) -> float:
        """Returns the time that counts, in seconds."""
        return times.processor if self is Clock.PROCESSOR else times.elapsed


class Side(Protocol):
    """One of the two things that are compared."""

    def measure(self) -> float:
        """Runs once, and returns the seconds that count."""


@dataclass(frozen=True)
class TimedTask:
    """A task, and a second one that only starts the program, if that start isn't to count."""

    task: Task
    start: Task | None = None
    clock: Clock = Clock.PROCESSOR
    runs: int = 1  # the fastest one counts

    def measure(self) -> float:
        """Runs the task, and returns the seconds that it took without its start."""
        start = 0.0 if self.start is None else self.fastest(self.start)
        return self.fastest(self.task) - start

    def fastest(self, task: Task) -> float:
        """Returns the seconds of the fastest run of a task."""
        return min(self.clock.select(measure_times(task)) for _ in range(self.runs))


def timed(program: Program, workload: Workload, runs: int = 1) -> TimedTask:
    """Returns the side of a program that makes or checks hashes."""
    return TimedTask(program.task(workload), program.task(workload.without_hashes), runs=runs)


def measure_pair(base: Side, other: Side) -> float:
    """Runs the two once, and returns the other's time divided by the base's."""
    seconds_of_base = base.measure()
    seconds_of_other = other.measure()
    if seconds_of_base <= 0:
        raise Stop("a run took less time than its start alone: the machine is too busy to measure")
    return seconds_of_other / seconds_of_base


def compare(row: str, name: str, base: Side, other: Side, seconds: float) -> Comparison:
    """Measures pairs of the two sides for some seconds, and returns their row of a table."""
    ratios: list[float] = []
    end = time.monotonic() + seconds
    while len(ratios) < LEAST_PAIRS or (time.monotonic() < end and len(ratios) < MOST_PAIRS):
        ratios.append(measure_pair(base, other))
    return Comparison(row, name, ratio_of(ratios))


# The parts of the page


def other_programs(programs: Programs, workload: Workload) -> list[Program]:
    """Returns the programs of others that can make or check these hashes."""
    if workload.scrypt_cost:
        return [programs.libxcrypt, programs.openssl, programs.libsodium]
    return [programs.libxcrypt, programs.openssl, programs.passlib]


def measure_others(programs: Programs, seconds: float) -> Iterator[Comparison]:
    """Measures other programs, with hashes of each method."""
    for row, workload in WORKLOADS.items():
        base = timed(programs.mkpasswd, workload)
        for program in other_programs(programs, workload):
            yield compare(row, program.name, base, timed(program, workload), seconds)


def measure_builds(
    programs: Programs, added: dict[str, str], seconds: float, folder: Path
) -> Iterator[Comparison]:
    """Measures our libraries, our other builds, and programs that the command line adds."""
    builds = [programs.libmkpasswd, programs.static_program, programs.library_for_v3]
    builds += [programs.build(name, path) for name, path in added.items()]
    for row in WORKLOADS_OF_BUILDS:
        workload = WORKLOADS[row]
        base = timed(programs.mkpasswd, workload)
        for program in builds:
            yield compare(row, program.name, base, timed(program, workload), seconds)
        yield compare(row, "node", base, ModuleInNode(workload), seconds)
    with running_chromium(folder) as browser:
        for row in WORKLOADS_OF_BUILDS:
            workload = WORKLOADS[row]
            base = replace(
                timed(programs.mkpasswd, workload, runs=RUNS_IF_ELAPSED), clock=Clock.ELAPSED
            )
            page = ModuleInChromium(browser, folder, workload, RUNS_IF_ELAPSED)
            yield compare(row, "Chromium", base, page, seconds)

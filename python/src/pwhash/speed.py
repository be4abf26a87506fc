"""Measures how long hashes take on this machine in relation to their cost.

A cost counts bytes, but digests work on blocks. So a hash takes longest for its cost if its
messages are empty, or a byte too long for a block. A login computes any hash within its budget,
whoever stored it, so such hashes of each method are measured, and the slowest counts.
"""

from __future__ import annotations

import functools
import time
from typing import Dict, List, NamedTuple

from pwhash import library
from pwhash.console import Console
from pwhash.errors import Stop
from pwhash.library import Refusal
from pwhash.workers import run_in_thread

SECONDS = 2.0  # during which hashes are measured again and again
MIN_TIMES = 3
COST_AT_ONCE = 5_000_000  # of the hashes in one measurement, unless a single one costs more


class CostlyHash(NamedTuple):
    """A hash that takes long for its cost: its setting, and the length of the password."""

    setting: bytes
    length: int


# Found by counting instructions for many lengths of password and salt. Scrypt mixes faster than it
# digests, so its setting has N = 2, with r = 3300, p = 1 and a salt that needs one more block.
COSTLIEST = (
    CostlyHash(b"$1$", 0),
    CostlyHash(b"$5$rounds=90000$", 12),
    CostlyHash(b"$5$rounds=150000$", 0),
    CostlyHash(b"$6$rounds=45000$", 24),
    CostlyHash(b"$7$/Yn.../...." + b"x" * 52, 0),
)


def seconds_of_cost(console: Console, is_quiet: bool) -> float:
    """Returns the most processor time that a cost of 1 takes, in seconds."""
    measured: Dict[CostlyHash, List[float]] = {costly: [] for costly in COSTLIEST}
    start = time.monotonic()
    elapsed = 0.0
    while elapsed < SECONDS or len(measured[COSTLIEST[0]]) < MIN_TIMES:
        for costly, times in measured.items():
            times.append(run_in_thread(functools.partial(measure, costly)))
        elapsed = time.monotonic() - start
        if not is_quiet:
            text = f"measuring: {min(99, int(100 * elapsed / SECONDS))} %"
            console.show_progress(text, text)
    console.clear_progress()
    return max(median(times) for times in measured.values())


def measure(costly: CostlyHash) -> float:
    """Measures how many seconds a cost of 1 takes in this thread."""
    cost = library.cost(costly.setting, costly.length)
    password = b"x" * costly.length
    times = max(1, COST_AT_ONCE // cost)
    start = time.thread_time()
    for _ in range(times):
        hashed = library.hash_by(password, costly.setting, library.MAX_BUDGET)
        if isinstance(hashed, Refusal):
            raise Stop(f"the library refuses to hash: {hashed.message}.")
    return (time.thread_time() - start) / (times * cost)


def median(numbers: List[float]) -> float:
    """Returns the median, of an even count the greater. The module statistics loads slowly."""
    return sorted(numbers)[len(numbers) // 2]

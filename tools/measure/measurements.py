"""How each part is measured, but for the artifacts: by a command of make or rt, in a clone."""

from __future__ import annotations

import functools
import shutil

from measure.errors import Failed
from measure.facts import Bench, Check, Fuzz, Gate, Plants, Soak
from measure.outputs import (
    first_sentence,
    read_bench,
    read_fuzz,
    read_gate,
    read_plants,
    read_skips,
    read_soak,
    read_tests,
    read_unused_linters,
)
from measure.results import this_machine
from measure.roots import PLACE, Debian, make_root, run_in_root
from measure.workplace import Workplace, read_text, toolchains_command

GATE_LOG = "build/log/gate.log"
MOST_PLANTS = 100_000  # more than any crate has
GB_OF_A_CHECK = 3  # the most memory that a check takes


# Proofs and tests


def measure_gate(place: Workplace) -> Gate:
    """Runs the gate in a clone that has only the files of the commit."""
    with place.scratch() as scratch:
        clone = place.new_clone(scratch / "mkpasswd")
        place.run("make", "gate", "ANEW=1", cwd=clone)
        return read_gate(read_text(clone / GATE_LOG))


def measure_check(place: Workplace, debian: Debian) -> Check:
    """Runs make check in a new root, in which a missing tool is a failure."""
    with place.scratch() as scratch:
        root = scratch / debian.suite
        make_root(place, debian, root)
        run_in_root(place, root, "make", "-C", f"/{PLACE}", "check", "STRICT=1")
        gate = read_gate(read_text(root / PLACE / GATE_LOG))
    log = place.printed()
    tests = read_tests(log)
    skips = read_skips(log, functools.partial(purpose_of_test, place))
    return Check(gate, tests.passed, tests.failed, skips, read_unused_linters(log))


def purpose_of_test(place: Workplace, file: str) -> str:
    """Returns the first sentence of a test file: its purpose."""
    return first_sentence(place.repository.text_of(place.commit, f"tests/{file}"))


# Random inputs


def seed_of(commit: str, block: int) -> int:
    """Returns the seed of a block of the soak: a new one for each commit, other than its others."""
    return int(commit[:8], 16) + block


def measure_soak(place: Workplace, kind: str, block: int, lines: int) -> Soak:
    """Runs a block of the soak, in which the program answers random lines of one kind."""
    seed = seed_of(place.commit, block)
    place.run("make", "soak", f"KIND={kind}", f"LINES={lines}", f"SEED={seed}", cwd=place.clone)
    return read_soak(place.printed())


def measure_fuzz(place: Workplace, target: str, seconds: int) -> Fuzz:
    """Runs a block of a fuzz target, which makes random calls. The fuzzer chooses its seed."""
    fuzzer = f"FUZZERS=build/fuzz/{target}"
    try:
        place.run("make", "fuzz", fuzzer, f"FUZZ_SECONDS={seconds}", cwd=place.clone)
    except Failed:
        keep_inputs(place, target)
        raise
    return read_fuzz(place.printed())


def keep_inputs(place: Workplace, target: str) -> None:
    """Saves the inputs that stopped a fuzzer, such as build/fuzz/hash.crash-1234."""
    for path in place.clone.glob(f"build/fuzz/{target}.*-*"):
        shutil.copy(path, place.outputs / f"fuzz-{path.name}")


# Wrong bodies and speed


def measure_plants(place: Workplace, crate: str) -> Plants:
    """Runs `rt plant`, which tries to prove wrong bodies of a crate's public functions."""
    minutes = str(place.options.sizes.plant_minutes)
    checks = str(checks_at_once(place))
    limits = ("--max", str(MOST_PLANTS), "--minutes", minutes, "--jobs", checks)
    command = (toolchains_command(), "plant", *limits, "--all")
    place.run(*command, cwd=place.clone / "crates" / crate)
    return read_plants(place.printed())


def checks_at_once(place: Workplace) -> int:
    """Returns how many checks a part may run at once: one for each processor, if memory allows."""
    by_memory = this_machine().memory_gb // place.options.jobs // GB_OF_A_CHECK
    return max(1, min(len(place.processors), by_memory))


def measure_bench(place: Workplace) -> Bench:
    """Measures speed in comparison with other programs."""
    place.run("make", "bench", cwd=place.clone)
    return read_bench(read_text(place.clone / "docs/speed.json"))

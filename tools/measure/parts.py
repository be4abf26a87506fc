"""The parts of the evidence, in the order in which they are measured.

A part names the files that it depends on: its result counts as long as their hashes stay the same.
All parts depend on the toolchain too. A long measurement is cut into blocks, each of which is a
part, so that an interruption loses little.
"""

from __future__ import annotations

import functools
import re
from collections.abc import Callable, Iterator
from dataclasses import dataclass, field

from measure.artifacts import GOALS, measure_artifacts
from measure.facts import Artifacts, Bench, Check, Found, Fuzz, Gate, Plants, Soak
from measure.measurements import (
    measure_bench,
    measure_check,
    measure_fuzz,
    measure_gate,
    measure_plants,
    measure_soak,
)
from measure.repository import ALL_FILES, Repository
from measure.results import Kept, Result
from measure.roots import RELEASES, Debian
from measure.workplace import Sizes, Workplace

# The files that parts rest on. The tests read all documents, and the archives hold them as web
# pages, so `make check` and the artifacts rest on ALL_FILES; the others rest on no document.
PROVED = ("crates", "crates.txt", "HANDLES")
BUILT = ("crates", "crates.txt", "c", "Makefile")
TIMED = ("bin", "python", "web", "tools", "tests/support")
# What tools/soak imports.
SOAKING = ("__init__.py", "libxcrypt.py", "model", "process.py", "random_lines")
SOAKED = (*BUILT, "tools/soak", *(f"tests/support/{name}" for name in SOAKING))
FUZZED = (*BUILT, "tests/c")
# How many blocks the soak has of each kind of lines, and each fuzz target. So a block takes about
# twenty minutes on one processor.
SOAK_BLOCKS = {"hostile": 4, "hash": 20}
FUZZ_BLOCKS = 3
# Estimates, for four processors.
SECONDS_OF_GATE = 75 * 60
SECONDS_OF_CHECK = 120 * 60
SECONDS_OF_ARTIFACTS = 40 * 60
SECONDS_OF_PLANTS = 20 * 60
SECONDS_OF_BENCH = 60 * 60
SECONDS_OF_SOAKED_LINE = {"hostile": 0.0001, "hash": 0.0008}


@dataclass(frozen=True)
class Part:
    """A part of the evidence."""

    name: str
    command: str  # with the names of sizes in braces
    where: str
    rests_on: tuple[str, ...]
    finds: type
    measure: Callable[[Workplace], Found]
    estimate: float  # seconds, without what is built before
    sizes: dict[str, int] = field(default_factory=dict)
    builds: tuple[str, ...] | None = None  # targets of make in the built clone, if it uses that
    changes_clone: bool = False  # whether it builds there while it is measured
    block: int | None = None  # its number, from 1 on, if it is one of several
    can_share: bool = False  # whether others may be measured at the same time

    @property
    def family(self) -> str:
        """The name without the number of the block."""
        return self.name if self.block is None else self.name.rpartition("-")[0]

    def shown_command(self, sizes: dict[str, int]) -> str:
        """Returns the command as a user would type it, with these sizes."""
        return self.command.format(**sizes)


# All parts


def crates_of(repository: Repository, commit: str) -> list[str]:
    """Returns the crates, in the order of crates.txt."""
    return re.findall(r"^(\w+)[^#\n]*:", repository.text_of(commit, "crates.txt"), re.MULTILINE)


def fuzzers_of(repository: Repository, commit: str) -> list[str]:
    """Returns the fuzzers' targets: NAME for tests/c/fuzz_NAME.c."""
    names = "\n".join(repository.names_in(commit, "tests/c"))
    return re.findall(r"^fuzz_(\w+)\.c$", names, re.MULTILINE)


def parts_of(repository: Repository, commit: str, sizes: Sizes) -> Iterator[Part]:
    """Yields all parts of a commit. The one that needs a quiet machine comes last."""
    yield Part(
        name="gate",
        command="make gate ANEW=1",
        where="in a new clone",
        rests_on=PROVED,
        finds=Gate,
        measure=measure_gate,
        estimate=SECONDS_OF_GATE,
    )
    for debian in RELEASES:
        yield check_in(debian)
    yield artifacts()
    for kind, blocks in SOAK_BLOCKS.items():
        for block in range(1, blocks + 1):
            yield soak_of(kind, block, block_size(sizes.lines, blocks))
    for target in fuzzers_of(repository, commit):
        for block in range(1, FUZZ_BLOCKS + 1):
            yield fuzzer_of(target, block, block_size(sizes.fuzz_seconds, FUZZ_BLOCKS))
    for crate in crates_of(repository, commit):
        yield plants_of(crate)
    yield bench()


def block_size(size: int, blocks: int) -> int:
    """Returns the size of each block, rounded up so that all blocks have at least `size`."""
    return -(-size // blocks)


def check_in(debian: Debian) -> Part:
    """Returns the part that runs make check in a root of Debian."""
    return Part(
        name=f"check-{debian.number}",
        command="make check STRICT=1",
        where=f"in a new root of Debian {debian.number}",
        rests_on=(ALL_FILES,),
        finds=Check,
        measure=functools.partial(measure_check, debian=debian),
        estimate=SECONDS_OF_CHECK,
    )


def artifacts() -> Part:
    """Returns the part that builds what is released."""
    return Part(
        name="artifacts",
        command=f"make {' '.join(GOALS)}",
        where="in two clones",
        rests_on=(ALL_FILES,),
        finds=Artifacts,
        measure=measure_artifacts,
        estimate=SECONDS_OF_ARTIFACTS,
        builds=(),
    )


def soak_of(kind: str, block: int, lines: int) -> Part:
    """Returns the part that runs a block of the soak."""
    return Part(
        name=f"soak-{kind}-{block:02}",
        command=f"make soak KIND={kind} LINES={{lines}} SEED=N",
        where="in a clone",
        rests_on=SOAKED,
        finds=Soak,
        measure=functools.partial(measure_soak, kind=kind, block=block, lines=lines),
        estimate=lines * SECONDS_OF_SOAKED_LINE[kind],
        sizes={"lines": lines},
        builds=("mkpasswd",),
        block=block,
        can_share=True,
    )


def fuzzer_of(target: str, block: int, seconds: int) -> Part:
    """Returns the part that runs a block of a fuzzer."""
    return Part(
        name=f"fuzz-{target}-{block:02}",
        command=f"make fuzz FUZZERS=build/fuzz/{target} FUZZ_SECONDS={{seconds}}",
        where="in a clone",
        rests_on=FUZZED,
        finds=Fuzz,
        measure=functools.partial(measure_fuzz, target=target, seconds=seconds),
        estimate=seconds,
        sizes={"seconds": seconds},
        builds=(f"build/fuzz/{target}",),
        block=block,
        can_share=True,
    )


def plants_of(crate: str) -> Part:
    """Returns the part that tries wrong bodies in a crate."""
    return Part(
        name=f"plant-{crate}",
        command="rt plant --all",
        where=f"in crates/{crate}",
        rests_on=PROVED,
        finds=Plants,
        measure=functools.partial(measure_plants, crate=crate),
        estimate=SECONDS_OF_PLANTS,
        builds=(),
        changes_clone=True,
        can_share=True,
    )


def bench() -> Part:
    """Returns the part that measures speed."""
    return Part(
        name="bench",
        command="make bench",
        where="in a clone",
        rests_on=(*BUILT, *TIMED),
        finds=Bench,
        measure=measure_bench,
        estimate=SECONDS_OF_BENCH,
        builds=(),
        changes_clone=True,
    )


# A commit


@dataclass(frozen=True)
class Commit:
    """A commit, with its parts and the saved results."""

    repository: Repository
    name: str
    toolchain: str
    parts: tuple[Part, ...]
    kept: Kept

    def hashes(self, part: Part) -> dict[str, str]:
        """Returns the hashes of the files that a part depends on."""
        return {path: self.repository.hash_of(self.name, path) for path in part.rests_on}

    def last_result(self, part: Part) -> Result | None:
        """Returns the last result of a part, whether it counts or not, if there is one."""
        return self.kept.last(part.name, part.finds)

    def counts(self, part: Part, result: Result) -> bool:
        """Returns whether a result of a part is true of this commit."""
        return result.rests_on == self.hashes(part) and result.toolchain == self.toolchain

    def result_of(self, part: Part) -> Result | None:
        """Returns the result of a part that counts for this commit, if there is one."""
        result = self.last_result(part)
        return result if result is not None and self.counts(part, result) else None

    def is_measured(self, part: Part) -> bool:
        """Returns whether a part needs no further measurement."""
        result = self.result_of(part)
        return result is not None and result.failure is None and result.has_sizes(part.sizes)

    def expected_seconds(self, part: Part) -> float:
        """Returns how long a part took the last time with the same sizes, or else its estimate."""
        result = self.last_result(part)
        if result is None or result.failure is not None or result.sizes != part.sizes:
            return part.estimate
        return result.seconds

"""The facts that a part can find. results.py saves them as JSON, and page.py shows them."""

from __future__ import annotations

from dataclasses import dataclass

from measure_speed.results import Comparison, Count


@dataclass(frozen=True)
class Gate:
    """A run of the gate that reused nothing from earlier ones."""

    passed: int
    failed: int
    functions: int  # proved ones, without those of tests
    mutants: int  # refused ones, which are among the passed


@dataclass(frozen=True)
class Skip:
    """Tests in one file that were skipped for the same reason."""

    reason: str
    file: str
    purpose: str  # the first sentence of the file
    count: int


@dataclass(frozen=True)
class Check:
    """A run of make check."""

    gate: Gate
    passed: int
    failed: int
    skips: tuple[Skip, ...]
    unused_linters: tuple[str, ...]  # those that don't count on this system


@dataclass(frozen=True)
class Soak:
    """Random lines of one kind that got the model's answers."""

    seed: int
    lines: int
    differences: int


@dataclass(frozen=True)
class Fuzz:
    """Random calls in which the fuzzer found no fault."""

    seed: int
    calls: int


@dataclass(frozen=True)
class Plant:
    """A wrong body, as rt plant lists it."""

    function: str  # the function's file, line and path
    body: str
    reason: str


@dataclass(frozen=True)
class Plants:
    """The results for wrong bodies in the public functions of a crate."""

    functions: int  # with wrong bodies
    counts: dict[str, int]  # of bodies, by rt plant's word for the result
    proved: tuple[Plant, ...]
    not_judged: tuple[Plant, ...]
    no_clause: tuple[str, ...]  # functions without one, so that any body passes
    untested: tuple[str, ...]  # functions without a wrong body that could be judged


@dataclass(frozen=True)
class Bench:
    """What tools/bench measured: instructions, and ratios of times."""

    counts: tuple[Count, ...]
    comparisons: tuple[Comparison, ...]


@dataclass(frozen=True)
class Artifact:
    """A file that two clones built identically."""

    name: str
    size: int
    sha256: str


@dataclass(frozen=True)
class Artifacts:
    """What two clones built."""

    files: tuple[Artifact, ...]


Found = Gate | Check | Soak | Fuzz | Plants | Bench | Artifacts

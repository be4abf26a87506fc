"""Writes docs/EVIDENCE.md from the results in docs/evidence, and from nothing else."""

from __future__ import annotations

import itertools
import re
import string
from collections.abc import Callable, Iterator, Sequence
from dataclasses import dataclass
from operator import attrgetter
from typing import Generic, TypeVar

from measure.artifacts import OTHER_ENVIRONMENT, OTHER_USER
from measure.facts import Artifacts, Bench, Check, Fuzz, Gate, Plant, Plants, Skip, Soak
from measure.markdown import code, duration, number, ranges, table
from measure.parts import Commit, Part
from measure.repository import ALL_FILES, PAGE, RESULTS
from measure.results import Machine, Result
from measure_speed.results import Comparison, Count

HEAD = f"""\
# Evidence

`make evidence` measured what is below, and wrote this page from the results in `{RESULTS}`; \
nothing in it is by hand. Each result is followed by its date, its commit and the letter of its \
machine.
"""
HASHES = f"""\
A part counts for every commit in which the toolchain and the files that it rests on are the \
same. `git rev-parse HEAD:crates` prints the hash of `crates`, and so on. That of {ALL_FILES} \
(which have the hashes, and so can't have their own) is what this prints:

```sh
git ls-tree -r HEAD | grep -v -e {PAGE} -e {RESULTS}/ | git hash-object --stdin
```
"""
NOT_MEASURED = "not measured"
PLANT_COLUMNS = {  # for wrong bodies: rt plant's words, and ours
    "refused": "refused",
    "same": "equivalent",
    "proves": "proved",
    "elsewhere": "not fair",
    "not-judged": "not judged",
    "not-source": "not compiled",
}

Kind = TypeVar("Kind")
Pair = tuple[Part, Result | None]


@dataclass(frozen=True)
class Measured(Generic[Kind]):
    """A part that has found something, with its result."""

    part: Part
    result: Result
    found: Kind


@dataclass(frozen=True)
class Evidence:
    """The parts of a commit, with the results that count for it."""

    pairs: tuple[Pair, ...]
    toolchain: str

    def results(self) -> list[Result]:
        """Returns the results, in the order of the parts."""
        return [result for _, result in self.pairs if result is not None]

    def machines(self) -> dict[Machine, str]:
        """Returns the machines, with the letters that the page gives them."""
        in_order = dict.fromkeys(result.machine for result in self.results())
        return dict(zip(in_order, letters()))

    def measured(self, kind: type[Kind]) -> list[Measured[Kind]]:
        """Returns the parts that have found facts of this type."""
        return [
            Measured(part, result, result.found)
            for part, result in self.pairs
            if result is not None and isinstance(result.found, kind)
        ]

    def stamp(self, result: Result) -> str:
        """Returns the date, the commit and the machine of a result."""
        return f"{result.date}, {result.commit[:8]}, {self.machines()[result.machine]}"


def letters() -> Iterator[str]:
    """Yields A to Z, AA to ZZ, and so on."""
    for length in itertools.count(1):
        for word in itertools.product(string.ascii_uppercase, repeat=length):
            yield "".join(word)


# All parts


def all_parts(evidence: Evidence) -> str:
    """Returns the table of the parts. The blocks of a part share a row."""
    families: dict[str, list[Pair]] = {}
    for part, result in evidence.pairs:
        families.setdefault(part.family, []).append((part, result))
    rows = [row_of(evidence, family, pairs) for family, pairs in families.items()]
    return table(("Part", "Command", "Took", "Measured"), rows)


def row_of(evidence: Evidence, family: str, pairs: Sequence[Pair]) -> list[str]:
    """Returns the row of a part, or of the blocks of one."""
    part = pairs[0][0]
    results = [result for _, result in pairs if result is not None]
    sizes = results[0].sizes if results else part.sizes
    command = f"{code(part.shown_command(sizes))} {part.where}"
    if part.block is not None:
        command += f", {len(pairs)} times"
    took = ""
    if results:
        seconds = sum(result.seconds for result in results)
        of_processors = sum(result.processor_seconds for result in results)
        took = f"{duration(seconds)} ({duration(of_processors)} of processors)"
    return [family, command, took, states(evidence, pairs)]


def states(evidence: Evidence, pairs: Sequence[Pair]) -> str:
    """Returns when a part was measured, or which blocks were measured when."""
    blocks: dict[str, list[int]] = {}
    for part, result in pairs:
        blocks.setdefault(state(evidence, result), []).append(part.block or 0)
    if pairs[0][0].block is None or len(blocks) == 1:
        return "; ".join(blocks)
    return "; ".join(f"{ranges(numbers)}: {when}" for when, numbers in blocks.items())


def state(evidence: Evidence, result: Result | None) -> str:
    """Returns when and where a result was measured."""
    if result is None:
        return NOT_MEASURED
    stamp = evidence.stamp(result)
    return stamp if result.failure is None else f"failed on {stamp}: {result.failure}"


def machines(evidence: Evidence) -> str:
    """Returns the list of the machines."""
    lines = [f"- {letter}: {machine}\n" for machine, letter in evidence.machines().items()]
    return f"\nThe machines:\n\n{''.join(lines)}" if lines else ""


def toolchain(evidence: Evidence) -> str:
    """Returns a sentence about the toolchain, which is the same for all parts that count."""
    return f"All parts were measured with the toolchain {code(evidence.toolchain)}.\n"


def hashes(evidence: Evidence) -> str:
    """Returns the table of the files that the parts depend on."""
    families: dict[tuple[str, str], dict[str, None]] = {}  # dicts, to keep the order
    for part, result in evidence.pairs:
        for files, value in result.rests_on.items() if result is not None else ():
            families.setdefault((files, value), {})[part.family] = None
    rows = [[files, code(value), ", ".join(names)] for (files, value), names in families.items()]
    return table(("Files", "Hash", "Parts"), rows)


# Proofs and tests


def counts_of_gate(gate: Gate) -> str:
    """Returns the gate's counts."""
    return f"{gate.passed} passed, {gate.failed} failed"


def proofs(evidence: Evidence) -> str:
    """Returns the section about the gate."""
    for measured in evidence.measured(Gate):
        gate = measured.found
        return (
            "In a new clone, and with nothing that an earlier run had proved, the gate "
            f"proved {gate.functions} functions and those of the crates' tests, and refused "
            f"{gate.mutants} mutants: {counts_of_gate(gate)} ({evidence.stamp(measured.result)}).\n"
        )
    return ""


def tests(evidence: Evidence) -> str:
    """Returns the section about the tests."""
    checks = evidence.measured(Check)
    if not checks:
        return ""
    rows = [
        [
            system_of(check),
            counts_of_gate(check.found.gate),
            f"{number(check.found.passed)} passed, {check.found.failed} failed",
            str(sum(skip.count for skip in check.found.skips)),
            evidence.stamp(check.result),
        ]
        for check in checks
    ]
    text = (
        "Each ran in a new root of Debian with nothing but the packages of "
        "[tests/packages.txt](../tests/packages.txt), the toolchain and the files of the commit. "
        "There the gate proves everything, since no earlier run has kept anything, and a tool that "
        "is missing is a failure. Debian 12 has this machine's node, since its own is too old.\n\n"
    )
    text += table(("System", "Gate", "Tests", "Skipped", "Measured"), rows)
    for check in checks:
        if check.found.unused_linters:
            names = ", ".join(check.found.unused_linters)
            text += (
                f"\nOn {system_of(check)}, `make lint` leaves out what finds other things there: "
                f"{names}.\n"
            )
    return text + skipped({system_of(check): check.found for check in checks})


def system_of(check: Measured[Check]) -> str:
    """Returns the system of a check, whose part is named check-13 for Debian 13."""
    return f"Debian {check.part.name.removeprefix('check-')}"


def skipped(found: dict[str, Check]) -> str:
    """Returns the table of skipped tests, with reasons and systems."""
    counts: dict[Skip, dict[str, int]] = {}
    for system, check in found.items():
        for skip in check.skips:
            same = Skip(skip.reason, skip.file, skip.purpose, 0)
            counts.setdefault(same, {})[system] = skip.count
    if not counts:
        return ""
    rows = [
        [
            f"[{skip.file}](../tests/{skip.file}): {skip.purpose}",
            skip.reason,
            *[str(by_system.get(system, 0)) for system in found],
        ]
        for skip, by_system in sorted(counts.items(), key=lambda row: row[0].file)
    ]
    head = ("Skipped tests of", "Reason", *found)
    return "\nA test is skipped if it says nothing on the machine, or by its own authors:\n\n" + (
        table(head, rows)
    )


# Random inputs


@dataclass(frozen=True)
class Run:
    """A block of random inputs."""

    amount: str
    seed: int
    stamp: str


def random_inputs(evidence: Evidence) -> str:
    """Returns the section about soak and fuzzers."""
    return "".join([*soaks(evidence), *fuzzers(evidence)])


def soaks(evidence: Evidence) -> Iterator[str]:
    """Yields an item for each kind of lines. Its blocks add up."""
    for family, blocks in itertools.groupby(evidence.measured(Soak), key=family_of):
        runs, lines, differences = [], 0, 0
        for block in blocks:
            soak = block.found
            lines += soak.lines
            differences += soak.differences
            stamp = evidence.stamp(block.result)
            runs.append(Run(f"{number(soak.lines)} lines", soak.seed, stamp))
        yield (
            f"- {family}: the program answered {number(lines)} lines as [FORMATS](FORMATS.md) "
            f"says, with {differences} differences: {by_seed(runs)}\n"
        )


def fuzzers(evidence: Evidence) -> Iterator[str]:
    """Yields an item for each fuzzer. Its blocks add up."""
    for family, blocks in itertools.groupby(evidence.measured(Fuzz), key=family_of):
        runs, calls, seconds = [], 0, 0
        for block in blocks:
            calls += block.found.calls
            seconds += block.result.sizes["seconds"]
            amount = f"{number(block.result.sizes['seconds'])} s"
            runs.append(Run(amount, block.found.seed, evidence.stamp(block.result)))
        yield (
            f"- {family}: {number(calls)} calls in {number(seconds)} s, without a fault: "
            f"{by_seed(runs)}\n"
        )


def family_of(measured: Measured[Kind]) -> str:
    """Returns the name of a part without the number of its block."""
    return measured.part.family


def by_seed(runs: Sequence[Run]) -> str:
    """Returns which seeds were used, for how much, and when."""
    seeds: dict[tuple[str, str], list[int]] = {}
    for run in runs:
        seeds.setdefault((run.amount, run.stamp), []).append(run.seed)
    return "; ".join(
        f"{amount} with {seeds_in_words(numbers)} ({stamp})"
        for (amount, stamp), numbers in seeds.items()
    )


def seeds_in_words(seeds: Sequence[int]) -> str:
    """Returns seeds for a sentence."""
    if len(seeds) == 1:
        return f"the seed {seeds[0]}"
    return f"each of the seeds {ranges(seeds)}"


# Wrong bodies


def plants(evidence: Evidence) -> str:
    """Returns the section about rt plant."""
    crates = evidence.measured(Plants)
    if not crates:
        return ""
    rows = [
        [
            crate_of(measured),
            number(measured.found.functions),
            *[number(measured.found.counts.get(kind, 0)) for kind in PLANT_COLUMNS],
            evidence.stamp(measured.result),
        ]
        for measured in crates
    ]
    found = {crate_of(measured): measured.found for measured in crates}
    text = (
        "`rt plant` puts wrong bodies into public functions, and the checker has to refuse them "
        "([PROOFS](PROOFS.md#how-to-break-it)). An equivalent body does what the right one does; "
        "one that isn't fair breaks only what a function that it calls requires.\n\n"
    )
    head = ("Crate", "Functions", *PLANT_COLUMNS.values(), "Measured")
    text += table(head, rows, numbers=True)
    text += bodies("Proved, so no clause excludes them", found, attrgetter("proved"))
    text += bodies("Not judged", found, attrgetter("not_judged"))
    text += functions("Functions without a clause", found, attrgetter("no_clause"))
    text += functions(
        "Functions of which no body that gives up was judged", found, attrgetter("untested")
    )
    return text


def crate_of(plants_of_crate: Measured[Plants]) -> str:
    """Returns the crate of a part, which is named plant-CRATE."""
    return plants_of_crate.part.name.removeprefix("plant-")


def bodies(
    title: str, found: dict[str, Plants], rows_of: Callable[[Plants], Sequence[Plant]]
) -> str:
    """Returns a list of wrong bodies, with one line for those with the same function and reason."""
    grouped: dict[tuple[str, str, str], list[str]] = {}
    for crate, of_crate in found.items():
        for plant in rows_of(of_crate):
            key = (crate, plant.function, plant.reason)
            grouped.setdefault(key, []).append(plant.body)
    if not grouped:
        return ""
    lines = []
    for (crate, function, reason), of_function in grouped.items():
        because = f": {reason}" if reason else ""
        listed = ", ".join(code(f"{{ {body} }}") for body in of_function)
        lines.append(f"- {crate}, {code(function)}{because}: {listed}\n")
    return f"\n{title}:\n\n{''.join(lines)}"


def functions(
    title: str, found: dict[str, Plants], names_of: Callable[[Plants], Sequence[str]]
) -> str:
    """Returns a list of functions."""
    lines = [
        f"- {crate}, {code(name)}\n"
        for crate, of_crate in found.items()
        for name in names_of(of_crate)
    ]
    return f"\n{title}:\n\n{''.join(lines)}" if lines else ""


# Speed


def speed(evidence: Evidence) -> str:
    """Returns the section about instructions and ratios."""
    for measured in evidence.measured(Bench):
        bench = measured.found
        return (
            "[SPEED](SPEED.md) says how this is measured, and has the numbers of a run of its "
            f"own. These are of {evidence.stamp(measured.result)}.\n\n"
            + table(("Instructions for", "Programs"), rows_of_counts(bench.counts))
            + "\nRatios of times, with intervals as in SPEED:\n\n"
            + table(("Time of mkpasswd = 1", "Others"), rows_of_ratios(bench.comparisons))
        )
    return ""


def rows_of_counts(counts: Sequence[Count]) -> Iterator[list[str]]:
    """Yields a row for each unit of work, with the instructions of each program."""
    programs: dict[str, list[str]] = {}
    for count in counts:
        shown = f"{count.program} {number(round(count.instructions))}"
        programs.setdefault(count.unit, []).append(shown)
    for unit, shown_counts in programs.items():
        yield [unit, "; ".join(shown_counts)]


def rows_of_ratios(comparisons: Sequence[Comparison]) -> Iterator[list[str]]:
    """Yields a row for each kind of hash or command, with all that is compared with mkpasswd."""
    others: dict[str, list[str]] = {}
    for comparison in comparisons:
        others.setdefault(comparison.row, []).append(ratio(comparison))
    for row, ratios in others.items():
        yield [row, ", ".join(ratios)]


def ratio(comparison: Comparison) -> str:
    """Returns a ratio with its interval."""
    bounds = f"{comparison.ratio.bounds.lower:.2f} to {comparison.ratio.bounds.upper:.2f}"
    return f"{comparison.name} {comparison.ratio.median:.2f} ({bounds})"


# Artifacts


def artifacts(evidence: Evidence) -> str:
    """Returns the section about what is released."""
    for measured in evidence.measured(Artifacts):
        words = " ".join(f"{name}={value}" for name, value in OTHER_ENVIRONMENT.items())
        rows = [[file.name, number(file.size), code(file.sha256)] for file in measured.found.files]
        return (
            "Two clones built the same bytes: one as root with LC_ALL=C, and one in a folder "
            f"with another name, as {OTHER_USER} with {words} ({evidence.stamp(measured.result)}). "
            "Beside each file is its SBOM (SPDX 2.3), and `SHA256SUMS` has these sums.\n\n"
        ) + table(("File", "Bytes", "SHA-256"), rows)
    return ""


# The page

SECTIONS: dict[str, Callable[[Evidence], str]] = {
    "Proofs": proofs,
    "Tests": tests,
    "Random inputs": random_inputs,
    "Wrong bodies": plants,
    "Artifacts": artifacts,
    "Speed": speed,
}


def page_of(commit: Commit) -> str:
    """Returns docs/EVIDENCE.md as the results that count for a commit make it."""
    pairs = tuple((part, commit.result_of(part)) for part in commit.parts)
    evidence = Evidence(pairs, commit.toolchain)
    text = f"{HEAD}\n{all_parts(evidence)}{machines(evidence)}"
    for title, section in SECTIONS.items():
        body = section(evidence)
        if body:
            text += f"\n## {title}\n\n{body}"
    if evidence.results():
        text += (
            f"\n## What the parts rest on\n\n{toolchain(evidence)}\n{hashes(evidence)}\n{HASHES}"
        )
    return re.sub(r"\n{3,}", "\n\n", text)

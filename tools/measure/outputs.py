"""Reads the output of commands, and fails if it isn't as expected."""

from __future__ import annotations

import ast
import re
from collections import Counter
from collections.abc import Callable, Iterator
from dataclasses import dataclass

from measure.errors import Failed
from measure.facts import Bench, Fuzz, Gate, Plant, Plants, Skip, Soak
from measure_speed.results import Comparison, Count, Part, parse_results

# rt's words if a run reused nothing from earlier ones.
FROM_NOTHING = "every proof and must-fail edit was done in this run"
UNSEEN = ("no-ensures", "untested")  # rows of rt plant about functions, not wrong bodies


def last_match(pattern: str, log: str, what: str) -> re.Match[str]:
    """Returns the last match of a pattern in a log. Fails, naming `what`, if there is none."""
    matches = list(re.finditer(pattern, log, re.MULTILINE))
    if not matches:
        raise Failed(f"the log doesn't say {what}")
    return matches[-1]


# The gate, as rt ci prints it


def read_gate(log: str) -> Gate:
    """Reads the last line, `189 passed, 0 failed`, rt's verdict, and a line for each crate.

    These are `rt: ok; .. 179 refused; ..` and `logic=proved functions=91 ..`, or for a crate's
    tests `logic=proved tests=65 functions=111 ..`.
    """
    pattern = r"^(\d+) passed, (\d+) failed$"
    passed, failed = last_match(pattern, log, "what the gate passed").groups()
    verdict = last_match(r"^rt: ok; .*", log, "that the gate is ok")[0]
    if FROM_NOTHING not in verdict:
        raise Failed("the gate took what earlier runs had proved")
    mutants = re.search(r"must-fail edits: (\d+) refused", verdict)
    of_crates = re.findall(r"^logic=proved functions=(\d+)", log, re.MULTILINE)
    return Gate(
        passed=int(passed),
        failed=int(failed),
        functions=sum(map(int, of_crates)),
        mutants=int(mutants[1]) if mutants else 0,
    )


# The tests, as tests/conftest.py prints them


@dataclass(frozen=True)
class TestCounts:
    """How many tests passed, failed and were skipped."""

    passed: int
    failed: int
    skipped: int


def read_tests(log: str) -> TestCounts:
    """Reads the last line, `600 passed, 0 failed, 36 skipped`."""
    pattern = r"^(\d+) passed, (\d+) failed, (\d+) skipped$"
    return TestCounts(*map(int, last_match(pattern, log, "what the tests passed").groups()))


def skipped_tests(log: str) -> Iterator[tuple[str, str]]:
    """Reads the reason and the file of each test that was skipped, from the end of a log.

    Before the last line, each `skipped: REASON` is followed by its tests, as `    FILE::TEST`.
    """
    lines = log.splitlines()
    tests: list[str] = []
    for line in reversed(lines[: last_line_of_tests(lines)]):
        if line.startswith("    "):
            tests.append(line.strip())
        elif line.startswith("skipped: "):
            yield from ((line.removeprefix("skipped: "), test.partition("::")[0]) for test in tests)
            tests = []
        else:
            return


def last_line_of_tests(lines: list[str]) -> int:
    """Returns the index of the tests' last line, which read_tests found."""
    pattern = re.compile(r"\d+ passed, \d+ failed, \d+ skipped")
    return max(index for index, line in enumerate(lines) if pattern.fullmatch(line))


def read_skips(log: str, purpose_of: Callable[[str], str]) -> tuple[Skip, ...]:
    """Counts the skipped tests by reason and file. Each must have a reason."""
    skipped = read_tests(log).skipped
    counts = Counter(skipped_tests(log))
    if sum(counts.values()) != skipped:
        raise Failed(f"{skipped} tests were skipped, and {sum(counts.values())} with a reason")
    return tuple(
        Skip(reason, file, purpose_of(file), count)
        for (reason, file), count in sorted(counts.items())
    )


def first_sentence(source: str) -> str:
    """Returns the first sentence of a Python module's docstring."""
    text = " ".join((ast.get_docstring(ast.parse(source)) or "").split())
    return re.split(r"(?<=\.) ", text)[0]


def read_unused_linters(log: str) -> tuple[str, ...]:
    """Reads which tools make lint skipped: lines `not applicable: black: REASON`."""
    found = re.findall(r"^not applicable: ([\w-]+): .+$", log, re.MULTILINE)
    return tuple(sorted(set(found)))


# Soak, fuzzers and wrong bodies


def read_soak(log: str) -> Soak:
    """Reads `soak: seed 7, 1000 hash lines` and `soak: 0 differences`."""
    begun = last_match(r"^soak: seed (\d+), (\d+) \w+ lines$", log, "how many lines were answered")
    ended = last_match(r"^soak: (\d+) differences$", log, "how many answers differ")
    return Soak(int(begun[1]), int(begun[2]), int(ended[1]))


def read_fuzz(log: str) -> Fuzz:
    """Reads `INFO: Seed: 7` and `stat::number_of_executed_units: 1291750`."""
    seed = last_match(r"^INFO: Seed: (\d+)$", log, "the fuzzer's seed")
    calls = last_match(r"^stat::number_of_executed_units: +(\d+)$", log, "how many calls were made")
    return Fuzz(int(seed[1]), int(calls[1]))


def read_plants(log: str) -> Plants:
    """Reads the rows of rt plant --all, and its last line.

    A row is `refused     src/hash.rt:12 hash: { None }  (the goals)`, or for a function without a
    judged body `untested    src/hash.rt:12 hash()`. The last line is `plants crate=.. proves=0 ..`.
    """
    if re.search(r"^note: the crate is not proved", log, re.MULTILINE):
        raise Failed("the crate is not proved")
    last = last_match(r"^plants crate=\w+ (.+)$", log, "what became of the wrong bodies")[1]
    counts = {name: int(number) for name, number in re.findall(r"([\w-]+)=(\d+)", last)}
    functions = counts.pop("planted-in")
    if counts["not-run"]:
        raise Failed(f"{counts['not-run']} wrong bodies weren't tried in time")
    unseen = {kind: functions_of(kind, log, counts.pop(kind)) for kind in UNSEEN}
    return Plants(
        functions=functions,
        counts=counts,
        proved=rows_of("proves", log, counts["proves"]),
        not_judged=rows_of("not-judged", log, counts["not-judged"]),
        no_clause=unseen["no-ensures"],
        untested=unseen["untested"],
    )


def rows_of(kind: str, log: str, count: int) -> tuple[Plant, ...]:
    """Returns the wrong bodies of a kind, after checking them against the last line's count."""
    row = re.compile(rf"^{kind} +(\S+:\d+ .+?): \{{(.*?)\}}(?:  \((.*)\))?$", re.MULTILINE)
    rows = tuple(Plant(where, body.strip(), why) for where, body, why in row.findall(log))
    if len(rows) != count:
        raise Failed(f"rt plant counts {count} bodies as {kind}, and lists {len(rows)}")
    return rows


def functions_of(kind: str, log: str, count: int) -> tuple[str, ...]:
    """Returns the functions of a kind, after checking them against the last line's count."""
    functions = tuple(re.findall(rf"^{kind} +(\S+:\d+ .+)\(\)$", log, re.MULTILINE))
    if len(functions) != count:
        raise Failed(f"rt plant counts {count} functions as {kind}, and lists {len(functions)}")
    return functions


# Speed


def read_bench(text: str) -> Bench:
    """Reads docs/speed.json, which tools/bench writes.

    The part `cores` is left out: on a busy machine it stays as it was before the run.
    """
    try:
        results = parse_results(text)
    except ValueError:
        raise Failed("docs/speed.json isn't as tools/bench writes it") from None
    parts = (Part.RATIOS, Part.BUILDS, Part.STARTS)
    comparisons = [row for part in parts for row in results.rows(part, Comparison)]
    counts = results.rows(Part.INSTRUCTIONS, Count)
    if not (counts and comparisons):
        raise Failed("docs/speed.json lacks what tools/bench measures")
    return Bench(tuple(counts), tuple(comparisons))

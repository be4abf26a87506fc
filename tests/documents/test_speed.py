"""docs/SPEED.md: the statistics of its ratios, and how tools/bench writes it.

The bootstrap's intervals can be computed exactly. It draws n times from n different numbers. The
median of the draws is at most the k-th smallest number if more than half of the draws are among the
k smallest numbers, and each draw is one of these with probability k / n.
"""
from __future__ import annotations

import re
import shutil
import signal
import subprocess
from pathlib import Path

import pytest
from measure_speed.intervals import Interval, Ratio, bootstrap_interval, ratio_of
from measure_speed.page import fill, format_ratio
from measure_speed.repetition import disagreements
from measure_speed.results import (
    Comparison,
    Conditions,
    Count,
    Measured,
    Part,
    Results,
    Row,
    format_results,
    read_results,
)
from support import ROOT
from support.process import Result, run, started
from support.pwhash_runs import wait_for

CONDITIONS = Conditions(
    date="2026-11-30",
    crates="c0ffee",
    processor="Some(R) CPU @ 2.50GHz",
    ghz=2.5,
    cores=4,
    kernel="6.18.44",
    versions={},
)
PAIRS = 25  # of measurements, for one ratio
INTERRUPTED = 130  # the status of tools/bench after a signal
SECONDS_TO_END = 60


# ---- Statistics


@pytest.mark.parametrize(
    ("numbers", "level", "lower", "upper"),
    [
        # The median is at most 6 with a probability of 0.23 %, and at most 7 with 0.96 %.
        pytest.param(range(1, 26), 0.99, 7, 19, id="25 numbers at 99 %"),
        pytest.param(
            range(1, 6), 0.99, 1, 5, id="5 numbers at 99 %: the first is the median with 5.8 %"
        ),
        pytest.param(
            [1, 2, 3], 0.6, 1, 3, id="20 % on each side: the first is the median with 26 %"
        ),
        pytest.param([1, 2, 3], 0.4, 2, 2, id="30 % on each side"),
        pytest.param([3, 1, 2], 0.4, 2, 2, id="another order"),
        pytest.param([1.5, 1.5, 1.5], 0.99, 1.5, 1.5, id="the same number three times"),
    ],
)
def test_an_interval_of_a_median_is_exact(
    numbers: list[float], level: float, lower: float, upper: float
) -> None:
    assert bootstrap_interval(list(numbers), level) == Interval(lower, upper)


def test_a_ratio_is_the_median_of_pairs() -> None:
    ratio = ratio_of([1.3, 1.1, 1.2, 1.0, 9.0])
    assert (ratio.median, ratio.pairs) == (1.2, 5)


@pytest.mark.parametrize(
    ("median", "lower", "upper", "text"),
    [
        pytest.param(1.18, 1.164, 1.205, "1.18 (1.15 to 1.22)", id="more than mkpasswd"),
        pytest.param(0.93, 0.92, 0.94, "0.93 (0.91 to 0.95)", id="less than mkpasswd"),
        pytest.param(1.01, 0.99, 1.03, "the same", id="an interval around 1"),
        pytest.param(1.01, 1.0, 1.03, "the same", id="an interval that begins at 1"),
        pytest.param(0.99, 0.98, 1.0, "the same", id="an interval that ends at 1"),
        pytest.param(1.01, 0.89, 1.05, "unclear (0.88 to 1.06)", id="a wide interval below 1"),
        pytest.param(1.01, 0.95, 1.2, "unclear (0.94 to 1.21)", id="a wide interval above 1"),
        pytest.param(1.02, 1.014, 1.03, "the same", id="an interval that begins at 1.00, widened"),
        pytest.param(
            1.02, 1.016, 1.03, "1.02 (1.01 to 1.04)", id="an interval above 1.00, widened"
        ),
        pytest.param(86.26, 84.06, 88.0, "86.3 (83.2 to 88.9)", id="a large ratio"),
        pytest.param(186.26, 184.06, 188.0, "186 (182 to 190)", id="a very large ratio"),
    ],
)
def test_a_ratio_has_a_form_on_the_page(
    median: float, lower: float, upper: float, text: str
) -> None:
    assert format_ratio(Ratio(median, Interval(lower, upper), PAIRS)) == text


# ---- Two runs


def results_of(part: Part, *rows: Row) -> Results:
    """Returns the results of a run that measured one part."""
    return Results({part: Measured(CONDITIONS, rows)})


def ratio_between(lower: float, upper: float) -> Comparison:
    """Returns a comparison whose ratio has this interval."""
    return Comparison("md5crypt", "libxcrypt", Ratio(lower, Interval(lower, upper), PAIRS))


@pytest.mark.parametrize(
    ("before", "after", "do_disagree"),
    [
        pytest.param(
            ratio_between(1.1, 1.2), ratio_between(1.19, 1.3), False, id="intervals that overlap"
        ),
        pytest.param(ratio_between(1.1, 1.2), ratio_between(1.23, 1.3), True, id="a greater ratio"),
        pytest.param(ratio_between(1.1, 1.2), ratio_between(1.0, 1.07), True, id="a smaller ratio"),
    ],
)
def test_two_runs_disagree_about_a_ratio(
    before: Comparison, after: Comparison, do_disagree: bool
) -> None:
    found = list(disagreements(results_of(Part.RATIOS, before), results_of(Part.RATIOS, after)))
    assert (found != []) is do_disagree, found


@pytest.mark.parametrize(
    ("after", "do_disagree"),
    [
        pytest.param(Count("a round", "x", 4004), False, id="counts within a thousandth"),
        pytest.param(Count("a round", "x", 4005), True, id="counts further apart"),
        pytest.param(Count("a round", "y", 4005), False, id="counts of two programs"),
    ],
)
def test_two_runs_disagree_about_a_count(after: Count, do_disagree: bool) -> None:
    before = results_of(Part.INSTRUCTIONS, Count("a round", "x", 4000))
    found = list(disagreements(before, results_of(Part.INSTRUCTIONS, after)))
    assert (found != []) is do_disagree, found


def test_the_command_compares_with_another_run(tmp_path: Path) -> None:
    other = tmp_path / "other.json"
    text = (ROOT / "docs/speed.json").read_text(encoding="utf-8")
    other.write_text(text, encoding="utf-8")
    result = run(ROOT / "tools/bench", "--compare", other).required()
    assert result.stdout.endswith(b" rows are in both runs; 0 of them disagree\n"), result
    # With another digit in front, the first count is more than ten times as large.
    changed = re.sub(r'"instructions":(\d)', r'"instructions":1\1', text, count=1)
    other.write_text(changed, encoding="utf-8")
    result = run(ROOT / "tools/bench", "--compare", other)
    assert result.status == 1 and b"; 1 of them disagree\n" in result.stdout, result


# ---- The page and its file


def test_a_table_is_rewritten_and_the_others_stay() -> None:
    page = "A\n\n<!-- bench: ratios -->\nold\n\nB\n\n<!-- bench: cores -->\nkept\n\nC\n"
    table = (
        "| Time of a hash, mkpasswd's = 1 | libxcrypt | OpenSSL | libsodium | passlib |\n"
        "|---|---:|---:|---:|---:|\n"
        "| md5crypt | 1.10 (1.09 to 1.21) |  |  |  |\n"
    )
    assert fill(page, results_of(Part.RATIOS, ratio_between(1.1, 1.2))) == page.replace(
        "old\n", table
    )


def test_results_that_are_written_can_be_read(tmp_path: Path) -> None:
    file = tmp_path / "speed.json"
    results = Results(
        {
            Part.INSTRUCTIONS: Measured(CONDITIONS, (Count("a round", "mkpasswd", 4364.88),)),
            Part.RATIOS: Measured(CONDITIONS, (ratio_between(1.1, 1.2),)),
        }
    )
    file.write_text(format_results(results), encoding="utf-8")
    assert read_results(file) == results


# ---- Runs that fail or are interrupted


@pytest.fixture(name="tree")
def fixture_tree(tmp_path: Path) -> Path:
    """A new repository with a copy of what tools/bench needs for the part `seconds`."""
    tree = tmp_path / "tree"
    for folder in ("docs", "tests/support", "tools/measure_speed"):
        shutil.copytree(ROOT / folder, tree / folder)
    shutil.copy(ROOT / "tools/bench", tree / "tools")
    (tree / "libmkpasswd.a").touch()
    (tree / "crates").mkdir()
    (tree / "crates/file").touch()
    git = ("git", "-C", tree, "-c", "user.name=x", "-c", "user.email=x@example.com")
    run(*git, "init", "-q").required()
    run(*git, "add", "-A").required()
    run(*git, "commit", "-q", "-m", "x").required()
    return tree


def program_of(folder: Path, script: str) -> dict[str, str]:
    """Returns the environment in which tools/bench measures this script instead of mkpasswd."""
    program = folder / "program"
    program.write_text(f"#!/bin/sh\n{script}\n", encoding="ascii")
    program.chmod(0o755)
    return {"PROGRAM": str(program)}


def changed_files(tree: Path) -> str:
    """Returns the documents that a run has changed, as git lists them."""
    status: Result = run("git", "-C", tree, "status", "--porcelain", "docs").required()
    return status.stdout.decode()


@pytest.mark.needs("git")
def test_a_program_that_prints_something_else_is_not_measured(tree: Path, tmp_path: Path) -> None:
    environment = program_of(tmp_path, "sed s/.*/user:no/")
    result = run(tree / "tools/bench", "--only", "seconds", env=environment)
    assert result.status == 1, result
    assert b"expected stdout" in result.stderr, result
    assert changed_files(tree) == ""


@pytest.mark.needs("git")
@pytest.mark.parametrize("number", [signal.SIGINT, signal.SIGTERM], ids=["SIGINT", "SIGTERM"])
def test_an_interrupted_run_writes_nothing(tree: Path, tmp_path: Path, number: int) -> None:
    has_begun = tmp_path / "begun"
    environment = program_of(tmp_path, f"touch {has_begun}; exec sleep 600")
    command = (tree / "tools/bench", "--only", "seconds")
    with started(*command, env=environment, stderr=subprocess.DEVNULL) as process:
        wait_for(has_begun.exists)
        process.send_signal(number)
        assert process.wait(timeout=SECONDS_TO_END) == INTERRUPTED
    assert changed_files(tree) == ""

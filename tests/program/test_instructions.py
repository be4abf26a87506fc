"""The program's speed: a hash takes no more instructions than docs/speed.json says.

If a change needs more instructions on purpose, measure the counts in that file again, with
`tools/bench --only instructions`.
"""
from __future__ import annotations

import json
import platform
from pathlib import Path

import pytest
from measure_speed.counts import DIFFERENCES, Difference
from measure_speed.programs import Checker
from measure_speed.results import Count, Part, read_results
from support import ROOT

RESULTS = ROOT / "docs/speed.json"
NAME = "mkpasswd"
TOLERANCE = 0.01
TOLERANCE_OF_OTHER_GLIBC = 0.02  # whose memcpy takes a few more or fewer instructions

UNITS = [pytest.param(difference, id=difference.unit) for difference in DIFFERENCES]


@pytest.mark.needs("valgrind")
@pytest.mark.parametrize("difference", UNITS)
def test_the_program_takes_no_more_instructions_than_before(
    program: Path, difference: Difference
) -> None:
    rows = read_results(RESULTS).rows(Part.INSTRUCTIONS, Count)
    before = {row.unit: row.instructions for row in rows if row.program == NAME}
    assert difference.unit in before, "run tools/bench --only instructions"
    instructions = difference.instructions(Checker(NAME, (str(program), "--check")))
    assert instructions <= (1 + tolerance()) * before[difference.unit]


def tolerance() -> float:
    """Returns by how much a count may exceed the one in docs/speed.json, as a share of it."""
    conditions = json.loads(RESULTS.read_text("utf-8"))["instructions"]["conditions"]
    counted_with = conditions["versions"]["libc6"].partition("-")[0]
    is_same_glibc = counted_with == platform.libc_ver()[1]
    return TOLERANCE if is_same_glibc else TOLERANCE_OF_OTHER_GLIBC

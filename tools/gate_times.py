"""The gate's times: measures them while rt runs, saves them in build/log/gate.times, shows them.

rt prints no times, and works on several crates at once. So the times of a crate are when rt's lines
about it came, in seconds after rt started; how long a crate takes by itself isn't known. rt prints
when a crate or its tests are proved, when it tries a crate's first mutant, and, after the last one,
the results of all mutants. Then it runs programs and tests one by one. Processor time is that of
all processes of rt together.
"""

from __future__ import annotations

import datetime
import enum
import json
import os
import re
import resource
import time
from collections.abc import Sequence
from dataclasses import dataclass
from typing import Any

from rt_output import LOGS, TOTAL, Stop, shown_path

FILE = LOGS / "gate.times"


class Part(enum.Enum):
    """What a line of rt says about a crate."""

    KEPT = "kept"
    PROVED = "proved"
    TESTS_PROVED = "tests proved"
    MUTANTS_BEGUN = "mutants begun"
    MUTANTS_TRIED = "mutants tried"
    RUN = "run"


# A pattern for each part. The first group is the name of the crate.
PATTERNS = {
    # "rt: prims_core is kept: an earlier run on this machine proved the same files .."
    Part.KEPT: re.compile(r"rt: (\w+) is kept: "),
    # "rt: prims_core proved", "rt: prims_core NOT PROVED"
    Part.PROVED: re.compile(r"rt: (\w+) (?:NOT PROVED|proved$)"),
    # "rt: examples: its tests are proved"
    Part.TESTS_PROVED: re.compile(r"rt: (\w+): its tests are (?:NOT PROVED|proved$)"),
    # "rt: prims_core: trying its must-fail edits (12)"
    Part.MUTANTS_BEGUN: re.compile(r"rt: (\w+): trying its must-fail edits "),
    # "rt: must-fail prims_core/adds.edit: refused, as it must be: .."
    Part.MUTANTS_TRIED: re.compile(r"rt: must-fail (\w+)/"),
    # "rt: program ran, and wrote ..", "rt: examples: its tests passed"
    Part.RUN: re.compile(r"rt: (\w+)(?: ran\b|: its tests (?:passed|FAILED))"),
}


@dataclass(frozen=True)
class Moment:
    """When the last line about a part of a crate came, and how many lines there were."""

    crate: str
    part: Part
    seconds: float  # after rt started
    lines: int


@dataclass(frozen=True)
class Times:
    """The times of a run of the gate."""

    date: str
    jobs: int  # RT_JOBS
    result: str  # "127 passed, 0 failed"
    seconds: float
    processor_seconds: float
    moments: tuple[Moment, ...]

    def moment(self, crate: str, part: Part) -> Moment | None:
        """Returns when a part of a crate was done, if it was."""
        for moment in self.moments:
            if (moment.crate, moment.part) == (crate, part):
                return moment
        return None


def processor_seconds() -> float:
    """Returns the processor time of all descendants that have ended and been waited for."""
    usage = resource.getrusage(resource.RUSAGE_CHILDREN)
    return usage.ru_utime + usage.ru_stime


class Stopwatch:
    """Measures a run of rt, which starts when the stopwatch is created."""

    def __init__(self) -> None:
        self._date = datetime.datetime.now().astimezone().strftime("%Y-%m-%d %H:%M %Z")
        self._began = time.monotonic()
        self._processor_seconds_before = processor_seconds()
        self._result = ""
        self._moments: dict[tuple[str, Part], Moment] = {}

    def record(self, line: str) -> None:
        """Records the time of a line that is about a part of a crate."""
        if TOTAL.match(line):
            self._result = line
        for part, pattern in PATTERNS.items():
            found = pattern.match(line)
            if found:
                self._record_part(found[1], part)

    def _record_part(self, crate: str, part: Part) -> None:
        before = self._moments.get((crate, part))
        lines = before.lines + 1 if before else 1
        self._moments[crate, part] = Moment(crate, part, self._seconds(), lines)

    def _seconds(self) -> float:
        return round(time.monotonic() - self._began, 1)

    def times(self, jobs: int) -> Times:
        """Returns the times, once rt has ended."""
        return Times(
            date=self._date,
            jobs=jobs,
            result=self._result,
            seconds=self._seconds(),
            processor_seconds=round(processor_seconds() - self._processor_seconds_before, 1),
            moments=tuple(self._moments.values()),
        )


# The file


def write_times(times: Times) -> None:
    """Saves the times, in place of those of the last run."""
    moments = [{**vars(moment), "part": moment.part.value} for moment in times.moments]
    text = json.dumps({**vars(times), "moments": moments}, indent=1) + "\n"
    part = FILE.with_name(f"{FILE.name}.part")
    try:
        part.write_text(text, encoding="utf-8")
        os.replace(part, FILE)
    except OSError as error:
        raise Stop(f"{shown_path(FILE)}: {error.strerror}") from None


def times_in(values: Any) -> Times:
    """Returns the times in a file's JSON. Raises an exception if it has none."""
    return Times(
        date=str(values["date"]),
        jobs=int(values["jobs"]),
        result=str(values["result"]),
        seconds=float(values["seconds"]),
        processor_seconds=float(values["processor_seconds"]),
        moments=tuple(
            Moment(str(row["crate"]), Part(row["part"]), float(row["seconds"]), int(row["lines"]))
            for row in values["moments"]
        ),
    )


def read_times() -> Times:
    """Reads the times of the last run."""
    try:
        content = FILE.read_bytes()
    except FileNotFoundError:
        raise Stop(f"{shown_path(FILE)} isn't there yet: run the gate") from None
    except OSError as error:
        raise Stop(f"{shown_path(FILE)}: {error.strerror}") from None
    try:
        return times_in(json.loads(content))
    except (KeyError, TypeError, ValueError):
        raise Stop(f"{shown_path(FILE)} is damaged: run the gate again") from None


# The table


HEADINGS = ("Crate", "Proved", "Its tests proved", "First mutant", "Mutants", "Run")


def row_of(cells: Sequence[str]) -> str:
    """Returns a row of a table in Markdown."""
    return f"| {' | '.join(cells)} |\n"


def cells_of(times: Times, crate: str) -> list[str]:
    """Returns the cells of a crate's row: its name, its times, and how many mutants were tried."""

    def seconds(part: Part) -> str:
        moment = times.moment(crate, part)
        return f"{moment.seconds:.0f}" if moment else ""

    tried = times.moment(crate, Part.MUTANTS_TRIED)
    return [
        f"`{crate}`",
        "kept" if times.moment(crate, Part.KEPT) else seconds(Part.PROVED),
        seconds(Part.TESTS_PROVED),
        seconds(Part.MUTANTS_BEGUN),
        str(tried.lines) if tried else "",
        seconds(Part.RUN),
    ]


def last_of(moments: Sequence[Moment]) -> float:
    """Returns when the last line about any of these parts came."""
    return max(moment.seconds for moment in moments)


def table_of(times: Times) -> str:
    """Returns the times as a table in Markdown, with those of the whole run below it."""
    crates = list(dict.fromkeys(moment.crate for moment in times.moments))
    rows = [HEADINGS, ["---"] * len(HEADINGS), *(cells_of(times, crate) for crate in crates)]
    tried = [moment for moment in times.moments if moment.part is Part.MUTANTS_TRIED]
    sentences = [
        "Times are seconds after rt began, when its line came; it works on several crates at once."
    ]
    if tried:
        count = sum(moment.lines for moment in tried)
        sentences.append(f"The results of all {count} mutants came after {last_of(tried):.0f} s.")
    sentences.append(
        f"The run of {times.date}, with RT_JOBS={times.jobs}, took {times.seconds:.0f} s, "
        f"and {times.processor_seconds:.0f} s of processor time: {times.result or 'no result'}."
    )
    return "".join(map(row_of, rows)) + "\n" + " ".join(sentences) + "\n"

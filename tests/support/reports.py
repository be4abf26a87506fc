"""Runs scripts in JavaScript, which report their results as JSON."""
from __future__ import annotations

import json
from dataclasses import dataclass
from pathlib import Path
from typing import Any

from .process import Word, run

LONGEST_SECONDS = 1500  # for a script in node on a busy machine


@dataclass(frozen=True)
class Report:
    """What a script reported. A failing test prints how to run the script."""

    origin: str
    value: Any

    def __str__(self) -> str:
        return f"{self.origin}\nreported: {self.value}"

    def __getitem__(self, name: str) -> Any:
        return self.value[name]


def read_report(origin: str, text: str) -> Report:
    """Returns the report that a script returned or printed."""
    try:
        return Report(origin, json.loads(text))
    except ValueError as error:
        raise AssertionError(f"expected: JSON\n{origin}\ngot: {text}") from error


def report_of_node(*command: Word, folder: Path | None = None, stdin: bytes = b"") -> Report:
    """Runs node, which must succeed, and returns the script's report."""
    environment = {"NODE_OPTIONS": None, "NODE_PATH": None}
    result = run(
        *command, stdin=stdin, cwd=folder, env=environment, timeout=LONGEST_SECONDS
    ).required()
    return read_report(str(result), result.stdout.decode())

"""A folder in which a user of the npm package runs commands and scripts in node."""
from __future__ import annotations

import json
from dataclasses import dataclass
from pathlib import Path
from typing import Any

from .process import Result, Word, run
from .reports import Report, report_of_node


@dataclass(frozen=True)
class Site:
    """The folder of a user of the package."""

    node: str
    folder: Path

    def run(self, *command: Word) -> Result:
        """Runs a command, which must succeed, in the folder."""
        environment = {"HOME": str(self.folder), "NODE_OPTIONS": None, "NODE_PATH": None}
        return run(*command, cwd=self.folder, env=environment).required()

    def report_of(self, script: str, *arguments: Word, given: Any = None) -> Report:
        """Runs a script with these arguments, and `given` as JSON input. Returns its report."""
        stdin = b"" if given is None else json.dumps(given).encode()
        return report_of_node(self.node, script, *arguments, folder=self.folder, stdin=stdin)

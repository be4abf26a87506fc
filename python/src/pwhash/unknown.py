"""Leaves out lines whose names have no line in a file such as /etc/passwd.

If chpasswd gets one name without an account, it changes no password at all.
"""

from __future__ import annotations

from pwhash.console import Console
from pwhash.lines import Line, name_of
from pwhash.skipping import Skipping
from pwhash.source import Source
from pwhash.stored import stored_in


class Unknown(Skipping):
    """Leaves out lines whose names a file doesn't have."""

    def __init__(self, path: str, source: Source, console: Console, shows_all: bool) -> None:
        super().__init__(path, source, console, shows_all)
        self._names = {stored.name for stored in stored_in(path, console)}

    @property
    def reason(self) -> str:
        return f"not in {self.file}"

    @property
    def reason_of_all(self) -> str:
        return f"their names aren't in {self.file}"

    def skips(self, line: Line) -> bool:
        """Keeps refused rows and lines without a name, which are reported as problems."""
        name = name_of(line)
        return line.refused_row is None and bool(name) and name not in self._names

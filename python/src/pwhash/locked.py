"""Leaves out lines whose names are locked in a file such as /etc/shadow.

chpasswd -e would silently unlock them. A name with only a ! there, as useradd writes it, has never
had a password, so it isn't left out. But useradd never makes the superuser: there a ! is a lock.
"""

from __future__ import annotations

import os
from typing import Optional, Set

from pwhash.console import Console
from pwhash.errors import UsageError
from pwhash.field import field_of
from pwhash.lines import Line, name_of
from pwhash.skipping import Skipping
from pwhash.source import Source
from pwhash.stored import Stored, stored_in
from pwhash.superuser import superuser_names

NO_PASSWORD_YET = (b"!", b"!!")  # the latter on Red Hat's systems
IN_SHADOW = b"x"  # the field of every name in /etc/passwd


class Locked(Skipping):
    """Leaves out lines whose names are locked in a file."""

    def __init__(self, path: str, source: Source, console: Console, shows_all: bool) -> None:
        super().__init__(path, source, console, shows_all)
        self._can_be_read_again = os.path.isfile(path)
        self._superusers = superuser_names()
        self._names = self._read()

    @property
    def reason(self) -> str:
        return f"locked in {self.file}"

    @property
    def reason_of_all(self) -> str:
        return "their names are locked"

    def skips(self, line: Line) -> bool:
        return name_of(line) in self._names

    def name_to_show(self, line: Line) -> bytes:
        """Returns the name of a line that is left out: it is surely one, since the file has it."""
        return name_of(line)

    def refuse_new(self, part_name: Optional[str]) -> None:
        """Ends the run if a name was locked during it, since its line may have been hashed."""
        if not self._can_be_read_again:
            return
        before = self._names
        self._names = self._read()
        if self._names - before:
            remedy = f"remove {part_name}" if part_name else "discard the hashes"
            raise UsageError(
                f"a name was locked in {self.file} during the run: {remedy}, and run the command "
                "again."
            )

    def _read(self) -> Set[bytes]:
        has_fields = False
        names: Set[bytes] = set()
        for stored in stored_in(self.path, self.console):
            has_fields = has_fields or stored.field != IN_SHADOW
            if self._is_locked(stored):
                names.add(stored.name)
        if not has_fields:
            raise UsageError(
                f"{self.file} only says x, as /etc/passwd does: give --skip-locked /etc/shadow."
            )
        return names

    def _is_locked(self, stored: Stored) -> bool:
        """Returns whether a field keeps its name out, and isn't that of a new account."""
        is_new = stored.field in NO_PASSWORD_YET and stored.name not in self._superusers
        return field_of(stored.field).is_surely_locked and not is_new

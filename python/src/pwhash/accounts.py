"""The accounts in FIELDS, such as /etc/shadow, and the passwords to try for them."""

from __future__ import annotations

import os
from collections.abc import Iterable
from typing import Dict, List, Set

from pwhash.console import Console
from pwhash.field import is_encoded
from pwhash.lines import BYTE_ORDER_MARK, Line, LineGroups
from pwhash.shown_names import MAX_NAMED, shown_line
from pwhash.stored import Stored, stored_in
from pwhash.text import display_name, is_utf8

MAX_GROUP = 1 << 10  # lines in a group


class Accounts:
    """The stored field of each account, and the odd lines among those to try."""

    def __init__(self, path: str, console: Console) -> None:
        self._path = path
        self._console = console
        self._can_be_read_again = os.path.isfile(path)
        self.repeated = 0  # how many lines of FIELDS have the name of an earlier one
        self.encoded: List[int] = []  # lines of FIELDS with a hash in Base64
        self._fields = self._read()
        self.absent: List[int] = []  # lines whose name has no account
        self.marked: List[int] = []  # lines with a carriage return or a byte order mark
        self.odd = 0  # how many lines aren't UTF-8, or have a zero byte

    def _read(self) -> Dict[bytes, bytes]:
        """Returns the field in the first line of each name. Reports further lines of the name."""
        first_lines: Dict[bytes, Stored] = {}
        for stored in stored_in(self._path, self._console):
            if is_encoded(stored.field) and len(self.encoded) < MAX_NAMED:
                self.encoded.append(stored.number)
            first = first_lines.setdefault(stored.name, stored)
            if first is stored:
                continue
            self.repeated += 1
            if self.repeated <= MAX_NAMED:
                where = shown_line(display_name(self._path), stored.number, stored.name)
                self._console.say(f"{where}: the name again, after line {first.number}: not tried")
        return {name: stored.field for name, stored in first_lines.items()}

    def lines_to_check(self, groups: LineGroups) -> LineGroups:
        """Turns lines name:password, or passwords for all names, into name:field:password."""
        for group in groups:
            if not group:
                yield []
            tries: List[Line] = []
            for line in group:
                for name, password in self._names_for(line):
                    data = b"%b:%b:%b" % (name, self._fields[name], password)
                    tries.append(line._replace(data=data))
                    if len(tries) == MAX_GROUP:
                        yield tries
                        tries = []
                if line.refused_row is not None:
                    tries.append(line)
            if tries:
                yield tries

    def changed_names(self) -> Set[bytes]:
        """Reads FIELDS again, and returns the names whose field has changed or is gone."""
        if not self._can_be_read_again:
            return set()
        now: Dict[bytes, bytes] = {}
        for stored in stored_in(self._path, self._console):
            now.setdefault(stored.name, stored.field)
        return {name for name, field in self._fields.items() if now.get(name) != field}

    def _names_for(self, line: Line) -> Iterable[tuple[bytes, bytes]]:
        """Returns the accounts for which a line's password is tried, each with that password."""
        if line.refused_row is not None:
            return ()
        self._note(line)
        name, colon, password = line.data.partition(b":")
        if not colon:
            name, password = b"", line.data
        if not name:
            return ((each, password) for each in self._fields)
        if name in self._fields:
            return ((name, password),)
        if len(self.absent) < MAX_NAMED:
            self.absent.append(line.number)
        return ()

    def _note(self, line: Line) -> None:
        data = line.data
        if has_marks(data) and len(self.marked) < MAX_NAMED:
            self.marked.append(line.number)
        if b"\0" in data or not is_utf8(data):
            self.odd += 1


def has_marks(data: bytes) -> bool:
    """Returns whether a line has a carriage return or a byte order mark."""
    return b"\r" in data or BYTE_ORDER_MARK in data

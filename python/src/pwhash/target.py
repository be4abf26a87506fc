"""TARGET, the password file that pwhash install replaces: its names, and whom it keeps out.

A name is surely kept out by a mark in its field, or by a # before its line. Other fields with which
no password may log in, such as x, may have been written to keep a name out.
"""

from __future__ import annotations

from collections.abc import Iterable
from typing import Dict, List, NamedTuple

from pwhash import field, password_file, system_files
from pwhash.commented import commented_out, is_comment
from pwhash.errors import ProblemsFound, UsageError
from pwhash.field import Field
from pwhash.hashes_file import Hash
from pwhash.shown_names import list_names

REMOVE_FIRST = "Nothing was installed. If the file isn't needed, remove it first."


class OldLine(NamedTuple):
    """What TARGET says about a name."""

    field: Field
    rest: bytes  # the further fields, with the colon that begins them


class Target:
    """The content of TARGET. Refuses a file that isn't a password file."""

    def __init__(self, content: bytes, file_name: str, hashes: Iterable[Hash]) -> None:
        system_files.refuse_shape(content, file_name)
        refuse_odd_line(content, file_name)
        lines = content.split(b"\n")
        self.lines = read_lines(lines)
        self.comments = [line for line in lines if is_comment(line)]
        self._file_name = file_name
        names = {line.name for line in hashes}.union(self.lines)
        self._commented_out = commented_out(self.comments, names) - self.lines.keys()
        self._refuse_other_file()

    def locks(self, name: bytes) -> bool:
        """Returns whether a name is surely kept out."""
        old = self.lines.get(name)
        return name in self._commented_out or (old is not None and old.field.is_surely_locked)

    def rest_of(self, name: bytes) -> bytes:
        """Returns the further fields of a name, with the colon that begins them."""
        old = self.lines.get(name)
        return b"" if old is None else old.rest

    def refuse_removals(self, hashes: Iterable[Hash]) -> None:
        """Refuses HASHES if it lacks names of TARGET, which could then no longer log in."""
        removed = self.removed(hashes)
        if removed:
            raise ProblemsFound(
                f"nothing was installed: {self._file_name} has names that HASHES lacks, which "
                f"could no longer log in: {list_names(removed)}. Add them to HASHES, or remove "
                "them with --accept-removals."
            )

    def removed(self, hashes: Iterable[Hash]) -> List[bytes]:
        """Returns the names of TARGET that HASHES lacks."""
        kept = {line.name for line in hashes}
        return [name for name in self.lines if name not in kept]

    def refuse_entrances(self, hashes: Iterable[Hash]) -> None:
        """Refuses HASHES if it lets in names that TARGET may keep out, though without a mark."""
        let_in = [line.name for line in hashes if not line.field.is_locked]
        doubtful = [name for name in let_in if self._may_keep_out(name)]
        if doubtful:
            raise ProblemsFound(
                f"nothing was installed: in {self._file_name}, these names have no whole hash, so "
                f"perhaps somebody keeps them out: {list_names(doubtful)}. If HASHES may let them "
                "in, first delete their lines there (pwhash set --delete); else lock them (!) in "
                "HASHES."
            )

    def _may_keep_out(self, name: bytes) -> bool:
        old = self.lines.get(name)
        if old is None or old.field.is_surely_locked:
            return False
        return not old.field.looks_whole

    def _refuse_other_file(self) -> None:
        """Refuses a file in which no line has a hash, a prefix of one, or a mark."""
        fields = [line.field for line in self.lines.values()]
        if fields and not any(field.is_of_password_file(each) for each in fields):
            raise UsageError(
                f"{self._file_name} has no line with a hash. Is it another file? {REMOVE_FIRST}"
            )


def refuse_odd_line(content: bytes, file_name: str) -> None:
    """Refuses a file with a line that password files don't have, such as a configuration."""
    odd = password_file.first_odd_line(content)
    if odd is not None:
        raise UsageError(
            f"{file_name}, line {odd.number}: {odd.reason}. Is it another file? {REMOVE_FIRST}"
        )


def read_lines(lines: Iterable[bytes]) -> Dict[bytes, OldLine]:
    """Returns what is stored for each name. If a name has several lines, a locked one counts."""
    found: Dict[bytes, OldLine] = {}
    for line in lines:
        name, colon, rest = line.partition(b":")
        if not colon or not name or is_comment(line):
            continue
        stored, colon, others = rest.partition(b":")
        new = OldLine(field.field_of(stored), colon + others)
        if name not in found or new.field.is_surely_locked:
            found[name] = new
    return found

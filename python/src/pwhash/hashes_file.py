"""HASHES, which becomes a password file. Each line is judged before it is installed."""

from __future__ import annotations

import os
import re
import stat
from collections import Counter
from typing import Dict, List, NamedTuple, Optional

import mkpasswd

from pwhash import library, system_files
from pwhash.console import Console
from pwhash.doubts import SERVICE_NAMES
from pwhash.errors import ProblemsFound, UsageError, errors_named
from pwhash.field import ENCODED, Field, field_of, is_encoded, method_of_prefix
from pwhash.lines import refused_name
from pwhash.options import InstallOptions, Service
from pwhash.password_file import read_all
from pwhash.shown_names import could_be_name, shown_line
from pwhash.text import display_name, is_visible

MAX_SHOWN = 20  # of each kind
FINE = (mkpasswd.State.CURRENT, mkpasswd.State.OUTDATED, mkpasswd.State.LOCKED)
REASONS = {
    mkpasswd.State.NONE: "an empty field, with which some services ask for no password",
    mkpasswd.State.OVER_BUDGET: "over budget: a login can refuse the hash, or take minutes",
    mkpasswd.State.MALFORMED: "malformed: others may fail badly with the hash",
    mkpasswd.State.DEAD: "dead: no password matches, since the hash was cut or changed",
    mkpasswd.State.NO_SCHEME: "no scheme: a password as it is, or a damaged hash",
}
# The only prefixes that these services know, in exactly this spelling.
PREFIXES_OF_SERVICES = {Service.APACHE: (b"{SHA}",), Service.NGINX: (b"{SHA}", b"{SSHA}")}


class Hash(NamedTuple):
    """A line of HASHES."""

    name: bytes
    field: Field
    rest: bytes  # with the colon that begins it

    def data(self) -> bytes:
        """Returns the line as HASHES has it, without its line feed."""
        return self.name + b":" + self.field.data() + self.rest


class HashesFile:
    """The lines of HASHES, and what is wrong with them."""

    def __init__(self, options: InstallOptions, console: Console) -> None:
        self.lines: List[Hash] = []
        self.status, content = read(options.hashes)
        self._file_name = display_name(options.hashes)
        self._service = options.service
        self._accepts_others = options.accepts_other_schemes
        self._has_others = False
        self._policy = library.auditing_policy(options.policy)
        self._console = console
        self._first_lines: Dict[bytes, int] = {}
        self._kind_counts: Counter[str] = Counter()
        system_files.refuse_shape(content, self._file_name)
        self._judge_all(content)

    def _judge_all(self, content: bytes) -> None:
        """Judges each line, and ends the run if one is wrong."""
        lines = content.split(b"\n")
        if not lines[-1]:
            lines.pop()
        if not lines:
            raise UsageError(f"{self._file_name} has no lines.")
        wrong = 0
        for number, line in enumerate(lines, 1):
            reason = self._check_line(number, line)
            if reason is not None:
                wrong += 1
                self._show(number, line, reason)
        if wrong:
            remedy = ""
            if self._has_others:
                remedy = ", or take hashes of other schemes as they are (--accept-other-schemes)"
            raise ProblemsFound(
                f"nothing was installed: {wrong:,} of {len(lines):,} lines of {self._file_name} "
                f"are wrong. Correct or remove them{remedy}."
            )

    def _check_line(self, number: int, line: bytes) -> Optional[str]:
        """Says what is wrong with a line, or returns None."""
        name, colon, rest = line.partition(b":")
        refusal = refused_name(line)
        if refusal is not None:
            return refusal.message
        if not colon:
            return "no colon"
        stored, colon, rest = rest.partition(b":")
        self.lines.append(Hash(name, field_of(stored), colon + rest))
        return self._check_name(number, name) or self._check_field(line, field_of(stored))

    def _check_name(self, number: int, name: bytes) -> Optional[str]:
        """Says what is wrong with a name, or returns None."""
        text = name.decode(errors="replace")
        if name.startswith(b"#") or not is_visible(text) or text != text.strip():
            return "a name that begins with #, has an invisible character or a blank at an end"
        if self._service and not SERVICE_NAMES[self._service].fullmatch(name):
            return "the service takes the name for another, or skips it"
        first = self._first_lines.setdefault(name, number)
        return f"the name again, after line {first}" if first != number else None

    def _check_field(self, line: bytes, field: Field) -> Optional[str]:
        """Says what is wrong with a field, or returns None."""
        if b"\r" in line:
            return "a carriage return, with which lines of Windows end (tr -d '\\r')"
        reason = self._check_prefix(field) if field.prefix else None
        if reason is not None or field.is_locked:
            return reason
        return self._check_hash(field)

    def _check_prefix(self, field: Field) -> Optional[str]:
        """Says what is wrong with a prefix, or returns None."""
        known = PREFIXES_OF_SERVICES.get(self._service) if self._service else None
        if known is not None and field.prefix not in known:
            return "a prefix that the service doesn't know"
        if field.has_known_prefix:
            return None
        return "a prefix that pwhash doesn't know, perhaps of a password as it is"

    def _check_hash(self, field: Field) -> Optional[str]:
        """Says what is wrong with a hash that isn't locked, or returns None."""
        if field.is_of_other_scheme:
            return self._check_other_scheme(field)
        description = self._policy.describe(field.stored)
        if description.state is mkpasswd.State.UNKNOWN:
            return self._check_other_scheme(field)
        if is_encoded(field.stored):
            return ENCODED
        if description.state not in FINE:
            return REASONS[description.state]
        if method_of_prefix(field.prefix) not in (None, description.scheme):
            return "a prefix of another method"
        return None

    def _check_other_scheme(self, field: Field) -> Optional[str]:
        """Says what is wrong with a hash of another scheme, or returns None."""
        if not field.stored:
            return REASONS[mkpasswd.State.NONE]
        if not field.is_whole_of_others:
            return "no hash that pwhash knows by its form: cut, or perhaps a password as it is"
        if not self._accepts_others:
            self._has_others = True
            return "another scheme, which pwhash can't judge"
        if method_of_prefix(field.prefix) is not None:
            return "a prefix of another method"
        return None

    def _show(self, number: int, line: bytes, reason: str) -> None:
        kind = re.sub("[0-9]+", "", reason)  # the reason, whatever line it names
        self._kind_counts[kind] += 1
        if self._kind_counts[kind] <= MAX_SHOWN:
            name, colon, field = line.partition(b":")
            is_named = bool(colon) and not could_be_name(field)
            where = shown_line(self._file_name, number, name if is_named else b"")
            self._console.say(f"{where}: {reason}")


def read(path: str) -> "tuple[os.stat_result, bytes]":
    """Returns the status and the content of a regular file."""
    with errors_named(display_name(path)):
        fd = os.open(path, os.O_RDONLY | os.O_CLOEXEC | os.O_NONBLOCK | os.O_NOCTTY)
        try:
            status = os.fstat(fd)
            if not stat.S_ISREG(status.st_mode):
                raise UsageError(
                    f"{display_name(path)} is no regular file. Name one with lines name:hash."
                )
            content = read_all(fd, status, display_name(path))
            now = os.fstat(fd)
            if (now.st_size, now.st_mtime_ns) != (len(content), status.st_mtime_ns):
                raise UsageError(f"{display_name(path)} was changed meanwhile. Start again.")
            return status, content
        finally:
            os.close(fd)

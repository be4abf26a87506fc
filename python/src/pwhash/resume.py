"""Continues the OUT.part of an earlier run, after comparing its lines with the input's."""

from __future__ import annotations

import itertools
import os
import re
from collections.abc import Iterable, Iterator
from typing import List, Match, NamedTuple, Optional, Tuple

from pwhash import library
from pwhash.errors import UsageError, errors_named
from pwhash.library import Policy
from pwhash.lines import Line, LineGroups, name_of
from pwhash.part import Part
from pwhash.workers import run_in_thread

# A whole hash: its method and cost, its salt, and its digest.
HASH = re.compile(
    rb"(\$1\$|\$[56]\$(?:rounds=[0-9]+\$)?|\$7\$[./0-9A-Za-z]{11})"
    rb"([./0-9A-Za-z]+)\$([./0-9A-Za-z]+)"
)
LINES_TOGETHER = 1 << 10


class Parts(NamedTuple):
    """The parts that all hashes of a run have in common."""

    setting: bytes  # method and cost
    salt: bytes  # empty unless -S gave one
    salt_length: int
    digest_length: int


def skip_hashed(part: Part, groups: LineGroups, policy: Policy, source_name: str) -> LineGroups:
    """Returns the lines without a hash in the part. Cuts an incomplete line off the part."""
    lines = itertools.chain.from_iterable(groups)
    with errors_named(part.name):
        count, size = whole_lines(part.fd)
        with open(part.fd, "rb", closefd=False) as file:
            answers = (file.readline()[:-1] for _ in range(count))
            Comparison(part.name, source_name, policy).compare(answers, count, lines)
        os.ftruncate(part.fd, size)
        os.lseek(part.fd, size, os.SEEK_SET)
    return in_groups(lines)


def whole_lines(fd: int) -> Tuple[int, int]:
    """Returns the number of complete lines in a part, and their bytes."""
    count = size = 0
    with open(fd, "rb", closefd=False) as file:
        for line in file:
            if line.endswith(b"\n"):
                count, size = count + 1, size + len(line)
    os.lseek(fd, 0, os.SEEK_SET)
    return count, size


class Comparison(NamedTuple):
    """Compares the lines of a part with the lines of the input.

    Each line has to have the name of its input line, and a hash with the setting of the first one.
    The first and the last hash are computed again, to see that passwords and options are the same.
    """

    part_name: str
    source_name: str
    policy: Policy

    def compare(self, answers: Iterator[bytes], count: int, lines: Iterator[Line]) -> None:
        """Refuses a part unless its lines belong to the first lines of the input, one to each."""
        first: Optional[Parts] = None
        for index, answer in enumerate(answers):
            line = next(lines, None)
            found = hash_in(answer, line)
            if line is None or found is None:
                raise self._refused(index, line)
            parts = parts_of(found, self.policy)
            first = first or parts
            is_recomputed = index in (0, count - 1)
            if parts != first or (is_recomputed and not is_same_hash(found, line, self.policy)):
                raise self._refused(index, line)

    def _refused(self, index: int, line: Optional[Line]) -> UsageError:
        number = line.number if line else index + 1
        return UsageError(
            f"{self.part_name}, line {index + 1}: not of line {number} of {self.source_name}: "
            "name, password, -m, -R or -S differ, or the line is gone or left out. "
            f"Correct that, or remove {self.part_name}."
        )


def hash_in(answer: bytes, line: Optional[Line]) -> Optional[Match[bytes]]:
    """Returns the hash in an answer, or None if the answer isn't to this line."""
    if line is None:
        return None
    name = name_of(line) + b":"
    return HASH.fullmatch(answer[len(name) :]) if answer.startswith(name) else None


def parts_of(found: Match[bytes], policy: Policy) -> Parts:
    """Returns what a hash has in common with others of its run."""
    setting, salt, digest = found.groups()
    return Parts(setting, salt if policy.setting else b"", len(salt), len(digest))


def is_same_hash(found: Match[bytes], line: Line, policy: Policy) -> bool:
    """Returns whether hashing the line again, with the old hash's salt, gives the same hash."""
    try:
        setting = policy.setting or library.setting(policy.method, policy.rounds, found[2])
    except library.RefusedSalt:
        return False
    password = line.data.partition(b":")[2]
    return run_in_thread(lambda: library.hash_by(password, setting, policy.budget)) == found[0]


def in_groups(lines: Iterable[Line]) -> Iterator[List[Line]]:
    """Yields lines in groups."""
    lines = iter(lines)
    group = list(itertools.islice(lines, LINES_TOGETHER))
    while group:
        yield group
        group = list(itertools.islice(lines, LINES_TOGETHER))

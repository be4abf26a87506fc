"""Reads a password file, finds the line of a name, and changes lines in its content."""

from __future__ import annotations

import contextlib
import os
import re
from collections.abc import Iterator
from typing import List, NamedTuple, Optional

from pwhash.errors import UsageError
from pwhash.field import Field, field_of
from pwhash.place import Place, refuse_strange_file

READ_FLAGS = os.O_RDONLY | os.O_CLOEXEC | os.O_NOCTTY | os.O_NONBLOCK | os.O_NOFOLLOW
PIECE = 1 << 20
MAX_BYTES = 1 << 30
CARRIAGE_RETURN = "a carriage return at its end, which some services ignore (tr -d '\\r')"


class Entry(NamedTuple):
    """Where the line of a name and its field are in a file: offsets in bytes."""

    number: int
    begin: int
    end: int  # after the line feed
    field_begin: int
    field_end: int
    field: Field


class OddLine(NamedTuple):
    """The number of a malformed line in a password file, and what is wrong with it."""

    number: int
    reason: str


class Opened(NamedTuple):
    """An open file, its status before it was read, and its content."""

    fd: int
    status: os.stat_result
    content: bytes


@contextlib.contextmanager
def opened(place: Place) -> Iterator[Opened]:
    """Opens the file for the block, and reads all of it."""
    fd = os.open(place.name, READ_FLAGS, dir_fd=place.folder)
    try:
        status = os.fstat(fd)
        refuse_strange_file(place, status)
        yield Opened(fd, status, read_all(fd, status, place.display_name))
    finally:
        os.close(fd)


def read_all(fd: int, status: os.stat_result, file_name: str) -> bytes:
    """Returns all bytes of an open file. Refuses one that is too large for a password file."""
    if status.st_size > MAX_BYTES:
        raise UsageError(f"{file_name} has more than 1 GiB, as no password file has.")
    pieces: List[bytes] = []
    piece = os.read(fd, PIECE)
    while piece:
        pieces.append(piece)
        piece = os.read(fd, PIECE)
    return b"".join(pieces)


def find(content: bytes, name: bytes, file_name: str) -> Optional[Entry]:
    """Finds the line of a name, or returns None.

    Refuses a name with several lines, one with a blank beside it, and a line that ends with a
    carriage return: some services ignore these, and others don't.
    """
    blanks = rb"[ \t\r\f\v]*"
    pattern = rb"(?m)^(%b)%b(%b):([^:\n]*)[^\n]*\n?" % (blanks, re.escape(name), blanks)
    found = list(re.finditer(pattern, content))
    if not found:
        return None
    numbers = [1 + content.count(b"\n", 0, each.start()) for each in found]
    for number, each in zip(numbers, found):
        if each[1] or each[2]:
            raise UsageError(
                f"{file_name}, line {number} has a blank beside the name, for which some services "
                "let it in and others don't. Remove the blank with an editor."
            )
        if each[0].rstrip(b"\n").endswith(b"\r"):
            raise UsageError(f"{file_name}, line {number}: {CARRIAGE_RETURN}.")
    if len(found) > 1:
        raise UsageError(
            f"{file_name} has the name twice, in lines {numbers[0]} and {numbers[1]}, of which "
            "services take one or the other. Remove one with an editor."
        )
    first = found[0]
    return Entry(numbers[0], *first.span(), *first.span(3), field_of(first[3]))


def with_field(content: bytes, entry: Entry, field: Field) -> bytes:
    """Returns the content with another field in a line."""
    return content[: entry.field_begin] + field.data() + content[entry.field_end :]


def without_line(content: bytes, entry: Entry) -> bytes:
    """Returns the content without a line."""
    return content[: entry.begin] + content[entry.end :]


def with_line(content: bytes, line: bytes) -> bytes:
    """Returns the content with one more line."""
    if content and not content.endswith(b"\n"):
        content += b"\n"
    return content + line + b"\n"


def common_prefix(content: bytes) -> bytes:
    """Returns the prefix that all fields have, or nothing."""
    fields = re.findall(rb"(?m)^[^#:\n][^:\n]*:([^:\n]*)", content)
    prefixes = {field_of(each).prefix for each in fields}
    return prefixes.pop() if len(prefixes) == 1 else b""


def first_odd_line(content: bytes) -> Optional[OddLine]:
    """Returns the first line that isn't name:field, a comment or blank, or None."""
    for number, line in enumerate(content.split(b"\n"), 1):
        if line.strip() and not line.startswith(b"#"):
            reason = describe_odd_line(line)
            if reason is not None:
                return OddLine(number, reason)
    return None


def describe_odd_line(line: bytes) -> Optional[str]:
    """Says why a line isn't name:field, or returns None."""
    name, colon, field = line.partition(b":")
    if not colon:
        return "no colon, as each line of a password file has one"
    if name[:1].isspace() or field[:1].isspace():
        return "a blank before the name or after the colon, as no line of a password file has one"
    if line.endswith(b"\r"):
        return CARRIAGE_RETURN
    return None

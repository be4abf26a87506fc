"""The lines of a run, and the rules that each line has to follow.

The rules, their order and their messages are those of mkpasswd, which reads the same lines.
"""

from __future__ import annotations

from typing import Iterator, List, NamedTuple, Optional, Tuple

from pwhash import library
from pwhash.library import Refusal

BYTE_ORDER_MARK = b"\xef\xbb\xbf"
LONGEST_LINE, LONGEST_NAME = 2048, 64  # bytes

LINE_TOO_LONG = Refusal("line too long")
NO_NAME = Refusal("no name")
NAME_TOO_LONG = Refusal("name too long")
NO_PASSWORD = Refusal("no password field")


class Line(NamedTuple):
    """A line of the input with its number, or the line that a row of a table stands for."""

    number: int
    data: bytes  # without the line feed; only the name if the row is refused
    refused_row: Optional[str] = None  # why pwhash refuses the row
    group: bytes = b""  # the row's value in the column of --by
    others: Tuple[bytes, ...] = ()  # its values in the columns of --list-columns


class FieldsToCheck(NamedTuple):
    """The fields of a line name:field:password."""

    name: bytes
    stored: bytes
    password: bytes


# In Python 3.8 an alias can't use the classes of collections.abc, since it is evaluated.
#
# Lines in the order of the input, in groups that arrived together. An empty group means that
# nothing arrived for a moment, so that finished answers can be written.
LineGroups = Iterator[List[Line]]


def name_of(line: Line) -> bytes:
    """Returns what is before the first colon."""
    return line.data.partition(b":")[0]


def refused_name(data: bytes) -> Optional[Refusal]:
    """Returns why a line is refused for its length or its name, or None."""
    if len(data) > LONGEST_LINE:
        return LINE_TOO_LONG
    name = data.partition(b":")[0]
    if not name:
        return NO_NAME
    return NAME_TOO_LONG if len(name) > LONGEST_NAME else None


def refused_to_hash(data: bytes) -> Optional[Refusal]:
    """Returns the first rule that a line name:password breaks, apart from the budget, or None."""
    refusal = refused_name(data)
    if refusal is not None:
        return refusal
    _, colon, password = data.partition(b":")
    return library.refused_password(password) if colon else NO_PASSWORD


def fields_to_check(data: bytes) -> Optional[FieldsToCheck]:
    """Returns the fields of a line name:field:password, or None if one is missing."""
    fields = data.split(b":", 2)
    return FieldsToCheck(*fields) if len(fields) == 3 else None

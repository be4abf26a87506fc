"""Reads the stored field of each name in a file such as /etc/shadow, line by line."""

from __future__ import annotations

import os
import stat
from typing import Iterator, NamedTuple

from pwhash.console import Console
from pwhash.errors import UsageError, errors_named
from pwhash.field import encoded_value
from pwhash.source import open_in_time, refuse_as_output
from pwhash.text import display_name

LONGEST_LINE = 1 << 17  # bytes
COMMENT = b"#"  # in the files of services; glibc skips such lines of /etc/shadow, too


class Stored(NamedTuple):
    """The number, name and field of a line name:field. A second colon ends the field.

    A line of LDIF such as userPassword:: e1NTSEF9.. has its value as the field.
    """

    number: int
    name: bytes
    field: bytes


def stored_in(path: str, console: Console) -> Iterator[Stored]:
    """Yields all lines of a file that have a colon, except comments."""
    name_of_file = display_name(path)
    has_fields = False
    with errors_named(name_of_file), open(open_fields(path), "rb") as file:
        refuse_as_output(os.fstat(file.fileno()), name_of_file, console)
        number, line = 1, file.readline(LONGEST_LINE)
        while line:
            if len(line) == LONGEST_LINE:
                raise UsageError(
                    f"{name_of_file}, line {number}: longer than 128 KiB, "
                    "which no line name:field is."
                )
            name, colon, rest = line.rstrip(b"\n").partition(b":")
            if colon and not name.startswith(COMMENT):
                has_fields = True
                yield Stored(number, name, encoded_value(rest) or rest.partition(b":")[0])
            number, line = number + 1, file.readline(LONGEST_LINE)
    if not has_fields:
        raise UsageError(f"{name_of_file} has no line name:field.")


def open_fields(path: str) -> int:
    """Opens a file, or a pipe with a writer, such as a shell's <(..)."""
    fd = open_in_time(path)
    kind = os.fstat(fd).st_mode
    if stat.S_ISREG(kind) or stat.S_ISFIFO(kind):
        return fd
    what = "a folder" if stat.S_ISDIR(kind) else "no file"
    raise UsageError(f"{display_name(path)} is {what}. Name a file with lines name:field.")

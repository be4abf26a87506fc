"""Reads standard input that isn't a terminal. Its first line is a password.

No line is read without a limit: an endless one, as from `yes | tr -d '\\n'`, ends the run.
"""

from __future__ import annotations

import math
import os
import time
from typing import Optional

from pwhash.console import Console
from pwhash.errors import UsageError, errors_named
from pwhash.library import LONGEST_PASSWORD, PASSWORD_TOO_LONG
from pwhash.options import Input
from pwhash.source import Source

PIECE = 1 << 16


class PipedLines:
    """The lines of standard input, as they come."""

    def __init__(self, console: Console) -> None:
        self._console = console
        self._source = Source(Input(None, counts_lines=False), console)
        self._data = b""  # that was read, and isn't returned yet
        self._is_end = False
        self._bytes_left = 0
        self._too_long = UsageError("")

    def limit(self, count: int, too_long: UsageError) -> None:
        """Ends the run with this error if the lines from here on have more bytes in all."""
        self._bytes_left, self._too_long = count, too_long

    def password(self) -> bytes:
        """Returns the first line, which is the password."""
        self.limit(LONGEST_PASSWORD, long_password_error())
        line = self.next()
        if line is None:
            raise UsageError("standard input is empty: its first line has to be the password.")
        return line

    def next(self) -> Optional[bytes]:
        """Waits for the next line, and returns it, or None at the end."""
        return self._next_until(math.inf)

    def next_within(self, seconds: float) -> Optional[bytes]:
        """Waits at most this long for the next line, and returns it, or None."""
        return self._next_until(time.monotonic() + seconds)

    def next_at_once(self) -> Optional[bytes]:
        """Returns the next line if it is there already, or None.

        Ignores the limit, since it reads at most one piece.
        """
        line = self._take_line()
        if line is None and not self._is_end:
            self._read()
            line = self._take_line()
        return line

    def warn_about_extra_lines(self, last: str) -> None:
        """Warns about further lines, which are ignored, if they are there already."""
        if self.next_at_once():
            self._console.say(f"lines of standard input after {last} are ignored.")

    def _next_until(self, end: float) -> Optional[bytes]:
        """Waits for the next line until this time of the monotonic clock."""
        line = self._take_line()
        while line is None and not self._is_end and time.monotonic() < end:
            self._refuse_longer(len(self._data))
            self._read()
            line = self._take_line()
        if line is not None:
            self._refuse_longer(len(line))
            self._bytes_left -= len(line) + 1
        return line

    def _refuse_longer(self, size: int) -> None:
        """Ends the run if a line of this size, or its beginning, is above the limit."""
        if size > self._bytes_left:
            raise self._too_long

    def _take_line(self) -> Optional[bytes]:
        """Returns the next line if all of it was read, or None."""
        line, line_feed, rest = self._data.partition(b"\n")
        is_last = self._is_end and bool(line)
        if not line_feed and not is_last:
            return None
        self._data = rest
        return line

    def _read(self) -> None:
        """Waits a moment for input or its end, and reads what is there."""
        if not self._source.is_ready():
            return
        with errors_named(self._source.name):
            piece = os.read(self._source.fd, PIECE)
        self._is_end = not piece
        self._data += piece


def long_password_error() -> UsageError:
    """Returns the error for a first line that is too long for a password."""
    return UsageError(
        f"{PASSWORD_TOO_LONG.message}: the first line of standard input has more than "
        f"{LONGEST_PASSWORD:,} bytes."
    )

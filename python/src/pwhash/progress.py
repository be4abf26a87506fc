"""The progress line on the terminal."""

from __future__ import annotations

import time

from pwhash.console import Console

FIRST_AFTER, INTERVAL = 1.0, 0.5  # seconds


class Progress:
    """Shows how far a run is, if the number of lines is known."""

    def __init__(self, console: Console, verb: str, total: int) -> None:
        self._console = console
        self._verb = verb
        self._total = total
        self._next = FIRST_AFTER
        self._first_line = 0  # the line at which the time below begins
        self._start = 0.0

    def reached(self, line: int) -> None:
        """Notes that the run has done this line, and updates the progress line now and then."""
        if not self._total:
            return
        if not self._start:  # the first lines are slow, while threads start: they don't count
            self._first_line, self._start = line, time.monotonic()
            return
        seconds = time.monotonic() - self._start
        line = min(line, self._total - 1)  # so that an unfinished run shows less than 100 %
        if seconds >= self._next and line > self._first_line:
            self._next = seconds + INTERVAL
            self._show(line, (line - self._first_line) / seconds)

    def end(self) -> None:
        """Clears the progress line."""
        self._console.clear_progress()

    def _show(self, line: int, rate: float) -> None:
        left = max(0, int((self._total - line) / rate))
        clock = f"{left // 3600}:{left // 60 % 60:02}:{left % 60:02} left"
        percent = f"{100 * line // self._total} %"
        lines = f"{line:,} of {self._total:,} lines"
        self._console.show_progress(
            f"{self._verb}: {lines}, {percent}, {rate:,.1f} a second, {clock}",
            f"{self._verb}: {percent}, {clock}",
        )

"""Leaves out lines because of what another file says about their names, and reports them."""

from __future__ import annotations

import abc

from pwhash.console import Console
from pwhash.lines import Line, LineGroups
from pwhash.shown_names import shown_line
from pwhash.source import Source
from pwhash.sure_names import SureNames
from pwhash.text import display_name

MAX_SHOWN = 20  # lines that are reported, unless a run only looks for problems


class Skipping(abc.ABC):
    """Leaves out lines. It reports them when they are read for the first time."""

    def __init__(self, path: str, source: Source, console: Console, shows_all: bool) -> None:
        self.path = path
        self.console = console
        self._source_name = source.name
        self._sure_names = SureNames(source.input)
        self._shows_all = shows_all
        self._is_reported = False
        self._left_out = 0

    @property
    @abc.abstractmethod
    def reason(self) -> str:
        """Why a line is left out: the end of a message that begins with the line."""

    @property
    @abc.abstractmethod
    def reason_of_all(self) -> str:
        """Why all of these lines are left out."""

    @abc.abstractmethod
    def skips(self, line: Line) -> bool:
        """Returns whether a line that may have a name is left out."""

    def name_to_show(self, line: Line) -> bytes:
        """Returns the name of a line for a message, or nothing if it may be a password."""
        return self._sure_names.find(line)

    @property
    def file(self) -> str:
        """The name of the other file for a message."""
        return display_name(self.path)

    def without(self, groups: LineGroups) -> LineGroups:
        """Yields the other lines. Reports those that are left out, the first time only."""
        for group in groups:
            kept = [line for line in group if not self._is_left_out(line)]
            if kept or not group:
                yield kept
        if not self._is_reported:
            self._is_reported = True
            self._report_count()

    def _report_count(self) -> None:
        """Says how many lines are left out, and how to see those that weren't shown."""
        if not self._left_out:
            return
        message = f"lines left out since {self.reason_of_all}: {self._left_out:,}."
        if self._left_out > MAX_SHOWN and not self._shows_all:
            message += f" The first {MAX_SHOWN} are shown, and all with --look."
        self.console.say(message)

    def _is_left_out(self, line: Line) -> bool:
        if b":" not in line.data and line.refused_row is None:
            return False  # the line may be a password
        is_left_out = self.skips(line)
        if is_left_out and not self._is_reported:
            self._show(line)
        return is_left_out

    def _show(self, line: Line) -> None:
        self._left_out += 1
        if self._shows_all or self._left_out <= MAX_SHOWN:
            where = shown_line(self._source_name, line.number, self.name_to_show(line))
            self.console.say(f"{where}: {self.reason}")

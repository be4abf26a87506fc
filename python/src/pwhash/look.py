"""Looks for problems in a file before any line is hashed."""

from __future__ import annotations

import re
from collections import Counter
from typing import Dict, List, Set

from pwhash import library
from pwhash.console import Console
from pwhash.doubts import Doubts
from pwhash.errors import ProblemsFound
from pwhash.library import OVER_BUDGET
from pwhash.lines import Line, LineGroups, refused_to_hash
from pwhash.options import Doubtful, FileOptions
from pwhash.progress import Progress
from pwhash.shown_names import shown_line
from pwhash.source import Source
from pwhash.sure_names import SureNames

MAX_SHOWN = 20  # of each kind, of lines that aren't left out


class Look:
    """Looks through a file, shows its problems, and finds the lines to leave out."""

    def __init__(self, source: Source, options: FileOptions, console: Console) -> None:
        self._source = source
        self._options = options
        self._console = console
        self._doubts = Doubts(options)
        self._sure_names = SureNames(options.input)
        self._counts: Counter[str] = Counter()
        self._hidden = 0  # problems that aren't shown
        self._has_lines = False  # whether --skip-locked and --skip-unknown leave any
        self._refused: Set[int] = set()
        self._doubtful: Set[int] = set()

    def left_out(self, groups: LineGroups) -> Set[int]:
        """Returns the numbers of the lines to leave out. Ends the run if the user has to decide."""
        progress = Progress(self._console, "looking", self._source.total)
        for group in groups:
            for line in group:
                self._look_at(line)
            if group:
                self._has_lines = True
                progress.reached(group[-1].number)
        progress.end()
        self._source.refuse_nothing()
        if not self._has_lines:
            raise ProblemsFound("nothing was hashed: no line is left.")
        self._stop_unless_decided()
        if self._options.doubtful is Doubtful.SKIP:
            self._refused |= self._doubtful
        if self._refused:
            count = len(self._refused)
            others = "can be" if self._options.only_look else "are"
            self._console.say(f"lines left out: {count:,}; all others {others} hashed.")
        return self._refused

    def _look_at(self, line: Line) -> None:
        refusal = refused_to_hash(line.data) if line.refused_row is None else None
        reason = refusal.message if refusal else line.refused_row
        if reason is not None:
            self._doubts.note_refused(line)
            self._refused.add(line.number)
            self._show(line, [reason], self._options.skip_refused)
            return
        doubts = self._doubts.find(line)
        if doubts:
            self._doubtful.add(line.number)
            self._show(line, doubts, self._options.doubtful is Doubtful.SKIP)
        length = len(line.data) - line.data.index(b":") - 1
        if library.is_over_budget(self._options.policy, length):
            self._doubts.note_refused(line)
            self._refused.add(line.number)
            limit = library.describe_length_limit(self._options.policy)
            reason = f"{OVER_BUDGET.message}: {limit}"
            self._show(line, [reason], self._options.skip_refused)

    def _show(self, line: Line, reasons: List[str], is_left_out: bool) -> None:
        """Shows the problems of a line: all if it is left out, and else MAX_SHOWN of each kind."""
        # Without a colon, or in a refused row, what stands first may be a password.
        is_named = b":" in line.data and line.refused_row is None
        name = self._sure_names.find(line) if is_named else b""
        where = shown_line(self._source.name, line.number, name)
        for reason in reasons:
            kind = re.sub("[0-9]+", "", reason)  # the reason, whatever line it names
            self._counts[kind] += 1
            if self._counts[kind] > 1:  # the first message of a kind says what to do
                reason = reason.partition(";")[0]
            if is_left_out or self._counts[kind] <= MAX_SHOWN:
                self._console.say(f"{where}: {reason}")
            else:
                self._hidden += 1

    def _stop_unless_decided(self) -> None:
        refused, doubtful = len(self._refused), len(self._doubtful)
        stops_for_refused = refused and not self._options.skip_refused
        stops_for_doubtful = doubtful and self._options.doubtful is Doubtful.STOP
        if stops_for_refused or stops_for_doubtful:
            self._say_what_is_hidden()
            raise ProblemsFound(f"nothing was hashed. Correct these lines, {self._remedies()}.")

    def _remedies(self) -> str:
        """Says which options leave out these lines, or accept them."""
        is_undecided = self._doubtful and self._options.doubtful is not Doubtful.ACCEPT
        counts: Dict[str, int] = {}
        if self._refused:
            counts["--skip-refused"] = len(self._refused)
        if is_undecided:
            counts["--skip-doubtful"] = len(self._doubtful)
        options = ", ".join(f"{count:,} with {option}" for option, count in counts.items())
        accepting = ", or hash all doubtful ones (--accept-doubtful)" if is_undecided else ""
        return f"or leave them out ({options}){accepting}"

    def _say_what_is_hidden(self) -> None:
        """Says how many problems aren't shown, and how to see them."""
        if self._hidden:
            refused = " --skip-refused" if self._refused else ""
            doubtful = " --skip-doubtful" if self._doubtful else ""
            self._console.say(
                f"{self._hidden:,} more like these aren't shown. To see all, add --look"
                f"{refused}{doubtful}."
            )

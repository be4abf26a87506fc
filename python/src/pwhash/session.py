"""The state of one run: its options, the files that it writes, and how it ends."""

from __future__ import annotations

import contextlib
import os
import signal
from collections.abc import Sequence
from typing import List, Optional

from pwhash.console import STDERR, STDIN, Console
from pwhash.errors import Status, Stop
from pwhash.options import CheckOptions, FileOptions, Options, part_of
from pwhash.part import Part
from pwhash.signals import Signals, die_of
from pwhash.text import printable_text, shell_quoted


class Session:
    """A run. If it ends early, it says why and how to continue."""

    def __init__(self, command: str, arguments: Sequence[str]) -> None:
        self.console = Console()
        self.signals = Signals(self._end_by_signal)
        self.options: Optional[Options] = None
        self.part: Optional[Part] = None
        self.changed: Optional[str] = None  # the password file, once it is replaced or created
        self._command = command
        self._arguments = arguments
        self._status_if_whole = Status.OK

    def finish(self, part: Part, has_problem: bool) -> None:
        """Makes the part OUT. From then on a signal doesn't change the exit status."""
        self._status_if_whole = Status.PROBLEM if has_problem else Status.OK
        part.finish(self.signals, self.console)

    def fail(self, stop: Stop) -> Status:
        """Says why the run ended, also on the terminal if standard error goes elsewhere."""
        lines = [f"pwhash: {printable_text(stop.sentence)}"]
        if stop.status is Status.FAILED:
            lines = self._with_instructions(lines[0], stop.advice)
        self.console.clear_progress()
        if stop.status is Status.FAILED and not os.isatty(STDERR):
            self.console.write_to_terminal("".join(f"{line}\n" for line in lines))
        with contextlib.suppress(Stop):  # if standard error is full, the exit status still tells
            self.console.write_lines(STDERR, [line.encode() for line in lines])
        return stop.status

    def _with_instructions(self, sentence: str, advice: str) -> List[str]:
        """Returns the sentence, and how to continue with OUT.part of this or an earlier run."""
        options = self.options
        if not has_part(options):
            return [sentence]
        advice = advice or (self.part.advice() if self.part else "")
        if advice:
            return [f"{sentence} {advice}"]
        if isinstance(options, FileOptions) and (self.part or options.resume):
            return [f"{sentence} To go on:", f"  {self._resume_command(options)}"]
        if self.part is None:
            return [sentence]
        return [f"{sentence} To start again, remove {self.part.name}."]

    def _resume_command(self, options: FileOptions) -> str:
        """Returns the command of this run, with --resume."""
        name, *rest = self._arguments  # --resume goes first, since there may be a -- in the rest
        resume = [] if options.resume else ["--resume"]
        command = " ".join(shell_quoted(word) for word in [self._command, name, *resume, *rest])
        if options.input.path is None:
            command += f" < {shell_quoted(os.readlink(f'/proc/self/fd/{STDIN}'))}"
        return command

    def _end_by_signal(self, number: signal.Signals) -> None:
        self.console.stop_waiting()
        if self.part is not None and self.part.is_whole:
            with contextlib.suppress(Stop):  # the exit status still tells
                self.console.say(f"{number.name} came after {self.part.out_name} was complete.")
            os._exit(self._status_if_whole)
        if self.changed is not None:
            with contextlib.suppress(Stop):
                self.console.say(f"{number.name} came after {self.changed} was changed.")
            os._exit(Status.OK)
        if self.part is not None:
            self.part.leave(is_wrong_use=False)
        self.fail(Stop(f"{number.name} ended the run."))
        die_of(number)


def has_part(options: Optional[Options]) -> bool:
    """Returns whether there is an OUT.part for these options, of this run or an earlier one."""
    if not isinstance(options, (FileOptions, CheckOptions)) or options.out is None:
        return False
    return os.path.lexists(part_of(options.out))

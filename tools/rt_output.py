"""Runs rt for tools/gate and tools/for-cpu, and handles its output.

All of it goes to build/log/NAME.log. The user sees rt's progress, a line for each crate, and the
first lines that say what fails. At a terminal a text replaces the previous one about the same
crate; elsewhere only the last text about a crate is printed.

A signal that asks a tool to end is forwarded to rt and interrupts nothing here, so that a tool can
put back what it moved once rt has ended.
"""

from __future__ import annotations

import collections
import contextlib
import os
import re
import shutil
import signal
import subprocess
import sys
from collections.abc import Callable, Iterable, Iterator
from dataclasses import dataclass
from pathlib import Path
from types import FrameType
from typing import BinaryIO

ROOT = Path(__file__).resolve().parent.parent
LOGS = ROOT / "build" / "log"

# Lines with which rt turns to a crate: "== prims_core", "rt: chose --jobs 4 for prims_core".
TURNS_TO_A_CRATE = re.compile(r"(?:== |rt: chose --jobs \d+ for )([a-z_0-9]+)")
# "crate prims_core: modules loaded=1578 checked=1963"
SUMS_UP_A_CRATE = re.compile(r"crate ([a-z_0-9]+): modules ")
# "so far: 18 of 91 functions checked"
COUNTS_FUNCTIONS = re.compile(r"(?:so far: |checked .*, )(\d+ of \d+)(?: functions|$)")
# "logic=proved functions=91 sum=dac8208d650f15bf .."
PROVES_A_CRATE = re.compile(r"logic=proved functions=(\d+)")
# "rt: must-fail prims_core/adds.edit: refused, as it must be: ./proofs/A.antt:1:2: error: .."
REFUSES_A_MUTANT = re.compile(r"rt: (must-fail .* refused, .*)")
# "rt: prims_core proved", "rt: prims_core is kept: ..", "rt: prims_core: trying its must-fail .."
IS_ABOUT_A_CRATE = re.compile(r"rt: ((?:waiting|[a-z_0-9]+(?::| is kept:| proved)).*)")
# "127 passed, 0 failed"
TOTAL = re.compile(r"\d+ passed, .*")
# What rt, and the programs that it runs, print if something fails: "src/lib.rt:1:2: error: ..",
# "rt: prims_core NOT PROVED", "thread 'main' panicked at .."
FAILURE = re.compile(
    r"(?:: |^)error|: no proof|: not proved$|must prove|NOT (?:PROVED|REFUSED|TRIED)|BAD EDIT"
    r"|FAILED|differ first|ended with status|panicked"
)
FAILURES_SHOWN = 20
LAST_LINES_SHOWN = 20  # of a failed run without a line that says what fails
LONGEST_FAILURE = 300  # characters

ENDING_SIGNALS = (signal.SIGINT, signal.SIGTERM, signal.SIGHUP, signal.SIGQUIT)

Listener = Callable[[str], None]  # gets each line that rt writes


class Stop(Exception):
    """A tool ends early. The text says why."""


@dataclass(frozen=True)
class Command:
    """A command of rt, and the name of its log."""

    words: tuple[str, ...]
    folder: Path
    log: str  # the name of the log, without .log
    # Matches a line after which neither rt's status nor later lines matter.
    enough: re.Pattern[str] | None = None

    def is_enough(self, line: str) -> bool:
        """Returns whether nothing that rt does after this line matters."""
        return self.enough is not None and self.enough.search(line) is not None


def program_of_rt() -> str:
    """Returns the path of rt, which RT in the environment can name."""
    name = os.environ.get("RT") or "rt"
    found = shutil.which(name)
    if found is None:
        raise Stop(f"{name} is no program: put the toolchain's rt on the PATH, or its path in RT")
    return os.path.abspath(found)


def shown_path(path: Path) -> str:
    """Returns a path of this tree relative to its root."""
    return os.path.relpath(path, ROOT)


def say(text: str) -> None:
    """Prints a text at once. A character outside the encoding appears as its code."""
    encoding = sys.stdout.encoding or "utf-8"
    try:
        print(text.encode(encoding, "backslashreplace").decode(encoding), end="", flush=True)
    except OSError as error:
        # Otherwise Python, when it exits, would try to print the rest again, and fail with a
        # traceback.
        os.dup2(os.open(os.devnull, os.O_WRONLY), sys.stdout.fileno())
        raise Stop(f"standard output: {error.strerror}") from None


class Signals:
    """Forwards the signals that ask a tool to end to rt, and remembers the first one."""

    def __init__(self) -> None:
        self.received: signal.Signals | None = None
        self._process: subprocess.Popen[bytes] | None = None

    def catch(self) -> None:
        """Catches the signals from now on. Ignored ones stay ignored, as nohup needs."""
        handlers = {number: self._end for number in ENDING_SIGNALS}
        for number, handler in {**handlers, signal.SIGTSTP: self._pause}.items():
            if signal.getsignal(number) is not signal.SIG_IGN:
                signal.signal(number, handler)

    @contextlib.contextmanager
    def going_to(self, process: subprocess.Popen[bytes]) -> Iterator[None]:
        """Forwards the signals to a process and its group while the block runs."""
        self._process = process
        if self.received is not None:  # before there was a process
            self._send(self.received)
        try:
            yield
        finally:
            self._process = None

    def _send(self, number: signal.Signals) -> None:
        if self._process is not None and self._process.returncode is None:
            with contextlib.suppress(ProcessLookupError):
                os.killpg(self._process.pid, number)

    def _end(self, number: int, _frame: FrameType | None) -> None:
        self.received = self.received or signal.Signals(number)
        self._send(signal.Signals(number))

    def _pause(self, _number: int, _frame: FrameType | None) -> None:
        """Stops rt with this tool, since the terminal's ^Z only reaches the tool."""
        self._send(signal.SIGTSTP)
        signal.signal(signal.SIGTSTP, signal.SIG_DFL)
        os.kill(os.getpid(), signal.SIGTSTP)  # returns when the tool is continued
        signal.signal(signal.SIGTSTP, self._pause)
        self._send(signal.SIGCONT)


class Log:
    """The file with rt's output. If it can't be written any more, rt goes on."""

    def __init__(self, file: BinaryIO, name: str) -> None:
        self.problem = ""  # why the file is incomplete
        self._file = file
        self._name = name

    def write(self, line: bytes) -> None:
        """Writes a line at once, so that a user can follow the file."""
        if self.problem:
            return
        try:
            self._file.write(line)
            self._file.flush()
        except OSError as error:
            self.problem = f"{self._name} lacks some of what rt wrote: {error.strerror}"

    def close(self) -> None:
        """Closes the file."""
        with contextlib.suppress(OSError):  # write() has reported it
            self._file.close()

    def __str__(self) -> str:
        return self.problem or f"All that rt wrote is in {self._name}"


@contextlib.contextmanager
def new_log(path: Path) -> Iterator[Log]:
    """Creates a log, in place of an earlier one."""
    try:
        path.parent.mkdir(parents=True, exist_ok=True)
        file = open(path, "wb")
    except OSError as error:
        raise Stop(f"{shown_path(path)}: {error.strerror}") from None
    log = Log(file, shown_path(path))
    try:
        yield log
    finally:
        log.close()


def progress_in(line: str, crate: str) -> str:
    """Returns the progress in a line, if there is any. Counts are of rt's current crate."""
    if TURNS_TO_A_CRATE.match(line):
        return f"{crate}: rt checks it"
    counted = COUNTS_FUNCTIONS.match(line)
    if counted:
        return f"{crate}: {counted[1]} functions checked"
    proved = PROVES_A_CRATE.match(line)
    if proved:
        return f"{crate}: {proved[1]} functions proved, then compiled"
    refused = REFUSES_A_MUTANT.match(line)
    return refused[1] if refused else ""


class Display:
    """Shows rt's progress, and what fails."""

    def __init__(self) -> None:
        self.failures = 0
        self._is_terminal = sys.stdout.isatty()
        self._crate = "rt"  # until rt names one
        self._subject = ""
        self._text = ""

    def show_line(self, line: str) -> None:
        """Shows a line of rt if it matters."""
        crate = TURNS_TO_A_CRATE.match(line) or SUMS_UP_A_CRATE.match(line)
        if crate:
            self._crate = crate[1]
        progress = progress_in(line, self._crate)
        if progress:
            self._show_progress(progress)
        elif FAILURE.search(line):
            self._show_failure(line)
        elif TOTAL.match(line):
            self._show_progress(line)
        else:
            about_a_crate = IS_ABOUT_A_CRATE.match(line)
            if about_a_crate:
                self._show_progress(about_a_crate[1])

    def end_line(self) -> None:
        """Ends the line of progress, so that another text can follow."""
        if self._text:
            say("\n" if self._is_terminal else f"{self._text}\n")
        self._subject = self._text = ""

    def _show_progress(self, text: str) -> None:
        subject = re.split("[: ]", text, maxsplit=1)[0]
        if subject != self._subject:
            self.end_line()
        self._subject, self._text = subject, text
        if self._is_terminal:
            columns = shutil.get_terminal_size().columns
            say(f"\r\033[K{text[:columns - 1]}")

    def _show_failure(self, line: str) -> None:
        self.failures += 1
        if self.failures <= FAILURES_SHOWN:
            self.end_line()
            say(f"{line[:LONGEST_FAILURE]}\n")


@contextlib.contextmanager
def started(command: Command, signals: Signals) -> Iterator[subprocess.Popen[bytes]]:
    """Starts rt, and waits for its end after the block, however the block ends.

    rt has its own session. Otherwise the terminal's ^C would reach it twice: from the terminal and
    from this tool.
    """
    try:
        process = subprocess.Popen(
            command.words,
            cwd=command.folder,
            stdin=subprocess.DEVNULL,
            stdout=subprocess.PIPE,
            stderr=subprocess.STDOUT,
            start_new_session=True,
        )
    except OSError as error:
        raise Stop(f"{error.filename}: {error.strerror}") from None
    with signals.going_to(process), process:
        try:
            yield process
        except BaseException:
            with contextlib.suppress(ProcessLookupError):
                os.killpg(process.pid, signal.SIGTERM)
            process.communicate()  # rt may still write while it ends
            raise


def lines_of(process: subprocess.Popen[bytes], log: Log) -> Iterator[str]:
    """Yields each line from rt, after writing it to the log."""
    assert process.stdout is not None
    for line in process.stdout:
        log.write(line)
        yield line.decode("utf-8", "replace").rstrip("\n")


def nobody(_line: str) -> None:
    """Ignores a line."""


def explain(code: int, display: Display, last_lines: Iterable[str]) -> None:
    """Prints what is known about a failed run, unless the display has shown it."""
    if display.failures == 0:
        say("".join(f"{line}\n" for line in last_lines))
    if code < 0:
        say(f"rt was ended by signal {-code} ({signal.strsignal(-code)})\n")


def run_rt(command: Command, signals: Signals, listener: Listener = nobody) -> int:
    """Runs rt, and returns its status as in a shell, or 0 after the line that is enough."""
    display = Display()
    last_lines: collections.deque[str] = collections.deque(maxlen=LAST_LINES_SHOWN)
    has_enough = False
    with new_log(LOGS / f"{command.log}.log") as log, started(command, signals) as process:
        for line in lines_of(process, log):
            listener(line)
            last_lines.append(line)
            if not has_enough:
                display.show_line(line)
                has_enough = command.is_enough(line)
        code = process.wait()  # negative if a signal ended rt
    display.end_line()
    if code == 0 or (code > 0 and has_enough):
        if log.problem:
            say(f"{log}\n")
        return 0
    if signals.received is None:
        explain(code, display, last_lines)
    say(f"{log}\n")
    return code if code > 0 else 128 - code


def status_of(tool: str, work: Callable[[Signals], int]) -> int:
    """Runs a tool's work, and returns the tool's exit status."""
    signals = Signals()
    signals.catch()
    try:
        status = work(signals)
    except Stop as stop:
        print(f"{tool}: {stop}", file=sys.stderr)
        status = 1
    if signals.received is None:
        return status
    print(f"{tool}: ended by {signals.received.name}", file=sys.stderr)
    return 128 + signals.received

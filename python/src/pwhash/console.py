"""The outputs of a run, and the progress line on the terminal.

All output is bytes, since names have no encoding. It isn't buffered, so that an error such as a
full disk or a closed pipe is raised at the line that is lost.
"""

from __future__ import annotations

import contextlib
import errno
import fcntl
import os
import select
import stat
import time
from collections.abc import Sequence
from typing import Optional

from pwhash.errors import Stop, reason_of
from pwhash.text import printable_text

STDIN, STDOUT, STDERR = 0, 1, 2
OUTPUT_NAMES = {STDOUT: "standard output", STDERR: "standard error"}
RETRY_SECONDS = 0.02
# How long an ending run waits for a reader, and how many bytes a ready pipe is sure to take.
LAST_MILLISECONDS = 100
LAST_BYTES = select.PIPE_BUF
CLEAR_LINE = "\r\x1b[K"


def open_terminal() -> Optional[int]:
    """Opens /dev/tty, if there is one and it is a terminal."""
    with contextlib.suppress(OSError):
        terminal = os.open("/dev/tty", os.O_RDWR | os.O_NOCTTY)
        if os.isatty(terminal):
            return terminal
        os.close(terminal)
    return None


class Console:
    """Writes answers and messages. Clears the progress line before them."""

    def __init__(self) -> None:
        self._shows_progress = False
        self._is_last = False

    def stop_waiting(self) -> None:
        """From here on, drops output that nobody reads soon, since the run is ending."""
        self._is_last = True

    def say(self, sentence: str) -> None:
        """Writes a message to standard error."""
        self.write_lines(STDERR, [f"pwhash: {printable_text(sentence)}".encode()])

    def write_lines(self, fd: int, lines: Sequence[bytes]) -> None:
        """Writes lines to standard output, standard error or a file.

        Failing to write to standard error doesn't end the run.
        """
        if not lines:
            return
        try:
            if not stat.S_ISREG(os.fstat(fd).st_mode):  # a terminal, or a pipe that leads to one
                self.clear_progress()
            self._write(fd, b"\n".join(lines) + b"\n")
        except OSError as error:
            if fd == STDERR:
                return
            if fd in OUTPUT_NAMES and error.errno != errno.EPIPE:
                raise Stop(f"{OUTPUT_NAMES[fd]}: {reason_of(error)}.") from None
            raise

    def write_to_terminal(self, text: str) -> bool:
        """Writes to the terminal, even if the outputs are redirected. Returns whether it did.

        It doesn't if there is no terminal, or if the process is in the background.
        """
        terminal = open_terminal()
        if terminal is None:
            return False
        try:
            if os.tcgetpgrp(terminal) != os.getpgrp():
                return False
            self._write(terminal, text.encode("utf-8", "surrogateescape"))
            return True
        except OSError:
            return False
        finally:
            os.close(terminal)

    def show_progress(self, text: str, short: str) -> None:
        """Shows a new progress line: the short text if the terminal is narrow."""
        columns = terminal_columns() - 1  # the last column is for the cursor
        line = text if len(text) <= columns else short[:columns]
        self._shows_progress = self.write_to_terminal(f"\r{line}\x1b[K")

    def clear_progress(self) -> None:
        """Clears the progress line, if there is one."""
        if self._shows_progress:
            self._shows_progress = False
            self.write_to_terminal(CLEAR_LINE)

    def end_last_line(self, fd: int) -> None:
        """Ends the last line of a file that >> appends to, so that answers begin a new one."""
        status = os.fstat(fd)
        is_added_to = fcntl.fcntl(fd, fcntl.F_GETFL) & os.O_APPEND
        if not stat.S_ISREG(status.st_mode) or not is_added_to or not status.st_size:
            return
        if last_byte(fd) != b"\n":
            self.write_lines(fd, [b""])

    def silence_errors(self) -> None:
        """Redirects standard error to /dev/null, so that nothing is added to a file."""
        os.dup2(os.open(os.devnull, os.O_WRONLY), STDERR)

    def _write(self, fd: int, data: bytes) -> None:
        """Writes all of the data, even if somebody has made the descriptor non-blocking."""
        while data:
            if self._is_last and not is_taken_at_once(fd):
                return
            piece = data[:LAST_BYTES] if self._is_last else data
            try:
                data = data[os.write(fd, piece) :]
            except BlockingIOError:
                time.sleep(RETRY_SECONDS)


def is_taken_at_once(fd: int) -> bool:
    """Returns whether a few bytes can be written soon."""
    poll = select.poll()
    poll.register(fd, select.POLLOUT)
    return bool(poll.poll(LAST_MILLISECONDS))


def terminal_columns() -> int:
    """Returns the width of the terminal, or 80 if it is unknown."""
    terminal = open_terminal()
    if terminal is None:
        return 80
    try:
        return os.get_terminal_size(terminal).columns or 80
    except OSError:
        return 80
    finally:
        os.close(terminal)


def last_byte(fd: int) -> bytes:
    """Returns the last byte of a file that is open for writing, or a line feed if unreadable."""
    try:
        with open(f"/proc/self/fd/{fd}", "rb") as file:
            file.seek(-1, os.SEEK_END)
            return file.read()
    except OSError:
        return b"\n"

"""Reads lines from a file or a pipe as they come, and notices if a file changes."""

from __future__ import annotations

import os
import select
import signal
import stat
from collections.abc import Iterator
from typing import List, NoReturn, Optional

from pwhash.console import STDERR, STDIN, STDOUT, Console
from pwhash.errors import Stop, UsageError, errors_named
from pwhash.lines import BYTE_ORDER_MARK, Line, LineGroups
from pwhash.options import Input
from pwhash.text import display_name, shell_quoted

PIECE = 1 << 18
LONGEST_LINE = 1 << 17  # in bytes; csv accepts no longer fields
# An unfinished line may still lose its byte order mark and its carriage return.
LONGEST_UNFINISHED = LONGEST_LINE + len(BYTE_ORDER_MARK) + 1
IDLE_MILLISECONDS = 20
SECONDS_UNTIL_WRITER = 3  # that a named pipe may take to get a writer
READ_TWICE = "-o and --look need a file, which can be read twice. Give its name, or leave them out."


class Source:
    """The input of a run. If it is a regular file, it can be read again, and its lines counted."""

    def __init__(self, wanted: Input, console: Console, is_read_twice: bool = False) -> None:
        self.input = wanted
        self.name = "standard input" if wanted.path is None else display_name(wanted.path)
        self.fd = STDIN if wanted.path is None else open_file(wanted.path, is_read_twice)
        self.initial_status = os.fstat(self.fd)
        self.is_regular = stat.S_ISREG(self.initial_status.st_mode)
        self.has_lines = False
        self.separator = ","  # between the columns of a table; known once it is read
        self._refuse_unfit(is_read_twice)
        refuse_as_output(self.initial_status, self.name, console)
        if os.isatty(self.fd):
            console.say("reading lines from the terminal, which shows them; Ctrl-D ends them.")
        # Standard input can be a file whose beginning another program has read.
        self._start = os.lseek(self.fd, 0, os.SEEK_CUR) if self.is_regular else 0
        # With a total of 0, no progress is shown.
        self.total = self._count() if self.is_regular and wanted.counts_lines else 0

    def lines(self) -> LineGroups:
        """Yields all lines from the beginning. Ends the run at a line above 128 KiB."""
        if self.is_regular:
            os.lseek(self.fd, self._start, os.SEEK_SET)
        first, rest, is_end = 1, b"", False
        while not is_end:
            if not self.is_ready():
                yield []
                continue
            with errors_named(self.name):
                piece = os.read(self.fd, PIECE)
            is_end = not piece
            *whole, rest = (rest + piece).split(b"\n")
            if is_end and rest:  # the last line, without a line feed
                whole.append(rest)
            yield self._numbered(whole, first)
            first += len(whole)
            if len(rest) > LONGEST_UNFINISHED:  # and perhaps endless
                raise self._long_line_error(first)

    def is_ready(self) -> bool:
        """Waits a moment for input or its end, and returns whether either came."""
        poll = select.poll()
        poll.register(self.fd, select.POLLIN)
        return bool(poll.poll(IDLE_MILLISECONDS))

    def path_for_shell(self) -> str:
        """Returns a name of the file for a shell."""
        path = self.input.path
        return shell_quoted(os.readlink(f"/proc/self/fd/{STDIN}") if path is None else path)

    def refuse_nothing(self) -> None:
        """Refuses an empty file, which is a mistake such as `pwhash file list > list`."""
        if not self.has_lines:
            raise UsageError(f"{self.name} has no lines.")

    def change(self) -> Optional[str]:
        """Says what has changed about the file since it was opened, or returns None.

        It ignores the ctime, which chmod and a new link change too.
        """
        if not self.is_regular:
            return None
        try:
            now = os.fstat(self.fd) if self.input.path is None else os.stat(self.input.path)
        except OSError:
            return "it is gone"
        # A here-document never has a name.
        lost_its_name = now.st_nlink == 0 and self.initial_status.st_nlink != 0
        if lost_its_name or not os.path.samestat(now, self.initial_status):
            return "another file took its place"
        if now.st_size != self.initial_status.st_size:
            return "its size"
        return "its time" if now.st_mtime_ns != self.initial_status.st_mtime_ns else None

    def _refuse_unfit(self, is_read_twice: bool) -> None:
        """Refuses a folder, and a pipe that would have to be read twice."""
        if stat.S_ISDIR(self.initial_status.st_mode):
            # process.py opens a folder as standard input if the caller has closed that.
            closed = "closed, or " if self.input.path is None else ""
            raise Stop(f"{self.name} is {closed}a folder.")
        if is_read_twice and not self.is_regular:
            raise UsageError(READ_TWICE)

    def _numbered(self, data: List[bytes], first: int) -> List[Line]:
        if self.input.windows or self.input.columns is not None:  # Excel is a program of Windows
            data = [without_signs_of_windows(line) for line in data]
        if max(map(len, data), default=0) > LONGEST_LINE:
            lengths = enumerate(map(len, data), first)
            raise self._long_line_error(next(n for n, size in lengths if size > LONGEST_LINE))
        return [Line(number, line) for number, line in enumerate(data, first)]

    def _long_line_error(self, number: int) -> Stop:
        return Stop(f"{self.name}, line {number}: longer than 128 KiB, which no line may be.")

    def _count(self) -> int:
        with errors_named(self.name):
            count = sum(piece.count(b"\n") for piece in self._pieces())
            os.lseek(self.fd, self._start, os.SEEK_SET)
        return count

    def _pieces(self) -> Iterator[bytes]:
        """Yields what is in the file, up to a piece of a line that is too long."""
        piece = os.read(self.fd, PIECE)
        while piece and (len(piece) <= LONGEST_UNFINISHED or b"\n" in piece):
            yield piece
            piece = os.read(self.fd, PIECE)


def without_signs_of_windows(line: bytes) -> bytes:
    """Returns a line without its \\r, and without a byte order mark at its beginning."""
    if line.endswith(b"\r"):
        line = line[:-1]
    return line[len(BYTE_ORDER_MARK) :] if line.startswith(BYTE_ORDER_MARK) else line


def open_file(path: str, is_read_twice: bool) -> int:
    """Opens a file. A pipe that would have to be read twice is refused before it is opened."""
    with errors_named(display_name(path)):
        is_pipe = stat.S_ISFIFO(os.stat(path).st_mode)
        if is_pipe and is_read_twice:
            raise UsageError(READ_TWICE)
        return open_in_time(path) if is_pipe else os.open(path, os.O_RDONLY)


def open_in_time(path: str) -> int:
    """Opens a file. If it is a pipe, waits only a few seconds for a writer."""

    def give_up(*_: object) -> NoReturn:
        raise UsageError(f"{display_name(path)} is a pipe without a writer.")

    before = signal.signal(signal.SIGALRM, give_up)
    signal.alarm(SECONDS_UNTIL_WRITER)
    try:
        return os.open(path, os.O_RDONLY)
    finally:
        signal.alarm(0)
        signal.signal(signal.SIGALRM, before)


def refuse_as_output(status: os.stat_result, name: str, console: Console) -> None:
    """Refuses a file that is also an output of this run, which would then read what it writes."""
    if not stat.S_ISREG(status.st_mode) or not status.st_size:
        return
    if is_same_file(STDERR, status):
        sentence = f"{name} is standard error too. Write to another file."
        console.write_to_terminal(f"pwhash: {sentence}\n")
        console.silence_errors()  # so that the sentence isn't added to the file
        raise UsageError(sentence)
    if is_same_file(STDOUT, status):
        raise UsageError(f"{name} is standard output too. Write to another file.")


def is_same_file(fd: int, status: os.stat_result) -> bool:
    """Returns whether a descriptor is open on this file."""
    return os.path.samestat(os.fstat(fd), status)

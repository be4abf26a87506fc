"""The exceptions that end a run early, and the exit statuses of the manual."""

from __future__ import annotations

import contextlib
import enum
import errno
import os
from collections.abc import Iterator

# What a user can change or look at, by the errors of the system.
HINTS = {
    errno.EMFILE: " (ulimit -n)",
    errno.EFBIG: " (ulimit -f)",
    errno.EPERM: " (append-only or immutable? See lsattr)",
}


class Status(enum.IntEnum):
    """The exit statuses of the manual."""

    OK = 0
    PROBLEM = 1
    USAGE = 2
    FAILED = 3


class Stop(Exception):
    """Ends the run as a failure, with a sentence for the user.

    The advice says how to continue, if the same command with --resume wouldn't do that.
    """

    status = Status.FAILED

    def __init__(self, sentence: str, advice: str = "") -> None:
        super().__init__(sentence)
        self.sentence = sentence
        self.advice = advice


class UsageError(Stop):
    """The arguments, or the files or the password that they name, are wrong."""

    status = Status.USAGE


class ProblemsFound(Stop):
    """The input has problems, and the user has to decide what to do."""

    status = Status.PROBLEM


def reason_of(error: OSError) -> str:
    """Describes an error of the system, without the name of the file."""
    number = error.errno or 0
    return f"{os.strerror(number)}{HINTS.get(number, '')}"


@contextlib.contextmanager
def errors_named(name: str) -> Iterator[None]:
    """Turns an error of the system in the block into a Stop whose sentence begins with the name."""
    try:
        yield
    except OSError as error:
        raise Stop(f"{name}: {reason_of(error)}.") from None

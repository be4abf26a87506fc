"""Opens and creates files of this user's runs, and no others.

Somebody else who can write in the folder may have put another file or a link there, and root must
not read that.
"""

from __future__ import annotations

import os
import stat
from typing import Optional

from pwhash.errors import errors_named
from pwhash.folders import FileInFolder

# O_NONBLOCK is for a pipe that somebody put there: opening it doesn't wait for a writer.
FLAGS = os.O_RDWR | os.O_NOFOLLOW | os.O_NONBLOCK
OWN_MODE = 0o600


def find_problem(status: os.stat_result) -> Optional[str]:
    """Says why a file can't be from a run of this user, or returns None."""
    if stat.S_ISLNK(status.st_mode):
        return "it is a symbolic link"
    if not stat.S_ISREG(status.st_mode):
        return "it is no regular file"
    if status.st_uid != os.geteuid():
        return "it belongs to another user"
    if stat.S_IMODE(status.st_mode) != OWN_MODE:
        return f"its mode is {stat.S_IMODE(status.st_mode):04o}, not {OWN_MODE:04o}"
    return "it has another name too" if status.st_nlink != 1 else None


def create(file: FileInFolder) -> int:
    """Creates a file. Raises FileExistsError if there is a file or a link of that name."""
    fd = file.open(FLAGS | os.O_CREAT | os.O_EXCL, OWN_MODE)
    with errors_named(file.display_name):
        os.fchmod(fd, OWN_MODE)
    return fd


def has_name(fd: int, file: FileInFolder) -> bool:
    """Returns whether an open file has this name."""
    named_now = file.status()
    return named_now is not None and os.path.samestat(os.fstat(fd), named_now)

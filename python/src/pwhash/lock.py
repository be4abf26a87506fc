"""The lock of a password file: flock(2) of a file beside it. The lock file is never removed.

pam_mkpasswd(8) describes it. A login that renews a hash waits up to a second for the lock. pwhash
waits longer.
"""

from __future__ import annotations

import contextlib
import fcntl
import os
import stat
import time
from collections.abc import Iterator
from typing import NamedTuple, Optional

from pwhash.errors import Stop, errors_named
from pwhash.place import Place

MAX_WAIT_SECONDS = 10.0
PAUSE_SECONDS = 0.02
OWN_MODE = 0o600
# If a FIFO has the lock's name, O_NONBLOCK keeps the call from waiting.
FLAGS = os.O_RDONLY | os.O_CLOEXEC | os.O_NOFOLLOW | os.O_NONBLOCK | os.O_NOCTTY
NEW_FLAGS = os.O_RDWR | os.O_CREAT | os.O_EXCL | os.O_CLOEXEC | os.O_NOFOLLOW


class Owner(NamedTuple):
    """The owner and group of a file."""

    user: int
    group: int


@contextlib.contextmanager
def hold_lock(place: Place, owner: Owner) -> Iterator[None]:
    """Holds the lock during the block. A new lock file gets this owner, the password file's."""
    with errors_named(f"{place.display_name}.mkpasswd.lock"):
        lock = wait_for_lock(place, owner)
    try:
        yield
    finally:
        os.close(lock)


def wait_for_lock(place: Place, owner: Owner) -> int:
    """Waits for the lock, and returns its descriptor."""
    found = place.status_of(place.lock)
    if found is not None and stat.S_ISLNK(found.st_mode):
        raise Stop(
            f"{place.display_name}.mkpasswd.lock is a symbolic link, which pwhash never makes. "
            "Look at it, and remove it."
        )
    end = time.monotonic() + MAX_WAIT_SECONDS
    lock = try_once(place, owner)
    while lock is None:
        if time.monotonic() > end:
            raise Stop(
                f"another process holds the lock {place.display_name}.mkpasswd.lock. "
                "Nothing was changed: try again."
            )
        time.sleep(PAUSE_SECONDS)
        lock = try_once(place, owner)
    return lock


def try_once(place: Place, owner: Owner) -> Optional[int]:
    """Returns the descriptor of the lock, or None if another process holds it."""
    lock = open_lock(place, owner)
    try:
        fcntl.flock(lock, fcntl.LOCK_EX | fcntl.LOCK_NB)
        named_now = place.status_of(place.lock)
        # If somebody has removed the file, another process may hold a new one.
        if named_now is not None and os.path.samestat(os.fstat(lock), named_now):
            return lock
    except BlockingIOError:
        pass
    except BaseException:
        os.close(lock)
        raise
    os.close(lock)
    return None


def open_lock(place: Place, owner: Owner) -> int:
    """Opens the lock file, or creates it."""
    with contextlib.suppress(FileNotFoundError):
        return os.open(place.lock, FLAGS, dir_fd=place.folder)
    try:
        lock = os.open(place.lock, NEW_FLAGS, OWN_MODE, dir_fd=place.folder)
    except FileExistsError:  # another process has just created it
        return os.open(place.lock, FLAGS, dir_fd=place.folder)
    # A service of that user can then take the lock even if the superuser was the first to change
    # the password file. Only the superuser can give the lock away, and nobody else needs to.
    with contextlib.suppress(OSError):
        os.fchown(lock, owner.user, owner.group)
    return lock

"""Replaces a password file with a new version, in the order of the steps in pam_mkpasswd(8).

Logins that renew a hash, and changes of passwords, can do the same at any moment.
"""

from __future__ import annotations

import contextlib
import errno
import os
import stat
from collections.abc import Iterator
from typing import Callable

from pwhash import password_file
from pwhash.errors import Stop, reason_of
from pwhash.exchange import Outcome, end_earlier_exchange, exchange_files
from pwhash.folders import SUPERUSER
from pwhash.lock import Owner, hold_lock
from pwhash.new_file import NewFile, copy_attributes, opened_new
from pwhash.password_file import Opened
from pwhash.place import Place, find_file
from pwhash.session import Session

MAX_TRIES = 8
NOT_PERMITTED = (
    "only its owner or the superuser can do this, and nobody if it or its folder is append-only or "
    "immutable (lsattr)"
)

# Returns the new content of a file with this content. Raises Stop if that can't be changed.
Change = Callable[[bytes], bytes]


def replace(place: Place, change: Change, session: Session) -> None:
    """Changes a file. If somebody else changes it meanwhile, starts again from their version."""
    status = find_file(place)
    with hold_lock(place, Owner(status.st_uid, status.st_gid)), errors_named_of(place):
        for _ in range(MAX_TRIES):
            # A signal that arrives meanwhile ends the run after the block.
            with session.signals.postponed():
                refuse_elsewhere(place, "Nothing was changed")
                if replace_once(place, change) is Outcome.DONE:
                    session.changed = place.display_name
                    refuse_elsewhere(place, "The change is in the old folder")
                    return
    raise Stop(f"others change {place.display_name} all the time. Nothing was changed: try again.")


def refuse_elsewhere(place: Place, what_was_done: str) -> None:
    """Ends the run if services find another file by the path than the one that is changed."""
    if place.is_elsewhere():
        raise Stop(
            f"{place.display_name} is in another folder by now than when the run began. "
            f"{what_was_done}: try again."
        )


@contextlib.contextmanager
def errors_named_of(place: Place) -> Iterator[None]:
    """Turns an error of the system in the block into a Stop that says that the file stays."""
    try:
        yield
    except OSError as error:
        reason = reason_of(error)
        if error.errno == errno.EPERM and os.geteuid() != SUPERUSER:
            reason = f"{os.strerror(errno.EPERM)}: {NOT_PERMITTED}"
        raise Stop(f"{place.display_name}: {reason}. The file stays as it was.") from None


def replace_once(place: Place, change: Change) -> Outcome:
    """Reads the file, and puts the new version in its place."""
    end_earlier_exchange(place)
    with password_file.opened(place) as old:
        content = change(old.content)
        with opened_new(place) as new:
            return put_in_place(place, old, new, content)


def put_in_place(place: Place, old: Opened, new: NewFile, content: bytes) -> Outcome:
    """Writes the new file, and exchanges it for the old one."""
    try:
        new.write(content)
        copy_attributes(old.fd, new.fd)
        owner = Owner(old.status.st_uid, old.status.st_gid)
        new.give(owner, stat.S_IMODE(old.status.st_mode))
        status = new.status()
        new.link_as_new()
    except BaseException:
        new.remove()
        raise
    outcome = exchange_files(place, old.status, status)
    if outcome is Outcome.DONE:
        place.sync()
    return outcome

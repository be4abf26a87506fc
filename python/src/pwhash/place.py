"""Where a password file is: its folder, and the names of the files that replace it there."""

from __future__ import annotations

import contextlib
import errno
import os
import stat
from collections.abc import Iterator
from typing import Optional, Set

from pwhash import system
from pwhash.errors import UsageError, errors_named
from pwhash.folders import (
    SUPERUSER,
    FileInFolder,
    Rule,
    open_folder,
    refuse_untrusted,
    sync_folder,
)
from pwhash.text import display_name, shell_quoted

AS_SUPERUSER = "Run pwhash as its owner or as the superuser, with sudo for example."


class Place(FileInFolder):
    """A password file, and the names of the files beside it."""

    @property
    def lock(self) -> str:
        """The name of the lock file."""
        return f"{self.name}.mkpasswd.lock"

    @property
    def new(self) -> str:
        """The name of the new file before the exchange, and of the old one after it."""
        return f"{self.name}.mkpasswd.new"

    @property
    def note(self) -> str:
        """The name of the link that says which files are exchanged."""
        return f"{self.name}.mkpasswd.exchange"

    def status_of(self, name: str) -> Optional[os.stat_result]:
        """Returns the status of another file in the folder, or None if there is none."""
        return FileInFolder(self.path, self.folder, name).status()

    def is_elsewhere(self) -> bool:
        """Returns whether the path leads to another folder by now, as after a link was switched."""
        path = os.path.dirname(self.path) or "."
        try:
            return not os.path.samestat(os.stat(path), os.fstat(self.folder))
        except OSError:
            return True

    def sync(self) -> None:
        """Flushes the names in the folder to disk, if the file system supports that."""
        with contextlib.suppress(OSError):
            sync_folder(self.folder)


@contextlib.contextmanager
def open_place(path: str) -> Iterator[Place]:
    """Opens the folder of a password file. Refuses to run set-user-ID or set-group-ID."""
    refuse_set_id()
    folder, name = os.path.split(path)
    if name in ("", ".", ".."):
        raise UsageError(f"{display_name(path)} is a folder. Name a password file.")
    with errors_named(display_name(path)):
        # The file's owner isn't known yet, so a link of theirs isn't followed.
        descriptor = open_folder(folder, rule_of(path, {SUPERUSER, os.geteuid()}))
    try:
        yield Place(path, descriptor, name)
    finally:
        os.close(descriptor)


def refuse_set_id() -> None:
    """Refuses to run with the rights of a user or group other than the caller's."""
    if len(set(os.getresuid())) != 1 or len(set(os.getresgid())) != 1:
        raise UsageError(
            "a set-user-ID or set-group-ID program runs pwhash, which then changes no file. "
            "Let the superuser run it, with sudo for example."
        )


def find_file(place: Place) -> os.stat_result:
    """Returns the status of the file. Refuses a link, and anything but a regular file."""
    found = place.status()
    if found is None:
        raise UsageError(
            f"there is no {place.display_name}. If the name is right, make an empty one first, "
            "which the group of the service can read: install -m 640 -g GROUP /dev/null "
            f"{shell_quoted(place.path)}"
        )
    refuse_strange_file(place, found)
    return found


def refuse_strange_file(place: Place, found: os.stat_result) -> None:
    """Refuses a link, and anything but a regular file with a single name."""
    if stat.S_ISLNK(found.st_mode):
        target = os.path.realpath(place.path)
        raise UsageError(
            f"{place.display_name} is a symbolic link. Name the file: {display_name(target)}."
        )
    if stat.S_ISDIR(found.st_mode):
        raise UsageError(f"{place.display_name} is a folder. Name a password file.")
    if not stat.S_ISREG(found.st_mode):
        raise UsageError(f"{place.display_name} is no regular file.")
    if found.st_nlink > 1:
        raise UsageError(
            f"{place.display_name} has another name too (a hard link), which would keep the old "
            "file. Remove one of the names."
        )


def refuse_unwritable(place: Place) -> None:
    """Refuses a file that this user may not change. Called before pwhash asks for a password."""
    number = system.access_error(place.folder, place.name, os.R_OK | os.W_OK)
    if number:
        raise UsageError(
            f"you aren't allowed to write {place.display_name}. {write_advice(number, 'file')}"
        )
    refuse_folder_of_others(place)


def refuse_folder_of_others(place: Place) -> None:
    """Refuses a folder in which this user may not create files."""
    number = system.access_error(place.folder, ".", os.W_OK | os.X_OK)
    if number:
        raise UsageError(
            f"you aren't allowed to make files in the folder of {place.display_name}, where the "
            f"new version has to be. {write_advice(number, 'folder')}"
        )


def write_advice(number: int, what: str) -> str:
    """Returns what to do about a file or folder for which writing has this error."""
    if number == errno.EROFS:
        return f"The {what} is in a read-only file system."
    if number == errno.EPERM:  # whoever asks, except by rules such as SELinux's
        return f"Perhaps the {what} is immutable (lsattr)."
    if os.geteuid() == SUPERUSER:
        return f"Not even the superuser is: {os.strerror(number)}."
    return AS_SUPERUSER


def refuse_open_folder(place: Place, owner: int) -> None:
    """Refuses a folder that others can write, or that they can replace.

    The file's owner may write it, since they can change the file anyway.
    """
    refuse_untrusted(place.folder, rule_of(place.path, {SUPERUSER, os.geteuid(), owner}))


def rule_of(path: str, trusted: Set[int]) -> Rule:
    """Returns who may change the folder of a password file."""
    name = display_name(path)
    advice = (
        "Let only its owner write it (chmod go-w), or move the file to a folder that only its "
        "owner or the superuser can write."
    )
    return Rule(name, frozenset(trusted), advice, is_for_new_file=False)

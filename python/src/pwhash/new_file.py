"""Makes the new version of a password file, and flushes it to disk.

It gets the owner, the mode and the extended attributes of the old one; these hold ACLs and
security labels.
"""

from __future__ import annotations

import contextlib
import errno
import os
import stat
from collections.abc import Iterator
from typing import List, Optional

from pwhash.lock import Owner
from pwhash.place import Place

OWN_MODE = 0o600
NAMELESS = os.O_TMPFILE | os.O_RDWR | os.O_CLOEXEC
NAMED = os.O_CREAT | os.O_EXCL | os.O_NOFOLLOW | os.O_RDWR | os.O_CLOEXEC


class NewFile:
    """A new file. At first it has no name, if the file system supports that."""

    def __init__(self, place: Place) -> None:
        self._place = place
        self.has_name = False
        try:
            self.fd = open_nameless(place)
        except OSError:
            self.fd = os.open(place.new, NAMED, OWN_MODE, dir_fd=place.folder)
            self.has_name = True

    def write(self, content: bytes) -> None:
        """Writes all of the content."""
        rest = memoryview(content)
        while rest:
            rest = rest[os.write(self.fd, rest) :]

    def give(self, owner: Owner, mode: int) -> None:
        """Gives the file its owner and mode.

        It sets the owner first, since that clears bits of the mode. Then it checks the result,
        since the system may drop bits silently.
        """
        os.fchown(self.fd, owner.user, owner.group)
        os.fchmod(self.fd, mode)
        status = os.fstat(self.fd)
        if (status.st_uid, status.st_gid, stat.S_IMODE(status.st_mode)) != (*owner, mode):
            raise OSError(errno.EPERM, os.strerror(errno.EPERM))

    def status(self) -> os.stat_result:
        """Flushes the file to disk, and returns its status."""
        os.fsync(self.fd)
        return os.fstat(self.fd)

    def link(self, name: str) -> None:
        """Gives the file a name that no other file has."""
        # With dst_dir_fd, Python calls linkat, which can follow the symbolic link in /proc.
        source = f"/proc/self/fd/{self.fd}"
        os.link(source, name, dst_dir_fd=self._place.folder, follow_symlinks=True)

    def link_as_new(self) -> None:
        """Gives the file the name that the exchange uses."""
        if not self.has_name:
            self.link(self._place.new)
            self.has_name = True

    def remove(self) -> None:
        """Removes a file that was never exchanged."""
        if self.has_name:
            with contextlib.suppress(OSError):
                os.unlink(self._place.new, dir_fd=self._place.folder)


def open_nameless(place: Place) -> int:
    """Opens a file without a name. Fails without /proc, through which it would get one later."""
    fd = os.open(".", NAMELESS, OWN_MODE, dir_fd=place.folder)
    if not os.path.exists(f"/proc/self/fd/{fd}"):
        os.close(fd)
        raise OSError(errno.EOPNOTSUPP, os.strerror(errno.EOPNOTSUPP))
    return fd


@contextlib.contextmanager
def opened_new(place: Place) -> Iterator[NewFile]:
    """Opens a new file for the block."""
    new = NewFile(place)
    try:
        yield new
    finally:
        os.close(new.fd)


def copy_attributes(source: int, target: int) -> None:
    """Gives a file all extended attributes of another one, and no others.

    A new file may have inherited others from its folder, such as an ACL.
    """
    wanted = attributes(source)
    for name in attributes(target):
        if name not in wanted:
            os.removexattr(target, name)
    for name in wanted:
        value = os.getxattr(source, name)
        # If the file already has the value, as it may in the case of a label, setting it may be
        # forbidden.
        if value_of(target, name) != value:
            os.setxattr(target, name, value)


def attributes(fd: int) -> List[str]:
    """Returns the names of a file's extended attributes: none if the file system has none."""
    try:
        return os.listxattr(fd)
    except OSError as error:
        if error.errno != errno.ENOTSUP:
            raise
        return []


def value_of(fd: int, name: str) -> Optional[bytes]:
    """Returns the value of an attribute, or None if the file doesn't have it."""
    try:
        return os.getxattr(fd, name)
    except OSError:
        return None

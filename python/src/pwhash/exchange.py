"""Exchanges the new version of a password file for the old one, as pam_mkpasswd(8) describes.

The file that comes out keeps a name until the process knows which one it is. So no version is lost,
even if the process is killed in between.
"""

from __future__ import annotations

import contextlib
import enum
import errno
import os
import re
import stat
from typing import ContextManager, List, NamedTuple, Optional

from pwhash import system
from pwhash.errors import Stop, errors_named
from pwhash.place import Place

# Each exchange after the first is needed only if somebody changed the file between two calls.
MAX_EXCHANGES = 8
NO_EXCHANGE = (errno.EINVAL, errno.ENOSYS, errno.EOPNOTSUPP)
NOTE = re.compile("([0-9]+) ([0-9]+)")


class Outcome(enum.Enum):
    """The outcome of an exchange."""

    DONE = enum.auto()
    FILE_CHANGED = enum.auto()  # by somebody else, whose version stays


class Pair(NamedTuple):
    """The inodes of the two files that are exchanged."""

    old: int
    new: int


def exchange_files(place: Place, old: os.stat_result, new: os.stat_result) -> Outcome:
    """Exchanges the new file, already named, for the old one, unless that has changed."""
    pair = Pair(old.st_ino, new.st_ino)
    held: List[int] = []
    try:
        os.symlink(f"{pair.old} {pair.new}", place.note, dir_fd=place.folder)
        now = os.stat(place.name, dir_fd=place.folder, follow_symlinks=False)
        outcome = Outcome.FILE_CHANGED
        if is_untouched(now, old):
            outcome = exchange_until_expected(place, old, new, held)
    except BaseException:
        clean_up(place, pair, is_known=False)
        raise
    else:
        clean_up(place, pair, is_known=True)
        return outcome
    finally:
        for fd in held:
            os.close(fd)


def clean_up(place: Place, pair: Pair, is_known: bool) -> None:
    """Removes the file that came out, and then the note. If this fails, the next exchange does it.

    If it isn't known which file came out, the file may be somebody's version, so it stays.
    """
    with contextlib.suppress(OSError, Stop):
        if is_known:
            os.unlink(place.new, dir_fd=place.folder)
        else:
            remove_own_file(place, pair)
        os.unlink(place.note, dir_fd=place.folder)


def exchange_until_expected(
    place: Place, old: os.stat_result, new: os.stat_result, held: List[int]
) -> Outcome:
    """Exchanges the two files until the expected one comes out: at first the old one.

    If somebody's version comes out instead, the next exchange puts it back, and should take out the
    file that is in its place now. So the newest of their versions stays. The files that come out
    are held open: until one is closed, no new file can get its inode, by which the process knows
    it.
    """
    expected, in_place = old, new
    for _ in range(MAX_EXCHANGES):
        swap(place)
        out = os.stat(place.new, dir_fd=place.folder, follow_symlinks=False)
        flags = os.O_PATH | os.O_NOFOLLOW | os.O_CLOEXEC
        with contextlib.suppress(OSError):
            held.append(os.open(place.new, flags, dir_fd=place.folder))
        if is_unchanged(out, expected):
            is_done = os.path.samestat(in_place, new)
            return Outcome.DONE if is_done else Outcome.FILE_CHANGED
        expected, in_place = in_place, out
    raise OSError(errno.EBUSY, os.strerror(errno.EBUSY))


def swap(place: Place) -> None:
    """Exchanges the file that has the new file's name and the password file."""
    try:
        system.exchange(place.folder, place.new, place.name)
    except OSError as error:
        if error.errno in NO_EXCHANGE:
            raise Stop(
                f"the file system of {place.display_name} can't exchange two files, as NFS can't. "
                "The file stays as it was. Move it to a disk of this machine."
            ) from None
        if error.errno == errno.EBUSY:
            raise Stop(
                f"{place.display_name} is mounted by itself, as a container's volume can be, so no "
                "other file can take its place. The file stays as it was. Mount its folder instead."
            ) from None
        raise


def is_untouched(now: os.stat_result, before: os.stat_result) -> bool:
    """Returns whether a file is the same one, unchanged in every way, attributes included.

    This works only before an exchange, which sets the time of the last change (ctime).
    """
    return os.path.samestat(now, before) and now.st_ctime_ns == before.st_ctime_ns


def is_unchanged(now: os.stat_result, before: os.stat_result) -> bool:
    """Returns whether nobody has written to a file, or changed its owner or mode."""
    return version(now) == version(before)


def version(status: os.stat_result) -> "tuple[int, ...]":
    """Returns the parts of a status that an exchange doesn't change."""
    return (
        *(status.st_dev, status.st_ino, status.st_size, status.st_mtime_ns),
        *(status.st_mode, status.st_uid, status.st_gid),
    )


def end_earlier_exchange(place: Place) -> None:
    """Ends the exchange of a process that was killed."""
    refuse_obstacles(place)
    pair = read_note(place)
    if pair is None:  # so the new file was never in place
        with errors_of_new(place), contextlib.suppress(FileNotFoundError):
            os.unlink(place.new, dir_fd=place.folder)
        return
    put_back(place, pair)
    with errors_of_new(place):
        remove_own_file(place, pair)
    with errors_named(f"{place.display_name}.mkpasswd.exchange"):
        os.unlink(place.note, dir_fd=place.folder)


def errors_of_new(place: Place) -> ContextManager[None]:
    """Turns an error of the system in the block into a Stop that names the new file."""
    return errors_named(f"{place.display_name}.mkpasswd.new")


def refuse_obstacles(place: Place) -> None:
    """Refuses a folder where the new file has to be, and what isn't a link where the note has to.

    Called before pwhash asks for a password, too, and then without the lock.
    """
    new, note = place.status_of(place.new), place.status_of(place.note)
    if new is not None and stat.S_ISDIR(new.st_mode):
        raise Stop(
            f"{place.display_name}.mkpasswd.new is a folder, where the new version of the file has "
            "to be. Look at it, and move or remove it."
        )
    if note is not None and not stat.S_ISLNK(note.st_mode):
        raise strange_note_error(place)


def read_note(place: Place) -> Optional[Pair]:
    """Returns the two inodes in the note, or None if there is no note."""
    try:
        note = os.readlink(place.note, dir_fd=place.folder)
    except FileNotFoundError:
        return None
    found = NOTE.fullmatch(note)
    if found is None:
        raise strange_note_error(place)
    return Pair(int(found[1]), int(found[2]))


def strange_note_error(place: Place) -> Stop:
    """Returns the error for a note that isn't one."""
    return Stop(
        f"{place.display_name}.mkpasswd.exchange isn't a link that pwhash or pam_mkpasswd made. "
        "Look at it, and remove it."
    )


def put_back(place: Place, pair: Pair) -> None:
    """Puts back a file that was exchanged by mistake, if the new file is still in its place."""
    left, now = place.status_of(place.new), place.status()
    if left is None or now is None:
        return
    if left.st_ino not in pair and now.st_ino == pair.new:
        swap(place)


def remove_own_file(place: Place, pair: Pair) -> None:
    """Removes the old file after an exchange, or the new one if there was none, but no other."""
    left = place.status_of(place.new)
    if left is None:
        return
    if left.st_ino not in pair:
        raise Stop(
            f"{place.display_name}.mkpasswd.new is somebody's version of the file, left "
            "over where three changes collided. Look at it, and put it in place (mv) or remove it."
        )
    os.unlink(place.new, dir_fd=place.folder)

"""Replaces a field of a password file by the protocol in pam_mkpasswd(8), REPLACING A FIELD.

This module is written from the manual alone. It is also a command, so that a test can kill it:

    python3 replacing.py PATH NAME OLD-FIELD NEW-FIELD
"""
from __future__ import annotations

import contextlib
import ctypes
import errno
import fcntl
import os
import sys
import time
from collections.abc import Iterator
from pathlib import Path

RENAME_EXCHANGE = 2  # from linux/fs.h
AT_FDCWD = -100  # from fcntl.h: a relative path begins in the current folder
SECONDS = 1.0  # to wait for the lock
PAUSE = 0.01  # seconds between two attempts to take it

_library = ctypes.CDLL(None, use_errno=True)


class NotReplaced(Exception):
    """The field wasn't replaced. The text says why."""


def beside(path: Path, ending: str) -> Path:
    """Returns the path of one of the protocol's files."""
    return path.with_name(f"{path.name}.mkpasswd.{ending}")


def exchange(one: Path, other: Path) -> None:
    """Exchanges two files."""
    paths = (AT_FDCWD, bytes(one), AT_FDCWD, bytes(other))
    if _library.renameat2(*paths, RENAME_EXCHANGE) != 0:
        raise OSError(ctypes.get_errno(), "renameat2")


def is_same_file(one: os.stat_result, other: os.stat_result) -> bool:
    """Returns whether two results of stat(2) are of one file."""
    return (one.st_dev, one.st_ino) == (other.st_dev, other.st_ino)


def open_lock(path: Path) -> int:
    """Opens a password file's lock file, and creates it if necessary."""
    lock, flags = beside(path, "lock"), os.O_NOFOLLOW | os.O_CLOEXEC
    try:
        created = os.open(lock, os.O_RDWR | os.O_CREAT | os.O_EXCL | flags, 0o600)
    except FileExistsError:
        return os.open(lock, os.O_RDONLY | flags)
    owner = path.stat()
    os.fchown(created, owner.st_uid, owner.st_gid)
    return created


def try_lock(path: Path) -> int | None:
    """Takes the lock and returns its descriptor, or None if another process holds it."""
    lock = open_lock(path)
    try:
        fcntl.flock(lock, fcntl.LOCK_EX | fcntl.LOCK_NB)
        if is_same_file(os.fstat(lock), os.lstat(beside(path, "lock"))):
            return lock
    except (BlockingIOError, FileNotFoundError):
        pass
    os.close(lock)
    return None


@contextlib.contextmanager
def locked(path: Path) -> Iterator[None]:
    """Holds the lock of a password file while the block runs."""
    end = time.monotonic() + SECONDS
    lock = try_lock(path)
    while lock is None:
        if time.monotonic() > end:
            raise NotReplaced("another process holds the lock")
        time.sleep(PAUSE)
        lock = try_lock(path)
    try:
        clear_up(path)
        yield
    finally:
        os.close(lock)


def clear_up(path: Path) -> None:
    """Finishes or undoes what a killed process has begun."""
    new, link = beside(path, "new"), beside(path, "exchange")
    try:
        old_number, new_number = map(int, os.readlink(link).split())
    except FileNotFoundError:
        new.unlink(missing_ok=True)
        return
    if new.exists():
        if new.stat().st_ino not in (old_number, new_number):
            if path.stat().st_ino == new_number:
                exchange(new, path)
        if new.stat().st_ino not in (old_number, new_number):
            raise NotReplaced(f"{new} is a version from somebody else")
        new.unlink()
    link.unlink()


def with_new_field(content: bytes, name: bytes, old: bytes, new: bytes) -> bytes:
    """Returns the content with a new field in the first line of a name."""
    lines = content.split(b"\n")
    for number, line in enumerate(lines):
        parts = line.split(b":", 2)
        if len(parts) > 1 and parts[0] == name:
            if parts[1] != old:
                break
            parts[1] = new
            lines[number] = b":".join(parts)
            return b"\n".join(lines)
    raise NotReplaced("the field has changed")


def write_new(file: int, content: bytes, old: int) -> None:
    """Writes a new file with the old one's extended attributes, owner and mode."""
    status = os.fstat(old)
    with os.fdopen(file, "wb", closefd=False) as writer:
        writer.write(content)
    for attribute in os.listxattr(old):
        os.setxattr(file, attribute, os.getxattr(old, attribute))
    os.fchown(file, status.st_uid, status.st_gid)
    os.fchmod(file, status.st_mode & 0o7777)
    os.fsync(file)


def version(status: os.stat_result) -> tuple[int, ...]:
    """Returns what identifies a version of a file, and doesn't change in an exchange."""
    return (
        *(status.st_dev, status.st_ino, status.st_size, status.st_mtime_ns),
        *(status.st_mode, status.st_uid, status.st_gid),
    )


def put_in_place(path: Path, old: os.stat_result, new: os.stat_result) -> bool:
    """Exchanges the files, and undoes that if somebody has changed one of them.

    Returns whether the new file stays.
    """
    expected, put_in = old, new  # what an exchange should take out, and what it puts in
    while True:
        exchange(beside(path, "new"), path)
        taken_out = os.lstat(beside(path, "new"))
        if version(taken_out) == version(expected):
            return is_same_file(put_in, new)
        expected, put_in = put_in, taken_out


def replace_under_lock(path: Path, name: bytes, old: bytes, new: bytes) -> None:
    """Replaces a field. Raises NotReplaced if the field or the file has changed."""
    with contextlib.ExitStack() as files:
        reader = os.open(path, os.O_RDONLY | os.O_CLOEXEC)
        files.callback(os.close, reader)
        status = os.fstat(reader)
        content = with_new_field(os.pread(reader, status.st_size, 0), name, old, new)
        writer = os.open(path.parent, os.O_TMPFILE | os.O_RDWR | os.O_CLOEXEC, 0o600)
        files.callback(os.close, writer)
        write_new(writer, content, reader)
        # Python follows the link only if it gets a descriptor, which an absolute path ignores.
        nameless = f"/proc/self/fd/{writer}"
        os.link(nameless, beside(path, "new"), src_dir_fd=writer, follow_symlinks=True)
        new_status = os.fstat(writer)
        os.symlink(f"{status.st_ino} {new_status.st_ino}", beside(path, "exchange"))
        now = path.stat()
        is_replaced = False
        if is_same_file(now, status) and now.st_ctime_ns == status.st_ctime_ns:
            is_replaced = put_in_place(path, status, new_status)
        beside(path, "new").unlink()
        beside(path, "exchange").unlink()
    if not is_replaced:
        raise NotReplaced("somebody else changed the file")


def replace(path: Path, name: bytes, old: bytes, new: bytes) -> None:
    """Replaces a field of a password file."""
    with locked(path):
        replace_under_lock(path, name, old, new)


def main(arguments: list[str]) -> int:
    """Replaces a field as the arguments say, and returns the exit status."""
    path, name, old, new = arguments
    try:
        replace(Path(path), name.encode(), old.encode(), new.encode())
    except NotReplaced as error:
        print(error, file=sys.stderr)
        return 1
    except OSError as error:
        print(os.strerror(error.errno or errno.EIO), file=sys.stderr)
        return 2
    return 0


if __name__ == "__main__":
    sys.exit(main(sys.argv[1:]))

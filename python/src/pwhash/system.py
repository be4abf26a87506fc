"""System calls that Python doesn't offer."""

from __future__ import annotations

import ctypes
import errno
import os

# As in <linux/prctl.h> and <linux/fs.h>.
PR_SET_DUMPABLE = 4
RENAME_NOREPLACE, RENAME_EXCHANGE = 1, 2
AT_EACCESS = 0x200


def forbid_dumps() -> None:
    """Forbids core dumps of this process, and access to its memory by unprivileged processes."""
    control = getattr(ctypes.CDLL(None), "prctl", None)
    if control is not None:
        control(PR_SET_DUMPABLE, 0, 0, 0, 0)


def access_error(folder: int, name: str, mode: int) -> int:
    """Returns the error that this process gets for this access to a name in a folder, or 0.

    os.access() doesn't say which error it is.
    """
    call = ctypes.CDLL(None, use_errno=True).faccessat
    return 0 if call(folder, os.fsencode(name), mode, AT_EACCESS) == 0 else ctypes.get_errno()


def rename_to_new(folder: int, old: str, new: str) -> None:
    """Renames a file of an open folder without replacing another one.

    Raises OSError with ENOSYS or EINVAL if the kernel or the file system can't do that.
    """
    rename(folder, old, new, RENAME_NOREPLACE)


def exchange(folder: int, first: str, second: str) -> None:
    """Exchanges two files of an open folder in one step.

    Raises OSError with ENOSYS or EINVAL if the kernel or the file system can't do that.
    """
    rename(folder, first, second, RENAME_EXCHANGE)


def rename(folder: int, old: str, new: str, flags: int) -> None:
    """Calls renameat2(2) within a folder."""
    call = getattr(ctypes.CDLL(None, use_errno=True), "renameat2", None)
    if call is None:
        raise OSError(errno.ENOSYS, os.strerror(errno.ENOSYS), new)
    if call(folder, os.fsencode(old), folder, os.fsencode(new), flags) != 0:
        number = ctypes.get_errno()
        raise OSError(number, os.strerror(number), new)

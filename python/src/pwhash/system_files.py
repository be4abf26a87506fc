"""Recognizes the system's own files of accounts, which pwhash never replaces.

The programs that change them lock them by other rules, keep a second file of each, and maintain
dates and ages.
"""

from __future__ import annotations

import contextlib
import os
import re

from pwhash.errors import UsageError
from pwhash.place import Place

NAMES = ("passwd", "shadow", "group", "gshadow", "subuid", "subgid")
PATHS = (
    *(f"/etc/{name}{ending}" for name in NAMES for ending in ("", "-")),
    *(f"/var/backups/{name}.bak" for name in NAMES),
    "/etc/security/opasswd",
)
# The name of such a file, of a copy, or of a version that somebody is editing.
NAME = re.compile(f"(?:{'|'.join(NAMES)}|opasswd)(?:[-+~]|\\.(?:bak|edit|old|orig|org))?")
FOLDERS = ("etc", "backups", "security")
# A line of shadow(5): nine fields, of which the third to the eighth are numbers or empty. Lines of
# Dovecot's files have fewer fields, or a folder or other words among them.
SHADOW_LINE = re.compile(rb"(?m)^[^:\n]*:[^:\n]*(?::-?[0-9]*){6}:[^:\n]*$")


def refuse_place(place: Place, status: os.stat_result) -> None:
    """Refuses a file that has the inode of a system file, or the name of one in any root."""
    for path in PATHS:
        with contextlib.suppress(OSError):
            if os.path.samestat(os.stat(path), status):
                raise refusal(place.display_name)
    refuse_name(place)


def refuse_name(place: Place) -> None:
    """Refuses the name of a system file, also below the root of another system."""
    if NAME.fullmatch(place.name) and any(is_called(place, folder) for folder in FOLDERS):
        raise refusal(place.display_name)


def refuse_shape(content: bytes, file_name: str) -> None:
    """Refuses content that only a shadow file has."""
    if SHADOW_LINE.search(content):
        raise refusal(file_name)


def is_called(place: Place, folder: str) -> bool:
    """Returns whether the open folder has this name."""
    with contextlib.suppress(OSError):
        called_so = os.stat(f"../{folder}", dir_fd=place.folder)
        return os.path.samestat(called_so, os.fstat(place.folder))
    return False


def refusal(file_name: str) -> UsageError:
    """Returns the error for a system file."""
    return UsageError(
        f"{file_name} is a file of the system's own accounts, and pwhash changes none. "
        "Use passwd(1), or for hashes chpasswd(8): chpasswd -e."
    )

"""The names in /etc/passwd on this machine, and which of them are the superuser's.

Those are root, and any other name with the number 0. Asks no directory service for names.
"""

from __future__ import annotations

import contextlib
import re
from typing import FrozenSet

PASSWD = "/etc/passwd"
NAME = re.compile(rb"(?m)^([^:#\n]+):")
NAME_OF_SUPERUSER = re.compile(rb"(?m)^([^:#\n]+):[^:\n]*:0+:")


def account_names() -> FrozenSet[bytes]:
    """Returns all names in /etc/passwd."""
    return frozenset(NAME.findall(read_passwd()))


def superuser_names() -> FrozenSet[bytes]:
    """Returns root and the other names with the number 0 in /etc/passwd."""
    return frozenset([b"root", *NAME_OF_SUPERUSER.findall(read_passwd())])


def read_passwd() -> bytes:
    """Returns the content of /etc/passwd, or nothing if it can't be read."""
    content = b""
    with contextlib.suppress(OSError), open(PASSWD, "rb") as file:
        content = file.read()
    return content

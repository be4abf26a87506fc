"""Protects the process from what it inherits, before it reads a password."""

from __future__ import annotations

import gc
import os
import resource
import signal

from pwhash import system
from pwhash.console import STDERR

# A run may keep many lines, and none of them is garbage, so Python rarely looks for any.
OBJECTS_BETWEEN_COLLECTIONS = 1 << 20
# Nobody else may read a new file. The caller's umask may even forbid its owner to read it, as 0777
# does, and a lock file that nobody can open would lock out its owner for ever.
OWN_UMASK = 0o077


def prepare() -> None:
    """Puts the process into a known state, however it was started."""
    prevent_core_dumps()
    os.umask(OWN_UMASK)
    open_closed_descriptors()
    gc.set_threshold(OBJECTS_BETWEEN_COLLECTIONS)
    signal.pthread_sigmask(signal.SIG_SETMASK, [])


def prevent_core_dumps() -> None:
    """Prevents core dumps, which would contain passwords.

    With a limit of 0 bytes the kernel still passes the memory to a program that collects dumps.
    With 1 byte it doesn't, and a dump to a file needs more than that.
    """
    _, hard = resource.getrlimit(resource.RLIMIT_CORE)
    soft = 0 if hard == 0 else 1
    resource.setrlimit(resource.RLIMIT_CORE, (soft, hard))
    system.forbid_dumps()


def open_closed_descriptors() -> None:
    """Opens the standard descriptors that the caller closed, so that no file gets their numbers."""
    while os.open("/", os.O_PATH) <= STDERR:
        pass

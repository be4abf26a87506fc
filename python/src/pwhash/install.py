"""pwhash install: puts a file of hashes in place of a service's password file."""

from __future__ import annotations

import contextlib
import grp
import os
import pwd
import stat
from typing import List, Optional

from pwhash import field, password_file, replacing, system, system_files
from pwhash.errors import Stop, UsageError, errors_named
from pwhash.exchange import end_earlier_exchange
from pwhash.folders import ACL
from pwhash.hashes_file import Hash, HashesFile
from pwhash.lock import Owner, hold_lock
from pwhash.new_file import NewFile, attributes, opened_new
from pwhash.options import InstallOptions
from pwhash.place import (
    Place,
    open_place,
    refuse_folder_of_others,
    refuse_open_folder,
    refuse_strange_file,
    refuse_unwritable,
)
from pwhash.session import Session
from pwhash.shown_names import list_names
from pwhash.target import Target
from pwhash.text import display_name

OWN_MODE = 0o600
MAX_NUMBER = (1 << 32) - 2  # one more means "no change" to chown(2)


def run(options: InstallOptions, session: Session) -> bool:
    """Judges each line of HASHES, and installs the file if all are right."""
    requested = Requested(options)
    hashes = HashesFile(options, session.console)
    with open_place(options.target) as place:
        system_files.refuse_name(place)
        found = place.status()
        if found is None:
            create(place, requested, hashes, session)
            sentences = [f"{place.display_name} was made, with {len(hashes.lines):,} names."]
        else:
            refuse_unfit(place, found, requested, hashes)
            content = Content(place.display_name, hashes, options.accepts_removals)
            content.check(place)
            replacing.replace(place, content.changed, session)
            sentences = content.sentences
    for sentence in sentences if not options.quiet else []:
        session.console.say(sentence)
    return False


class Requested:
    """The owner, group and mode that the options ask for. Each may be None."""

    def __init__(self, options: InstallOptions) -> None:
        self.user = find_user(options.owner) if options.owner is not None else None
        self.group = find_group(options.group) if options.group is not None else None
        self.mode = options.mode

    def refuse_others(self, file_name: str, status: os.stat_result) -> None:
        """Refuses an owner, group or mode that an existing file doesn't have."""
        pairs = (
            ("--owner", self.user, status.st_uid, "chown"),
            ("--group", self.group, status.st_gid, "chgrp"),
            ("--mode", self.mode, stat.S_IMODE(status.st_mode), "chmod"),
        )
        for option, requested, found, command in pairs:
            if requested is not None and requested != found:
                raise UsageError(
                    f"{file_name} is there, and keeps its owner, group and mode, of which {option} "
                    f"is another. Leave it out, or first use {command}."
                )


def find_user(name: str) -> int:
    """Returns the number of a user, given by name or number."""
    with contextlib.suppress(KeyError):
        return pwd.getpwnam(name).pw_uid
    if name.isascii() and name.isdecimal() and int(name) <= MAX_NUMBER:
        return int(name)
    raise UsageError(f"--owner: there is no user {display_name(name)}.")


def find_group(name: str) -> int:
    """Returns the number of a group, given by name or number."""
    with contextlib.suppress(KeyError):
        return grp.getgrnam(name).gr_gid
    if name.isascii() and name.isdecimal() and int(name) <= MAX_NUMBER:
        return int(name)
    raise UsageError(f"--group: there is no group {display_name(name)}.")


def refuse_unfit(
    place: Place, found: os.stat_result, requested: Requested, hashes: HashesFile
) -> None:
    """Refuses to replace a system file, or one that somebody other than its owner can replace."""
    refuse_strange_file(place, found)
    system_files.refuse_place(place, found)
    if os.path.samestat(found, hashes.status):
        raise UsageError(f"{place.display_name} is HASHES too. Name another file.")
    refuse_open_folder(place, found.st_uid)
    refuse_unwritable(place)
    requested.refuse_others(place.display_name, found)


class Content:
    """The new content of TARGET. Names that are locked in it stay locked, and comments stay.

    A comment may be the line of a name that HASHES lacks now, and that a later HASHES has again.
    """

    def __init__(self, file_name: str, hashes: HashesFile, accepts_removals: bool) -> None:
        self.sentences: List[str] = []
        self._file_name = file_name
        self._hashes = hashes
        self._accepts_removals = accepts_removals

    def check(self, place: Place) -> None:
        """Refuses a TARGET that shouldn't be replaced, before anything is created."""
        with errors_named(self._file_name), password_file.opened(place) as file:
            self.changed(file.content)

    def changed(self, content: bytes) -> bytes:
        """Returns the content that replaces the present one."""
        target = Target(content, self._file_name, self._hashes.lines)
        target.refuse_entrances(self._hashes.lines)
        if not self._accepts_removals:
            target.refuse_removals(self._hashes.lines)
        locked = [line.name for line in self._hashes.lines if stays_locked(line, target)]
        self.sentences = [f"{self._file_name} has {len(self._hashes.lines):,} names now."]
        self._note("stay locked, as they were", locked)
        self._note("aren't in HASHES, and were removed", target.removed(self._hashes.lines))
        lines = [line_for(line, target) for line in self._hashes.lines]
        return b"".join(line + b"\n" for line in target.comments + lines)

    def _note(self, what: str, names: List[bytes]) -> None:
        if names:
            self.sentences.append(f"these {what}: {list_names(names)}.")


def stays_locked(line: Hash, target: Target) -> bool:
    """Returns whether TARGET keeps a name out that HASHES would let in."""
    return target.locks(line.name) and not line.field.is_locked


def line_for(line: Hash, target: Target) -> bytes:
    """Returns the new line of a name. It keeps further fields, unless HASHES has others."""
    if stays_locked(line, target):
        line = line._replace(field=line.field._replace(mark=field.LOCK))
    if not line.rest.strip(b":"):
        line = line._replace(rest=target.rest_of(line.name))
    return line.data()


# ---- A new TARGET


def create(place: Place, requested: Requested, hashes: HashesFile, session: Session) -> None:
    """Creates TARGET, which doesn't exist."""
    user = os.geteuid() if requested.user is None else requested.user
    refuse_open_folder(place, user)
    refuse_folder_of_others(place)
    group = os.getegid() if requested.group is None else requested.group
    with hold_lock(place, Owner(user, group)), errors_named(place.display_name):
        with session.signals.postponed():
            end_earlier_exchange(place)
            with opened_new(place) as new:
                write_new_file(new, Owner(user, group), requested.mode, hashes)
                give_name(place, new)
            place.sync()
            session.changed = place.display_name


def write_new_file(new: NewFile, owner: Owner, mode: Optional[int], hashes: HashesFile) -> None:
    """Writes the new file, with the owner and mode that it should have, and without an ACL."""
    try:
        new.write(b"".join(line.data() + b"\n" for line in hashes.lines))
        if ACL in attributes(new.fd):
            os.removexattr(new.fd, ACL)
        new.give(owner, OWN_MODE if mode is None else mode)
        new.status()
    except BaseException:
        new.remove()
        raise


def give_name(place: Place, new: NewFile) -> None:
    """Gives the new file its name, unless somebody has created another file of that name."""
    try:
        if new.has_name:
            system.rename_to_new(place.folder, place.new, place.name)
        else:
            new.link(place.name)
    except FileExistsError:
        new.remove()
        raise Stop(
            f"{place.display_name} was just made by another process, and stays. Try again."
        ) from None
    except BaseException:
        new.remove()
        raise

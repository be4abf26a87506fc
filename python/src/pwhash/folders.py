"""Opens the folder of a file that pwhash writes, so that nobody can exchange the folder meanwhile.

The path is followed name by name. A symbolic link on it is followed only if nobody but the
superuser and the user who runs pwhash can make it lead elsewhere. From then on the folder and the
files in it are reached through the folder's descriptor. So it makes no difference if somebody
renames the folder during the run, or puts a link in its place.
"""

from __future__ import annotations

import contextlib
import errno
import grp
import os
import pwd
import stat
from collections.abc import Iterator
from typing import FrozenSet, NamedTuple, Optional, Set

from pwhash.errors import UsageError, errors_named
from pwhash.text import display_name

SUPERUSER = 0
WRITABLE_BY_OTHERS = stat.S_IWGRP | stat.S_IWOTH
ACL = "system.posix_acl_access"
MAX_LINKS = 40  # nested in one another; the kernel follows as many in a whole path
# With O_PATH, a folder that can't be listed can be opened too. With O_NOFOLLOW added, a link is
# opened itself.
STEP = os.O_PATH | os.O_NOFOLLOW | os.O_CLOEXEC


class Rule(NamedTuple):
    """Who may change the folder of a file, and the folders above it."""

    file_name: str  # for a message
    trusted: FrozenSet[int]  # the users who may own the folders
    advice: str  # what to do if somebody else could change one
    # Whether the file's own folder may be one such as /tmp, where users remove only their own
    # files, and whether the group of one user may write the folders.
    is_for_new_file: bool


class FileInFolder(NamedTuple):
    """A file that may exist: its open folder, and its name there."""

    path: str  # as the user typed it
    folder: int
    name: str

    @property
    def display_name(self) -> str:
        """The file's name for a message."""
        return display_name(self.path)

    def beside(self, ending: str) -> FileInFolder:
        """Returns the file in the same folder whose name has this ending too."""
        return FileInFolder(self.path + ending, self.folder, self.name + ending)

    def open(self, flags: int, mode: int = 0) -> int:
        """Opens or creates the file, and returns a descriptor."""
        return os.open(self.name, flags | os.O_CLOEXEC, mode, dir_fd=self.folder)

    def status(self) -> Optional[os.stat_result]:
        """Returns the status of the file, or of a link of this name, or None if there is none."""
        try:
            return os.stat(self.name, dir_fd=self.folder, follow_symlinks=False)
        except FileNotFoundError:
            return None

    def remove(self) -> None:
        """Removes the file."""
        os.unlink(self.name, dir_fd=self.folder)


# ---- Opening a folder


def open_folder(path: str, rule: Rule) -> int:
    """Opens a folder by its path, and returns a descriptor, with which nothing can be listed."""
    return open_below(None, path or ".", rule, links=0)


def open_below(start: Optional[int], path: str, rule: Rule, links: int) -> int:
    """Opens a folder by a path from an open folder, or from the current one if that is None."""
    folder = os.open("/" if path.startswith("/") else ".", STEP, dir_fd=start)
    for name in path.split("/"):
        if name not in ("", "."):
            try:
                below = open_name(folder, name, rule, links)
            finally:
                os.close(folder)
            folder = below
    return folder


def open_name(folder: int, name: str, rule: Rule, links: int) -> int:
    """Opens a folder by its name in an open one, also if the name is that of a link to it."""
    found = os.open(name, STEP, dir_fd=folder)
    status = os.fstat(found)
    if stat.S_ISDIR(status.st_mode):
        return found
    try:
        if not stat.S_ISLNK(status.st_mode):
            raise OSError(errno.ENOTDIR, os.strerror(errno.ENOTDIR))
        if links == MAX_LINKS:
            raise OSError(errno.ELOOP, os.strerror(errno.ELOOP))
        refuse_untrusted_link(folder, name, status, rule)
        target = os.readlink("", dir_fd=found)  # of the open link itself
        return open_below(folder, target, rule, links + 1)
    finally:
        os.close(found)


def sync_folder(folder: int) -> None:
    """Flushes the names in a folder to disk."""
    # A descriptor opened with O_PATH can't be flushed.
    readable = os.open(".", os.O_RDONLY | os.O_DIRECTORY | os.O_CLOEXEC, dir_fd=folder)
    try:
        os.fsync(readable)
    finally:
        os.close(readable)


# ---- Refusing folders that others can change


def refuse_untrusted_link(folder: int, name: str, status: os.stat_result, rule: Rule) -> None:
    """Refuses a link that others can exchange for another one."""
    link = f"{rule.file_name}: the symbolic link {display_name(name)} in its path"
    advice = "Give a path without it."
    if status.st_uid not in rule.trusted:
        raise UsageError(
            f"{link} belongs to another user, who could make it lead elsewhere. {advice}"
        )
    # The rule for new files allows sticky folders such as /tmp:
    # nobody else can remove the link there.
    rule_of_link = Rule(link, rule.trusted, advice, is_for_new_file=True)
    refuse_untrusted(folder, rule_of_link)


def refuse_untrusted(folder: int, rule: Rule) -> None:
    """Refuses a folder if others can exchange a file in it, or the folder itself."""
    with errors_named(f"{rule.file_name}, a folder above it"):
        for number, each in enumerate(folders_upwards(folder)):
            refuse_untrusted_folder(each, rule, is_own=number == 0)


def folders_upwards(folder: int) -> Iterator[int]:
    """Yields a descriptor of an open folder, then of each folder above it. It closes them."""
    descriptor = os.dup(folder)
    try:
        status, below = os.fstat(descriptor), None
        # The folder above / is / itself.
        while below is None or not os.path.samestat(status, below):
            yield descriptor
            parent = os.open("..", STEP, dir_fd=descriptor)
            os.close(descriptor)
            descriptor, below = parent, status
            status = os.fstat(descriptor)
    finally:
        os.close(descriptor)


def refuse_untrusted_folder(folder: int, rule: Rule, is_own: bool) -> None:
    """Refuses a folder that belongs to somebody else, or that others can write."""
    which = "its folder" if is_own else "a folder above it"
    status = os.fstat(folder)
    if status.st_uid not in rule.trusted:
        raise UsageError(
            f"{rule.file_name}: {which} belongs to another user, who could put another file in "
            f"its place. {rule.advice}"
        )
    if status.st_mode & WRITABLE_BY_OTHERS == 0:
        return
    can_be_sticky = rule.is_for_new_file or not is_own
    if can_be_sticky and status.st_mode & stat.S_ISVTX:
        return
    if rule.is_for_new_file and is_of_one_user(folder, status):
        return
    raise UsageError(
        f"{rule.file_name}: others can write {which}, and put another file in its place. "
        f"{rule.advice}"
    )


def is_of_one_user(folder: int, status: os.stat_result) -> bool:
    """Returns whether only the owner can write a folder, as its group has no other member.

    useradd(8) makes a group for each user, whose only member is that user.
    """
    if status.st_mode & stat.S_IWOTH or has_acl(folder):
        return False
    try:
        owner, group = pwd.getpwuid(status.st_uid), grp.getgrgid(status.st_gid)
    except KeyError:
        return False
    is_own_group = owner.pw_gid == group.gr_gid and owner.pw_name == group.gr_name
    return is_own_group and members_of(group) <= {owner.pw_name}


def members_of(group: grp.struct_group) -> Set[str]:
    """Returns the members of a group, and of others with its number, which give the same rights."""
    members = {each.pw_name for each in pwd.getpwall() if each.pw_gid == group.gr_gid}
    # A source of groups that lists none, such as LDAP's, still finds this one by its number.
    for each in (group, *grp.getgrall()):
        if each.gr_gid == group.gr_gid:
            members.update(each.gr_mem)
    return members


def has_acl(folder: int) -> bool:
    """Returns whether a folder has an ACL, by which others can have the rights of its group.

    Also true if the system doesn't say.
    """
    try:
        # A descriptor opened with O_PATH can't be asked for attributes.
        return ACL in os.listxattr(f"/proc/self/fd/{folder}")
    except OSError as error:
        return error.errno != errno.ENOTSUP


# ---- New files of a run, such as OUT


@contextlib.contextmanager
def opened_for_new_file(path: str) -> Iterator[FileInFolder]:
    """Opens the folder in which a run creates a file, or continues one, for the block."""
    folder, name = os.path.split(path)
    if name in ("", ".", ".."):
        raise UsageError(f"{display_name(path)} is a folder. Name a file.")
    rule = Rule(display_name(path), users_of_run(), advice_on_new_file(), is_for_new_file=True)
    with errors_named(display_name(folder or ".")):
        descriptor = open_folder(folder, rule)
    try:
        refuse_untrusted(descriptor, rule)
        yield FileInFolder(path, descriptor, name)
    finally:
        os.close(descriptor)


def users_of_run() -> FrozenSet[int]:
    """Returns the superuser, the user who runs pwhash, and the one for whom sudo runs it.

    The latter could have made sudo run anything. In a set-user-ID program, SUDO_UID may come from
    anybody, so it counts only if all user IDs are the superuser's.
    """
    users = {SUPERUSER, os.geteuid()}
    caller = os.environ.get("SUDO_UID", "")
    if set(os.getresuid()) == {SUPERUSER} and caller.isascii() and caller.isdecimal():
        users.add(int(caller))
    return frozenset(users)


def advice_on_new_file() -> str:
    """Returns what to do if others can exchange a new file."""
    where = "/root" if os.geteuid() == SUPERUSER else "your home"
    return f"Name a file in a folder that only you can write, such as one in {where}."

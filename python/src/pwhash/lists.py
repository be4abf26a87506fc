"""The lists of new passwords: CSV files for people, on disk before any password is hashed.

A list is a new file that only its owner can read. No field in it looks like a formula to a
spreadsheet, since generate.py refuses such fields.
"""

from __future__ import annotations

import contextlib
import csv
import io
import os
import re
import stat
from collections.abc import Iterable
from typing import ContextManager, Dict, List, Optional, Set, Tuple

from pwhash import own_file
from pwhash.errors import Stop, UsageError, errors_named, reason_of
from pwhash.folders import FileInFolder, opened_for_new_file, sync_folder
from pwhash.lines import BYTE_ORDER_MARK
from pwhash.text import display_name, is_utf8

SUFFIX = ".csv"
HEADING = re.compile(rb"(?:.*[,;\t])?name([,;\t])password\n")
FOLDER_MODE = 0o700
# Maps each byte to the character of that number and back, so that the encoding doesn't matter.
BYTES = "latin-1"

Row = Tuple[bytes, ...]  # the columns of --list-columns, then a name and its password


class ListWriter:
    """The lists that this run has written, to remove them if the run fails before it hashes."""

    def __init__(self, target: FileInFolder) -> None:
        self.identities: List[bytes] = []
        self._target = target
        self._files: List[FileInFolder] = []
        self._folder: Optional[int] = None  # that of several lists, once it is made

    def make_folder(self) -> None:
        """Creates the folder for several lists."""
        try:
            os.mkdir(self._target.name, FOLDER_MODE, dir_fd=self._target.folder)
        except FileExistsError:
            raise exists_error(self._target) from None
        except OSError as error:
            raise Stop(f"{self._target.display_name}: {reason_of(error)}.") from None
        self._folder = open_own_folder(self._target)
        sync_folder_of(self._target)

    def write(self, group: bytes, separator: str, rows: Iterable[Row]) -> None:
        """Writes the list of a group, or the only one. The first row is the heading."""
        file = self._target
        if self._folder is not None:
            file = file_in(self._target, self._folder, os.fsdecode(group) + SUFFIX)
        content = content_of(separator, rows)
        with errors_named(file.display_name):
            try:
                fd = own_file.create(file)
            except FileExistsError:
                raise exists_error(file) from None
            self._files.append(file)
            with open(fd, "wb") as opened:
                opened.write(content)
                opened.flush()
                os.fsync(fd)
                self.identities.append(identity(os.fstat(fd)))
        sync_folder_of(file)

    def remove(self) -> None:
        """Removes all lists of this run, and their folder."""
        for file in self._files:
            with contextlib.suppress(OSError):
                file.remove()
        if self._folder is not None:
            with contextlib.suppress(OSError):
                os.rmdir(self._target.name, dir_fd=self._target.folder)

    def close(self) -> None:
        """Closes the folder of several lists."""
        if self._folder is not None:
            os.close(self._folder)


def opened_target(path: str) -> ContextManager[FileInFolder]:
    """Opens the folder of LIST for a block. Refuses one in which others could exchange LIST."""
    return opened_for_new_file(path.rstrip("/"))


def refuse_folder(path: str) -> None:
    """Refuses the folder of LIST before anything is created."""
    with opened_target(path):
        pass


def open_own_folder(target: FileInFolder) -> int:
    """Opens the folder of several lists. Refuses one that can't be from a run of this user."""
    with errors_named(target.display_name):
        status = target.status()
        if status is None or not is_own_folder(status):
            raise UsageError(f"{target.display_name} isn't a folder that a run of yours has made.")
        return target.open(os.O_RDONLY | os.O_DIRECTORY | os.O_NOFOLLOW)


def is_own_folder(status: os.stat_result) -> bool:
    """Returns whether this is a folder of this user that nobody else can read."""
    if not stat.S_ISDIR(status.st_mode) or status.st_uid != os.geteuid():
        return False
    # A new folder inherits the set-group-ID bit of the folder that it is in.
    return stat.S_IMODE(status.st_mode) & ~stat.S_ISGID == FOLDER_MODE


def file_in(target: FileInFolder, folder: int, name: str) -> FileInFolder:
    """Returns a file in the folder of several lists."""
    return FileInFolder(os.path.join(target.path, name), folder, name)


def identity(status: os.stat_result) -> bytes:
    """Returns the size, time and inode of a list, which change if it is edited or replaced."""
    return b"%d,%d,%d" % (status.st_size, status.st_mtime_ns, status.st_ino)


def content_of(separator: str, rows: Iterable[Row]) -> bytes:
    """Returns a list as CSV. Excel recognizes UTF-8 only by a byte order mark."""
    text = io.StringIO()
    writer = csv.writer(text, delimiter=separator, lineterminator="\n")
    writer.writerows([field.decode(BYTES) for field in row] for row in rows)
    content = text.getvalue().encode(BYTES)
    needs_mark = is_utf8(content) and not content.isascii()
    return BYTE_ORDER_MARK + content if needs_mark else content


def read(target: FileInFolder, is_folder: bool, written: Set[bytes]) -> Dict[bytes, bytes]:
    """Returns the passwords of all names in the lists of an earlier run.

    `written` has the identities of the lists that the run wrote.
    """
    if not is_folder:
        return read_files([target], written)
    folder = open_own_folder(target)
    try:
        names = [name for name in sorted(os.listdir(folder)) if name.endswith(SUFFIX)]
        return read_files([file_in(target, folder, name) for name in names], written)
    finally:
        os.close(folder)


def read_files(files: List[FileInFolder], written: Set[bytes]) -> Dict[bytes, bytes]:
    """Returns the passwords of all names in these lists."""
    refuse_changed(files, written)
    passwords: Dict[bytes, bytes] = {}
    for file in files:
        for name, password in read_list(file):
            if passwords.setdefault(name, password) != password:
                raise changed_list_error(file, "a name has two passwords")
    return passwords


def refuse_changed(files: List[FileInFolder], written: Set[bytes]) -> None:
    """Refuses a list that was edited, or that another one has replaced, whatever its time.

    A copy beside the lists changes nothing.
    """
    others: List[FileInFolder] = []
    missing = set(written)
    for file in files:
        with errors_named(file.display_name):
            status = file.status()
        found = b"" if status is None else identity(status)
        missing.discard(found)
        if found not in written:
            others.append(file)
    if missing and others:
        raise changed_list_error(others[0], "it was changed, or is another file")


def read_list(file: FileInFolder) -> List[Tuple[bytes, bytes]]:
    """Returns the names in one list, with their passwords."""
    with errors_named(file.display_name):
        with open(file.open(own_file.FLAGS), "rb") as opened:
            problem = own_file.find_problem(os.fstat(opened.fileno()))
            content = b"" if problem else opened.read()
    if content.startswith(BYTE_ORDER_MARK):
        content = content[len(BYTE_ORDER_MARK) :]
    found = HEADING.match(content)
    if problem or not found or not content.endswith(b"\n"):
        raise changed_list_error(file, problem or "it was changed")
    try:
        heading, *rows = rows_of(content, found[1].decode(BYTES))
    except csv.Error:
        raise changed_list_error(file, "it was changed") from None
    if any(len(row) != len(heading) or not all(row[-2:]) for row in rows):
        raise changed_list_error(file, "it was changed")
    return [(row[-2], row[-1]) for row in rows]


def rows_of(content: bytes, separator: str) -> List[Row]:
    """Returns the rows of a list. Raises csv.Error if it isn't CSV."""
    lines = content.decode(BYTES).split("\n")[:-1]  # nothing follows the last line feed
    rows = csv.reader(lines, delimiter=separator, strict=True)
    return [tuple(field.encode(BYTES) for field in row) for row in rows]


def changed_list_error(file: FileInFolder, problem: str) -> UsageError:
    """Returns the error for a list that has changed since a run wrote it."""
    return UsageError(
        f"{file.display_name} isn't as the earlier run left it ({problem}), so --resume "
        "doesn't know the passwords. Remove the lists and OUT.part, and run the command without "
        "--resume."
    )


def exists_error(file: FileInFolder) -> UsageError:
    """Returns the error for a file or folder that already exists."""
    return UsageError(
        f"{file.display_name} already exists: name another after --passwords, or remove it."
    )


def sync_folder_of(file: FileInFolder) -> None:
    """Flushes the folder of a file to disk, and with it the file's name."""
    with errors_named(display_name(os.path.dirname(file.path) or ".")):
        sync_folder(file.folder)

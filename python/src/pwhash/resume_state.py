"""OUT.part.options, from which --resume learns which file and options OUT.part belongs to.

It never contains a digest of the file, since that would be a digest of passwords.
"""

from __future__ import annotations

import contextlib
import os
import re
from typing import NamedTuple, Optional

from pwhash import own_file
from pwhash.errors import Stop, UsageError, errors_named, reason_of
from pwhash.folders import FileInFolder
from pwhash.options import Doubtful, FileOptions
from pwhash.source import Source

SUFFIX = ".options"
MAX_BYTES = 1 << 23  # of OUT.part.options, which names each list: enough for 100,000 lists
BEGIN = b"pwhash file --resume needs this.\n"
FORM = re.compile(
    re.escape(BEGIN)
    + rb"FILE has ([0-9]+ bytes, time -?[0-9]+, inode [0-9]+)\n"
    + rb"lists ([-0-9, ]*)\n"
    + rb"lines by (--budget=[0-9]+[a-z =-]*)\n"
    + rb"(?s:options ((?:--generate )?(?:|--windows|--csv --columns=.*))\n)"
)
FLAGS = {Doubtful.SKIP: ["--skip-doubtful"], Doubtful.ACCEPT: ["--accept-doubtful"]}


class ResumeState(NamedTuple):
    """What OUT.part.options says."""

    file: bytes  # FILE's size, time and inode
    lists: bytes  # the size, time and inode of each list of passwords that the run has written
    choice: bytes  # the options that decide which lines are left out
    options: bytes  # the options that change a line before it is hashed


# Stands for a file that is incomplete, since its run ended while writing it.
INCOMPLETE = ResumeState(b"", b"", b"", b"")


def state_file(part: FileInFolder) -> FileInFolder:
    """Returns the file beside a part."""
    return part.beside(SUFFIX)


def current_state(options: FileOptions, source: Source, lists: bytes = b"") -> ResumeState:
    """Returns what this run saves: not the ctime, which chmod and a new link change too."""
    status = source.initial_status
    file = f"{status.st_size} bytes, time {status.st_mtime_ns}, inode {status.st_ino}"
    return ResumeState(file.encode(), lists, choice_options(options), line_options(options))


def line_options(options: FileOptions) -> bytes:
    """Returns the options that change a line before it is hashed. --by is among the columns."""
    begin = b"--generate " if options.generate else b""
    if options.input.columns is not None:
        others = options.input.list_columns
        of_lists = "" if others is None else f" --list-columns={others}"
        return begin + os.fsencode(f"--csv --columns={options.input.columns}{of_lists}")
    return begin + (b"--windows" if options.input.windows else b"")


def choice_options(options: FileOptions) -> bytes:
    """Returns the options that decide which lines are left out."""
    words = [f"--budget={options.policy.budget}"]
    if options.skip_refused:
        words.append("--skip-refused")
    if options.skip_locked:
        words.append("--skip-locked")
    if options.skip_unknown:
        words.append("--skip-unknown")
    words += FLAGS.get(options.doubtful, [])
    if options.service:
        words.append(f"--for={options.service.value}")
    return " ".join(words).encode()


def read(part: FileInFolder) -> Optional[ResumeState]:
    """Returns what a run of this user has saved, or None. Refuses any other file of that name."""
    saved = state_file(part)
    with errors_named(saved.display_name):  # such as a name that is too long to save anything
        status = saved.status()
    if status is None:
        return None
    data = b""
    problem = own_file.find_problem(status)
    if not problem:
        with open(saved.open(own_file.FLAGS), "rb") as file:
            data = file.read(MAX_BYTES)
            problem = own_file.find_problem(os.fstat(file.fileno()))
    found = FORM.fullmatch(data)
    if found and not problem:
        return ResumeState(*found.groups())
    if not problem and (not data or data.startswith(BEGIN)):
        return INCOMPLETE
    raise UsageError(
        f"{saved.display_name} is in the way: {problem or 'it is not from a run'}. "
        "Remove it, or name another file after -o."
    )


def write(part: FileInFolder, state: ResumeState) -> None:
    """Writes the file. After an error, nothing of it remains."""
    saved = state_file(part)
    with errors_named(saved.display_name):
        fd = own_file.create(saved)
    try:
        with open(fd, "wb") as file:
            file.write(BEGIN + b"FILE has %b\nlists %b\nlines by %b\noptions %b\n" % state)
            file.flush()
            os.fsync(fd)
    except OSError as error:
        saved.remove()
        raise Stop(f"{saved.display_name}: {reason_of(error)}.") from None


def remove(part: FileInFolder) -> None:
    """Removes the file, if it exists."""
    with contextlib.suppress(FileNotFoundError):
        state_file(part).remove()

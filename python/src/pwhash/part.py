"""OUT.part, to which a run writes, and which becomes OUT once it is whole.

It is a new file, or with --resume a file of the user's own. OUT is that same file, even if others
can write in the folder.
"""

from __future__ import annotations

import contextlib
import errno
import fcntl
import os
from collections.abc import Iterator
from typing import List, Optional, Set

from pwhash import own_file, resume_state, system
from pwhash.console import Console
from pwhash.errors import Stop, UsageError, errors_named, reason_of
from pwhash.folders import FileInFolder, opened_for_new_file
from pwhash.options import PART_SUFFIX, FileOptions
from pwhash.resume_state import ResumeState
from pwhash.signals import Signals
from pwhash.source import Source
from pwhash.text import shell_quoted

# The errors of a file system without links, or a machine without /proc.
NO_LINKS = (errno.EPERM, errno.EOPNOTSUPP, errno.ENOSYS, errno.EMLINK, errno.EXDEV, errno.ENOENT)
# The errors of a file system, or a kernel, that has no rename which never replaces a file.
NO_SUCH_RENAME = (errno.EINVAL, errno.ENOSYS)


class Part:
    """The OUT.part of this run."""

    def __init__(self, out: FileInFolder, fd: int, source: Source, is_resumable: bool) -> None:
        self.fd = fd
        self.file = out.beside(PART_SUFFIX)
        self.name = self.file.display_name
        self.out_name = out.display_name
        self.is_resumable = is_resumable
        self.is_whole = False  # and has become OUT
        self._out = out
        self._source = source

    def refuse_changed(self) -> None:
        """Ends the run if FILE has changed since it was opened."""
        refuse_changed(self._source, self)

    def save_state(self, options: FileOptions, lists: Optional[List[bytes]] = None) -> None:
        """Saves what --resume needs, once the lines of the part are known to be right.

        `lists` identifies the lists of passwords that this run has written. Without it, those of an
        earlier run stay.
        """
        before = resume_state.read(self.file)
        saved_lists = b" ".join(lists or [])
        if lists is None and options.generate is not None and before is not None:
            saved_lists = before.lists
        now = resume_state.current_state(options, self._source, saved_lists)
        has_lines = os.fstat(self.fd).st_size > 0
        if before is not None and (has_lines or before == now):
            return
        if before is not None:  # the state is from a run whose part was removed
            resume_state.remove(self.file)
        resume_state.write(self.file, now)

    def remove_lines(self, names: Set[bytes]) -> None:
        """Removes the lines of these names."""
        with errors_named(self.name), open(self.fd, "r+b", closefd=False) as file:
            file.seek(0)
            kept = [line for line in file if line.partition(b":")[0] not in names]
            file.seek(0)
            file.writelines(kept)
            file.truncate()

    def finish(self, signals: Signals, console: Console) -> None:
        """Renames the part to OUT, unless another file has that name by now."""
        with errors_named(self.name):
            os.fsync(self.fd)
        self.refuse_changed()
        if not own_file.has_name(self.fd, self.file):
            raise UsageError(f"{self.name} was removed or replaced during the run. Start again.")
        with signals.postponed():
            self._become_out()
            self.is_whole = True
            self._remove_names(console)

    def leave(self, is_wrong_use: bool) -> None:
        """Leaves the part of a run that ends early, so that --resume accepts or refuses it."""
        if self.is_whole:
            return
        if self._source.change():
            os.utime(self.fd, (0, 0))  # FILE is newer then, so --resume refuses
        elif is_wrong_use and os.fstat(self.fd).st_size == 0:
            self._remove_state_and_part()

    def advice(self) -> str:
        """Says what to do if FILE has changed during the run."""
        return describe_change(self._source, self) or ""

    def _become_out(self) -> None:
        """Links the open file as OUT, or renames the part if links don't work.

        A link is sure to be of the open file, whatever has the part's name by now.
        """
        try:
            link = f"/proc/self/fd/{self.fd}"
            # Only linkat follows the link, and Python calls it only if a folder is given.
            os.link(link, self._out.name, dst_dir_fd=self._out.folder, follow_symlinks=True)
        except FileExistsError:
            raise self._out_exists_error() from None
        except OSError as error:
            if error.errno not in NO_LINKS or not own_file.has_name(self.fd, self.file):
                raise Stop(f"{self.out_name}: {reason_of(error)}.") from None
            self._rename()

    def _rename(self) -> None:
        """Renames the part without replacing another file."""
        try:
            system.rename_to_new(self._out.folder, self.file.name, self._out.name)
        except FileExistsError:
            raise self._out_exists_error() from None
        except OSError as error:
            if error.errno in NO_SUCH_RENAME:
                raise self._cannot_rename_error() from None
            raise Stop(f"{self.out_name}: {reason_of(error)}.") from None
        # Somebody who can write in the folder may have put another file in the part's place.
        if not own_file.has_name(self.fd, self._out):
            raise Stop(
                f"{self.out_name} isn't what was written: another file took the place of "
                f"{self.name}. Remove {self.out_name}, and run the command again in a folder in "
                "which only you can write."
            )

    def _out_exists_error(self) -> Stop:
        return Stop(
            f"another process made {self.out_name} during the run, so it isn't replaced. All lines "
            f"are done, in {self.name}. First rename or remove {self.out_name}.",
            advice="" if self.is_resumable else f"Rename {self.name}.",
        )

    def _cannot_rename_error(self) -> Stop:
        return Stop(
            f"all lines are done, but this file system can't rename {self.name} without the risk "
            "of replacing another file.",
            advice=f"Type mv -n {shell_quoted(self.file.path)} {shell_quoted(self._out.path)}",
        )

    def _remove_names(self, console: Console) -> None:
        """Removes the saved options while the part is locked, and then the part's name."""
        try:
            self._remove_state_and_part()
        except OSError as error:
            console.say(f"{self.name} remains: {reason_of(error)}.")

    def _remove_state_and_part(self) -> None:
        if self.is_resumable:
            resume_state.remove(self.file)
        if own_file.has_name(self.fd, self.file):
            self.file.remove()


def describe_change(source: Source, part: Optional[Part]) -> Optional[str]:
    """Says how FILE has changed during the run, and what to do about it, or returns None."""
    what = source.change()
    if what is None:
        return None
    remedy = f"remove {part.name}" if part else "discard the hashes"
    then = f"{remedy}, and run the command again"
    return f"{source.name} was changed during the run ({what}): {then}."


def refuse_changed(source: Source, part: Optional[Part]) -> None:
    """Ends the run if FILE has changed since it was opened."""
    sentence = describe_change(source, part)
    if sentence is not None:
        raise UsageError(sentence)


@contextlib.contextmanager
def opened(out: str, source: Source, options: Optional[FileOptions]) -> Iterator[Part]:
    """Opens OUT.part for this run alone. Only pwhash file, which can resume, gives options."""
    with opened_for_new_file(out) as file, opened_part(file, source, options) as part:
        try:
            yield part
        except UsageError:
            part.leave(is_wrong_use=True)
            raise
        except BaseException:
            part.leave(is_wrong_use=False)
            raise


@contextlib.contextmanager
def opened_part(
    out: FileInFolder, source: Source, options: Optional[FileOptions]
) -> Iterator[Part]:
    """Opens OUT.part in an open folder."""
    file = out.beside(PART_SUFFIX)
    if options is not None:
        resume_state.read(file)  # refuses a strange OUT.part.options before a part is made
    fd = open_part(file, source, options)
    try:
        yield Part(out, fd, source, options is not None)
    finally:
        os.close(fd)


def open_part(file: FileInFolder, source: Source, options: Optional[FileOptions]) -> int:
    """Opens a new part, or the one that this run continues."""
    is_resumed = options is not None and options.resume
    with errors_named(file.display_name):
        found = file.status()
        if found is None:
            return create_part(file)
        refuse_strange(file, found, source, is_resumed)
        return open_existing(file, found, source, options)


def refuse_strange(
    file: FileInFolder, found: os.stat_result, source: Source, is_resumed: bool
) -> None:
    """Refuses a part that can't be from a run of this user."""
    name = file.display_name
    if os.path.samestat(found, source.initial_status):
        raise UsageError(f"{name} is the file to read: name another file after -o.")
    problem = own_file.find_problem(found)
    if problem and is_resumed:
        remedy = "Remove it, or name another file after -o."
        raise UsageError(f"--resume doesn't take {name}: {problem}. {remedy}")
    if problem:
        remedy = f"remove it, or name another file after -o ({problem})"
        raise UsageError(f"{name} already exists: {remedy}.")


def open_existing(
    file: FileInFolder, found: os.stat_result, source: Source, options: Optional[FileOptions]
) -> int:
    """Opens the part of an earlier run."""
    fd = file.open(own_file.FLAGS)
    lock(fd, file)
    now = os.fstat(fd)
    is_other = own_file.find_problem(now) or not os.path.samestat(now, found)
    # A run that held the lock until now may have made the part its OUT, and removed the name.
    if is_other or not own_file.has_name(fd, file):
        raise UsageError(f"{file.display_name} was just replaced. Start again.")
    refuse_to_go_on(file, now, source, options)
    return fd


def create_part(file: FileInFolder) -> int:
    """Creates a part."""
    try:
        fd = own_file.create(file)
    except FileExistsError:
        raise UsageError(
            f"{file.display_name} was just made by another process. Start again."
        ) from None
    lock(fd, file)
    return fd


def lock(fd: int, file: FileInFolder) -> None:
    """Keeps other runs from the part as long as it is open."""
    try:
        fcntl.flock(fd, fcntl.LOCK_EX | fcntl.LOCK_NB)
    except BlockingIOError:
        raise UsageError(f"another run is writing {file.display_name}: wait for it.") from None


def refuse_to_go_on(
    file: FileInFolder, status: os.stat_result, source: Source, options: Optional[FileOptions]
) -> None:
    """Refuses a part of an earlier run, unless --resume is given and FILE is the same."""
    exists = f"{file.display_name} already exists"
    if options is None:
        raise UsageError(f"{exists}: remove it, or name another file after -o.")
    if status.st_size:
        refuse_another_file(file, status, source, options)
    if not options.resume:
        raise UsageError(f"{exists}: add --resume, else remove it.")


def refuse_another_file(
    file: FileInFolder, status: os.stat_result, source: Source, options: FileOptions
) -> None:
    """Refuses a part whose lines may be hashes of other passwords than FILE's."""
    before, now = resume_state.read(file), resume_state.current_state(options, source)
    name, name_of_state = file.display_name, resume_state.state_file(file).display_name
    both = f"{name} and {name_of_state}"
    if before is None:  # the part is GNU parallel's, for example: only the times can be compared
        refuse_newer(file, status, source)
        before = ResumeState(now.file, b"", now.choice, b"")
    if before == resume_state.INCOMPLETE:
        raise UsageError(
            f"{name_of_state} is incomplete. Remove {both}, and run the command without --resume."
        )
    if before.file != now.file:
        raise UsageError(
            f"{name} isn't from {source.name} as it is now: that is another file, or was "
            f"changed or touched since. Remove {both}, and run the command without --resume."
        )
    if options.resume:
        refuse_other_options(before, now, name, both)


def refuse_other_options(before: ResumeState, now: ResumeState, name: str, both: str) -> None:
    """Refuses options with which other lines, or other passwords, would be hashed."""
    if before.options != now.options:
        raise UsageError(
            f"{name} was started with other --windows, --csv, --columns, --generate, --by or "
            f"--list-columns. Give those; or remove {both}, and run the command without --resume."
        )
    if before.choice != now.choice:
        raise UsageError(
            f"{name} was started {describe_difference(before, now)}, so other lines may have been "
            f"left out. Give the options of that run; or remove {both}, and run the command "
            "without --resume."
        )


def describe_difference(before: ResumeState, now: ResumeState) -> str:
    """Says in which options that leave out lines two runs differ, as "with --skip-locked"."""
    words_before, words_now = before.choice.decode().split(), now.choice.decode().split()
    differences: List[str] = []
    # The first word is the budget, which follows from -m and -R if it isn't given.
    if words_before[0] != words_now[0]:
        differences.append("with another -m, -R or --budget")
    differences += [f"with {word}" for word in words_before[1:] if word not in words_now]
    differences += [f"without {word}" for word in words_now[1:] if word not in words_before]
    return ", ".join(differences) or "with other options"


def refuse_newer(file: FileInFolder, status: os.stat_result, source: Source) -> None:
    """Refuses a FILE that is newer than the part, if nothing else is known about the part."""
    if source.initial_status.st_mtime_ns > status.st_mtime_ns:
        touch = f"touch -r {source.path_for_shell()} {shell_quoted(file.path)} and add --resume"
        remedy = f"if no line changed: {touch}; else remove {file.display_name}"
        raise UsageError(
            f"{file.display_name} already exists, and {source.name} is newer; {remedy}."
        )

"""The log, the folders and the commands of a part that is measured.

A command runs in its own process group, which ends with the part, however that ends.
"""

from __future__ import annotations

import contextlib
import fcntl
import os
import shlex
import shutil
import signal
import subprocess
from collections.abc import Iterator, Mapping, Sequence
from dataclasses import dataclass
from pathlib import Path
from typing import BinaryIO

from measure.errors import Failed, Stop
from measure.repository import Repository

Word = str | Path
# The environment variables that a command gets. Others, such as make's, could influence results.
VARIABLES = ("HOME", "PATH", "RT", "RT_JOBS", "TMPDIR", "http_proxy", "https_proxy", "no_proxy")
CLONE = "clone"
MARK = "changing."  # and the name of a part: a file that is there while it changes the clone
SECONDS_TO_END = 20  # that a command has to end before it is killed
# With this wrapper, a command ends even if this process is killed.
WITH_THIS_PROCESS = ("setpriv", "--pdeathsig", "TERM", "--")


@dataclass(frozen=True)
class Sizes:
    """How much is measured."""

    lines: int  # of each kind, for make soak, in all of its blocks
    fuzz_seconds: int  # for each target, in all of its blocks
    plant_minutes: int  # at most, for each crate


@dataclass(frozen=True)
class Options:
    """The command line's options for measurements."""

    sizes: Sizes
    mirror: str | None  # None for the first one in apt's sources
    jobs: int  # how many parts may run side by side


def environment(changes: Mapping[str, str]) -> dict[str, str]:
    """Returns the environment of a command."""
    kept = {name: os.environ[name] for name in VARIABLES if name in os.environ}
    return {**kept, "LC_ALL": "C", **changes}


def toolchains_command() -> str:
    """Returns the path of the toolchain's command rt."""
    return os.environ.get("RT", "rt")


def answer_of(*command: Word) -> str:
    """Runs a short command, and returns its output without the last line feed."""
    words = [str(word) for word in command]
    try:
        done = subprocess.run(
            words, capture_output=True, encoding="utf-8", env=environment({}), check=False
        )
    except OSError as error:
        raise Failed(f"{words[0]}: {error.strerror}") from None
    if done.returncode != 0:
        raise Failed(f"{shlex.join(words)}: {done.stderr.strip()}")
    return done.stdout.removesuffix("\n")


def toolchain() -> str:
    """Returns the identity of the toolchain. Stops if there is none, since all parts need it."""
    try:
        return answer_of(toolchains_command(), "version")
    except Failed as error:
        raise Stop(str(error)) from None


def read_text(path: Path) -> str:
    """Reads a file that a command has written."""
    try:
        return path.read_text(encoding="utf-8", errors="replace")
    except OSError as error:
        raise Failed(f"{path}: {error.strerror}") from None


def end_group(process: subprocess.Popen[bytes]) -> None:
    """Ends a process group, first with SIGTERM, and then with SIGKILL."""
    with contextlib.suppress(ProcessLookupError):
        os.killpg(process.pid, signal.SIGTERM)
    with contextlib.suppress(subprocess.TimeoutExpired):
        process.wait(SECONDS_TO_END)
    with contextlib.suppress(ProcessLookupError):
        os.killpg(process.pid, signal.SIGKILL)
    process.wait()


def remove(folder: Path) -> None:
    """Removes a folder, if it exists, but nothing that is mounted below it."""
    if folder.exists():
        subprocess.run(["rm", "-rf", "--one-file-system", "--", str(folder)], check=False)
    if folder.exists():
        raise Stop(f"{folder} can't be removed")


@dataclass(frozen=True)
class Workplace:
    """The place where one part of the evidence is measured for a commit."""

    repository: Repository
    commit: str
    part: str
    folder: Path  # it keeps the built clone from part to part
    options: Options
    processors: tuple[int, ...]  # those that the part's measurement may use
    log: BinaryIO

    @property
    def outputs(self) -> Path:
        """The folder of logs, artifacts and fuzzers' inputs of this commit."""
        return outputs_of(self.folder, self.commit)

    @property
    def clone(self) -> Path:
        """The folder of the built clone."""
        return self.folder / CLONE

    @contextlib.contextmanager
    def scratch(self) -> Iterator[Path]:
        """Makes an empty folder for the block. Removes one that a killed run has left."""
        place = self.folder / "scratch"
        remove(place)
        place.mkdir(parents=True)
        try:
            yield place
        finally:
            remove(place)

    def run(self, *command: Word, cwd: Path, env: Mapping[str, str] | None = None) -> None:
        """Runs a command to its end. Its output goes to the log."""
        words = [str(word) for word in command]
        shown = shlex.join(words)
        self.log.write(f"$ {shown}\n".encode())
        self.log.flush()
        try:
            process = subprocess.Popen(  # pylint: disable=consider-using-with
                [*WITH_THIS_PROCESS, *words],
                cwd=cwd,
                env=environment(env or {}),
                stdin=subprocess.DEVNULL,
                stdout=self.log,
                stderr=subprocess.STDOUT,
                start_new_session=True,
            )
        except OSError as error:
            raise Failed(f"{WITH_THIS_PROCESS[0]}: {error.strerror}") from None
        try:
            status = process.wait()
        except BaseException:
            end_group(process)
            raise
        if status != 0:
            raise Failed(f"`{shown}` ended with status {status}")

    def printed(self) -> str:
        """Returns what the commands of this part have printed."""
        return Path(self.log.name).read_text(encoding="utf-8", errors="replace")

    # Clones

    def new_clone(self, folder: Path) -> Path:
        """Makes a clone of the commit, in which nothing is built yet."""
        self.repository.clone(self.commit, folder)
        return folder

    def prepare_clone(self, targets: Sequence[str]) -> None:
        """Makes the built clone, if there is none, and builds targets of make in it.

        Parts that run side by side share the clone, so one of them builds, and the others wait. A
        new clone begins with the proofs that rt has saved in this tree.
        """
        with (self.folder / f"{CLONE}.lock").open("w", encoding="ascii") as lock:
            fcntl.flock(lock, fcntl.LOCK_EX)
            with self.marked():
                if not self.clone.exists():
                    self.repository.clone(self.commit, self.clone)
                    copy_proofs(self.repository.folder, self.clone)
                self.repository.give(self.commit, self.clone)
                if targets:
                    self.run("make", *targets, cwd=self.clone)

    @contextlib.contextmanager
    def marked(self) -> Iterator[None]:
        """Marks the built clone while the block changes it.

        The mark stays if the block is interrupted, since it may leave something half built; see
        `remove_half_built`.
        """
        mark = self.folder / f"{MARK}{self.part}"
        mark.touch()
        try:
            yield
        except Failed:
            mark.unlink()
            raise
        mark.unlink()


def outputs_of(folder: Path, commit: str) -> Path:
    """Returns the folder of logs, artifacts and fuzzers' inputs of a commit."""
    return folder / commit


def remove_half_built(folder: Path) -> None:
    """Removes the built clone if an interrupted part may have left something half built in it.

    No part may run meanwhile.
    """
    marks = list(folder.glob(f"{MARK}*"))
    if marks:
        remove(folder / CLONE)
    for mark in marks:
        mark.unlink()


def copy_proofs(source: Path, clone: Path) -> None:
    """Copies rt's saved proofs, which rt reuses only if the files are the same."""
    for kept in source.glob("crates/*/out"):
        shutil.copytree(kept, clone / kept.relative_to(source), symlinks=True, dirs_exist_ok=True)

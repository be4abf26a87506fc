"""Runs commands. A failure shows the command, what was expected and what it printed."""
from __future__ import annotations

import contextlib
import os
import shlex
import signal
import subprocess
import threading
from dataclasses import dataclass
from pathlib import Path
from typing import IO, Iterator, Mapping, Sequence

Word = str | bytes | Path | int  # an argument of a command
Changes = Mapping[str, str | None]  # changes to the environment: None removes a variable
LONGEST_SHOWN = 3000


@dataclass(frozen=True)
class Result:
    """A command's exit status and output."""

    command: tuple[Word, ...]
    status: int  # 128 + the signal if a signal ended it, as in a shell
    stdout: bytes
    stderr: bytes
    has_timed_out: bool = False

    def __str__(self) -> str:
        ending = (
            f"{self.status}, killed after its time limit" if self.has_timed_out else self.status
        )
        lines = [
            f"the command: {printable_command(self.command)}",
            f"its status: {ending}",
            f"its stdout: {printable(self.stdout)}",
            f"its stderr: {printable(self.stderr)}",
        ]
        return "\n".join(lines)

    def required(self) -> Result:
        """Returns this result. Fails the test unless the command succeeded."""
        if self.status != 0:
            raise AssertionError(f"expected status: 0\n{self}")
        return self


def printable(value: bytes) -> str:
    """Returns bytes as a literal, cut if there are very many."""
    cut = f".. ({len(value)} bytes)" if len(value) > LONGEST_SHOWN else ""
    return repr(value[:LONGEST_SHOWN]) + cut


def printable_word(word: Word) -> str:
    """Returns an argument as a string, with escapes for bytes outside ASCII."""
    if isinstance(word, bytes):
        return ascii(word).removeprefix("b")[1:-1]  # without the quotes
    return str(word)


def printable_command(command: Sequence[Word]) -> str:
    """Returns a command as one line of printable characters, cut if it is very long."""
    text = shlex.join(map(printable_word, command)).replace("\n", "\\n")
    return text if len(text) <= LONGEST_SHOWN else f"{text[:LONGEST_SHOWN]}.."


def assert_result(
    result: Result, *, status: int = 0, stdout: bytes = b"", stderr: bytes = b""
) -> None:
    """Fails the test unless the command ended with this status and printed exactly this."""
    expected = []
    if result.status != status:
        expected.append(f"expected status: {status}")
    if result.stdout != stdout:
        expected.append(f"expected stdout: {printable(stdout)}")
    if result.stderr != stderr:
        expected.append(f"expected stderr: {printable(stderr)}")
    if expected:
        raise AssertionError("\n".join([*expected, str(result)]))


def changed_environment(changes: Changes | None) -> dict[str, str]:
    """Returns this process's environment with the C locale and these changes."""
    environment = {**os.environ, "LC_ALL": "C"}
    for name, value in (changes or {}).items():
        if value is None:
            environment.pop(name, None)
        else:
            environment[name] = value
    return environment


def words_of(command: Sequence[Word]) -> list[str | bytes]:
    """Returns a command's arguments as subprocess accepts them."""
    return [word if isinstance(word, bytes) else str(word) for word in command]


def kill_group(process: subprocess.Popen[bytes]) -> None:
    """Kills a process that leads a process group, and all others in the group."""
    with contextlib.suppress(ProcessLookupError):
        os.killpg(process.pid, signal.SIGKILL)


def run(
    *command: Word,
    stdin: bytes | Path = b"",
    stdout: Path | None = None,
    env: Changes | None = None,
    cwd: Path | None = None,
    timeout: float = 300,
) -> Result:
    """Runs a command. Its stdin is the given bytes or a file, and its stdout may go to a file.

    After the time limit, the command's whole process group is killed: subprocess.run would kill
    only the first process, and wait for others that still hold the pipes.
    """
    with contextlib.ExitStack() as files:
        reader = subprocess.PIPE if isinstance(stdin, bytes) else opened(files, stdin, os.O_RDONLY)
        writer = subprocess.PIPE if stdout is None else opened(files, stdout, os.O_WRONLY)
        process = subprocess.Popen(  # pylint: disable=consider-using-with
            words_of(command),
            stdin=reader,
            stdout=writer,
            stderr=subprocess.PIPE,
            env=changed_environment(env),
            cwd=cwd,
            start_new_session=True,
        )
    has_timed_out = False
    given = stdin if isinstance(stdin, bytes) else None
    try:
        out, err = process.communicate(given, timeout)
    except subprocess.TimeoutExpired:
        has_timed_out = True
        kill_group(process)
        out, err = process.communicate()
    except BaseException:  # such as ^C, which doesn't reach the command's own session
        kill_group(process)
        process.wait()
        raise
    return Result(command, status_of(process), out or b"", err, has_timed_out)


def opened(files: contextlib.ExitStack, path: Path, flags: int) -> int:
    """Opens a file or a folder, to be closed with `files`, and returns its descriptor."""
    descriptor = os.open(path, flags)
    files.callback(os.close, descriptor)
    return descriptor


def status_of(process: subprocess.Popen[bytes]) -> int:
    """Returns the exit status of a process that has ended, as a shell reports it."""
    status = process.returncode
    return status if status >= 0 else 128 - status


@contextlib.contextmanager
def started(
    *command: Word,
    stdin: int | IO[bytes] = subprocess.DEVNULL,
    stdout: int | IO[bytes] = subprocess.DEVNULL,
    stderr: int | IO[bytes] = subprocess.DEVNULL,
    env: Changes | None = None,
    cwd: Path | None = None,
    timeout: float = 300,
) -> Iterator[subprocess.Popen[bytes]]:
    """Runs a command while the block runs.

    At the end of the block, or after the time limit, its whole process group is killed.
    """
    with subprocess.Popen(
        words_of(command),
        stdin=stdin,
        stdout=stdout,
        stderr=stderr,
        env=changed_environment(env),
        cwd=cwd,
        start_new_session=True,
    ) as process:
        watchdog = threading.Timer(timeout, kill_group, [process])
        watchdog.start()
        try:
            yield process
        finally:
            watchdog.cancel()
            kill_group(process)

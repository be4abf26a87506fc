"""Signals end pwhash even during a hash; it leaves no core file and restores the terminal."""
from __future__ import annotations

import contextlib
import os
import pathlib
import shlex
import signal
import subprocess

import pytest
from support.needs import needed, not_applicable
from support.pwhash_runs import (
    MD5CRYPT,
    PWHASH,
    least_seconds,
    seconds_to_end,
    shell,
    shows_keys,
    started,
    wait_for,
)

with needed("python3-pexpect"):
    import pexpect


def at_second_prompt(script: str = "", words: tuple[str, ...] = MD5CRYPT) -> pexpect.spawn[bytes]:
    """Returns a terminal at which pwhash has read a password and asks for it again."""
    script = f"{script}\nexec {PWHASH} {shlex.join(words)}"
    child = pexpect.spawn("/bin/sh", ["-c", script], timeout=60)
    child.expect(rb"Password: ")
    child.send(b"secret\r")
    child.expect(rb"Again: ")
    return child


@pytest.mark.parametrize(
    "number",
    [signal.SIGXCPU, signal.SIGABRT, signal.SIGSEGV, signal.SIGQUIT, signal.SIGSYS],
    ids=lambda number: signal.Signals(number).name,
)
def test_no_signal_writes_a_typed_password_to_a_file(number: int) -> None:
    if shell("ulimit -c unlimited").status != 0:
        not_applicable("this process may write no core files")
    child = at_second_prompt("ulimit -c unlimited || exit")
    child.kill(number)
    child.expect(pexpect.EOF)
    child.close()
    assert os.WIFSIGNALED(child.status) and not os.WCOREDUMP(child.status), child.status
    assert not list(pathlib.Path().glob("core*"))


def test_no_limit_writes_a_password_to_a_file() -> None:
    """The limit on processor time ends pwhash while it hashes."""
    script = 'ulimit -c unlimited || exit; ulimit -S -t 1; exec "$@"'
    done = shell(script, "-R", "50M", stdin=b"secret\n")
    assert done.status != 0 and not list(pathlib.Path().glob("core*")), done


def fatal_signals() -> list[int]:
    """Returns the signals that end a process, can be caught, and aren't ignored by Python."""
    uncatchable = {"KILL", "STOP"}
    not_fatal = {"TSTP", "TTIN", "TTOU", "CONT", "CHLD", "URG", "WINCH"}
    ignored_by_python = {"PIPE", "XFSZ"}
    others = {f"SIG{name}" for name in uncatchable | not_fatal | ignored_by_python}
    return [number for number in signal.Signals if number.name not in others]


@pytest.mark.parametrize("number", fatal_signals(), ids=lambda number: signal.Signals(number).name)
def test_the_terminal_shows_keys_after_any_signal(number: int) -> None:
    child = at_second_prompt()
    was_hidden = not shows_keys(child.child_fd)
    child.kill(number)
    child.expect(pexpect.EOF)
    is_shown = shows_keys(child.child_fd)
    child.close()
    assert was_hidden and is_shown and child.signalstatus == number, child


LONG_HASH = ("-m", "sha512crypt", "-R", "300M", "--budget", "1000000M")
MOST_SECONDS = 1.0  # from a signal to the end
# The place of utime, the processor time, among the fields after the name in /proc/PID/stat, and its
# unit.
UTIME = 11
TICKS_OF_SECOND = os.sysconf("SC_CLK_TCK")


def write_and_close(process: subprocess.Popen[bytes], data: bytes) -> None:
    """Writes data to a process's standard input, and closes it."""
    assert process.stdin
    process.stdin.write(data)
    process.stdin.close()
    process.stdin = None


def is_hashing(process: int) -> bool:
    """Returns whether a thread other than the first has used 0.1 s of processor time."""
    for path in pathlib.Path(f"/proc/{process}/task").glob("*/stat"):
        with contextlib.suppress(OSError):
            fields = path.read_text(encoding="latin-1").rpartition(")")[2].split()
            is_first = path.parent.name == str(process)
            if not is_first and int(fields[UTIME]) >= TICKS_OF_SECOND / 10:
                return True
    return False


@pytest.mark.parametrize(
    "number",
    [signal.SIGKILL, signal.SIGUSR1, signal.SIGTERM, signal.SIGINT, signal.SIGHUP, signal.SIGQUIT],
    ids=lambda number: signal.Signals(number).name,
)
@pytest.mark.parametrize(
    ("words", "data"),
    [
        pytest.param(LONG_HASH, b"secret\n", id="one"),
        pytest.param(("file", *LONG_HASH), b"ann:secret\nbob:secret\n", id="file"),
        pytest.param(
            ("check", "--budget", "1000000M"),
            b"ann:$6$rounds=300000000$a$b:secret\n",
            id="check",
        ),
    ],
)
def test_a_signal_ends_a_run_during_a_costly_hash(
    words: tuple[str, ...], data: bytes, number: int
) -> None:
    def attempt() -> float:
        with started(*words) as process:
            write_and_close(process, data)
            wait_for(lambda: is_hashing(process.pid))
            seconds, done = seconds_to_end(process, number)
        assert done.status == -number and done.out == b"", done
        return seconds

    assert least_seconds(attempt, MOST_SECONDS) <= MOST_SECONDS

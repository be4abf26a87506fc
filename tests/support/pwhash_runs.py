"""Runs pwhash as a user does: in the current folder, at a terminal, on a machine with limits.

The variable PWHASH names another pwhash to test, with its python/src and its library beside
its folder.
"""

from __future__ import annotations

import contextlib
import dataclasses
import math
import os
import pathlib
import random
import re
import shlex
import shutil
import signal
import statistics
import subprocess
import termios
import time
from collections.abc import Callable, Iterator, Sequence
from typing import Any

from . import ROOT
from .libxcrypt import crypt
from .needs import need, not_applicable
from .process import kill_group

PWHASH = os.environ.get("PWHASH", str(ROOT / "bin/pwhash"))
MD5 = "$1$xxxxxxxx$UYCIxa628.9qXjpQCjM4a."  # libxcrypt's hash of "password" with MD5CRYPT's salt
MD5CRYPT = ("-m", "md5crypt", "-S", "xxxxxxxx")
BOM = b"\xef\xbb\xbf"  # Windows programs put it before UTF-8 text
ESCAPE = "\x1b[2J"  # clears the screen of a terminal
BY_NUMBER = ("--columns", "1,2")
SECONDS_OF_A_RUN = 900  # a run that takes longer hangs
SECONDS_TO_END = 300  # for a run without a load to watch
MOST_TRIES = 10  # of what a busy machine can spoil
# A run with these words takes a second for SLOW_COUNT lines, shared among the processors. So a test
# can disturb it in between.
SLOW = ("-m", "sha512crypt", "-R", "20000", "-S", "saltsalt")
SLOW_COUNT = 120


@dataclasses.dataclass(frozen=True)
class Ended:
    """A command that has ended, and what it printed."""

    command: str
    status: int
    out: bytes
    err: bytes

    def __str__(self) -> str:
        return f"{self.command}\nstatus {self.status}\nstdout {self.out!r}\nstderr {self.err!r}"


def ended(process: subprocess.Popen[bytes], data: bytes = b"") -> Ended:
    """Feeds data to a command, and waits for its end."""
    try:
        out, err = process.communicate(data, timeout=SECONDS_TO_END)
    except subprocess.TimeoutExpired:
        os.killpg(process.pid, signal.SIGKILL)
        raise
    words = process.args if isinstance(process.args, list) else [str(process.args)]
    return Ended(shlex.join(map(os.fsdecode, words)), process.returncode, out or b"", err or b"")


def started(*words: str | bytes, **options: Any) -> subprocess.Popen[bytes]:
    """Starts pwhash in a process group of its own."""
    return started_program(PWHASH, *words, **options)


def on_few_processors() -> tuple[str, ...]:
    """Returns the words before a command that let it use at most four processors.

    With more, a run might end before the test acts. They are chosen at random, since other tests
    run at the same time.
    """
    available = sorted(os.sched_getaffinity(0))
    chosen = random.sample(available, min(4, len(available)))
    return ("taskset", "--cpu-list", ",".join(map(str, chosen)))


def started_program(*words: str | bytes, **options: Any) -> subprocess.Popen[bytes]:
    with_defaults: dict[str, Any] = {
        "stdin": subprocess.PIPE,
        "stdout": subprocess.PIPE,
        "stderr": subprocess.PIPE,
        "start_new_session": True,
    }
    options = {**with_defaults, **options}
    return subprocess.Popen(list(words), **options)


def pwhash(*words: str | bytes, stdin: bytes = b"") -> Ended:
    """Runs pwhash with these words and this standard input, and waits for its end."""
    return ended(started(*words), stdin)


def shell(script: str, *words: str, stdin: bytes = b"") -> Ended:
    """Runs a script, in which "$@" is pwhash with these words."""
    return ended(started_program("/bin/sh", "-c", script, "sh", PWHASH, *words), stdin)


def in_namespace(script: str, *words: str, stdin: bytes = b"") -> Ended:
    """Runs a script like shell(), but with `set -e` in a mount namespace. Only root can do this."""
    need("unshare", "namespaces")
    command = ["unshare", "--mount", "/bin/sh", "-c", f"set -e\n{script}", "sh", PWHASH, *words]
    return ended(started_program(*command), stdin)


def save(name: str, data: bytes) -> str:
    pathlib.Path(name).write_bytes(data)
    return name


def save_part(name: str, data: bytes) -> str:
    """Writes a part file with the mode that pwhash gives it."""
    save(name, data)
    os.chmod(name, 0o600)
    return name


def read(name: str) -> bytes:
    return pathlib.Path(name).read_bytes()


def hashed(password: bytes, setting: str = "$1$xxxxxxxx") -> bytes:
    """Returns libxcrypt's hash of a password."""
    return crypt(password, setting.encode())


def lines_named_in(message: bytes) -> list[int]:
    """Returns the numbers of the lines that a message of pwhash names."""
    return [int(number) for number in re.findall(rb"line ([0-9]+)", message)]


# The lines that pwhash makes from "ann:pw1" and "bob:pw2" with MD5CRYPT.
ANN = b"ann:" + hashed(b"pw1") + b"\n"
BOB = b"bob:" + hashed(b"pw2") + b"\n"


def wait_for(condition: Callable[[], bool]) -> None:
    end = time.monotonic() + 60
    while not condition():
        assert time.monotonic() < end, "the condition didn't hold within a minute"
        time.sleep(0.005)


def has_begun(part: str = "hashes.part") -> bool:
    """Returns whether a run has written something to its part file."""
    with contextlib.suppress(FileNotFoundError):
        return os.path.getsize(part) > 0
    return False


def remove(name: str) -> None:
    """Removes a file, or a folder with all that is in it."""
    if os.path.isdir(name) and not os.path.islink(name):
        shutil.rmtree(name)
    else:
        os.remove(name)


def least_seconds(attempt: Callable[[], float], enough: float) -> float:
    """Repeats an attempt until it takes at most `enough` seconds, and returns the least time.

    The attempt returns its time. The machine may be busy, or stand still for a moment, but a fault
    of the product shows in every attempt.
    """
    least = math.inf
    for _ in range(MOST_TRIES):
        least = min(least, attempt())
        if least <= enough:
            break
    return least


def seconds_to_end(process: subprocess.Popen[bytes], number: int) -> tuple[float, Ended]:
    """Sends a signal to a command. Returns how long its end takes, and how it ended."""
    begun = time.monotonic()
    process.send_signal(number)
    done = ended(process)
    return time.monotonic() - begun, done


def users(count: int) -> bytes:
    """Returns this many lines `NAME:PASSWORD`."""
    return b"".join(b"user%d:password%d\n" % (number, number) for number in range(count))


@contextlib.contextmanager
def halted(*command: str, part: str = "hashes.part") -> Iterator[subprocess.Popen[bytes]]:
    """Starts a command, and stops it by SIGSTOP when its part has some of SLOW_COUNT lines.

    Then it runs the block with the process, which go_on() lets go on, and kills the process. It
    repeats a run that ends before it is stopped, without the files that this run has made.
    """
    folder = os.path.dirname(part) or "."
    before = set(os.listdir(folder))
    for _ in range(MOST_TRIES):
        with started_program(*on_few_processors(), *command) as process:
            try:
                if is_halted_halfway(process, part):
                    yield process
                    return
            finally:
                process.kill()
            done = ended(process)
        for name in set(os.listdir(folder)) - before:
            remove(os.path.join(folder, name))
    raise AssertionError(f"{MOST_TRIES} runs ended before they were stopped, the last so:\n{done}")


def is_halted_halfway(process: subprocess.Popen[bytes], part: str) -> bool:
    """Stops a run when its part has a line, and returns whether it still has to write others.

    One of the SLOW_COUNT lines may be a line that the run skips.
    """
    wait_for(lambda: process.poll() is not None or has_begun(part))
    process.send_signal(signal.SIGSTOP)
    wait_for(lambda: process.poll() is not None or state_of(process.pid) == "T")
    return has_begun(part) and read(part).count(b"\n") < SLOW_COUNT - 1


def go_on(process: subprocess.Popen[bytes]) -> Ended:
    """Lets a halted run go on, and waits for its end."""
    process.send_signal(signal.SIGCONT)
    return ended(process)


@contextlib.contextmanager
def halted_run() -> Iterator[subprocess.Popen[bytes]]:
    """Runs the block while a run that hashes `passwords` is halted.

    The list is from 2001, so that every change by a test gives it another time.
    """
    save("passwords", users(SLOW_COUNT))
    os.utime("passwords", (1e9, 1e9))
    with halted(PWHASH, "file", *SLOW, "passwords", "-o", "hashes") as process:
        yield process


@contextlib.contextmanager
def stopped_by_strace(
    trace: Sequence[str], *words: str, **options: Any
) -> Iterator[subprocess.Popen[bytes]]:
    """Runs pwhash under strace, and runs the block once pwhash is stopped.

    The words `trace` are strace's options, which inject SIGSTOP at a system call. pwhash stops when
    it has made that call, and the block can call continued().
    """
    command = ("strace", "-f", "-qq", "-o", "log", *trace, PWHASH, *words)
    with started_program(*command, **options) as process:
        try:
            wait_for(lambda: os.path.exists("log") and b"stopped by SIGSTOP" in read("log"))
            yield process
        finally:
            kill_group(process)


def continued(process: subprocess.Popen[bytes]) -> Ended:
    """Continues a command that strace has stopped, and waits for its end."""
    os.killpg(process.pid, signal.SIGCONT)
    return ended(process)


def command_to_go_on(done: Ended) -> str:
    """Returns the command that an interrupted run prints for resuming it."""
    return done.err.decode().split("To go on:\n")[1].strip()


@dataclasses.dataclass(frozen=True)
class Terminal:
    """What a terminal displayed, and how the command on it ended."""

    status: int
    screen: bytes
    shows_keys_at_prompt: bool
    shows_keys_afterwards: bool


def shows_keys(terminal: int) -> bool:
    local_modes = termios.tcgetattr(terminal)[3]
    return bool(local_modes & termios.ECHO)


def erase_whole_characters(utf8: bool) -> None:
    """Makes the terminal on standard input erase a character of UTF-8 whole, or byte by byte."""
    attributes = termios.tcgetattr(0)
    input_modes = attributes[0]
    iutf8 = getattr(termios, "IUTF8", 0o40000)  # Python has its name from 3.13 on
    attributes[0] = input_modes | iutf8 if utf8 else input_modes & ~iutf8
    termios.tcsetattr(0, termios.TCSANOW, attributes)


def at_terminal(
    words: Sequence[str], keys: Sequence[bytes], kill: int | None = None, utf8: bool = False
) -> Terminal:
    """Runs pwhash at a terminal, and types each of `keys` at a prompt.

    If `kill` is given, sends this signal at the next prompt.
    """
    need("python3-pexpect")
    import pexpect

    child = pexpect.spawn(
        PWHASH,
        list(words),
        timeout=60,
        echo=True,
        preexec_fn=lambda: erase_whole_characters(utf8),  # later it would undo what pwhash sets
    )
    screen = b""
    shows_at_prompt = False
    for key in keys:
        child.expect(rb": ")
        screen += child.before + child.after
        shows_at_prompt = shows_at_prompt or shows_keys(child.child_fd)
        child.send(key)
    if kill is not None:
        child.expect(rb": ")
        child.kill(kill)
    child.expect(pexpect.EOF)
    screen += child.before
    shows_afterwards = shows_keys(child.child_fd)
    child.close()
    status = os.waitstatus_to_exitcode(child.status)
    return Terminal(status, screen, shows_at_prompt, shows_afterwards)


def type_secret(child: Any) -> bytes:
    """Types "secret" at the prompt that is shown and at the next. Returns what appears then."""
    import pexpect

    child.send(b"secret\r")
    child.expect(rb"Again: ")
    screen = bytes(child.before)
    child.send(b"secret\r")
    child.expect(pexpect.EOF)
    screen += bytes(child.before)
    child.close()
    return screen


@dataclasses.dataclass(frozen=True)
class Load:
    """The load of a run: its working threads (the median, without the first thread), and memory.

    The memory is the greatest number of bytes that were resident.
    """

    working: float
    memory: int


def state_and_parent(stat: pathlib.Path) -> tuple[str, int]:
    """Reads proc(5)'s file `stat` of a process or a thread: its state, and its parent's id.

    The name before them, in parentheses, may have any characters.
    """
    text = stat.read_text(encoding="latin-1")
    state, parent = text.rpartition(")")[2].split()[:2]
    return state, int(parent)


def tree(first: int) -> list[int]:
    """Returns the ids of a process and of all its descendants."""
    children: dict[int, list[int]] = {}
    for process in filter(str.isdecimal, os.listdir("/proc")):
        with contextlib.suppress(OSError):  # it has ended
            _, parent = state_and_parent(pathlib.Path(f"/proc/{process}/stat"))
            children.setdefault(parent, []).append(int(process))
    found = [first]
    for number in found:
        found += children.get(number, [])
    return found


def working_threads(process: int, first: int) -> int:
    """Counts the threads that are running or ready, except `first`, which deals out the work."""
    count = 0
    with contextlib.suppress(OSError):  # it has ended
        for path in pathlib.Path(f"/proc/{process}/task").iterdir():
            state, _ = state_and_parent(path / "stat")
            if state == "R" and path.name != str(first):
                count += 1
    return count


def state_of(process: int) -> str:
    """Returns proc(5)'s letter for a process's state, such as T if stopped, or "" if it is gone."""
    with contextlib.suppress(OSError):
        state, _ = state_and_parent(pathlib.Path(f"/proc/{process}/stat"))
        return state
    return ""


def resident(process: int) -> int:
    """Returns how many bytes of a process are in memory, or 0 if it has ended."""
    with contextlib.suppress(OSError):
        statm = pathlib.Path(f"/proc/{process}/statm").read_text(encoding="ascii")
        _size, pages, *_ = statm.split()
        return int(pages) * os.sysconf("SC_PAGE_SIZE")
    return 0


def load_of(process: subprocess.Popen[bytes]) -> Load:
    """Watches a command until it ends, and returns what it used."""
    working: list[int] = []
    memory = 0
    hangs_at = time.monotonic() + SECONDS_OF_A_RUN
    while process.poll() is None:
        assert time.monotonic() < hangs_at, f"{process.args!r} hangs"
        processes = tree(process.pid)
        count = sum(working_threads(each, process.pid) for each in processes)
        if count:
            working.append(count)
        memory = max(memory, sum(map(resident, processes)))
        time.sleep(0.02)
    return Load(statistics.median(working) if working else 0, memory)


def watched(script: str, *words: str) -> tuple[Ended, Load]:
    """Runs pwhash after a script that changes what it sees of the machine. Measures its load."""
    need("unshare", "namespaces")
    script = f'set -e\n{script}\nexec "$@"'
    command = ["unshare", "--mount", "/bin/sh", "-c", script, "sh", PWHASH, *words]
    with open("out", "wb") as out, open("err", "wb") as err:
        options = {"stdin": subprocess.DEVNULL, "stdout": out, "stderr": err}
        with started_program(*command, **options) as process:
            load = load_of(process)
    return Ended(shlex.join(command), process.returncode, read("out"), read("err")), load


def some_processors(count: int) -> str:
    """Returns a script for watched() that lets the run use this many processors."""
    available = sorted(os.sched_getaffinity(0))
    if len(available) < 4:
        not_applicable("fewer than four processors")
    return f"taskset -cp {','.join(map(str, available[:count]))} $$ > mask"


def available(mebibytes: int) -> str:
    """Returns a script for watched() by which the machine has this much memory left."""
    return f"""
        sed 's/^MemAvailable:.*/MemAvailable:   {mebibytes << 10} kB/' /proc/meminfo > meminfo
        mount --bind meminfo /proc/meminfo
    """


# Scripts for watched() that put the run into a control group without limits, of version 2 (below
# the group `above`) or of version 1. What follows such a script can set a limit.
GROUP_VERSION_2 = """
    mount -t tmpfs none /sys/fs/cgroup
    echo 0::/above/own > group
    mount --bind group /proc/$$/cgroup
    mkdir -p /sys/fs/cgroup/above/own
    cd /sys/fs/cgroup/above
    echo max 100000 > own/cpu.max; echo max > own/memory.max; echo 0 > own/memory.current
    echo max 100000 > cpu.max; echo max > memory.max; echo 0 > memory.current
"""
GROUP_VERSION_1 = """
    mount -t tmpfs none /sys/fs/cgroup
    printf '%s\\n' 7:memory:/own 5:cpu,cpuacct:/own 0::/ > group
    mount --bind group /proc/$$/cgroup
    mkdir -p /sys/fs/cgroup/cpu/own /sys/fs/cgroup/memory/own
    cd /sys/fs/cgroup
    echo -1 > cpu/own/cpu.cfs_quota_us; echo 100000 > cpu/own/cpu.cfs_period_us
    echo 9223372036854771712 > memory/own/memory.limit_in_bytes
    echo 0 > memory/own/memory.usage_in_bytes
"""

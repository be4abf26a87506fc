"""Gives a test a machine of its own: namespaces for mounts, processes and the network.

One process holds the namespaces, and when it ends the kernel ends all processes in them. The test
itself stays outside: nsenter runs commands inside, the machine's files are below /proc, and a
thread can open sockets inside. Each machine has a loopback interface with every port free, and may
change its own /etc, so that such tests can run in parallel.
"""
from __future__ import annotations

import contextlib
import ctypes
import fcntl
import os
import signal
import socket
import struct
import subprocess
from collections.abc import Iterator
from dataclasses import dataclass
from pathlib import Path

from .process import Changes, Result, Word, run, started

UNSHARE = ("unshare", "--mount", "--net", "--pid", "--fork", "--kill-child", "--mount-proc")
# The namespaces end when the process that runs the tests does, for whatever reason.
UNTIL_TESTS_END = ("setpriv", "--pdeathsig", "KILL", *UNSHARE)
# The first process inside. It ignores SIGCHLD, so that the kernel reaps orphans.
HOLDER = "trap '' CHLD; echo ready; exec sleep infinity"
LONGEST = 7200  # seconds that namespaces may last
CLONE_NEWNET = 0x40000000  # from setns(2)
SIOCSIFFLAGS, IFF_UP = 0x8914, 1  # from netdevice(7)
DEVICES = "null zero full random urandom tty"

# A script for sh. $1 is the folder, and $2 is "empty" or "copy".
OWN_FOLDER = """\
new=$(mktemp -d)
mount -n -t tmpfs -o mode=755 tmpfs "$new"
[ "$2" = empty ] || cp -a "$1/." "$new"
mount -n --move "$new" "$1"
rmdir "$new"
"""
OWN_DEVICES = f"""\
new=$(mktemp -d)
mount -n -t tmpfs -o mode=755 tmpfs "$new"
for name in {DEVICES}; do
    : > "$new/$name"
    mount -n --bind "/dev/$name" "$new/$name"
done
ln -s /proc/self/fd "$new/fd"
ln -s /proc/self/fd/0 "$new/stdin"
ln -s /proc/self/fd/1 "$new/stdout"
ln -s /proc/self/fd/2 "$new/stderr"
mkdir -m 1777 "$new/shm"
mount -n --move "$new" /dev
rmdir "$new"
"""

_library = ctypes.CDLL(None, use_errno=True)


def children_of(number: int) -> list[int]:
    """Returns the process ids of a process's children that haven't been reaped."""
    try:
        text = Path(f"/proc/{number}/task/{number}/children").read_text(encoding="ascii")
    except (FileNotFoundError, ProcessLookupError):
        return []
    return [int(word) for word in text.split()]


@dataclass(frozen=True)
class Namespaces:
    """A machine within this one. It shares all files for which it has no mount of its own."""

    holder: int  # the id of its first process, as seen from outside

    def entering(self, *command: Word, folder: Path | None = None) -> list[Word]:
        """Returns the command that runs a command inside, in a folder of the machine."""
        namespaces = [f"--target={self.holder}", "--mount", "--net", "--pid"]
        return ["nsenter", *namespaces, f"--wdns={folder or '/'}", "--", *command]

    def run(
        self,
        *command: Word,
        stdin: bytes = b"",
        env: Changes | None = None,
        folder: Path | None = None,
        timeout: float = 300,
    ) -> Result:
        """Runs a command inside."""
        words = self.entering(*command, folder=folder)
        return run(*words, stdin=stdin, env=env, timeout=timeout)

    @contextlib.contextmanager
    def started(
        self, *command: Word, log: Path | None = None, env: Changes | None = None
    ) -> Iterator[subprocess.Popen[bytes]]:
        """Runs a command inside while the block runs, and then kills it.

        Its output goes into the file `log`.
        """
        words = self.entering(*command)
        with open(log or os.devnull, "wb") as out:
            with started(*words, stdout=out, stderr=out, env=env, timeout=LONGEST) as process:
                yield process

    # ---- Files

    def path(self, path: str | Path) -> Path:
        """Returns the path by which the test reaches a file of the machine.

        A link to an absolute path would lead to the test's own files, so don't follow such links.
        """
        return Path(f"/proc/{self.holder}/root{path}")

    def read(self, path: str) -> bytes:
        """Returns the content of a file of the machine."""
        return self.path(path).read_bytes()

    def write(self, path: str, content: bytes | str, mode: int | None = None) -> None:
        """Writes a file of the machine. By default an existing file keeps its mode."""
        file = self.path(path)
        file.write_bytes(content.encode() if isinstance(content, str) else content)
        if mode is not None:
            file.chmod(mode)

    def append(self, path: str, content: bytes | str) -> None:
        """Appends to a file of the machine."""
        self.write(
            path, self.read(path) + (content.encode() if isinstance(content, str) else content)
        )

    def make_folder(self, path: str) -> None:
        """Makes a folder and its parents, if they don't exist."""
        self.path(path).mkdir(parents=True, exist_ok=True)

    def own_folder(self, folder: str, *, is_empty: bool = False) -> None:
        """Mounts a folder in memory over an existing one: a copy of it, or an empty one."""
        self.run("sh", "-euc", OWN_FOLDER, "sh", folder, "empty" if is_empty else "copy").required()

    def own_devices(self) -> None:
        """Gives the machine a /dev of its own, with the devices that every program may expect."""
        self.run("sh", "-euc", OWN_DEVICES).required()

    # ---- The network

    @contextlib.contextmanager
    def network(self) -> Iterator[None]:
        """Moves this thread into the machine's network for the block. New sockets remain there."""
        with open("/proc/thread-self/ns/net", "rb") as outside:
            with open(f"/proc/{self.holder}/ns/net", "rb") as inside:
                enter_network(inside.fileno())
            try:
                yield
            finally:
                enter_network(outside.fileno())

    def connected(self, port: int, seconds: float) -> socket.socket:
        """Opens a connection to a port inside."""
        with self.network():
            return socket.create_connection(("127.0.0.1", port), seconds)

    def raise_loopback(self) -> None:
        """Brings the loopback interface up."""
        request = struct.pack("16sH22x", b"lo", IFF_UP)  # struct ifreq: a name, flags, padding
        with self.network(), socket.socket(socket.AF_INET, socket.SOCK_DGRAM) as control:
            fcntl.ioctl(control, SIOCSIFFLAGS, request)


def enter_network(descriptor: int) -> None:
    """Moves this thread into a network namespace."""
    if _library.setns(descriptor, CLONE_NEWNET) != 0:
        error = ctypes.get_errno()
        raise OSError(error, f"setns: {os.strerror(error)}")


@contextlib.contextmanager
def namespaces() -> Iterator[Namespaces]:
    """Makes namespaces that end with the block. Only root can do this."""
    words = (*UNTIL_TESTS_END, "sh", "-c", HOLDER)
    with started(*words, stdout=subprocess.PIPE, timeout=LONGEST) as process:
        assert process.stdout is not None
        ready = process.stdout.readline()
        assert ready == b"ready\n", f"{' '.join(words)} printed {ready!r}"
        inside = Namespaces(children_of(process.pid)[0])
        inside.raise_loopback()
        try:
            yield inside
        finally:
            with contextlib.suppress(ProcessLookupError):  # it ended early, so the block failed
                os.kill(inside.holder, signal.SIGKILL)

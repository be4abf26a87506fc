"""Runs a service on a machine of the test's own while a block of the test runs."""
from __future__ import annotations

import contextlib
import os
import signal
import subprocess
import time
from collections.abc import Callable, Iterator
from dataclasses import dataclass
from pathlib import Path

from .namespaces import Namespaces, children_of
from .process import Changes, Word, printable_command

SECONDS = 120  # the longest that a service may take for anything
PAUSE = 0.005  # seconds between two checks of a condition
LONGEST_SHOWN = 4000  # bytes of a log that a failure shows


def wait_until(condition: Callable[[], bool], what: str) -> None:
    """Waits for a condition, and fails the test if it takes too long."""
    end = time.monotonic() + SECONDS
    while not condition():
        assert time.monotonic() < end, f"waited {SECONDS} s for {what}"
        time.sleep(PAUSE)


@dataclass(frozen=True)
class Service:
    """A service that runs in the foreground and listens on a port of its machine."""

    machine: Namespaces
    command: tuple[Word, ...]
    port: int
    log: Path
    process: subprocess.Popen[bytes]  # nsenter, which runs it inside

    def __str__(self) -> str:
        printed = self.log.read_bytes()[-LONGEST_SHOWN:].decode(errors="backslashreplace")
        return f"the service: {printable_command(self.command)}\nits log:\n{printed}"

    @property
    def number(self) -> int:
        """The id of the service's process, as seen from outside."""
        children = children_of(self.process.pid)
        assert children, f"the service has ended\n{self}"
        return children[0]

    @property
    def has_ended(self) -> bool:
        """Whether the service's process has ended."""
        return self.process.poll() is not None

    def answers(self) -> bool:
        """Returns whether the port accepts connections. Fails the test if the service has ended."""
        assert not self.has_ended, "the service has ended"
        try:
            self.machine.connected(self.port, SECONDS).close()
        except ConnectionRefusedError:
            return False
        return True

    def stop(self) -> None:
        """Stops the service as an administrator would. Fails the test if it has ended already."""
        assert not self.has_ended, f"the service has ended\n{self}"
        os.kill(self.number, signal.SIGTERM)
        with contextlib.suppress(subprocess.TimeoutExpired):
            self.process.wait(SECONDS)


@contextlib.contextmanager
def serving(
    machine: Namespaces, port: int, *command: Word, log: Path, env: Changes | None = None
) -> Iterator[Service]:
    """Runs a service while the block runs. The block begins once the service's port answers."""
    with machine.started(*command, log=log, env=env) as process:
        service = Service(machine, command, port, log, process)
        try:
            wait_until(service.answers, what="a port that answers")
        except AssertionError as error:
            raise AssertionError(f"{error}\n{service}") from None
        yield service
        service.stop()

"""The signals that end a run.

The handler ends the process itself, and doesn't raise an exception: that could be lost, in a
__del__ for example, and would have to wait for a hash that takes minutes. While the first thread
hashes, Python can't run the handler, so other threads hash.
"""

from __future__ import annotations

import contextlib
import os
import signal
from collections.abc import Iterator
from typing import Callable, NoReturn, Optional

ENDING = (signal.SIGINT, signal.SIGTERM, signal.SIGHUP, signal.SIGQUIT)


class Signals:
    """Calls a function when the first signal arrives. The function ends the process."""

    def __init__(self, end: Callable[[signal.Signals], None]) -> None:
        self._end = end
        self._is_postponed = False
        self._received: Optional[signal.Signals] = None

    def watch(self) -> None:
        """Installs the handlers. A signal that the caller ignores, as nohup does, stays ignored."""
        for number in ENDING:
            if signal.getsignal(number) != signal.SIG_IGN:
                signal.signal(number, self._handle)

    @contextlib.contextmanager
    def postponed(self) -> Iterator[None]:
        """Postpones signals: one that arrives in the block ends the process after it."""
        self._is_postponed = True
        try:
            yield
        finally:
            self._is_postponed = False
            if self._received is not None:
                self._end(self._received)

    def _handle(self, number: int, _frame: object) -> None:
        self._received = self._received or signal.Signals(number)
        if not self._is_postponed:
            self._end(self._received)


def die_of(number: signal.Signals) -> NoReturn:
    """Ends the process by the signal, so that a shell sees that it was interrupted."""
    signal.signal(number, signal.SIG_DFL)
    signal.pthread_sigmask(signal.SIG_UNBLOCK, [number])
    os.kill(os.getpid(), number)
    os._exit(128 + number)  # no signal ends the first process of a container

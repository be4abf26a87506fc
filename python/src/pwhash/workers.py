"""Threads that hash: as many as there are processors. Answers come in the order of the lines.

The library releases the interpreter's lock, so its calls run in parallel. The first thread only
distributes lines and writes answers. Signals arrive there, and never have to wait for a hash.
"""

from __future__ import annotations

import collections
import contextlib
import queue
import signal
import threading
import time
from collections.abc import Iterator
from typing import Callable, Deque, Generic, List, Optional, TypeVar

from pwhash import machine
from pwhash.answers import Answer
from pwhash.errors import Stop
from pwhash.lines import Line, LineGroups

# The stack of a thread: the library asks for 64 KiB, and Python needs some for itself.
STACK_BYTES = 512 << 10
PIECE_SECONDS = 0.05  # that a job should take, if a single line doesn't take longer
MAX_LINES = 1 << 11  # of a job

Result = TypeVar("Result")


class Job(Generic[Result]):
    """A call that another thread makes."""

    def __init__(self, call: Callable[[], Result]) -> None:
        self._call = call
        self._results: List[Result] = []
        self._failure: Optional[Stop] = None
        self._done = threading.Event()
        self.seconds = 0.0

    def run(self) -> None:
        """Makes the call. An exception is kept for the thread that asks for the result."""
        start = time.perf_counter()
        try:
            self._results.append(self._call())
        except Stop as stop:
            self._failure = stop
        except MemoryError:
            self._failure = Stop("out of memory.")
        self.seconds = time.perf_counter() - start
        self._done.set()

    def is_done(self) -> bool:
        """Returns whether the call has ended."""
        return self._done.is_set()

    def result(self) -> Result:
        """Waits for the call, and returns what it returned or raises what it raised."""
        self._done.wait()
        if self._failure is not None:
            raise self._failure
        return self._results[0]


class Memory:
    """Limits the memory that scrypt hashes use at once to half of what is free."""

    def __init__(self) -> None:
        self._limit = machine.free_memory() // 2
        self._reserved = 0
        self._changed = threading.Condition()

    @contextlib.contextmanager
    def reserved(self, size: int) -> Iterator[None]:
        """Waits until this much memory is free, and reserves it during the block.

        If no other hash has reserved any, it doesn't wait, whatever the size.
        """
        if not size:
            yield
            return
        with self._changed:
            self._changed.wait_for(
                lambda: not self._reserved or self._reserved + size <= self._limit
            )
            self._reserved += size
        try:
            yield
        finally:
            with self._changed:
                self._reserved -= size
                self._changed.notify_all()


class Workers:
    """Answers lines in several threads, each line by a call of `work`."""

    def __init__(self, work: Callable[[Line], Answer]) -> None:
        self._work = work
        self._max_threads = machine.processors()
        self._threads = 0
        self._queue: queue.SimpleQueue[Job[List[Answer]]] = queue.SimpleQueue()
        self._order: Deque[Job[List[Answer]]] = collections.deque()
        self._size = 1  # lines in a job

    def answers(self, groups: LineGroups) -> Iterator[List[Answer]]:
        """Yields the answers to all lines, in their order, as soon as they are there."""
        waiting: List[Line] = []
        for group in groups:
            waiting += group
            # After an empty group the input pauses, so even a few lines are submitted.
            while waiting and (len(waiting) >= self._size or not group):
                lines, waiting = waiting[: self._size], waiting[self._size :]
                self._submit(lines)
                yield from self._done(2 * self._max_threads)
            yield from self._done(2 * self._max_threads)
        if waiting:
            self._submit(waiting)
        yield from self._done(0)

    def _submit(self, lines: List[Line]) -> None:
        job = Job(lambda: [self._work(line) for line in lines])
        self._order.append(job)
        self._queue.put(job)
        if self._threads < min(len(self._order), self._max_threads):
            self._start_thread()

    def _done(self, max_waiting: int) -> Iterator[List[Answer]]:
        """Yields answers that are ready. Waits while more than `max_waiting` jobs are queued."""
        while self._order and (len(self._order) > max_waiting or self._order[0].is_done()):
            job = self._order.popleft()
            answers = job.result()
            yield answers
            seconds_of_line = max(job.seconds / len(answers), 1e-9)  # a clock may show no time
            lines_in_time = int(PIECE_SECONDS / seconds_of_line)
            self._size = max(1, min(MAX_LINES, lines_in_time))

    def _start_thread(self) -> None:
        try:
            start_thread(self._run)
            self._threads += 1
        except Stop:
            if not self._threads:
                raise
            # The machine allows no more threads, and those that run can do the work.
            self._max_threads = self._threads

    def _run(self) -> None:
        while True:
            self._queue.get().run()


def run_in_thread(call: Callable[[], Result]) -> Result:
    """Makes a call in another thread, so that signals reach this one, and returns its result."""
    job = Job(call)
    start_thread(job.run)
    return job.result()


def start_thread(call: Callable[[], None]) -> None:
    """Starts a thread that blocks signals, so that they interrupt the first thread's waiting."""
    threading.stack_size(STACK_BYTES)
    before = signal.pthread_sigmask(signal.SIG_BLOCK, signal.valid_signals())
    try:
        threading.Thread(target=call, daemon=True).start()
    except RuntimeError:
        raise Stop("no thread can begin: memory or processes are limited (ulimit -a).") from None
    finally:
        signal.pthread_sigmask(signal.SIG_SETMASK, before)

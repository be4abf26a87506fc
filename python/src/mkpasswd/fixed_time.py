"""Answers failed logins a fixed time after they began, so that timing doesn't reveal names.

    logins = FixedTime(seconds=9, threads=4, queued=4, failed=1000)
    future = logins.submit(login, database, name, password)

`login` is a function of yours that returns True or False. submit() returns a future of
concurrent.futures. In a thread, future.result() waits for the answer; in asyncio, write
`await asyncio.wrap_future(future)`.

1. The login waits for one of the threads, and runs there.
2. If it returns True, that is the answer, at once.
3. If it fails, the answer comes when the fixed time since submit() has passed. Meanwhile it
   occupies none of these threads and no place in the queue, so other logins run.
"""
from __future__ import annotations

import asyncio
import math
import os
import threading
import time
from concurrent.futures import Future, ThreadPoolExecutor
from typing import Any, Callable, Optional

__all__ = ["Busy", "FixedTime"]


class Busy(Exception):
    """There are too many logins: ask the user to try again later."""


class FixedTime:
    """Runs logins, which are functions that return True or False, in threads of its own.

    A login fails if it returns anything but True, or raises an exception.

    `seconds` is the time from submit() to the answer of a failure. A failure that takes longer is
    answered after twice that time, three times, and so on. To avoid that, choose more seconds than
    the costliest login takes behind a full queue: math.ceil(1 + queued / threads) times the seconds
    of one login. That can be three hashes: the check, a new hash, and another check if somebody has
    changed the stored hash meanwhile.

    `threads` is how many logins run at once, `queued` how many more may wait for a thread, and
    `failed` how many failures may wait for their time. Above these numbers, submit() raises Busy.

    The threads start with the first login. Until then, a server may make its worker processes with
    fork(), and each process has these limits for itself. After that, fork() copies no thread, and
    submit() raises RuntimeError in the new process.

    Raises ValueError for seconds that are negative or not finite, and for less than one thread.
    """

    def __init__(self, *, seconds: float, threads: int, queued: int, failed: int) -> None:
        if not 0 <= seconds < math.inf:
            raise ValueError("seconds must be a finite number from 0 on")
        self._seconds = float(seconds)
        self._max_running = threads + queued
        self._max_failed = failed
        self._lock = threading.Lock()  # guards the members below
        self._running = 0
        self._failed = 0
        self._pool = ThreadPoolExecutor(threads, thread_name_prefix="login")
        self._loop: Optional[asyncio.AbstractEventLoop] = None
        self._process: Optional[int] = None  # the process that has the threads

    def submit(self, login: Callable[..., bool], *arguments: Any, **keywords: Any) -> Future[bool]:
        """Run login(*arguments, **keywords) in a thread, and return its answer as a future.

        If the login raises an exception, so does the future, after the fixed time.

        Raises Busy if there are too many logins; OSError or RuntimeError if the system has no more
        files or threads; and RuntimeError in a process that fork() made after the first login.
        """
        start = time.monotonic()
        if self._process not in (None, os.getpid()):
            raise RuntimeError("fork() copied no threads of FixedTime: make one in each process")
        with self._lock:
            if self._running >= self._max_running:
                raise Busy("too many logins wait for a thread")
            if self._failed >= self._max_failed:
                raise Busy("too many failed logins wait for their time")
            loop = self._start_loop()
            self._running += 1
        answer: Future[bool] = Future()
        answer.set_running_or_notify_cancel()  # so that nobody can cancel it
        try:
            login_future = self._pool.submit(login, *arguments, **keywords)
        except RuntimeError:
            with self._lock:
                self._running -= 1
            raise
        login_future.add_done_callback(
            lambda _: self._handle_end(login_future, answer, loop, start)
        )
        return answer

    def _start_loop(self) -> asyncio.AbstractEventLoop:
        """Returns the event loop in which failures wait, all in one thread, and starts it."""
        if self._loop is None:
            loop = asyncio.new_event_loop()
            name = "failed logins"
            threading.Thread(target=loop.run_forever, name=name, daemon=True).start()
            self._loop = loop
            self._process = os.getpid()
        return self._loop

    def _handle_end(
        self,
        login_future: Future[bool],
        answer: Future[bool],
        loop: asyncio.AbstractEventLoop,
        start: float,
    ) -> None:
        """Answers a login that has run: at once if it succeeded, else after the fixed time."""
        succeeded = login_future.exception() is None and login_future.result() is True
        with self._lock:
            self._running -= 1
            if not succeeded:
                self._failed += 1
        if succeeded:
            answer.set_result(True)
        else:
            end_time = self._time_of_failure(start)
            loop.call_soon_threadsafe(
                loop.call_at, end_time, self._answer_failure, login_future, answer
            )

    def _time_of_failure(self, start: float) -> float:
        """Returns when to answer a login that has failed, and began at `start`.

        If it took longer than the fixed time, that is at the next multiple of it. If it were
        answered at once, the time would show which kind of hash was checked.
        """
        if self._seconds == 0:
            return start
        elapsed = time.monotonic() - start
        times = max(1, math.ceil(elapsed / self._seconds))
        return start + times * self._seconds

    def _answer_failure(self, login_future: Future[bool], answer: Future[bool]) -> None:
        """Answers a login that failed."""
        with self._lock:
            self._failed -= 1
        error = login_future.exception()
        if error is None:
            answer.set_result(False)
        else:
            answer.set_exception(error)

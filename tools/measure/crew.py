"""Processes that measure parts, one at a time or side by side, each with its own processors.

The processor time of a part is that of its process's commands, so each part has its own process. A
process ends, with its commands, if the run ends for whatever reason.
"""

from __future__ import annotations

import ctypes
import multiprocessing
import os
import signal
from collections.abc import Callable, Iterator, Sequence
from dataclasses import dataclass
from multiprocessing.connection import wait
from multiprocessing.context import ForkProcess
from types import TracebackType

from measure.errors import Interrupted, Stop
from measure.parts import Part

Processors = tuple[int, ...]  # their numbers
Measure = Callable[[Part, Processors], None]
PR_SET_PDEATHSIG = 1  # prctl(2): the signal that this process gets when its parent ends


def shares(jobs: int) -> list[Processors]:
    """Splits the processors of this process into shares of about the same size, one for each job.

    If there are more jobs than processors, some jobs share one.
    """
    numbers = sorted(os.sched_getaffinity(0))
    count = len(numbers)
    if jobs > count:
        return [(numbers[job % count],) for job in range(jobs)]
    return [tuple(numbers[job * count // jobs : (job + 1) * count // jobs]) for job in range(jobs)]


@dataclass(frozen=True)
class Worker:
    """A process that measures a part."""

    process: ForkProcess
    part: Part
    processors: Processors

    def end(self) -> None:
        """Asks the process to end, if it has begun."""
        if self.process.pid is not None:
            self.process.terminate()


def work(measure: Measure, part: Part, processors: Processors) -> None:
    """Measures a part in this process, which ends when its parent does."""
    ctypes.CDLL(None).prctl(PR_SET_PDEATHSIG, signal.SIGTERM)
    try:
        measure(part, processors)
    except Stop as stop:
        raise SystemExit(f"evidence: {part.name}: {stop}") from None
    except OSError as error:
        raise SystemExit(f"evidence: {error.filename}: {error.strerror}") from None
    except Interrupted as interruption:
        raise SystemExit(128 + interruption.number) from None


class Crew:
    """The processes of a run, which end with the block that uses them."""

    def __init__(self, measure: Measure, jobs: int) -> None:
        self.measure = measure
        self.free = shares(jobs)
        self.workers: list[Worker] = []

    def __enter__(self) -> Crew:
        return self

    def __exit__(
        self,
        kind: type[BaseException] | None,
        error: BaseException | None,
        traceback: TracebackType | None,
    ) -> None:
        for worker in self.workers:
            worker.end()
        for worker in self.workers:
            if worker.process.pid is not None:
                worker.process.join()

    def measure_all(self, parts: Sequence[Part], begins: Callable[[Part], None]) -> Iterator[Part]:
        """Measures parts, and yields each one when its process has ended."""
        waiting = list(parts)
        while waiting or self.workers:
            while waiting and self.free:
                part = waiting.pop(0)
                begins(part)
                self.start(part)
            yield from self.ended()

    def start(self, part: Part) -> None:
        """Starts the process that measures a part."""
        processors = self.free.pop(0)
        context = multiprocessing.get_context("fork")
        process = context.Process(target=work, args=(self.measure, part, processors), daemon=True)
        self.workers.append(Worker(process, part, processors))
        process.start()

    def ended(self) -> Iterator[Part]:
        """Waits until a process has ended. Yields the parts of all that have."""
        wait([worker.process.sentinel for worker in self.workers])
        for worker in list(self.workers):
            if worker.process.is_alive():
                continue
            worker.process.join()
            self.workers.remove(worker)
            self.free.append(worker.processors)
            if worker.process.exitcode != 0:
                status = worker.process.exitcode
                raise Stop(f"{worker.part.name}: its process ended with status {status}")
            yield worker.part

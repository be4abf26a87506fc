"""Runs commands, and measures their time, instructions or memory.

A command must end with the expected status and output, so that no command is measured that did
something else.
"""
from __future__ import annotations

import os
import re
import resource
import subprocess
import time
from collections.abc import Callable, Iterable, Iterator
from concurrent.futures import ThreadPoolExecutor
from dataclasses import dataclass, field, replace
from pathlib import Path
from typing import TypeVar

from support.cachegrind import CACHEGRIND, EVERY_PROCESSOR, instructions_in
from support.process import Result, kill_group, printable, printable_command, run

from .failure import Stop

ROOT = Path(__file__).resolve().parents[2]
TIMEOUT = 3600  # seconds, for one command
Item = TypeVar("Item")
Value = TypeVar("Value")
MEMORY_POLL_SECONDS = 0.002


@dataclass(frozen=True)
class Task:
    """A command with its input, and how it must end."""

    command: tuple[str, ...]
    stdin: bytes = b""
    expected_output: bytes = b""
    expected_status: int = 0
    environment: dict[str, str | None] = field(default_factory=dict)  # differing from ours


@dataclass(frozen=True)
class Times:
    """What a run took, in seconds."""

    processor: float
    elapsed: float


def check_result(task: Task, result: Result) -> None:
    """Stops unless a task ended as it must."""
    if result.status != task.expected_status:
        raise Stop(f"expected status: {task.expected_status}\n{result}")
    if result.stdout != task.expected_output:
        raise Stop(f"expected stdout: {printable(task.expected_output)}\n{result}")


def run_task(task: Task, prefix: tuple[str, ...] = ()) -> Result:
    """Runs a task, with the prefix in front of its command."""
    command = (*prefix, *task.command)
    try:
        result = run(*command, stdin=task.stdin, env=task.environment, timeout=TIMEOUT)
    except OSError as error:
        raise Stop(f"{command[0]}: {error.strerror}") from None
    check_result(task, result)
    return result


def processors() -> int:
    """Returns how many processors this process may use."""
    return len(os.sched_getaffinity(0))


def processor_time_of_children() -> float:
    """Returns the processor seconds of all children that have ended and been waited for."""
    usage = resource.getrusage(resource.RUSAGE_CHILDREN)
    return usage.ru_utime + usage.ru_stime


def measure_times(task: Task) -> Times:
    """Runs a task once, and returns what it took."""
    processor_before, begun = processor_time_of_children(), time.monotonic()
    run_task(task)
    return Times(
        processor=processor_time_of_children() - processor_before,
        elapsed=time.monotonic() - begun,
    )


def count_instructions(task: Task) -> int:
    """Runs a task under cachegrind, and returns its instructions, those of its start included."""
    on_every_processor = replace(task, environment={**task.environment, **EVERY_PROCESSOR})
    result = run_task(on_every_processor, CACHEGRIND)
    instructions = instructions_in(result.stderr)
    if instructions is None:
        raise Stop(f"cachegrind printed no count\n{result}")
    return instructions


def map_on_all_processors(
    function: Callable[[Item], Value], items: Iterable[Item]
) -> Iterator[Value]:
    """Calls a function for each item, some at once, and yields what it returns in order.

    This is for counts, which don't depend on what else the machine does.
    """
    with ThreadPoolExecutor(processors()) as pool:
        yield from pool.map(function, items)


def peak_memory(process: subprocess.Popen[bytes]) -> int:
    """Returns the most memory that a process has used so far, in KiB; 0 once it has ended."""
    status = Path(f"/proc/{process.pid}/status").read_text(encoding="utf-8", errors="replace")
    found = re.search(r"^VmHWM:\s*(\d+)", status, re.MULTILINE)
    return int(found[1]) if found else 0


def measure_peak_memory(task: Task, folder: Path) -> int:
    """Runs a task that takes some time, and returns the most memory that it used, in KiB.

    It asks the kernel while the task runs: the maximum that the kernel reports afterwards includes
    this process's memory, since the child began as a copy of it.
    """
    input_path, output_path = folder / "stdin", folder / "stdout"
    input_path.write_bytes(task.stdin)
    peak = 0
    with input_path.open("rb") as stdin, output_path.open("wb") as stdout:
        process = subprocess.Popen(  # pylint: disable=consider-using-with
            task.command,
            stdin=stdin,
            stdout=stdout,
            stderr=subprocess.DEVNULL,
            env={**os.environ, "LC_ALL": "C"},
            start_new_session=True,
        )
    try:
        while process.poll() is None:
            peak = max(peak, peak_memory(process))
            time.sleep(MEMORY_POLL_SECONDS)
    except BaseException:
        kill_group(process)
        process.wait()
        raise
    check_result(task, Result(task.command, process.returncode, output_path.read_bytes(), b""))
    return peak


def output_of(*command: str) -> str:
    """Runs a command that must succeed, and returns what it prints."""
    try:
        result = run(*command, timeout=TIMEOUT)
    except OSError as error:
        raise Stop(f"{command[0]}: {error.strerror}") from None
    if result.status != 0:
        raise Stop(
            f"{printable_command(command)}: {result.stderr.decode(errors='replace').strip()}"
        )
    return result.stdout.decode(errors="replace")

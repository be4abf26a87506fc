"""How the program answers lines: random ones, many from an open pipe, and some to closed outputs.

test_audits.py tests audits.
"""
from __future__ import annotations

import contextlib
import os
import re
import subprocess
import threading
from pathlib import Path
from typing import IO, Iterator

import pytest
from support.libxcrypt import crypt
from support.model.answers import differences
from support.process import run, printable_command, started, status_of
from support.random_lines.chunks import Chunk, chunks, tasks

SEED = int(os.environ.get("SEED", "1"))
MOST_MEMORY = 8192  # kB
MANY = 20_000  # lines


@pytest.mark.parametrize("chunk", chunks("hash", 1000) + chunks("hostile", 2500), ids=str)
def test_random_lines_get_the_answers_of_the_model(program: Path, chunk: Chunk) -> None:
    """Each run prints exactly what the model says. The seed determines the lines."""
    for task in tasks(SEED, chunk):
        result = run(program, *task.job.words, stdin=task.given)
        found = differences(task.job, task.given, result)
        command = printable_command(result.command)
        assert not found, "\n".join([f"SEED={SEED}: {chunk}: {command}", *found])


# ---- Pipes


# The fields of a long run of lines. A hash of scrypt shows that scrypt can still allocate memory
# after millions of digests.
OF_MD5CRYPT = crypt(b"password", b"$1$xxxxxxxx")
OF_SCRYPT = crypt(b"password", b"$7$2/..../....ab")
LOCKED = b"!" + b"x" * 900
NAME = b"n" * 58  # long enough for more than a MiB of answers, which fills each buffer


def numbered_line(number: int) -> tuple[bytes, bytes]:
    """Returns a line and its answer. All lines together need twice the allowed memory."""
    field, verdict = LOCKED, b"locked"
    if number % 10 == 0:
        field, verdict = OF_MD5CRYPT, b"ok"
    if number % 1000 == 0:
        field = OF_SCRYPT
    name = b"%b%d" % (NAME, number)
    return b"%b:%b:password\n" % (name, field), b"%b:%b\n" % (name, verdict)


def write_and_ignore_a_closed_pipe(pipe: IO[bytes], lines: Iterator[bytes]) -> None:
    """Writes lines until the reader closes the pipe. The reader's answers then show why."""
    with contextlib.suppress(BrokenPipeError):
        for line in lines:
            pipe.write(line)
        pipe.flush()


def peak_of_memory(process: subprocess.Popen[bytes]) -> int:
    """Returns the peak memory of a running process in kB."""
    status = Path(f"/proc/{process.pid}/status").read_text(encoding="ascii")
    peak = re.search(r"^VmHWM:\s+(\d+) kB", status, re.MULTILINE)
    assert peak is not None
    return int(peak[1])


def test_each_line_is_answered_in_little_memory_while_the_pipe_is_open(program: Path) -> None:
    with started(program, "--check", stdin=subprocess.PIPE, stdout=subprocess.PIPE) as process:
        assert process.stdin is not None and process.stdout is not None
        numbers = range(1, MANY + 1)
        lines = (line for line, _ in map(numbered_line, numbers))
        arguments = (process.stdin, lines)
        writer = threading.Thread(target=write_and_ignore_a_closed_pipe, args=arguments)
        writer.start()
        for number in numbers:
            _, answer = numbered_line(number)
            assert process.stdout.readline() == answer, f"line {number}"
        writer.join()
        is_built_program = "PROGRAM" not in os.environ
        if is_built_program:
            assert peak_of_memory(process) <= MOST_MEMORY
        process.stdin.close()
        assert process.stdout.read() == b"", "the program gave more answers than it got lines"
        process.wait()
        assert status_of(process) == 0


# ---- Closed outputs


def status_after_reader_left(
    process: subprocess.Popen[bytes], output: IO[bytes], line: bytes
) -> int:
    """Returns the status of a process whose output the reader closes after ten of many lines."""
    assert process.stdin is not None
    process.stdin.write(line * 10)
    process.stdin.flush()
    for _ in range(10):
        assert output.readline() != b"", "expected ten lines"
    output.close()
    with contextlib.suppress(BrokenPipeError):
        process.stdin.write(line * 100_000)
        process.stdin.flush()
    with contextlib.suppress(BrokenPipeError):
        process.stdin.close()
    process.wait()
    return status_of(process)


def test_a_closed_output_is_a_write_fault_without_a_signal(program: Path, tmp_path: Path) -> None:
    with (
        (tmp_path / "errors").open("w+b") as errors,
        started(
            program, "--check", stdin=subprocess.PIPE, stdout=subprocess.PIPE, stderr=errors
        ) as process,
    ):
        assert process.stdout is not None
        assert status_after_reader_left(process, process.stdout, b"a::x\n") == 3
        errors.seek(0)
        assert errors.read() == b"mkpasswd: write fault\n"


def test_a_closed_error_output_ends_the_run_without_a_signal(program: Path, tmp_path: Path) -> None:
    with (
        (tmp_path / "answers").open("w+b") as answers,
        started(
            program, "--check", stdin=subprocess.PIPE, stdout=answers, stderr=subprocess.PIPE
        ) as process,
    ):
        assert process.stderr is not None
        assert status_after_reader_left(process, process.stderr, b"y\n") == 3
        answers.seek(0)
        assert answers.read() == b""

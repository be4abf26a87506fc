"""Runs programs built from tests/c/calls.c, which call the library, and checks their answers."""
from __future__ import annotations

import dataclasses
import shlex
from dataclasses import dataclass
from typing import Sequence

from . import ROOT
from .model.calls import Answer, Call, Reason, System
from .process import LONGEST_SHOWN, Word, run

SOURCE = ROOT / "tests/c/calls.c"
COUNTED_FUNCTIONS = ("malloc", "realloc", "free", "getentropy")
# The driver counts a call's uses of these functions. With the static library, the linker wraps
# them; with the shared library, the driver defines them itself, in place of the C library's.
COUNTS_STATIC = ("-DWRAP", *(f"-Wl,--wrap={name}" for name in COUNTED_FUNCTIONS))
COUNTS_SHARED = ("-DREPLACE",)
MESSAGES = {int(reason): reason.message for reason in Reason}


def answer_of(line: str) -> Answer:
    """Reads an answer from a line that tests/c/calls.c prints."""
    numbers, out = line.split(" out=", 1)
    values = dict(word.split("=") for word in numbers.split(" "))
    return Answer(out=out, **{name: int(value) for name, value in values.items()})


def system_row(system: System, threads: int) -> str:
    """Returns the line that sets up the system and the threads in tests/c/calls.c."""
    entropy = "none" if system.random_bytes is None else system.random_bytes.hex()
    if system.is_real:
        entropy = "real"
    return f"set threads={threads} refused={system.refused_allocation} entropy={entropy}"


def describe_value(name: str, value: object) -> str:
    """Returns a value of an answer as text. An error includes its message."""
    if name == "error" and isinstance(value, int):
        return f"{int(value)} ({MESSAGES.get(value, 'no error')})"
    return str(value)


def cut(text: str) -> str:
    """Returns a string for a failure's message, cut if it is very long."""
    return text if len(text) <= LONGEST_SHOWN else f"{text[:LONGEST_SHOWN]}.."


def difference(expected: Answer, received: Answer) -> list[str]:
    """Returns the differences between two answers: two lines for each value that differs."""
    lines = []
    for field in dataclasses.fields(Answer):
        wanted, got = getattr(expected, field.name), getattr(received, field.name)
        if wanted != got:
            lines.append(f"expected {field.name}: {describe_value(field.name, wanted)}")
            lines.append(f"its {field.name}: {describe_value(field.name, got)}")
    return lines


@dataclass(frozen=True)
class Driver:
    """The command of a program built from tests/c/calls.c, perhaps with a wrapper before it."""

    command: tuple[Word, ...]

    def answers(
        self, calls: Sequence[Call], system: System = System(), threads: int = 1
    ) -> list[Answer]:
        """Makes the calls, and returns their answers in the same order."""
        assert calls, "no call is tested"
        rows = [system_row(system, threads), *(call.row for call in calls)]
        result = run(*self.command, stdin="".join(f"{row}\n" for row in rows).encode())
        lines = result.stdout.decode("latin-1").splitlines()
        if result.status != 0 or result.stderr != b"" or len(lines) != len(calls):
            # The program prints only after the last call, so the output doesn't show what failed.
            raise AssertionError(f"expected: {len(calls)} lines\nthe rows: {rows[:50]}\n{result}")
        return [answer_of(line) for line in lines]

    def command_to_repeat(self, call: Call, system: System, threads: int) -> str:
        """Returns a shell command that repeats a call."""
        rows = shlex.join([system_row(system, threads), call.row])
        command = shlex.join(str(word) for word in self.command)
        return f"the command: printf '%s\\n' {cut(rows)} | {command}"

    def assert_matches_model(
        self, calls: Sequence[Call], system: System = System(), threads: int = 1
    ) -> list[Answer]:
        """Makes the calls, and returns the answers. Fails the test unless each is the model's."""
        answers = self.answers(calls, system, threads)
        for call, received in zip(calls, answers):
            lines = difference(call.expected(system), received)
            if lines:
                command = self.command_to_repeat(call, system, threads)
                raise AssertionError("\n".join([command, *lines]))
        return answers

    def assert_answer(self, call: Call, system: System = System(), **expected: int | str) -> None:
        """Makes a call. Fails the test unless its answer has these values and is the model's."""
        received = self.answers([call], system)[0]
        of_model = call.expected(system)
        lines = difference(dataclasses.replace(of_model, **expected), received)
        lines += difference(of_model, received)
        if lines:
            raise AssertionError("\n".join([self.command_to_repeat(call, system, 1), *lines]))

"""Calls leave nothing of a password in memory.

The test reads the memory of a process that makes a call three times, the third time with a
password that differs from the others in every byte. If the third call changes eight bytes in a row,
they are from the password, or computed from it.
"""
from __future__ import annotations

import re
import subprocess
from dataclasses import dataclass
from pathlib import Path

import pytest
from support.library import SOURCES, Builder
from support.process import Changes, printable_command, started
from support.pwhash_runs import state_of, wait_for
from support.stored_fields import MD5CRYPT, SCRYPT_OF_PASSWORD

LEAST_FOUND = 8  # bytes in a row
CALLS = 3
# With these settings glibc's malloc never returns memory to the system.
KEEPS_MEMORY = "glibc.malloc.mmap_max=0:glibc.malloc.trim_threshold=4000000000"
Memory = dict[int, bytes]  # the content of each mapping, by its first address


@dataclass(frozen=True)
class Case:
    """A call: its name in tests/c/residue.c, and its arguments."""

    title: str
    call: str
    text: bytes
    method: int = 0
    rounds: int = 0

    def __str__(self) -> str:
        return self.title

    def words(self, length: int, is_locked: bool) -> list[str | bytes]:
        """Returns the command's arguments for a password of this length."""
        numbers = (self.method, self.rounds, length, int(is_locked))
        return [self.call, self.text, *(str(number) for number in numbers)]


LARGE_TABLES = (
    Case("mkpasswd_hash with a table of 32 MiB", "hash", b"$7$BU..../....ab"),
    Case("mkpasswd_hash with a table of more than 32 MiB", "hash", b"$7$6/E.../....ab"),
)
CASES = (
    Case("mkpasswd_verify of md5crypt", "verify", MD5CRYPT),
    Case("mkpasswd_hash of md5crypt", "hash", MD5CRYPT),
    Case("mkpasswd_login of a locked field by md5crypt", "login", b"!", 1, 0),
    Case("mkpasswd_new of md5crypt", "new", b"", 1, 0),
    Case("mkpasswd_verify of sha256crypt", "verify", b"$5$ab$x"),
    Case("mkpasswd_new of sha256crypt", "new", b"", 5, 1000),
    Case("mkpasswd_login of a locked field by sha512crypt", "login", b"!", 6, 1000),
    Case("mkpasswd_hash of sha512crypt", "hash", b"$6$ab"),
    Case("mkpasswd_new of sha512crypt", "new", b"", 6, 1000),
    Case("mkpasswd_verify of scrypt", "verify", SCRYPT_OF_PASSWORD.text),
    Case("mkpasswd_login of a locked field by scrypt", "login", b"!", 7, 6),
    Case("mkpasswd_new of scrypt", "new", b"", 7, 0),
    Case("mkpasswd_hash with a table of 16 MiB", "hash", b"$7$AU..../....ab"),
    *LARGE_TABLES,
)


@pytest.fixture(scope="session", name="residue")
def fixture_residue(builder: Builder) -> Path:
    """The program that makes a call and then stops."""
    return builder.build(SOURCES / "residue.c")


def memory_of(process: subprocess.Popen[bytes]) -> Memory:
    """Returns the private, writable memory of a process."""
    maps = Path(f"/proc/{process.pid}/maps").read_text(encoding="ascii", errors="replace")
    found = {}
    with open(f"/proc/{process.pid}/mem", "rb", buffering=0) as memory:
        for first, end in re.findall(r"^(\w+)-(\w+) rw.p", maps, re.MULTILINE):
            start, size = int(first, 16), int(end, 16) - int(first, 16)
            memory.seek(start)
            found[start] = memory.read(size)
    return found


def changed_runs(old: bytes, new: bytes) -> list[bytes]:
    """Returns each run of enough bytes that differ, as the exclusive or of old and new."""
    if old == new:
        return []
    size = max(len(old), len(new))
    old_number = int.from_bytes(old.ljust(size, b"\0"), "big")
    new_number = int.from_bytes(new.ljust(size, b"\0"), "big")
    difference = (old_number ^ new_number).to_bytes(size, "big")
    return re.findall(rb"[^\0]{%d,}" % LEAST_FOUND, difference)


def assert_nothing_left(residue: Path, words: list[str | bytes], env: Changes | None) -> None:
    """Fails the test if the third call has changed eight bytes in a row."""
    memories = []
    command = (residue, *words)
    pipe = subprocess.PIPE
    with started(*command, stdin=pipe, stdout=pipe, env=env, timeout=120) as process:
        assert process.stdin is not None and process.stdout is not None
        for number in range(CALLS):
            stop = process.stdout.read(1)
            assert stop == b".", f"call {number + 1} failed: {printable_command(command)}"
            wait_for(lambda: state_of(process.pid) == "S")  # it waits for input
            memories.append(memory_of(process) if number > 0 else {})
            process.stdin.write(b"\n")
            process.stdin.flush()
        assert process.wait(timeout=60) == 0, printable_command(command)
    second, third = memories[1], memories[2]
    assert third, "no memory was found"
    left = [
        f"at {start:x}: {run.hex()}"
        for start, part in third.items()
        for run in changed_runs(second.get(start, b""), part)
    ]
    assert left == [], f"{printable_command(command)} leaves bytes in memory"


@pytest.mark.parametrize("length", [8, 24, 1000], ids=lambda length: f"{length} bytes")
@pytest.mark.parametrize("case", CASES, ids=str)
def test_nothing_of_a_password_is_left_in_memory(residue: Path, case: Case, length: int) -> None:
    assert_nothing_left(residue, case.words(length, is_locked=False), None)


@pytest.mark.parametrize("case", LARGE_TABLES, ids=str)
def test_nothing_is_left_in_memory_kept_by_malloc(residue: Path, case: Case) -> None:
    environment = {"GLIBC_TUNABLES": KEEPS_MEMORY}
    assert_nothing_left(residue, case.words(24, is_locked=False), environment)


@pytest.mark.needs("root")
@pytest.mark.parametrize("case", LARGE_TABLES, ids=str)
def test_nothing_is_left_in_locked_memory(residue: Path, case: Case) -> None:
    """The system can't discard locked pages, so the library must overwrite them."""
    environment = {"GLIBC_TUNABLES": KEEPS_MEMORY}
    assert_nothing_left(residue, case.words(24, is_locked=True), environment)


def test_this_test_finds_bytes_that_are_left() -> None:
    assert changed_runs(b"same" + b"a" * 8 + b"same", b"same" + b"b" * 8 + b"same") == [b"\3" * 8]
    assert changed_runs(b"a" * 7, b"b" * 7) == []

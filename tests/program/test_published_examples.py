"""Published examples in which one of the program's allocations fails.

A test in a crate can't make an allocation fail, so the program runs with tests/c/faults.c.
tests/library/test_published_examples.py does the same with the library's calls.
"""
from __future__ import annotations

from dataclasses import dataclass
from pathlib import Path

import pytest
from support.preload import preload_library
from support.process import Result, assert_result, run

# The hash in openssl-passwd(1), and the third test vector of RFC 7914.
MD5 = "$1$xxxxxxxx$UYCIxa628.9qXjpQCjM4a."
THIRD_VECTOR = "$7$C6..../....SodiumChloride$kBGj9fHznVYFQMEn/qDCfrDevf9YDtcDdKvEqHJLV8D"
MOST_ALLOCATIONS = 1000
ALLOCATIONS_OF_SCRYPT = 3  # the table, and two scratch buffers


@dataclass(frozen=True)
class Refusal:
    """The end of a run in which the allocation with a given number had to fail."""

    result: Result
    allocations: int
    was_refused: bool  # False if the run made fewer allocations


@dataclass(frozen=True)
class Refuser:
    """Runs the program with tests/c/faults.c, which logs allocations and makes one fail."""

    program: Path
    library: Path
    log: Path

    def run(self, words: list[str], given: str, refused: int) -> Refusal:
        """Runs the program. The allocation with this number fails, counted from 1; 0 is none."""
        self.log.write_bytes(b"")
        environment = {
            "LD_PRELOAD": str(self.library),
            "FAULT": f"memory {refused}",
            "FAULT_LOG": str(self.log),
        }
        result = run(self.program, *words, stdin=given.encode(), env=environment)
        calls = self.log.read_text(encoding="ascii").splitlines()
        allocations = [call for call in calls if call.startswith("memory ")]
        return Refusal(result, len(allocations), any("failed" in call for call in allocations))


@pytest.fixture(name="refuser")
def fixture_refuser(program: Path, tmp_path: Path) -> Refuser:
    return Refuser(program, preload_library("faults", tmp_path), tmp_path / "log")


def test_the_program_reports_each_failed_allocation_before_it_hashes(refuser: Refuser) -> None:
    words = ["-m", "md5crypt", "-S", "xxxxxxxx", "password"]
    ignored = 0
    for number in range(1, MOST_ALLOCATIONS):
        refusal = refuser.run(words, "", number)
        if not refusal.was_refused:
            break
        if refusal.result.status == 0:
            ignored += 1
            continue
        assert_result(refusal.result, status=3, stderr=b"mkpasswd: out of memory\n")
    assert number > 10, "expected more allocations"
    assert_result(refusal.result, stdout=f"{MD5}\n".encode())
    # std shrinks the list of arguments before the program plans its work. If that fails, std keeps
    # the list as it is.
    assert ignored <= 1


def test_lines_before_a_failed_allocation_are_answered(refuser: Refuser) -> None:
    by_md5crypt = f"ann:{MD5}:password\n"
    lines = f"{by_md5crypt}bob:{THIRD_VECTOR}:pleaseletmein\n"
    before = refuser.run(["--check"], by_md5crypt, 0).allocations
    for number in range(1, ALLOCATIONS_OF_SCRYPT + 1):
        refusal = refuser.run(["--check"], lines, before + number)
        assert refusal.was_refused
        assert_result(
            refusal.result, status=3, stdout=b"ann:ok\n", stderr=b"mkpasswd: out of memory\n"
        )
    refusal = refuser.run(["--check"], lines, before + ALLOCATIONS_OF_SCRYPT + 1)
    assert not refusal.was_refused
    assert_result(refusal.result, stdout=b"ann:ok\nbob:ok\n")

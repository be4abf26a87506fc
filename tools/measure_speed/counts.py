"""Instructions: how many a round of a method takes, counted by cachegrind.

Each count is the difference between two runs that differ only in their work, divided by the
difference of that work. So what a program does to start and to read a line cancels out.
"""
from __future__ import annotations

from collections.abc import Iterator
from dataclasses import dataclass

from .processes import count_instructions, map_on_all_processors
from .programs import Program, Programs
from .results import Count
from .settings import MD5CRYPT, SALT, Workload, scrypt

MD5CRYPT_ROUNDS = 1000
# SHA-crypt has 2 * 3 * 7 kinds of rounds, in a cycle. The difference contains each equally often.
KINDS_OF_ROUNDS = 42
FEW_ROUNDS, MORE_ROUNDS = 1000, 1000 + 100 * KINDS_OF_ROUNDS


@dataclass(frozen=True)
class Difference:
    """Two workloads. The second has some more units of work than the first."""

    unit: str
    less: Workload
    more: Workload
    units: int

    def instructions(self, program: Program) -> float:
        """Returns the instructions of one unit."""
        less, more = (count_instructions(program.task(load)) for load in (self.less, self.more))
        return (more - less) / self.units


def md5crypt_rounds() -> Difference:
    """Returns workloads that differ in rounds of md5crypt. Each further hash adds 1000."""
    more_hashes = 10
    return Difference(
        "a round of md5crypt",
        Workload(MD5CRYPT, hashes=1),
        Workload(MD5CRYPT, hashes=1 + more_hashes),
        more_hashes * MD5CRYPT_ROUNDS,
    )


def sha_crypt_rounds(method: str, prefix: bytes) -> Difference:
    """Returns workloads that differ in rounds of SHA-crypt."""
    few, more = (
        Workload(b"%brounds=%d$%b" % (prefix, rounds, SALT)) for rounds in (FEW_ROUNDS, MORE_ROUNDS)
    )
    return Difference(f"a round of {method}", few, more, MORE_ROUNDS - FEW_ROUNDS)


def scrypt_mixing(r: int, log_n: int) -> Difference:
    """Returns workloads that differ in mixed blocks: scrypt mixes N rows of 2 r blocks twice."""
    less, more = Workload(scrypt(log_n, r, 1)), Workload(scrypt(log_n + 2, r, 1))
    further_rows = (1 << log_n + 2) - (1 << log_n)
    mixed_blocks = 2 * further_rows * 2 * r
    return Difference(f"64 bytes mixed by scrypt, r = {r}", less, more, mixed_blocks)


def scrypt_pbkdf2(r: int) -> Difference:
    """Returns workloads that differ in p: mainly in PBKDF2, since N = 4, libxcrypt's least."""
    few, more = 8, 104
    less_and_more = (Workload(scrypt(2, r, few)), Workload(scrypt(2, r, more)))
    return Difference(f"scrypt's PBKDF2, for each p, r = {r}", *less_and_more, more - few)


DIFFERENCES = (
    md5crypt_rounds(),
    sha_crypt_rounds("sha256crypt", b"$5$"),
    sha_crypt_rounds("sha512crypt", b"$6$"),
    scrypt_mixing(r=8, log_n=11),
    scrypt_mixing(r=32, log_n=9),
    scrypt_pbkdf2(r=8),
)


def programs_with(difference: Difference, programs: Programs) -> list[Program]:
    """Returns the programs that have the method of a difference."""
    found = [programs.mkpasswd, programs.libmkpasswd, programs.libxcrypt, programs.openssl]
    if difference.less.scrypt_cost:
        found.append(programs.libsodium)
    return found


def measure(programs: Programs) -> Iterator[Count]:
    """Counts the instructions of each unit, by each program."""

    def count(case: tuple[Difference, Program]) -> Count:
        difference, program = case
        return Count(difference.unit, program.name, round(difference.instructions(program), 2))

    cases = [
        (difference, program)
        for difference in DIFFERENCES
        for program in programs_with(difference, programs)
    ]
    yield from map_on_all_processors(count, cases)

"""Published examples in which an allocation fails, and the largest scrypt hashes.

A test in a crate can't make an allocation fail, and no clause rules out that a call reports a
failed allocation when none has failed. Each answer must have the numbers given here, and be the
model's.
"""
from __future__ import annotations

import re
from pathlib import Path

import pytest
from support.driver import Driver
from support.model.calls import GREATEST, Hash, Login, Reason, System, Verify
from support.needs import not_applicable

SCRYPT = 7  # the number of the method

# The hash in openssl-passwd(1), and the third test vector of RFC 7914.
MD5 = b"$1$xxxxxxxx$UYCIxa628.9qXjpQCjM4a."
THIRD_VECTOR = b"$7$C6..../....SodiumChloride$kBGj9fHznVYFQMEn/qDCfrDevf9YDtcDdKvEqHJLV8D"
OF_THE_THIRD_VECTOR = Hash(b"pleaseletmein", b"$7$C6..../....SodiumChloride", GREATEST)


@pytest.mark.parametrize(
    ("refused", "table", "scratch"),
    [
        pytest.param(1, 0, 0, id="the table"),
        pytest.param(2, 16777216, 0, id="the byte scratch"),
        pytest.param(3, 16777216, 1024, id="the word scratch"),
    ],
)
def test_scrypt_counts_only_the_memory_before_a_failed_allocation(
    driver: Driver, refused: int, table: int, scratch: int
) -> None:
    driver.assert_answer(
        OF_THE_THIRD_VECTOR,
        System(refused_allocation=refused),
        result=0,
        error=Reason.OUT_OF_MEMORY,
        digests=0,
        bytes=0,
        mixes=0,
        table=table,
        scratch=scratch,
    )


def test_scrypt_makes_only_three_allocations(driver: Driver) -> None:
    driver.assert_answer(
        OF_THE_THIRD_VECTOR,
        System(refused_allocation=4),
        result=1,
        digests=66,
        bytes=6884,
        mixes=32768,
        table=16777216,
        scratch=3072,
        allocations=3,
        out=f'"{THIRD_VECTOR.decode()}"',
    )


# With N = 2, r = 1 and p = 1 the table has 2 rows of 32 words, the byte scratch has 128 bytes, and
# the word scratch 64 words.
@pytest.mark.parametrize(
    ("refused", "table", "scratch"),
    [
        pytest.param(1, 0, 0, id="the table of 256 bytes"),
        pytest.param(2, 256, 0, id="the byte scratch of 128"),
        pytest.param(3, 256, 128, id="the word scratch of 256"),
    ],
)
def test_memory_of_a_failed_allocation_is_not_counted(
    driver: Driver, refused: int, table: int, scratch: int
) -> None:
    driver.assert_answer(
        Hash(b"", b"$7$//..../....", GREATEST),
        System(refused_allocation=refused),
        result=0,
        error=Reason.OUT_OF_MEMORY,
        digests=0,
        table=table,
        scratch=scratch,
        allocations=refused,
    )


def test_the_least_memory_of_scrypt_is_counted(driver: Driver) -> None:
    """The hash is from Python's hashlib, since libxcrypt, which the model uses, refuses N = 2."""
    call = Hash(b"", b"$7$//..../....", GREATEST)
    [answer] = driver.answers([call], System(refused_allocation=4))
    assert (answer.result, answer.digests, answer.bytes, answer.mixes) == (1, 10, 948, 4)
    assert (answer.table, answer.scratch, answer.allocations) == (256, 384, 3)
    assert answer.out == '"$7$//..../....$uP5sUIRHSecc.BWlumSr47yi46bBcbU8HeiFeKgGsY3"'


@pytest.mark.parametrize("refused", [1, 2, 3, 4])
def test_md5crypt_needs_no_memory(driver: Driver, refused: int) -> None:
    driver.assert_answer(
        Hash(b"password", b"$1$xxxxxxxx", GREATEST),
        System(refused_allocation=refused),
        result=1,
        digests=1002,
        bytes=36239,
        allocations=0,
        out=f'"{MD5.decode()}"',
    )


# ---- The largest scrypt hashes

# With rounds = 11, N is 2^18 and r is 32, so the table has 1 GiB. libxcrypt and Python's hashlib
# give the same hash.
LARGEST_ROUNDS = 11
LARGEST = b"$7$GU..../....ab$usU8J1uEK/M/.nHi2It6aoypY36zRdBmdiCRjefMUs."
NEEDED_KILOBYTES = 3 << 19  # 1.5 GiB: the table, and half as much for the rest of the system
OF_THE_POLICY = 0  # the budget that stands for the policy's limit


@pytest.fixture(name="driver_with_memory")
def fixture_driver_with_memory(driver: Driver) -> Driver:
    """The driver, if enough memory is available."""
    available = re.search(r"MemAvailable: +(\d+) kB", Path("/proc/meminfo").read_text("ascii"))
    if available and int(available[1]) < NEEDED_KILOBYTES:
        not_applicable("less than 1.5 GiB of memory is available")
    return driver


@pytest.mark.slow
def test_a_hash_with_a_table_of_1_gib_is_verified(driver_with_memory: Driver) -> None:
    driver_with_memory.assert_answer(
        Verify(b"password", LARGEST, GREATEST),
        result=1,
        error=0,
        digests=258,
        bytes=25508,
        mixes=524288,
        table=1073741824,
        scratch=12288,
    )


@pytest.mark.slow
def test_a_login_with_a_table_of_1_gib_is_accepted(driver_with_memory: Driver) -> None:
    driver_with_memory.assert_answer(
        Login(b"password", LARGEST, SCRYPT, LARGEST_ROUNDS, OF_THE_POLICY),
        result=1,
        error=0,
        digests=258,
        table=1073741824,
    )


@pytest.mark.slow
def test_a_dummy_hash_with_a_table_of_1_gib_is_made(driver_with_memory: Driver) -> None:
    """The dummy hash has a salt of 22 bytes instead of 2, so it digests more bytes."""
    driver_with_memory.assert_answer(
        Login(b"password", b"!", SCRYPT, LARGEST_ROUNDS, OF_THE_POLICY),
        result=0,
        error=Reason.LOCKED,
        digests=258,
        bytes=28068,
        mixes=524288,
        table=1073741824,
        scratch=12288,
    )

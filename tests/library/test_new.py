"""mkpasswd_new: hashes with random salts."""
from __future__ import annotations

import re

import pytest
from support.driver import Driver
from support.libxcrypt import crypt
from support.model.calls import (
    BUDGET,
    GREATEST,
    TEXT_SIZE,
    New,
    NewOver,
    Reason,
    System,
    length_of_hash,
    salt_of,
    in_each_form,
)
from support.model.work import LONGEST_PASSWORD, cost
from support.policies import CLAMPED, INVALID_POLICIES, POLICIES, InvalidPolicy, Policy

DRAWN = 24  # random bytes for a salt, of which each method uses as many as it needs
LOWEST_DIGITS = System(random_bytes=b"\x81".ljust(DRAWN, b"\0"))
MANY_DIGITS = System(random_bytes=bytes((place * 37 + 1) % 256 for place in range(DRAWN)))
NO_NUMBERS = System()
REAL = System(is_real=True)
SCRYPT = 7  # the number of the method

SYSTEMS = pytest.mark.parametrize(
    "system",
    [
        pytest.param(LOWEST_DIGITS, id="a byte and zeros"),
        pytest.param(MANY_DIGITS, id="different bytes"),
    ],
)
VALID = [policy for policy in POLICIES if policy not in CLAMPED]
PASSWORD = b"password"
PASSWORDS = (PASSWORD, b"a" * (LONGEST_PASSWORD + 1), b"pass\0")
EXPENSIVE = 10_000_000  # a cost above which a test makes only a few hashes


def cost_by(policy: Policy) -> int:
    """Returns what a hash of PASSWORD by this policy can cost."""
    return cost(policy.setting, len(PASSWORD))


def affordable() -> list[Policy]:
    """Returns the policies whose hashes cost no more than BUDGET."""
    return [policy for policy in POLICIES if cost_by(policy) <= BUDGET]


def new_by(policy: Policy) -> list[New]:
    """Returns calls with each password, size of `out` and budget, fewer for expensive policies."""
    length, price = length_of_hash(policy.setting), cost_by(policy)
    calls = []
    for out_size in (0, 1, 2, 3, length, length + 1, TEXT_SIZE):
        budgets = [0, 1, price - 1, price, GREATEST]
        if price > EXPENSIVE and out_size > length:
            budgets = [1, price - 1]
        calls += [
            New(password, policy.method, policy.rounds, budget, out_size)
            for password in PASSWORDS
            for budget in budgets
        ]
    return calls


def test_a_salt_uses_the_lowest_bits_first(driver: Driver) -> None:
    assert salt_of((0x81, 0, 0), 8) == b"/0......"
    expected = crypt(PASSWORD, b"$1$/0......").decode()
    driver.assert_answer(New(PASSWORD, 1), LOWEST_DIGITS, result=1, out=f'"{expected}"')


@SYSTEMS
@pytest.mark.parametrize("policy", affordable(), ids=str)
def test_the_first_of_several_refusals_of_a_new_hash_is_reported(
    driver: Driver, policy: Policy, system: System
) -> None:
    """Tries each password with each size of `out` and each budget."""
    driver.assert_matches_model(new_by(policy), system, threads=4)


@SYSTEMS
@pytest.mark.parametrize("policy", affordable(), ids=str)
def test_each_form_makes_a_new_hash_and_accepts_null_pointers(
    driver: Driver, policy: Policy, system: System
) -> None:
    """Calls the exported function, and the inline one with a password of bytes and of a string."""
    price = cost_by(policy)
    calls = in_each_form(
        New(PASSWORD, policy.method, policy.rounds, price),
        New(PASSWORD, policy.method, policy.rounds, price, out_size=None),
        New(None, policy.method, policy.rounds, price),
    )
    driver.assert_matches_model(calls, system, threads=4)


@pytest.mark.parametrize("policy", INVALID_POLICIES, ids=str)
def test_an_invalid_policy_makes_no_hash(driver: Driver, policy: InvalidPolicy) -> None:
    call = New(b"password", policy.method, policy.rounds)
    driver.assert_answer(call, result=0, error=policy.error, drawn=0, out='"*0"')
    calls = [
        New(password, policy.method, policy.rounds, budget, out_size)
        for password in PASSWORDS
        for out_size in (0, 1, 2, 3, 4, TEXT_SIZE)
        for budget in (0, 1, 8, 9, GREATEST)
    ]
    driver.assert_matches_model(in_each_form(*calls), MANY_DIGITS)


@pytest.mark.parametrize("policy", CLAMPED, ids=str)
def test_rounds_that_would_be_clamped_make_no_hash(driver: Driver, policy: Policy) -> None:
    call = New(b"password", policy.method, policy.rounds)
    driver.assert_answer(call, result=0, error=Reason.ROUNDS, drawn=0, out='"*0"')


@pytest.mark.parametrize("policy", VALID, ids=str)
def test_without_random_numbers_there_is_no_hash(driver: Driver, policy: Policy) -> None:
    calls = [call for call in new_by(policy) if call.budget in (0, 1, GREATEST)]
    driver.assert_matches_model(calls, NO_NUMBERS)
    driver.assert_answer(
        New(b"password", policy.method, policy.rounds, GREATEST),
        result=0,
        error=Reason.NO_RANDOM_NUMBERS,
        digests=0,
        drawn=DRAWN,
        out='"*0"',
    )


@SYSTEMS
@pytest.mark.parametrize("allocation", [1, 2, 3, 4])
def test_a_failed_allocation_makes_no_hash(driver: Driver, allocation: int, system: System) -> None:
    system = System(allocation, system.random_bytes)
    calls = [New(password, SCRYPT, 0, BUDGET) for password in (PASSWORD, b"a\0")]
    driver.assert_matches_model(calls, system)


@SYSTEMS
@pytest.mark.parametrize(
    ("method", "rounds"),
    [
        pytest.param(1, 0, id="md5crypt"),
        pytest.param(5, 1000, id="sha256crypt"),
        pytest.param(6, 1000, id="sha512crypt"),
        pytest.param(7, 0, id="scrypt"),
    ],
)
def test_a_password_in_out_is_hashed_before_it_is_overwritten(
    driver: Driver, method: int, rounds: int, system: System
) -> None:
    driver.assert_matches_model([NewOver(b"password", method, rounds)], system)


@SYSTEMS
@pytest.mark.parametrize(
    "method",
    [
        pytest.param(1, id="md5crypt"),
        pytest.param(5, id="sha256crypt"),
        pytest.param(6, id="sha512crypt"),
    ],
)
def test_the_longest_password_gets_a_hash(driver: Driver, method: int, system: System) -> None:
    driver.assert_matches_model([New(b"a" * 1024, method, 5000)], system)


def test_10000_salts_from_the_system_differ(driver: Driver) -> None:
    answers = driver.answers([New(b"a", 1)] * 10_000, REAL)
    assert {(answer.result, answer.error, answer.drawn) for answer in answers} == {(1, 0, DRAWN)}
    matches = [re.match(r'"\$1\$([^$]{8})\$', answer.out) for answer in answers]
    salts = {match[1] for match in matches if match is not None}
    assert len(salts) == 10_000


def test_a_policy_of_zeros_is_sha512crypt_with_656000_rounds(driver: Driver) -> None:
    """A null policy is the same: the driver makes each inline call with both."""
    for call in in_each_form(New(PASSWORD)):
        new = driver.answers([call], MANY_DIGITS)[0].out.strip('"').encode()
        assert new.startswith(b"$6$rounds=656000$"), call.row
        assert crypt(PASSWORD, new) == new


def test_libxcrypt_agrees_with_a_hash_with_a_random_salt(driver: Driver) -> None:
    new = driver.answers([New(b"a", 1)], REAL)[0].out.strip('"').encode()
    assert crypt(b"a", new) == new

"""mkpasswd_limit and mkpasswd_rounds of the shared library, for 100,000 policies.

The expected reports follow from the formulas of docs/FORMATS.md. Unlike test_admitted.py, this uses
neither the model nor the header.
"""
from __future__ import annotations

import ctypes
import random
import struct
from dataclasses import dataclass

import pytest
from support.model.calls import Reason
from support.needs import built
from support.policy_limits import (
    LONGEST_PASSWORD,
    MD5CRYPT,
    METHODS,
    MOST_ROUNDS,
    RECOMMENDED_ROUNDS,
    SCRYPT,
    SHA256CRYPT,
    SHA512CRYPT,
    Policy,
    fitted_rounds,
    is_longest,
    new_cost,
    random_policies,
)

POLICIES = 100_000

# struct mkpasswd_report: error, outdated, length, scheme, rounds, n, r, p, cost and five counts.
REPORT = struct.Struct("<8I6Q")
RECOMMENDED_METHOD = 0


@dataclass(frozen=True)
class Answer:
    """What a call returns and reports."""

    returned: int
    error: int
    length: int
    cost: int
    rounds: int


@pytest.fixture(scope="module", name="library")
def fixture_library() -> ctypes.CDLL:
    """The built library."""
    library = ctypes.CDLL(str(built("libmkpasswd.so.3", "lib")))
    number, wide, report = ctypes.c_uint32, ctypes.c_uint64, ctypes.c_char_p
    library.mkpasswd_limit_bytes.argtypes = (number, number, wide, report)
    library.mkpasswd_limit_bytes.restype = ctypes.c_int32
    library.mkpasswd_rounds_bytes.argtypes = (ctypes.c_size_t, number, number, wide, report)
    library.mkpasswd_rounds_bytes.restype = ctypes.c_int32
    return library


def answer_of(returned: int, report: bytes) -> Answer:
    """Returns the answer of a call. Fails if its report says that it hashed or audited."""
    error, outdated, length, scheme, rounds, n, r, p, cost, *counts = REPORT.unpack(report)
    assert (outdated, scheme, n, r, p) == (0, 0, 0, 0, 0)
    assert counts == [0, 0, 0, 0, 0]
    return Answer(returned, error, length, cost, rounds)


def refusal(error: int, cost: int = 0) -> Answer:
    """Returns the answer of a call that reports an error, and perhaps a cost."""
    return Answer(returned=0, error=error, length=0, cost=cost, rounds=0)


def limit_of(library: ctypes.CDLL, policy: Policy) -> Answer:
    """Calls mkpasswd_limit_bytes."""
    report = ctypes.create_string_buffer(REPORT.size)
    returned = library.mkpasswd_limit_bytes(policy.method, policy.rounds, policy.budget, report)
    return answer_of(returned, report.raw)


def rounds_of(library: ctypes.CDLL, length: int, policy: Policy) -> Answer:
    """Calls mkpasswd_rounds_bytes."""
    report = ctypes.create_string_buffer(REPORT.size)
    numbers = (policy.method, policy.rounds, policy.budget)
    returned = library.mkpasswd_rounds_bytes(length, *numbers, report)
    return answer_of(returned, report.raw)


def assert_limit(library: ctypes.CDLL, policy: Policy) -> None:
    """Fails the test unless the report has the limit and the longest password within it."""
    answer = limit_of(library, policy)
    if policy.error is not None:
        assert answer == refusal(policy.error), policy
        return
    if new_cost(policy.method, policy.chosen_rounds, 0) > policy.limit:
        assert answer == refusal(Reason.OVER_BUDGET, policy.limit), policy
        return
    rounds = 0 if policy.method == MD5CRYPT else policy.chosen_rounds
    assert answer == Answer(1, 0, answer.length, policy.limit, rounds), policy
    assert is_longest(policy, answer.length), (policy, answer)


def assert_rounds(library: ctypes.CDLL, policy: Policy, length: int) -> None:
    """Fails the test unless the report has rounds within the limit, and their cost."""
    answer = rounds_of(library, length, policy)
    if length > LONGEST_PASSWORD:
        assert answer == refusal(Reason.PASSWORD_TOO_LONG), (policy, length)
        return
    if policy.error is not None:
        assert answer == refusal(policy.error), (policy, length)
        return
    rounds = fitted_rounds(policy, length)
    if rounds is None:
        cost_by_policy = new_cost(policy.method, policy.chosen_rounds, length)
        assert answer == refusal(Reason.OVER_BUDGET, cost_by_policy), (policy, length)
        return
    cost = new_cost(policy.method, rounds, length)
    expected = Answer(returned=1, error=0, length=0, cost=cost, rounds=rounds)
    assert answer == expected, (policy, length)
    assert answer.cost <= policy.limit, (policy, length)


@pytest.mark.parametrize(
    ("method", "limit", "longest"),
    [
        pytest.param(MD5CRYPT, 150_000_000, 1024, id="md5crypt"),
        pytest.param(SHA256CRYPT, 211_937_408, 150, id="sha256crypt"),
        pytest.param(SHA512CRYPT, 253_921_472, 168, id="sha512crypt"),
        pytest.param(SCRYPT, 268_491_592, 1024, id="scrypt"),
    ],
)
def test_a_policy_with_recommended_rounds_has_the_documented_limit(
    library: ctypes.CDLL, method: int, limit: int, longest: int
) -> None:
    """The numbers are those of the table in docs/FORMATS.md."""
    answer = limit_of(library, Policy(method, 0, 0))
    assert (answer.cost, answer.length, answer.rounds) == (
        limit,
        longest,
        RECOMMENDED_ROUNDS[method],
    )


@pytest.mark.parametrize("rounds", [0, 999, 1000, 5000, 656_000, MOST_ROUNDS])
@pytest.mark.parametrize("budget", [0, 1, 253_921_472, 2**64 - 1])
def test_method_0_has_the_limit_of_sha512crypt(
    library: ctypes.CDLL, rounds: int, budget: int
) -> None:
    expected = limit_of(library, Policy(SHA512CRYPT, rounds, budget))
    assert limit_of(library, Policy(RECOMMENDED_METHOD, rounds, budget)) == expected


@pytest.mark.slow
def test_a_limit_admits_exactly_the_passwords_up_to_the_longest(library: ctypes.CDLL) -> None:
    """Tries 100,000 random policies."""
    for policy in random_policies(seed=111, count=POLICIES):
        assert_limit(library, policy)


@pytest.mark.slow
def test_rounds_for_any_length_keep_a_new_hash_within_the_limit(library: ctypes.CDLL) -> None:
    """Tries 100,000 random policies, each with a random length."""
    source = random.Random(112)
    for policy in random_policies(seed=113, count=POLICIES):
        length = source.choice((0, 64, 1024, 1025, source.randrange(1026)))
        assert_rounds(library, policy, length)


@pytest.mark.parametrize(
    "length",
    [pytest.param(length, id=f"{length} bytes") for length in range(0, LONGEST_PASSWORD + 1, 64)],
)
def test_a_policy_without_a_budget_has_rounds_for_every_length(
    library: ctypes.CDLL, length: int
) -> None:
    """The limit of such a policy is never below the cost of the fewest rounds."""
    for method in METHODS:
        numbers = (0, 6, 11) if method == SCRYPT else (0, 1000, 75_357, MOST_ROUNDS)
        for rounds in numbers:
            policy = Policy(method, rounds, 0)
            assert rounds_of(library, length, policy).returned == 1, policy

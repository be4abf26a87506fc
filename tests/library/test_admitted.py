"""mkpasswd_limit and mkpasswd_rounds: which passwords a policy admits, and rounds for longer ones.

test_limits_of_policies.py tests them with many more policies, without the model.
"""
from __future__ import annotations

import pytest
from support.driver import Driver
from support.model.calls import (
    GREATEST,
    Call,
    Limit,
    Login,
    New,
    Reason,
    Rounds,
    System,
    in_each_form,
    method_of,
)
from support.model.settings import recommended_setting
from support.model.work import LONGEST_PASSWORD, cost
from support.policies import (
    CLAMPED,
    GREATEST_32,
    INVALID_POLICIES,
    INVALID_ROUNDS,
    POLICIES,
    RECOMMENDED,
    InvalidPolicy,
    Policy,
)

VALID = (
    *(policy for policy in POLICIES if policy not in CLAMPED),
    Policy("sha512crypt with the most rounds that admit every password", 6, 75_356),
    Policy("sha512crypt with one round more", 6, 75_357),
    Policy("sha256crypt with the most rounds that admit every password", 5, 76_596),
    Policy("sha256crypt with one round more", 5, 76_597),
    Policy("sha512crypt with the most rounds", 6, 999_999_999),
    Policy("md5crypt with the greatest number as rounds", 1, GREATEST_32),
)
INVALID = (
    *INVALID_POLICIES,
    *INVALID_ROUNDS,
    *(
        InvalidPolicy(policy.title, policy.method, policy.rounds, Reason.ROUNDS)
        for policy in CLAMPED
    ),
)
# For each of these lengths, the budgets are the cost of a new hash of such a password, one more,
# and one less. The recommended policy admits 168 bytes, so 169 is one too many.
LENGTHS_OF_BUDGETS = (0, 8, 64, 65, 169, 1023, 1024)
TOO_LONG = (LONGEST_PASSWORD + 1, GREATEST_32 + 1, GREATEST_32 + 9, GREATEST)
LENGTHS = (0, 64, 169, LONGEST_PASSWORD, *TOO_LONG)
RANDOM_BYTES = System(random_bytes=bytes(range(1, 25)))
SHA512CRYPT = 6  # the number of the method


def budgets_of(policy: Policy) -> list[int]:
    """Returns 0 for none, the least and the greatest budget, and some around costs."""
    setting = policy.setting
    costs = [cost(setting, length) for length in LENGTHS_OF_BUDGETS]
    near_costs = [price + step for price in costs for step in (-1, 0, 1)]
    return [0, 1, GREATEST, *near_costs]


def calls_by(policy: Policy, budgets: list[int]) -> list[Call]:
    """Returns mkpasswd_limit and mkpasswd_rounds with each budget and each length."""
    calls: list[Call] = []
    for budget in budgets:
        calls.append(Limit(policy.method, policy.rounds, budget))
        calls += [Rounds(length, policy.method, policy.rounds, budget) for length in LENGTHS]
    return in_each_form(*calls)


@pytest.mark.parametrize("policy", VALID, ids=str)
def test_each_side_of_a_limit_is_reported(driver: Driver, policy: Policy) -> None:
    driver.assert_matches_model(calls_by(policy, budgets_of(policy)))


def test_calls_report_the_same_in_eight_threads(driver: Driver) -> None:
    calls = [call for policy in VALID for call in calls_by(policy, budgets_of(policy))]
    calls += [call for policy in INVALID for call in calls_by(policy, [0, GREATEST])]
    driver.assert_matches_model(calls, threads=8)


@pytest.mark.parametrize("policy", VALID, ids=str)
def test_a_budget_admits_the_longest_password_whose_hash_costs_no_more(
    driver: Driver, policy: Policy
) -> None:
    """Tests those lengths whose cost differs from that of the next length.

    168 is the longest that the recommended policy admits.
    """
    setting = policy.setting
    for length in (0, 8, 64, 168):
        budget = cost(setting, length + 1) - 1
        if cost(setting, length) <= budget:
            call = Limit(policy.method, policy.rounds, budget)
            driver.assert_answer(call, result=1, error=0, length=length, cost=budget)


@pytest.mark.parametrize("policy", VALID, ids=str)
def test_a_budget_that_does_not_admit_the_empty_password_is_reported(
    driver: Driver, policy: Policy
) -> None:
    budget = cost(policy.setting, 0) - 1
    call = Limit(policy.method, policy.rounds, budget)
    driver.assert_answer(call, result=0, error=Reason.OVER_BUDGET, length=0, cost=budget, rounds=0)


@pytest.mark.parametrize("policy", INVALID, ids=str)
def test_an_invalid_policy_has_no_limit_and_no_rounds(
    driver: Driver, policy: InvalidPolicy
) -> None:
    for budget in (0, 1, 8, 9, 10, GREATEST):
        calls: list[Call] = [Limit(policy.method, policy.rounds, budget)]
        calls += [
            Rounds(length, policy.method, policy.rounds, budget) for length in (0, LONGEST_PASSWORD)
        ]
        for answer in driver.assert_matches_model(calls):
            assert (answer.result, answer.error) == (0, policy.error)
            assert (answer.length, answer.cost, answer.rounds) == (0, 0, 0)


@pytest.mark.parametrize("policy", [RECOMMENDED, *INVALID], ids=str)
@pytest.mark.parametrize("length", [pytest.param(length, id=f"{length}") for length in TOO_LONG])
def test_no_policy_has_rounds_for_a_password_above_1024_bytes(
    driver: Driver, length: int, policy: Policy
) -> None:
    call = Rounds(length, policy.method, policy.rounds)
    driver.assert_answer(call, result=0, error=Reason.PASSWORD_TOO_LONG, cost=0, rounds=0)


@pytest.mark.parametrize("number", [5, 6], ids=["sha256crypt", "sha512crypt"])
@pytest.mark.parametrize("length", [0, 169, 1024], ids=["no byte", "169 bytes", "1024 bytes"])
def test_the_fewest_rounds_need_a_budget_of_their_cost(
    driver: Driver, length: int, number: int
) -> None:
    method = method_of(number, 1000, are_clamped=False)
    least = cost(recommended_setting(method, 1000), length)
    of_policy = cost(recommended_setting(method, 0), length)
    driver.assert_answer(
        Rounds(length, number, 0, least), result=1, error=0, cost=least, rounds=1000
    )
    driver.assert_answer(
        Rounds(length, number, 0, least - 1),
        result=0,
        error=Reason.OVER_BUDGET,
        cost=of_policy,
        rounds=0,
    )


@pytest.mark.parametrize(
    ("length", "rounds"),
    [
        pytest.param(168, 656_000, id="168 bytes with the recommended rounds"),
        pytest.param(200, 528_906, id="200 bytes with fewer"),
        pytest.param(1024, 118_822, id="1024 bytes with fewer"),
    ],
)
def test_a_hash_with_the_reported_rounds_is_made_and_accepted_within_the_limit(
    driver: Driver, length: int, rounds: int
) -> None:
    """For fewer rounds, docs/FORMATS.md says, the limit must be given as the budget."""
    password = b"a" * length
    driver.assert_answer(Rounds(length, SHA512CRYPT), result=1, rounds=rounds)
    limit = driver.answers([Limit(SHA512CRYPT)])[0].cost
    new = New(password, SHA512CRYPT, rounds, limit)
    new_hash = new.expected(RANDOM_BYTES).out.strip('"').encode()
    calls: list[Call] = [new, Login(password, new_hash, SHA512CRYPT, 0, limit)]
    answers = driver.assert_matches_model(calls, RANDOM_BYTES, threads=2)
    assert [(answer.result, answer.error) for answer in answers] == [(1, 0), (1, 0)]
    is_outdated = rounds < 656_000
    assert answers[1].outdated == int(is_outdated)

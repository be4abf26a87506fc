"""The limits of 100,000 policies in the package, by the formulas of docs/FORMATS.md."""
from __future__ import annotations

import pytest
from support.package import class_raised, package_under_test
from support.policy_limits import (
    MD5CRYPT,
    METHODS,
    SCRYPT,
    SHA256CRYPT,
    SHA512CRYPT,
    is_longest,
    new_cost,
    random_policies,
)

with package_under_test():
    import mkpasswd
    from mkpasswd import _library

POLICIES = 100_000
NAMES = {
    MD5CRYPT: "md5crypt",
    SHA256CRYPT: "sha256crypt",
    SHA512CRYPT: "sha512crypt",
    SCRYPT: "scrypt",
}


def test_the_limit_and_the_longest_password_follow_the_formulas() -> None:
    for policy in random_policies(seed=7, count=POLICIES):
        if policy.method not in METHODS or policy.error:
            continue
        numbers = _library.Numbers(policy.method, policy.rounds, policy.budget)
        answer = _library.limit(numbers)
        report = answer.report
        assert report.cost == policy.limit, policy
        if new_cost(policy.method, policy.chosen_rounds, 0) > policy.limit:
            assert (answer.is_yes, report.length) == (False, 0), policy
        else:
            assert answer.is_yes and is_longest(policy, report.length), (policy, report.length)


@pytest.mark.parametrize("seed", range(3))
def test_a_policy_refuses_exactly_the_rounds_that_no_new_hash_has(seed: int) -> None:
    for policy in random_policies(seed, count=1000):
        if policy.method not in METHODS:
            continue
        arguments = (NAMES[policy.method], policy.rounds)
        if policy.error:
            assert class_raised(mkpasswd.Policy, *arguments) is mkpasswd.Refused, policy
        else:
            assert mkpasswd.Policy(*arguments).rounds == policy.rounds

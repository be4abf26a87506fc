"""The limits of random policies, as mkpasswd.mjs reports them in node.

The expected limits and lengths are the model's, by the formulas of docs/FORMATS.md.
"""
from __future__ import annotations

import json
import random
from bisect import bisect_right
from dataclasses import dataclass
from pathlib import Path

import pytest
from support import ROOT
from support.model.methods import BY_NAME, MD5CRYPT, SCRYPT, SHA256CRYPT, SHA512CRYPT, Method
from support.model.settings import (
    LEAST_ROUNDS,
    MOST_ROUNDS,
    SCRYPT_COSTS,
    Setting,
    recommended_setting,
)
from support.model.work import LONGEST_PASSWORD, cost, login_limit
from support.reports import Report, report_of_node

# One worker of pytest-xdist runs limits.mjs.
pytestmark = pytest.mark.xdist_group("node")

POLICIES = 100_000
HASHING_POLICIES = 100
METHODS_BUT_SCRYPT = (MD5CRYPT, SHA256CRYPT, SHA512CRYPT)
ANY_ROUNDS = -1  # drawn between the fewest and the most


@dataclass(frozen=True)
class Policy:
    """A policy. 0 means the recommended rounds, and no budget means the policy's own limit."""

    method: Method
    rounds: int
    budget: int | None

    @property
    def setting(self) -> Setting:
        """The setting of new hashes."""
        return recommended_setting(self.method, self.rounds)

    @property
    def limit(self) -> int:
        """The most that a login and a new hash may cost."""
        if self.budget is not None:
            return self.budget
        return login_limit(self.method, self.rounds, 0)

    @property
    def longest_password(self) -> int | None:
        """The length of the longest password whose new hash is within the limit, or None."""
        setting = self.setting
        lengths = range(LONGEST_PASSWORD + 1)
        count = bisect_right(lengths, self.limit, key=lambda length: cost(setting, length))
        return count - 1 if count else None

    @property
    def expected(self) -> dict[str, int | None]:
        """The report that limits.mjs must give."""
        return {
            "rounds": self.rounds or self.method.recommended,
            "bytes": self.limit,
            "passwordLength": self.longest_password,
        }


def is_right(policy: Policy, got: dict[str, int | None]) -> bool:
    """Returns whether a report is the policy's expected one, without looking for the longest."""
    setting, limit, longest = policy.setting, policy.limit, got["passwordLength"]
    if (got["rounds"], got["bytes"]) != (policy.rounds or policy.method.recommended, limit):
        return False
    if longest is None:
        return cost(setting, 0) > limit
    if not 0 <= longest <= LONGEST_PASSWORD or cost(setting, longest) > limit:
        return False
    return longest == LONGEST_PASSWORD or cost(setting, longest + 1) > limit


def random_rounds(generator: random.Random, method: Method, most_rounds: int) -> int:
    """Returns valid rounds of a method, or 0."""
    choices = (0, LEAST_ROUNDS, most_rounds, *[ANY_ROUNDS] * 9)
    rounds: int = generator.choice((0, *SCRYPT_COSTS) if method is SCRYPT else choices)
    if rounds == ANY_ROUNDS:
        # Each magnitude is equally probable.
        rounds = int(LEAST_ROUNDS * (most_rounds / LEAST_ROUNDS) ** generator.random())
    return rounds


def random_policy(
    generator: random.Random, most_rounds: int, methods: tuple[Method, ...] = METHODS_BUT_SCRYPT
) -> Policy:
    """Returns a policy whose budget is often just above or below the cost of some password."""
    method = generator.choice(methods)
    rounds = random_rounds(generator, method, most_rounds)
    setting = recommended_setting(method, rounds)
    price = cost(setting, generator.randint(0, LONGEST_PASSWORD))
    budgets = (None, price - 1, price, price + 1, int(10 ** generator.uniform(0, 13)))
    return Policy(method, rounds, generator.choice(budgets))


def reports_of(node: str, web_build: Path, policies: list[Policy], *, is_hashed: bool) -> Report:
    """Runs limits.mjs for these policies."""
    given = [[policy.method.name, policy.rounds, policy.budget, is_hashed] for policy in policies]
    script = ROOT / "tests/web/limits.mjs"
    module = web_build / "mkpasswd.mjs"
    return report_of_node(node, script, module, stdin=json.dumps(given).encode())


def test_random_policies_have_the_models_limits(node: str, web_build: Path, seed: int) -> None:
    generator = random.Random(seed)
    methods = (*METHODS_BUT_SCRYPT, SCRYPT)
    policies = [random_policy(generator, MOST_ROUNDS, methods) for _ in range(POLICIES)]
    report = reports_of(node, web_build, policies, is_hashed=False)
    assert len(report.value) == POLICIES
    wrong = [
        f"expected {policy.expected}, got {got}: {policy}"
        for policy, got in zip(policies, report.value)
        if not is_right(policy, got)
    ]
    assert wrong == [], f"SEED={seed}"


def refusal_of_longer_password(length: int) -> str:
    """Returns the error for a password that is one byte longer than a policy admits."""
    if length == LONGEST_PASSWORD:
        return "Refused: password too long: it may have 1024 bytes"
    return f"TooCostly: over budget: a password may have at most {length} bytes with these rounds"


def test_the_longest_password_is_hashed_and_a_longer_one_refused(
    node: str, web_build: Path, seed: int
) -> None:
    generator = random.Random(seed)
    drawn = (random_policy(generator, 2 * LEAST_ROUNDS) for _ in range(HASHING_POLICIES))
    policies = [policy for policy in drawn if policy.rounds and policy.longest_password is not None]
    report = reports_of(node, web_build, policies, is_hashed=True)
    assert len(report.value) == len(policies) > 0
    wrong = [
        f"got {got}: {policy}"
        for policy, got in zip(policies, report.value)
        if got["hashed"] != [True, refusal_of_longer_password(policy.longest_password or 0)]
    ]
    assert wrong == [], f"SEED={seed}"


@pytest.mark.parametrize(
    ("method", "limit", "longest_password"),
    [
        pytest.param("sha512crypt", 253_921_472, 168, id="sha512crypt"),
        pytest.param("sha256crypt", 211_937_408, 150, id="sha256crypt"),
        pytest.param("scrypt", 268_491_592, 1024, id="scrypt"),
        pytest.param("md5crypt", 150_000_000, 1024, id="md5crypt"),
    ],
)
def test_the_recommended_policy_has_the_documented_limit(
    node: str, web_build: Path, method: str, limit: int, longest_password: int
) -> None:
    policy = Policy(BY_NAME[method], 0, None)
    report = reports_of(node, web_build, [policy], is_hashed=False)
    assert report.value[0]["bytes"] == limit
    assert report.value[0]["passwordLength"] == longest_password

"""Policies, their hashes, and what these hashes may cost."""
from __future__ import annotations

import copy
import pickle
from typing import Any

import pytest
from support.package import crypt, error_of, class_raised, package_under_test
from support.passwords import LONGEST, LONGEST_BY_DEFAULT, TOO_COSTLY
from support.stored_strings import COSTLY, DEAD, LOCKED, MD5, REFUSED, SHA512, title

with package_under_test():
    import mkpasswd
    from mkpasswd import Limit, Policy, Reason, State, TooCostly, cost
    from mkpasswd.crypt import crypt as crypt_call

METHODS = ["md5crypt", "sha256crypt", "sha512crypt", "scrypt"]
QUICK = Policy(rounds=1000)


# ---- A policy is a value


def test_the_recommended_policy_is_the_default() -> None:
    assert Policy() == Policy("sha512crypt", None, None) != Policy(rounds=5000)


def test_a_set_has_equal_policies_once() -> None:
    assert len({Policy(), Policy(), QUICK}) == 2


def test_a_policy_does_not_equal_another_value() -> None:
    assert Policy() not in (None, "sha512crypt", ("sha512crypt", None, None))


@pytest.mark.parametrize(
    "again",
    [
        pytest.param(copy.copy, id="copied"),
        pytest.param(copy.deepcopy, id="copied deeply"),
        pytest.param(lambda policy: pickle.loads(pickle.dumps(policy)), id="pickled"),
    ],
)
def test_a_policy_can_be_copied_and_pickled(again: Any) -> None:
    policy = again(Policy(rounds=1000, budget=10**6))
    assert policy == Policy(rounds=1000, budget=10**6)
    assert policy.login("password", field=policy.hash("password")) is True


def test_a_policy_shows_its_arguments() -> None:
    expected = "Policy(method='scrypt', rounds=8, budget=None)"
    assert repr(Policy("scrypt", 8)) == expected


@pytest.mark.parametrize("name", ["method", "rounds", "budget", "other"])
def test_a_policy_cannot_be_changed(name: str) -> None:
    assert class_raised(setattr, Policy(), name, 5000) is AttributeError


# ---- New hashes


@pytest.mark.parametrize(
    ("policy", "beginning"),
    [
        pytest.param(Policy("md5crypt"), "$1$", id="md5crypt"),
        pytest.param(Policy("md5crypt", 5), "$1$", id="md5crypt, which ignores rounds"),
        pytest.param(Policy("sha256crypt"), "$5$rounds=656000$", id="sha256crypt"),
        pytest.param(Policy("sha256crypt", 1000), "$5$rounds=1000$", id="sha256crypt with 1000"),
        pytest.param(Policy(), "$6$rounds=656000$", id="sha512crypt"),
        pytest.param(Policy(rounds=0), "$6$rounds=656000$", id="sha512crypt with 0"),
        pytest.param(Policy(rounds=5000), "$6$rounds=5000$", id="sha512crypt with 5000"),
        pytest.param(Policy(rounds=12345), "$6$rounds=12345$", id="sha512crypt with 12345"),
        pytest.param(Policy("scrypt"), "$7$CU..../....", id="scrypt"),
        pytest.param(Policy("scrypt", 0), "$7$CU..../....", id="scrypt with 0"),
        pytest.param(Policy("scrypt", 6), "$7$BU..../....", id="scrypt with 6"),
    ],
)
def test_a_new_hash_is_libxcrypts_with_a_new_salt(policy: Policy, beginning: str) -> None:
    stored = policy.hash("pässword")
    assert stored.startswith(beginning) and stored == crypt("pässword", stored)
    assert policy.hash("pässword") != stored


# A hash by this policy costs more than one by the recommended policy.
COSTLIER = Policy("scrypt", 9)
# A hash by this policy costs less than 150,000,000, the lowest limit.
CHEAPER = Policy("sha512crypt", 1000)
OWN_HASHES = [*map(Policy, METHODS), COSTLIER, CHEAPER]


@pytest.mark.parametrize(
    "policy", OWN_HASHES, ids=lambda policy: f"{policy.method} {policy.rounds}"
)
def test_a_policy_accepts_its_own_hashes(policy: Policy) -> None:
    stored = policy.hash("pässword")
    assert stored == crypt("pässword", stored)
    assert policy.login("pässword", field=stored) is True
    assert policy.login("passwörd", field=stored) is False
    assert not policy.needs_rehash(stored)
    assert policy.describe(stored).state is State.CURRENT


# ---- Budgets

COST_OF_MD5 = cost(MD5, 8)


@pytest.mark.parametrize(
    "budget",
    [
        pytest.param(COST_OF_MD5, id="the cost"),
        pytest.param(2**64, id="more than 64 bits"),
        pytest.param(2**100, id="much more"),
        pytest.param(None, id="none given"),
    ],
)
def test_a_hash_within_the_budget_matches(budget: int | None) -> None:
    assert Policy(budget=budget).login("password", field=MD5) is True


@pytest.mark.parametrize("budget", [1, COST_OF_MD5 - 1], ids=["1", "one less than the cost"])
def test_a_hash_above_the_budget_lets_nobody_in(budget: int) -> None:
    assert Policy(budget=budget).login("password", field=MD5) is False


@pytest.mark.parametrize("budget", [1, COST_OF_MD5 - 1], ids=["1", "one less than the cost"])
@pytest.mark.parametrize(
    "again",
    [
        pytest.param(lambda error: error, id="as raised"),
        pytest.param(copy.copy, id="copied"),
        pytest.param(lambda error: pickle.loads(pickle.dumps(error)), id="pickled"),
    ],
)
def test_a_hash_above_the_budget_is_an_error_with_both_numbers(again: Any, budget: int) -> None:
    error = again(error_of(crypt_call, "password", salt=MD5, budget=budget))
    assert error.__class__ is TooCostly and error.reason is Reason.OVER_BUDGET
    assert (error.cost, error.budget) == (COST_OF_MD5, budget)
    assert str(error) == f"over budget: the hash can cost more than {budget}"


def test_a_new_hash_above_the_budget_is_an_error() -> None:
    policy = Policy(rounds=1_000_000, budget=200_000_000)
    assert class_raised(policy.hash, "x" * 1000) is TooCostly


@pytest.mark.parametrize(
    ("policy", "limit"),
    [
        pytest.param(
            Policy(),
            Limit(cost=253_921_472, longest_password=168, rounds=656_000),
            id="sha512crypt",
        ),
        pytest.param(
            Policy("sha256crypt"),
            Limit(cost=211_937_408, longest_password=150, rounds=656_000),
            id="sha256crypt",
        ),
        pytest.param(
            Policy("scrypt"),
            Limit(cost=268_491_592, longest_password=1024, rounds=7),
            id="scrypt",
        ),
        pytest.param(
            Policy("md5crypt"),
            Limit(cost=150_000_000, longest_password=1024, rounds=0),
            id="md5crypt",
        ),
        pytest.param(
            Policy(budget=1),
            Limit(cost=1, longest_password=0, rounds=0),
            id="a budget that admits nothing",
        ),
    ],
)
def test_a_limit_is_as_documented(policy: Policy, limit: Limit) -> None:
    """docs/FORMATS.md has a table of limits."""
    assert policy.limit() == limit


def dearest_setting(limit: int) -> tuple[str, str]:
    """Returns settings with the most rounds within a limit, in steps of 1000, and one step more."""

    def setting(rounds: int) -> str:
        return f"$6$rounds={rounds}$saltsaltsaltsalt"

    rounds = range(500_000, 3_000_000, 1000)
    most = max(number for number in rounds if cost(setting(number), 8) <= limit)
    return setting(most), setting(most + 1000)


@pytest.mark.parametrize("policy", [Policy(), Policy("md5crypt")], ids=["sha512crypt", "md5crypt"])
def test_a_login_hashes_up_to_the_limit_and_no_more(policy: Policy) -> None:
    within, above = dearest_setting(policy.limit().cost)
    assert policy.login("password", field=crypt("password", within)) is True
    assert policy.login("password", field=crypt("password", above)) is False


# ---- Long passwords


@pytest.fixture(scope="module", name="of_168")
def fixture_of_168() -> str:
    """A hash of the longest password, by the recommended policy."""
    return mkpasswd.hash(LONGEST_BY_DEFAULT)


def test_168_bytes_match_by_the_recommended_policy(of_168: str) -> None:
    assert mkpasswd.login(LONGEST_BY_DEFAULT, field=of_168) is True


def test_168_other_bytes_do_not_match(of_168: str) -> None:
    assert mkpasswd.login("x" * 167 + "y", field=of_168) is False


def test_169_bytes_are_refused_by_the_recommended_policy() -> None:
    error = error_of(mkpasswd.hash, TOO_COSTLY)
    assert error.__class__ is TooCostly
    assert str(error) == "over budget: the hash can cost more than 253921472"


def test_a_given_budget_can_admit_the_longest_password() -> None:
    policy = Policy(budget=1_300_000_000)
    stored = policy.hash(LONGEST)
    assert stored.startswith("$6$rounds=656000$")
    assert policy.login(LONGEST, field=stored) is True
    assert mkpasswd.login(LONGEST, field=stored) is False


@pytest.mark.parametrize("length", [0, 64, 168])
def test_a_password_within_the_limit_keeps_its_policy(length: int) -> None:
    assert Policy().for_length(length) == Policy()


@pytest.mark.parametrize(
    ("length", "rounds"),
    [pytest.param(200, 528_906, id="200"), pytest.param(1024, 118_822, id="1024")],
)
def test_a_longer_password_gets_fewer_rounds(length: int, rounds: int) -> None:
    """docs/FORMATS.md has the formula, and these two numbers."""
    policy, limit = Policy().for_length(length), Policy().limit().cost
    assert policy == Policy(rounds=rounds, budget=limit)
    assert cost(policy.setting("a" * 16), length) <= limit


def test_a_longer_password_matches_by_its_policy() -> None:
    policy = Policy().for_length(1024)
    stored = policy.hash(LONGEST)
    assert stored == crypt(LONGEST, stored)
    assert policy.login(LONGEST, field=stored) is True
    assert policy.login(LONGEST[:-1] + "y", field=stored) is False
    assert Policy().needs_rehash(stored)


@pytest.mark.parametrize("method", ["md5crypt", "scrypt"])
def test_a_method_whose_cost_hardly_depends_on_the_length_keeps_its_policy(method: str) -> None:
    assert Policy(method).for_length(1024) == Policy(method)


@pytest.mark.parametrize(
    ("policy", "length", "error"),
    [
        pytest.param(Policy(budget=10**6), 1024, TooCostly, id="a budget that admits no rounds"),
        pytest.param(Policy(), 1025, ValueError, id="1025 bytes"),
        pytest.param(Policy(), 2**64, ValueError, id="2^64 bytes"),
        pytest.param(Policy(), -1, ValueError, id="-1 bytes"),
        pytest.param(Policy(), 1.5, TypeError, id="a float"),
    ],
)
def test_a_length_without_rounds_is_refused(
    policy: Policy, length: Any, error: type[Exception]
) -> None:
    assert class_raised(policy.for_length, length) is error


# ---- Settings


@pytest.mark.parametrize(
    ("policy", "setting"),
    [
        pytest.param(Policy("md5crypt"), "$1$salt", id="md5crypt"),
        pytest.param(Policy("sha256crypt", 1000), "$5$rounds=1000$salt", id="sha256crypt"),
        pytest.param(Policy(), "$6$rounds=656000$salt", id="sha512crypt"),
        pytest.param(Policy("scrypt"), "$7$CU..../....salt", id="scrypt"),
    ],
)
@pytest.mark.parametrize("salt", ["salt", b"salt"], ids=["str", "bytes"])
def test_a_setting_has_the_given_salt(policy: Policy, setting: str, salt: str | bytes) -> None:
    assert policy.setting(salt) == setting


@pytest.mark.parametrize("method", METHODS)
def test_a_new_setting_has_the_form_of_a_new_hashs(method: str) -> None:
    policy = Policy(method)
    setting, stored = policy.setting(), policy.hash("password")
    assert len(setting) == len(stored.rpartition("$")[0]) and setting != policy.setting()
    before_salt = policy.setting("s").removesuffix("s")
    assert setting.startswith(before_salt) and stored.startswith(before_salt)


@pytest.mark.parametrize(
    ("salt", "reason"),
    [
        pytest.param("", Reason.SALT_LENGTH, id="none"),
        pytest.param("a" * 17, Reason.SALT_LENGTH, id="too long"),
        pytest.param("a$b", Reason.SALT_CHARACTER, id="a dollar"),
        pytest.param("a:b", Reason.SALT_CHARACTER, id="a colon"),
        pytest.param("é", Reason.SALT_CHARACTER, id="a non-ASCII letter"),
    ],
)
def test_a_salt_that_cannot_be_used_whole_is_refused(salt: str, reason: Reason) -> None:
    error = error_of(Policy().setting, salt)
    assert isinstance(error, mkpasswd.Refused) and error.reason is reason


# ---- A caller who only handles exceptions


def is_open(field: Any, policy: Policy = QUICK) -> bool:
    """Returns whether a careless login accepts "password"."""
    try:
        return policy.login("password", field=field)
    except (ValueError, TypeError):
        return False


NEVER_OPEN = [*LOCKED, *DEAD, *(field.text for field in REFUSED), COSTLY, SHA512]


@pytest.mark.parametrize("field", [*NEVER_OPEN, None, 0, True], ids=lambda text: title(str(text)))
def test_a_careless_login_is_refused(field: object) -> None:
    assert not is_open(field)


@pytest.mark.parametrize("budget", [1, COST_OF_MD5 - 1], ids=["1", "one less than the cost"])
def test_a_careless_login_above_the_budget_is_refused(budget: int) -> None:
    assert not is_open(MD5, Policy(budget=budget))


@pytest.mark.parametrize("policy", [Policy(), Policy(budget=COST_OF_MD5)], ids=["usual", "just"])
def test_a_careless_login_accepts_the_right_password(policy: Policy) -> None:
    assert is_open(MD5, policy)

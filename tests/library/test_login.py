"""mkpasswd_login: which logins it accepts, which hashes are outdated, and how much work it does."""
from __future__ import annotations

import pytest
from support.driver import Driver
from support.model.calls import GREATEST, Form, Login, Reason, System, in_each_form
from support.model.hashes import hash_of
from support.model.methods import MD5CRYPT, SCRYPT, SHA256CRYPT, SHA512CRYPT, Method
from support.model.settings import read_setting, recommended_setting
from support.model.work import cost
from support.policies import INVALID_POLICIES, INVALID_ROUNDS, InvalidPolicy, Policy
from support.stored_fields import (
    EMPTY,
    KNOWN_FOR_LOGINS,
    LONGEST_PASSWORD,
    NEVER_OPEN,
    OF_PASSWORD,
    SCRYPT_OF_NOTHING,
    SCRYPT_OF_PASSWORD,
    Field,
    KnownHash,
)

CHEAP_POLICIES = (
    Policy("sha256crypt with 1000 rounds", 5, 1000),
    Policy("sha512crypt with 5000 rounds", 6, 5000),
    Policy("sha512crypt with 10000 rounds", 6, 10_000),
)
POLICIES = (Policy("md5crypt", 1, 0), *CHEAP_POLICIES, Policy("scrypt with the lowest cost", 7, 6))
INVALID = (*INVALID_ROUNDS, *INVALID_POLICIES)
INVALID_PASSWORDS = pytest.mark.parametrize(
    ("password", "field", "error"),
    [
        pytest.param(
            LONGEST_PASSWORD + b"a", OF_PASSWORD.text, Reason.PASSWORD_TOO_LONG, id="1025 bytes"
        ),
        pytest.param(b"a\0", b"", Reason.PASSWORD_ZERO_BYTE, id="a zero byte without a hash"),
        pytest.param(b"\0", b"!", Reason.PASSWORD_ZERO_BYTE, id="a zero byte for a locked field"),
    ],
)
# Pairs of a hash and a policy by which it is current. By each other policy it is outdated.
CURRENT = {
    (OF_PASSWORD.title, "md5crypt"),
    ("Drepper's sha256crypt", "sha256crypt with 1000 rounds"),
    ("Drepper's sha512crypt with 10000 rounds", "sha512crypt with 5000 rounds"),
    ("Drepper's sha512crypt with 10000 rounds", "sha512crypt with 10000 rounds"),
}
# Of "password".
COST_OF_MD5CRYPT = cost(read_setting(OF_PASSWORD.text), len(OF_PASSWORD.password))
COST_OF_SHA512CRYPT = cost(recommended_setting(SHA512CRYPT, 5000), len(OF_PASSWORD.password))


@pytest.mark.parametrize("policy", POLICIES[:-1], ids=str)
@pytest.mark.parametrize("known", KNOWN_FOR_LOGINS, ids=str)
def test_the_right_password_is_accepted(driver: Driver, known: KnownHash, policy: Policy) -> None:
    outdated = int((known.title, policy.title) not in CURRENT)
    for call in in_each_form(Login(known.password, known.text, policy.method, policy.rounds)):
        driver.assert_answer(call, result=1, error=0, outdated=outdated)


@pytest.mark.parametrize("known", KNOWN_FOR_LOGINS, ids=str)
def test_the_right_password_is_accepted_if_new_hashes_are_scrypt(
    driver: Driver, known: KnownHash
) -> None:
    driver.assert_matches_model(in_each_form(Login(known.password, known.text, 7, 6)))


@pytest.mark.parametrize("policy", CHEAP_POLICIES, ids=str)
@pytest.mark.parametrize("field", NEVER_OPEN, ids=str)
def test_a_field_that_does_not_match_is_refused(
    driver: Driver, field: Field, policy: Policy
) -> None:
    error = Reason.DEAD if field.error is Reason.WRONG_PASSWORD else field.error
    calls = in_each_form(Login(b"password", field.text, policy.method, policy.rounds))
    for call in calls:
        driver.assert_answer(call, result=0, error=error, outdated=0)


@pytest.mark.parametrize("policy", POLICIES, ids=str)
def test_a_wrong_password_is_refused(driver: Driver, policy: Policy) -> None:
    calls = [
        Login(password, known.text, policy.method, policy.rounds)
        for known in KNOWN_FOR_LOGINS
        for password in (b"", b"Password")
        if password != known.password
    ]
    for answer in driver.assert_matches_model(in_each_form(*calls)):
        assert (answer.result, answer.error, answer.outdated) == (0, Reason.WRONG_PASSWORD, 0)


@INVALID_PASSWORDS
@pytest.mark.parametrize("policy", POLICIES, ids=str)
def test_an_invalid_password_is_refused_without_work(
    driver: Driver, password: bytes, field: bytes, error: Reason, policy: Policy
) -> None:
    for call in in_each_form(Login(password, field, policy.method, policy.rounds)):
        driver.assert_answer(call, result=0, error=error, cost=0, digests=0)


@pytest.mark.parametrize("policy", INVALID, ids=str)
def test_an_invalid_policy_is_refused_without_work(driver: Driver, policy: InvalidPolicy) -> None:
    for known in KNOWN_FOR_LOGINS:
        for call in in_each_form(Login(known.password, known.text, policy.method, policy.rounds)):
            driver.assert_answer(call, result=0, error=policy.error, cost=0, digests=0)


@INVALID_PASSWORDS
@pytest.mark.parametrize("policy", INVALID, ids=str)
def test_an_invalid_password_is_reported_before_an_invalid_policy(
    driver: Driver, password: bytes, field: bytes, error: Reason, policy: InvalidPolicy
) -> None:
    for call in in_each_form(Login(password, field, policy.method, policy.rounds)):
        driver.assert_answer(call, result=0, error=error)


@pytest.mark.parametrize(
    "field",
    [
        pytest.param(OF_PASSWORD.text, id="md5crypt of the password"),
        pytest.param(b"", id="no hash"),
        pytest.param(b"!", id="a locked field"),
        pytest.param(SCRYPT_OF_PASSWORD.text, id="scrypt of the password"),
    ],
)
@pytest.mark.parametrize(
    "budget",
    [
        pytest.param(0, id="0, for the limit of the policy"),
        pytest.param(COST_OF_MD5CRYPT - 1, id="one less than the cost of md5crypt"),
        pytest.param(COST_OF_MD5CRYPT, id="the cost of md5crypt"),
        pytest.param(COST_OF_SHA512CRYPT - 1, id="one less than the cost of a new hash"),
        pytest.param(COST_OF_SHA512CRYPT, id="the cost of a new hash"),
        pytest.param(GREATEST, id="the greatest number"),
    ],
)
def test_a_budget_limits_the_work(driver: Driver, field: bytes, budget: int) -> None:
    """The work includes the dummy hash that a login makes if it has no hash to compare with."""
    driver.assert_matches_model(in_each_form(Login(b"password", field, 6, 5000, budget)))


def test_a_null_field_is_an_unknown_name(driver: Driver) -> None:
    for call in in_each_form(Login(b"password", None)):
        driver.assert_answer(call, result=0, error=Reason.NO_HASH, digests=656_004)


@pytest.mark.parametrize(
    "field",
    [
        pytest.param(OF_PASSWORD.text, id="a hash"),
        pytest.param(None, id="an unknown name"),
        pytest.param(SCRYPT_OF_NOTHING.text, id="a hash of the empty password"),
    ],
)
def test_a_null_password_is_refused(driver: Driver, field: bytes | None) -> None:
    for call in in_each_form(Login(None, field)):
        driver.assert_answer(call, result=0, error=Reason.PASSWORD_ZERO_BYTE, digests=0)


def test_a_policy_of_zeros_is_sha512crypt_with_656000_rounds(driver: Driver) -> None:
    """The login reports a stored hash with one round fewer as outdated."""
    current = recommended_setting(SHA512CRYPT, 656_000, b"salt").text
    fewer = recommended_setting(SHA512CRYPT, 655_999, b"salt").text
    for setting, outdated in ((current, 0), (fewer, 1)):
        stored = hash_of(read_setting(setting), b"password")
        assert stored is not None
        for call in in_each_form(Login(b"password", stored, budget=0)):
            driver.assert_answer(call, result=1, error=0, outdated=outdated)


def test_calls_answer_the_same_in_eight_threads(driver: Driver) -> None:
    calls = [
        Login(b"password", field.text, policy.method, policy.rounds)
        for field in NEVER_OPEN
        for policy in CHEAP_POLICIES[:2]
    ]
    driver.assert_matches_model(in_each_form(*calls), threads=8)


@pytest.mark.parametrize("allocation", [1, 2, 3, 4])
def test_a_login_with_a_failed_allocation_is_refused(driver: Driver, allocation: int) -> None:
    fields = (OF_PASSWORD.text, b"", b"!", SCRYPT_OF_PASSWORD.text)
    calls = in_each_form(*(Login(b"password", field, 7, 6) for field in fields))
    driver.assert_matches_model(calls, System(refused_allocation=allocation))


@pytest.mark.parametrize(
    ("method", "number", "rounds"),
    [
        pytest.param(MD5CRYPT, 1, 0, id="md5crypt"),
        pytest.param(SHA256CRYPT, 5, 2000, id="sha256crypt with 2000 rounds"),
        pytest.param(SHA512CRYPT, 6, 0, id="sha512crypt as recommended"),
        pytest.param(SCRYPT, 7, 6, id="scrypt with the lowest cost"),
    ],
)
def test_each_kind_of_field_takes_the_same_work(
    driver: Driver, method: Method, number: int, rounds: int
) -> None:
    """The stored hashes have salts like the dummy hash's, since the work depends on the salt."""
    setting = recommended_setting(method, rounds)
    right, wrong = hash_of(setting, b"password"), hash_of(setting, b"Password")
    assert right is not None and wrong is not None
    fields = {
        "the right hash": right,
        "a wrong hash": wrong,
        "a dead hash": right + b".",
        "an unknown name": None,
        EMPTY.title: EMPTY.text,
        "a locked field": b"!" + OF_PASSWORD.text,
        "another scheme": b"$y$j9T$salt$hash",
        "a hash above the budget": b"$6$rounds=999999999$ab$x",
    }
    calls = [
        Login(b"password", field, number, rounds, budget=0, form=Form.STRINGS)
        for field in fields.values()
    ]
    answers = driver.answers(calls, threads=8)
    works = [
        (answer.digests, answer.bytes, answer.mixes, answer.table, answer.scratch)
        for answer in answers
    ]
    assert answers[0].digests > 0
    assert dict(zip(fields, works)) == dict.fromkeys(fields, works[0])

"""mkpasswd_setting: settings with given salts, and the order of its refusals."""
from __future__ import annotations

import pytest
from support.driver import Driver
from support.model.calls import METHODS, TEXT_SIZE, Hash, MakeSetting, Reason, in_each_form
from support.model.methods import ALPHABET, Method
from support.policies import INVALID_POLICIES, INVALID_ROUNDS, POLICIES, InvalidPolicy, Policy

PASSWORD = b"password"
SETTING = b"$6$rounds=1000$salt"
NAMED_METHODS = [pytest.param(number, method, id=method.name) for number, method in METHODS.items()]


@pytest.mark.parametrize(("number", "method"), NAMED_METHODS)
def test_a_salt_of_each_length_is_kept_or_refused(
    driver: Driver, number: int, method: Method
) -> None:
    salts = [ALPHABET[:1] * length for length in range(method.longest_salt + 3)]
    calls = in_each_form(*(MakeSetting(number, 0, salt) for salt in salts))
    driver.assert_matches_model(calls)
    for salt in (salts[0], salts[-1], salts[-2]):
        call = MakeSetting(number, 0, salt)
        driver.assert_answer(call, result=0, error=Reason.SALT_LENGTH, out='"*0"')


def test_a_null_salt_is_an_empty_one(driver: Driver) -> None:
    for call in in_each_form(MakeSetting(0, 0, None)):
        driver.assert_answer(call, result=0, error=Reason.SALT_LENGTH, out='"*0"')


def test_a_policy_of_zeros_is_sha512crypt_with_656000_rounds(driver: Driver) -> None:
    for call in in_each_form(MakeSetting(0, 0, b"salt")):
        driver.assert_answer(call, result=1, error=0, out='"$6$rounds=656000$salt"')


@pytest.mark.parametrize(("number", "method"), NAMED_METHODS)
def test_a_salt_may_have_each_character_of_the_alphabet_and_no_other(
    driver: Driver, number: int, method: Method
) -> None:
    salts = [b"a" + bytes([byte]) for byte in range(256)]
    calls = in_each_form(*(MakeSetting(number, 0, salt) for salt in salts))
    driver.assert_matches_model(calls)
    call = MakeSetting(number, 0, b"a" * (method.longest_salt - 1) + b"$")
    driver.assert_answer(call, result=0, error=Reason.SALT_CHARACTER)


@pytest.mark.parametrize("policy", POLICIES, ids=str)
def test_a_setting_has_the_rounds_of_its_policy(driver: Driver, policy: Policy) -> None:
    driver.assert_matches_model(in_each_form(MakeSetting(policy.method, policy.rounds, b"salt")))


@pytest.mark.parametrize("policy", [*INVALID_POLICIES, *INVALID_ROUNDS], ids=str)
def test_an_invalid_policy_is_refused(driver: Driver, policy: InvalidPolicy) -> None:
    call = MakeSetting(policy.method, policy.rounds, b"salt")
    driver.assert_answer(call, result=0, error=policy.error)


@pytest.mark.parametrize(
    ("call", "error"),
    [
        pytest.param(MakeSetting(2, 5, b"", 0), Reason.UNKNOWN_METHOD, id="the method comes first"),
        pytest.param(
            MakeSetting(7, 5, b"$" * 87, 0),
            Reason.SALT_LENGTH,
            id="a salt's length comes before its characters, the rounds and the size of out",
        ),
        pytest.param(
            MakeSetting(7, 5, b"$" * 86, 0),
            Reason.SALT_CHARACTER,
            id="a salt's characters come before the rounds and the size of out",
        ),
        pytest.param(
            MakeSetting(7, 5, b"salt", 0),
            Reason.ROUNDS,
            id="the rounds come before the size of out",
        ),
        pytest.param(
            MakeSetting(6, 999, b"salt", 0),
            Reason.ROUNDS,
            id="rounds that would be clamped come before the size of out",
        ),
        pytest.param(
            MakeSetting(6, 1000, b"salt", len(SETTING)),
            Reason.TOO_FEW_BYTES,
            id="the size of out comes last",
        ),
    ],
)
def test_the_first_refusal_is_reported(driver: Driver, call: MakeSetting, error: Reason) -> None:
    driver.assert_answer(call, result=0, error=error)


@pytest.mark.parametrize("out_size", [None, 0, 1, 2, 3, len(SETTING), len(SETTING) + 1, TEXT_SIZE])
def test_a_setting_is_written_if_out_is_large_enough(driver: Driver, out_size: int | None) -> None:
    driver.assert_matches_model(in_each_form(MakeSetting(6, 1000, b"salt", out_size)))


def test_a_password_is_hashed_with_the_setting(driver: Driver) -> None:
    call = MakeSetting(1, 0, b"xxxxxxxx")
    driver.assert_answer(call, result=1, out='"$1$xxxxxxxx"')
    expected = '"$1$xxxxxxxx$UYCIxa628.9qXjpQCjM4a."'
    driver.assert_answer(Hash(PASSWORD, b"$1$xxxxxxxx"), result=1, out=expected)

"""Refusals: which one a call reports if several apply, and what it then writes to `out`.

The calls are mkpasswd_hash, mkpasswd_bound and mkpasswd_needs_rehash. test_new.py has those of
mkpasswd_new.
"""
from __future__ import annotations

from dataclasses import dataclass

import pytest
from support.driver import Driver
from support.model.calls import (
    GREATEST,
    TEXT_SIZE,
    Bound,
    Hash,
    NeedsRehash,
    Reason,
    length_of_hash,
    in_each_form,
)
from support.model.settings import Refused, read_setting
from support.model.work import cost
from support.policies import INVALID_POLICIES, POLICIES, InvalidPolicy, Policy
from support.stored_fields import (
    MD5CRYPT,
    SCRYPT_OF_PASSWORD,
    SCRYPT_WITH_LONGEST_SALT,
    WITHOUT_SETTING,
)

PASSWORD = b"password"
PASSWORDS = (PASSWORD, b"a" * 1025, b"pass\0word", b"\0" + b"a" * 1024)


@dataclass(frozen=True)
class Text:
    """A setting, or a text that isn't one."""

    title: str
    text: bytes

    def __str__(self) -> str:
        return self.title

    @property
    def length_of_hash(self) -> int:
        """The length of a hash with this setting, or a small number if the text isn't one."""
        try:
            return length_of_hash(read_setting(self.text))
        except Refused:
            return 3

    @property
    def out_sizes(self) -> tuple[int, ...]:
        """Sizes of `out` that are too small for a hash or a token, and sizes that aren't."""
        return (0, 1, 2, 3, self.length_of_hash, self.length_of_hash + 1, TEXT_SIZE)

    @property
    def cost(self) -> int:
        """What a hash of PASSWORD can cost, or a small number if the text isn't a setting."""
        try:
            return cost(read_setting(self.text), len(PASSWORD))
        except Refused:
            return 9


TEXTS = (
    Text("md5crypt", MD5CRYPT),
    Text("scrypt", SCRYPT_OF_PASSWORD.text),
    Text("scrypt with the longest salt", SCRYPT_WITH_LONGEST_SALT),
    *(Text(field.title, field.text) for field in WITHOUT_SETTING),
)


@pytest.mark.parametrize("text", TEXTS, ids=str)
def test_the_first_of_several_refusals_of_a_hash_is_reported(driver: Driver, text: Text) -> None:
    """Tries each password with each size of `out` and each budget."""
    budgets = (0, text.cost - 1, text.cost, GREATEST)
    calls = [
        Hash(password, text.text, budget, out_size)
        for password in PASSWORDS
        for out_size in text.out_sizes
        for budget in budgets
    ]
    driver.assert_matches_model(calls)


@pytest.mark.parametrize("text", TEXTS, ids=str)
def test_the_first_of_several_refusals_is_reported_in_each_form(driver: Driver, text: Text) -> None:
    calls = [
        call
        for password in PASSWORDS
        for out_size in text.out_sizes
        for call in in_each_form(Hash(password, text.text, text.cost, out_size))
    ]
    driver.assert_matches_model(calls)


@pytest.mark.parametrize(
    ("call", "error", "out"),
    [
        pytest.param(
            Hash(b"a", b"$1$a", budget=0), Reason.OVER_BUDGET, '"*0"', id="a hash of $1$a"
        ),
        pytest.param(Hash(b"a", b"*0"), Reason.BAD_CHARACTER, '"*1"', id="a hash of *0"),
        pytest.param(Hash(b"a", b"*1"), Reason.BAD_CHARACTER, '"*0"', id="a hash of *1"),
        pytest.param(Hash(b"a", b"*0", out_size=2), Reason.BAD_CHARACTER, '"*"', id="two bytes"),
        pytest.param(Hash(b"a", b"*0", out_size=1), Reason.BAD_CHARACTER, '""', id="one byte"),
        pytest.param(Hash(b"a", b"*0", out_size=0), Reason.BAD_CHARACTER, "unchanged", id="none"),
    ],
)
def test_after_a_refusal_out_has_a_token_that_no_password_matches(
    driver: Driver, call: Hash, error: Reason, out: str
) -> None:
    driver.assert_answer(call, result=0, error=error, length=0, out=out)


@pytest.mark.parametrize(
    ("call", "error"),
    [
        pytest.param(Hash(None, MD5CRYPT), Reason.PASSWORD_ZERO_BYTE, id="password"),
        pytest.param(Hash(b"a", None), Reason.UNKNOWN_SCHEME, id="setting"),
        pytest.param(Hash(None, None), Reason.PASSWORD_ZERO_BYTE, id="password and setting"),
        pytest.param(Hash(b"a", b"$1$a", out_size=None), Reason.TOO_FEW_BYTES, id="out"),
        pytest.param(Hash(b"a", b"*0", out_size=None), Reason.BAD_CHARACTER, id="out, for *0"),
        pytest.param(Bound(None), Reason.UNKNOWN_SCHEME, id="stored hash, for its bound"),
        pytest.param(NeedsRehash(None), Reason.UNKNOWN_SCHEME, id="stored hash, if outdated"),
    ],
)
def test_a_null_pointer_is_refused(
    driver: Driver, call: Hash | Bound | NeedsRehash, error: Reason
) -> None:
    for each in in_each_form(call):
        driver.assert_answer(each, result=0, error=error)


@pytest.mark.parametrize("text", TEXTS, ids=str)
def test_bound_reports_the_first_refusal(driver: Driver, text: Text) -> None:
    calls = [Bound(text.text, length) for length in (0, 1024, 1025, GREATEST)]
    driver.assert_matches_model([*calls, *in_each_form(Bound(text.text, len(PASSWORD)))])


@pytest.mark.parametrize("text", TEXTS, ids=str)
def test_needs_rehash_reports_the_first_refusal(driver: Driver, text: Text) -> None:
    policies: list[Policy] = [*POLICIES, *INVALID_POLICIES]
    calls = [NeedsRehash(text.text, policy.method, policy.rounds) for policy in policies]
    driver.assert_matches_model([*calls, *in_each_form(NeedsRehash(text.text, 6, 0))])


@pytest.mark.parametrize("policy", INVALID_POLICIES, ids=str)
def test_an_invalid_policy_makes_no_hash_outdated(driver: Driver, policy: InvalidPolicy) -> None:
    call = NeedsRehash(MD5CRYPT, policy.method, policy.rounds)
    driver.assert_answer(call, result=0, error=policy.error)


@pytest.mark.parametrize(
    "setting",
    [
        pytest.param(b"$5$ab", id="sha256crypt without rounds"),
        pytest.param(b"$5$rounds=5000$ab", id="sha256crypt with 5000 rounds"),
        pytest.param(b"$6$rounds=5000$ab", id="sha512crypt with 5000 rounds"),
        pytest.param(b"$7$86....U....ab", id="scrypt with a large p"),
    ],
)
@pytest.mark.parametrize("policy", POLICIES, ids=str)
def test_a_setting_is_outdated_by_a_stronger_policy(
    driver: Driver, setting: bytes, policy: Policy
) -> None:
    calls = in_each_form(NeedsRehash(setting, policy.method, policy.rounds))
    driver.assert_matches_model(calls)


@pytest.mark.parametrize(
    ("method", "result"),
    [
        pytest.param(1, 0, id="current by md5crypt"),
        pytest.param(6, 1, id="outdated by sha512crypt"),
        pytest.param(0, 1, id="outdated by the recommended method"),
    ],
)
def test_md5crypt_is_current_or_outdated_and_neither_is_an_error(
    driver: Driver, method: int, result: int
) -> None:
    for call in in_each_form(NeedsRehash(MD5CRYPT, method)):
        driver.assert_answer(call, result=result, error=0, outdated=result)

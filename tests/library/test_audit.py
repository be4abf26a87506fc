"""mkpasswd_audit: what it reports for each field, without a password."""
from __future__ import annotations

import re
from dataclasses import dataclass
from typing import Any

import pytest
from support.driver import Driver
from support.model.audits import is_whole
from support.model.calls import GREATEST, Audit, Reason, error_of_audit, in_each_form
from support.model.methods import ALPHABET, SHA512CRYPT
from support.model.settings import Refused, ScryptCost, read_setting, recommended_setting
from support.model.work import LONGEST_PASSWORD, cost
from support.policies import INVALID_POLICIES, INVALID_ROUNDS, POLICIES, InvalidPolicy
from support.stored_fields import (
    KNOWN_HASHES,
    MD5CRYPT,
    TOO_DEAR,
    WITH_SETTING,
    WITHOUT_SETTING,
    Field,
)

NUMBER_OF_SHA512CRYPT = 6
AUDITED_BY = (*POLICIES, INVALID_POLICIES[0], INVALID_POLICIES[-1])


@dataclass(frozen=True)
class StoredHash:
    """A hash, complete or not."""

    title: str
    text: bytes

    def __str__(self) -> str:
        return self.title


def dummy_hash(text: bytes) -> bytes:
    """Returns a dummy hash with this setting."""
    return text + b"$" + b"." * read_setting(text).method.hash_length


# With an N of 2^15 or more, a login by a cheaper policy refuses every password.
AT_THE_LIMITS = [
    StoredHash("the recommended rounds", dummy_hash(recommended_setting(SHA512CRYPT, 0).text)),
    StoredHash("one round more", dummy_hash(recommended_setting(SHA512CRYPT, 656_001).text)),
    *(
        StoredHash(
            f"scrypt with an N of 2^{log_n}",
            dummy_hash(b"$7$" + ScryptCost(log_n, r=32, p=1).text + b"a" * 86),
        )
        for log_n in (15, 16, 17, 18)
    ),
]
HASHES = [*(StoredHash(known.title, known.text) for known in KNOWN_HASHES), *AT_THE_LIMITS]


def alterations(text: bytes) -> list[bytes]:
    """Returns a hash and altered copies of it.

    They are shorter or longer, or have another or an impossible last character, a salt that is
    too long, or other rounds, some out of range.
    """
    front, digest = text.rsplit(b"$", 1)
    last = ALPHABET.index(digest[-1:])
    fields = [text, text + b".", text + b"$", text + b"$extra", text[:-1] + b"~"]
    fields.append(front + b"a" * 17 + b"$" + digest)
    for cut in (1, 2, 3):
        fields += [text[:-cut], text[: -cut - len(digest)]]
    for bit in range(6):  # of the last character
        other = last ^ (1 << bit)
        fields.append(text[:-1] + ALPHABET[other : other + 1])
    prefix_and_rounds = re.compile(rb"\A(\$[56]\$)(rounds=\d+\$)?")
    for rounds in (b"10", b"5000", b"05000", b"999999999", b"1000000000"):
        fields.append(prefix_and_rounds.sub(rb"\g<1>rounds=%b$" % rounds, text))
    return fields


def audits_by_each_policy(fields: list[bytes]) -> list[Audit]:
    """Returns audits by each policy without a budget."""
    return [Audit(field, policy.method, policy.rounds) for field in fields for policy in AUDITED_BY]


def cost_of(field: bytes) -> int:
    """Returns what a hash can cost, or a small number if the field has no setting."""
    try:
        return cost(read_setting(field), LONGEST_PASSWORD)
    except Refused:
        return 9


def audits_by_budgets(fields: list[bytes]) -> list[Audit]:
    """Returns audits with budgets around the cost."""
    return [
        Audit(field, NUMBER_OF_SHA512CRYPT, 0, budget)
        for field in fields
        for budget in (1, cost_of(field) - 1, cost_of(field), GREATEST)
    ]


@pytest.mark.parametrize("stored", HASHES, ids=str)
def test_a_published_hash_is_complete(stored: StoredHash) -> None:
    assert is_whole(read_setting(stored.text), stored.text)


@pytest.mark.parametrize("stored", HASHES, ids=str)
def test_a_hash_and_its_alterations_are_audited_by_each_policy(
    driver: Driver, stored: StoredHash
) -> None:
    driver.assert_matches_model(audits_by_each_policy(alterations(stored.text)))


@pytest.mark.parametrize("stored", HASHES, ids=str)
def test_a_hash_and_its_alterations_are_audited_by_budgets(
    driver: Driver, stored: StoredHash
) -> None:
    driver.assert_matches_model(audits_by_budgets(alterations(stored.text)))


@pytest.mark.parametrize("stored", HASHES, ids=str)
def test_the_inline_calls_report_the_same(driver: Driver, stored: StoredHash) -> None:
    calls = in_each_form(
        *(Audit(field, NUMBER_OF_SHA512CRYPT, 5000) for field in alterations(stored.text))
    )
    driver.assert_matches_model(calls)


@pytest.mark.parametrize("field", WITHOUT_SETTING, ids=str)
def test_a_field_without_a_setting_has_its_error(driver: Driver, field: Field) -> None:
    error = error_of_audit(field.text, field.error)
    for call in in_each_form(Audit(field.text, NUMBER_OF_SHA512CRYPT, 5000)):
        driver.assert_answer(call, result=0, error=error, cost=0)
    driver.assert_matches_model(audits_by_each_policy([field.text]))
    driver.assert_matches_model(audits_by_budgets([field.text]))


@pytest.mark.parametrize("field", WITH_SETTING, ids=str)
def test_an_impossible_hash_is_dead_or_over_the_budget(driver: Driver, field: Field) -> None:
    error = Reason.OVER_BUDGET if field in TOO_DEAR else Reason.DEAD
    for call in in_each_form(Audit(field.text, NUMBER_OF_SHA512CRYPT, 5000)):
        driver.assert_answer(call, result=0, error=error)
    driver.assert_matches_model(audits_by_each_policy([field.text]))
    driver.assert_matches_model(audits_by_budgets([field.text]))


@pytest.mark.parametrize("policy", [*INVALID_POLICIES, *INVALID_ROUNDS], ids=str)
def test_an_invalid_policy_is_refused(driver: Driver, policy: InvalidPolicy) -> None:
    call = Audit(MD5CRYPT, policy.method, policy.rounds)
    driver.assert_answer(call, result=0, error=policy.error, cost=0)


@pytest.mark.parametrize(
    ("method", "result", "outdated"),
    [
        pytest.param(1, 1, 0, id="current by md5crypt"),
        pytest.param(6, 0, 1, id="outdated by sha512crypt"),
        pytest.param(0, 0, 1, id="outdated by the recommended method"),
    ],
)
def test_md5crypt_is_current_or_outdated_and_neither_is_an_error(
    driver: Driver, method: int, result: int, outdated: int
) -> None:
    for call in in_each_form(Audit(MD5CRYPT, method)):
        driver.assert_answer(call, result=result, error=0, outdated=outdated)


def test_a_null_pointer_is_an_empty_field(driver: Driver) -> None:
    for call in in_each_form(Audit(None)):
        driver.assert_answer(call, result=0, error=Reason.NO_HASH)


def test_calls_answer_the_same_in_eight_threads(driver: Driver) -> None:
    fields = [field for stored in HASHES[:3] for field in alterations(stored.text)]
    driver.assert_matches_model(audits_by_each_policy(fields), threads=8)


@pytest.mark.parametrize(
    ("field", "scheme"),
    [
        pytest.param(b"$y$j9T$abc$def", 101, id="yescrypt"),
        pytest.param(b"$gy$j9T$abc$def", 102, id="gost-yescrypt"),
        pytest.param(b"$2a$10$abc", 103, id="bcrypt of 2a"),
        pytest.param(b"$2b$10$abc", 103, id="bcrypt of 2b"),
        pytest.param(b"$2y$10$abc", 103, id="bcrypt of 2y"),
        pytest.param(b"$3$$8846f7eaee8fb117ad06bdd830b7586c", 104, id="NT"),
        pytest.param(b"$sha1$40000$abc$def", 105, id="sha1crypt"),
        pytest.param(b"$md5,rounds=904$abc$def", 106, id="SunMD5"),
        pytest.param(b"_J9..XXXXlR3Ph8hjuLU", 107, id="bsdicrypt"),
        pytest.param(b"abJnggxhB/yWI", 108, id="descrypt"),
        pytest.param(b"$argon2id$v=19$m=65536", 0, id="a scheme that crypt(5) doesn't have"),
    ],
)
def test_another_scheme_is_reported_by_its_number(
    driver: Driver, field: bytes, scheme: int
) -> None:
    for call in in_each_form(Audit(field)):
        driver.assert_answer(call, result=0, error=Reason.UNKNOWN_SCHEME, scheme=scheme)


@pytest.mark.parametrize(
    ("setting", "expected"),
    [
        pytest.param(b"$1$salt", {"scheme": 1, "rounds": 1000}, id="md5crypt"),
        pytest.param(b"$5$salt", {"scheme": 5, "rounds": 5000}, id="sha256crypt"),
        pytest.param(b"$6$rounds=1234$salt", {"scheme": 6, "rounds": 1234}, id="sha512crypt"),
        pytest.param(
            b"$7$C6..../....salt",
            {"scheme": 7, "rounds": 0, "n": 16384, "r": 8, "p": 1},
            id="scrypt",
        ),
    ],
)
def test_a_hash_has_its_scheme_and_rounds(
    driver: Driver, setting: bytes, expected: dict[str, Any]
) -> None:
    for call in in_each_form(Audit(dummy_hash(setting))):
        driver.assert_answer(call, **expected)


@pytest.mark.parametrize("field", [b"secret", b"abJnggxhB/yW", b"abJnggxhB/yWI."])
def test_a_plain_password_has_no_scheme(driver: Driver, field: bytes) -> None:
    for call in in_each_form(Audit(field)):
        driver.assert_answer(call, result=0, error=Reason.NO_SCHEME, scheme=0)

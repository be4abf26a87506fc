"""The limit of a policy, which applies if the budget is 0.

docs/FORMATS.md has a table of limits and of the longest passwords that they admit.
"""
from __future__ import annotations

import re

import pytest
from support import ROOT
from support.driver import Driver
from support.model.calls import METHODS, Call, Limit, Login, New, System
from support.model.work import cost, login_limit
from support.model.settings import recommended_setting
from support.model.methods import SHA512CRYPT, Method
from support.stored_fields import LONGEST_PASSWORD, MD5CRYPT, SCRYPT_OF_PASSWORD

# What a new hash of the longest password can cost with the recommended method and rounds.
MOST_COST = 1_297_572_512
NUMBER_OF_SHA512CRYPT = 6
RANDOM_BYTES = System(random_bytes=bytes(range(1, 25)))
FIELDS = {
    "no hash": b"",
    "a locked field": b"!",
    "md5crypt": MD5CRYPT,
    "a dead hash": MD5CRYPT + b".",
    "scrypt": SCRYPT_OF_PASSWORD.text,
    "another scheme": b"$y$x",
    "a hash above the limit": b"$6$rounds=999999999$ab$x",
    "a hash with the policy's setting": b"$6$rounds=656000$ab$" + b"." * 86,
}


def documented_limits() -> dict[str, tuple[int, int]]:
    """Returns the limit and the longest password of each method in docs/FORMATS.md."""
    text = (ROOT / "docs/FORMATS.md").read_text(encoding="utf-8")
    rows = re.findall(r"^\| (\w+) \| (\d+) \| ([\d,]+) bytes \|$", text, re.MULTILINE)
    return {name: (int(limit), int(longest.replace(",", ""))) for name, limit, longest in rows}


def documented_length(method: Method) -> int:
    """Returns the length of the longest password, or 0 if docs/FORMATS.md lacks the method."""
    _, longest = documented_limits().get(method.name, (0, 0))
    return longest


LONGEST = {number: documented_length(method) for number, method in METHODS.items()}
# For SHA-crypt: one byte more than sha512crypt's limit admits, and the most that any call accepts.
TOO_LONG = [
    (number, length) for number in METHODS for length in (169, 1024) if length > LONGEST[number]
]
METHOD_NUMBERS = pytest.mark.parametrize(
    "number", [pytest.param(number, id=method.name) for number, method in METHODS.items()]
)


def test_each_method_and_no_other_is_documented() -> None:
    assert sorted(documented_limits()) == sorted(method.name for method in METHODS.values())


@METHOD_NUMBERS
def test_the_documented_limit_allows_the_documented_password(number: int) -> None:
    method = METHODS[number]
    limit, longest = documented_limits()[method.name]
    assert login_limit(method, 0, 8) == limit
    assert login_limit(method, 0, longest) == limit
    assert login_limit(method, 0, longest + 1) == 0


@METHOD_NUMBERS
@pytest.mark.parametrize(
    "length",
    [
        pytest.param(8, id="8 bytes"),
        pytest.param(64, id="64 bytes"),
        pytest.param(None, id="the longest documented one"),
    ],
)
def test_a_password_up_to_the_limit_is_hashed_and_accepted(
    driver: Driver, number: int, length: int | None
) -> None:
    password = b"a" * (length or LONGEST[number])
    new = New(password, number)
    new_hash = new.expected(RANDOM_BYTES).out.strip('"').encode()
    calls: list[Call] = [new, Login(password, new_hash, number, budget=0)]
    answers = driver.assert_matches_model(calls, RANDOM_BYTES, threads=2)
    assert [(answer.result, answer.error) for answer in answers] == [(1, 0), (1, 0)]
    assert answers[1].outdated == 0


@METHOD_NUMBERS
def test_an_unknown_name_takes_the_work_of_a_new_hash(driver: Driver, number: int) -> None:
    driver.assert_matches_model([Login(b"a" * 64, b"", number, budget=0)])


@pytest.mark.parametrize(
    ("number", "length"),
    TOO_LONG,
    ids=[f"{length} bytes for {METHODS[number].name}" for number, length in TOO_LONG],
)
def test_a_longer_password_is_refused_without_work_whatever_is_stored(
    driver: Driver, number: int, length: int
) -> None:
    password = b"a" * length
    calls: list[Call] = [New(password, number)]
    calls += [Login(password, field, number, budget=0) for field in FIELDS.values()]
    for answer in driver.assert_matches_model(calls, RANDOM_BYTES):
        assert answer.result == 0
        assert (answer.digests, answer.mixes, answer.table, answer.allocations) == (0, 0, 0, 0)


@pytest.mark.parametrize(
    "field", [pytest.param(b"", id="no hash"), pytest.param(MD5CRYPT, id="md5crypt")]
)
@pytest.mark.parametrize(
    "fewer", [pytest.param(0, id="the cost"), pytest.param(1, id="one less than the cost")]
)
def test_a_given_budget_can_admit_all_1024_bytes(driver: Driver, field: bytes, fewer: int) -> None:
    calls = [Login(LONGEST_PASSWORD, field, NUMBER_OF_SHA512CRYPT, 0, MOST_COST - fewer)]
    driver.assert_matches_model(calls, threads=2)


@METHOD_NUMBERS
def test_a_budget_of_1297572512_admits_every_password(driver: Driver, number: int) -> None:
    driver.assert_answer(Limit(number, 0, MOST_COST), result=1, length=1024)


def test_no_smaller_budget_admits_every_password(driver: Driver) -> None:
    call = Limit(NUMBER_OF_SHA512CRYPT, 0, MOST_COST - 1)
    driver.assert_answer(call, result=1, length=1023)


def test_1297572512_is_what_the_longest_password_can_cost() -> None:
    assert cost(recommended_setting(SHA512CRYPT, 0, b"a" * 16), 1024) == MOST_COST

"""mkpasswd_verify: which passwords match, even if a caller checks only the result."""
from __future__ import annotations

import pytest
from support.careless_logins import COST, WRONG_PASSWORDS, WrongPassword, careless_logins
from support.driver import Driver
from support.model.calls import BUDGET, GREATEST, Reason, System, Verify, in_each_form
from support.model.hashes import hash_of
from support.model.settings import read_setting
from support.stored_fields import (
    KNOWN_HASHES,
    NEVER_OPEN,
    OF_PASSWORD,
    Field,
    KnownHash,
)


@pytest.mark.parametrize("known", KNOWN_HASHES, ids=str)
def test_the_model_gives_the_published_hashes(known: KnownHash) -> None:
    assert hash_of(read_setting(known.text), known.password) == known.text


@pytest.mark.parametrize("known", KNOWN_HASHES, ids=str)
def test_the_right_password_matches(driver: Driver, known: KnownHash) -> None:
    for call in in_each_form(Verify(known.password, known.text)):
        driver.assert_answer(call, result=1, error=0, outdated=0)


@pytest.mark.parametrize("wrong", WRONG_PASSWORDS, ids=str)
def test_a_wrong_password_is_refused(driver: Driver, wrong: WrongPassword) -> None:
    for call in in_each_form(Verify(wrong.password, OF_PASSWORD.text)):
        driver.assert_answer(call, result=0, error=wrong.error)


@pytest.mark.parametrize("field", NEVER_OPEN, ids=str)
def test_a_field_that_does_not_match_is_refused(driver: Driver, field: Field) -> None:
    for call in in_each_form(Verify(b"password", field.text)):
        driver.assert_answer(call, result=0, error=field.error)


@pytest.mark.parametrize(
    ("budget", "result", "error"),
    [
        pytest.param(0, 0, Reason.OVER_BUDGET, id="0"),
        pytest.param(COST - 1, 0, Reason.OVER_BUDGET, id="one less than the cost"),
        pytest.param(COST, 1, 0, id="the cost"),
        pytest.param(BUDGET, 1, 0, id="more than the cost"),
        pytest.param(GREATEST, 1, 0, id="the greatest number"),
    ],
)
def test_the_right_password_matches_only_within_the_budget(
    driver: Driver, budget: int, result: int, error: int
) -> None:
    for call in in_each_form(Verify(b"password", OF_PASSWORD.text, budget)):
        driver.assert_answer(call, result=result, error=error)


@pytest.mark.parametrize(
    ("call", "error"),
    [
        pytest.param(Verify(None, OF_PASSWORD.text), Reason.PASSWORD_ZERO_BYTE, id="password"),
        pytest.param(Verify(b"a", None), Reason.NO_HASH, id="stored hash"),
        pytest.param(
            Verify(None, None, GREATEST), Reason.PASSWORD_ZERO_BYTE, id="password and stored hash"
        ),
    ],
)
def test_a_null_pointer_is_refused(driver: Driver, call: Verify, error: Reason) -> None:
    for each in in_each_form(call):
        driver.assert_answer(each, result=0, error=error)


def test_calls_answer_the_same_in_eight_threads(driver: Driver) -> None:
    driver.assert_matches_model(careless_logins(), threads=8)


@pytest.mark.parametrize("allocation", [1, 2, 3, 4])
def test_a_check_with_a_failed_allocation_is_refused(driver: Driver, allocation: int) -> None:
    driver.assert_matches_model(careless_logins(), System(refused_allocation=allocation))

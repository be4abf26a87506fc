"""Each error: a call that reports it returns 0, whatever was in the report before.

The driver makes each call with a report of ones, with a report of zeros, and without one.
"""
from __future__ import annotations

from dataclasses import dataclass

import pytest
from support.careless_logins import CHEAP_SCRYPT, careless_logins
from support.driver import Driver
from support.model.calls import (
    Audit,
    Call,
    Hash,
    Login,
    MakeSetting,
    New,
    Reason,
    System,
    Verify,
    in_each_form,
)
from support.stored_fields import MD5CRYPT, NEVER_OPEN, SCRYPT_OF_PASSWORD, Field

WITHOUT_MEMORY = System(refused_allocation=1)
# The first field with each error.
ONE_OF_EACH_ERROR = {field.error: field for field in reversed(NEVER_OPEN)}.values()


@dataclass(frozen=True)
class Failure:
    """A call that fails, and its error."""

    title: str
    call: Call
    error: Reason
    system: System = System()

    def __str__(self) -> str:
        return self.title


def failures_with(field: Field) -> list[Failure]:
    """Returns a check and a login with a field that never matches "password"."""
    is_dead = field.error is Reason.WRONG_PASSWORD
    return [
        Failure(f"a check of {field.title}", Verify(b"password", field.text), field.error),
        Failure(
            f"a login with {field.title}",
            Login(b"password", field.text, 1),
            Reason.DEAD if is_dead else field.error,
        ),
    ]


FAILURES = (
    *(failure for field in ONE_OF_EACH_ERROR for failure in failures_with(field)),
    Failure("a login with 1025 bytes", Login(b"a" * 1025, MD5CRYPT), Reason.PASSWORD_TOO_LONG),
    Failure("a login with a zero byte", Login(b"password\0", MD5CRYPT), Reason.PASSWORD_ZERO_BYTE),
    Failure("a login with a null password", Login(None, MD5CRYPT), Reason.PASSWORD_ZERO_BYTE),
    Failure("a login of an unknown name", Login(b"password", None, 1), Reason.NO_HASH),
    Failure("a login with a wrong password", Login(b"passw0rd", MD5CRYPT), Reason.WRONG_PASSWORD),
    Failure("a login by an unknown method", Login(b"password", MD5CRYPT, 2), Reason.UNKNOWN_METHOD),
    Failure("a login by a policy of 12 rounds", Login(b"password", MD5CRYPT, 6, 12), Reason.ROUNDS),
    Failure(
        "a login without memory",
        Login(b"password", SCRYPT_OF_PASSWORD.text),
        Reason.OUT_OF_MEMORY,
        WITHOUT_MEMORY,
    ),
    Failure(
        "a login of an unknown name without memory",
        Login(b"password", None, 7),
        Reason.OUT_OF_MEMORY,
        WITHOUT_MEMORY,
    ),
    Failure("an audit of a password", Audit(b"secret"), Reason.NO_SCHEME),
    Failure("a setting without a salt", MakeSetting(0, 0, b""), Reason.SALT_LENGTH),
    Failure("a setting with a bad salt", MakeSetting(0, 0, b"a_b"), Reason.SALT_CHARACTER),
    Failure(
        "a hash that doesn't fit into out",
        Hash(b"password", CHEAP_SCRYPT, out_size=8),
        Reason.TOO_FEW_BYTES,
    ),
    Failure("a new hash without a salt", New(b"password", 1), Reason.NO_RANDOM_NUMBERS),
)


@pytest.mark.parametrize("failure", FAILURES, ids=str)
def test_a_call_with_an_error_returns_0(driver: Driver, failure: Failure) -> None:
    for call in in_each_form(failure.call):
        driver.assert_answer(call, failure.system, result=0, error=failure.error, outdated=0)


def test_the_error_is_0_exactly_if_the_result_is_1(driver: Driver) -> None:
    calls: list[Call] = [*careless_logins()]
    calls += in_each_form(*(Login(b"password", field.text, 6, 1000) for field in NEVER_OPEN))
    calls += in_each_form(Login(b"password", MD5CRYPT, 6, 1000), Login(b"passw0rd", MD5CRYPT, 1))
    for call, answer in zip(calls, driver.answers(calls, threads=4)):
        assert (answer.error == 0) == (answer.result == 1), f"{call.row}\n{answer}"


def test_each_error_has_a_call_here() -> None:
    assert {failure.error for failure in FAILURES} == set(Reason)

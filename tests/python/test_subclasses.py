"""Subclasses of str, bytes and int with lying methods: the calls use the real value."""
from __future__ import annotations

from typing import Any

import pytest
from support.package import error_of, package_under_test

with package_under_test():
    import mkpasswd
    from mkpasswd import Policy, cost, needs_rehash
    from mkpasswd.crypt import crypt, mksalt


def none(_self: object, *_others: object) -> None:
    """Replaces a method, and returns nothing."""


def true(_self: object, _other: object) -> bool:
    """Replaces a comparison, and is always true."""
    return True


METHODS_OF_VALUES = (
    *("__getitem__", "__iter__", "__bytes__", "__buffer__", "__index__", "__str__", "__bool__"),
    "encode",
)
COMPARISONS = ("__eq__", "__lt__", "__le__", "__gt__", "__ge__", "__contains__")
# Each of these methods lies about an object's value.
LIES: dict[str, Any] = {
    **dict.fromkeys(METHODS_OF_VALUES, none),
    **dict.fromkeys(COMPARISONS, true),
    "__len__": lambda _self: 0,
    "__hash__": lambda _self: 0,
}


def lying(value: Any, length: int = 0) -> Any:
    """Returns the same value in a subclass whose methods lie."""
    lies = {**LIES, "__len__": lambda _self: length}
    return type("Secret", (type(value),), lies)(value)


LENGTHS = pytest.mark.parametrize("length", [0, 1, 5, 10**6])
PASSWORDS = pytest.mark.parametrize(
    "password", [b"correct horse", "correct h\u00f6rse"], ids=["bytes", "str"]
)
QUICK = Policy("md5crypt")


@LENGTHS
@PASSWORDS
def test_a_password_is_hashed_by_its_real_value(password: Any, length: int) -> None:
    """A __len__ of 0 would hash nothing, and a large one would read beyond the object."""
    secret = lying(password, length)
    stored = QUICK.hash(secret)
    assert QUICK.login(password, field=stored) and not QUICK.login(b"", field=stored)
    assert QUICK.login(secret, field=lying(stored)) is True
    assert crypt(secret, lying(stored)) == stored


@PASSWORDS
def test_a_policy_uses_the_real_values(password: Any) -> None:
    policy = Policy(lying("md5crypt"), lying(0), lying(10**6))
    stored = policy.hash(lying(password))
    assert stored.startswith("$1$") and policy.login(password, field=stored) is True
    assert policy == Policy("md5crypt", 0, 10**6)


@PASSWORDS
def test_numbers_are_used_by_their_real_value(password: Any) -> None:
    stored = QUICK.hash(password)
    assert cost(lying(stored), lying(8)) == cost(stored, 8)


def test_the_rounds_of_a_salt_are_the_real_value() -> None:
    assert mksalt(rounds=lying(1000)).startswith("$6$rounds=1000$")


@PASSWORDS
def test_another_password_does_not_match(password: Any) -> None:
    stored = QUICK.hash(password)
    for wrong in lying(password[:-1]), lying(password[:0]), lying(password * 2):
        assert not QUICK.login(wrong, field=stored)


@PASSWORDS
def test_a_password_that_is_too_long_is_refused(password: Any) -> None:
    error = error_of(mkpasswd.hash, lying(password * 80, length=1))
    assert str(error) == "password too long"


@PASSWORDS
def test_a_field_is_compared_by_its_real_value(password: Any) -> None:
    stored = QUICK.hash(password)
    assert not QUICK.login(lying(password), field=lying("!" + stored))
    assert needs_rehash(lying(stored))

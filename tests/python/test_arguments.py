"""What calls refuse: wrong types, numbers out of range, invalid passwords, positional arguments."""
from __future__ import annotations

import array
import math
from collections.abc import Callable
from dataclasses import dataclass
from typing import Any

import pytest
from support.package import crypt, error_of, class_raised, package_under_test
from support.passwords import LONGEST, TOO_LONG
from support.stored_strings import COSTLY, MD5, SHA512

with package_under_test():
    import mkpasswd
    from mkpasswd import Policy, Reason, Refused, cost, describe, needs_rehash
    from mkpasswd.crypt import crypt as crypt_call
    from mkpasswd.crypt import mksalt


@dataclass(frozen=True)
class Call:
    """A call in which one argument is left open."""

    title: str
    function: Callable[[Any], object]

    def __str__(self) -> str:
        return self.title


MD5CRYPT = Policy("md5crypt")
WITH_PASSWORD = [
    Call("hash(..)", mkpasswd.hash),
    Call("crypt(.., a hash)", lambda password: crypt_call(password, MD5)),
]
WITH_FIELD = [
    Call("needs_rehash(..)", needs_rehash),
    Call("cost(.., 8)", lambda field: cost(field, 8)),
]
A_NUMBER: Any = 0
# These calls accept None too, and crypt() also an empty setting. So A_NUMBER, which no call
# accepts, takes the place of these.
WITH_FIELD_OR_NONE = [
    Call("setting(..)", lambda salt: Policy().setting(A_NUMBER if salt is None else salt)),
    Call("describe(..)", lambda field: describe(A_NUMBER if field is None else field)),
    Call("crypt(a password, ..)", lambda setting: crypt_call("x", setting or A_NUMBER)),
]


# ---- Types

OTHER_TYPES = [
    pytest.param(None, id="None"),
    pytest.param(5, id="a number"),
    pytest.param(True, id="True"),
    pytest.param(1.5, id="a float"),
    pytest.param([], id="an empty list"),
    pytest.param(["x"], id="a list"),
    pytest.param(object(), id="an object"),
    pytest.param(bytearray(b"x"), id="a bytearray"),
    pytest.param(array.array("b", b"x"), id="an array"),
    pytest.param(memoryview(b"x"), id="a view"),
    pytest.param(memoryview(b"x" * 9)[::2], id="a view of every second byte"),
    pytest.param(memoryview(b"x" * 8).cast("I"), id="a view of numbers"),
]


@pytest.mark.parametrize("value", OTHER_TYPES)
@pytest.mark.parametrize("call", [*WITH_PASSWORD, *WITH_FIELD, *WITH_FIELD_OR_NONE], ids=str)
def test_a_value_that_is_neither_str_nor_bytes_is_refused(call: Call, value: object) -> None:
    error = error_of(call.function, value)
    assert error.__class__ is TypeError and "must be str or bytes, not " in str(error)


NO_NUMBERS = [
    pytest.param("5000", id="digits"),
    pytest.param(b"5", id="a byte"),
    pytest.param(5000.0, id="a whole float"),
    pytest.param(1.3e9, id="a float with an exponent"),
    pytest.param(math.inf, id="infinity"),
    pytest.param(math.nan, id="nan"),
    pytest.param(5j, id="a complex number"),
    pytest.param([], id="a list"),
    pytest.param(True, id="True"),
    pytest.param(False, id="False"),
]


@pytest.mark.parametrize("number", NO_NUMBERS)
@pytest.mark.parametrize(
    "call",
    [
        Call("Policy(rounds=..)", lambda number: Policy(rounds=number)),
        Call("Policy(budget=..)", lambda number: Policy(budget=number)),
        Call("crypt(budget=..)", lambda number: crypt_call("x", MD5, budget=number)),
        Call("cost(a hash, ..)", lambda number: cost(MD5, number)),
        Call("for_length(..)", Policy().for_length),
    ],
    ids=str,
)
def test_a_value_that_is_not_an_int_is_refused(call: Call, number: object) -> None:
    assert class_raised(call.function, number) is TypeError


@pytest.mark.parametrize(
    "method", [None, 6, b"md5crypt", crypt_call], ids=["None", "6", "bytes", "a call"]
)
def test_a_value_that_is_not_the_name_of_a_method_is_refused(method: object) -> None:
    assert class_raised(Policy, method=method) is TypeError


def test_a_cost_needs_a_length() -> None:
    assert class_raised(cost, MD5, None) is TypeError


def test_a_salt_needs_a_method() -> None:
    assert class_raised(mksalt, "6") is TypeError


# ---- Ranges

OTHER_ROUNDS = [-1, 1, 12, 999, 10**9, 2**32 - 1, 2**32 + 5000, 2**64 + 5000]


@pytest.mark.parametrize("rounds", OTHER_ROUNDS)
@pytest.mark.parametrize("method", ["sha256crypt", "sha512crypt"])
def test_rounds_that_no_hash_has_are_refused(method: str, rounds: int) -> None:
    """The command and the calls for C clamp rounds: whoever asks them for 12 gets 1000."""
    error = error_of(Policy, method, rounds)
    assert str(error) == "rounds must be 1000 to 999999999, or 0 for 656000"


@pytest.mark.parametrize("rounds", [-1, 2**32, 2**64 + 5000])
def test_rounds_of_more_than_32_bits_are_refused_though_ignored(rounds: int) -> None:
    assert class_raised(Policy, "md5crypt", rounds) is mkpasswd.Refused


def test_sha512crypt_has_at_most_999999999_rounds() -> None:
    assert Policy(rounds=999_999_999).needs_rehash(SHA512)


@pytest.mark.parametrize("length", [-1, 1025, 2**64 + 8])
def test_a_length_that_no_password_has_is_refused(length: int) -> None:
    assert class_raised(cost, MD5, length) is ValueError


@pytest.mark.parametrize("budget", [0, -1])
def test_a_budget_below_1_is_refused(budget: int) -> None:
    assert class_raised(Policy, budget=budget) is ValueError
    assert class_raised(crypt_call, "x", MD5, budget=budget) is ValueError


@pytest.mark.parametrize("method", ["bcrypt", "", "md5", "$6$"])
def test_an_unknown_method_is_refused_by_its_argument(method: str) -> None:
    error = error_of(Policy, method)
    assert isinstance(error, Refused) and error.reason is Reason.UNKNOWN_METHOD
    assert str(error) == "method must be md5crypt, sha256crypt, sha512crypt or scrypt"


@pytest.mark.parametrize("rounds", [1, 5, 12, 2**32 - 1])
def test_a_cost_that_scrypt_does_not_have_is_refused_by_its_argument(rounds: int) -> None:
    """Unlike the library's message, Python's names the argument and its range."""
    error = error_of(Policy, "scrypt", rounds)
    assert isinstance(error, Refused) and error.reason is Reason.ROUNDS
    assert str(error) == "rounds must be 6 to 11, or 0 for 7"


# ---- Invalid passwords


@pytest.mark.parametrize(
    ("password", "message"),
    [
        pytest.param("pass\0word", "password has a zero byte", id="a zero byte"),
        pytest.param(b"pass\0word", "password has a zero byte", id="a zero byte in bytes"),
        pytest.param("\0", "password has a zero byte", id="a zero byte alone"),
        pytest.param("pass\ud800word", "password has a lone surrogate", id="the first surrogate"),
        pytest.param("\udfff", "password has a lone surrogate", id="the last surrogate"),
        pytest.param(TOO_LONG, "password too long", id="1025 bytes"),
        pytest.param("é" * 513, "password too long", id="1026 bytes of 513 characters"),
        pytest.param(TOO_LONG.encode(), "password too long", id="1025 bytes in bytes"),
        pytest.param("x" * 2000 + "\0", "password too long", id="too long with a zero byte"),
    ],
)
@pytest.mark.parametrize("call", WITH_PASSWORD, ids=str)
def test_a_password_that_no_hash_can_have_is_refused(
    call: Call, password: str | bytes, message: str
) -> None:
    error = error_of(call.function, password)
    assert error.__class__ is ValueError and str(error) == message


@pytest.mark.parametrize(
    "password",
    [
        pytest.param(LONGEST, id="1024 bytes"),
        pytest.param("é" * 512, id="1024 bytes of 512 characters"),
        pytest.param(b"\xff" * 1024, id="bytes of no encoding"),
        pytest.param("\ud7ff\ue000", id="the characters next to the surrogates"),
    ],
)
def test_any_other_password_is_accepted(password: str | bytes) -> None:
    assert MD5CRYPT.login(password, field=MD5CRYPT.hash(password)) is True


@pytest.mark.parametrize("setting", ["$1$salt", "$5$rounds=1000$salt", "$6$rounds=1000$salt"])
@pytest.mark.parametrize("password", ["é", "pässwörd", "€uro", "\U0001f511key", "ünïcödé" * 20])
def test_a_str_is_hashed_as_utf8(password: str, setting: str) -> None:
    expected = crypt(password, setting)
    assert crypt_call(password, setting) == crypt_call(password.encode(), setting) == expected
    assert MD5CRYPT.login(password, field=expected) is True
    assert MD5CRYPT.login(password.encode()[: len(password)], field=expected) is False


def test_the_bytes_of_a_surrogate_are_accepted() -> None:
    """As bytes they are valid, for example as Latin-1."""
    assert crypt_call(b"\xed\xa0", "$1$salt") == crypt(b"\xed\xa0", "$1$salt")


# ---- Positional arguments, and names of earlier versions


@pytest.mark.parametrize(
    "given",
    [
        pytest.param(("x", COSTLY), id="both positional"),
        pytest.param(("x",), id="no field"),
        pytest.param((), id="nothing"),
        pytest.param((COSTLY, "x", "md5crypt"), id="three positional"),
    ],
)
def test_a_login_takes_its_field_by_name(given: tuple[str, ...]) -> None:
    """A service that swapped positional arguments could accept wrong passwords."""
    error = error_of(mkpasswd.login, *given)
    assert error.__class__ is TypeError


@pytest.mark.parametrize("name", ["Verdict", "verify", "verify_and_update", "work", "mksalt"])
def test_a_name_of_an_earlier_version_is_unknown(name: str) -> None:
    assert class_raised(getattr, mkpasswd, name) is AttributeError

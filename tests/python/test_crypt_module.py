"""mkpasswd.crypt against the standard library's crypt: the same, except as documented."""
from __future__ import annotations

import importlib
import warnings
from typing import Any

import pytest
from support import libxcrypt
from support.needs import not_applicable
from support.package import error_of, class_raised, package_under_test
from support.passwords import LONGEST, LONGEST_BY_DEFAULT, TOO_COSTLY, TOO_LONG
from support.stored_strings import MD5, SHA256

with package_under_test():
    import mkpasswd
    from mkpasswd import crypt

pytestmark = pytest.mark.filterwarnings("ignore::DeprecationWarning")

NAMES = pytest.mark.parametrize("name", ["SHA512", "SHA256", "MD5"])
SHA_NAMES = pytest.mark.parametrize("name", ["SHA512", "SHA256"])


@pytest.fixture(name="theirs")
def fixture_theirs() -> Any:
    """The standard library's module, which Python has up to 3.12."""
    with warnings.catch_warnings():
        warnings.simplefilter("ignore")
        try:
            return importlib.import_module("crypt")
        except ImportError:
            not_applicable("this Python has no crypt")


# ---- Methods


@pytest.mark.parametrize("name", ["BLOWFISH", "CRYPT"])
def test_an_unsupported_method_has_its_name(theirs: Any, name: str) -> None:
    method = getattr(crypt, f"METHOD_{name}")
    assert tuple(method) == tuple(getattr(theirs, f"METHOD_{name}"))
    assert method not in crypt.methods


@pytest.mark.parametrize("name", ["BLOWFISH", "CRYPT"])
def test_an_unsupported_method_is_refused(name: str) -> None:
    method = getattr(crypt, f"METHOD_{name}")
    for error in error_of(crypt.crypt, "x", method), error_of(crypt.mksalt, method):
        assert isinstance(error, mkpasswd.Refused)
        assert str(error).startswith("method must be ")


@NAMES
def test_a_supported_method_is_the_same(theirs: Any, name: str) -> None:
    method, expected = getattr(crypt, f"METHOD_{name}"), getattr(theirs, f"METHOD_{name}")
    assert tuple(method) == tuple(expected) and method._fields == expected._fields
    assert repr(method) == repr(expected)


def test_the_methods_have_the_same_order(theirs: Any) -> None:
    ours = [method for method in theirs.methods if method.name in ("SHA512", "SHA256", "MD5")]
    assert crypt.methods == ours


# ---- Salts


@SHA_NAMES
@pytest.mark.parametrize("rounds", [1000, 5000, 999_999_999])
def test_a_salt_of_sha_crypt_has_the_same_form(theirs: Any, name: str, rounds: int) -> None:
    setting = crypt.mksalt(getattr(crypt, f"METHOD_{name}"), rounds=rounds)
    expected = theirs.mksalt(getattr(theirs, f"METHOD_{name}"), rounds=rounds)
    assert setting.rpartition("$")[0] == expected.rpartition("$")[0]
    assert len(setting) == len(expected)


def test_a_salt_of_md5crypt_has_the_same_form(theirs: Any) -> None:
    setting, expected = crypt.mksalt(crypt.METHOD_MD5), theirs.mksalt(theirs.METHOD_MD5)
    assert setting.rpartition("$")[0] == expected.rpartition("$")[0]
    assert len(setting) == len(expected)


@SHA_NAMES
@pytest.mark.parametrize(
    ("options", "rounds"),
    [
        pytest.param({}, 656_000, id="as recommended"),
        pytest.param({"rounds": 5000}, 5000, id="5000"),
    ],
)
def test_a_hash_of_sha_crypt_has_the_size_of_its_method_and_rounds(
    name: str, options: dict[str, int], rounds: int
) -> None:
    method = getattr(crypt, f"METHOD_{name}")
    stored = crypt.crypt("x", crypt.mksalt(method, **options))
    assert len(stored) == method.total_size + len(f"rounds={rounds}$")


def test_a_hash_of_md5crypt_has_the_size_of_its_method() -> None:
    stored = crypt.crypt("x", crypt.mksalt(crypt.METHOD_MD5))
    assert len(stored) == crypt.METHOD_MD5.total_size


@NAMES
@pytest.mark.parametrize("rounds", [0, 999, 10**9, -1, 1.5, "1000", True], ids=repr)
def test_the_same_rounds_are_refused(theirs: Any, name: str, rounds: object) -> None:
    for module in theirs, crypt:
        with pytest.raises((ValueError, TypeError)):
            module.mksalt(getattr(module, f"METHOD_{name}"), rounds=rounds)


def test_the_first_method_is_the_default(theirs: Any) -> None:
    """Our default has the recommended rounds; theirs has none."""
    assert crypt.crypt("x").startswith("$6$rounds=656000$")
    assert crypt.mksalt().startswith("$6$rounds=656000$")
    assert theirs.mksalt().startswith("$6$")


# ---- Hashes

SALTS = [
    *(MD5, SHA256, "$1$", "$1$salt", "$5$rounds=1000$salt", "$6$saltsaltsaltsaltsalt$x"),
    *("$6$rounds=5000$salt", "", "!", "*", "*0", "*0x", "*1", "x:y", "$9$salt", "$1"),
    *("$6$rounds=0$salt", "$5$rounds=01000$salt", "é"),
]


@pytest.mark.parametrize("salt", SALTS)
@pytest.mark.parametrize(
    "password", ["", "password", "pässwörd", "x" * 511], ids=["nothing", "a word", "UTF-8", "511"]
)
def test_a_hash_or_a_refusal_is_the_same(theirs: Any, password: str, salt: str) -> None:
    assert crypt.crypt(password, salt) == theirs.crypt(password, salt)


@pytest.mark.parametrize(
    ("password", "salt"),
    [
        pytest.param(None, "$1$salt", id="no password"),
        pytest.param(5, "$1$salt", id="a number as the password"),
        pytest.param("x", 5, id="a number as the salt"),
        pytest.param("x\0y", "$1$salt", id="a zero byte"),
        pytest.param("\ud800", "$1$salt", id="a lone surrogate"),
    ],
)
def test_the_same_arguments_raise_an_error(theirs: Any, password: Any, salt: Any) -> None:
    expected = error_of(theirs.crypt, password, salt)
    kind = TypeError if expected.__class__ is TypeError else ValueError
    with pytest.raises(kind):
        crypt.crypt(password, salt)


def test_bytes_are_hashed_like_str(theirs: Any) -> None:
    assert crypt.crypt(b"x", MD5.encode()) == theirs.crypt("x", MD5)


# ---- The differences in docs/PYTHON.md

COSTLY_SETTING = "$6$rounds=656000$saltsaltsaltsalt"


@pytest.mark.parametrize(
    ("password", "salt", "error"),
    [
        pytest.param("x", "$6$rounds=1000000000$ab", mkpasswd.TooCostly, id="too many rounds"),
        pytest.param(TOO_LONG, MD5, ValueError, id="a password that is too long"),
    ],
)
def test_too_high_a_cost_raises_an_error_instead_of_returning_a_token(
    theirs: Any, password: str, salt: str, error: type[Exception]
) -> None:
    with pytest.raises(error):
        crypt.crypt(password, salt)
    assert theirs.crypt(password, salt) == "*0"


def test_168_bytes_are_hashed_with_the_recommended_rounds() -> None:
    expected = libxcrypt.crypt(LONGEST_BY_DEFAULT.encode(), COSTLY_SETTING.encode()).decode()
    assert crypt.crypt(LONGEST_BY_DEFAULT, COSTLY_SETTING) == expected


def test_169_bytes_cost_too_much_with_the_recommended_rounds() -> None:
    assert class_raised(crypt.crypt, TOO_COSTLY, COSTLY_SETTING) is mkpasswd.TooCostly


def test_rounds_below_the_minimum_are_clamped(theirs: Any) -> None:
    assert theirs.crypt("x", "$6$rounds=999$ab") == "*0"
    assert crypt.crypt("x", "$6$rounds=999$ab") == theirs.crypt("x", "$6$rounds=1000$ab")


def test_passwords_above_511_bytes_are_hashed(theirs: Any) -> None:
    assert theirs.crypt("x" * 512, MD5) == "*0"
    policy = mkpasswd.Policy("md5crypt")
    assert policy.login(LONGEST, field=crypt.crypt(LONGEST, MD5))


@pytest.mark.parametrize("salt", ["$2b$04$abcdefghijklmnopqrstuu", "$y$j75$abcdefgh", "ab"])
def test_other_schemes_are_refused(theirs: Any, salt: str) -> None:
    length_of_descrypt = 13  # its hashes are the shortest
    assert crypt.crypt("x", salt) == "*0"
    assert len(theirs.crypt("x", salt)) >= length_of_descrypt


def test_a_zero_byte_in_a_salt_is_refused() -> None:
    assert crypt.crypt("x", "$1$a\0b") == "*0"

"""A report of zeros, which no call has filled: it refuses every login, and other calls fail."""
from __future__ import annotations

import importlib
import warnings
from collections.abc import Callable
from typing import Any

import pytest
from support.package import error_of, package_under_test
from support.passwords import LONGEST
from support.stored_strings import MD5, SHA512

with package_under_test():
    import mkpasswd
    from mkpasswd import Policy, Refused, _library
    from mkpasswd.crypt import crypt, mksalt

POLICY = Policy(rounds=1000)


@pytest.fixture(name="silent_library")
def fixture_silent_library(monkeypatch: pytest.MonkeyPatch) -> None:
    """Makes each call of the library return 0, without touching its report and buffer."""

    def say_nothing(*_arguments: Any) -> _library.Answer:
        return _library.Answer(False, _library.Report())

    names = ("login", "verify", "new", "hash_by", "needs_rehash", "audit", "limit", "rounds")
    for name in (*names, "bound", "setting"):
        monkeypatch.setattr(_library, name, say_nothing)


@pytest.mark.usefixtures("silent_library")
@pytest.mark.parametrize("password", ["password", b"password", "passw0rd", "", LONGEST])
@pytest.mark.parametrize("field", [MD5, MD5.encode(), "", "!", None])
@pytest.mark.parametrize("login", [mkpasswd.login, POLICY.login], ids=["login", "of a policy"])
def test_every_login_is_refused(
    login: Callable[..., object], password: str | bytes, field: str | bytes | None
) -> None:
    assert login(password, field=field) is False


@pytest.mark.usefixtures("silent_library")
def test_no_hash_is_renewed() -> None:
    assert POLICY.needs_rehash(MD5) is False


@pytest.mark.usefixtures("silent_library")
@pytest.mark.parametrize(
    "call",
    [
        pytest.param(lambda: POLICY.hash("password"), id="hash"),
        pytest.param(lambda: POLICY.describe(MD5), id="describe"),
        pytest.param(lambda: POLICY.describe(None), id="describe nothing"),
        pytest.param(lambda: POLICY.cost(MD5, 8), id="cost"),
        pytest.param(POLICY.setting, id="setting"),
        pytest.param(lambda: POLICY.for_length(1024), id="for_length"),
        pytest.param(Policy, id="Policy"),
        pytest.param(lambda: crypt("password", MD5), id="crypt"),
        pytest.param(mksalt, id="mksalt"),
    ],
)
def test_a_call_that_returns_a_value_raises_an_error(call: Callable[[], object]) -> None:
    error = error_of(call)
    assert isinstance(error, ValueError)
    assert not isinstance(error, Refused) or error.reason is None


@pytest.mark.needs("python3-django")
def test_django_refuses_every_login(monkeypatch: pytest.MonkeyPatch) -> None:
    """Only two calls fill no report: the hasher asks the library for its rounds before them."""
    hasher = importlib.import_module("mkpasswd.django").MkpasswdPasswordHasher()
    monkeypatch.setattr(type(hasher), "policy", POLICY)
    silent = _library.Answer(False, _library.Report())
    monkeypatch.setattr(_library, "login", lambda *_arguments: silent)
    monkeypatch.setattr(_library, "hash_by", lambda *_arguments: silent)
    assert hasher.verify("password", "mkpasswd" + MD5) is False
    assert isinstance(error_of(hasher.encode, "password", "a" * 16), ValueError)


@pytest.mark.needs("python3-passlib")
def test_passlib_refuses_every_login(monkeypatch: pytest.MonkeyPatch) -> None:
    with warnings.catch_warnings():
        warnings.simplefilter("ignore")
        handler = importlib.import_module("mkpasswd.passlib").sha512_crypt
    silent = _library.Answer(False, _library.Report())
    monkeypatch.setattr(_library, "hash_by", lambda *_arguments: silent)
    assert isinstance(error_of(handler.verify, "Hello world!", SHA512), ValueError)
    assert isinstance(error_of(handler.hash, "password"), ValueError)

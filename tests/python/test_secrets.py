"""Nothing that a call raises, logs or prints contains the password."""
from __future__ import annotations

import traceback
from collections.abc import Callable
from typing import Any

import pytest
from support.package import error_of, package_under_test
from support.stored_strings import COSTLY, MD5

with package_under_test():
    import mkpasswd
    from mkpasswd import Policy
    from mkpasswd.crypt import crypt

SECRET = "s3cret-Pässwörd"
CALLS: list[tuple[str, Callable[[Any], object]]] = [
    ("hash", mkpasswd.hash),
    ("crypt", lambda password: crypt(password, MD5)),
]
# Passwords that no hash can have: strings and bytes, and values of other types.
INVALID: list[tuple[str, Any]] = [
    ("a zero byte", SECRET + "\0"),
    ("a surrogate", SECRET + "\ud800"),
    ("too long", SECRET * 100),
    ("a zero byte in bytes", (SECRET + "\0").encode()),
]
OF_OTHER_TYPES: list[tuple[str, Any]] = [
    ("a list", [SECRET]),
    ("a dict", {SECRET: SECRET}),
]
WRONG = [*INVALID, *OF_OTHER_TYPES]


def all_of(error: BaseException | None) -> str:
    """Returns everything that a log or a debugger could show about an error and its causes."""
    assert error is not None
    text = "".join(traceback.format_exception(type(error), error, error.__traceback__))
    while error is not None:
        text += repr((error, str(error), error.args, vars(error), getattr(error, "object", "")))
        error = error.__cause__ or error.__context__
    return text


@pytest.mark.parametrize("password", [value for _, value in WRONG], ids=[name for name, _ in WRONG])
@pytest.mark.parametrize("call", [call for _, call in CALLS], ids=[name for name, _ in CALLS])
def test_no_error_about_a_password_shows_it(
    call: Callable[[Any], object], password: Any, capfd: pytest.CaptureFixture[str]
) -> None:
    assert "s3cret" not in all_of(error_of(call, password))
    assert capfd.readouterr() == ("", "")


@pytest.mark.parametrize(
    ("call", "arguments", "named"),
    [
        pytest.param(mkpasswd.login, (SECRET, "x"), {}, id="a positional field"),
        pytest.param(mkpasswd.login, ("x", SECRET), {}, id="a password in place of the field"),
        pytest.param(crypt, (SECRET, COSTLY), {}, id="a costly setting"),
        pytest.param(crypt, (SECRET, 5), {}, id="a number as the setting"),
        pytest.param(mkpasswd.login, (SECRET,), {"field": 5}, id="a number as the field"),
        pytest.param(mkpasswd.hash, (SECRET, "bcrypt"), {}, id="a positional method"),
        pytest.param(Policy(budget=1).hash, (SECRET,), {}, id="a budget that is too low"),
    ],
)
def test_no_error_about_something_else_shows_the_password(
    call: Callable[..., object],
    arguments: tuple[object, ...],
    named: dict[str, object],
    capfd: pytest.CaptureFixture[str],
) -> None:
    assert "s3cret" not in all_of(error_of(call, *arguments, **named))
    assert capfd.readouterr() == ("", "")


@pytest.mark.parametrize(
    ("password", "field"),
    [
        *(pytest.param(value, MD5, id=name) for name, value in INVALID),
        pytest.param(SECRET, MD5, id="another password"),
        pytest.param(SECRET, SECRET, id="a password as the field"),
    ],
)
def test_no_log_of_a_login_shows_the_password(
    caplog: pytest.LogCaptureFixture, password: Any, field: str
) -> None:
    caplog.set_level("DEBUG")
    assert mkpasswd.login(password, field=field) is False
    text = "".join(str(vars(record)) for record in caplog.records)
    assert "login refused" in text and "s3cret" not in text and MD5 not in text

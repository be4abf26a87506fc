"""The service in docs/C.md accepts the right password of a user, and nothing else."""
from __future__ import annotations

from pathlib import Path

import pytest
from support.costly_hashes import (
    SHA512CRYPT_AT_DEFAULT,
    SHA512CRYPT_OF_ANOTHER_PASSWORD,
    SHA512CRYPT_WITH_ANOTHER_SALT,
)
from support.documents import marked
from support.library import SOURCES, Builder
from support.libxcrypt import crypt
from support.process import Result, Word, assert_result, run
from support.stored_fields import MD5CRYPT

CURRENT = SHA512CRYPT_AT_DEFAULT
SAME_PASSWORD = SHA512CRYPT_WITH_ANOTHER_SALT
ANOTHER_PASSWORD = SHA512CRYPT_OF_ANOTHER_PASSWORD
BCRYPT = crypt(b"password", b"$2b$05$abcdefghijklmnopqrstuu")
LONGEST = crypt(b"password", b"$7$6/..../...." + b"a" * 86)  # as long as a hash can be
YESCRYPT = crypt(b"password", b"$y$j75$abcdefghijklmnopqrst.1$")
CALL = "mkpasswd_login(password, mkpasswd_field(is_known ? field : NULL), NULL, &report)"
CALL_FOR_BOTH = "matches(typed, is_known ? field : NULL, &report)"
NO_POLICY = ", NULL, "
NOT_STORED = b"ann: not renewed: the new hash isn't stored\n"


def built(builder: Builder, folder: Path, code: str, *words: Word) -> Path:
    """Builds the service with this code of the page, without a warning."""
    page = folder / "page.c"
    page.write_text(code, encoding="ascii")
    program = builder.build(SOURCES / "c_page.c", page, *words)
    return program.rename(folder / "service")


@pytest.fixture(scope="module", name="service")
def fixture_service(builder: Builder, tmp_path_factory: pytest.TempPathFactory) -> Path:
    """The service of the page."""
    names = ("users in C", "new password in C", "whole login in C")
    code = "".join(marked(name, "c").code for name in names)
    return built(builder, tmp_path_factory.mktemp("service"), code)


@pytest.fixture(scope="module", name="moving_service")
def fixture_moving_service(builder: Builder, tmp_path_factory: pytest.TempPathFactory) -> Path:
    """The page's service for users who have hashes from libxcrypt."""
    login = marked("whole login in C", "c").code
    assert CALL in login
    names = ("users in C", "new password in C", "moving in C")
    code = "".join(marked(name, "c").code for name in names) + login.replace(CALL, CALL_FOR_BOTH)
    words = ("-D_DEFAULT_SOURCE", "-Wl,--no-as-needed", "-lcrypt")
    return built(builder, tmp_path_factory.mktemp("moving"), code, *words)


@pytest.fixture(scope="module", name="service_with_policy")
def fixture_service_with_policy(builder: Builder, tmp_path_factory: pytest.TempPathFactory) -> Path:
    """The service of the page, whose calls get the page's policy as the page says."""
    names = ("users in C", "policy in C", "new password in C", "whole login in C")
    code = "".join(marked(name, "c").code for name in names)
    assert code.count(NO_POLICY) == 3, "expected one in log_in, renew and hash_new_password each"
    code = code.replace(NO_POLICY, ", &policy, ")
    return built(builder, tmp_path_factory.mktemp("policy"), code)


def assert_renewed(result: Result, password: bytes) -> None:
    """Fails the test unless the login is accepted, and stores a new hash of the password."""
    new = result.required().stdout.removesuffix(b"\n")
    assert new.startswith(b"$6$rounds=656000$"), result
    assert crypt(password, new) == new


# ---- The login


def test_a_match_is_accepted_and_keeps_a_current_hash(service: Path) -> None:
    assert_result(run(service, CURRENT, "password"), stdout=CURRENT + b"\n")


def test_a_match_of_an_old_hash_is_accepted_and_gets_a_new_one(service: Path) -> None:
    assert_renewed(run(service, MD5CRYPT, "password"), b"password")


@pytest.mark.parametrize(
    ("field", "logged"),
    [
        pytest.param(CURRENT, b"ann: wrong password\n", id="the hash of another password"),
        pytest.param(b"!" + CURRENT, b"ann: locked\n", id="a locked account"),
        pytest.param(BCRYPT, b"ann: unknown scheme\n", id="bcrypt"),
        pytest.param(b"$6$rounds=999999999$ab$x", b"ann: over budget\n", id="a costly hash"),
        pytest.param(b"-", b"somebody: no hash\n", id="an unknown name, which isn't logged"),
    ],
)
def test_nobody_else_gets_in(service: Path, field: bytes, logged: bytes) -> None:
    assert_result(run(service, field, "passwort"), status=1, stdout=field + b"\n", stderr=logged)


def test_the_longest_hash_is_read_whole(service: Path) -> None:
    assert_renewed(run(service, LONGEST, "password"), b"password")


def test_a_field_that_is_longer_than_a_hash_lets_nobody_in(service: Path) -> None:
    """Cut to the length of a hash, the field would be a hash of this password."""
    longer = LONGEST + b"x"
    result = run(service, longer, "password")
    assert_result(result, status=1, stdout=longer + b"\n", stderr=b"ann: locked\n")


def test_a_new_hash_that_cannot_be_stored_is_logged(service: Path) -> None:
    result = run(service, MD5CRYPT, "password", env={"READ_ONLY": "1"})
    assert_result(result, stdout=MD5CRYPT + b"\n", stderr=NOT_STORED)


# ---- Changes during a login

NOBODY = b"-"
NO_LONGER_HERS = pytest.mark.parametrize(
    ("changed", "logged"),
    [
        pytest.param(b"!" + CURRENT, b"ann: locked\n", id="a lock"),
        pytest.param(ANOTHER_PASSWORD, b"ann: wrong password\n", id="another password"),
        pytest.param(NOBODY, b"somebody: no hash\n", id="a deletion"),
    ],
)


@NO_LONGER_HERS
@pytest.mark.parametrize("field", [CURRENT, MD5CRYPT], ids=["current", "outdated"])
def test_a_change_during_the_check_lets_nobody_in_and_is_kept(
    service: Path, field: bytes, changed: bytes, logged: bytes
) -> None:
    result = run(service, field, "password", env={"FIELDS": changed.decode()})
    expected = NOT_STORED + logged if field == MD5CRYPT else logged
    assert_result(result, status=1, stdout=changed + b"\n", stderr=expected)


@NO_LONGER_HERS
def test_a_change_after_the_renewal_lets_nobody_in_and_is_kept(
    service: Path, changed: bytes, logged: bytes
) -> None:
    result = run(service, MD5CRYPT, "password", env={"AFTER_RENEWAL": changed.decode()})
    assert_result(result, status=1, stdout=changed + b"\n", stderr=logged)


def test_another_hash_of_the_same_password_that_comes_meanwhile_is_accepted(service: Path) -> None:
    result = run(service, MD5CRYPT, "password", env={"FIELDS": SAME_PASSWORD.decode()})
    assert_result(result, stdout=SAME_PASSWORD + b"\n", stderr=NOT_STORED)


def test_a_field_that_is_never_the_same_lets_nobody_in(service: Path) -> None:
    fields = (SAME_PASSWORD.decode(), CURRENT.decode()) * 3  # as many as the service reads
    result = run(service, CURRENT, "password", env={"FIELDS": " ".join(fields)})
    assert_result(
        result,
        status=1,
        stdout=CURRENT + b"\n",
        stderr=b"ann: the field changes all the time\n",
    )


# ---- A new password


def test_a_new_password_is_hashed(service: Path) -> None:
    result = run(service, CURRENT, "password", "correct horse").required()
    _, new = result.stdout.splitlines()  # Ann's field, and the new hash
    assert crypt(b"correct horse", new) == new and new.startswith(b"$6$rounds=656000$")


@pytest.mark.parametrize(
    ("password", "sentence"),
    [
        pytest.param("", b"The password is empty.", id="an empty one"),
        pytest.param("x" * 169, b"The password is too long.", id="one above the limit"),
        pytest.param("x" * 1025, b"The password is too long.", id="one of 1,025 bytes"),
    ],
)
def test_an_invalid_new_password_is_refused(service: Path, password: str, sentence: bytes) -> None:
    result = run(service, CURRENT, "password", password).required()
    assert result.stdout == CURRENT + b"\n" + sentence + b"\n", result


# ---- Moving from another scheme


@pytest.mark.parametrize(
    "field", [pytest.param(BCRYPT, id="bcrypt"), pytest.param(YESCRYPT, id="yescrypt")]
)
def test_a_match_of_another_scheme_is_accepted_and_gets_a_new_hash(
    moving_service: Path, field: bytes
) -> None:
    assert_renewed(run(moving_service, field, "password"), b"password")


@pytest.mark.parametrize(
    "field",
    [
        pytest.param(BCRYPT, id="bcrypt"),
        pytest.param(YESCRYPT, id="yescrypt"),
        pytest.param(BCRYPT[:-1], id="bcrypt, cut"),
        pytest.param(b"$2b$05$", id="no hash of bcrypt"),
        pytest.param(MD5CRYPT, id="md5crypt"),
    ],
)
def test_another_password_is_refused(moving_service: Path, field: bytes) -> None:
    result = run(moving_service, field, "passwort")
    assert_result(result, status=1, stdout=field + b"\n", stderr=b"ann: wrong password\n")


@pytest.mark.parametrize(
    "field", [pytest.param(BCRYPT[:-1], id="bcrypt, cut"), pytest.param(b"$2b$05$", id="no hash")]
)
def test_a_damaged_hash_of_another_scheme_lets_nobody_in(
    moving_service: Path, field: bytes
) -> None:
    result = run(moving_service, field, "password")
    assert_result(result, status=1, stdout=field + b"\n", stderr=b"ann: wrong password\n")


# ---- A policy


def test_a_service_with_the_policy_makes_all_new_hashes_by_it(service_with_policy: Path) -> None:
    result = run(service_with_policy, MD5CRYPT, "password", "correct horse").required()
    renewed, new = result.stdout.splitlines()
    for password, text in ((b"password", renewed), (b"correct horse", new)):
        assert text.startswith(b"$6$rounds=200000$"), result
        assert crypt(password, text) == text


def test_a_service_with_the_policy_accepts_its_hashes_and_keeps_them(
    service_with_policy: Path,
) -> None:
    by_policy = crypt(b"password", b"$6$rounds=200000$ab")
    result = run(service_with_policy, by_policy, "password")
    assert_result(result, stdout=by_policy + b"\n")

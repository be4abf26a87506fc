"""login: which logins are accepted, their work, the log, and which hashes are renewed."""
from __future__ import annotations

from typing import Any

import pytest
from support.package import crypt, class_raised, package_under_test
from support.passwords import LONGEST, TOO_COSTLY, TOO_LONG
from support.stored_strings import COSTLY, MD5, NEVER_OPEN, SHA512, title

with package_under_test():
    import mkpasswd
    from mkpasswd import Policy, _library

QUICK = Policy(rounds=1000)


# ---- The result

# The setting of a stored hash, the policy of the service, and how the new hash begins if the stored
# one is outdated.
LOGINS = [
    pytest.param("$1$salt", Policy("md5crypt"), None, id="md5crypt"),
    pytest.param("$1$salt", Policy("sha256crypt", 1000), "$5$rounds=1000$", id="to sha256crypt"),
    pytest.param("$5$salt", Policy("scrypt", 6), "$7$BU", id="to scrypt"),
    pytest.param("$6$rounds=3000$salt", Policy(rounds=3000), None, id="the same rounds"),
    pytest.param("$6$rounds=3000$salt", Policy(rounds=2000), None, id="more rounds"),
    pytest.param("$6$rounds=3000$salt", Policy(rounds=4000), "$6$rounds=4000$", id="fewer rounds"),
    pytest.param("$6$rounds=3000$salt", Policy(), "$6$rounds=656000$", id="fewer than recommended"),
    pytest.param("$7$BU..../....salt", Policy("scrypt"), "$7$CU", id="a lower scrypt cost"),
]
# The first two columns of LOGINS.
STORED = pytest.mark.parametrize(
    ("setting", "policy"), [pytest.param(*row.values[:2], id=row.id) for row in LOGINS]
)


@pytest.mark.parametrize(("setting", "policy", "beginning"), LOGINS)
@pytest.mark.parametrize("form", [str, str.encode], ids=["str", "bytes"])
def test_the_right_password_is_accepted_and_an_outdated_hash_renewed(
    setting: str, policy: Policy, beginning: str | None, form: Any
) -> None:
    stored = crypt("pässword", setting)
    assert policy.login("pässword", field=form(stored)) is True
    assert policy.needs_rehash(form(stored)) is (beginning is not None)
    if beginning is not None:
        new = policy.hash("pässword")
        assert new.startswith(beginning) and new == crypt("pässword", new)
        assert policy.login("pässword", field=new) is True and not policy.needs_rehash(new)


@STORED
@pytest.mark.parametrize("password", ["password", "pässword ", "", "!"])
def test_another_password_is_refused(setting: str, policy: Policy, password: str) -> None:
    stored = crypt("pässword", setting)
    assert policy.login(password, field=stored) is False


@STORED
def test_the_stored_hash_is_not_a_password(setting: str, policy: Policy) -> None:
    stored = crypt("pässword", setting)
    assert policy.login(stored, field=stored) is False


@pytest.mark.parametrize(
    "field", [None, *NEVER_OPEN, "x" * 10**6], ids=lambda text: title(str(text))
)
def test_a_field_without_a_match_returns_false(field: str | None) -> None:
    as_bytes = None if field is None else field.encode("utf-8", "surrogatepass")
    for stored in field, as_bytes:
        assert QUICK.login("password", field=stored) is False


@pytest.mark.parametrize(
    "password",
    [
        pytest.param("", id="nothing"),
        pytest.param("x\0", id="a zero byte"),
        pytest.param(b"\0", id="a zero byte in bytes"),
        pytest.param("\ud800", id="a lone surrogate"),
        pytest.param(b"\xff", id="no UTF-8"),
        pytest.param(TOO_LONG, id="1025 bytes"),
        pytest.param("\u00e9" * 513, id="1026 bytes of 513 characters"),
        pytest.param("x" * 10**6, id="a million bytes"),
        pytest.param(LONGEST, id="1024 bytes"),
        pytest.param(MD5, id="a hash"),
        pytest.param("!", id="a lock"),
    ],
)
@pytest.mark.parametrize("field", [None, "", "!", MD5, SHA512], ids=lambda text: title(str(text)))
def test_a_password_that_no_hash_can_have_returns_false(
    password: str | bytes, field: str | None
) -> None:
    assert QUICK.login(password, field=field) is False


def test_a_hash_above_the_budget_lets_nobody_in() -> None:
    assert Policy(budget=1).login("password", field=MD5) is False


@pytest.mark.parametrize(
    ("password", "field"),
    [
        pytest.param(None, MD5, id="no password"),
        pytest.param(5, MD5, id="a number as the password"),
        pytest.param(bytearray(b"x"), MD5, id="a bytearray as the password"),
        pytest.param("x", 5, id="a number as the field"),
        pytest.param("x", True, id="True as the field"),
        pytest.param("x", bytearray(b"x"), id="a bytearray as the field"),
        pytest.param("x", [MD5], id="a list as the field"),
    ],
)
def test_a_wrong_type_is_an_error(password: object, field: object) -> None:
    assert class_raised(mkpasswd.login, password, field=field) is TypeError


# ---- Hashes that cost more


def test_a_hash_that_costs_up_to_the_budget_matches_by_a_policy_that_costs_as_much() -> None:
    """This lets a service move to a method that costs more than half of its budget."""
    stored = crypt("password", "$6$rounds=900000$salt")
    policy = Policy("scrypt", budget=mkpasswd.cost("$7$CU..../....salt", 8) + 5000)
    assert policy.budget is not None and policy.budget < 2 * mkpasswd.cost(stored, 8)
    assert policy.login("password", field=stored) is True
    assert policy.hash("password").startswith("$7$CU")


def test_a_login_succeeds_even_if_a_new_hash_would_cost_too_much() -> None:
    policy, password = Policy(budget=150_000_000), "x" * 83  # one byte too long for a new hash
    assert policy.login(password, field=crypt(password, "$1$salt")) is True
    assert class_raised(policy.hash, password) is mkpasswd.TooCostly


# ---- The work

POLICIES = [
    Policy("md5crypt"),
    Policy("sha256crypt", 2000),
    Policy("sha512crypt", 2000),
    Policy("scrypt", 6),
]
# Fields that can't be checked.
UNCHECKED = [None, "", "!" + SHA512, "$y$j9T$salt$x", "$5$rounds=0$a$x", COSTLY]


@pytest.fixture(name="works")
def fixture_works(monkeypatch: pytest.MonkeyPatch) -> list[Any]:
    """A list to which each login adds its work."""
    works = []
    call = _library.login

    def counted(*arguments: Any) -> Any:
        answer = call(*arguments)
        works.append(answer.report.work)
        return answer

    monkeypatch.setattr(_library, "login", counted)
    return works


@pytest.mark.parametrize("policy", POLICIES, ids=[policy.method for policy in POLICIES])
def test_a_login_does_the_same_work_for_every_name(works: list[Any], policy: Policy) -> None:
    """Tries a wrong password with a hash by the policy and with fields that can't be checked."""
    for field in policy.hash("password"), *UNCHECKED:
        assert not policy.login("passw0rd", field=field)
    counts = {(work.digests, work.mixes, work.table) for work in works}
    assert len(counts) == 1 and works[0].digests > 0
    assert len({work.bytes for work in works[1:]}) == 1


@pytest.mark.parametrize(
    "password",
    [
        pytest.param("x\0", id="a zero byte"),
        pytest.param("\ud800", id="a lone surrogate"),
        pytest.param(TOO_LONG, id="too long"),
        pytest.param(TOO_COSTLY, id="too costly"),
    ],
)
@pytest.mark.parametrize(
    "field",
    [
        pytest.param("$6$rounds=656000$saltsaltsaltsalt$" + "x" * 86, id="a recommended hash"),
        pytest.param(crypt(TOO_COSTLY, "$1$salt"), id="a cheap hash"),
        pytest.param(None, id="no hash"),
        pytest.param("!", id="a lock"),
    ],
)
def test_a_password_that_no_hash_can_have_is_refused_at_once_for_every_name(
    works: list[Any], password: str, field: str | None
) -> None:
    assert not mkpasswd.login(password, field=field)
    assert all(work.digests == 0 for work in works)


# ---- The log


def messages_of(caplog: pytest.LogCaptureFixture) -> list[str]:
    return [record.getMessage() for record in caplog.records]


WRONG_PASSWORD = mkpasswd.Reason.WRONG_PASSWORD.message


@pytest.mark.parametrize(
    ("password", "field", "reason"),
    [
        pytest.param("x", MD5, WRONG_PASSWORD, id="another password"),
        pytest.param("password", None, "no hash", id="no name"),
        pytest.param("password", "", "no hash", id="no hash"),
        pytest.param("password", "!", "locked", id="a lock"),
        pytest.param("password", "*", "locked", id="the other lock"),
        pytest.param("password", "!" + "x" * 400, "locked", id="a long field after a lock"),
        pytest.param("password", "$y$x", "unknown scheme", id="another scheme"),
        pytest.param("password", COSTLY, "over budget", id="a costly hash"),
        pytest.param("password", MD5[:-1], "dead", id="a truncated hash"),
        pytest.param("\0", MD5, "password has a zero byte", id="a zero byte"),
    ],
)
def test_the_log_says_why_a_login_is_refused(
    caplog: pytest.LogCaptureFixture, password: str, field: str | None, reason: str
) -> None:
    caplog.set_level("DEBUG", "mkpasswd")
    assert not Policy(budget=150_000_000).login(password, field=field)
    assert messages_of(caplog) == [f"login refused: {reason}"]


def test_the_log_has_no_line_for_a_login_that_succeeds(caplog: pytest.LogCaptureFixture) -> None:
    caplog.set_level("DEBUG", "mkpasswd")
    assert Policy("md5crypt").login("password", field=MD5)
    assert messages_of(caplog) == []

"""Stored fields: which ones need a new hash, their cost, their description or refusal."""
from __future__ import annotations

from pathlib import Path
from typing import Any

import pytest
from support.package import crypt, error_of, class_raised, package_under_test
from support.process import Word, run
from support.stored_strings import (
    COSTLY,
    DEAD,
    LOCKED,
    MD5,
    REFUSED,
    SCRYPT,
    SHA512,
    StoredField,
    title,
)

with package_under_test():
    from mkpasswd import Description, Policy, Reason, Refused, State, cost, describe, needs_rehash

NO_BUDGET = 2**42  # more than any hash costs


# ---- Empty and locked fields


FORMS = pytest.mark.parametrize("form", [str, str.encode], ids=["str", "bytes"])
EACH_LOCKED = pytest.mark.parametrize("field", LOCKED, ids=title)


@FORMS
@EACH_LOCKED
def test_an_empty_or_locked_field_matches_no_password(field: str, form: Any) -> None:
    assert Policy(rounds=1000).login("password", field=form(field)) is False
    assert Policy(budget=1).login("password", field=form(field)) is False


@FORMS
@EACH_LOCKED
def test_an_empty_or_locked_field_needs_no_new_hash(field: str, form: Any) -> None:
    assert needs_rehash(form(field)) is False


@FORMS
@EACH_LOCKED
def test_an_empty_or_locked_field_is_described(field: str, form: Any) -> None:
    assert describe(form(field)) == Description(State.LOCKED if field else State.NONE)


def test_none_is_described_as_no_hash() -> None:
    assert describe(None) == Description(State.NONE)


@FORMS
@EACH_LOCKED
def test_an_empty_or_locked_field_has_no_cost(field: str, form: Any) -> None:
    assert class_raised(cost, form(field), 8) is Refused


# ---- Refused fields


@pytest.mark.parametrize("field", REFUSED, ids=str)
@pytest.mark.parametrize(
    "call",
    [
        pytest.param(needs_rehash, id="needs_rehash"),
        pytest.param(lambda field: cost(field, 8), id="cost"),
    ],
)
def test_a_refused_field_is_refused_by_its_first_broken_rule(call: Any, field: StoredField) -> None:
    error = error_of(call, field.text)
    assert isinstance(error, Refused) and error.__class__ is Refused
    assert error.reason is Reason[field.reason.name] and str(error) == field.reason.message


@pytest.mark.parametrize("field", REFUSED, ids=str)
def test_a_refused_field_is_described_by_its_first_broken_rule(field: StoredField) -> None:
    expected = Description(State.MALFORMED, reason=Reason[field.reason.name])
    if field.is_of_another_scheme:
        expected = Description(State.UNKNOWN, field.scheme)
    elif not field.text.startswith("$"):
        expected = Description(State.NO_SCHEME)
    assert describe(field.text) == expected


# ---- Hashes that need a new one


@pytest.mark.parametrize(
    ("stored", "policy"),
    [
        pytest.param(MD5, Policy("md5crypt"), id="md5crypt"),
        pytest.param(SHA512, Policy(rounds=5000), id="sha512crypt with the same rounds"),
        pytest.param(SHA512, Policy(rounds=4999), id="sha512crypt with more rounds"),
        pytest.param(SCRYPT, Policy("scrypt"), id="scrypt as recommended"),
        pytest.param(SCRYPT, Policy("scrypt", 7), id="scrypt with the same cost"),
        pytest.param(SCRYPT, Policy("scrypt", 6), id="scrypt with a higher cost"),
    ],
)
def test_a_hash_by_the_policy_needs_no_new_one(stored: str, policy: Policy) -> None:
    assert not policy.needs_rehash(stored)


@pytest.mark.parametrize(
    ("stored", "policy"),
    [
        pytest.param(MD5, Policy("sha256crypt"), id="md5crypt instead of sha256crypt"),
        pytest.param(SHA512, Policy("sha256crypt"), id="sha512crypt instead of sha256crypt"),
        pytest.param(SCRYPT, Policy("sha256crypt"), id="scrypt instead of sha256crypt"),
        pytest.param(SCRYPT, Policy(), id="scrypt instead of the recommended method"),
        pytest.param(MD5, Policy(), id="md5crypt instead of the recommended method"),
        pytest.param(SHA512, Policy(), id="fewer rounds than recommended"),
        pytest.param(SHA512, Policy(rounds=5001), id="fewer rounds"),
        pytest.param(SCRYPT, Policy("scrypt", 8), id="a lower cost of scrypt"),
    ],
)
def test_a_hash_by_another_policy_needs_a_new_one(stored: str, policy: Policy) -> None:
    assert policy.needs_rehash(stored)


# ---- Costs


def test_the_cost_of_scrypt_counts_the_messages_of_rfc_7914() -> None:
    """The messages are in section 6 of the RFC. docs/FORMATS.md adds up their lengths."""
    n, r, salt = 2**14, 32, len("salt")
    digested = 4 * r * (164 + salt) + 164 + 128 * r
    mixed = 2 * n * 128 * r
    assert cost("$7$CU..../....salt", 8) == digested + mixed


@pytest.mark.parametrize(
    ("stored", "length", "expected"),
    [
        pytest.param(MD5, 8, 36239, id="md5crypt"),
        pytest.param("$5$saltstring", 12, 307760, id="sha256crypt"),
    ],
)
def test_a_cost_is_as_documented(stored: str, length: int, expected: int) -> None:
    assert cost(stored, length) == expected


# ---- Descriptions

SETTINGS = pytest.mark.parametrize(
    ("setting", "state"),
    [
        pytest.param("$1$salt", State.CURRENT, id="md5crypt"),
        pytest.param("$5$salt", State.OUTDATED, id="sha256crypt"),
        pytest.param("$6$rounds=656000$saltsaltsaltsalt", State.OUTDATED, id="sha512crypt"),
        pytest.param("$7$BU..../....salt", State.OUTDATED, id="scrypt"),
    ],
)
AUDIT = Policy("md5crypt", budget=NO_BUDGET)


@SETTINGS
def test_a_complete_hash_is_current_or_outdated(setting: str, state: State) -> None:
    assert AUDIT.describe(crypt("password", setting)).state == state


@SETTINGS
def test_a_hash_of_another_form_is_dead(setting: str, state: State) -> None:
    stored = crypt("password", setting)
    whole = AUDIT.describe(stored)
    assert whole.state == state
    longer = [stored + "x", stored + "$", stored + "$x", stored[:-1] + "z"]
    shorter = [stored[:length] for length in range(len(setting), len(stored))]
    for field in longer + shorter:
        found = AUDIT.describe(field)
        assert found == whole._replace(state=State.DEAD), field


@pytest.mark.parametrize(
    ("field", "scheme"),
    [
        pytest.param("$y$j9T$salt$x", "yescrypt", id="yescrypt"),
        pytest.param("$2b$05$abcdefghijklmnopqrstuu", "bcrypt", id="bcrypt"),
        pytest.param("ab0Z8yq2hBQEo", "descrypt", id="descrypt"),
        pytest.param("$argon2id$v=19$m=65536,t=3,p=4$x$x", None, id="none in crypt(5)"),
    ],
)
def test_another_scheme_has_its_name_in_crypt_5(field: str, scheme: str | None) -> None:
    assert describe(field) == Description(State.UNKNOWN, scheme)


@pytest.mark.parametrize(
    ("field", "numbers"),
    [
        pytest.param(MD5, {"rounds": 1000}, id="md5crypt"),
        pytest.param(SHA512, {"rounds": 5000}, id="no rounds given"),
        pytest.param(COSTLY, {"rounds": 2_500_000}, id="rounds given"),
        pytest.param(SCRYPT, {"n": 16384, "r": 32, "p": 1}, id="scrypt"),
    ],
)
def test_a_description_has_the_rounds_or_the_cost_of_scrypt(
    field: str, numbers: dict[str, int]
) -> None:
    """crypt(5) says so: md5crypt has 1,000 rounds, the default is 5,000, and `C` is N = 2^14."""
    found = describe(field)
    none = dict.fromkeys(("rounds", "n", "r", "p"))
    expected = {**none, **numbers}
    assert {name: getattr(found, name) for name in expected} == expected


THREE_ROUNDS = (655_999, 656_000, 656_001)


@pytest.mark.parametrize(
    ("policy", "states"),
    [
        pytest.param(
            Policy(), [State.OUTDATED, State.CURRENT, State.OVER_BUDGET], id="recommended"
        ),
        pytest.param(Policy(rounds=0), [State.OUTDATED, State.CURRENT, State.OVER_BUDGET], id="0"),
        pytest.param(
            Policy(rounds=656_000), [State.OUTDATED, State.CURRENT, State.OVER_BUDGET], id="656000"
        ),
        pytest.param(
            Policy(rounds=656_001, budget=NO_BUDGET),
            [State.OUTDATED, State.OUTDATED, State.CURRENT],
            id="656001 with a budget",
        ),
        pytest.param(
            Policy("scrypt"), [State.OUTDATED, State.OUTDATED, State.OVER_BUDGET], id="scrypt"
        ),
    ],
)
def test_an_audit_compares_with_the_recommended_rounds(policy: Policy, states: list[State]) -> None:
    """By default it compares with 656000 rounds, or 7 for scrypt, and admits their cost."""
    fields = [f"$6$rounds={rounds}$saltsaltsaltsalt${'.' * 86}" for rounds in THREE_ROUNDS]
    assert [policy.describe(field).state for field in fields] == states


# With N = 2^15 even the empty password costs 268463524, above the limit of a login by sha512crypt
# without a budget.
DEAR = f"$7$DU..../....{'a' * 22}${'.' * 43}"


@pytest.mark.parametrize(
    ("policy", "state"),
    [
        pytest.param(Policy(), State.OVER_BUDGET, id="sha512crypt"),
        pytest.param(Policy(budget=NO_BUDGET), State.OUTDATED, id="sha512crypt with a budget"),
        pytest.param(Policy("scrypt"), State.CURRENT, id="scrypt"),
    ],
)
def test_a_costly_hash_is_described_by_the_policys_limit(policy: Policy, state: State) -> None:
    assert policy.describe(DEAR).state == state


DESCRIBED = [*LOCKED, *DEAD, *(field.text for field in REFUSED), MD5, SHA512, SCRYPT, COSTLY]
DESCRIBED.append("$6$rounds=656001$salt$" + "." * 86)
MOST_OF_MD5CRYPT = 1_927_022  # the cost of md5crypt for 1,024 bytes


def findings_of_the_command(program: Path, policy: Policy, fields: list[str]) -> list[str]:
    """Returns what the command's audit prints after each name."""
    lines = "".join(f"ann:{field}\n" for field in fields).encode()
    words: list[Word] = ["--audit", "-m", policy.method, "-R", policy.rounds or 0]
    words += ["--budget", policy.budget or 0]
    result = run(program, *words, stdin=lines)
    assert result.stderr == b"", result
    return [line.removeprefix("ann:") for line in result.stdout.decode().splitlines()]


@pytest.mark.parametrize("form", [str, str.encode], ids=["str", "bytes"])
@pytest.mark.parametrize(
    "budget",
    [
        pytest.param(MOST_OF_MD5CRYPT, id="the most that md5crypt can cost"),
        pytest.param(MOST_OF_MD5CRYPT - 1, id="one less"),
        pytest.param(None, id="the default budget"),
        pytest.param(2**64 - 1, id="the greatest budget"),
    ],
)
@pytest.mark.parametrize(
    ("method", "rounds"),
    [
        ("sha512crypt", 656_000),
        ("sha512crypt", 5000),
        ("md5crypt", 0),
        ("scrypt", 8),
        ("scrypt", 0),
    ],
)
def test_a_description_is_what_the_command_prints(
    program: Path, method: str, rounds: int, budget: int | None, form: Any
) -> None:
    policy = Policy(method, rounds, budget)
    fields = [field for field in DESCRIBED if not set(field) & set(":\n\ud800")]
    expected = findings_of_the_command(program, policy, fields)
    assert [str(policy.describe(form(field))) for field in fields] == expected

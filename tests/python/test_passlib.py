"""The package in passlib: contexts, budgets, and the same work for every name."""
from __future__ import annotations

import importlib
import sqlite3
import warnings
from typing import Any

import pytest
from support.package import (
    Cook,
    crypt,
    class_raised,
    package_under_test,
    recipe,
    whole_login,
)
from support.passwords import LONGEST_BY_DEFAULT, TOO_COSTLY, TOO_LONG
from support.stored_strings import MD5, SHA256, SHA512, title

with package_under_test():
    import mkpasswd

pytestmark = [
    pytest.mark.needs("python3-passlib"),
    pytest.mark.filterwarnings("ignore::DeprecationWarning"),
]

RECOMMENDED = "$6$rounds=656000$"
# A hash that costs more than the budgets of the recipes.
BEYOND = "$6$rounds=20000000$saltstring$" + "x" * 86
# These passwords can't be hashed. passlib itself has a limit of 4,096 characters.
IMPOSSIBLE = [TOO_LONG, "x" * 5000, "x\0", "\ud800"]
IMPOSSIBLE_IDS = ["1025 bytes", "5000 bytes", "a zero byte", "a lone surrogate"]
NAMES = ["md5_crypt", "sha256_crypt", "sha512_crypt"]
NO_BUDGET = 2**42  # more than any hash costs


@pytest.fixture(scope="module", name="ours")
def fixture_ours() -> Any:
    """The package's handlers. Importing them registers them under passlib's names."""
    with warnings.catch_warnings():
        warnings.simplefilter("ignore")
        return importlib.import_module("mkpasswd.passlib")


@pytest.fixture(scope="module", name="context")
def fixture_context(cook: Cook) -> Any:
    """The CryptContext that the recipe in docs/PYTHON.md makes."""
    return cook.follow("passlib")["context"]


def context_of(*handlers: Any, **options: Any) -> Any:
    """Returns a context of passlib."""
    return importlib.import_module("passlib.context").CryptContext(list(handlers), **options)


@pytest.fixture(scope="module", name="stored")
def fixture_stored(context: Any) -> str:
    """A new hash of "pässword"."""
    return str(context.hash("pässword"))


@pytest.fixture(scope="module", name="of_168")
def fixture_of_168(context: Any) -> str:
    """A new hash of the longest password."""
    return str(context.hash(LONGEST_BY_DEFAULT))


# ---- The recipe


@pytest.fixture(name="database")
def fixture_database() -> sqlite3.Connection:
    """The document's table, with a user."""
    users = sqlite3.connect(":memory:")
    users.execute(recipe("the table", "sql"))
    users.execute("INSERT INTO users VALUES ('ann', ?, 'key')", (MD5,))
    users.commit()
    return users


@pytest.fixture(name="service")
def fixture_service(cook: Cook) -> dict[str, Any]:
    """The document's whole login by passlib."""
    code = [whole_login(), recipe("passlib"), recipe("log in with passlib")]
    return cook.run("\n\n".join(code))


def field_of_ann(users: sqlite3.Connection) -> Any:
    """Returns the field of the only user."""
    (field,) = users.execute("SELECT hash FROM users").fetchone()
    return field


def store(users: sqlite3.Connection, field: str) -> None:
    """Stores another field for the only user."""
    users.execute("UPDATE users SET hash = ?", (field,))


def log_in(service: dict[str, Any], users: sqlite3.Connection, name: str, password: str) -> Any:
    """Logs in by the document's code."""
    return service["login"](users, name, password, "203.0.113.7")


def test_a_login_by_passlib_accepts_the_right_password_and_renews_the_hash(
    service: dict[str, Any], database: sqlite3.Connection
) -> None:
    assert log_in(service, database, "ann", "passw0rd") is False
    assert field_of_ann(database) == MD5
    assert log_in(service, database, "ann", "password") is True
    stored = field_of_ann(database)
    assert stored.startswith(RECOMMENDED) and stored == crypt("password", stored)
    assert log_in(service, database, "ann", "password") is True
    assert field_of_ann(database) == stored


@pytest.mark.parametrize(
    "field", ["", "!" + MD5, MD5[:-1], "$2b$05$x", "password", BEYOND], ids=title
)
def test_a_login_by_passlib_refuses_what_is_no_hash_or_too_costly(
    service: dict[str, Any], database: sqlite3.Connection, field: str
) -> None:
    store(database, field)
    assert log_in(service, database, "ann", "password") is False
    assert field_of_ann(database) == field


def test_a_login_by_passlib_refuses_an_unknown_name(
    service: dict[str, Any], database: sqlite3.Connection
) -> None:
    assert log_in(service, database, "nobody", "password") is False


@pytest.mark.parametrize(
    ("change", "expected"),
    [
        pytest.param("!" + MD5, False, id="a lock"),
        pytest.param(crypt("another one", "$1$salt"), False, id="another password"),
        pytest.param(crypt("password", f"{RECOMMENDED}salt"), True, id="the same password"),
    ],
)
def test_a_login_by_passlib_answers_by_what_is_stored_when_it_ends(
    service: dict[str, Any],
    database: sqlite3.Connection,
    change: str,
    expected: bool,
) -> None:
    names = service["login"].__globals__
    check = names["verify_and_update"]

    def check_and_change(password: str, field: str) -> Any:
        names["verify_and_update"] = check
        answer = check(password, field)
        store(database, change)
        return answer

    names["verify_and_update"] = check_and_change
    assert log_in(service, database, "ann", "password") is expected
    assert field_of_ann(database) == change


def test_a_new_hash_is_libxcrypts_with_the_recommended_rounds(stored: str) -> None:
    assert stored.startswith(RECOMMENDED) and stored == crypt("pässword", stored)


def test_only_the_right_password_is_accepted(context: Any, stored: str) -> None:
    assert context.verify("pässword", stored) and not context.verify("passwörd", stored)


def test_a_current_hash_is_kept(context: Any, stored: str) -> None:
    assert context.verify_and_update("pässword", stored) == (True, None)


def test_an_outdated_hash_is_renewed(context: Any) -> None:
    matches, new = context.verify_and_update("password", MD5)
    assert matches and new.startswith(RECOMMENDED) and new == crypt("password", new)


def test_a_wrong_password_renews_nothing(context: Any) -> None:
    assert context.verify_and_update("passw0rd", MD5) == (False, None)


def test_a_hash_above_the_budget_lets_nobody_in(context: Any) -> None:
    assert context.verify("password", BEYOND) is False


def test_168_bytes_are_accepted_and_169_are_not(context: Any, of_168: str) -> None:
    assert context.verify(LONGEST_BY_DEFAULT, of_168) and not context.verify(TOO_COSTLY, of_168)


IMPOSSIBLE_PASSWORDS = [
    pytest.param(word, id=name) for word, name in zip(IMPOSSIBLE, IMPOSSIBLE_IDS)
]
REFUSED = pytest.mark.parametrize(
    "password", [pytest.param(TOO_COSTLY, id="169 bytes"), *IMPOSSIBLE_PASSWORDS]
)


@REFUSED
def test_a_refused_password_does_not_match(context: Any, of_168: str, password: str) -> None:
    assert context.verify(password, of_168) is False
    assert context.verify_and_update(password, of_168) == (False, None)


@pytest.mark.parametrize("password", IMPOSSIBLE_PASSWORDS)
def test_a_password_that_no_hash_can_have_gets_no_hash(context: Any, password: str) -> None:
    with pytest.raises(ValueError):
        context.hash(password)


# ---- Renewals

# A cheaper policy that, like the recommended one, admits up to 168 bytes with its rounds.
ROUNDS = 20_000
BUDGET = mkpasswd.cost(f"$6$rounds={ROUNDS}${'a' * 16}", 168)
LENGTHS = [1, 64, 168, 169, 500, 1024]
# passlib's handlers, with options that make them cheap.
OTHERS = pytest.mark.parametrize(
    ("scheme", "rounds"),
    [
        pytest.param("pbkdf2_sha256", 1000, id="pbkdf2_sha256"),
        pytest.param("bcrypt", 4, id="bcrypt", marks=pytest.mark.needs("python3-bcrypt")),
        pytest.param(
            "bcrypt_sha256", 4, id="bcrypt_sha256", marks=pytest.mark.needs("python3-bcrypt")
        ),
    ],
)


@pytest.fixture(name="like_recommended")
def fixture_like_recommended(ours: Any) -> Any:
    """Our handler of sha512_crypt with that cheaper policy."""
    return ours.sha512_crypt.using(budget=BUDGET, default_rounds=ROUNDS)


@OTHERS
@pytest.mark.parametrize("length", LENGTHS)
def test_every_user_is_accepted_and_gets_a_new_hash(
    like_recommended: Any, scheme: str, rounds: int, length: int
) -> None:
    password, wrong = "x" * length, "y" + "x" * (length - 1)
    other = getattr(importlib.import_module("passlib.hash"), scheme).using(rounds=rounds)
    context = context_of(like_recommended, other, deprecated="auto")
    old = other.hash(password)
    assert context.verify_and_update(wrong, old) == (False, None)
    matches, new = context.verify_and_update(password, old)
    assert matches and new.startswith("$6$rounds=") and crypt(password, new) == new
    assert context.verify_and_update(wrong, new) == (False, None)
    assert context.verify_and_update(password, new) == (True, None)


@pytest.mark.parametrize("name", NAMES)
def test_every_password_of_up_to_1024_bytes_gets_a_hash(ours: Any, name: str) -> None:
    options = {} if name == "md5_crypt" else {"default_rounds": 1000}
    handler = getattr(ours, name).using(**options)
    for length in (0, *LENGTHS, 72, 73, 511, 512, 1023):
        password = b"x" * length
        assert handler.verify(password, handler.hash(password)), length


def test_a_long_password_gets_fewer_rounds(like_recommended: Any) -> None:
    def rounds_of(length: int) -> int:
        return int(like_recommended.from_string(like_recommended.hash("x" * length)).rounds)

    assert rounds_of(168) == ROUNDS > rounds_of(169) > rounds_of(1024) >= 1000


def test_rounds_that_vary_stay_within_the_limit(like_recommended: Any) -> None:
    varied = like_recommended.using(vary_rounds="50%")
    for _ in range(20):
        assert varied.verify(LONGEST_BY_DEFAULT, varied.hash(LONGEST_BY_DEFAULT))


def test_a_hash_with_fewer_rounds_is_outdated_unless_its_password_is_long(
    like_recommended: Any,
) -> None:
    stored = like_recommended.hash("x" * 500)
    assert like_recommended.needs_update(stored)
    assert like_recommended.needs_update(stored, secret="x" * 8)
    assert not like_recommended.needs_update(stored, secret="x" * 500)


def test_a_password_that_no_hash_can_have_is_not_renewed(like_recommended: Any) -> None:
    other = importlib.import_module("passlib.hash").pbkdf2_sha256.using(rounds=1000)
    context = context_of(like_recommended, other, deprecated="auto")
    stored = other.hash(TOO_LONG)
    assert context.verify(TOO_LONG, stored)
    assert class_raised(context.verify_and_update, TOO_LONG, stored) is ValueError


# ---- The same work for every name


@pytest.fixture(name="quick")
def fixture_quick(context: Any) -> Any:
    return context.using(sha512_crypt__rounds=1000)


@pytest.mark.parametrize(
    ("password", "field"),
    [
        pytest.param("passw0rd", None, id="a wrong password"),
        pytest.param("password", BEYOND, id="a hash above the budget"),
        *(pytest.param(word, None, id=name) for word, name in zip(IMPOSSIBLE, IMPOSSIBLE_IDS)),
    ],
)
def test_a_failed_login_costs_what_an_unknown_name_does(
    quick: Any, digests: list[int], password: str, field: str | None
) -> None:
    stored = field or quick.hash("password")
    quick.dummy_verify()  # the first call also makes a hash
    digests.clear()
    quick.dummy_verify()
    unknown = sum(digests)
    digests.clear()
    assert not quick.verify(password, stored)
    assert sum(digests) == unknown > 1000


# ---- Handlers


@pytest.mark.parametrize("name", NAMES)
def test_a_hash_of_a_handler_is_current(ours: Any, name: str) -> None:
    context = context_of(getattr(ours, name))
    stored = context.hash("pässword")
    assert context.verify_and_update("pässword", stored) == (True, None)
    assert stored == crypt("pässword", stored)


@pytest.mark.parametrize("name", NAMES)
def test_a_hash_of_a_handler_is_current_by_the_policy_too(ours: Any, name: str) -> None:
    stored = context_of(getattr(ours, name)).hash("pässword")
    policy = mkpasswd.Policy(name.replace("_", ""))
    assert policy.login("pässword", field=stored) is True and not policy.needs_rehash(stored)


def test_few_rounds_are_renewed(ours: Any) -> None:
    _, new = context_of(ours.sha512_crypt).verify_and_update("Hello world!", SHA512)
    assert new.startswith(RECOMMENDED)


def test_given_rounds_are_the_minimum(ours: Any) -> None:
    few = context_of(ours.sha512_crypt, sha512_crypt__rounds=5000)
    assert few.verify_and_update("Hello world!", SHA512) == (True, None)


def test_a_given_budget_can_admit_the_longest_password(ours: Any) -> None:
    options = {"sha512_crypt__rounds": 5000, "sha512_crypt__budget": 10**9}
    longest = "\U0001f511" * 256
    context = context_of(ours.sha512_crypt, **options)
    assert context.verify(longest, context.hash(longest))


# ---- Contexts that are written and read


@pytest.fixture(name="written")
def fixture_written(context: Any) -> Any:
    return context.using(sha512_crypt__budget=1_000_000_000)


def test_a_context_stays_the_same_when_it_is_written_and_read(written: Any) -> None:
    read = importlib.import_module("passlib.context").CryptContext.from_string(written.to_string())
    assert read.to_string() == written.to_string() and "NOTE" not in written.to_string()
    assert read.handler("sha512_crypt").budget == 1_000_000_000


def test_a_context_that_was_read_applies_the_budget(written: Any) -> None:
    read = importlib.import_module("passlib.context").CryptContext.from_string(written.to_string())
    assert read.verify("password", BEYOND) is False


@pytest.mark.parametrize("name", NAMES)
def test_passlib_finds_a_handler_by_its_name(ours: Any, name: str) -> None:
    registry = importlib.import_module("passlib.registry")
    assert registry.get_crypt_handler(name) is getattr(ours, name)


# ---- Budgets

# The cost of the longest password with the fewest rounds.
LEAST_BUDGETS = {
    "md5_crypt": mkpasswd.cost("$1$saltsalt", 1024),
    "sha256_crypt": mkpasswd.cost("$5$rounds=1000$" + "a" * 16, 1024),
}
HASHES = pytest.mark.parametrize(
    ("name", "stored", "password"),
    [
        pytest.param("md5_crypt", MD5, "password", id="md5_crypt"),
        pytest.param("sha256_crypt", SHA256, "Hello world!", id="sha256_crypt"),
    ],
)


@HASHES
@pytest.mark.parametrize("form", [int, str], ids=["a number", "digits"])
def test_a_hash_within_the_budget_matches(
    ours: Any, name: str, stored: str, password: str, form: Any
) -> None:
    budget = form(LEAST_BUDGETS[name])
    handler = getattr(ours, name)
    limited = handler.using(budget=budget)
    assert limited.verify(password, stored)
    assert limited.using().budget == limited.budget == int(budget)
    context = context_of(handler, **{f"{name}__budget": budget})
    assert context.verify(password, stored) and context.to_dict()[f"{name}__budget"] == budget


def test_a_hash_above_the_budget_does_not_match(ours: Any) -> None:
    handler = ours.sha256_crypt.using(budget=LEAST_BUDGETS["sha256_crypt"])
    stored = crypt("password", "$5$rounds=100000$saltstring")
    assert mkpasswd.cost(stored, 8) > LEAST_BUDGETS["sha256_crypt"]
    assert handler.verify("password", stored) is False


@pytest.mark.parametrize(
    ("budget", "error"),
    [
        pytest.param(-1, ValueError, id="-1"),
        pytest.param(0, ValueError, id="0"),
        pytest.param(1_900_000, ValueError, id="one that long passwords exceed"),
        pytest.param("x", ValueError, id="no digits"),
        pytest.param(1.3e9, TypeError, id="a float"),
        pytest.param(True, TypeError, id="True"),
    ],
)
@pytest.mark.parametrize("name", ["md5_crypt", "sha256_crypt"])
def test_an_invalid_budget_is_refused(
    ours: Any, name: str, budget: object, error: type[Exception]
) -> None:
    with pytest.raises(error):
        getattr(ours, name).using(budget=budget)


@pytest.mark.parametrize("budget", ["1e9", "1.3", ""])
def test_the_error_of_a_budget_in_a_file_names_it(ours: Any, budget: str) -> None:
    with pytest.raises(ValueError, match=r"\Abudget must be a whole number\Z"):
        ours.sha512_crypt.using(budget=budget)


@pytest.mark.parametrize(("name", "stored"), [("md5_crypt", MD5), ("sha256_crypt", SHA256)])
def test_a_handler_has_no_budget_of_its_own(ours: Any, name: str, stored: str) -> None:
    handler = getattr(ours, name)
    assert handler.budget is None and handler.using().budget is None
    assert "budget" not in handler.parsehash(stored)

"""The npm package as its users have it: packed, installed, and used in TypeScript and node.

A user's folder has the installed package and the scripts of tests/npm, which report what they
see. Hashes are compared with libxcrypt's. The programs of its README are in test_npm_page.py.
"""
from __future__ import annotations

import enum
import random
import re
import subprocess
from dataclasses import dataclass
from pathlib import Path
from typing import Any

import pytest
from support import ROOT
from support.costly_hashes import SCRYPT_OF_32_MIB
from support.libxcrypt import crypt
from support.npm_site import Site
from support.process import assert_result, run, started
from support.reports import LONGEST_SECONDS, Report

# One worker of pytest-xdist packs and installs the package.
pytestmark = [pytest.mark.needs("npm"), pytest.mark.xdist_group("npm"), pytest.mark.slow]

SALT_CHARACTERS = "./0123456789ABCDEFGHIJKLMNOPQRSTUVWXYZabcdefghijklmnopqrstuvwxyz"


# ---- The archive


def test_the_archive_has_only_the_package(archive: Path) -> None:
    names = run("tar", "-tzf", archive).required().stdout.decode().split()
    files = ["README.md", "mkpasswd.d.ts", "mkpasswd.mjs", "package.json"]
    assert sorted(names) == [f"package/{name}" for name in files]


@pytest.fixture(scope="module")
def exports(user: Site) -> Report:
    """The names that the installed module exports, and its version."""
    script = """
import * as mkpasswd from 'mkpasswd';
console.log(JSON.stringify({ names: Object.keys(mkpasswd), version: mkpasswd.version }));
"""
    (user.folder / "exports.mjs").write_text(script, encoding="ascii")
    return user.report_of("exports.mjs")


def test_the_module_has_the_version_of_this_tree(exports: Report, version: str) -> None:
    assert exports["version"] == version


def test_the_module_exports_what_its_types_declare(exports: Report, web_build: Path) -> None:
    types = (web_build / "npm/mkpasswd.d.ts").read_text(encoding="utf-8")
    declared = re.findall(r"^export (?:class|const|function) (\w+)", types, re.MULTILINE)
    assert sorted(exports["names"]) == sorted(declared)


@pytest.mark.needs("tsc")
@pytest.mark.parametrize(
    ("resolution", "module"),
    [
        pytest.param("node", "es2020", id="resolved as for bundlers"),
        pytest.param("nodenext", "nodenext", id="resolved as by node"),
    ],
)
def test_typescript_accepts_uses_and_refuses_misuses(
    user: Site, resolution: str, module: str
) -> None:
    options = ("--noEmit", "--strict", "--target", "es2020")
    resolved = ("--module", module, "--moduleResolution", resolution)
    assert_result(run("tsc", *options, *resolved, "uses.ts", "misuses.ts", cwd=user.folder))


# ---- The queue of logins


# Fields that are checked with a wrong password. After them come passwords that can't be hashed.
FIELDS_OF_FAILURES = {
    "a hash": crypt(b"password", b"$6$rounds=5000$saltsaltsaltsalt").decode(),
    "a hash with more rounds": crypt(b"password", b"$6$rounds=20000$saltsaltsaltsalt").decode(),
    "an md5crypt hash": crypt(b"password", b"$1$saltsalt").decode(),
    "an unknown name": None,
    "an empty field": "",
    "a locked account": "!",
    "yescrypt": "$y$x",
    "scrypt": crypt(b"password", b"$7$46..../....SodiumChloride").decode(),
    "a malformed hash": "$5$rounds=$x",
    "a truncated hash": crypt(b"password", b"$6$rounds=5000$saltsaltsaltsalt").decode()[:40],
    "a hostile hash": "$6$rounds=999999999$s$x",
}
IMPOSSIBLE_PASSWORDS = ("x" * 1025, "x\0y", "\ud83d")
# Numbers of queue.mjs. Its clock is set to half a millisecond after the time of failures.
FAILURE_MILLISECONDS = 1000.5
LATE_FAILURES, LATE_FAILURE_MILLISECONDS = 15, 300
FAILURES_THAT_WAIT = 100


@pytest.fixture(scope="module")
def queue(user: Site) -> Report:
    hashed = FIELDS_OF_FAILURES["a hash"]
    wrong = [["passwort", field] for field in FIELDS_OF_FAILURES.values()]
    impossible = [[password, hashed] for password in IMPOSSIBLE_PASSWORDS]
    given = {
        "password": "password",
        "stored": hashed,
        "costly": crypt(b"password", b"$6$rounds=100000$saltsaltsaltsalt").decode(),
        "failures": wrong + impossible,
    }
    return user.report_of("queue.mjs", given=given)


def test_no_failure_is_answered_before_its_time(queue: Report) -> None:
    assert queue["failures"]["early"] == 0


def test_all_kinds_of_failures_are_answered_at_the_same_moment(queue: Report) -> None:
    assert queue["failures"]["count"] == len(FIELDS_OF_FAILURES) + len(IMPOSSIBLE_PASSWORDS)
    assert queue["failures"]["moments"] == [FAILURE_MILLISECONDS]


def test_failure_that_takes_too_long_is_answered_at_a_multiple_of_its_time(queue: Report) -> None:
    assert queue["late"] == {
        "early": 0,
        "count": LATE_FAILURES,
        "moments": [LATE_FAILURE_MILLISECONDS],
    }


def test_login_is_answered_while_failures_wait(queue: Report) -> None:
    """If failures kept their workers while they wait, no worker would be left for this login."""
    assert queue["beside"] == {"result": {"matches": True}, "waiting": FAILURES_THAT_WAIT}


def test_full_queue_is_busy(queue: Report) -> None:
    assert queue["full"]["refused"] == ["Busy: 2 calls are in the queue: try again later"] * 2


def test_waiting_failure_takes_no_place_in_the_queue(queue: Report) -> None:
    assert queue["full"]["later"] == {"matches": True}


@pytest.mark.parametrize(
    ("title", "refusal"),
    [
        ("a number", "a plain object"),
        ("null", "a plain object"),
        ("a list", "a plain object"),
        ("a map", "a plain object"),
        ("another key", "no failuretime"),
        ("a string as time", "failureTime must be an integer"),
        ("a time below 0", "failureTime must be 0 to"),
        ("a size of 0", "size must be 1 to"),
        ("an infinite size", "size must be an integer"),
        ("another object as policy", "policy must be a Policy"),
    ],
)
def test_queue_refuses_invalid_options(queue: Report, title: str, refusal: str) -> None:
    assert refusal in queue["options"][title]


# ---- Policies


@pytest.fixture(scope="module")
def policies(user: Site) -> Report:
    return user.report_of("policies.mjs")


@pytest.mark.parametrize(
    ("title", "method", "rounds"),
    [
        ("nothing", "sha512crypt", 656_000),
        ("an empty object", "sha512crypt", 656_000),
        ("an object without a prototype", "sha512crypt", 5000),
        ("null as rounds", "sha512crypt", 656_000),
        ("scrypt", "scrypt", 7),
        ("the most rounds of scrypt", "scrypt", 11),
    ],
)
def test_policy_is_accepted(policies: Report, title: str, method: str, rounds: int) -> None:
    expected = {"method": method, "rounds": rounds, "budget": None}
    assert policies["policies"][title] == expected


METHODS = "sha512crypt, sha256crypt, scrypt or md5crypt"


@pytest.mark.parametrize(
    ("title", "error"),
    [
        ("a number", "TypeError: a policy is made from a plain object"),
        ("null", "TypeError: a policy is made from a plain object"),
        ("a string", "TypeError: a policy is made from a plain object"),
        ("a list", "TypeError: a policy is made from a plain object"),
        ("a map", "TypeError: a policy is made from a plain object"),
        ("a function", "TypeError: a policy is made from a plain object"),
        ("an object of a class", "TypeError: a policy is made from a plain object"),
        ("a promise", "TypeError: a policy is made from a plain object"),
        ("another key", "TypeError: a policy has method, rounds and budget, but no cost"),
        ("a key in another case", "TypeError: a policy has method, rounds and budget, but no Roun"),
        ("a symbol as key", "TypeError: a policy has method, rounds and budget, but no Symbol"),
        ("a string as rounds", "TypeError: rounds must be an integer, not string"),
        ("half a round", "TypeError: rounds must be an integer, not 5000.5"),
        ("true as rounds", "TypeError: rounds must be an integer, not boolean"),
        ("a bigint as rounds", "TypeError: rounds must be an integer, not bigint"),
        ("too few rounds", "Refused: rounds must be 1000 to 999999999"),
        ("too many rounds of scrypt", "Refused: rounds must be 1000 to 999999999, of scrypt 6 to"),
        ("a number as method", "TypeError: method must be a string, not number"),
        ("null as method", "TypeError: method must be a string, not null"),
        ("another method", f"Refused: method must be {METHODS}"),
        ("a method of all objects", f"Refused: method must be {METHODS}"),
        ("a string as budget", "TypeError: budget must be an integer"),
        ("a budget of 0", "RangeError: budget must be above 0"),
        ("an infinite budget", "TypeError: budget must be an integer"),
    ],
)
def test_policy_is_refused(policies: Report, title: str, error: str) -> None:
    assert str(policies["policies"][title]).startswith(error)


def test_recommended_policy_has_its_limit(policies: Report) -> None:
    assert policies["limit"] == {"bytes": 253_921_472, "passwordLength": 168}


@pytest.mark.parametrize(
    ("title", "problem"),
    [
        ("the empty password", None),
        ("168 bytes", None),
        ("169 bytes", "too long"),
        ("2000 bytes", "too long"),
        ("a zero byte", "zero byte"),
        ("half of an emoji", "lone surrogate"),
        ("a horse", None),
    ],
)
def test_password_problem_is_named(policies: Report, title: str, problem: str | None) -> None:
    """The recommended policy admits 168 bytes."""
    assert policies["problems"][title] == problem


def test_every_password_is_too_long_for_a_policy_that_admits_none(policies: Report) -> None:
    assert policies["ofNoPolicy"] == "too long"


# ---- Unexpected reports of the module


UNKNOWN_ERROR = "9999"
ALL_CALLS = ("hash", "crypt", "setting", "cost", "policy")


@pytest.fixture(scope="module")
def zeros(user: Site) -> Report:
    """The results of calls if the module returns 0 and reports only zeros."""
    return user.report_of("reports.mjs", "0", "0")


@pytest.fixture(scope="module")
def unknown_error(user: Site) -> Report:
    """The results of calls if the module reports an error that mkpasswd.h doesn't have."""
    return user.report_of("reports.mjs", "0", UNKNOWN_ERROR)


@pytest.mark.parametrize("call", ["login", "loginOfUnknownName", "verify"])
def test_report_of_zeros_refuses_every_login(zeros: Report, call: str) -> None:
    assert zeros[call] is False


@pytest.mark.parametrize("call", ["describe", *ALL_CALLS])
def test_report_of_zeros_is_a_failed_call(zeros: Report, call: str) -> None:
    assert zeros[call] == "Error: the call failed without an error"


@pytest.mark.parametrize("call", ["login", "loginOfUnknownName"])
def test_unknown_error_refuses_every_login(unknown_error: Report, call: str) -> None:
    assert unknown_error[call] is False


@pytest.mark.parametrize("call", ["verify", "needsRehash", *ALL_CALLS])
def test_unknown_error_is_a_failed_call(unknown_error: Report, call: str) -> None:
    assert unknown_error[call] == f"Refused: error {UNKNOWN_ERROR}"


def test_field_with_an_unknown_error_is_malformed(unknown_error: Report) -> None:
    assert unknown_error["describe"] == "malformed"


# ---- Logins with a policy of sha512crypt and 5000 rounds


# needsRehash looks only at the setting in a field, so it gives no other errors.
ERRORS_OF_SETTINGS = {
    *("SETTING_TOO_LONG", "BAD_CHARACTER", "UNKNOWN_SCHEME"),
    *("BAD_ROUNDS", "BAD_COST", "ABOVE_CEILING"),
}


class Work(enum.Enum):
    """Which work a login does."""

    OF_THE_FIELD = enum.auto()
    OF_A_NEW_HASH = enum.auto()  # to hide that the field can't be checked
    NONE = enum.auto()


@dataclass(frozen=True)
class Login:
    """A password and a field, and the expected results of the calls."""

    title: str
    password: str
    field: str
    matches: bool = False
    refusal: str | None = None  # the reason of verify's error, without MKPASSWD_ERROR_
    work: Work = Work.OF_THE_FIELD

    @property
    def is_outdated(self) -> bool:
        """Whether a new hash would replace the one in the field."""
        has_another_method = re.match(r"\$[157]\$", self.field) is not None
        return has_another_method or self.field.startswith("$6$rounds=1000$")

    @property
    def result(self) -> dict[str, bool] | bool:
        """The result of login in JSON."""
        return {"matches": True} if self.matches else False

    @property
    def verified(self) -> str | bool:
        """The result of verify, or the reason of its error."""
        return self.matches if self.refusal is None else f"MKPASSWD_ERROR_{self.refusal}"

    @property
    def outdated(self) -> str | bool:
        """The result of needsRehash, or the reason of its error."""
        if self.refusal in ERRORS_OF_SETTINGS:
            return f"MKPASSWD_ERROR_{self.refusal}"
        return self.is_outdated


CURRENT = crypt(b"password", b"$6$rounds=5000$saltsaltsaltsalt").decode()
OLD = crypt(b"password", b"$1$saltsalt").decode()
FEW_ROUNDS = crypt(b"password", b"$6$rounds=1000$saltsaltsaltsalt").decode()
SCRYPT = SCRYPT_OF_32_MIB.decode()
HORSE = "K\u00e4se \U0001f40e"
HASH_OF_HORSE = crypt(HORSE.encode(), b"$6$rounds=5000$saltsaltsaltsalt").decode()


def hidden(title: str, field: str, refusal: str | None = None) -> Login:
    """Returns a login with a field that can't be checked."""
    return Login(title, "password", field, refusal=refusal, work=Work.OF_A_NEW_HASH)


def impossible(title: str, password: str, field: str, refusal: str) -> Login:
    """Returns a login with a password that no hash can have."""
    return Login(title, password, field, refusal=refusal, work=Work.NONE)


LOGINS = [
    Login("the right password", "password", CURRENT, matches=True),
    Login("a wrong password", "passwort", CURRENT),
    Login("an empty password", "", CURRENT),
    Login("the right password of an md5crypt hash", "password", OLD, matches=True),
    Login("a wrong password for an md5crypt hash", "passwort", OLD),
    Login("the right password of a hash with few rounds", "password", FEW_ROUNDS, matches=True),
    Login("a password beyond ASCII", HORSE, HASH_OF_HORSE, matches=True),
    Login("a part of a password beyond ASCII", "K\u00e4se", HASH_OF_HORSE),
    Login("the right password of a scrypt hash", "password", SCRYPT, matches=True),
    Login("a wrong password for a scrypt hash", "passwort", SCRYPT),
    Login("a scrypt hash without its last character", "password", SCRYPT[:-1]),
    Login("the setting of a scrypt hash", "password", SCRYPT.rpartition("$")[0]),
    Login("a hash without its last character", "password", CURRENT[:-1]),
    Login("the beginning of a hash", "password", CURRENT[:40]),
    Login("a hash with one more character", "password", f"{CURRENT}."),
    hidden("an empty field", ""),
    hidden("a locked hash", f"!{CURRENT}"),
    hidden("a locked field", "!"),
    hidden("an asterisk", "*"),
    hidden("a field locked by Solaris", "*LK*"),
    hidden("yescrypt", "$y$x", "UNKNOWN_SCHEME"),
    hidden("bcrypt", "$2b$05$x", "UNKNOWN_SCHEME"),
    hidden("descrypt", "abJnggxhB/yWI", "UNKNOWN_SCHEME"),
    hidden("the password itself", "password", "UNKNOWN_SCHEME"),
    hidden("an emoji in place of the salt", "$6$\U0001f40e$x", "BAD_CHARACTER"),
    hidden("a letter beyond ASCII", "\u00e4", "BAD_CHARACTER"),
    hidden("two lines", "x\ny", "BAD_CHARACTER"),
    hidden("a hash with its line feed", f"{CURRENT}\n", "BAD_CHARACTER"),
    hidden("5000 characters", "$6$" + "x" * 5000, "SETTING_TOO_LONG"),
    hidden("rounds without a number", "$5$rounds=$x", "BAD_ROUNDS"),
    hidden("the most rounds", "$6$rounds=999999999$s$x", "OVER_BUDGET"),
    hidden("scrypt above its ceiling", "$7$M0..../....s", "ABOVE_CEILING"),
    hidden("scrypt without a cost", "$7$x", "BAD_COST"),
    impossible("1025 bytes", "x" * 1025, CURRENT, "PASSWORD_TOO_LONG"),
    impossible("1025 bytes with an empty field", "x" * 1025, "", "PASSWORD_TOO_LONG"),
    impossible("1025 bytes with a locked field", "x" * 1025, "!", "PASSWORD_TOO_LONG"),
    impossible("a zero byte", "x\0y", CURRENT, "PASSWORD_ZERO_BYTE"),
    impossible("a zero byte with an empty field", "x\0y", "", "PASSWORD_ZERO_BYTE"),
    impossible("a zero byte with a locked field", "x\0y", "!", "PASSWORD_ZERO_BYTE"),
]


def random_logins(generator: random.Random) -> list[Login]:
    """Returns logins with random passwords, right and wrong ones."""
    logins = []
    for prefix in ("$5$", "$6$", "$5$rounds=1001$", "$6$rounds=5999$", "$7$46..../....") * 25:
        length = generator.randint(0, 39)
        password = "".join(chr(generator.randint(32, 126)) for _ in range(length))
        salt = "".join(generator.choices(SALT_CHARACTERS, k=generator.randint(1, 16)))
        field = crypt(password.encode(), (prefix + salt).encode()).decode()
        logins.append(Login("right", password, field, matches=True))
        logins.append(Login("wrong", f"{password}.", field))
    return logins


@dataclass(frozen=True)
class LoginReport(Report):
    """The report of logins.mjs about the table and about random logins."""

    random_logins: list[Login]

    def of_login(self, login: Login) -> dict[str, Any]:
        """Returns the report of a login in the table."""
        found: dict[str, Any] = self.value[LOGINS.index(login)]
        return found

    def of_random(self) -> list[tuple[Login, dict[str, Any]]]:
        """Returns the random logins with their reports."""
        reports = self.value[len(LOGINS) :]
        assert len(reports) == len(self.random_logins)
        return list(zip(self.random_logins, reports))


@pytest.fixture(scope="module")
def logins(user: Site, seed: int) -> LoginReport:
    others = random_logins(random.Random(seed))
    given = [[login.password, login.field] for login in [*LOGINS, *others]]
    report = user.report_of("logins.mjs", given=given)
    return LoginReport(report.origin, report.value, others)


each_login = pytest.mark.parametrize("login", LOGINS, ids=[login.title for login in LOGINS])


@each_login
def test_login_returns_the_verdict(logins: LoginReport, login: Login) -> None:
    assert logins.of_login(login)["result"] == login.result


@each_login
def test_login_in_a_worker_returns_the_same(logins: LoginReport, login: Login) -> None:
    assert logins.of_login(login)["alike"] is True


@each_login
def test_verify_returns_whether_the_password_matches(logins: LoginReport, login: Login) -> None:
    assert logins.of_login(login)["verified"] == login.verified


@each_login
def test_needs_rehash_knows_outdated_hashes(logins: LoginReport, login: Login) -> None:
    assert logins.of_login(login)["outdated"] == login.outdated


@each_login
def test_login_leaves_nothing_in_its_memory(logins: LoginReport, login: Login) -> None:
    assert logins.of_login(login)["wiped"] is True


def assert_renewed(login: Login, renewed: str | None) -> None:
    """Fails the test unless a login renews exactly an outdated hash, by the policy."""
    if not (login.matches and login.is_outdated):
        assert renewed is None, login
        return
    assert renewed is not None, login
    assert renewed.startswith("$6$rounds=5000$"), login
    assert renewed == crypt(login.password.encode(), renewed.encode()).decode(), login


@each_login
def test_login_renews_an_outdated_hash(logins: LoginReport, login: Login) -> None:
    assert_renewed(login, logins.of_login(login).get("renewed"))


FIELDS_THAT_MATCH = [login.field for login in LOGINS if login.matches]
FAILED_LOGINS = [login for login in LOGINS if not login.matches]


@pytest.mark.parametrize("login", FAILED_LOGINS, ids=[login.title for login in FAILED_LOGINS])
def test_describe_shows_if_only_the_password_was_wrong(logins: LoginReport, login: Login) -> None:
    is_hash = logins.of_login(login)["state"] in ("current", "outdated")
    assert is_hash == (login.field in FIELDS_THAT_MATCH)


HIDDEN_LOGINS = [login for login in LOGINS if login.work is Work.OF_A_NEW_HASH]
IMPOSSIBLE_LOGINS = [login for login in LOGINS if login.work is Work.NONE]


@pytest.mark.parametrize("login", HIDDEN_LOGINS, ids=[login.title for login in HIDDEN_LOGINS])
def test_field_that_cannot_be_checked_takes_the_work_of_a_new_hash(
    logins: LoginReport, login: Login
) -> None:
    of_a_hash = logins.of_login(LOGINS[0])["digests"]
    assert logins.of_login(login)["digests"] == of_a_hash > 5000


@each_login
def test_password_problem_knows_what_no_hash_can_have(logins: LoginReport, login: Login) -> None:
    is_problem = logins.of_login(login)["problem"] is not None
    assert is_problem == (login.work is Work.NONE)


@pytest.mark.parametrize(
    "login", IMPOSSIBLE_LOGINS, ids=[login.title for login in IMPOSSIBLE_LOGINS]
)
def test_password_that_no_hash_can_have_takes_no_work(logins: LoginReport, login: Login) -> None:
    assert logins.of_login(login)["digests"] == 0


@pytest.mark.parametrize(
    ("call", "expected"),
    [
        pytest.param("result", lambda login: login.result, id="login"),
        pytest.param("alike", lambda _: True, id="login in a worker"),
        pytest.param("verified", lambda login: login.verified, id="verify"),
        pytest.param("outdated", lambda login: login.outdated, id="needsRehash"),
        pytest.param("wiped", lambda _: True, id="the memory"),
    ],
)
def test_random_logins_are_right(logins: LoginReport, seed: int, call: str, expected: Any) -> None:
    wrong = [
        f"expected {expected(login)}, got {report[call]}: {login}"
        for login, report in logins.of_random()
        if report[call] != expected(login)
    ]
    assert wrong == [], f"SEED={seed}"


def test_random_logins_renew_outdated_hashes(logins: LoginReport) -> None:
    for login, report in logins.of_random():
        assert_renewed(login, report.get("renewed"))


def test_describe_recognizes_random_hashes(logins: LoginReport, seed: int) -> None:
    wrong = [
        login
        for login, report in logins.of_random()
        if report["state"] != ("outdated" if login.is_outdated else "current")
    ]
    assert wrong == [], f"SEED={seed}"


# ---- Logins with invalid arguments


@dataclass(frozen=True)
class Mistake:
    """Arguments of a login in JSON, and its result, or the beginning of its error."""

    title: str
    password: Any
    field: Any
    result: bool | str


MISTAKES = [
    Mistake("an unknown name", "password", None, result=False),
    Mistake("a lone surrogate", "\ud83d", CURRENT, result=False),
    Mistake("a number as field", "password", 5, result="TypeError: field must be a string"),
    Mistake("an object as field", "password", {}, result="TypeError: field must be a string"),
    Mistake("null as password", None, CURRENT, result="TypeError: password must be a string"),
    Mistake("a number as password", 5, "", result="TypeError: password must be a string"),
]
each_mistake = pytest.mark.parametrize("row", MISTAKES, ids=[row.title for row in MISTAKES])


@pytest.fixture(scope="module")
def mistakes(user: Site) -> Report:
    given = [[row.password, row.field] for row in MISTAKES]
    return user.report_of("logins.mjs", given=given)


@each_mistake
def test_login_refuses_invalid_arguments(mistakes: Report, row: Mistake) -> None:
    result = mistakes.value[MISTAKES.index(row)]["result"]
    if isinstance(row.result, str):
        assert result.startswith(row.result)
    else:
        assert result is row.result


@each_mistake
def test_login_in_a_worker_refuses_invalid_arguments(mistakes: Report, row: Mistake) -> None:
    assert mistakes.value[MISTAKES.index(row)]["alike"] is True


def test_unknown_name_takes_the_work_of_a_new_hash(logins: LoginReport, mistakes: Report) -> None:
    assert mistakes.value[0]["digests"] == logins.of_login(LOGINS[0])["digests"] > 5000


# ---- The work of logins, counted in the module


UNCHECKED_FIELDS = {
    "an unknown name": None,
    "a locked field": "!",
    "yescrypt": "$y$x",
    "the most rounds": "$6$rounds=999999999$s$x",
}


@pytest.fixture(scope="module")
def steps(user: Site, web_build: Path) -> Report:
    """The number of steps of each login, counted inside the module.

    The first login is with a wrong password, the others with fields that can't be checked. No
    clause keeps a compiler from removing a dummy hash.
    """
    module = user.folder / "logged.wasm"
    options = ("--enable-bulk-memory", "--log-execution")
    run("wasm-opt", *options, web_build / "mkpasswd.wasm", "-o", module).required()
    (user.folder / "logged").mkdir()
    assert_result(run(ROOT / "tools/web", module, user.folder / "logged/mkpasswd.mjs"))
    stored = crypt(b"x", b"$6$rounds=1000$" + b"x" * 16).decode()
    return user.report_of("steps.mjs", given=[stored, *UNCHECKED_FIELDS.values()])


@pytest.mark.needs("wasm-opt")
@pytest.mark.parametrize("what", UNCHECKED_FIELDS)
def test_dummy_hash_is_really_computed(steps: Report, what: str) -> None:
    of_a_wrong_password, *others = steps.value
    assert others[list(UNCHECKED_FIELDS).index(what)] > 0.9 * of_a_wrong_password


# ---- A process in which another library has set properties on all objects


POLLUTING_NAMES = 2  # `matches` and `new`


@pytest.fixture(scope="module")
def polluted(user: Site) -> Report:
    return user.report_of("polluted.mjs")


def test_wrong_password_throws_if_all_objects_match(polluted: Report) -> None:
    """Without the error it would look like a match, since even false has these properties."""
    errors = [message.split(",")[0] for message in polluted["wrong"]]
    calls = 4  # of polluted.mjs with a wrong password
    assert errors == ["Object.prototype has matches or new"] * (POLLUTING_NAMES * calls)


def test_forgotten_await_refuses_every_login_if_all_objects_match(polluted: Report) -> None:
    promises = 2  # of polluted.mjs
    assert polluted["forgotten"] == [None] * (POLLUTING_NAMES * promises)


def test_match_is_unchanged_if_all_objects_match(polluted: Report) -> None:
    calls = 3  # of polluted.mjs with the right password, which read `matches` and then `new`
    assert polluted["right"] == [True] * calls + [None] * calls


def test_policy_and_queue_ignore_properties_of_all_objects(polluted: Report) -> None:
    recommended = {"method": "sha512crypt", "rounds": 656000, "budget": None}
    assert polluted["policies"] == [recommended, recommended, {}]


def test_match_has_no_hash_in_logs(polluted: Report) -> None:
    assert polluted["logged"] == '{"matches":true}'


def test_new_hash_is_not_read_from_a_property_of_all_objects(polluted: Report) -> None:
    assert polluted["renewed"].startswith("$6$rounds=1000$")


# ---- A killed worker


@pytest.fixture(scope="module")
def killed(user: Site) -> Report:
    return user.report_of("killed.mjs")


def test_killed_worker_fails_only_its_own_call(killed: Report) -> None:
    assert killed["failed"] == [True]


def test_other_calls_are_answered_when_a_worker_is_killed(killed: Report) -> None:
    assert killed["matched"] == 3 * killed["cores"] - 1


def test_later_calls_are_answered_after_a_worker_was_killed(killed: Report) -> None:
    assert killed["later"] == [{"matches": True}, False]


def test_there_is_a_worker_for_each_core_and_one_after_the_killed_one(killed: Report) -> None:
    assert killed["workers"] <= killed["cores"] + 1


def test_refusals_are_errors_of_their_calls(killed: Report) -> None:
    assert killed["refused"] == ["MKPASSWD_ERROR_OVER_BUDGET", *["TypeError"] * 3]


# ---- A server


@pytest.fixture(scope="module")
def clients(user: Site) -> Report:
    """The report of the clients of a server."""
    with started(
        user.node,
        "server.mjs",
        cwd=user.folder,
        stdout=subprocess.PIPE,
        timeout=LONGEST_SECONDS,
    ) as server:
        assert server.stdout is not None
        port = server.stdout.readline().strip()
        assert port, "server.mjs doesn't start"
        return user.report_of("clients.mjs", port)


def test_two_hundred_logins_at_once_are_answered(clients: Report) -> None:
    assert clients["right"] is True


def test_health_checks_are_answered_during_logins(clients: Report) -> None:
    assert clients["well"] is True


def test_hashing_does_not_block_the_event_loop(clients: Report) -> None:
    """If logins hashed in the server's thread, it would be busy for most of the time."""
    assert clients["busy"] < 0.7
